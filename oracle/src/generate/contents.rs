//! The contents of boxes.

/// What `jP` holds.
pub const MAGIC: [u8; 4] = [0x0d, 0x0a, 0x87, 0x0a];

pub(super) fn ftyp(brand: u32, minversion: u32, compatible: &[u32]) -> Vec<u8> {
    let numbers = [brand, minversion].into_iter();
    let numbers = numbers.chain(compatible.iter().copied());
    numbers.flat_map(u32::to_be_bytes).collect()
}

/// `rest` is BPC, C, UnkC and IPR.
pub(super) fn ihdr(height: u32, width: u32, count: u16, rest: [u8; 4]) -> Vec<u8> {
    let mut content = Vec::with_capacity(14);
    content.extend(height.to_be_bytes());
    content.extend(width.to_be_bytes());
    content.extend(count.to_be_bytes());
    content.extend(rest);
    content
}

/// `fields` are METH, PREC and APPROX.
pub(super) fn colr(fields: [u8; 3], rest: &[u8]) -> Vec<u8> {
    [&fields[..], rest].concat()
}

/// Method 1 with an enumerated colour space, and bytes behind it.
pub(super) fn enumerated(space: u32, rest: &[u8]) -> Vec<u8> {
    colr([1, 0, 0], &[&space.to_be_bytes()[..], rest].concat())
}

pub(super) fn pclr(entries: u16, columns: u8, widths: &[u8], rows: &[u8]) -> Vec<u8> {
    [&entries.to_be_bytes()[..], &[columns], widths, rows].concat()
}

/// The bytes of one row of a palette with these width bytes.
pub(super) fn row_bytes(widths: &[u8]) -> usize {
    let bytes = |width: &u8| (usize::from(width & 0x7f) + 8) / 8;
    widths.iter().map(|width| bytes(width).min(4)).sum()
}

pub(super) fn cmap(mappings: &[(u16, u8, u8)]) -> Vec<u8> {
    let mut content = Vec::with_capacity(4 * mappings.len());
    for (component, kind, column) in mappings {
        content.extend(component.to_be_bytes());
        content.extend([*kind, *column]);
    }
    content
}

pub(super) fn cdef(count: u16, definitions: &[[u16; 3]]) -> Vec<u8> {
    let numbers = definitions.iter().flatten();
    let numbers = [count].into_iter().chain(numbers.copied());
    numbers.flat_map(u16::to_be_bytes).collect()
}
