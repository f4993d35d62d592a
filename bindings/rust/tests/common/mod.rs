//! Small files, made box by box, and small pictures.

#![allow(dead_code)]

use cuzhantir_jp2::Component;

/// Boxes, one after the other.
pub fn join(parts: &[Vec<u8>]) -> Vec<u8> {
    parts.concat()
}

/// LBox, TBox and the content.
pub fn boxed(kind: &[u8; 4], content: &[u8]) -> Vec<u8> {
    let length = u32::try_from(8 + content.len()).expect("a small box");
    [&length.to_be_bytes(), &kind[..], content].concat()
}

/// A box with an extended length that the caller names.
pub fn extended(kind: &[u8; 4], length: u64, content: &[u8]) -> Vec<u8> {
    [&[0, 0, 0, 1], &kind[..], &length.to_be_bytes(), content].concat()
}

pub fn signature() -> Vec<u8> {
    boxed(b"jP  ", &[0x0d, 0x0a, 0x87, 0x0a])
}

pub fn file_type() -> Vec<u8> {
    boxed(b"ftyp", b"jp2 \0\0\0\0jp2 ")
}

pub fn ihdr(h: u32, w: u32, count: u16) -> Vec<u8> {
    let content = [
        &h.to_be_bytes()[..],
        &w.to_be_bytes(),
        &count.to_be_bytes(),
        &[7, 7, 0, 0],
    ]
    .concat();
    boxed(b"ihdr", &content)
}

pub fn colr(enumcs: u32) -> Vec<u8> {
    boxed(b"colr", &[&[1, 0, 0], &enumcs.to_be_bytes()[..]].concat())
}

pub fn codestream() -> Vec<u8> {
    boxed(b"jp2c", &[])
}

/// Widths of the columns, and the bytes of all rows.
pub fn pclr(entries: u16, widths: &[u8], rows: &[u8]) -> Vec<u8> {
    let columns = u8::try_from(widths.len()).expect("columns");
    boxed(
        b"pclr",
        &[&entries.to_be_bytes()[..], &[columns], widths, rows].concat(),
    )
}

/// Mappings: component, type, column.
pub fn cmap(mappings: &[(u16, u8, u8)]) -> Vec<u8> {
    let content: Vec<u8> = mappings
        .iter()
        .flat_map(|&(component, mtyp, column)| {
            let [high, low] = component.to_be_bytes();
            [high, low, mtyp, column]
        })
        .collect();
    boxed(b"cmap", &content)
}

/// Definitions: channel, typ, asoc.
pub fn cdef(definitions: &[(u16, u16, u16)]) -> Vec<u8> {
    let count = u16::try_from(definitions.len()).expect("definitions");
    let fields = definitions.iter().flat_map(|&(c, t, a)| [c, t, a]);
    let content: Vec<u8> = std::iter::once(count)
        .chain(fields)
        .flat_map(u16::to_be_bytes)
        .collect();
    boxed(b"cdef", &content)
}

/// Signature, file type, jp2h with the given boxes, codestream.
pub fn file(children: &[Vec<u8>]) -> Vec<u8> {
    join(&[
        signature(),
        file_type(),
        boxed(b"jp2h", &children.concat()),
        codestream(),
    ])
}

/// One point of 8 bits a component, with the samples one after the other.
pub fn points(count: u32) -> Vec<Component> {
    (0..count)
        .map(|at| Component {
            dx: 1,
            dy: 1,
            w: 1,
            h: 1,
            prec: 8,
            bpp: 8,
            data: Some(at),
            ..Component::default()
        })
        .collect()
}

/// The bytes of a shipped sample.
pub fn sample(name: &str) -> Vec<u8> {
    let path = format!("{}/../../samples/{name}", env!("CARGO_MANIFEST_DIR"));
    std::fs::read(&path).unwrap_or_else(|error| panic!("{path}: {error}"))
}
