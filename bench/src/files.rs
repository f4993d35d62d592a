//! The files that are read.

use oracle::generate::{plain, FREE, FTYP, IHDR, JP, JP2C, JP2H, MAGIC};

const BPCC: u32 = 0x6270_6363;
const COLR: u32 = 0x636f_6c72;
const PCLR: u32 = 0x7063_6c72;
const CMAP: u32 = 0x636d_6170;
const CDEF: u32 = 0x6364_6566;

/// A file with these boxes in `jp2h`, and an empty codestream.
pub fn file(children: &[Vec<u8>]) -> Vec<u8> {
    file_around(&[], children, &[])
}

/// A file with these boxes before `jp2h`, in it and after it, and an empty codestream.
pub fn file_around(before: &[Vec<u8>], children: &[Vec<u8>], after: &[Vec<u8>]) -> Vec<u8> {
    [
        plain(JP, &MAGIC),
        plain(FTYP, b"jp2 \0\0\0\0jp2 "),
        before.concat(),
        plain(JP2H, &children.concat()),
        after.concat(),
        plain(JP2C, &[]),
    ]
    .concat()
}

/// A box that is skipped wherever it stands.
pub fn free() -> Vec<u8> {
    plain(FREE, &[])
}

/// A further `ihdr`, which is left unread whatever it holds.
pub fn further_ihdr() -> Vec<u8> {
    plain(IHDR, &[])
}

/// A further `colr`, the shortest that is no fault; it is left unread.
pub fn further_colr() -> Vec<u8> {
    plain(COLR, &[0; 3])
}

pub fn ihdr(width: u32, height: u32, count: u16) -> Vec<u8> {
    let mut content = [height.to_be_bytes(), width.to_be_bytes()].concat();
    content.extend(count.to_be_bytes());
    content.extend([7, 7, 0, 0]);
    plain(IHDR, &content)
}

/// Enumerated sRGB.
pub fn colr() -> Vec<u8> {
    plain(COLR, &[1, 0, 0, 0, 0, 0, 16])
}

pub fn bpcc(count: usize) -> Vec<u8> {
    plain(BPCC, &vec![7; count])
}

/// 256 entries and as many columns of 8 bits, four at most.
pub fn pclr(columns: u8) -> Vec<u8> {
    let columns_of = |entry: u8| [entry, entry ^ 0x55, 255 - entry, entry ^ 0xaa];
    let entries = (0..=255).flat_map(|entry| columns_of(entry).into_iter().take(columns.into()));
    let widths = [7; 4].into_iter().take(columns.into());
    let content = [1, 0, columns].into_iter().chain(widths).chain(entries);
    plain(PCLR, &content.collect::<Vec<_>>())
}

/// One entry, and as many columns of 8 bits.
pub fn pclr_of_one(columns: u8) -> Vec<u8> {
    let widths = vec![7; columns.into()];
    let entries = (0..columns).collect();
    plain(PCLR, &[vec![0, 1, columns], widths, entries].concat())
}

/// A mapping, as a file has it.
pub type Mapping = [u8; 4];

/// Component 0, looked up in this column.
pub fn looked_up(column: u8) -> Mapping {
    [0, 0, 1, column]
}

/// This component, as it is.
pub fn direct(component: u8) -> Mapping {
    [0, component, 0, 0]
}

pub fn cmap(mappings: &[Mapping]) -> Vec<u8> {
    plain(CMAP, &mappings.concat())
}

/// Definitions of channel, typ and asoc.
pub fn cdef(definitions: &[[u16; 3]]) -> Vec<u8> {
    let count = definitions.len() as u16;
    let numbers = [count]
        .into_iter()
        .chain(definitions.iter().flatten().copied());
    plain(
        CDEF,
        &numbers.flat_map(u16::to_be_bytes).collect::<Vec<_>>(),
    )
}

/// The last channel is the first colour.
pub fn reversed(channels: u16) -> Vec<[u16; 3]> {
    let definition = |channel| [channel, 0, channels - channel];
    (0..channels).map(definition).collect()
}

/// Channel 0 is an opacity and stands first, the others are the colours in their order.
pub fn opacity_first(channels: u16) -> Vec<[u16; 3]> {
    let colours = (1..channels).map(|channel| [channel, 0, channel]);
    [[0, 1, 0]].into_iter().chain(colours).collect()
}
