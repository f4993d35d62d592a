//! The lists that stay in the file. A list is cut to what lies in the file before anything is read from it, so no number
//! of a record can make these panic.

use crate::Depth;
use std::iter::Take;
use std::slice::{ChunksExact, Iter};

/// The elements of a list with a place and a count, of elements of so many bytes; those that lie in the file.
fn elements(file: &[u8], place: u64, count: u64, bytes: usize) -> Take<ChunksExact<'_, u8>> {
    from(file, place)
        .chunks_exact(bytes.max(1))
        .take(usize::try_from(count).unwrap_or(usize::MAX))
}

/// The file from a place on; nothing where it ends before.
fn from(file: &[u8], place: u64) -> &[u8] {
    usize::try_from(place)
        .ok()
        .and_then(|place| file.get(place..))
        .unwrap_or(&[])
}

/// A part of the file; none where it does not lie in it.
pub(crate) fn part(file: &[u8], place: u64, count: u64) -> Option<&[u8]> {
    from(file, place).get(..usize::try_from(count).ok()?)
}

/// A big-endian number of a list's bytes.
fn number(bytes: &[u8]) -> u32 {
    bytes
        .iter()
        .fold(0, |above, &byte| above << 8 | u32::from(byte))
}

/// A big-endian number of two bytes; a byte that is not there counts as 0, which no caller here meets.
fn two(bytes: &[u8], at: usize) -> u16 {
    let byte = |at: usize| u16::from(bytes.get(at).copied().unwrap_or(0));
    byte(at) << 8 | byte(at + 1)
}

/// Makes an iterator over the elements of a list.
macro_rules! list {
    ($(#[$doc:meta])* $name:ident of $item:ty, $bytes:literal bytes, $read:expr) => {
        $(#[$doc])*
        #[derive(Clone, Debug)]
        pub struct $name<'f>(Take<ChunksExact<'f, u8>>);

        impl<'f> $name<'f> {
            pub(crate) fn new(file: &'f [u8], place: u64, count: u64) -> Self {
                Self(elements(file, place, count, $bytes))
            }
        }

        impl Iterator for $name<'_> {
            type Item = $item;

            fn next(&mut self) -> Option<$item> {
                self.0.next().map($read)
            }

            fn size_hint(&self) -> (usize, Option<usize>) {
                self.0.size_hint()
            }
        }

        impl ExactSizeIterator for $name<'_> {}
    };
}

list! {
    /// The compatibility list of the file type box.
    Compatible of u32, 4 bytes, number
}

list! {
    /// The depths that a bpcc box gives, one a component.
    Depths of Depth, 1 bytes, |bytes| Depth::from_byte(bytes.first().copied().unwrap_or(0))
}

list! {
    /// The mappings of a cmap box, one a channel.
    Mappings of Mapping, 4 bytes, Mapping::from_bytes
}

list! {
    /// The definitions of a cdef box.
    Definitions of Definition, 6 bytes, Definition::from_bytes
}

/// What a mapping makes of its component.
#[derive(Clone, Copy, Debug, PartialEq, Eq, Hash)]
pub enum MappingType {
    /// 0: direct use.
    Direct,
    /// 1: a column of the palette.
    Palette,
    /// Any other number, which finishing refuses.
    Other(u8),
}

/// A mapping as it stands in the file. Finishing takes all for palette mappings, each to its own column, where there is one
/// component and one of the mappings after the first is direct.
#[derive(Clone, Copy, Debug, PartialEq, Eq, Hash)]
pub struct Mapping {
    /// The component.
    pub component: u16,
    /// What is made of it.
    pub mtyp: MappingType,
    /// The palette's column.
    pub column: u8,
}

impl Mapping {
    fn from_bytes(bytes: &[u8]) -> Mapping {
        let [mtyp, column] = two(bytes, 2).to_be_bytes();
        Mapping {
            component: two(bytes, 0),
            mtyp: match mtyp {
                0 => MappingType::Direct,
                1 => MappingType::Palette,
                other => MappingType::Other(other),
            },
            column,
        }
    }
}

/// What a channel is.
#[derive(Clone, Copy, Debug, PartialEq, Eq, Hash)]
pub enum Typ {
    /// 0: a colour.
    Colour,
    /// 1: opacity.
    Opacity,
    /// 2: opacity that was multiplied into the colours.
    Premultiplied,
    /// 65535: not told.
    Unspecified,
    /// Any other number.
    Other(u16),
}

impl Typ {
    /// What a number means.
    pub fn from_number(number: u16) -> Typ {
        match number {
            0 => Typ::Colour,
            1 => Typ::Opacity,
            2 => Typ::Premultiplied,
            65535 => Typ::Unspecified,
            other => Typ::Other(other),
        }
    }
}

/// What a channel goes with.
#[derive(Clone, Copy, Debug, PartialEq, Eq, Hash)]
pub enum Asoc {
    /// 0: the whole picture.
    Whole,
    /// 1 to 65534: the colour of this number, such as 1 for red.
    Colour(u16),
    /// 65535: nothing.
    Unassociated,
}

impl Asoc {
    /// What a number means.
    pub fn from_number(number: u16) -> Asoc {
        match number {
            0 => Asoc::Whole,
            65535 => Asoc::Unassociated,
            colour => Asoc::Colour(colour),
        }
    }
}

/// A definition as it stands in the file.
#[derive(Clone, Copy, Debug, PartialEq, Eq, Hash)]
pub struct Definition {
    /// The channel, from 0.
    pub channel: u16,
    /// What it is.
    pub typ: Typ,
    /// What it goes with.
    pub asoc: Asoc,
}

impl Definition {
    fn from_bytes(bytes: &[u8]) -> Definition {
        Definition {
            channel: two(bytes, 0),
            typ: Typ::from_number(two(bytes, 2)),
            asoc: Asoc::from_number(two(bytes, 4)),
        }
    }
}

/// A palette: rows of entries, one a column.
#[derive(Clone, Copy, Debug, PartialEq, Eq)]
pub struct Palette<'f> {
    widths: &'f [u8],
    entries: &'f [u8],
    row: usize,
}

/// How many bytes an entry has: as many as its bits fill, 4 at most.
fn entry_bytes(width: u8) -> usize {
    usize::from(Depth::from_byte(width).bits).div_ceil(8).min(4)
}

impl<'f> Palette<'f> {
    /// A palette whose columns' widths stand at a place; none without columns, or where it does not lie in the file.
    pub(crate) fn new(file: &'f [u8], place: u64, entries: u64, columns: u64) -> Option<Self> {
        let widths = part(file, place, columns).filter(|widths| !widths.is_empty())?;
        let row: usize = widths.iter().map(|&width| entry_bytes(width)).sum();
        let all = entries.checked_mul(u64::try_from(row).ok()?)?;
        Some(Palette {
            widths,
            entries: part(file, place.checked_add(columns)?, all)?,
            row,
        })
    }

    /// How many rows it has.
    pub fn rows_count(&self) -> usize {
        self.entries.len() / self.row.max(1)
    }

    /// How many columns it has.
    pub fn columns_count(&self) -> usize {
        self.widths.len()
    }

    /// The depths of its columns.
    pub fn depths(&self) -> impl ExactSizeIterator<Item = Depth> + 'f {
        self.widths.iter().map(|&width| Depth::from_byte(width))
    }

    /// Its rows.
    pub fn rows(&self) -> Rows<'f> {
        Rows {
            widths: self.widths,
            rows: self.entries.chunks_exact(self.row.max(1)),
        }
    }

    /// An entry as it is stored, without its sign.
    pub fn entry(&self, row: usize, column: usize) -> Option<u32> {
        self.rows().nth(row)?.nth(column)
    }
}

/// The rows of a palette.
#[derive(Clone, Debug)]
pub struct Rows<'f> {
    widths: &'f [u8],
    rows: ChunksExact<'f, u8>,
}

impl<'f> Iterator for Rows<'f> {
    type Item = Row<'f>;

    fn next(&mut self) -> Option<Row<'f>> {
        self.rows.next().map(|bytes| Row {
            widths: self.widths.iter(),
            bytes,
        })
    }

    fn nth(&mut self, n: usize) -> Option<Row<'f>> {
        self.rows.nth(n).map(|bytes| Row {
            widths: self.widths.iter(),
            bytes,
        })
    }

    fn size_hint(&self) -> (usize, Option<usize>) {
        self.rows.size_hint()
    }
}

impl ExactSizeIterator for Rows<'_> {}

/// The entries of a row, one a column, as they are stored.
#[derive(Clone, Debug)]
pub struct Row<'f> {
    widths: Iter<'f, u8>,
    bytes: &'f [u8],
}

impl Iterator for Row<'_> {
    type Item = u32;

    fn next(&mut self) -> Option<u32> {
        let width = self.widths.next()?;
        let (entry, rest) = self.bytes.split_at_checked(entry_bytes(*width))?;
        self.bytes = rest;
        Some(number(entry))
    }
}

#[cfg(test)]
mod tests {
    use super::*;

    #[test]
    fn a_list_is_cut_to_the_file() {
        let file = [0, 1, 0, 2, 0, 3, 0, 4];
        let compatible = |place, count| Compatible::new(&file, place, count).collect::<Vec<_>>();
        assert_eq!(compatible(0, 2), [0x10002, 0x30004]);
        assert_eq!(compatible(0, 3), [0x10002, 0x30004]);
        assert_eq!(compatible(4, u64::MAX), [0x30004]);
        assert_eq!(compatible(5, 1), []);
        assert_eq!(compatible(8, 1), []);
        assert_eq!(compatible(9, 1), []);
        assert_eq!(compatible(u64::MAX, u64::MAX), []);
        assert_eq!(Compatible::new(&file, 0, 2).len(), 2);
    }

    #[test]
    fn a_definition_and_a_mapping_are_read() {
        let file = [0, 2, 0, 1, 0, 0, 255, 255, 255, 255, 255, 255];
        let definitions: Vec<_> = Definitions::new(&file, 0, 2).collect();
        assert_eq!(
            definitions[0],
            Definition {
                channel: 2,
                typ: Typ::Opacity,
                asoc: Asoc::Whole
            }
        );
        assert_eq!(
            definitions[1],
            Definition {
                channel: 65535,
                typ: Typ::Unspecified,
                asoc: Asoc::Unassociated
            }
        );
        let mapping = Mappings::new(&[1, 2, 1, 4], 0, 1).next();
        assert_eq!(
            mapping,
            Some(Mapping {
                component: 258,
                mtyp: MappingType::Palette,
                column: 4
            })
        );
    }

    #[test]
    fn entries_have_1_to_4_bytes() {
        // document 01: width byte 0x07 is 1 byte, 0x08 is 2, 0x25 is 4
        let bytes = [0x07, 0x08, 0x10, 0x25, 0x7f, 0xff].map(entry_bytes);
        assert_eq!(bytes, [1, 2, 3, 4, 4, 4]);
    }

    #[test]
    fn a_palette_that_lies_outside_is_none() {
        let file = [7, 15, 1, 2, 3, 4, 5, 6];
        let palette = Palette::new(&file, 0, 2, 2).unwrap();
        let rows: Vec<Vec<u32>> = palette.rows().map(Iterator::collect).collect();
        assert_eq!(rows, [[1, 0x203], [4, 0x506]]);
        assert_eq!(palette.entry(1, 1), Some(0x506));
        assert_eq!(palette.entry(1, 2), None);
        assert_eq!(palette.entry(2, 0), None);
        assert_eq!((palette.rows_count(), palette.columns_count()), (2, 2));
        assert_eq!(Palette::new(&file, 0, 3, 2), None);
        assert_eq!(Palette::new(&file, 0, 2, 0), None);
        assert_eq!(Palette::new(&file, 7, 0, 2), None);
        assert_eq!(Palette::new(&file, u64::MAX, u64::MAX, u64::MAX), None);
        assert_eq!(Palette::new(&file, 0, u64::MAX, 1), None);
    }
}
