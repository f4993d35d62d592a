//! Contents for the boxes of a file, mostly right for the boxes before.

use super::boxes::{BPCC, CDEF, CMAP, COLR, FTYP, IHDR, JP, PCLR};
use super::contents::{self, row_bytes, MAGIC};
use super::files::Maker;

/// Brands and compatible entries.
const BRANDS: [u32; 3] = [0x6a70_3220, 0x6a70_7820, 0];

/// Colour spaces; 14 is CIELab.
const SPACES: [u32; 8] = [16, 17, 18, 14, 14, 12, 0, 15];

/// Width bytes of palettes, around each change in the number of bytes.
const WIDTHS: [u8; 16] = [
    0, 6, 7, 8, 15, 16, 23, 24, 31, 32, 37, 127, 0x87, 0x88, 0xa5, 255,
];

impl Maker<'_> {
    pub(super) fn jp(&mut self) -> Vec<u8> {
        let mut content = MAGIC.to_vec();
        if self.wrong_content(JP) {
            match self.random.below(3) {
                0 => content.truncate(self.random.below(4)),
                1 => content.push(self.random.byte()),
                _ => content[self.random.below(4)] ^= 1,
            }
        }
        content
    }

    pub(super) fn ftyp(&mut self) -> Vec<u8> {
        let brand = self.random.pick(&BRANDS);
        let compatible: Vec<_> = (0..self.random.below(4))
            .map(|_| self.random.number())
            .collect();
        let mut content = contents::ftyp(brand, self.random.number(), &compatible);
        if self.wrong_content(FTYP) {
            let length = match self.random.below(2) {
                0 => self.random.below(8),
                _ => content.len() + 1 + self.random.below(3),
            };
            content.resize(length, 0);
        }
        content
    }

    pub(super) fn ihdr(&mut self) -> Vec<u8> {
        let (mut height, mut width) = (self.side(), self.side());
        let mut count = self.count();
        if self.wrong_content(IHDR) {
            match self.random.below(6) {
                0 => height = 0,
                1 => width = 0,
                2 => count = 0,
                3 => (height, count) = (0, 16385),
                _ => count = self.random.pick(&[16385, 16386, 32768, 65535]),
            }
        }
        let rest = self.small_fields();
        let mut content = contents::ihdr(height, width, count, rest);
        // A further ihdr may be of any length.
        if self.wrong_content(IHDR) || self.known.components != 0 && self.random.one_in(3) {
            let length = self.random.pick(&[0, 1, 12, 13, 15, 16]);
            content.resize(length, 0);
        }
        if self.known.components == 0 && count <= 16384 {
            self.known.components = count.into();
        }
        content
    }

    fn side(&mut self) -> u32 {
        self.random.number().max(1)
    }

    fn count(&mut self) -> u16 {
        // Few are large: a bpcc has as many bytes.
        match self.random.below(500) {
            0 => self.random.pick(&[16383, 16384]),
            1..=8 => self.random.pick(&[255, 256, 257]),
            _ => self.random.pick(&[1, 1, 2, 3, 3, 4, 5]),
        }
    }

    /// BPC, C, UnkC and IPR.
    fn small_fields(&mut self) -> [u8; 4] {
        let any = self.random.byte();
        [
            self.random.pick(&[7, 7, 255, 0x87, any]),
            self.random.pick(&[7, 7, 7, any]),
            self.random.pick(&[0, 1, any]),
            self.random.pick(&[0, 1, any]),
        ]
    }

    /// Before `ihdr` only an empty one is right.
    pub(super) fn bpcc(&mut self) -> Vec<u8> {
        let mut many = self.known.components;
        if self.wrong_content(BPCC) {
            many = match self.random.below(3) {
                0 => many + 1,
                1 => many.saturating_sub(1),
                _ => self.random.below(5),
            };
        }
        self.random.bytes(many)
    }

    pub(super) fn colr(&mut self) -> Vec<u8> {
        let any = self.random.byte();
        let method = self.random.pick(&[1, 1, 1, 1, 2, 2, 0, 3, 4, 255, any]);
        let mut content = vec![method, self.random.byte(), self.random.byte()];
        let many = match method {
            1 => self.enumerated(&mut content),
            2 if self.random.one_in(40) => 300,
            2 => self.random.pick(&[0, 1, 2, 3, 16, 40]),
            _ => self.random.pick(&[0, 0, 1, 4, 8]),
        };
        content.extend(self.random.bytes(many));
        if self.wrong_content(COLR) {
            content.truncate(self.random.below(7));
        }
        content
    }

    /// Adds the colour space, and answers how many bytes come after it.
    fn enumerated(&mut self, content: &mut Vec<u8>) -> usize {
        let any = self.random.number();
        let space = if self.random.one_in(8) {
            any
        } else {
            self.random.pick(&SPACES)
        };
        content.extend(space.to_be_bytes());
        if space == 14 {
            self.random.pick(&[28, 28, 28, 0, 0, 1, 4, 27, 29, 56])
        } else {
            self.random.pick(&[0, 0, 0, 1, 4, 28])
        }
    }

    pub(super) fn pclr(&mut self) -> Vec<u8> {
        let mut columns = self.columns();
        let widths: Vec<_> = (0..columns).map(|_| self.width()).collect();
        let mut entries = self.entries(columns);
        let many = row_bytes(&widths) * usize::from(entries);
        let rows = self.random.bytes(many);
        let wrong = self.wrong_content(PCLR);
        if wrong {
            match self.random.below(8) {
                0 => entries = 0,
                1 => entries = self.random.pick(&[1025, 1026, 65535]),
                2 => columns = 0,
                3 => columns = columns.saturating_add(1),
                4 => entries += 1,
                _ => {}
            }
        }
        let mut content = contents::pclr(entries, columns, &widths, &rows);
        if wrong && self.random.one_in(2) {
            content.truncate(self.random.below(content.len()));
        } else if self.random.one_in(6) {
            content.push(self.random.byte());
        }
        if self.known.columns == 0 {
            self.known.columns = columns.into();
        }
        content
    }

    fn columns(&mut self) -> u8 {
        if self.random.one_in(40) {
            return 1 + self.random.below(255) as u8;
        }
        self.random.pick(&[1, 1, 2, 3, 3, 4])
    }

    fn width(&mut self) -> u8 {
        if self.random.one_in(3) {
            return self.random.byte();
        }
        self.random.pick(&WIDTHS)
    }

    /// Many only for one column, to keep the file small.
    fn entries(&mut self, columns: u8) -> u16 {
        if columns == 1 && self.random.one_in(40) {
            return self.random.pick(&[255, 256, 1023, 1024]);
        }
        1 + self.random.below(4) as u16
    }

    pub(super) fn cmap(&mut self) -> Vec<u8> {
        let columns = match self.known.columns {
            0 => 1 + self.random.below(3),
            columns => columns,
        };
        let mappings: Vec<_> = (0..columns).map(|column| self.mapping(column)).collect();
        let mut content = contents::cmap(&mappings);
        self.shorten_or_spare(CMAP, &mut content);
        self.known.mapped = true;
        content
    }

    fn mapping(&mut self, column: usize) -> (u16, u8, u8) {
        let any = self.random.byte();
        let component = self.random.pick(&[0, 0, 0, 1, 2, 65535]);
        let kind = self.random.pick(&[0, 1, 1, 1, 2, any]);
        let column = self.random.pick(&[column as u8, column as u8, 0, any]);
        (component, kind, column)
    }

    pub(super) fn cdef(&mut self) -> Vec<u8> {
        let many = if self.random.one_in(60) {
            self.random.pick(&[42, 43, 300])
        } else {
            1 + self.random.below(4)
        };
        let definitions: Vec<_> = (0..many).map(|_| self.definition()).collect();
        let count = if self.wrong_content(CDEF) {
            self.random.pick(&[0, 0, many + 1, 65535])
        } else {
            many
        };
        let mut content = contents::cdef(count as u16, &definitions);
        self.shorten_or_spare(CDEF, &mut content);
        self.known.defined = true;
        content
    }

    fn definition(&mut self) -> [u16; 3] {
        let any = self.random.number() as u16;
        [
            self.random.pick(&[0, 1, 2, 3, any]),
            self.random.pick(&[0, 0, 1, 2, 65535, any]),
            self.random.pick(&[0, 1, 2, 3, 65535, any]),
        ]
    }

    /// Takes bytes from the end, or adds some that no one asks for.
    fn shorten_or_spare(&mut self, kind: u32, content: &mut Vec<u8>) {
        if self.wrong_content(kind) {
            content.truncate(self.random.below(content.len()));
        } else if self.random.one_in(5) {
            let many = 1 + self.random.below(6);
            content.extend(self.random.bytes(many));
        }
    }
}
