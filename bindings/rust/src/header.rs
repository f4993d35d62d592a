//! Reading a file, and what its boxes say.

use crate::lists::{self, Compatible, Definitions, Depths, Mappings, Palette};
use crate::{raw, Refused, READING_LENGTH};

/// Where the numbers of a reading stand, by the names of `include/cuzhantir_jp2.h`; tests/names.rs compares them.
mod at {
    pub const KIND: usize = 0;
    pub const VALUE: usize = 1;
    pub const H: usize = 3;
    pub const W: usize = 4;
    pub const NUMCOMPS: usize = 5;
    pub const BPC: usize = 6;
    pub const C: usize = 7;
    pub const UNKC: usize = 8;
    pub const IPR: usize = 9;
    pub const METH: usize = 10;
    pub const PRECEDENCE: usize = 11;
    pub const APPROX: usize = 12;
    pub const ENUMCS: usize = 13;
    pub const LAB_0: usize = 14;
    pub const LAB_COUNT: usize = 23;
    pub const HELD: usize = 24;
    pub const BRAND: usize = 25;
    pub const MINVERSION: usize = 26;
    pub const CL_PLACE: usize = 27;
    pub const BPCC_PLACE: usize = 29;
    pub const ICC_PLACE: usize = 31;
    pub const PCLR_PLACE: usize = 33;
    pub const PCLR_COLUMNS: usize = 35;
    pub const CMAP_PLACE: usize = 36;
    pub const CDEF_PLACE: usize = 38;
    pub const STATE: usize = 40;
    pub const IMGSTATE: usize = 41;
    pub const HASJP2H: usize = 42;
    pub const HASIHDR: usize = 43;
}

/// Reads the boxes of a file up to its codestream, which is not looked at.
///
/// # Errors
///
/// The numbers 1 to 24, with the offset of the box at fault. A file that ends before a codestream is no refusal:
/// [`Header::codestream`] is then `None`.
///
/// A file that was broken off, of which the whole reaches its codestream, gives the header of the whole once the header
/// of the codestream's box is there. Before that it is read to the end of its last whole box, or refused with
/// [`Cause::ContentPastFile`](crate::Cause::ContentPastFile) at the box that is cut; and with no other number.
///
/// ```
/// use cuzhantir_jp2::{read, Cause};
///
/// assert_eq!(read(&[])?.codestream(), None);
/// let refused = read(b"\0\0\0\x08free").unwrap_err();
/// assert_eq!((refused.cause, refused.place), (Cause::BoxBeforeSignature, 0));
/// # Ok::<(), cuzhantir_jp2::Refused>(())
/// ```
pub fn read(file: &[u8]) -> Result<Header<'_>, Refused> {
    raw::read(file).map(|numbers| Header { file, numbers })
}

/// What the boxes of a file say. Its lists stay in the file, which it borrows.
#[derive(Clone, Debug, PartialEq, Eq)]
pub struct Header<'f> {
    file: &'f [u8],
    numbers: [u64; READING_LENGTH],
}

/// Bits of a sample, and whether it has a sign.
#[derive(Clone, Copy, Debug, PartialEq, Eq, Hash)]
pub struct Depth {
    /// 1 to 128; Annex I has 38 at most.
    pub bits: u8,
    /// Whether there is a sign.
    pub signed: bool,
}

impl Depth {
    /// As a byte of `ihdr`, `bpcc` and `pclr` says it: bits less 1, and the sign as the top bit.
    pub fn from_byte(byte: u8) -> Depth {
        Depth {
            bits: byte % 128 + 1,
            signed: byte >= 128,
        }
    }
}

/// The image header box, `ihdr`.
#[derive(Clone, Copy, Debug, PartialEq, Eq, Hash)]
pub struct ImageHeader {
    /// Height.
    pub h: u32,
    /// Width.
    pub w: u32,
    /// How many components there are, 1 to 16384.
    pub numcomps: u16,
    /// The depth of all components as a byte; 255 where they differ.
    pub bpc: u8,
    /// Compression; 7 by Annex I.
    pub c: u8,
    /// Whether the colour space is unknown.
    pub unkc: u8,
    /// Whether there is a box on rights.
    pub ipr: u8,
}

impl ImageHeader {
    /// The depth of all components; none where they differ, and [`Header::depths`] gives each.
    pub fn depth(&self) -> Option<Depth> {
        (self.bpc != 255).then(|| Depth::from_byte(self.bpc))
    }
}

/// The parameters of CIELab, as the crate openjp2 keeps them.
#[derive(Clone, Copy, Debug, PartialEq, Eq, Hash)]
pub struct CieLab {
    numbers: [u32; 9],
    count: usize,
}

impl CieLab {
    /// The numbers that count: 8 where the file gives none, else 9. With 28 bytes of parameters in the file they are 14, 0,
    /// RL, OL, RA, OA, RB, OB, IL.
    pub fn numbers(&self) -> &[u32] {
        self.numbers.get(..self.count).unwrap_or(&self.numbers)
    }
}

/// How a colour is told.
#[derive(Clone, Copy, Debug, PartialEq, Eq, Hash)]
pub enum Method<'f> {
    /// No colour is held: there is no `colr`, or none of method 1 or 2.
    NotHeld,
    /// Method 1: EnumCS, such as 16 for sRGB, 17 for grey and 18 for sYCC.
    Enumerated(u32),
    /// Method 1 with EnumCS 14.
    CieLab(CieLab),
    /// Method 2: the bytes of an ICC profile, as they stand in the file.
    Profile(&'f [u8]),
}

/// The colour specification box, `colr`.
#[derive(Clone, Copy, Debug, PartialEq, Eq, Hash)]
pub struct Colour<'f> {
    /// The method as a number: of the colour that is held, else of the last `colr`; 0 where there is none.
    pub meth: u8,
    /// Precedence, likewise.
    pub precedence: u8,
    /// Approximation, likewise.
    pub approx: u8,
    /// The colour.
    pub method: Method<'f>,
}

/// The file type box, `ftyp`, without its list.
#[derive(Clone, Copy, Debug, PartialEq, Eq, Hash)]
pub struct FileType {
    /// 0x6a703220 (`jp2 `) by Annex I.
    pub brand: u32,
    /// The version.
    pub minversion: u32,
}

/// Which boxes came.
#[derive(Clone, Copy, Debug, PartialEq, Eq, Hash)]
pub struct Status {
    /// Signature 1, file type 2, header 4, codestream 8; all 31 low bits after a box that was skipped.
    pub state: u32,
    /// In `jp2h`: all 31 low bits after a box that was skipped.
    pub imgstate: u32,
    /// Whether a `jp2h` was read.
    pub has_jp2h: bool,
    /// Whether an `ihdr` was read.
    pub has_ihdr: bool,
}

impl<'f> Header<'f> {
    /// The file that was read.
    pub fn file(&self) -> &'f [u8] {
        self.file
    }

    /// The 44 numbers of the reading, in the order of `include/cuzhantir_jp2.h`.
    pub fn numbers(&self) -> &[u64; READING_LENGTH] {
        &self.numbers
    }

    /// Where the codestream starts, after the header of its box; none where the file ended before one.
    pub fn codestream(&self) -> Option<usize> {
        (self.numbers[at::KIND] == 0)
            .then(|| usize::try_from(self.numbers[at::VALUE]).ok())
            .flatten()
    }

    /// The image header; none where no `ihdr` was read.
    pub fn image(&self) -> Option<ImageHeader> {
        (self.numbers[at::NUMCOMPS] != 0).then(|| ImageHeader {
            h: self.word(at::H),
            w: self.word(at::W),
            // the library gives 16384 at most
            numcomps: self.word(at::NUMCOMPS) as u16,
            bpc: self.byte(at::BPC),
            c: self.byte(at::C),
            unkc: self.byte(at::UNKC),
            ipr: self.byte(at::IPR),
        })
    }

    /// The colour.
    pub fn colour(&self) -> Colour<'f> {
        Colour {
            meth: self.byte(at::METH),
            precedence: self.byte(at::PRECEDENCE),
            approx: self.byte(at::APPROX),
            method: self.method(),
        }
    }

    fn method(&self) -> Method<'f> {
        match (self.numbers[at::HELD], self.numbers[at::METH]) {
            (0, _) => Method::NotHeld,
            (_, 1) if self.numbers[at::LAB_COUNT] != 0 => Method::CieLab(self.lab()),
            (_, 1) => Method::Enumerated(self.word(at::ENUMCS)),
            _ => {
                let (place, count) = self.span(at::ICC_PLACE);
                Method::Profile(lists::part(self.file, place, count).unwrap_or(&[]))
            }
        }
    }

    fn lab(&self) -> CieLab {
        CieLab {
            numbers: std::array::from_fn(|i| self.word(at::LAB_0 + i)),
            count: usize::try_from(self.numbers[at::LAB_COUNT])
                .unwrap_or(9)
                .min(9),
        }
    }

    /// The file type; all 0 where no `ftyp` was read.
    pub fn file_type(&self) -> FileType {
        FileType {
            brand: self.word(at::BRAND),
            minversion: self.word(at::MINVERSION),
        }
    }

    /// The compatibility list of the file type.
    pub fn compatible(&self) -> Compatible<'f> {
        let (place, count) = self.span(at::CL_PLACE);
        Compatible::new(self.file, place, count)
    }

    /// The depths of a `bpcc`, one a component; none where there is no such box.
    pub fn depths(&self) -> Depths<'f> {
        let (place, count) = self.span(at::BPCC_PLACE);
        Depths::new(self.file, place, count)
    }

    /// The palette of a `pclr`.
    pub fn palette(&self) -> Option<Palette<'f>> {
        let (place, entries) = self.span(at::PCLR_PLACE);
        Palette::new(self.file, place, entries, self.numbers[at::PCLR_COLUMNS])
    }

    /// The mappings of a `cmap`, one a channel; none where there is no such box.
    pub fn mappings(&self) -> Mappings<'f> {
        let (place, count) = self.span(at::CMAP_PLACE);
        Mappings::new(self.file, place, count)
    }

    /// The definitions of a `cdef`; none where there is no such box.
    pub fn definitions(&self) -> Definitions<'f> {
        let (place, count) = self.span(at::CDEF_PLACE);
        Definitions::new(self.file, place, count)
    }

    /// Which boxes came.
    pub fn status(&self) -> Status {
        Status {
            state: self.word(at::STATE),
            imgstate: self.word(at::IMGSTATE),
            has_jp2h: self.numbers[at::HASJP2H] != 0,
            has_ihdr: self.numbers[at::HASIHDR] != 0,
        }
    }

    // All fields but places and counts have 32 bits or fewer in the library, so nothing is cut off here.

    fn word(&self, at: usize) -> u32 {
        self.numbers[at] as u32
    }

    fn byte(&self, at: usize) -> u8 {
        self.numbers[at] as u8
    }

    /// A place, and the number after it.
    fn span(&self, at: usize) -> (u64, u64) {
        (self.numbers[at], self.numbers[at + 1])
    }
}

#[cfg(test)]
mod tests {
    use super::*;

    /// Goes over all that a header can be asked.
    fn ask_everything(header: &Header<'_>) -> usize {
        let palette = header.palette();
        let entries: usize = palette
            .iter()
            .flat_map(Palette::rows)
            .map(Iterator::count)
            .sum();
        let lab = match header.colour().method {
            Method::CieLab(lab) => lab.numbers().len(),
            Method::Profile(bytes) => bytes.len(),
            Method::NotHeld | Method::Enumerated(_) => 0,
        };
        let asked = header.image().and_then(|i| i.depth()).is_some();
        let known = header.codestream().is_some() || header.status().has_jp2h || asked;
        header.file_type();
        entries
            + lab
            + header.compatible().count()
            + header.depths().count()
            + header.mappings().count()
            + header.definitions().count()
            + usize::from(known)
    }

    /// Whatever the numbers of a reading are, nothing panics and no list goes past the file.
    #[test]
    fn no_number_makes_a_list_panic() {
        let file: Vec<u8> = (0..=255).collect();
        let chosen = [
            0,
            1,
            2,
            7,
            14,
            100,
            255,
            256,
            257,
            1 << 32,
            u64::MAX - 1,
            u64::MAX,
        ];
        let mut seed: u64 = 1;
        let mut asked = 0;
        for _ in 0..20_000 {
            let numbers = std::array::from_fn(|_| {
                seed = seed
                    .wrapping_mul(6364136223846793005)
                    .wrapping_add(1442695040888963407);
                chosen[(seed >> 33) as usize % chosen.len()]
            });
            let header = Header {
                file: &file,
                numbers,
            };
            let all = ask_everything(&header);
            assert!(all <= 9 + 6 * file.len(), "{all} elements of {numbers:?}");
            asked += all;
        }
        assert!(asked > 0);
    }

    #[test]
    fn a_depth_byte_has_bits_and_a_sign() {
        let told = |byte| {
            let Depth { bits, signed } = Depth::from_byte(byte);
            (bits, signed)
        };
        assert_eq!(told(0), (1, false));
        assert_eq!(told(7), (8, false));
        assert_eq!(told(127), (128, false));
        assert_eq!(told(128), (1, true));
        assert_eq!(told(0x8b), (12, true));
    }
}
