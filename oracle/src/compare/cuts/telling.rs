//! What the beginnings of a file have to answer, told by the boxes of the whole file.
//!
//! The boxes are found here from their headers alone, by document 01's words. What the boxes before a box give comes
//! from the crate, which reads the file up to that box. Nothing here is the port's.

use oracle::numbers::{self, index, Numbers, CODESTREAM, COUNT, ENDED, REFUSED};

const JP2C: u32 = 0x6a70_3263;

/// The boxes that are read: jP, ftyp, jp2h, ihdr, bpcc, colr, pclr, cmap and cdef.
const READ: [u32; 9] = [
    0x6a50_2020,
    0x6674_7970,
    0x6a70_3268,
    0x6968_6472,
    0x6270_6363,
    0x636f_6c72,
    0x7063_6c72,
    0x636d_6170,
    0x6364_6566,
];

/// The low 31 bits of the state, which a skipped box sets.
const UNKNOWN: u32 = 0x7fff_ffff;

/// Where a cut goes through a file.
#[derive(Clone, Copy, PartialEq)]
pub enum Where {
    /// Behind the codestream's header.
    Behind,
    /// Before the first byte of a box.
    Between,
    /// In a header, the codestream's too.
    Header,
    /// In the content of a box that is skipped.
    Skipped,
    /// In the content of a box that is read.
    Read(u32),
}

/// A box of the file up to the codestream's.
struct Found {
    kind: u32,
    place: usize,
    /// Where its content starts.
    start: usize,
    end: usize,
    /// What the boxes before it give, with the answer "ended".
    before: Numbers,
}

/// A file that reaches its codestream.
pub struct Telling {
    pub file: Vec<u8>,
    boxes: Vec<Found>,
    whole: Numbers,
}

impl Telling {
    /// None where the crate does not read the file up to its codestream.
    pub fn new(file: Vec<u8>) -> Option<Self> {
        let whole = asked(&file)?;
        if whole[0] != CODESTREAM {
            return None;
        }
        let mut boxes: Vec<Found> = Vec::new();
        while boxes.last().is_none_or(|last| last.kind != JP2C) {
            let place = boxes.last().map_or(0, |last| last.end);
            boxes.push(found(&file, place));
        }
        Some(Telling { file, boxes, whole })
    }

    /// Where the cut after `length` bytes goes, and what these bytes have to answer.
    pub fn answer(&self, length: usize) -> (Where, Numbers) {
        let here = self.boxes.iter().find(|found| found.kind == JP2C || length < found.end);
        let here = here.expect("a file ends at or behind its codestream's header");
        if length == here.place {
            (Where::Between, here.before)
        } else if length < here.start {
            (Where::Header, here.before)
        } else if here.kind == JP2C {
            (Where::Behind, self.whole)
        } else if READ.contains(&here.kind) {
            (Where::Read(here.kind), four_at(here.place))
        } else {
            (Where::Skipped, with_unknown(here.before))
        }
    }

    /// Whether a box up to the codestream's passes a test of its kind, its header's length and its place in the file.
    pub fn has(&self, test: impl Fn(u32, usize, bool) -> bool) -> bool {
        let mut behind = false;
        self.boxes.iter().any(|found| {
            let passes = test(found.kind, found.start - found.place, behind);
            behind |= found.kind == READ[2];
            passes
        })
    }

    pub fn has_extended(&self) -> bool {
        self.has(|_, header, _| header == 16)
    }

    pub fn has_skipped(&self) -> bool {
        self.has(|kind, _, _| kind != JP2C && !READ.contains(&kind))
    }

    /// A box of jp2h outside it, before it or behind.
    pub fn has_outside(&self, wanted: bool) -> bool {
        self.has(|kind, _, behind| READ[3..].contains(&kind) && behind == wanted)
    }
}

/// What document 01 asks for by the crate's answer.
fn asked(file: &[u8]) -> Option<Numbers> {
    numbers::expected(file, &oracle::read(file))
}

fn number(bytes: &[u8]) -> u64 {
    bytes.iter().fold(0, |sum, byte| sum << 8 | u64::from(*byte))
}

/// The box at a place of a file whose boxes are sound up to there.
fn found(file: &[u8], place: usize) -> Found {
    let bytes = &file[place..];
    let (field, kind) = (number(&bytes[..4]), number(&bytes[4..8]) as u32);
    let (header, length) = match field {
        0 => (8, bytes.len() as u64),
        1 => (16, number(&bytes[8..16])),
        _ => (8, field),
    };
    let before = asked(&file[..place]).expect("the crate reads the boxes before one that it read");
    assert_eq!(before[0], ENDED, "boxes are whole up to a box that is read");
    Found {
        kind,
        place,
        start: place + header,
        end: place + length as usize,
        before,
    }
}

fn four_at(place: usize) -> Numbers {
    let mut row = [0; COUNT];
    row[..3].copy_from_slice(&[REFUSED, 4, place as u32]);
    row
}

fn with_unknown(mut row: Numbers) -> Numbers {
    row[index("state")] |= UNKNOWN;
    row
}
