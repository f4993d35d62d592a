//! What the port has to answer to a writing, and the bytes that it has to write.
//!
//! The crate says which bytes are written and which pictures it refuses for their count (31) and their size (33). What
//! it does not say is in `expected_writing.rs`.

use crate::asking::Outcome;
use crate::expected_writing::{misfit, outside, records, too_long, too_short};
use crate::picture::Component;
use crate::writing::{write, Step, Writing, WritingRequest};

/// Values of [`Answer::kind`].
pub const WRITTEN: u64 = 0;
pub const REFUSED: u64 = 1;

/// The numbers of one component.
pub(crate) const RECORD: usize = 13;

/// Where in a component its mark stands.
pub(crate) const MARK: usize = 12;

/// Everything that boxes are written from, in the numbers that the port is handed.
#[derive(Clone, Debug, Default, PartialEq, Eq, Hash)]
pub struct Handed {
    /// 13 numbers a component, where the list is long enough.
    pub components: Vec<u32>,
    pub count: u32,
    pub x0: u32,
    pub y0: u32,
    pub x1: u32,
    pub y1: u32,
    /// The crate's number of a colour space.
    pub space: u32,
    /// An ICC profile; empty for none.
    pub profile: Vec<u8>,
    /// The codestream's length without its box header.
    pub codestream: u64,
    /// The length of the destination.
    pub room: usize,
}

/// The port's answer, and what it writes to the front of the destination.
#[derive(Clone, Debug, Default, PartialEq, Eq)]
pub struct Answer {
    pub kind: u64,
    /// Of a refusal: document 01's number.
    pub number: u64,
    /// Of a refusal: index or needed length.
    pub place: u64,
    pub bytes: Vec<u8>,
}

impl Answer {
    /// Kind, number, place and how many bytes are written.
    pub fn numbers(&self) -> [u64; 4] {
        let count = self.bytes.len() as u64;
        [self.kind, self.number, self.place, count]
    }
}

/// What document 01 asks for, by the crate's answer; or why there is none. Order: 31, 29, 32, 33, 34, 30.
pub fn answer(handed: &Handed) -> Result<Answer, String> {
    let crates = ask(handed);
    if crates.outcome == Outcome::Failure && crates.step == Step::Setup {
        return Ok(refused(31, 0));
    }
    if outside(handed) {
        return Ok(refused(29, 0));
    }
    if let Some(index) = misfit(handed) {
        return Ok(refused(32, index));
    }
    if crates.outcome == Outcome::Failure && crates.step == Step::Validation {
        return Ok(refused(33, 0));
    }
    if too_long(handed) {
        return Ok(refused(34, 0));
    }
    if crates.outcome != Outcome::Success {
        let (outcome, step) = (crates.outcome, crates.step);
        return Err(format!("the crate's outcome is {outcome:?} at {step:?}"));
    }
    if too_short(handed, crates.bytes.len()) {
        return Ok(refused(30, crates.bytes.len()));
    }
    Ok(Answer {
        bytes: crates.bytes,
        ..Answer::default()
    })
}

fn refused(number: u64, place: usize) -> Answer {
    Answer {
        kind: REFUSED,
        number,
        place: place as u64,
        bytes: Vec::new(),
    }
}

/// What the crate makes of it, with the profile stored. A profile or a codestream that is too long is not put to it.
fn ask(handed: &Handed) -> Writing {
    let components: Vec<_> = records(handed)
        .iter()
        .filter_map(Component::from_numbers)
        .collect();
    let (profile, codestream) = match too_long(handed) {
        true => (&[][..], 0),
        false => (&handed.profile[..], handed.codestream),
    };
    write(&WritingRequest {
        components: &components,
        x0: handed.x0,
        y0: handed.y0,
        x1: handed.x1,
        y1: handed.y1,
        color_space: handed.space,
        profile,
        store_profile: !profile.is_empty(),
        codestream_length: codestream as u32,
    })
}

/// How many bytes the crate writes; none where it writes nothing.
pub(crate) fn needed(handed: &Handed) -> Option<usize> {
    let crates = ask(handed);
    (crates.outcome == Outcome::Success).then_some(crates.bytes.len())
}
