//! The list of writings: which go into it, and how it is written.

use crate::outcomes;
use oracle::generate::{
    corners, depths, large_writings, mark_patterns, writing_edges, wrong_together, Writings,
};
use oracle::written::{answer, Answer, Handed, WRITTEN};
use std::collections::{BTreeMap, HashSet};

/// The list may be no longer.
pub const MOST_BYTES: usize = 1_000_000;

/// Of the long tables one writing of this many is taken, each number without a divisor in common with the table's own.
const OF_MARKS: usize = 31;
const OF_DEPTHS: usize = 13;
const OF_CORNERS: usize = 11;
const OF_EDGES: usize = 5;
const OF_WRONG: usize = 19;
const OF_LARGE: usize = 6;

/// A list of components is no longer, and a destination, so that they fit into the lists of the program that replays.
const MOST_OF_A_LIST: usize = 4096;

/// So many generated writings are looked through for the choice.
const LOOKED_THROUGH: u64 = 100_000;

/// A generated writing takes no more bytes in the list.
const MOST_OF_A_CASE: usize = 800;

/// So many generated writings are taken of each number, and of what a written file can have.
const QUOTAS: [usize; 2] = [60, 70];

/// The writings of a list with their answers, none twice.
#[derive(Default)]
pub struct WritingChoice {
    cases: Vec<(Handed, Answer)>,
    seen: HashSet<Handed>,
    /// How many generated writings of each outcome were taken.
    taken: BTreeMap<Outcome, usize>,
}

/// The number of a refusal, 0 for a written file, and what the latter has: a profile, a bpcc, a cdef.
type Outcome = (u64, [bool; 3]);

impl WritingChoice {
    pub fn new(seed: u64) -> Result<Self, String> {
        let mut choice = WritingChoice::default();
        choice.take_all(mark_patterns().step_by(OF_MARKS))?;
        choice.take_all(depths().step_by(OF_DEPTHS))?;
        choice.take_all(corners().step_by(OF_CORNERS))?;
        choice.take_all(writing_edges().step_by(OF_EDGES))?;
        choice.take_all(wrong_together().step_by(OF_WRONG))?;
        choice.take_all(large_writings().filter(fits).step_by(OF_LARGE))?;
        let writings = Writings::new(seed);
        for number in 0..LOOKED_THROUGH {
            choice.take_wanted(writings.writing(number))?;
        }
        Ok(choice)
    }

    fn take_all(&mut self, writings: impl Iterator<Item = Handed>) -> Result<(), String> {
        for handed in writings.filter(fits) {
            let answer = answer(&handed)?;
            self.take(handed, answer);
        }
        Ok(())
    }

    fn take(&mut self, handed: Handed, answer: Answer) -> bool {
        let new = self.seen.insert(handed.clone());
        if new {
            self.cases.push((handed, answer));
        }
        new
    }

    /// Takes a generated writing if it is small and there are not enough of its outcome.
    fn take_wanted(&mut self, handed: Handed) -> Result<(), String> {
        if !fits(&handed) || 4 * handed.components.len() > MOST_OF_A_CASE {
            return Ok(());
        }
        let answer = answer(&handed)?;
        let outcome = outcome(&handed, &answer);
        let taken = self.taken.get(&outcome).copied().unwrap_or_default();
        let quota = QUOTAS[usize::from(answer.kind == WRITTEN)];
        let small = case(&handed, &answer).len() <= MOST_OF_A_CASE;
        if small && taken < quota && self.take(handed, answer) {
            *self.taken.entry(outcome).or_default() += 1;
        }
        Ok(())
    }

    /// The number of cases, then the cases.
    pub fn bytes(&self) -> Vec<u8> {
        let mut bytes = (self.cases.len() as u32).to_be_bytes().to_vec();
        for (handed, answer) in &self.cases {
            bytes.extend(case(handed, answer));
        }
        bytes
    }

    /// How many writings of each outcome there are, and how many of these are of the seed.
    pub fn print(&self) {
        outcomes::print(
            self.cases.iter().map(|(_, answer)| answer.number),
            self.taken.iter().map(|(outcome, taken)| (outcome.0, *taken)),
            "written",
            "writings",
        );
    }
}

fn fits(handed: &Handed) -> bool {
    handed.components.len() <= MOST_OF_A_LIST
        && handed.room < MOST_OF_A_LIST
        && handed.profile.len() < MOST_OF_A_LIST
}

fn outcome(handed: &Handed, answer: &Answer) -> Outcome {
    if answer.kind != WRITTEN {
        return (answer.number, [false; 3]);
    }
    let record = oracle::read(&answer.bytes).record;
    let profile = !handed.profile.is_empty();
    (0, [profile, record.bpc == 255, record.jp2_cdef.is_some()])
}

/// One writing with its answer, as it stands in the list: 15 numbers, then the components, the profile and the bytes.
fn case(handed: &Handed, answer: &Answer) -> Vec<u8> {
    let [kind, number, place, count] = answer.numbers();
    let numbers = [
        handed.components.len() as u64,
        handed.count.into(),
        handed.x0.into(),
        handed.y0.into(),
        handed.x1.into(),
        handed.y1.into(),
        handed.space.into(),
        handed.profile.len() as u64,
        handed.codestream >> 32,
        handed.codestream & 0xffff_ffff,
        handed.room as u64,
        kind,
        number,
        place,
        count,
    ];
    let components = handed.components.iter().copied();
    let numbers = numbers.into_iter().map(|number| number as u32);
    let mut case: Vec<_> = numbers
        .chain(components)
        .flat_map(u32::to_be_bytes)
        .collect();
    case.extend(&handed.profile);
    case.extend(&answer.bytes);
    case
}
