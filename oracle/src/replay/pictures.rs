//! The list of pictures: which go into it, and how it is written. Behind it is a second one, of edition 2.

use crate::outcomes;
use oracle::finished::{answer, Answer, FINISHED};
use oracle::generate::{
    definition_lists, definition_orders, mapping_lists, palette_edges, palette_widths,
    picture_edges, Pictures,
};
use oracle::{edition2, FinishingRequest, NO_DATA};
use std::collections::{BTreeMap, HashSet};

/// Of the long tables one picture of this many is taken, each number without a divisor in common with the table's own.
const OF_WIDTHS: usize = 3;
const OF_EDGES: usize = 5;
const OF_MAPPINGS: usize = 1201;
const OF_DEFINITIONS: [(usize, usize); 4] = [(1, 307), (2, 1549), (3, 6277), (4, 19421)];

/// Of the pictures that edition 2 answers otherwise one of this many is taken.
const OF_EDITION_2: usize = 7;

/// So many generated pictures are looked through for the choice.
const LOOKED_THROUGH: u64 = 100_000;

/// A generated picture takes no more bytes in the list.
const MOST_BYTES: usize = 420;

/// So many generated pictures of each outcome are taken: of a number of reading, of one of finishing, and of what a
/// finished picture can have.
const QUOTAS: [usize; 3] = [8, 32, 9];

/// The pictures of a list with their answers, none twice.
#[derive(Default)]
pub struct PictureChoice {
    cases: Vec<Case>,
    /// Of these one in [`OF_EDITION_2`] that edition 2 answers otherwise, with its answer.
    second: Vec<Case>,
    seen: HashSet<FinishingRequest>,
    /// How many generated pictures of each outcome were taken.
    taken: BTreeMap<Outcome, usize>,
}

/// A picture and its answer.
type Case = (FinishingRequest, Answer);

/// The number of a refusal, 0 for a finished picture, and what the latter has.
type Outcome = (u64, [bool; 5]);

impl PictureChoice {
    pub fn new(seed: u64) -> Result<Self, String> {
        let mut choice = PictureChoice::default();
        choice.take_all(definition_orders())?;
        choice.take_all(palette_widths().step_by(2))?;
        choice.take_all(palette_widths().skip(1).step_by(2 * OF_WIDTHS))?;
        choice.take_all(palette_edges().into_iter())?;
        choice.take_all(picture_edges().into_iter().step_by(OF_EDGES))?;
        choice.take_all(mapping_lists().step_by(OF_MAPPINGS))?;
        choice.take_finished(mapping_lists())?;
        for (channels, stride) in OF_DEFINITIONS {
            choice.take_all(definition_lists(channels).step_by(stride))?;
        }
        let pictures = Pictures::new(seed);
        for number in 0..LOOKED_THROUGH {
            choice.take_wanted(pictures.picture(number))?;
        }
        choice.take_second()?;
        Ok(choice)
    }

    fn take_second(&mut self) -> Result<(), String> {
        let mut differing = Vec::new();
        for (picture, first) in &self.cases {
            let second = edition2::answer(picture, first)?.answer;
            if second != *first {
                differing.push((picture.clone(), second));
            }
        }
        self.second = differing.into_iter().step_by(OF_EDITION_2).collect();
        Ok(())
    }

    fn take_all(&mut self, pictures: impl Iterator<Item = FinishingRequest>) -> Result<(), String> {
        for picture in pictures {
            let answer = answer(&picture)?;
            self.take(picture, answer);
        }
        Ok(())
    }

    fn take_finished(
        &mut self,
        pictures: impl Iterator<Item = FinishingRequest>,
    ) -> Result<(), String> {
        for picture in pictures {
            let answer = answer(&picture)?;
            if answer.kind == FINISHED {
                self.take(picture, answer);
            }
        }
        Ok(())
    }

    fn take(&mut self, picture: FinishingRequest, answer: Answer) -> bool {
        let new = self.seen.insert(picture.clone());
        if new {
            self.cases.push((picture, answer));
        }
        new
    }

    /// Takes a generated picture if it is small and there are not enough of its outcome.
    fn take_wanted(&mut self, picture: FinishingRequest) -> Result<(), String> {
        if picture.file.len() + 4 * picture.components.len() > MOST_BYTES {
            return Ok(());
        }
        let answer = answer(&picture)?;
        let outcome = outcome(&picture, &answer);
        let taken = self.taken.get(&outcome).copied().unwrap_or_default();
        let enough = taken >= quota(answer.number);
        let small = case(&picture, &answer).len() <= MOST_BYTES;
        if small && !enough && self.take(picture, answer) {
            *self.taken.entry(outcome).or_default() += 1;
        }
        Ok(())
    }

    /// The list of edition 1, then that of edition 2.
    pub fn bytes(&self) -> Vec<u8> {
        [list(&self.cases), list(&self.second)].concat()
    }

    /// How many pictures of each outcome there are, and how many of these are of the seed.
    pub fn print(&self) {
        outcomes::print(
            self.cases.iter().map(|(_, answer)| answer.number),
            self.taken.iter().map(|(outcome, taken)| (outcome.0, *taken)),
            "finished",
            "pictures",
        );
        println!("in edition 2:");
        let numbers = self.second.iter().map(|(_, answer)| answer.number);
        outcomes::print(numbers, std::iter::empty(), "finished", "pictures");
    }
}

/// The number of cases, then the cases.
fn list(cases: &[Case]) -> Vec<u8> {
    let mut bytes = (cases.len() as u32).to_be_bytes().to_vec();
    for (picture, answer) in cases {
        bytes.extend(case(picture, answer));
    }
    bytes
}

fn quota(number: u64) -> usize {
    match number {
        0 => QUOTAS[2],
        1..=24 => QUOTAS[0],
        _ => QUOTAS[1],
    }
}

fn outcome(picture: &FinishingRequest, answer: &Answer) -> Outcome {
    if answer.kind != FINISHED {
        return (answer.number, [false; 5]);
    }
    let record = oracle::read(&picture.file).record;
    let palette = record.jp2_pclr.as_ref();
    let mut records = answer.records.chunks(13);
    let counted = [
        picture.ignore != 0,
        palette.is_some(),
        palette.is_some_and(|palette| !palette.cmap.is_empty()),
        record.jp2_cdef.is_some(),
        records.any(|record| record[11] == NO_DATA),
    ];
    (0, counted)
}

/// One picture with its answer, as it stands in the list.
fn case(picture: &FinishingRequest, answer: &Answer) -> Vec<u8> {
    let mut case = Bytes::default();
    case.number(picture.file.len() as u32);
    case.0.extend(&picture.file);
    case.number(picture.ignore);
    case.number(picture.count);
    case.number(picture.components.len() as u32);
    case.numbers(picture.components.iter().copied());
    case.number(picture.samples.len() as u32);
    case.numbers(picture.samples.iter().map(|sample| *sample as u32));
    case.number(picture.records_room as u32);
    case.number(picture.samples_room as u32);
    case.number(answer.kind as u32);
    case.number(answer.number as u32);
    case.number((answer.place >> 32) as u32);
    case.number(answer.place as u32);
    case.number(answer.count as u32);
    case.numbers(answer.records.iter().copied());
    case.number(answer.samples.len() as u32);
    case.numbers(answer.samples.iter().map(|sample| *sample as u32));
    case.0
}

/// The bytes of a case so far.
#[derive(Default)]
struct Bytes(Vec<u8>);

impl Bytes {
    /// Four bytes, the highest first.
    fn number(&mut self, number: u32) {
        self.0.extend(number.to_be_bytes());
    }

    fn numbers(&mut self, numbers: impl Iterator<Item = u32>) {
        numbers.for_each(|number| self.number(number));
    }
}
