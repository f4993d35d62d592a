//! One list of definitions in all its orders, finished by the port.

use crate::ours::{self, Finished};
use oracle::generate::{defined, Definition, LISTED_CHANNELS};
use oracle::{DATA, MARK, RECORD};

/// The numbers of an answer, and where in it the number of a refusal stands.
const ANSWER: usize = 4;
const NUMBER: usize = 1;

/// What two orders of the same definitions came to, in words.
pub type Pair = [String; 2];

pub struct Orders<'a> {
    lists: &'a [Vec<Definition>],
    pub finished: Vec<Finished>,
}

impl<'a> Orders<'a> {
    pub fn new(lists: &'a [Vec<Definition>], edition2: u32) -> Self {
        let finish = |list: &Vec<Definition>| {
            let picture = defined(LISTED_CHANNELS.into(), list);
            ours::finish(&picture, edition2, ANSWER)
        };
        Orders {
            lists,
            finished: lists.iter().map(finish).collect(),
        }
    }

    /// The first order, and one that is not like it in what is asked about.
    pub fn unlike(&self, alike: fn(&Finished, &Finished) -> bool) -> Option<Pair> {
        let first = self.finished.first()?;
        let other = self
            .finished
            .iter()
            .position(|other| !alike(first, other))?;
        Some([0, other].map(|index| self.words(index)))
    }

    fn words(&self, index: usize) -> String {
        let definition = |[channel, typ, asoc]: &Definition| format!("({channel},{typ},{asoc})");
        let list: Vec<_> = self.lists[index].iter().map(definition).collect();
        let (list, finished) = (list.join(","), &self.finished[index]);
        if !accepted(finished) {
            return format!("{list}: refused with {}", finished.answer[NUMBER]);
        }
        // Each channel has one sample, and they are packed in channel order.
        let (channels, marks) = (column(finished, DATA), column(finished, MARK));
        format!("{list}: planes of channels {channels:?} marked {marks:?}")
    }
}

pub fn accepted(finished: &Finished) -> bool {
    finished.answer[NUMBER] == 0
}

/// Both accepted, or refused with the same number.
pub fn same_answer(one: &Finished, other: &Finished) -> bool {
    one.answer[NUMBER] == other.answer[NUMBER]
}

/// All numbers of all records, and all samples.
pub fn same_planes(one: &Finished, other: &Finished) -> bool {
    one.records == other.records && one.samples == other.samples
}

pub fn same_but_for_marks(one: &Finished, other: &Finished) -> bool {
    without_marks(one) == without_marks(other) && one.samples == other.samples
}

pub fn same_marks(one: &Finished, other: &Finished) -> bool {
    column(one, MARK) == column(other, MARK)
}

/// One number of each record; the destination has room for no more records, and numbers behind them.
fn column(finished: &Finished, at: usize) -> Vec<u32> {
    let records = finished.records.chunks_exact(RECORD);
    records.map(|record| record[at]).collect()
}

fn without_marks(finished: &Finished) -> Vec<u32> {
    let mut records = finished.records.clone();
    for record in records.chunks_exact_mut(RECORD) {
        record[MARK] = 0;
    }
    records
}
