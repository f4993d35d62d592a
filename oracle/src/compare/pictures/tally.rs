//! How often each outcome came up, in both editions.

use super::check::CheckedPicture;
use crate::comparison;
use oracle::finished::{Answer, FINISHED};
use oracle::Definition;
use std::collections::{BTreeMap, HashSet};

/// The number for a channel without a definition.
const UNDEFINED: u64 = 26;

/// The typs of opacities, as they are and premultiplied.
const OPACITIES: [u16; 2] = [1, 2];

#[derive(Default)]
pub struct Tally {
    first: Outcomes,
    second: Outcomes,
    editions: Editions,
}

/// The outcomes in one edition.
#[derive(Default)]
struct Outcomes {
    finished: u64,
    /// By document 01's number.
    refused: BTreeMap<u64, u64>,
    unanswered: u64,
    planes: u64,
    samples: u64,
}

/// Where edition 2 shows.
#[derive(Default)]
struct Editions {
    /// Refused with 26 for channel 0.
    without_channel_0: u64,
    /// Finished, with definitions that are applied.
    defined: u64,
    /// Of these, those with a mark that is another one than edition 1's.
    other_mark: u64,
    /// Of these, those with more than one definition of a channel.
    defined_twice: u64,
    /// Of these, those whose first definition is an opacity's.
    opacity_first: u64,
}

impl comparison::Tally<CheckedPicture> for Tally {
    fn count(&mut self, checked: &CheckedPicture) {
        self.first.count(&checked.first.asked);
        self.second.count(&checked.second.asked);
        if let (Ok(first), Ok(second)) = (&checked.first.asked, &checked.second.asked) {
            self.editions.count(first, second, &checked.definitions);
        }
    }

    fn print(&self) {
        println!("edition 1:");
        self.first.print();
        println!("edition 2:");
        self.second.print();
        self.editions.print();
    }

    fn never(&self) -> Vec<&'static str> {
        let cases = self.editions.cases().into_iter();
        let never = cases.filter(|(count, _)| *count == 0);
        never.map(|(_, name)| name).collect()
    }
}

impl Outcomes {
    fn count(&mut self, asked: &Result<Answer, String>) {
        let Ok(asked) = asked else {
            self.unanswered += 1;
            return;
        };
        if asked.kind != FINISHED {
            *self.refused.entry(asked.number).or_default() += 1;
            return;
        }
        self.finished += 1;
        self.planes += asked.count;
        self.samples += asked.samples.len() as u64;
    }

    fn print(&self) {
        let (planes, samples) = (self.planes, self.samples);
        println!(
            "{:>10} finished, {planes} planes, {samples} samples",
            self.finished
        );
        for (number, count) in &self.refused {
            println!("{count:>10} refused with {number}");
        }
        if self.unanswered != 0 {
            println!("{:>10} without an answer to ask for", self.unanswered);
        }
    }
}

impl Editions {
    /// `definitions` are those that are applied.
    fn count(&mut self, first: &Answer, second: &Answer, definitions: &[Definition]) {
        if second.kind != FINISHED {
            let without = second.number == UNDEFINED && second.place == 0;
            self.without_channel_0 += u64::from(without);
            return;
        }
        let Some(listed_first) = definitions.first() else {
            return;
        };
        let mut seen = HashSet::new();
        let twice = !definitions
            .iter()
            .all(|definition| seen.insert(definition.cn));
        self.defined += 1;
        self.other_mark += u64::from(first.records != second.records);
        self.defined_twice += u64::from(twice);
        self.opacity_first += u64::from(OPACITIES.contains(&listed_first.typ));
    }

    fn cases(&self) -> [(u64, &'static str); 5] {
        [
            (self.without_channel_0, "refused with 26 for channel 0"),
            (self.defined, "finished with definitions"),
            (self.other_mark, "of these with another mark in edition 1"),
            (self.defined_twice, "of these with a channel defined twice"),
            (self.opacity_first, "of these with an opacity listed first"),
        ]
    }

    fn print(&self) {
        for (count, name) in self.cases() {
            println!("{count:>10} {name}");
        }
    }
}
