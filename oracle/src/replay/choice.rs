//! Which files go into the list.

use oracle::leaves;
use oracle::numbers::{self, Numbers, CODESTREAM, ENDED, REFUSED};
use oracle::Reading;
use std::collections::{BTreeMap, HashSet};

/// So many generated files of each outcome are taken.
const QUOTAS: [(u32, usize); 3] = [(CODESTREAM, 500), (ENDED, 300), (REFUSED, 100)];

/// A file of the seed is no longer than this, to keep the list short.
const MOST_BYTES: usize = 160;

/// The cases of a list, no file twice.
#[derive(Default)]
pub struct Choice {
    cases: Vec<(Vec<u8>, Numbers)>,
    /// What was read of the files that were taken, with the answer.
    seen: HashSet<(Vec<u8>, Numbers)>,
    /// How many generated files of each outcome were taken.
    taken: BTreeMap<(u32, u32), usize>,
}

impl Choice {
    pub fn cases(&self) -> &[(Vec<u8>, Numbers)] {
        &self.cases
    }

    /// Takes a file unless it is there.
    pub fn take(&mut self, file: &[u8]) -> Result<(), String> {
        let (_, numbers) = answer(file)?;
        if self.seen.insert((file.to_vec(), numbers)) {
            self.cases.push((file.to_vec(), numbers));
        }
        Ok(())
    }

    /// Takes a file unless one is there of which the crate read the same, with the same answer.
    pub fn take_new(&mut self, file: Vec<u8>) -> Result<bool, String> {
        let (reading, numbers) = answer(&file)?;
        let read = file.len().min(read_bytes(&file, &reading, &numbers));
        let new = self.seen.insert((file[..read].to_vec(), numbers));
        if new {
            self.cases.push((file, numbers));
        }
        Ok(new)
    }

    /// Takes a generated file if there are not enough of its outcome.
    pub fn take_wanted(&mut self, file: Vec<u8>) -> Result<(), String> {
        if file.len() > MOST_BYTES {
            return Ok(());
        }
        let (_, numbers) = answer(&file)?;
        let outcome = outcome(&numbers);
        let quota = QUOTAS.iter().find(|(kind, _)| *kind == numbers[0]);
        let quota = quota.map_or(0, |(_, quota)| *quota);
        if self.taken.get(&outcome).copied().unwrap_or_default() < quota && self.take_new(file)? {
            *self.taken.entry(outcome).or_default() += 1;
        }
        Ok(())
    }

    /// How many cases of each outcome there are, and how many of these are of the seed.
    pub fn print(&self) {
        let mut all = BTreeMap::<_, usize>::new();
        for (_, numbers) in &self.cases {
            *all.entry(outcome(numbers)).or_default() += 1;
        }
        for (outcome, count) in &all {
            let name = match *outcome {
                (CODESTREAM, _) => "codestream".to_owned(),
                (ENDED, _) => "ended".to_owned(),
                (_, number) => format!("refused with {number}"),
            };
            let generated = self.taken.get(outcome).copied().unwrap_or_default();
            println!("{count:>6} {name}, {generated} of the seed");
        }
        let generated: usize = self.taken.values().sum();
        println!("{:>6} cases, {generated} of the seed", self.cases.len());
    }
}

/// The kind and, of a refusal, the number.
fn outcome(numbers: &Numbers) -> (u32, u32) {
    match numbers[0] {
        REFUSED => (REFUSED, numbers[1]),
        kind => (kind, 0),
    }
}

/// The crate's answer, and as numbers. The lists are read out of the file once, to see that their places are right.
fn answer(file: &[u8]) -> Result<(Reading, Numbers), String> {
    let reading = oracle::read(file);
    let numbers = numbers::expected(file, &reading).ok_or("the crate has no answer")?;
    let accepted = numbers[0] != REFUSED;
    if accepted && numbers::record(file, &numbers).as_ref() != Some(&reading.record) {
        return Err("a list is not where it should be".to_owned());
    }
    Ok((reading, numbers))
}

/// How many bytes the answer depends on, or more.
fn read_bytes(file: &[u8], reading: &Reading, numbers: &Numbers) -> usize {
    match (numbers[0], numbers[1]) {
        // What lay behind the last box mattered too.
        (ENDED, _) => file.len(),
        // The crate takes a whole jp2h before its children; only those up to the one at fault matter.
        (REFUSED, 13..=24) => box_end(file, numbers[2] as usize),
        _ => reading.tell as usize,
    }
}

/// Where the box ends that starts at `place`.
fn box_end(file: &[u8], place: usize) -> usize {
    let header = leaves::read_header(&file[place..], file.len() - place);
    header.map_or(file.len(), |header| place + header.length as usize)
}

/// Where the codestream of a picture starts.
pub fn codestream(picture: &[u8]) -> Option<usize> {
    oracle::read(picture)
        .codestream
        .map(|offset| offset as usize)
}
