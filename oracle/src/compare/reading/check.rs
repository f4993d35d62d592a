//! One file, read by both.

use super::tally::Tally;
use crate::comparison::Checked;
use crate::ours;
use oracle::numbers::{self, Numbers, COUNT, REFUSED};
use oracle::{Reading, Record};

/// What both made of a file.
pub struct CheckedFile {
    reading: Reading,
    /// What document 01 asks for by the crate's answer; none where the crate's answer has no place in document 01.
    pub asked: Option<Numbers>,
    ours: Option<Numbers>,
    /// The crate's record as ours tells it, with the lists out of the file; none where a list reaches past the file,
    /// and after a refusal, where there are no lists.
    record: Option<Record>,
}

impl Checked for CheckedFile {
    type Input = [u8];
    type Tally = Tally;

    fn new(file: &[u8], _number: u64) -> Self {
        let reading = oracle::read(file);
        let ours = ours::read(file);
        let accepted = ours.as_ref().filter(|numbers| numbers[0] != REFUSED);
        CheckedFile {
            asked: numbers::expected(file, &reading),
            record: accepted.and_then(|numbers| numbers::record(file, numbers)),
            ours,
            reading,
        }
    }

    fn differences(&self) -> Vec<String> {
        let Some(asked) = &self.asked else {
            return vec!["no answer of document 01".to_owned()];
        };
        let Some(ours) = &self.ours else {
            return vec!["no answer of ours".to_owned()];
        };
        // Beside a refusal every number of the record differs and says nothing.
        let telling = if asked[0] == ours[0] { COUNT } else { 3 };
        let mut found = Vec::new();
        for (index, (asked, ours)) in asked.iter().zip(ours).enumerate().take(telling) {
            if asked != ours {
                let name = numbers::name(index);
                found.push(format!("{name}: crate {asked}, ours {ours}"));
            }
        }
        let (theirs, ours) = (&self.reading.record, &self.record);
        if found.is_empty() && asked[0] != REFUSED && ours.as_ref() != Some(theirs) {
            found.push(format!("lists: crate {theirs:?}, ours {ours:?}"));
        }
        found
    }

    fn print(&self, file: &[u8]) {
        print!("  file  ");
        file.iter().for_each(|byte| print!("{byte:02x}"));
        println!();
        print_numbers("crate", &self.asked);
        print_numbers("ours ", &self.ours);
        for message in &self.reading.messages {
            println!("  crate said  {}", message.text.trim_end());
        }
    }
}

fn print_numbers(who: &str, row: &Option<Numbers>) {
    let Some(row) = row else {
        println!("  {who}  no answer");
        return;
    };
    print!("  {who}  ");
    for (index, number) in row.iter().enumerate() {
        let between = if index == 0 { "" } else { ", " };
        print!("{between}{} {number}", numbers::name(index));
    }
    println!();
}
