//! How often a cut went where, and what the files had.

use super::check::CheckedCut;
use super::telling::Where;
use crate::comparison;
use std::collections::BTreeMap;

#[derive(Default)]
pub struct Tally {
    /// By the answer and where the cut went.
    cuts: BTreeMap<String, u64>,
    files: u64,
    extended: u64,
    skipped: u64,
    before: u64,
    behind: u64,
}

fn words(goes: Where) -> String {
    match goes {
        Where::Behind => "codestream".to_owned(),
        Where::Between => "ended, between two boxes".to_owned(),
        Where::Header => "ended, in a header".to_owned(),
        Where::Skipped => "ended, in a box that is skipped".to_owned(),
        Where::Read(kind) => {
            let letters = kind.to_be_bytes().map(char::from);
            format!("4, in {}", String::from_iter(letters))
        }
    }
}

impl comparison::Tally<CheckedCut> for Tally {
    fn count(&mut self, checked: &CheckedCut) {
        *self.cuts.entry(words(checked.goes)).or_default() += 1;
        if checked.whole {
            let telling = &checked.telling;
            self.files += 1;
            self.extended += u64::from(telling.has_extended());
            self.skipped += u64::from(telling.has_skipped());
            self.before += u64::from(telling.has_outside(false));
            self.behind += u64::from(telling.has_outside(true));
        }
    }

    fn print(&self) {
        for (name, count) in &self.cuts {
            println!("{count:>10} {name}");
        }
        println!("of {} files:", self.files);
        println!("{:>10} with a header of 16 bytes", self.extended);
        println!("{:>10} with a box that is skipped", self.skipped);
        println!("{:>10} with a box of jp2h before it", self.before);
        println!("{:>10} with a box of jp2h behind it", self.behind);
    }
}
