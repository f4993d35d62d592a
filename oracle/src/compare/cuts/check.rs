//! One beginning of a file, as the port reads it and as the boxes of the whole file tell it.

use super::tally::Tally;
use super::telling::{Telling, Where};
use crate::comparison::Checked;
use crate::ours;
use oracle::numbers::{self, Numbers};
use std::rc::Rc;

/// The first `length` bytes of a file.
pub struct Cut {
    pub telling: Rc<Telling>,
    pub length: usize,
}

pub struct CheckedCut {
    pub telling: Rc<Telling>,
    pub goes: Where,
    pub whole: bool,
    asked: Numbers,
    ours: Option<Numbers>,
}

impl Checked for CheckedCut {
    type Input = Cut;
    type Tally = Tally;

    fn new(cut: &Cut, _number: u64) -> Self {
        let (goes, asked) = cut.telling.answer(cut.length);
        CheckedCut {
            telling: Rc::clone(&cut.telling),
            goes,
            whole: cut.length == cut.telling.file.len(),
            asked,
            ours: ours::read(&cut.telling.file[..cut.length]),
        }
    }

    fn differences(&self) -> Vec<String> {
        let Some(ours) = &self.ours else {
            return vec!["no answer of ours".to_owned()];
        };
        let rows = self.asked.iter().zip(ours).enumerate();
        rows.filter(|(_, (asked, ours))| asked != ours)
            .map(|(at, (asked, ours))| format!("{}: told {asked}, ours {ours}", numbers::name(at)))
            .collect()
    }

    fn print(&self, cut: &Cut) {
        print!("  the first {} bytes of  ", cut.length);
        cut.telling.file.iter().for_each(|byte| print!("{byte:02x}"));
        println!();
    }
}
