//! How often each outcome came up.

use super::check::CheckedFile;
use crate::comparison;
use oracle::numbers::{index, CODESTREAM, ENDED, REFUSED};

/// Document 01's numbers about reading; 1 is for files over 4 GiB, of which there is one, apart.
const REFUSALS: std::ops::RangeInclusive<usize> = 2..=24;

/// What a file that was read can have: its name, and the number that is not 0 then.
const PARTS: [(&str, usize); 7] = [
    ("compatible entries", index("cl.count")),
    ("bits of components", index("bpcc.count")),
    ("a profile", index("icc.count")),
    ("CIELab numbers", index("lab count")),
    ("a palette", index("pclr.columns")),
    ("mappings", index("cmap.count")),
    ("definitions", index("cdef.count")),
];

#[derive(Default)]
pub struct Tally {
    codestream: u64,
    ended: u64,
    refused: [u64; *REFUSALS.end() + 1],
    unanswered: u64,
    parts: [u64; PARTS.len()],
}

impl comparison::Tally<CheckedFile> for Tally {
    fn count(&mut self, checked: &CheckedFile) {
        let Some(asked) = &checked.asked else {
            self.unanswered += 1;
            return;
        };
        match asked[0] {
            CODESTREAM => self.codestream += 1,
            ENDED => self.ended += 1,
            _ => self.refused[asked[1] as usize] += 1,
        }
        if asked[0] != REFUSED {
            for (count, (_, index)) in self.parts.iter_mut().zip(PARTS) {
                *count += u64::from(asked[index] != 0);
            }
        }
    }

    fn print(&self) {
        println!("{:>10} codestream", self.codestream);
        println!("{:>10} ended", self.ended);
        for number in REFUSALS {
            println!("{:>10} refused with {number}", self.refused[number]);
        }
        if self.unanswered != 0 {
            println!("{:>10} without an answer of document 01", self.unanswered);
        }
        println!("of those not refused:");
        for (count, (name, _)) in self.parts.iter().zip(PARTS) {
            println!("{count:>10} with {name}");
        }
    }
}
