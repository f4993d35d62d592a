//! How often each outcome came up.

use oracle::written::{Answer, Handed, WRITTEN};
use std::collections::BTreeMap;

#[derive(Default)]
pub struct Tally {
    written: u64,
    bytes: u64,
    profiles: u64,
    /// Written files with a bpcc, and with a cdef.
    depths: u64,
    definitions: u64,
    /// By document 01's number.
    refused: BTreeMap<u64, u64>,
    unanswered: u64,
}

impl Tally {
    pub fn count(&mut self, handed: &Handed, asked: &Result<Answer, String>) {
        let Ok(asked) = asked else {
            self.unanswered += 1;
            return;
        };
        if asked.kind != WRITTEN {
            *self.refused.entry(asked.number).or_default() += 1;
            return;
        }
        self.written += 1;
        self.bytes += asked.bytes.len() as u64;
        let record = oracle::read(&asked.bytes).record;
        self.profiles += u64::from(!handed.profile.is_empty());
        self.depths += u64::from(record.bpc == 255);
        self.definitions += u64::from(record.jp2_cdef.is_some());
    }

    pub fn print(&self) {
        println!(
            "{:>10} written, {} bytes; {} with a profile, {} with bpcc, {} with cdef",
            self.written, self.bytes, self.profiles, self.depths, self.definitions
        );
        for (number, count) in &self.refused {
            println!("{count:>10} refused with {number}");
        }
        if self.unanswered != 0 {
            println!("{:>10} without an answer of document 01", self.unanswered);
        }
    }
}
