//! Compares the port's writing with the crate's on many requests.

mod check;
mod ours;
mod tally;

use check::check;
use oracle::generate::{
    corners, depths, large_writings, mark_patterns, writing_edges, wrong_together, Writings,
};
use oracle::written::Handed;
use tally::Tally;

/// After as many disagreements nothing more is compared.
const MOST: usize = 20;

/// Whether the two agree on all writings.
pub fn compare(seed: u64, count: u64) -> bool {
    let mut comparison = Comparison::default();
    comparison.all("ways to mark components", mark_patterns());
    comparison.all("precisions and signs", depths());
    comparison.all("corners", corners());
    comparison.all("edges", writing_edges());
    comparison.all("things wrong together", wrong_together());
    comparison.all("large writings", large_writings());
    println!("of the systematic writings:");
    comparison.tally.print();
    comparison.tally = Tally::default();
    let writings = Writings::new(seed);
    let generated = (0..count).map(|number| writings.writing(number));
    comparison.all(&format!("generated writings of seed {seed}"), generated);
    comparison.tally.print();
    println!("{} disagreements", comparison.disagreements);
    comparison.disagreements == 0
}

#[derive(Default)]
struct Comparison {
    tally: Tally,
    disagreements: usize,
}

impl Comparison {
    fn all(&mut self, name: &str, writings: impl Iterator<Item = Handed>) {
        let mut compared = 0u64;
        for handed in writings {
            if self.disagreements >= MOST {
                return;
            }
            self.compare(&handed, name, compared);
            compared += 1;
        }
        println!("{name}: {compared} compared");
    }

    fn compare(&mut self, handed: &Handed, name: &str, number: u64) {
        let checked = check(handed, number);
        self.tally.count(handed, &checked.asked);
        let differences = checked.differences();
        if !differences.is_empty() {
            self.disagreements += 1;
            println!("disagreement {}: {name}, {number}", self.disagreements);
            checked.print(handed, &differences);
        }
    }
}
