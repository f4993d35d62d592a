//! What a list's cases come to, counted by document 01's number.

use std::collections::BTreeMap;

/// A line for each number, with how many of its cases are of the seed, then a line for all. `done` is the word for number
/// 0, and `whole` the one for the cases.
pub fn print(
    numbers: impl Iterator<Item = u64>,
    of_the_seed: impl Iterator<Item = (u64, usize)>,
    done: &str,
    whole: &str,
) {
    let mut all = BTreeMap::<u64, usize>::new();
    numbers.for_each(|number| *all.entry(number).or_default() += 1);
    let mut taken = BTreeMap::<u64, usize>::new();
    of_the_seed.for_each(|(number, count)| *taken.entry(number).or_default() += count);
    for (number, count) in &all {
        let generated = taken.get(number).copied().unwrap_or_default();
        match number {
            0 => println!("{count:>6} {done}, {generated} of the seed"),
            _ => println!("{count:>6} refused with {number}, {generated} of the seed"),
        }
    }
    let cases: usize = all.values().sum();
    let generated: usize = taken.values().sum();
    println!("{cases:>6} {whole}, {generated} of the seed");
}
