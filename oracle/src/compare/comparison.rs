//! Putting one input after the other to both, reading and finishing alike.

use std::borrow::Borrow;

/// After as many disagreements nothing more is compared.
const MOST: usize = 20;

/// What both made of an input.
pub trait Checked {
    type Input: ?Sized;
    type Tally: Tally<Self>;

    /// Puts an input to both. Its number in its list may choose how.
    fn new(input: &Self::Input, number: u64) -> Self;

    /// What differs, in words; nothing where the two agree.
    fn differences(&self) -> Vec<String>;

    /// The input and both answers, for a reader.
    fn print(&self, input: &Self::Input);
}

/// How often each outcome came up.
pub trait Tally<C: ?Sized>: Default {
    fn count(&mut self, checked: &C);

    fn print(&self);

    /// Cases that have to come up in every run and did not.
    fn never(&self) -> Vec<&'static str> {
        Vec::new()
    }
}

pub struct Comparison<C: Checked> {
    tally: C::Tally,
    disagreements: usize,
}

impl<C: Checked> Comparison<C> {
    pub fn new() -> Self {
        Comparison {
            tally: C::Tally::default(),
            disagreements: 0,
        }
    }

    /// Compares on every input of a list, and prints how many they were.
    pub fn all<I: Borrow<C::Input>>(&mut self, name: &str, inputs: impl IntoIterator<Item = I>) {
        let mut compared = 0;
        for input in inputs {
            if self.disagreements >= MOST {
                return;
            }
            self.compare(input.borrow(), name, compared);
            compared += 1;
        }
        println!("{name}: {compared} compared");
    }

    fn compare(&mut self, input: &C::Input, name: &str, number: u64) {
        let checked = C::new(input, number);
        self.tally.count(&checked);
        let differences = checked.differences();
        if differences.is_empty() {
            return;
        }
        self.disagreements += 1;
        println!("disagreement {}: {name}, {number}", self.disagreements);
        checked.print(input);
        for difference in differences {
            println!("  differs  {difference}");
        }
    }

    /// Prints how often each outcome came up, and whether the two agreed on everything. False where they did not, and
    /// where a case that has to come up did not.
    pub fn end(self) -> bool {
        self.tally.print();
        let never = self.tally.never();
        for case in &never {
            println!("never came up: {case}");
        }
        println!("{} disagreements", self.disagreements);
        self.disagreements == 0 && never.is_empty()
    }
}
