//! One picture in one edition: what is asked for, and what the port gives.

use super::print_list;
use crate::ours::{self, Finished};
use oracle::finished::Answer;
use oracle::FinishingRequest;

pub struct CheckedEdition {
    /// The flag that picked the edition.
    flag: u32,
    /// Or why there is no answer.
    pub asked: Result<Answer, String>,
    ours: Finished,
    /// A length of the list for the answer that is too short and that the port does not mind.
    unminded: Option<usize>,
    /// Whether reading and then finishing came to the same.
    same_in_two_steps: bool,
}

impl CheckedEdition {
    /// The list for the answer is just long enough or one longer, in turn. The picture is finished once more with one
    /// that is too short, of another length in turn, and in two steps.
    pub fn new(
        picture: &FinishingRequest,
        flag: u32,
        number: usize,
        asked: Result<Answer, String>,
    ) -> Self {
        let short = number % 4;
        let length = 4 + number % 2;
        let ours = ours::finish(picture, flag, length);
        CheckedEdition {
            flag,
            asked,
            unminded: (!ours::minds_its_answer(picture, flag, short)).then_some(short),
            same_in_two_steps: ours::same_in_two_steps(picture, flag, length, &ours),
            ours,
        }
    }

    /// What differs, in words.
    pub fn differences(&self) -> Vec<String> {
        let asked = match &self.asked {
            Ok(asked) => asked,
            Err(why) => return vec![format!("no answer to ask for: {why}")],
        };
        let mut found = ours::answer_differences(
            ["kind", "number", "place", "planes"],
            [asked.kind, asked.number, asked.place, asked.count],
            self.ours.returned,
            &self.ours.answer,
            self.unminded,
        );
        if !self.same_in_two_steps {
            found.push("two steps: reading and then finishing comes to something else".to_owned());
        }
        let untouched = ours::record_pattern;
        found.extend(list(
            "record number",
            &asked.records,
            &self.ours.records,
            untouched,
        ));
        let untouched = ours::sample_pattern;
        found.extend(list(
            "sample",
            &asked.samples,
            &self.ours.samples,
            untouched,
        ));
        found
    }

    /// Both answers, for a reader.
    pub fn print(&self) {
        println!("  with the flag {} for edition 2", self.flag);
        match &self.asked {
            Ok(asked) => print_answer("asked", asked),
            Err(why) => println!("  asked  {why}"),
        }
        println!("  ours  answer {:?}", &self.ours.answer[..4]);
        print_list("ours, records", &self.ours.records);
        print_list("ours, samples", &self.ours.samples);
    }
}

/// The first number of a destination that is not what was asked for or, behind that, not what stood there before.
fn list<T: Copy + PartialEq + std::fmt::Display>(
    name: &str,
    asked: &[T],
    ours: &[T],
    untouched: fn(usize) -> T,
) -> Option<String> {
    let wanted = |index| {
        asked
            .get(index)
            .copied()
            .unwrap_or_else(|| untouched(index))
    };
    let index = (0..ours.len()).find(|index| ours[*index] != wanted(*index))?;
    let (wanted, ours) = (wanted(index), ours[index]);
    Some(format!("{name} {index}: asked {wanted}, ours {ours}"))
}

fn print_answer(who: &str, answer: &Answer) {
    let numbers = [answer.kind, answer.number, answer.place, answer.count];
    println!("  {who}  answer {numbers:?}");
    print_list(&format!("{who}, records"), &answer.records);
    print_list(&format!("{who}, samples"), &answer.samples);
}
