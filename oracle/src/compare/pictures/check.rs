//! One picture, finished by both, in edition 1 and in edition 2 of the camera rules.

use super::edition::CheckedEdition;
use super::print_list;
use super::tally::Tally;
use crate::comparison::Checked;
use crate::port::EDITION_1;
use oracle::edition2::{self, Told};
use oracle::{finished, Definition, FinishingRequest};

/// Flags for edition 2: the pictures have one after the other. The third and the fourth are 0 in their low bits.
const EDITION_2_FLAGS: [u32; 5] = [1, 2, 256, 65536, u32::MAX];

/// What both made of a picture.
pub struct CheckedPicture {
    /// Against what document 01 asks for by the crate's answer.
    pub first: CheckedEdition,
    /// Against what document 02 asks for.
    pub second: CheckedEdition,
    /// The definitions that are applied.
    pub definitions: Vec<Definition>,
}

impl Checked for CheckedPicture {
    type Input = FinishingRequest;
    type Tally = Tally;

    /// The number chooses the flag for edition 2, and how long the lists for the answers are.
    fn new(picture: &FinishingRequest, number: u64) -> Self {
        let number = number as usize;
        let flag = EDITION_2_FLAGS[number % EDITION_2_FLAGS.len()];
        let asked = finished::answer(picture);
        let told = asked.clone();
        let told = told.and_then(|first| edition2::answer(picture, &first));
        let (told, definitions) = match told {
            Ok(Told {
                answer,
                definitions,
            }) => (Ok(answer), definitions),
            Err(why) => (Err(why), Vec::new()),
        };
        CheckedPicture {
            first: CheckedEdition::new(picture, EDITION_1, number, asked),
            second: CheckedEdition::new(picture, flag, number, told),
            definitions,
        }
    }

    fn differences(&self) -> Vec<String> {
        let first = self.first.differences().into_iter();
        let second = self.second.differences().into_iter();
        let first = first.map(|difference| format!("edition 1, {difference}"));
        first
            .chain(second.map(|difference| format!("edition 2, {difference}")))
            .collect()
    }

    fn print(&self, picture: &FinishingRequest) {
        print!("  file  ");
        picture.file.iter().for_each(|byte| print!("{byte:02x}"));
        println!();
        println!("  ignore {}, count {}", picture.ignore, picture.count);
        print_list("components", &picture.components);
        print_list("samples", &picture.samples);
        println!(
            "  room for {} numbers of records, {} samples",
            picture.records_room, picture.samples_room
        );
        self.first.print();
        self.second.print();
    }
}
