//! What the port answers, and that it keeps to the lists that it is handed.

use crate::port;
use oracle::numbers::{Numbers, COUNT};
use oracle::FinishingRequest;

/// What stands where the port has written no number of an answer; no answer has it.
pub const UNWRITTEN: u64 = 0xdead_beef_dead_beef;

/// What is returned where a list for an answer is too short.
pub const NO_ROOM: u32 = 30;

/// So many numbers stand behind each list that finishing writes to, and have to stay.
const BEHIND: usize = 3;

/// How an answer of four numbers differs from the one that is asked for, in words; `unminded` is the length of a list for
/// the answer that was too short and not left alone.
pub fn answer_differences(
    names: [&str; 4],
    asked: [u64; 4],
    returned: u32,
    ours: &[u64],
    unminded: Option<usize>,
) -> Vec<String> {
    let mut found = Vec::new();
    if let Some(length) = unminded {
        found.push(format!("a list of {length} for the answer is not minded"));
    }
    if u64::from(returned) != asked[1] {
        found.push(format!("returned: {}, ours {returned}", asked[1]));
    }
    for ((name, asked), ours) in names.iter().zip(asked).zip(ours) {
        if asked != *ours {
            found.push(format!("{name}: asked {asked}, ours {ours}"));
        }
    }
    if ours[4..].iter().any(|number| *number != UNWRITTEN) {
        found.push("the answer's rest is written".to_owned());
    }
    found
}

/// The kind of an answer of reading that refuses.
const REFUSED: u32 = 2;

/// The answer of reading; none where the port does not write all numbers, writes one that no file can give, or returns
/// another number than it writes.
pub fn read(file: &[u8]) -> Option<Numbers> {
    let mut out = [UNWRITTEN; COUNT];
    let returned = port::read(file, &mut out);
    let mut numbers = [0; COUNT];
    for (number, written) in numbers.iter_mut().zip(out) {
        *number = u32::try_from(written).ok()?;
    }
    let refusal = if numbers[0] == REFUSED { numbers[1] } else { 0 };
    (returned == refusal).then_some(numbers)
}

/// Whether reading leaves a list alone that is one number too short, and says so.
pub fn minds_its_room(file: &[u8]) -> bool {
    let mut numbers = [UNWRITTEN; COUNT - 1];
    port::read(file, &mut numbers) == NO_ROOM && numbers.iter().all(|number| *number == UNWRITTEN)
}

/// The answer of finishing and both destinations, whole and with what stands behind them.
#[derive(PartialEq)]
pub struct Finished {
    /// What the function returned.
    pub returned: u32,
    pub answer: Vec<u64>,
    pub records: Vec<u32>,
    pub samples: Vec<i32>,
}

/// What stands in the destinations before; hardly a finished picture has it, and no two numbers next to each other are
/// the same.
pub fn record_pattern(index: usize) -> u32 {
    0xa5a5_0000 ^ (index as u32).wrapping_mul(0x9e37_79b1)
}

pub fn sample_pattern(index: usize) -> i32 {
    record_pattern(index + 7) as i32
}

/// Lends a function the two destinations of a picture and a list of `length` numbers for the answer.
fn lend(
    picture: &FinishingRequest,
    length: usize,
    function: impl FnOnce(&mut [u32], &mut [i32], &mut [u64]) -> u32,
) -> Finished {
    let (records_room, samples_room) = (picture.records_room, picture.samples_room);
    let mut answer = vec![UNWRITTEN; length + BEHIND];
    let mut records: Vec<_> = (0..records_room + BEHIND).map(record_pattern).collect();
    let mut samples: Vec<_> = (0..samples_room + BEHIND).map(sample_pattern).collect();
    let returned = function(
        &mut records[..records_room],
        &mut samples[..samples_room],
        &mut answer[..length],
    );
    Finished {
        returned,
        answer,
        records,
        samples,
    }
}

/// Reads a picture's file and finishes the picture with a list of `length` numbers for the answer, in the edition that
/// the flag picks.
pub fn finish(picture: &FinishingRequest, edition2: u32, length: usize) -> Finished {
    lend(picture, length, |records, samples, answer| {
        port::finish(picture, edition2, records, samples, answer)
    })
}

/// Reads a picture's file, and finishes the picture in a second step with the numbers of the reading.
fn finish_in_two_steps(picture: &FinishingRequest, edition2: u32, length: usize) -> Finished {
    let mut reading = [UNWRITTEN; COUNT];
    port::read(&picture.file, &mut reading);
    lend(picture, length, |records, samples, answer| {
        port::finish_reading(picture, edition2, &reading, records, samples, answer)
    })
}

/// Whether the two steps come to what one step came to, in every number.
pub fn same_in_two_steps(
    picture: &FinishingRequest,
    edition2: u32,
    length: usize,
    once: &Finished,
) -> bool {
    finish_in_two_steps(picture, edition2, length) == *once
}

/// Whether finishing writes nothing at all where its list for the answer is as short as this, and says so.
pub fn minds_its_answer(picture: &FinishingRequest, edition2: u32, length: usize) -> bool {
    let finished = finish(picture, edition2, length);
    let mut records = finished.records.iter().enumerate();
    let mut samples = finished.samples.iter().enumerate();
    finished.returned == NO_ROOM
        && finished.answer.iter().all(|number| *number == UNWRITTEN)
        && records.all(|(index, number)| *number == record_pattern(index))
        && samples.all(|(index, sample)| *sample == sample_pattern(index))
}
