//! The four entries of the library, over slices. All that is unsafe is in this file.

use crate::exports::{cuzhantir_finish, cuzhantir_picture, cuzhantir_read, cuzhantir_write};
use crate::{Edition, Refused, READING_LENGTH};

/// Where the parts of a reading that tell of a refusal stand.
const READING_PLACE: usize = 2;

/// The numbers of an answer: kind, number, place, and how many planes or bytes there are.
type Answer = [u64; 4];

/// How many planes or bytes there are, or the refusal.
fn told(returned: u32, answer: Answer) -> Result<usize, Refused> {
    match returned {
        // the library has at most so many planes or bytes as a list of this process has room for
        0 => Ok(answer[3] as usize),
        number => Err(Refused::new(number, answer[2])),
    }
}

/// The numbers of a file's reading.
pub(crate) fn read(file: &[u8]) -> Result<[u64; READING_LENGTH], Refused> {
    let mut reading = [0; READING_LENGTH];
    // SAFETY: each pointer and length is that of a slice that lives until the call is over, and the one that is written
    // is borrowed for this call alone.
    let returned = unsafe {
        cuzhantir_read(
            file.as_ptr(),
            file.len(),
            reading.as_mut_ptr(),
            reading.len(),
        )
    };
    match returned {
        0 => Ok(reading),
        number => Err(Refused::new(number, reading[READING_PLACE])),
    }
}

/// What is handed to finishing beside the file.
#[derive(Clone, Copy)]
pub(crate) struct Handed<'a> {
    pub ignore: bool,
    pub edition: Edition,
    pub comps: &'a [u32],
    pub count: u32,
    pub samples: &'a [i32],
}

/// How many planes were finished to the two lists.
pub(crate) fn finish(
    file: &[u8],
    reading: &[u64; READING_LENGTH],
    handed: Handed<'_>,
    records: &mut [u32],
    planes: &mut [i32],
) -> Result<usize, Refused> {
    let mut answer: Answer = [0; 4];
    // SAFETY: as in `read`; the three lists that are written are apart from each other and from all others, since they are
    // borrowed for this call alone.
    let returned = unsafe {
        cuzhantir_finish(
            file.as_ptr(),
            file.len(),
            reading.as_ptr(),
            reading.len(),
            u32::from(handed.ignore),
            handed.edition.number(),
            handed.comps.as_ptr(),
            handed.comps.len(),
            handed.count,
            handed.samples.as_ptr(),
            handed.samples.len(),
            records.as_mut_ptr(),
            records.len(),
            planes.as_mut_ptr(),
            planes.len(),
            answer.as_mut_ptr(),
            answer.len(),
        )
    };
    told(returned, answer)
}

/// How many planes were finished to the two lists, with the file read in the same call.
pub(crate) fn picture(
    file: &[u8],
    handed: Handed<'_>,
    records: &mut [u32],
    planes: &mut [i32],
) -> Result<usize, Refused> {
    let mut answer: Answer = [0; 4];
    // SAFETY: as in `finish`.
    let returned = unsafe {
        cuzhantir_picture(
            file.as_ptr(),
            file.len(),
            u32::from(handed.ignore),
            handed.edition.number(),
            handed.comps.as_ptr(),
            handed.comps.len(),
            handed.count,
            handed.samples.as_ptr(),
            handed.samples.len(),
            records.as_mut_ptr(),
            records.len(),
            planes.as_mut_ptr(),
            planes.len(),
            answer.as_mut_ptr(),
            answer.len(),
        )
    };
    told(returned, answer)
}

/// What is handed to writing.
#[derive(Clone, Copy)]
pub(crate) struct Asked<'a> {
    pub comps: &'a [u32],
    pub count: u32,
    pub x0: u32,
    pub y0: u32,
    pub x1: u32,
    pub y1: u32,
    pub space: u32,
    pub profile: &'a [u8],
    pub codestream: u64,
}

/// How many bytes were written to the list.
pub(crate) fn write(asked: Asked<'_>, d: &mut [u8]) -> Result<usize, Refused> {
    let mut answer: Answer = [0; 4];
    // SAFETY: as in `finish`.
    let returned = unsafe {
        cuzhantir_write(
            asked.comps.as_ptr(),
            asked.comps.len(),
            asked.count,
            asked.x0,
            asked.y0,
            asked.x1,
            asked.y1,
            asked.space,
            asked.profile.as_ptr(),
            asked.profile.len(),
            asked.codestream,
            d.as_mut_ptr(),
            d.len(),
            answer.as_mut_ptr(),
            answer.len(),
        )
    };
    told(returned, answer)
}
