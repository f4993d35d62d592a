//! The port: what its static library exports, for lists. The comparison and the bench both include this file.

use oracle::FinishingRequest;

#[link(name = "cuzhantir", kind = "static")]
unsafe extern "C" {}

#[allow(dead_code)]
#[path = "../../../bindings/rust/src/exports.rs"]
mod exports;

use exports::{cuzhantir_finish, cuzhantir_picture, cuzhantir_read};

/// The flag for edition 1 of the camera rules.
pub const EDITION_1: u32 = 0;

/// A flag for edition 2; so is every other number but 0.
pub const EDITION_2: u32 = 1;

/// Reads a file and writes the numbers of the answer, in the order of `oracle::numbers`. Answers the number of a refusal,
/// else 0; and 30 where `out` is too short for the numbers.
pub fn read(file: &[u8], out: &mut [u64]) -> u32 {
    // The pointers and lengths are those of slices that live until the call is over.
    unsafe { cuzhantir_read(file.as_ptr(), file.len(), out.as_mut_ptr(), out.len()) }
}

/// Reads a picture's file and finishes the picture, in the edition that the flag `edition2` picks. Writes kind, number,
/// place and number of planes to `answer`, finished records to `records` and finished samples to `planes`; their lengths
/// are the room, not the picture's. Answers the number of a refusal, else 0; and 30 where `answer` is too short.
pub fn finish(
    picture: &FinishingRequest,
    edition2: u32,
    records: &mut [u32],
    planes: &mut [i32],
    answer: &mut [u64],
) -> u32 {
    // The pointers and lengths are those of slices that live until the call is over.
    unsafe {
        cuzhantir_picture(
            picture.file.as_ptr(),
            picture.file.len(),
            picture.ignore,
            edition2,
            picture.components.as_ptr(),
            picture.components.len(),
            picture.count,
            picture.samples.as_ptr(),
            picture.samples.len(),
            records.as_mut_ptr(),
            records.len(),
            planes.as_mut_ptr(),
            planes.len(),
            answer.as_mut_ptr(),
            answer.len(),
        )
    }
}

/// The same with the numbers that `read` gave for the file.
pub fn finish_reading(
    picture: &FinishingRequest,
    edition2: u32,
    reading: &[u64],
    records: &mut [u32],
    planes: &mut [i32],
    answer: &mut [u64],
) -> u32 {
    // The pointers and lengths are those of slices that live until the call is over.
    unsafe {
        cuzhantir_finish(
            picture.file.as_ptr(),
            picture.file.len(),
            reading.as_ptr(),
            reading.len(),
            picture.ignore,
            edition2,
            picture.components.as_ptr(),
            picture.components.len(),
            picture.count,
            picture.samples.as_ptr(),
            picture.samples.len(),
            records.as_mut_ptr(),
            records.len(),
            planes.as_mut_ptr(),
            planes.len(),
            answer.as_mut_ptr(),
            answer.len(),
        )
    }
}
