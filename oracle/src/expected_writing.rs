//! What the crate does not say of a writing, in document 01's words: the numbers 29, 30, 32 and 34, and the index beside
//! 32.
//!
//! Nothing here asks the crate. 31, 33 and the bytes are the crate's own (`written.rs`); the length that 30 needs is
//! theirs.

use crate::written::{Handed, MARK, RECORD};

/// Components of a picture, at most.
const MOST_COMPONENTS: u32 = 16384;

/// Bytes of a profile, at most.
const MOST_OF_A_PROFILE: usize = 16777215;

/// Bytes of a codestream, at most.
const MOST_OF_A_CODESTREAM: u64 = 4261412863;

/// Bits of a component, at most.
const MOST_BITS: u32 = 38;

/// Where in a record its precision and its sign stand.
const PRECISION: usize = 6;
const SIGN: usize = 8;

/// The crate's mark has no more bits. It only asks whether a mark is 0.
const MOST_OF_A_MARK: u32 = 65535;

/// 29: a record outside its list.
pub(crate) fn outside(handed: &Handed) -> bool {
    (handed.components.len() as u64) < RECORD as u64 * u64::from(handed.count)
}

/// 32: the lowest component whose precision is not 1 to 38, or whose sign is neither 0 nor 1.
pub(crate) fn misfit(handed: &Handed) -> Option<usize> {
    let records = handed.components.chunks_exact(RECORD);
    let mut counted = records.take(handed.count as usize);
    counted.position(|record| !matches!(record[PRECISION], 1..=MOST_BITS) || record[SIGN] > 1)
}

/// 34: too long a profile, or too long a codestream.
pub(crate) fn too_long(handed: &Handed) -> bool {
    handed.profile.len() > MOST_OF_A_PROFILE || handed.codestream > MOST_OF_A_CODESTREAM
}

/// 30, of bytes that need so much room.
pub(crate) fn too_short(handed: &Handed, needed: usize) -> bool {
    handed.room < needed
}

/// The records that can be put to the crate: as many as are counted but no more than one too many, those that are not in
/// the list as zeros, and a mark that the crate cannot hold as the largest that it can.
pub(crate) fn records(handed: &Handed) -> Vec<[u32; RECORD]> {
    let count = handed.count.min(MOST_COMPONENTS + 1) as usize;
    let listed = handed.components.chunks_exact(RECORD).take(count);
    let holdable = |record: &[u32]| {
        let mut numbers = [0; RECORD];
        numbers.copy_from_slice(record);
        numbers[MARK] = numbers[MARK].min(MOST_OF_A_MARK);
        numbers
    };
    let mut records: Vec<_> = listed.map(holdable).collect();
    records.resize(count, [0; RECORD]);
    records
}
