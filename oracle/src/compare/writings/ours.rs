//! The port's writing, as its static library gives it.

use crate::ours::{NO_ROOM, UNWRITTEN};
use crate::writer::{self, Request};
use oracle::written::Handed;

/// So much stands behind each list that the port writes to, and has to stay.
const BEHIND: usize = 16;

/// The port's answer and the destination, whole and with what stands behind them.
pub struct Written {
    /// What the function returned.
    pub returned: u32,
    pub answer: Vec<u64>,
    pub bytes: Vec<u8>,
}

/// What stands in the destination before. It does not repeat every 256 bytes.
pub fn pattern(index: usize) -> u8 {
    (0xa5 ^ (index as u32).wrapping_mul(0x9e37_79b1) >> 11) as u8
}

/// Hands the port a list of `length` numbers for its answer.
pub fn write(handed: &Handed, length: usize) -> Written {
    let mut written = Written {
        returned: 0,
        answer: vec![UNWRITTEN; length + BEHIND],
        bytes: (0..handed.room + BEHIND).map(pattern).collect(),
    };
    let request = Request {
        components: &handed.components,
        count: handed.count,
        corners: [handed.x0, handed.y0, handed.x1, handed.y1],
        space: handed.space,
        profile: &handed.profile,
        codestream: handed.codestream,
    };
    written.returned = writer::write(
        &request,
        &mut written.bytes[..handed.room],
        &mut written.answer[..length],
    );
    written
}

/// Whether the port writes nothing at all where its list for the answer is as short as this, and says so.
pub fn minds_its_answer(handed: &Handed, length: usize) -> bool {
    let written = write(handed, length);
    let mut bytes = written.bytes.iter().enumerate();
    written.returned == NO_ROOM
        && written.answer.iter().all(|number| *number == UNWRITTEN)
        && bytes.all(|(index, byte)| *byte == pattern(index))
}
