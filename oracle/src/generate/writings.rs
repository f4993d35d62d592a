//! Writings, the same for the same seed: components, a picture's corners, a colour space, a profile, a codestream's
//! length and a destination.
//!
//! Half of them have nothing wrong. In the others several things can be wrong at once, so that the order of the tests
//! shows too.

use super::random::Random;
use crate::written::{needed, Handed, MARK, RECORD};

/// Writings from a seed. Each is made from the seed and its number alone.
pub struct Writings {
    seed: u64,
}

/// Keeps the numbers for writings apart from those for files and pictures of the same seed.
const APART: u64 = 0x7772_6974_696e_6773;

/// Where in a component these stand.
pub(super) const PRECISION: usize = 6;
pub(super) const SIGN: usize = 8;

const PRECISIONS: [u32; 14] = [1, 2, 7, 8, 8, 8, 9, 10, 12, 16, 16, 32, 37, 38];
const WRONG_PRECISIONS: [u32; 12] = [
    0,
    0,
    39,
    39,
    40,
    128,
    129,
    136,
    166,
    167,
    0x8000_0000,
    u32::MAX,
];
const WRONG_SIGNS: [u32; 6] = [2, 2, 3, 128, 256, u32::MAX];
const MARKS: [u32; 8] = [1, 1, 1, 2, 65535, 65536, 65537, u32::MAX];
/// Counts that are refused.
const WRONG_COUNTS: [u32; 8] = [0, 0, 0, 16385, 16385, 65536, 330_382_100, u32::MAX];
pub(super) const CODESTREAMS: [u64; 8] = [0, 1, 7, 8, 300, 65536, 4261412862, 4261412863];
pub(super) const LONG_CODESTREAMS: [u64; 7] = [
    4261412864,
    4294967287,
    4294967288,
    4294967295,
    4294967296,
    4294967297,
    u64::MAX,
];

/// What is to be wrong with one writing.
#[derive(Clone, Copy, Debug, Default)]
pub(super) struct Wrong {
    /// 31
    pub(super) count: bool,
    /// 29
    pub(super) list: bool,
    /// 32
    pub(super) component: bool,
    /// 33
    pub(super) size: bool,
    /// 34
    pub(super) length: bool,
    /// 30
    pub(super) room: bool,
}

impl Wrong {
    fn any(random: &mut Random) -> Self {
        if random.one_in(2) {
            return Wrong::default();
        }
        Wrong {
            count: random.one_in(8),
            list: random.one_in(8),
            component: random.one_in(4),
            size: random.one_in(4),
            length: random.one_in(4),
            room: random.one_in(2),
        }
    }
}

impl Writings {
    pub fn new(seed: u64) -> Self {
        Writings { seed }
    }

    pub fn writing(&self, number: u64) -> Handed {
        let mut random = Random::new(self.seed ^ APART, number);
        let wrong = Wrong::any(&mut random);
        let count = count(&mut random);
        let mut handed = Handed {
            components: components(&mut random, count),
            count: count as u32,
            space: space(&mut random),
            profile: profile(&mut random),
            codestream: codestream(&mut random),
            ..Handed::default()
        };
        corners(&mut handed, &mut random);
        spoil(&mut handed, wrong, &mut random);
        handed
    }
}

/// How many components; seldom many.
fn count(random: &mut Random) -> usize {
    match random.below(4000) {
        0 => random.pick(&[16383, 16384, 16384]),
        1..=40 => random.pick(&[254, 255, 256, 257]),
        41..=100 => 7 + random.below(40),
        _ => random.pick(&[1, 1, 2, 2, 3, 3, 3, 4, 4, 4, 5, 6]),
    }
}

/// A list with as many components, or a little longer.
fn components(random: &mut Random, count: usize) -> Vec<u32> {
    let mut list: Vec<_> = (0..RECORD * count).map(|_| random.number()).collect();
    let equal = random.one_in(2).then(|| random.pick(&PRECISIONS));
    let sign = random.pick(&[Some(0), Some(0), Some(1), None]);
    for record in list.chunks_exact_mut(RECORD) {
        record[PRECISION] = equal.unwrap_or_else(|| random.pick(&PRECISIONS));
        record[SIGN] = sign.unwrap_or_else(|| random.below(2) as u32);
        record[MARK] = 0;
    }
    // Now and then one component alone differs in its precision.
    if random.one_in(6) {
        let alone = random.pick(&[0, count / 2, count - 1]);
        list[RECORD * alone + PRECISION] = random.pick(&PRECISIONS);
    }
    mark(&mut list, random, count);
    let more = random.pick(&[0, 0, 0, 1, 12, 13, 14]);
    list.extend((0..more).map(|_| random.number()));
    list
}

/// Most often one component is marked, the last or any.
fn mark(list: &mut [u32], random: &mut Random, count: usize) {
    let marked = match random.below(8) {
        0 | 1 => return,
        2 | 3 => vec![count - 1],
        4..=6 => vec![random.below(count)],
        _ => (0..count).filter(|_| random.one_in(2)).collect(),
    };
    for component in marked {
        list[RECORD * component + MARK] = random.pick(&MARKS);
    }
}

fn space(random: &mut Random) -> u32 {
    match random.below(10) {
        0 => random.number(),
        1 => random.pick(&[16, 17, 18, 257, 0x7fff_ffff, 0x8000_0001, u32::MAX]),
        _ => random.pick(&[0, 1, 1, 1, 2, 2, 3, 3, 4, 5, 6]),
    }
}

fn profile(random: &mut Random) -> Vec<u8> {
    if !random.one_in(4) {
        return Vec::new();
    }
    let length = random.pick(&[1, 2, 3, 4, 7, 128, 300, 300]);
    random.bytes(length)
}

fn codestream(random: &mut Random) -> u64 {
    match random.below(3) {
        0 => random.pick(&CODESTREAMS),
        1 => random.below(100_000) as u64,
        _ => random.below(4261412864) as u64,
    }
}

/// Corners in any order but never the same.
fn corners(handed: &mut Handed, random: &mut Random) {
    let mut pair = || {
        let (start, size) = (random.number(), random.number().max(1));
        let start = random.pick(&[0, 0, 1, start]);
        let size = random.pick(&[1, 2, 3, 255, 256, 65536, size, size]);
        (start, start.wrapping_add(size))
    };
    (handed.x0, handed.x1) = pair();
    (handed.y0, handed.y1) = pair();
}

/// Makes wrong what is to be wrong, and gives a destination.
pub(super) fn spoil(handed: &mut Handed, wrong: Wrong, random: &mut Random) {
    let fitting = needed(handed).unwrap_or_default();
    handed.room = fitting + random.pick(&[0, 0, 0, 1, 2, 8, 100]);
    if wrong.count {
        handed.count = random.pick(&WRONG_COUNTS);
    }
    if wrong.list {
        shorten(&mut handed.components, random);
    }
    if wrong.component {
        misfit(handed, random);
    }
    if wrong.size {
        let sides = 1 + random.below(3);
        if sides & 1 != 0 {
            handed.x1 = handed.x0;
        }
        if sides & 2 != 0 {
            handed.y1 = handed.y0;
        }
    }
    if wrong.length {
        handed.codestream = random.pick(&LONG_CODESTREAMS);
    }
    if wrong.room {
        let any = random.below(fitting.max(1));
        let shorter = [0, any, fitting.saturating_sub(8), fitting.saturating_sub(1)];
        handed.room = random.pick(&shorter);
    }
}

/// Takes numbers off the end of the list, so that a component is not whole.
fn shorten(list: &mut Vec<u32>, random: &mut Random) {
    let over = list.len() % RECORD + 1;
    let off = random.pick(&[1, over, over + 12, over + 13, list.len()]);
    list.truncate(list.len().saturating_sub(off));
}

/// Gives one or two components a precision or a sign that no component has.
fn misfit(handed: &mut Handed, random: &mut Random) {
    for _ in 0..1 + random.below(2) {
        let listed = handed.components.len() / RECORD;
        if listed == 0 {
            return;
        }
        let record = &mut handed.components[RECORD * random.below(listed)..][..RECORD];
        match random.below(2) {
            0 => record[PRECISION] = random.pick(&WRONG_PRECISIONS),
            _ => record[SIGN] = random.pick(&WRONG_SIGNS),
        }
    }
}
