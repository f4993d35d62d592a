//! Pictures to finish, the same for the same seed: a file, components with their samples, and two destinations.
//!
//! Half of them have nothing wrong. In the others several things can be wrong at once, so that the order of the tests
//! shows too.

use super::colouring::Painter;
use super::planes::Planes;
use super::random::Random;
use super::Generator;
use crate::finished::needed;
use crate::picture::FinishingRequest;

/// Pictures from a seed. Each is made from the seed and its number alone.
pub struct Pictures {
    seed: u64,
    files: Generator,
}

/// Keeps the numbers for pictures apart from those for files of the same seed.
const APART: u64 = 0x7069_6374_7572_6573;

/// What can be wrong with a picture, each a bit.
#[derive(Clone, Copy)]
pub(super) enum Trouble {
    /// 25
    Misnamed = 1,
    /// 26
    Undefined = 2,
    /// 27
    Mismapped = 4,
    /// 28
    Dataless = 8,
    /// 29
    Outside = 16,
    /// 30
    Short = 32,
}

const TROUBLES: [Trouble; 6] = [
    Trouble::Misnamed,
    Trouble::Undefined,
    Trouble::Mismapped,
    Trouble::Dataless,
    Trouble::Outside,
    Trouble::Short,
];

/// What is to be wrong with one picture.
#[derive(Clone, Copy, Default)]
pub(super) struct Troubles(u8);

impl Troubles {
    fn any(random: &mut Random) -> Self {
        let mut troubles = Troubles::default();
        if random.one_in(2) {
            return troubles;
        }
        for trouble in TROUBLES {
            if random.one_in(4) {
                troubles.0 |= trouble as u8;
            }
        }
        troubles
    }

    pub(super) fn has(self, trouble: Trouble) -> bool {
        self.0 & trouble as u8 != 0
    }
}

impl Pictures {
    pub fn new(seed: u64) -> Self {
        Pictures {
            seed,
            files: Generator::new(seed, &[]),
        }
    }

    pub fn picture(&self, number: u64) -> FinishingRequest {
        let mut random = Random::new(self.seed ^ APART, number);
        let troubles = Troubles::any(&mut random);
        let count = count(&mut random);
        let mut painter = Painter::new(&mut random, troubles, count);
        let mut file = painter.file();
        let entries = painter.entries();
        if random.one_in(16) {
            file = self.files.file(number);
        }
        let mut planes = Planes::new(&mut random, troubles, entries);
        planes.add(count);
        let (components, samples) = planes.lists();
        let mut request = FinishingRequest {
            file,
            ignore: ignore(&mut random),
            components,
            count: count as u32,
            samples,
            ..FinishingRequest::default()
        };
        if troubles.has(Trouble::Outside) {
            outside(&mut request, &mut random);
        }
        give_room(&mut request, troubles, &mut random);
        request
    }
}

/// How many components; seldom many.
fn count(random: &mut Random) -> usize {
    match random.below(4000) {
        0 => random.pick(&[16383, 16384, 16385]),
        1..=30 => 100 + random.below(200),
        31..=150 => 0,
        _ => random.pick(&[1, 1, 1, 2, 2, 3, 3, 3, 4, 4, 5, 6]),
    }
}

fn ignore(random: &mut Random) -> u32 {
    match random.below(12) {
        0 => random.pick(&[1, 1, 1, 2, 256, u32::MAX]),
        _ => 0,
    }
}

/// A list that is too short for what is said of it, or more records than there may be.
fn outside(request: &mut FinishingRequest, random: &mut Random) {
    match random.below(6) {
        0 => {
            let left = request
                .components
                .len()
                .saturating_sub(1 + random.below(13));
            request.components.truncate(left);
        }
        1 => request.count += 1 + random.below(2) as u32,
        2 => request.count = random.pick(&[16385, 330_382_100, 0x8000_0000, u32::MAX]),
        3 => {
            let left = request.samples.len().saturating_sub(1);
            request.samples.truncate(left);
        }
        4 => request.samples.clear(),
        _ => displace(request, random),
    }
}

/// Moves a plane past the samples, by one or far, or makes it too large.
fn displace(request: &mut FinishingRequest, random: &mut Random) {
    let many = request.components.len() / 13;
    if many == 0 {
        return;
    }
    let component = &mut request.components[13 * random.below(many)..][..13];
    let samples = request.samples.len() as u32;
    match random.below(6) {
        0 => component[11] = samples + 1,
        1 => component[11] = samples.saturating_sub(component[2] * component[3]) + 1,
        2 => component[11] = random.pick(&[0x7fff_ffff, 0x8000_0000, u32::MAX - 1]),
        3 => component[2] += 1 + samples,
        4 => (component[2], component[3]) = (u32::MAX, u32::MAX),
        // 2^32 samples, none in 32 bits.
        _ => (component[2], component[3]) = (65536, 65536),
    }
}

/// No destination for samples is made longer.
const MOST_ROOM: u64 = 1 << 24;

/// The lengths that the finished records and samples of a picture need; 0 where there are none, or too many to try.
pub(super) fn fitting(request: &FinishingRequest) -> (usize, usize) {
    let (records, samples) = needed(request).unwrap_or_default();
    let samples = if samples > MOST_ROOM { 0 } else { samples };
    (records, samples as usize)
}

/// Destinations that are long enough, unless one is to be too short.
fn give_room(request: &mut FinishingRequest, troubles: Troubles, random: &mut Random) {
    let (records, samples) = fitting(request);
    request.records_room = records + random.pick(&[0, 0, 0, 1, 12, 13, 40]);
    request.samples_room = samples + random.pick(&[0, 0, 0, 1, 2, 30]);
    if !troubles.has(Trouble::Short) {
        return;
    }
    match random.below(6) {
        0 => request.records_room = 0,
        1 => request.records_room = records.saturating_sub(1 + random.below(13)),
        2 => request.samples_room = 0,
        3 => request.samples_room = samples.saturating_sub(1 + random.below(4)),
        4 => (request.records_room, request.samples_room) = (0, 0),
        _ => request.samples_room = samples.saturating_sub(1),
    }
}
