//! Writings one by one: what can be gone through whole.

use super::random::Random;
use super::writings::{spoil, Wrong, CODESTREAMS, LONG_CODESTREAMS, PRECISION, SIGN};
use crate::picture::NO_DATA;
use crate::written::{needed, Handed, MARK, RECORD};

/// A component of 2 by 3 samples.
fn component(precision: u32, sign: u32, mark: u32) -> [u32; RECORD] {
    let mut record = [1, 1, 2, 3, 0, 0, 0, 8, 0, 0, 0, NO_DATA, mark];
    (record[PRECISION], record[SIGN]) = (precision, sign);
    record
}

/// A picture of 2 by 3, without a profile, with a destination just long enough.
fn picture(components: &[[u32; RECORD]], space: u32) -> Handed {
    fitted(Handed {
        components: components.concat(),
        count: components.len() as u32,
        x1: 2,
        y1: 3,
        space,
        codestream: 100,
        ..Handed::default()
    })
}

/// The same with a destination just long enough; of no length where nothing is written.
fn fitted(handed: Handed) -> Handed {
    let room = needed(&handed).unwrap_or_default();
    Handed { room, ..handed }
}

/// Like components without sign and mark.
fn plain(count: usize) -> Vec<[u32; RECORD]> {
    vec![component(8, 0, 0); count]
}

fn with_profile(handed: Handed, length: usize) -> Handed {
    let profile = (0..length).map(|at| (at * 7 + 1) as u8).collect();
    fitted(Handed { profile, ..handed })
}

/// The number `number` written with `count` digits, each one of `digits`.
fn digits(number: usize, count: usize, digits: &[u32]) -> Vec<u32> {
    let digit = |at| digits[number / digits.len().pow(at) % digits.len()];
    (0..count as u32).map(digit).collect()
}

/// All lists of as many digits.
fn lists(count: usize, of: &'static [u32]) -> impl Iterator<Item = Vec<u32>> {
    (0..of.len().pow(count as u32)).map(move |number| digits(number, count, of))
}

const MARKS: [u32; 5] = [0, 1, 2, 65535, 65536];
const MARKED: [u32; 2] = [0, 1];

/// Every way to mark one to four components with 0, 1, 2, 65535 or 65536, and five to seven with 0 or 1, in the colour
/// spaces 0 to 6 and with a profile.
pub fn mark_patterns() -> impl Iterator<Item = Handed> {
    let few = (1..=4).flat_map(|count| lists(count, &MARKS));
    let many = (5..=7).flat_map(|count| lists(count, &MARKED));
    few.chain(many).flat_map(|marks| {
        let components: Vec<_> = marks.iter().map(|mark| component(8, 0, *mark)).collect();
        let spaces = (0..=6).map({
            let components = components.clone();
            move |space| picture(&components, space)
        });
        let profiled = (1..=3).map(move |space| with_profile(picture(&components, space), 7));
        spaces.chain(profiled)
    })
}

const DEPTHS: [u32; 9] = [0, 1, 8, 9, 37, 38, 39, 129, 166];

/// Every precision from 0 to 300 with the signs 0 to 3; all pairs of precisions next to which something changes, with
/// all signs; all triples, with one of eight ways to have signs each.
pub fn depths() -> impl Iterator<Item = Handed> {
    let single = (0..=300).flat_map(|precision| {
        (0..=3).map(move |sign| picture(&[component(precision, sign, 0)], 2))
    });
    let pairs = lists(2, &DEPTHS).flat_map(|depths| {
        lists(2, &[0, 1, 2]).map(move |signs| {
            let component = |at: usize| component(depths[at], signs[at], 0);
            picture(&[component(0), component(1)], 2)
        })
    });
    let triples = lists(3, &DEPTHS).enumerate().map(|(number, depths)| {
        let signs = digits(number, 3, &MARKED);
        let component = |at: usize| component(depths[at], signs[at], 0);
        picture(&[component(0), component(1), component(2)], 1)
    });
    single.chain(pairs).chain(triples)
}

/// Pictures with each box that can be there or not.
fn models() -> Vec<Handed> {
    let grey = picture(&plain(1), 2);
    let different = [component(8, 0, 0), component(12, 1, 0), component(8, 0, 0)];
    let opacity = [plain(3), vec![component(8, 0, 1)]].concat();
    let both = [component(8, 0, 0), component(12, 1, 2)];
    vec![
        with_profile(picture(&plain(3), 1), 300),
        with_profile(picture(&different, 1), 1),
        picture(&different, 3),
        picture(&opacity, 1),
        picture(&both, 2),
        grey,
    ]
}

const CORNERS: [u32; 7] = [0, 1, 2, 0x7fff_ffff, 0x8000_0000, 0xffff_fffe, 0xffff_ffff];

/// All corners next to which something changes.
pub fn corners() -> impl Iterator<Item = Handed> {
    let model = picture(&plain(1), 2);
    lists(4, &CORNERS).map(move |corners| Handed {
        x0: corners[0],
        y0: corners[1],
        x1: corners[2],
        y1: corners[3],
        ..model.clone()
    })
}

/// Every length of the destination and of the list of components around what is needed; colour spaces, lengths of
/// profiles and of codestreams.
pub fn writing_edges() -> impl Iterator<Item = Handed> {
    let rooms = models().into_iter().flat_map(|model| {
        (0..=model.room + 3).map(move |room| Handed {
            room,
            ..model.clone()
        })
    });
    let listed = models().into_iter().flat_map(|model| {
        (0..=model.components.len() + RECORD + 1).map(move |length| {
            let mut changed = model.clone();
            changed.components.resize(length, 1);
            changed
        })
    });
    let spaces = models().into_iter().flat_map(|model| {
        let beyond = [255, 256, 257, 258, 259, 0x7fff_ffff, 0x8000_0001, u32::MAX];
        let spaces = (0..=40).chain(beyond);
        spaces.map(move |space| {
            fitted(Handed {
                space,
                ..model.clone()
            })
        })
    });
    let profiles = models().into_iter().flat_map(|model| {
        let lengths = (0..=40).chain([127, 128, 255, 256, 257, 300, 65535, 65536]);
        lengths.map(move |length| with_profile(model.clone(), length))
    });
    let codestreams = models().into_iter().flat_map(|model| {
        let lengths = CODESTREAMS.into_iter().chain(LONG_CODESTREAMS);
        lengths.map(move |codestream| Handed {
            codestream,
            ..model.clone()
        })
    });
    let first = rooms.chain(listed).chain(spaces);
    first.chain(profiles).chain(codestreams)
}

/// What can be wrong with a writing, in every combination and several ways each.
pub fn wrong_together() -> impl Iterator<Item = Handed> {
    (0..64u64).flat_map(|bits| {
        let has = |bit: u64| bits & bit != 0;
        let wrong = Wrong {
            count: has(1),
            list: has(2),
            component: has(4),
            size: has(8),
            length: has(16),
            room: has(32),
        };
        let ways = (0..8).flat_map(|_| models()).enumerate();
        ways.map(move |(way, mut model)| {
            spoil(&mut model, wrong, &mut Random::new(bits, way as u64));
            model
        })
    })
}

/// Counts of components up to more than there may be, whole in their list and not; the longest profile, and longer ones.
pub fn large_writings() -> impl Iterator<Item = Handed> {
    let counts = [254, 255, 256, 257, 16383, 16384, 16385].map(|count| {
        let mut components = plain(count);
        components[count - 1][MARK] = 1;
        let alike = picture(&components, 1);
        components[count - 2][PRECISION] = 9;
        let different = picture(&components, 1);
        let mut short = different.clone();
        short.components.pop();
        let roomless = Handed {
            room: different.room.saturating_sub(1),
            ..different.clone()
        };
        components[count - 1][SIGN] = 2;
        let misfit = picture(&components, 1);
        [alike, different, short, roomless, misfit]
    });
    let beyond = [0, 16386, 65535, 65536, 65537, 0x7fff_ffff, u32::MAX].map(|count| Handed {
        count,
        ..picture(&plain(2), 1)
    });
    let profiles = [16777214, 16777215, 16777216, 16777217].map(|length| {
        let long = with_profile(picture(&plain(3), 1), length);
        let roomless = Handed {
            room: long.room.saturating_sub(1),
            ..long.clone()
        };
        [long, roomless]
    });
    let counts = counts.into_iter().flatten().chain(beyond);
    counts.chain(profiles.into_iter().flatten())
}
