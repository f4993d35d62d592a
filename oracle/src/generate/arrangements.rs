//! Pictures that can be gone through whole: lists of definitions, lists of mappings, widths of a palette, and edges.

use super::boxes::{plain, CDEF, CMAP, IHDR, PCLR};
use super::contents::{cdef, cmap, ihdr, pclr, row_bytes};
use super::pictures::fitting;
use super::systematic::picture;
use crate::picture::{Component, FinishingRequest, Props, NO_DATA};

/// A definition: channel, typ, asoc.
pub type Definition = [u16; 3];

/// A mapping: component, type, column.
type Mapping = (u16, u8, u8);

/// Components of one sample each, no two alike.
fn components(count: usize) -> (Vec<u32>, Vec<i32>) {
    let component = |index: usize| Component {
        props: Props {
            dx: 1 + index as u32,
            w: 1,
            h: 1,
            prec: 8,
            alpha: 100 + index as u16,
            ..Props::default()
        },
        data: index as u32,
    };
    let numbers = (0..count).flat_map(|index| component(index).numbers());
    let samples = (0..count).map(|index| index as i32);
    (numbers.collect(), samples.collect())
}

/// A picture of `count` such components, with these boxes behind `ihdr` and room enough.
fn request(count: usize, children: &[Vec<u8>]) -> FinishingRequest {
    let header = plain(
        IHDR,
        &ihdr(1, 1, count.clamp(1, 16384) as u16, [7, 7, 0, 0]),
    );
    let (components, samples) = components(count);
    let mut request = FinishingRequest {
        file: picture(&[&[header], children].concat()),
        components,
        count: count as u32,
        samples,
        ..FinishingRequest::default()
    };
    fit(&mut request);
    request
}

/// Gives a picture exactly the room that it needs.
fn fit(request: &mut FinishingRequest) {
    (request.records_room, request.samples_room) = fitting(request);
}

/// A picture of as many components, no two alike, with these definitions and room enough.
pub fn defined(channels: usize, definitions: &[Definition]) -> FinishingRequest {
    let content = cdef(definitions.len() as u16, definitions);
    request(channels, &[plain(CDEF, &content)])
}

/// All lists of one to three definitions over as many channels: each channel and one beyond, typ 0 to 2, and every
/// asoc up to one beyond the last colour, or 65535.
pub fn definition_lists(channels: usize) -> impl Iterator<Item = FinishingRequest> {
    let mut all = Vec::new();
    for channel in 0..=channels as u16 {
        for typ in 0..3 {
            let colours = (0..=channels as u16 + 1).chain([65535]);
            all.extend(colours.map(|asoc| [channel, typ, asoc]));
        }
    }
    let lists = (1..=3).flat_map(move |length| tuples(all.clone(), length));
    lists.map(move |definitions| defined(channels, &definitions))
}

/// All lists of `length` values of `from`.
fn tuples<T: Copy>(from: Vec<T>, length: u32) -> impl Iterator<Item = Vec<T>> {
    let base = from.len();
    (0..base.pow(length)).map(move |number| {
        let digit = |place| from[number / base.pow(place) % base];
        (0..length).map(digit).collect()
    })
}

/// Every order of lists of three and four definitions over four channels: every colour for each channel, channel 0
/// without a definition, and sets in which colours clash, are named twice, or are mixed with opacities and with
/// definitions that name no colour.
pub fn definition_orders() -> impl Iterator<Item = FinishingRequest> {
    let sets = colours().into_iter().chain(without_channel_0());
    let sets = sets.chain(CLASHING.map(Vec::from));
    sets.flat_map(|set| orders(&set))
        .map(|definitions| defined(4, &definitions))
}

/// Each of the 24 ways to give four channels four colours.
fn colours() -> Vec<Vec<Definition>> {
    let colours = orders(&[1, 2, 3, 4]);
    let set = |colours: &Vec<u16>| {
        let channels = colours.iter().zip(0..);
        channels
            .map(|(colour, channel)| [channel, 0, *colour])
            .collect()
    };
    colours.iter().map(set).collect()
}

/// Channels 1 to 3, with all colours, the same ones too.
fn without_channel_0() -> Vec<Vec<Definition>> {
    let colours = tuples(vec![1, 2, 3, 4], 3);
    let set = |colours: Vec<u16>| vec![[1, 0, colours[0]], [2, 0, colours[1]], [3, 0, colours[2]]];
    colours.map(set).collect()
}

const CLASHING: [[Definition; 4]; 18] = [
    [[0, 0, 1], [1, 0, 1], [2, 0, 1], [3, 0, 1]],
    [[0, 0, 2], [1, 0, 2], [2, 0, 1], [3, 0, 1]],
    [[0, 0, 4], [1, 0, 3], [2, 0, 3], [3, 0, 1]],
    [[0, 0, 2], [1, 0, 3], [2, 0, 4], [3, 0, 4]],
    [[0, 1, 0], [1, 0, 1], [2, 0, 2], [3, 0, 3]],
    [[0, 0, 3], [1, 1, 0], [2, 0, 1], [3, 2, 65535]],
    [[0, 2, 1], [1, 0, 1], [2, 0, 3], [3, 0, 2]],
    [[0, 1, 4], [1, 1, 3], [2, 1, 2], [3, 1, 1]],
    [[0, 1, 1], [1, 0, 4], [2, 2, 3], [3, 0, 1]],
    [[0, 0, 0], [1, 0, 65535], [2, 0, 1], [3, 0, 2]],
    [[0, 65535, 65535], [1, 0, 1], [2, 1, 65535], [3, 0, 2]],
    [[0, 7, 0], [1, 8, 0], [2, 9, 0], [3, 10, 0]],
    [[1, 0, 1], [1, 0, 2], [2, 0, 1], [3, 0, 4]],
    [[1, 0, 2], [1, 1, 0], [2, 0, 1], [3, 0, 3]],
    [[1, 0, 4], [2, 0, 4], [3, 0, 4], [3, 0, 1]],
    [[1, 2, 0], [2, 0, 1], [3, 0, 1], [3, 1, 65535]],
    [[1, 0, 3], [2, 0, 2], [3, 0, 1], [1, 1, 3]],
    [[1, 0, 1], [2, 0, 2], [3, 0, 3], [3, 5, 4]],
];

/// The list in every order, none twice.
pub(super) fn orders<T: Copy + Ord>(list: &[T]) -> Vec<Vec<T>> {
    if list.is_empty() {
        return vec![Vec::new()];
    }
    let mut all = Vec::new();
    for first in 0..list.len() {
        let mut rest = list.to_vec();
        let chosen = rest.remove(first);
        all.extend(
            orders(&rest)
                .into_iter()
                .map(|rest| [&[chosen], &rest[..]].concat()),
        );
    }
    all.sort();
    all.dedup();
    all
}

/// A palette of as many columns and two entries, and the mappings.
fn palette(widths: &[u8], mappings: &[Mapping]) -> [Vec<u8>; 2] {
    let rows: Vec<u8> = (0..2 * row_bytes(widths))
        .map(|at| (37 * at + 129) as u8)
        .collect();
    [
        plain(PCLR, &pclr(2, widths.len() as u8, widths, &rows)),
        plain(CMAP, &cmap(mappings)),
    ]
}

/// All lists of mappings for one to three columns and no more than two components: components 0 to 2, types 0 to 2,
/// columns 0 to 3.
pub fn mapping_lists() -> impl Iterator<Item = FinishingRequest> {
    let mut all = Vec::new();
    for component in 0..3 {
        for kind in 0..3 {
            all.extend((0..4).map(|column| (component, kind, column)));
        }
    }
    let lists = (1..=3).flat_map(move |length| tuples(all.clone(), length));
    lists.flat_map(|mappings| {
        let widths = [7, 0x88, 31];
        let children = palette(&widths[..mappings.len()], &mappings);
        (0..3).map(move |count| request(count, &children))
    })
}

/// Every width byte of a palette, alone and beside others, with samples below, in and above the entries.
pub fn palette_widths() -> impl Iterator<Item = FinishingRequest> {
    (0..=255).flat_map(|width| {
        [&[width][..], &[width, 7, !width]].map(|widths| {
            let mappings: Vec<_> = (0..widths.len() as u8)
                .map(|column| (0, 1, column))
                .collect();
            let mut wide = request(1, &palette(widths, &mappings));
            wide.components[2] = 4;
            wide.samples = vec![-1, 0, 1, 2];
            fit(&mut wide);
            wide
        })
    })
}

/// Entries of 4 bytes on both sides of 2^31, and the last entry of the longest palette, with samples just below, at and
/// above it.
pub fn palette_edges() -> Vec<FinishingRequest> {
    let large = [0x7fff_ffff_u32, 0x8000_0000, u32::MAX].map(u32::to_be_bytes);
    let rows: Vec<u8> = (0..1024).map(|row| (row % 251) as u8).collect();
    [
        (3, 31, large.concat(), vec![-1, 0, 1, 2, 3]),
        (1024, 7, rows, vec![1022, 1023, 1024]),
    ]
    .into_iter()
    .map(|(entries, width, rows, samples)| {
        let children = [
            plain(PCLR, &pclr(entries, 1, &[width], &rows)),
            plain(CMAP, &cmap(&[(0, 1, 0)])),
        ];
        let mut edge = request(1, &children);
        edge.components[2] = samples.len() as u32;
        edge.samples = samples;
        fitted(edge)
    })
    .collect()
}

/// Short lists and short destinations, each next to one that is just long enough, with and without the ignore flag.
pub fn picture_edges() -> Vec<FinishingRequest> {
    let mapped = [(0, 1, 0), (1, 0, 0), (0, 1, 2)];
    let mut children = palette(&[7, 7, 7], &mapped).to_vec();
    children.push(plain(CDEF, &cdef(3, &[[0, 0, 3], [1, 0, 2], [2, 0, 1]])));
    let mut all = Vec::new();
    for base in [request(2, &[]), request(2, &children), request(0, &[])] {
        for ignore in [0, 1, 2, u32::MAX] {
            let base = FinishingRequest {
                ignore,
                ..base.clone()
            };
            all.extend(lengths(&base));
            all.extend(counts(&base));
            all.extend(data(&base));
        }
    }
    all
}

/// Every length of each of the four lists up to a little more than is needed.
fn lengths(base: &FinishingRequest) -> Vec<FinishingRequest> {
    let mut base = base.clone();
    fit(&mut base);
    let mut all = Vec::new();
    for records_room in base.records_room.saturating_sub(14)..base.records_room + 2 {
        for samples_room in 0..base.samples_room + 2 {
            all.push(FinishingRequest {
                records_room,
                samples_room,
                ..base.clone()
            });
        }
    }
    for length in 0..base.components.len() + 2 {
        let mut short = base.clone();
        short.components.resize(length, 5);
        all.push(short);
    }
    for length in 0..base.samples.len() + 2 {
        let mut short = base.clone();
        short.samples.resize(length, 5);
        all.push(short);
    }
    all
}

/// Counts of components that the list has and has not. The third is 0 in 32 bits once it is taken 13 times.
fn counts(base: &FinishingRequest) -> Vec<FinishingRequest> {
    let counts = [
        1,
        3,
        330_382_100,
        16384,
        16385,
        65536,
        0x8000_0000,
        u32::MAX,
    ];
    let counted = counts.map(|count| FinishingRequest {
        count,
        ..base.clone()
    });
    counted.into_iter().map(fitted).collect()
}

fn fitted(mut request: FinishingRequest) -> FinishingRequest {
    fit(&mut request);
    request
}

/// Places and sides of each component next to which something changes.
fn data(base: &FinishingRequest) -> Vec<FinishingRequest> {
    let mut all = Vec::new();
    for index in 0..base.components.len() / 13 {
        for place in [0, 1, 2, 3, 0x7fff_ffff, NO_DATA - 1, NO_DATA] {
            for sides in SIDES {
                let mut moved = base.clone();
                let component = &mut moved.components[13 * index..];
                [component[2], component[3], component[11]] = [sides.0, sides.1, place];
                all.push(fitted(moved));
            }
        }
    }
    all
}

/// The last four have areas of 0 in 32 bits, or nearly.
const SIDES: [(u32, u32); 11] = [
    (0, 0),
    (1, 1),
    (2, 1),
    (1, 2),
    (0, 7),
    (0, u32::MAX),
    (u32::MAX, 0),
    (65536, 65536),
    (u32::MAX, u32::MAX),
    (0x8000_0000, 2),
    (0xffff_0000, 0x0001_0001),
];

/// Pictures with as much as there can be of something.
pub fn large_pictures() -> Vec<FinishingRequest> {
    let reversed = |channels: u16| {
        let definitions = (0..channels).map(|channel| [channel, 0, channels - channel]);
        definitions.collect::<Vec<_>>()
    };
    let many = (0..65535u16).map(|number| [number % 4, 0, 1 + number / 4 % 4]);
    let widths = [7; 255];
    let columns: Vec<_> = (0..255).map(|column| (0, 1, column)).collect();
    let mut all = vec![
        request(16384, &[]),
        request(16385, &[]),
        defined(16384, &reversed(16384)),
        defined(16384, &reversed(16383)),
        defined(4, &many.collect::<Vec<_>>()),
        request(1, &palette(&widths, &columns)),
        thousand_entries(),
        FinishingRequest {
            ignore: 1,
            ..request(16384, &[])
        },
    ];
    all.extend([262_143, 262_144, 1_000_000].map(overlapping));
    all
}

/// A palette of 1024 entries and three columns, and all samples around it.
fn thousand_entries() -> FinishingRequest {
    let widths = [7, 0x8f, 31];
    let rows: Vec<u8> = (0..1024 * row_bytes(&widths))
        .map(|at| (at * at >> 3) as u8)
        .collect();
    let mappings = [(0, 1, 0), (0, 1, 1), (0, 1, 2)];
    let children = [
        plain(PCLR, &pclr(1024, 3, &widths, &rows)),
        plain(CMAP, &cmap(&mappings)),
    ];
    let mut request = request(1, &children);
    request.samples = (-2..1027).collect();
    request.components[2] = request.samples.len() as u32;
    fitted(request)
}

/// 16384 components with the same samples, as many as `area`, so that what they need does not fit into 32 bits, or only
/// just; the destination has no room.
fn overlapping(area: u32) -> FinishingRequest {
    let mut request = request(16384, &[]);
    for component in request.components.chunks_exact_mut(13) {
        [component[2], component[3], component[11]] = [area, 1, 0];
    }
    request.samples = vec![7; area as usize];
    request.samples_room = 0;
    request
}
