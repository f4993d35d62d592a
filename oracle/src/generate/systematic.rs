//! What can be gone through whole: orders, lengths, cuts, widths and counts.

use super::boxes::{
    boxed, plain, Length, CDEF, CHILDREN, CMAP, COLR, FREE, FTYP, IHDR, JP, JP2C, JP2H, SKIPPED,
};
use super::cases::{self, children, cuts, small_ihdr};
use super::contents::{cdef, colr, ftyp, ihdr, MAGIC};

/// All files of this module.
pub fn systematic() -> Vec<Vec<u8>> {
    [orders(), edges(), tables(), large()].concat()
}

/// Every count next to which something changes, inside `jp2h` and outside, every box twice, and every cut of a file
/// with all boxes.
pub fn edges() -> Vec<Vec<u8>> {
    let cases = [
        cases::image_headers(),
        cases::palette_sizes(),
        cases::mappings_and_definitions(),
        cases::repeated_and_cut(),
    ]
    .concat();
    let both = cases
        .iter()
        .flat_map(|children| [picture(children), strewn(children)]);
    both.chain(repeated())
        .chain(second_headers())
        .chain(signatures_and_types())
        .chain(cuts(&everything()))
        .chain(cuts(&everything_extended()))
        .collect()
}

/// Every kind with every small length, every method of `colr`, every width and number of columns of a palette.
pub fn tables() -> Vec<Vec<u8>> {
    let cases = [cases::colours(), cases::palettes()].concat();
    let pictures = cases.iter().map(|children| picture(children));
    lengths().into_iter().chain(pictures).collect()
}

/// Every order of the boxes of a file, and every order of the boxes inside `jp2h`.
pub fn orders() -> Vec<Vec<u8>> {
    let outer = [
        plain(JP, &MAGIC),
        file_type(),
        jp2h(&[small_ihdr()]),
        plain(COLR, &colr([3, 4, 5], &[])),
        plain(FREE, &[]),
        plain(JP2C, &[]),
    ];
    let files = permutations(&outer).into_iter().map(|boxes| boxes.concat());
    let inner = permutations(&children());
    files
        .chain(inner.iter().map(|children| picture(children)))
        .collect()
}

fn permutations(boxes: &[Vec<u8>]) -> Vec<Vec<Vec<u8>>> {
    if boxes.is_empty() {
        return vec![Vec::new()];
    }
    let mut all = Vec::new();
    for first in 0..boxes.len() {
        let mut rest = boxes.to_vec();
        let chosen = rest.remove(first);
        for mut order in permutations(&rest) {
            order.insert(0, chosen.clone());
            all.push(order);
        }
    }
    all
}

fn file_type() -> Vec<u8> {
    plain(FTYP, &ftyp(0x6a70_3220, 0, &[0x6a70_3220]))
}

pub(super) fn start() -> Vec<u8> {
    [plain(JP, &MAGIC), file_type()].concat()
}

fn jp2h(children: &[Vec<u8>]) -> Vec<u8> {
    plain(JP2H, &children.concat())
}

/// A file whose `jp2h` holds these children.
pub(super) fn picture(children: &[Vec<u8>]) -> Vec<u8> {
    [start(), jp2h(children), plain(JP2C, &[])].concat()
}

/// A file without `jp2h` in which these boxes are read all the same, because an unknown box comes before them.
fn strewn(children: &[Vec<u8>]) -> Vec<u8> {
    [
        start(),
        plain(FREE, &[]),
        children.concat(),
        plain(JP2C, &[]),
    ]
    .concat()
}

/// Every box, with a `jp2h` before and after others.
fn everything() -> Vec<u8> {
    let rest = [
        plain(FREE, &[1, 2]),
        plain(COLR, &colr([2, 0, 0], b"profile")),
        jp2h(&[small_ihdr(), plain(FREE, &[])]),
        plain(JP2C, &[0xff, 0x4f]),
    ];
    [start(), jp2h(&children()), rest.concat()].concat()
}

/// The same with extended lengths.
fn everything_extended() -> Vec<u8> {
    let extended = |kind, content: &[u8]| boxed(kind, Length::RightExtended, content);
    let children = [
        extended(IHDR, &ihdr(3, 2, 1, [7, 7, 0, 0])),
        extended(COLR, &colr([2, 0, 0], b"profile")),
        extended(FREE, &[]),
    ];
    [
        extended(JP, &MAGIC),
        extended(FTYP, &ftyp(0, 0, &[1, 2])),
        extended(JP2H, &children.concat()),
        extended(FREE, &[1, 2, 3]),
        extended(JP2C, &[]),
    ]
    .concat()
}

fn kinds() -> Vec<u32> {
    [&CHILDREN[..], &[JP, FTYP, JP2H, JP2C], &SKIPPED].concat()
}

/// Every kind with every small length, at the four places where a box can stand.
fn lengths() -> Vec<Vec<u8>> {
    let mut files = Vec::new();
    for kind in kinds() {
        for length in some_lengths() {
            let odd = boxed(kind, length, &[0, 0, 0, 8, 0, 0, 0, 0]);
            files.extend(everywhere(&odd));
        }
    }
    files
}

fn some_lengths() -> Vec<Length> {
    let fields = (0..=18).chain([u32::MAX]).map(Length::Field);
    let low = [0, 1, 7, 8, 14, 15, 16, 17, 24, 25, u32::MAX];
    let extended = low.iter().map(|low| Length::Extended(0, *low));
    let high = [(1, 0), (1, 16), (1, 24), (u32::MAX, u32::MAX)];
    let high = high.map(|(high, low)| Length::Extended(high, low));
    fields.chain(extended).chain(high).collect()
}

/// A box first in the file, after `ftyp`, in `jp2h` and after `jp2h`; more boxes follow.
fn everywhere(odd: &[u8]) -> [Vec<u8>; 4] {
    let header = jp2h(&[small_ihdr()]);
    let stream = plain(JP2C, &[]);
    let inside = jp2h(&[small_ihdr(), odd.to_vec(), plain(FREE, &[])]);
    [
        [odd, &start(), &header, &stream].concat(),
        [&start(), odd, &header, &stream].concat(),
        [start(), inside, stream.clone()].concat(),
        [&start(), &header, odd, &stream].concat(),
    ]
}

/// Every kind twice, at each pair of the places where a box can stand; also once without the boxes that it needs.
fn repeated() -> Vec<Vec<u8>> {
    let children = children();
    let mut files = Vec::new();
    for (at, child) in children.iter().enumerate() {
        let before = &children[..=at];
        let first = jp2h(before);
        let second = jp2h(&[small_ihdr(), child.clone()]);
        let inside = jp2h(&[before, &[child.clone()]].concat());
        for boxes in [
            [&first[..], child],
            [&first, &second],
            [child, &first],
            [&inside, &[]],
            [child, &[]],
        ] {
            let stream = plain(JP2C, &[]);
            files.push([&start(), boxes[0], boxes[1], &stream].concat());
            files.push([boxes[0], boxes[1], &stream].concat());
            files.push([&plain(JP, &MAGIC), boxes[0], boxes[1], &stream].concat());
        }
    }
    files
}

/// Two `jp2h`, each with and without an unknown child and an `ihdr`.
fn second_headers() -> Vec<Vec<u8>> {
    let unknown = plain(FREE, &[]);
    let headers = [
        jp2h(&[small_ihdr()]),
        jp2h(&[small_ihdr(), unknown.clone()]),
        jp2h(&[unknown]),
        jp2h(&[]),
    ];
    let pairs = headers
        .iter()
        .flat_map(|first| headers.iter().map(move |second| (first, second)));
    let file = |(first, second): (&Vec<u8>, &Vec<u8>)| {
        [&start(), &first[..], second, &plain(JP2C, &[])].concat()
    };
    pairs.map(file).collect()
}

/// Many boxes, and boxes far from the file's start, where a place takes more than 16 and more than 24 bits.
fn large() -> Vec<Vec<u8>> {
    let many = plain(FREE, &[]).repeat(300);
    let header = jp2h(&children());
    let stream = plain(JP2C, &[]);
    let bad = jp2h(&[small_ihdr(), plain(CMAP, &[])]);
    let mut files = vec![
        picture(&[
            small_ihdr(),
            many.clone(),
            plain(CDEF, &cdef(1, &[[0, 0, 1]])),
        ]),
        [start(), many, header.clone(), stream.clone()].concat(),
    ];
    for far in [65_500, 65_536, 16_777_216] {
        let before = [start(), plain(FREE, &vec![0; far])].concat();
        files.push([&before[..], &header, &stream].concat());
        files.push([&before[..], &bad].concat());
    }
    files
}

/// Every length of `jP` and `ftyp` up to a little more than enough, and every byte of `jP` changed.
fn signatures_and_types() -> Vec<Vec<u8>> {
    let rest = [jp2h(&[small_ihdr()]), plain(JP2C, &[])].concat();
    let mut jps = cuts(&[&MAGIC[..], &[0, 0]].concat());
    for at in 0..4 {
        let mut changed = MAGIC;
        changed[at] ^= 0x80;
        jps.push(changed.to_vec());
    }
    let jps = jps.iter().map(|content| plain(JP, content));
    let bytes: Vec<u8> = (0..20).collect();
    let types = cuts(&bytes);
    let types = types.iter().map(|content| plain(FTYP, content));
    let with_jp = jps.map(|jp| [jp, file_type(), rest.clone()].concat());
    let with_type = types.map(|kind| [plain(JP, &MAGIC), kind, rest.clone()].concat());
    with_jp.chain(with_type).collect()
}
