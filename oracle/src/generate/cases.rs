//! Child boxes, case by case: every edge of each kind, wherever the boxes then stand.

use super::boxes::{plain, BPCC, CDEF, CMAP, COLR, IHDR, PCLR};
use super::contents::{cdef, cmap, colr, enumerated, ihdr, pclr, row_bytes};

/// Child boxes in their order.
pub(super) type Children = Vec<Vec<u8>>;

pub(super) fn small_ihdr() -> Vec<u8> {
    plain(IHDR, &ihdr(3, 2, 2, [255, 7, 0, 1]))
}

/// One child of each kind, right in this order.
pub(super) fn children() -> [Vec<u8>; 6] {
    [
        small_ihdr(),
        plain(BPCC, &[7, 0x83]),
        plain(COLR, &enumerated(17, &[])),
        plain(PCLR, &pclr(2, 2, &[7, 0x8f], &[1, 2, 3, 4, 5, 6])),
        plain(CMAP, &cmap(&[(0, 1, 0), (0, 1, 1)])),
        plain(CDEF, &cdef(1, &[[0, 0, 1]])),
    ]
}

/// The edges of `ihdr`, every length of it up to 16, and `bpcc` before and after it.
pub(super) fn image_headers() -> Vec<Children> {
    let rest = [7, 7, 0, 0];
    let counts = [0, 1, 2, 16383, 16384, 16385, 32768, 65535];
    let mut contents: Vec<_> = counts
        .iter()
        .flat_map(|count| {
            let sides = [(0, 2), (2, 0), (1, 1), (u32::MAX, u32::MAX)];
            sides.map(|(height, width)| ihdr(height, width, *count, rest))
        })
        .collect();
    let right = [&ihdr(3, 2, 1, rest)[..], &[0, 0]].concat();
    contents.extend(cuts(&right));
    let mut cases: Vec<_> = contents
        .iter()
        .map(|content| vec![plain(IHDR, content)])
        .collect();
    for many in 0..4 {
        let bpcc = plain(BPCC, &[7, 8, 9][..many]);
        cases.push(vec![bpcc.clone(), small_ihdr()]);
        cases.push(vec![small_ihdr(), bpcc.clone()]);
        cases.push(vec![small_ihdr(), plain(BPCC, &[1, 2]), bpcc]);
    }
    cases
}

/// Every method with few bytes and with more, every length of the CIELab parameters up to 40, and a second `colr`.
pub(super) fn colours() -> Vec<Children> {
    let methods = (0..=255).flat_map(|method| {
        [&[][..], &[0; 3], &[0; 4], &[0; 9]].map(|rest| colr([method, 1, 2], rest))
    });
    let tail: Vec<u8> = (1..=40).collect();
    let labs = (0..=40).map(|many| enumerated(14, &tail[..many]));
    let short = cuts(&[1, 0]);
    let contents: Vec<_> = methods.chain(labs).chain(short).collect();
    let alone = contents
        .iter()
        .map(|content| vec![small_ihdr(), plain(COLR, content)]);
    let after = contents.iter().map(|content| {
        let held = plain(COLR, &enumerated(16, &[]));
        vec![small_ihdr(), held, plain(COLR, content)]
    });
    let before = contents.iter().map(|content| {
        let later = plain(COLR, &colr([2, 8, 9], &[1, 2, 3]));
        vec![small_ihdr(), plain(COLR, content), later]
    });
    alone.chain(after).chain(before).collect()
}

/// Every width byte and every number of columns, each also one byte short.
pub(super) fn palettes() -> Vec<Children> {
    let contents = (0..=255).flat_map(|width| {
        let columns = vec![7; width.into()];
        [&[width][..], &[width, 7, !width], &columns].map(|widths| palette(1, widths))
    });
    with_short(&contents.collect::<Vec<_>>())
}

/// The edges of the number of entries, each also one byte short, and a palette with spare bytes and every cut of it.
pub(super) fn palette_sizes() -> Vec<Children> {
    let entries = [0, 1, 2, 255, 256, 1023, 1024, 1025, 1026, 65535];
    let claims = |entries: u16| pclr(entries, 1, &[7], &[1, 2, 3]);
    let contents = entries.iter().map(|entries| match entries {
        ..=1026 => palette(*entries, &[7]),
        _ => claims(*entries),
    });
    let spare = [&palette(2, &[7, 0x88])[..], &[1, 2]].concat();
    with_short(&contents.chain(cuts(&spare)).collect::<Vec<_>>())
}

/// These palettes, and each less its last byte.
fn with_short(palettes: &[Vec<u8>]) -> Vec<Children> {
    let case = |content: &[u8]| vec![small_ihdr(), plain(PCLR, content)];
    let both = palettes.iter().flat_map(|content| {
        let short = content.len().saturating_sub(1);
        [case(content), case(&content[..short])]
    });
    both.collect()
}

fn palette(entries: u16, widths: &[u8]) -> Vec<u8> {
    let many = row_bytes(widths) * usize::from(entries);
    let rows: Vec<u8> = (0..many).map(|at| (at + 1) as u8).collect();
    pclr(entries, widths.len() as u8, widths, &rows)
}

/// Every length of `cmap` and `cdef` from none to too long, with a few counts.
pub(super) fn mappings_and_definitions() -> Vec<Children> {
    let mut cases = Vec::new();
    for columns in 1..=3 {
        let palette = plain(PCLR, &palette(1, &vec![7; columns]));
        let bytes: Vec<u8> = (0..4 * columns as u8 + 2).collect();
        for content in cuts(&bytes) {
            cases.push(vec![small_ihdr(), palette.clone(), plain(CMAP, &content)]);
        }
    }
    for count in [0, 1, 2, 3, 65535] {
        let definitions = [[0, 0, 1], [1, 1, 0], [65535, 2, 65535]];
        for content in cuts(&cdef(count, &definitions)) {
            cases.push(vec![small_ihdr(), plain(CDEF, &content)]);
        }
    }
    cases
}

/// A second box of each kind, with every length of its content.
pub(super) fn repeated_and_cut() -> Vec<Children> {
    let children = children();
    let mut cases = Vec::new();
    for (at, child) in children.iter().enumerate() {
        let (header, content) = child.split_at(8);
        let kind = u32::from_be_bytes([header[4], header[5], header[6], header[7]]);
        for content in cuts(content) {
            cases.push([&children[..=at], &[plain(kind, &content)]].concat());
        }
    }
    cases
}

/// A content, and every beginning of it.
pub(super) fn cuts(content: &[u8]) -> Vec<Vec<u8>> {
    let beginning = |end| content[..end].to_vec();
    (0..=content.len()).map(beginning).collect()
}
