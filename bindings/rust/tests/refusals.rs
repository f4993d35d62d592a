//! Refusals of reading, each with its place, and the marked cases of document 01 that pass.

mod common;

use common::{
    boxed, cdef, cmap, codestream, colr, extended, file, file_type, ihdr, join, pclr, signature,
};
use cuzhantir_jp2::{read, Cause, Method, Refused};

/// The offset of jp2h, and of its first child.
const JP2H: u64 = 32;
const FIRST: u64 = 40;
/// The offset of the child after an ihdr.
const SECOND: u64 = 62;

fn refused(file: &[u8]) -> (Cause, u64) {
    let Refused { cause, place } = read(file).expect_err("a refusal");
    (cause, place)
}

fn offset(file: &[u8]) -> Option<usize> {
    read(file)
        .unwrap_or_else(|refused| panic!("{refused}"))
        .codestream()
}

#[test]
fn the_empty_file_has_ended() {
    let header = read(&[]).expect("no refusal");
    assert_eq!(header.codestream(), None);
    assert_eq!(header.image(), None);
    assert_eq!(header.colour().method, Method::NotHeld);
}

#[test]
fn grey_2_by_3_has_its_codestream_at_85() {
    let grey = file(&[ihdr(2, 3, 1), colr(17)]);
    assert_eq!(grey.len(), 85);
    assert_eq!(offset(&grey), Some(85));
    let header = read(&grey).expect("a header");
    let image = header.image().expect("an ihdr");
    assert_eq!((image.h, image.w, image.numcomps), (2, 3, 1));
    assert_eq!(image.depth().map(|depth| depth.bits), Some(8));
}

#[test]
fn an_unknown_box_stands_for_jp2h() {
    let file = join(&[signature(), file_type(), boxed(b"free", &[]), codestream()]);
    assert_eq!(offset(&file), Some(48));
}

#[test]
fn boxes_in_the_wrong_order() {
    let wrong = [
        (codestream(), Cause::CodestreamBeforeHeader, 0),
        (
            join(&[signature(), file_type(), codestream()]),
            Cause::CodestreamBeforeHeader,
            32,
        ),
        (boxed(b"free", &[]), Cause::BoxBeforeSignature, 0),
        (
            join(&[signature(), boxed(b"free", &[])]),
            Cause::BoxBeforeFileType,
            12,
        ),
        (join(&[signature(), signature()]), Cause::SignatureWrong, 12),
        (
            boxed(b"jP  ", &[0x0d, 0x0a, 0x87, 0x0b]),
            Cause::SignatureWrong,
            0,
        ),
        (
            boxed(b"jP  ", &[0x0d, 0x0a, 0x87]),
            Cause::SignatureWrong,
            0,
        ),
        (file_type(), Cause::FileTypeWrong, 0),
        (
            join(&[signature(), boxed(b"ftyp", b"jp2 \0\0\0")]),
            Cause::FileTypeWrong,
            12,
        ),
        (
            join(&[signature(), boxed(b"ftyp", b"jp2 \0\0\0\0j")]),
            Cause::FileTypeWrong,
            12,
        ),
        (
            join(&[signature(), boxed(b"jp2h", &ihdr(1, 1, 1))]),
            Cause::HeaderBeforeFileType,
            12,
        ),
    ];
    for (file, cause, place) in wrong {
        assert_eq!(refused(&file), (cause, place));
    }
}

#[test]
fn lengths_of_boxes_in_the_file() {
    let start = join(&[signature(), file_type()]);
    let mut short = boxed(b"free", &[]);
    short[3] = 7;
    assert_eq!(
        refused(&join(&[start.clone(), short])),
        (Cause::LengthBelowHeader, JP2H)
    );
    let mut past = boxed(b"jp2h", &ihdr(1, 1, 1));
    past[3] += 1;
    assert_eq!(
        refused(&join(&[start.clone(), past])),
        (Cause::ContentPastFile, JP2H)
    );
    // a length of 2^32 and more ends the walk, and is no refusal
    let long = extended(b"free", 1 << 32, &[]);
    assert_eq!(offset(&join(&[start, long])), None);
}

#[test]
fn headers_of_boxes_in_jp2h() {
    let with = |child: Vec<u8>| refused(&file(&[ihdr(1, 1, 1), child]));
    let mut zero = boxed(b"free", &[]);
    zero[3] = 0;
    assert_eq!(with(zero), (Cause::ChildHeaderWrong, SECOND));
    assert_eq!(
        with(vec![0, 0, 0, 8, b'f', b'r', b'e']),
        (Cause::ChildHeaderWrong, SECOND)
    );
    assert_eq!(
        with(extended(b"free", 1 << 32, &[])),
        (Cause::ChildHeaderWrong, SECOND)
    );
    assert_eq!(
        with(extended(b"free", 15, &[])),
        (Cause::ChildLengthWrong, SECOND)
    );
    let mut past = boxed(b"free", &[]);
    past[3] = 9;
    assert_eq!(with(past), (Cause::ChildLengthWrong, SECOND));
    // an extended length of 16 is an empty content
    assert_eq!(
        offset(&file(&[ihdr(1, 1, 1), extended(b"free", 16, &[])])),
        Some(86)
    );
}

#[test]
fn ihdr_and_its_numbers() {
    assert_eq!(refused(&file(&[colr(17)])), (Cause::IhdrMissing, JP2H));
    assert_eq!(
        refused(&file(&[boxed(b"ihdr", &[1; 13])])),
        (Cause::IhdrLengthWrong, FIRST)
    );
    assert_eq!(
        refused(&file(&[boxed(b"ihdr", &[1; 15])])),
        (Cause::IhdrLengthWrong, FIRST)
    );
    for zero in [ihdr(0, 1, 1), ihdr(1, 0, 1), ihdr(1, 1, 0)] {
        assert_eq!(refused(&file(&[zero])), (Cause::IhdrZero, FIRST));
    }
    assert!(offset(&file(&[ihdr(1, 1, 16384)])).is_some());
    assert_eq!(
        refused(&file(&[ihdr(1, 1, 16385)])),
        (Cause::IhdrTooMany, FIRST)
    );
}

#[test]
fn colr_and_bpcc() {
    let with = |child: Vec<u8>| refused(&file(&[ihdr(1, 1, 2), child]));
    assert_eq!(with(boxed(b"colr", &[1, 0])), (Cause::ColrTooShort, SECOND));
    assert_eq!(
        with(boxed(b"colr", &[1, 0, 0, 0, 0, 0])),
        (Cause::ColrTooShort, SECOND)
    );
    assert_eq!(with(boxed(b"bpcc", &[7])), (Cause::BpccLengthWrong, SECOND));
    let three = file(&[ihdr(1, 1, 2), boxed(b"bpcc", &[7, 0x8b])]);
    let depths: Vec<_> = read(&three).expect("a header").depths().collect();
    assert_eq!((depths[0].bits, depths[0].signed), (8, false));
    assert_eq!((depths[1].bits, depths[1].signed), (12, true));
}

#[test]
fn colours_of_each_method() {
    let with = |content: &[u8]| file(&[ihdr(1, 1, 1), boxed(b"colr", content)]);
    let profile = with(&[2, 1, 3, 9, 8, 7]);
    let colour = read(&profile).expect("a header").colour();
    assert_eq!(colour.method, Method::Profile(&[9, 8, 7]));
    assert_eq!((colour.meth, colour.precedence, colour.approx), (2, 1, 3));

    let none = with(&[3, 1, 2]);
    let colour = read(&none).expect("a header").colour();
    assert_eq!(colour.method, Method::NotHeld);
    assert_eq!((colour.meth, colour.precedence, colour.approx), (3, 1, 2));

    let lab = |content: &[u8]| match read(&with(content)).expect("a header").colour().method {
        Method::CieLab(lab) => lab.numbers().to_vec(),
        other => panic!("{other:?}"),
    };
    assert_eq!(
        lab(&[1, 0, 0, 0, 0, 0, 14]),
        [14, 0, 0, 0, 0, 0, 0, 0x44_3530]
    );
    let given: Vec<u8> = [1, 0, 0, 0, 0, 0, 14]
        .into_iter()
        .chain((1..=7).flat_map(u32::to_be_bytes))
        .collect();
    assert_eq!(lab(&given), [14, 0, 1, 2, 3, 4, 5, 6, 7]);
    assert_eq!(
        lab(&[1, 0, 0, 0, 0, 0, 14, 0]),
        [14, 0x4445_4600, 0, 0, 0, 0, 0, 0, 0x44_3530]
    );
}

#[test]
fn palettes_mappings_and_definitions() {
    let with = |children: &[Vec<u8>]| {
        let all = [&[ihdr(1, 1, 1)], children].concat();
        refused(&file(&all))
    };
    let palette = || pclr(1, &[7], &[10]);
    // a palette of one column and one entry has 13 bytes
    let third = SECOND + 13;
    assert_eq!(with(&[palette(), palette()]), (Cause::SecondList, third));
    assert_eq!(with(&[pclr(0, &[7], &[])]), (Cause::PclrCountWrong, SECOND));
    assert_eq!(with(&[pclr(1, &[], &[])]), (Cause::PclrCountWrong, SECOND));
    assert_eq!(
        with(&[pclr(1025, &[7], &[0; 1025])]),
        (Cause::PclrCountWrong, SECOND)
    );
    assert_eq!(
        with(&[boxed(b"pclr", &[0, 1])]),
        (Cause::PclrTooShort, SECOND)
    );
    assert_eq!(with(&[pclr(2, &[7], &[10])]), (Cause::PclrTooShort, SECOND));
    assert_eq!(with(&[cmap(&[(0, 1, 0)])]), (Cause::CmapBeforePclr, SECOND));
    assert_eq!(
        with(&[palette(), boxed(b"cmap", &[0, 0, 1])]),
        (Cause::CmapTooShort, third)
    );
    assert_eq!(with(&[boxed(b"cdef", &[0])]), (Cause::CdefTooShort, SECOND));
    assert_eq!(
        with(&[boxed(b"cdef", &[0, 1, 0, 0, 0, 0, 0])]),
        (Cause::CdefTooShort, SECOND)
    );
    assert_eq!(with(&[cdef(&[])]), (Cause::CdefEmpty, SECOND));
    assert!(offset(&file(&[ihdr(1, 1, 1), pclr(1024, &[7], &[0; 1024])])).is_some());
}

#[test]
fn entries_of_1_2_and_4_bytes() {
    let rows = |width: u8, bytes: &[u8]| {
        let file = file(&[ihdr(1, 1, 1), pclr(1, &[width], bytes)]);
        read(&file)
            .expect("a header")
            .palette()
            .expect("a palette")
            .entry(0, 0)
    };
    assert_eq!(rows(0x07, &[200]), Some(200));
    assert_eq!(rows(0x08, &[1, 2]), Some(0x102));
    assert_eq!(rows(0x25, &[0xff, 2, 3, 4]), Some(0xff02_0304));
}
