//! Finishing: document 01's marked cases on order and on palettes, each refusal with its place, and where the two editions
//! differ.

mod common;

use common::{cdef, cmap, file, ihdr, pclr, points, sample};
use cuzhantir_jp2::{
    finish, finish_into, read, read_and_finish, read_and_finish_into, Cause, Component, Components,
    Edition, Picture, Refused, COMPONENT_LENGTH,
};

const EDITIONS: [Edition; 2] = [Edition::One, Edition::Two];

/// What finishing gives, by both of its ways and by those to lists of the caller's, which all have to agree.
fn finished(
    file: &[u8],
    handed: &Components<'_>,
    ignore: bool,
    edition: Edition,
) -> Result<Picture, Refused> {
    let in_one = read_and_finish(file, handed, ignore, edition);
    let in_two = read(file).and_then(|header| finish(&header, handed, ignore, edition));
    assert_eq!(in_two, in_one);
    if let (Ok(picture), Ok(header)) = (&in_one, read(file)) {
        let numbers = picture.records().iter().flat_map(|r| r.to_numbers());
        let expected = (numbers.collect(), picture.samples().to_vec());
        let in_one = lent(picture, |records, samples| {
            read_and_finish_into(file, handed, ignore, edition, records, samples)
        });
        let in_two = lent(picture, |records, samples| {
            finish_into(&header, handed, ignore, edition, records, samples)
        });
        assert_eq!((&in_one, &in_two), (&expected, &expected));
    }
    in_one
}

/// The two lists after a call that fills them to their ends.
fn lent(
    picture: &Picture,
    run: impl FnOnce(&mut [u32], &mut [i32]) -> Result<usize, Refused>,
) -> (Vec<u32>, Vec<i32>) {
    let planes = picture.records().len();
    let mut records = vec![77; planes * COMPONENT_LENGTH];
    let mut samples = vec![77; picture.samples().len()];
    assert_eq!(run(&mut records, &mut samples), Ok(planes));
    (records, samples)
}

/// The sample and the mark of each plane.
fn planes_by(edition: Edition, file: &[u8], samples: &[i32]) -> Result<Vec<(i32, u32)>, Refused> {
    let count = u32::try_from(samples.len()).expect("components");
    let components = points(count);
    let handed = Components::new(&components, samples);
    finished(file, &handed, false, edition).map(|picture| shown(&picture))
}

/// The same, where both editions have to give it.
fn planes(file: &[u8], samples: &[i32]) -> Result<Vec<(i32, u32)>, Refused> {
    let [first, second] = EDITIONS.map(|edition| planes_by(edition, file, samples));
    assert_eq!(first, second);
    first
}

fn shown(picture: &Picture) -> Vec<(i32, u32)> {
    picture
        .planes()
        .map(|plane| (plane.sample(0, 0).expect("a sample"), plane.record.alpha))
        .collect()
}

/// A file of components and definitions.
fn defining(count: usize, definitions: &[(u16, u16, u16)]) -> Vec<u8> {
    let count = u16::try_from(count).expect("components");
    file(&[ihdr(1, 1, count), cdef(definitions)])
}

/// Planes of one point each, and definitions, in both editions.
fn defined(samples: &[i32], definitions: &[(u16, u16, u16)]) -> Result<Vec<(i32, u32)>, Refused> {
    planes(&defining(samples.len(), definitions), samples)
}

/// The same in one edition.
fn defined_by(
    edition: Edition,
    samples: &[i32],
    definitions: &[(u16, u16, u16)],
) -> Result<Vec<(i32, u32)>, Refused> {
    planes_by(edition, &defining(samples.len(), definitions), samples)
}

const A: i32 = 10;
const B: i32 = 20;
const C: i32 = 30;
const D: i32 = 40;

#[test]
fn three_colours_turned_round() {
    let turned = defined(&[A, B, C], &[(0, 0, 3), (1, 0, 2), (2, 0, 1)]);
    assert_eq!(turned, Ok(vec![(C, 0), (B, 0), (A, 0)]));
}

#[test]
fn two_colours_and_two_marks() {
    let definitions = [(2, 0, 1), (0, 0, 2), (1, 1, 0), (3, 1, 0)];
    let four = defined(&[A, B, C, D], &definitions);
    assert_eq!(four, Ok(vec![(C, 0), (A, 0), (B, 1), (D, 1)]));
}

#[test]
fn the_order_of_definitions_moves_the_mark_in_edition_1_only() {
    let first = |edition| defined_by(edition, &[A, B], &[(0, 1, 0), (1, 0, 1)]);
    assert_eq!(first(Edition::One), Ok(vec![(B, 0), (A, 0)]));
    assert_eq!(first(Edition::Two), Ok(vec![(B, 0), (A, 1)]));
    let swapped = defined(&[A, B], &[(1, 0, 1), (0, 1, 0)]);
    assert_eq!(swapped, Ok(vec![(B, 0), (A, 1)]));
}

#[test]
fn a_channel_from_1_up_has_to_be_defined() {
    assert_eq!(
        defined(&[A, B], &[(0, 0, 1)]),
        Err(told(Cause::ChannelUndefined, 1))
    );
    let third = |edition| defined_by(edition, &[A, B, C], &[(2, 0, 3)]);
    assert_eq!(third(Edition::One), Err(told(Cause::ChannelUndefined, 1)));
    assert_eq!(third(Edition::Two), Err(told(Cause::ChannelUndefined, 0)));
}

#[test]
fn channel_0_has_to_be_defined_in_edition_2() {
    let second = |edition| defined_by(edition, &[A, B], &[(1, 0, 2)]);
    assert_eq!(second(Edition::One), Ok(vec![(A, 0), (B, 0)]));
    assert_eq!(second(Edition::Two), Err(told(Cause::ChannelUndefined, 0)));
    // a file without definitions defines no channel, and passes in both
    let plain = file(&[ihdr(1, 1, 2)]);
    assert_eq!(planes(&plain, &[A, B]), Ok(vec![(A, 0), (B, 0)]));
}

/// 25 comes before 26, and 27, 28 and 30 come after it.
#[test]
fn channel_0_is_asked_for_in_its_turn() {
    let outside = defined(&[A, B], &[(1, 0, 2), (2, 0, 1)]);
    assert_eq!(outside, Err(told(Cause::DefinitionOutside, 1)));

    let with = |mappings: &[(u16, u8, u8)]| {
        file(&[
            ihdr(1, 1, 1),
            pclr(1, &[7, 7], &[1, 2]),
            cmap(mappings),
            cdef(&[(1, 0, 2)]),
        ])
    };
    let blank = Component {
        w: 1,
        h: 1,
        ..Component::default()
    };
    let blank = Components::new(std::slice::from_ref(&blank), &[]);
    let mismapped = with(&[(0, 1, 0), (0, 1, 0)]);
    let right = with(&[(0, 1, 0), (0, 1, 1)]);
    let run = |file: &[u8], edition| finished(file, &blank, false, edition);
    let first = Edition::One;
    assert_eq!(run(&mismapped, first), Err(told(Cause::MappingWrong, 1)));
    let dataless = Err(told(Cause::ComponentWithoutSamples, 0));
    assert_eq!(run(&right, first), dataless);
    for file in [&mismapped, &right] {
        let undefined = Err(told(Cause::ChannelUndefined, 0));
        assert_eq!(run(file, Edition::Two), undefined);
    }

    let file = defining(2, &[(1, 0, 2)]);
    let components = points(2);
    let handed = Components::new(&components, &[A, B]);
    let run = |edition| read_and_finish_into(&file, &handed, false, edition, &mut [], &mut []);
    assert_eq!(run(first), Err(told(Cause::DestinationTooShort, 26)));
    assert_eq!(run(Edition::Two), Err(told(Cause::ChannelUndefined, 0)));
}

/// In edition 2 the last of several definitions says the mark, whatever its asoc.
#[test]
fn a_channel_defined_twice_takes_the_last_typ_in_edition_2() {
    for (definitions, mark) in [
        ([(0, 1, 0), (0, 2, 0), (1, 0, 1)], 2),
        ([(0, 2, 0), (0, 1, 0), (1, 0, 1)], 1),
        ([(0, 1, 0), (0, 65535, 65535), (1, 0, 1)], 65535),
        ([(0, 1, 0), (0, 2, 2), (1, 0, 1)], 2),
    ] {
        let by = |edition| defined_by(edition, &[A, B], &definitions);
        assert_eq!(by(Edition::One), Ok(vec![(B, 0), (A, 0)]));
        assert_eq!(by(Edition::Two), Ok(vec![(B, 0), (A, mark)]));
    }
}

/// Every order of a list that names no channel and no colour twice gives the same records in edition 2, and the same but for
/// the marks in edition 1.
#[test]
fn definitions_may_be_listed_in_any_order() {
    let listed = [(2, 0, 1), (0, 0, 2), (1, 1, 0), (3, 2, 0)];
    let run = |edition, definitions: &[(u16, u16, u16)]| {
        let components = points(4);
        let handed = Components::new(&components, &[A, B, C, D]);
        let file = defining(4, definitions);
        finished(&file, &handed, false, edition).expect("a picture")
    };
    let marks =
        |picture: &Picture| -> Vec<u32> { picture.records().iter().map(|r| r.alpha).collect() };
    let but_marks = |picture: &Picture| -> Vec<Component> {
        let unmarked = |record: &Component| Component {
            alpha: 0,
            ..*record
        };
        picture.records().iter().map(unmarked).collect()
    };
    let second = run(Edition::Two, &listed);
    assert_eq!(shown(&second), [(C, 0), (A, 0), (B, 1), (D, 2)]);
    let mut other_marks = 0;
    for order in orders(4) {
        let definitions: Vec<_> = order.iter().map(|&i| listed[i]).collect();
        assert_eq!(run(Edition::Two, &definitions), second, "{order:?}");
        let first = run(Edition::One, &definitions);
        assert_eq!(but_marks(&first), but_marks(&second), "{order:?}");
        assert_eq!(first.samples(), second.samples(), "{order:?}");
        other_marks += usize::from(marks(&first) != marks(&second));
    }
    assert!(other_marks > 0);
}

/// Every order of the numbers below a count.
fn orders(count: usize) -> Vec<Vec<usize>> {
    let mut all = vec![vec![]];
    for next in 0..count {
        let put = |order: &Vec<usize>| {
            let order = order.clone();
            (0..=order.len()).map(move |at| [&order[..at], &[next], &order[at..]].concat())
        };
        all = all.iter().flat_map(put).collect();
    }
    all
}

#[test]
fn mappings_are_corrected_for_one_component() {
    let boxes = [
        pclr(2, &[7, 7], &[10, 11, 20, 21]),
        cmap(&[(0, 1, 0), (0, 0, 0)]),
    ];
    let with = |count: u16| file(&[&[ihdr(1, 1, count)], &boxes[..]].concat());
    assert_eq!(planes(&with(1), &[1]), Ok(vec![(20, 0), (21, 0)]));
    assert_eq!(planes(&with(2), &[1, 9]), Ok(vec![(20, 0), (1, 0)]));
}

#[test]
fn an_index_outside_the_palette_reads_its_edge() {
    let file = file(&[
        ihdr(1, 1, 1),
        pclr(3, &[7], &[10, 20, 30]),
        cmap(&[(0, 1, 0)]),
    ]);
    for (index, entry) in [
        (-1, 10),
        (0, 10),
        (2, 30),
        (3, 30),
        (i32::MIN, 10),
        (i32::MAX, 30),
    ] {
        assert_eq!(planes(&file, &[index]), Ok(vec![(entry, 0)]));
    }
}

#[test]
fn a_large_entry_becomes_negative() {
    let file = file(&[
        ihdr(1, 1, 1),
        pclr(1, &[31], &[255, 255, 255, 254]),
        cmap(&[(0, 1, 0)]),
    ]);
    assert_eq!(planes(&file, &[0]), Ok(vec![(-2, 0)]));
}

fn told(cause: Cause, place: u64) -> Refused {
    Refused { cause, place }
}

#[test]
fn definitions_and_mappings_are_checked() {
    let outside = defined(&[A, B], &[(0, 0, 1), (2, 0, 2)]);
    assert_eq!(outside, Err(told(Cause::DefinitionOutside, 1)));
    let no_colour = defined(&[A, B], &[(0, 0, 3), (1, 0, 2)]);
    assert_eq!(no_colour, Err(told(Cause::DefinitionOutside, 0)));

    let wrong = file(&[
        ihdr(1, 1, 1),
        pclr(1, &[7, 7], &[1, 2]),
        cmap(&[(0, 1, 0), (0, 1, 0)]),
    ]);
    assert_eq!(planes(&wrong, &[0]), Err(told(Cause::MappingWrong, 1)));

    let right = file(&[
        ihdr(1, 1, 1),
        pclr(1, &[7, 7], &[1, 2]),
        cmap(&[(0, 1, 0), (0, 1, 1)]),
    ]);
    let blank = Component {
        w: 1,
        h: 1,
        ..Component::default()
    };
    for edition in EDITIONS {
        let refused = finished(&right, &Components::new(&[blank], &[]), false, edition);
        assert_eq!(refused, Err(told(Cause::ComponentWithoutSamples, 0)));
    }
}

#[test]
fn planes_outside_their_lists_are_refused() {
    let header = read(&[]).expect("ended");
    let outside = Err(told(Cause::OutsideList, 0));
    let many = vec![Component::default(); 16385];
    for edition in EDITIONS {
        let run = |handed: &Components<'_>| finish(&header, handed, false, edition);
        assert_eq!(run(&Components::new(&points(2), &[1])), outside);
        assert_eq!(run(&Components::from_numbers(&[0; 12], 1, &[])), outside);
        assert_eq!(run(&Components::from_numbers(&[], u32::MAX, &[])), outside);
        assert_eq!(run(&Components::new(&many, &[])), outside);
        let all = run(&Components::new(&many[..16384], &[]));
        assert_eq!(all.expect("16384 planes").records().len(), 16384);
    }
}

/// 16384 planes of 1024 by 1024 samples, all the same, would be more samples than there may be.
#[test]
fn too_many_samples_are_refused_without_memory() {
    let samples = vec![0; 1 << 20];
    let component = Component {
        w: 1 << 10,
        h: 1 << 10,
        data: Some(0),
        ..Component::default()
    };
    let many = vec![component; 16384];
    let header = read(&[]).expect("ended");
    for edition in EDITIONS {
        let refused = finish(&header, &Components::new(&many, &samples), false, edition);
        assert_eq!(refused, Err(told(Cause::DestinationTooShort, 1 << 34)));
    }
}

#[test]
fn a_file_that_is_refused_is_not_finished() {
    let handed = Components::new(&[], &[]);
    for edition in EDITIONS {
        let refused = finished(b"\0\0\0\x08free", &handed, false, edition);
        assert_eq!(refused, Err(told(Cause::BoxBeforeSignature, 0)));
    }
}

/// Neither edition sets a mark then, or asks for channel 0.
#[test]
fn with_the_ignore_flag_components_are_copied() {
    let own_marks: Vec<Component> = points(3)
        .into_iter()
        .map(|point| Component { alpha: 7, ..point })
        .collect();
    let handed = Components::new(&own_marks, &[A, B, C]);
    for definitions in [&[(0, 1, 0), (1, 0, 2), (2, 0, 1)][..], &[(1, 0, 2)]] {
        let file = defining(3, definitions);
        for edition in EDITIONS {
            let picture = finished(&file, &handed, true, edition).expect("a picture");
            assert_eq!(shown(&picture), [(A, 7), (B, 7), (C, 7)]);
        }
    }
}

#[test]
fn lists_of_the_caller_keep_what_is_behind_the_planes() {
    let file = file(&[ihdr(1, 1, 3), cdef(&[(0, 0, 3), (1, 0, 2), (2, 0, 1)])]);
    let header = read(&file).expect("a header");
    let components = points(3);
    let handed = Components::new(&components, &[A, B, C]);
    for edition in EDITIONS {
        let mut records = [77; 3 * COMPONENT_LENGTH + 1];
        let mut samples = [77; 4];
        let (few, all) = (&mut records[..38], &mut samples);
        let short = finish_into(&header, &handed, false, edition, few, all);
        assert_eq!(short, Err(told(Cause::DestinationTooShort, 39)));
        let (all, few) = (&mut records, &mut samples[..2]);
        let short = read_and_finish_into(&file, &handed, false, edition, all, few);
        assert_eq!(short, Err(told(Cause::DestinationTooShort, 3)));
        assert_eq!((records, samples), ([77; 40], [77; 4]));

        let done = finish_into(&header, &handed, false, edition, &mut records, &mut samples);
        assert_eq!(done, Ok(3));
        assert_eq!(samples, [A, B, C, 77]);
        assert_eq!(
            [records[11], records[24], records[37], records[39]],
            [2, 1, 0, 77]
        );
    }
}

/// The camera that lists blue, green, red: after finishing, plane 0 is red.
#[test]
fn the_sample_of_blue_green_red_is_put_in_order() {
    let file = sample("gdal-bgr.jp2");
    assert_eq!(planes(&file, &[A, B, C]), Ok(vec![(C, 0), (B, 0), (A, 0)]));
    let file = sample("opj-rgba8.jp2");
    assert_eq!(
        planes(&file, &[A, B, C, D]),
        Ok(vec![(A, 0), (B, 0), (C, 0), (D, 1)])
    );
}

/// The palette of the sample: index 2 is the row 94, 0, 160.
#[test]
fn the_sample_with_a_palette_is_looked_up() {
    let file = sample("gdal-pal.jp2");
    assert_eq!(planes(&file, &[2]), Ok(vec![(94, 0), (0, 0), (160, 0)]));
}

/// What a definition does in edition 2 to planes of a palette, whose channels are its columns.
#[test]
fn channels_of_a_palette_have_their_own_marks_in_edition_2() {
    let file = file(&[
        ihdr(1, 1, 1),
        pclr(1, &[7, 7], &[10, 20]),
        cmap(&[(0, 1, 0), (0, 1, 1)]),
        cdef(&[(0, 1, 0), (1, 0, 1)]),
    ]);
    let by = |edition| planes_by(edition, &file, &[0]);
    assert_eq!(by(Edition::One), Ok(vec![(20, 0), (10, 0)]));
    assert_eq!(by(Edition::Two), Ok(vec![(20, 0), (10, 1)]));
}

/// Nothing is kept between calls, so threads do not meet.
#[test]
fn threads_finish_apart() {
    let file = file(&[ihdr(1, 1, 3), cdef(&[(0, 0, 3), (1, 0, 2), (2, 0, 1)])]);
    std::thread::scope(|scope| {
        for thread in 0..4 {
            let file = &file;
            scope.spawn(move || {
                for turn in 0..200 {
                    let samples = [thread, turn, thread + turn];
                    let expected = vec![(samples[2], 0), (samples[1], 0), (samples[0], 0)];
                    assert_eq!(planes(file, &samples), Ok(expected));
                }
            });
        }
    });
}
