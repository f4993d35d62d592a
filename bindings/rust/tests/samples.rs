//! The sample pictures of five makers: what their boxes say, written down.

mod common;

use common::sample;
use cuzhantir_jp2::{
    read, Asoc, Cause, Definition, Depth, FileType, ImageHeader, Mapping, MappingType, Method,
    Status, Typ,
};

/// Name, components, depth byte, EnumCS, codestream's offset, how many definitions, palette columns.
const SAMPLES: [(&str, u16, u8, u32, usize, usize, usize); 11] = [
    ("opj-grey8.jp2", 1, 7, 17, 85, 0, 0),
    ("opj-rgb8.jp2", 3, 7, 16, 85, 0, 0),
    ("opj-rgba8.jp2", 4, 7, 16, 119, 4, 0),
    ("opj-greyalpha.jp2", 2, 15, 17, 107, 2, 0),
    ("opj-rgb16.jp2", 3, 15, 16, 85, 0, 0),
    ("pil-rgb.jp2", 3, 7, 16, 85, 0, 0),
    ("pil-la.jp2", 2, 7, 17, 85, 0, 0),
    ("im-rgba.jp2", 4, 7, 16, 119, 4, 0),
    ("gdal-bgr.jp2", 3, 7, 16, 113, 3, 0),
    ("gdal-pal.jp2", 1, 7, 16, 131, 0, 3),
    ("vips-rgba.jp2", 4, 7, 16, 119, 4, 0),
];

#[test]
fn every_sample_is_in_the_table() {
    let folder = concat!(env!("CARGO_MANIFEST_DIR"), "/../../samples");
    let mut found: Vec<String> = std::fs::read_dir(folder)
        .expect("the folder of samples")
        .map(|entry| {
            entry
                .expect("a sample")
                .file_name()
                .into_string()
                .expect("a name")
        })
        .filter(|name| name.ends_with(".jp2"))
        .collect();
    let mut listed: Vec<&str> = SAMPLES.iter().map(|sample| sample.0).collect();
    found.sort();
    listed.sort_unstable();
    assert_eq!(found, listed);
}

/// Request R-1: signature, file type and `jp2h` are at 0, 12 and 32 in each sample, and the codestream's box is behind them.
#[test]
fn each_sample_that_is_broken_off_is_read_as_far_as_it_goes() {
    for (name, _, _, _, codestream, _, _) in SAMPLES {
        let file = sample(name);
        let whole = *read(&file).expect(name).numbers();
        let boxes = [0, 12, 32, codestream - 8];
        for length in 0..=file.len() {
            let cut = boxes.iter().rfind(|place| **place <= length);
            let in_header = cut.is_some_and(|place| length < place + 8);
            match read(&file[..length]) {
                Ok(header) if length >= codestream => assert_eq!(*header.numbers(), whole),
                Ok(header) => assert!(
                    in_header && header.codestream().is_none(),
                    "{name} {length}"
                ),
                Err(refused) => {
                    let asked = (Cause::ContentPastFile, cut.map(|place| *place as u64));
                    assert_eq!(
                        (refused.cause, Some(refused.place)),
                        asked,
                        "{name} {length}"
                    );
                    assert!(!in_header && length < codestream, "{name} {length}");
                }
            }
        }
    }
}

#[test]
fn each_sample_is_read() {
    for (name, numcomps, bpc, enumcs, codestream, definitions, columns) in SAMPLES {
        let file = sample(name);
        let header = read(&file).unwrap_or_else(|refused| panic!("{name}: {refused}"));
        let expected = ImageHeader {
            h: 36,
            w: 48,
            numcomps,
            bpc,
            c: 7,
            unkc: 0,
            ipr: 0,
        };
        assert_eq!(header.image(), Some(expected), "{name}");
        assert_eq!(header.colour().method, Method::Enumerated(enumcs), "{name}");
        assert_eq!(header.colour().meth, 1, "{name}");
        assert_eq!(header.codestream(), Some(codestream), "{name}");
        assert_eq!(file[codestream..codestream + 2], [0xff, 0x4f], "{name}");
        assert_eq!(header.definitions().len(), definitions, "{name}");
        assert_eq!(
            header.palette().map_or(0, |p| p.columns_count()),
            columns,
            "{name}"
        );
        assert_eq!(header.mappings().len(), columns, "{name}");
        assert_eq!(header.depths().len(), 0, "{name}");
        let jp2 = FileType {
            brand: 0x6a70_3220,
            minversion: 0,
        };
        assert_eq!(header.file_type(), jp2, "{name}");
        assert_eq!(
            header.compatible().collect::<Vec<_>>(),
            [0x6a70_3220],
            "{name}"
        );
        let status = Status {
            state: 15,
            imgstate: 0,
            has_jp2h: true,
            has_ihdr: true,
        };
        assert_eq!(header.status(), status, "{name}");
        assert!(std::ptr::eq(header.file(), &file[..]), "{name}");
    }
}

fn colour(channel: u16, number: u16) -> Definition {
    Definition {
        channel,
        typ: Typ::Colour,
        asoc: Asoc::Colour(number),
    }
}

fn opacity(channel: u16) -> Definition {
    Definition {
        channel,
        typ: Typ::Opacity,
        asoc: Asoc::Whole,
    }
}

#[test]
fn definitions_are_those_of_the_makers() {
    let rgba = vec![colour(0, 1), colour(1, 2), colour(2, 3), opacity(3)];
    let expected = [
        ("opj-rgba8.jp2", rgba.clone()),
        ("im-rgba.jp2", rgba.clone()),
        ("vips-rgba.jp2", rgba),
        ("opj-greyalpha.jp2", vec![colour(0, 1), opacity(1)]),
        (
            "gdal-bgr.jp2",
            vec![colour(0, 3), colour(1, 2), colour(2, 1)],
        ),
    ];
    for (name, definitions) in expected {
        let file = sample(name);
        let header = read(&file).expect(name);
        assert_eq!(
            header.definitions().collect::<Vec<_>>(),
            definitions,
            "{name}"
        );
    }
}

#[test]
fn the_palette_is_read_row_by_row() {
    let file = sample("gdal-pal.jp2");
    let header = read(&file).expect("a header");
    let palette = header.palette().expect("a palette");
    let eight = Depth {
        bits: 8,
        signed: false,
    };
    assert_eq!(palette.depths().collect::<Vec<_>>(), [eight; 3]);
    let rows: Vec<Vec<u32>> = palette.rows().map(Iterator::collect).collect();
    assert_eq!(
        rows,
        [[225, 0, 29], [160, 0, 94], [94, 0, 160], [29, 0, 225]]
    );
    assert_eq!(palette.rows_count(), 4);
    assert_eq!(palette.entry(3, 2), Some(225));
    assert_eq!(palette.entry(4, 0), None);
    let mappings: Vec<Mapping> = header.mappings().collect();
    let expected = [0, 1, 2].map(|column| Mapping {
        component: 0,
        mtyp: MappingType::Palette,
        column,
    });
    assert_eq!(mappings, expected);
}

#[test]
fn a_sample_cut_anywhere_is_answered() {
    let whole = sample("gdal-pal.jp2");
    let mut answers = (0, 0, 0);
    for end in 0..=140 {
        match read(&whole[..end]) {
            Ok(header) if header.codestream().is_some() => answers.0 += 1,
            Ok(_) => answers.1 += 1,
            Err(refused) => {
                answers.2 += 1;
                assert!(refused.place < end as u64, "{refused}");
            }
        }
    }
    // from byte 131 on the codestream is reached
    assert_eq!(answers.0, 10);
    assert!(answers.1 > 0 && answers.2 > 0, "{answers:?}");
}
