//! Writing: what was written is read back, and each refusal with its place.

mod common;

use common::points;
use cuzhantir_jp2::{
    read, write, write_into, Asoc, Cause, ColourSpace, Component, Method, Refused, Typ,
    WriteRequest,
};

/// Boxes of 3 by 2 for components.
fn request(components: &[Component]) -> WriteRequest<'_> {
    WriteRequest {
        components,
        x0: 10,
        y0: 20,
        x1: 13,
        y1: 22,
        space: ColourSpace::Srgb,
        profile: &[],
        codestream: 1000,
    }
}

fn refused(request: &WriteRequest<'_>) -> (Cause, u64) {
    let Refused { cause, place } = write(request).expect_err("a refusal");
    (cause, place)
}

#[test]
fn fields_come_back() {
    let mut components = points(4);
    components[3].alpha = 1;
    let file = write(&request(&components)).expect("boxes");
    let header = read(&file).expect("a header");
    let image = header.image().expect("an ihdr");
    assert_eq!((image.w, image.h, image.numcomps, image.bpc), (3, 2, 4, 7));
    assert_eq!((image.c, image.unkc, image.ipr), (7, 0, 0));
    assert_eq!(header.codestream(), Some(file.len()));
    assert_eq!(header.colour().method, Method::Enumerated(16));
    assert_eq!(header.file_type().brand, 0x6a70_3220);
    let definitions: Vec<_> = header
        .definitions()
        .map(|d| (d.channel, d.typ, d.asoc))
        .collect();
    let expected = [
        (0, Typ::Colour, Asoc::Colour(1)),
        (1, Typ::Colour, Asoc::Colour(2)),
        (2, Typ::Colour, Asoc::Colour(3)),
        (3, Typ::Opacity, Asoc::Whole),
    ];
    assert_eq!(definitions, expected);
    // the codestream's box has its header and 1000 bytes
    assert_eq!(
        file[file.len() - 8..],
        [0, 0, 3, 0xf0, b'j', b'p', b'2', b'c']
    );
}

#[test]
fn colour_spaces_come_back() {
    let components = points(1);
    let spaces = [
        (ColourSpace::Srgb, 16),
        (ColourSpace::Grey, 17),
        (ColourSpace::Sycc, 18),
        (ColourSpace::Other, 0),
    ];
    for (space, enumcs) in spaces {
        let file = write(&WriteRequest {
            space,
            ..request(&components)
        })
        .expect("boxes");
        assert_eq!(file.len(), 85);
        assert_eq!(
            read(&file).expect("a header").colour().method,
            Method::Enumerated(enumcs)
        );
    }
}

/// A `cdef` is written where the documentation of `write` says so, and nowhere else.
#[test]
fn opacity_is_written_for_known_colours_without_a_profile() {
    let marked = |marks: &[u32]| -> Vec<Component> {
        let points = points(u32::try_from(marks.len()).expect("components"));
        let mark = |(point, &alpha): (Component, &u32)| Component { alpha, ..point };
        points.into_iter().zip(marks).map(mark).collect()
    };
    let defined = |marks: &[u32], space: ColourSpace, profile: &[u8]| -> Vec<Typ> {
        let components = marked(marks);
        let request = WriteRequest {
            space,
            profile,
            ..request(&components)
        };
        let file = write(&request).expect("boxes");
        let header = read(&file).expect("a header");
        header.definitions().map(|d| d.typ).collect()
    };
    let (colour, opacity, not_told) = (Typ::Colour, Typ::Opacity, Typ::Unspecified);
    let rgba = vec![colour, colour, colour, opacity];
    assert_eq!(defined(&[0, 0, 0, 1], ColourSpace::Srgb, &[]), rgba);
    assert_eq!(defined(&[0, 0, 0, 2], ColourSpace::Sycc, &[]), rgba);
    let grey = vec![colour, not_told, opacity];
    assert_eq!(defined(&[0, 0, 1], ColourSpace::Grey, &[]), grey);
    assert_eq!(defined(&[0, 0, 0, 1], ColourSpace::Srgb, &[7]), []);
    assert_eq!(defined(&[0, 0, 0, 1], ColourSpace::Other, &[]), []);
    assert_eq!(defined(&[0, 0, 0, 1, 1], ColourSpace::Srgb, &[]), []);
    assert_eq!(defined(&[0, 0, 1], ColourSpace::Srgb, &[]), []);
    assert_eq!(defined(&[0, 0, 0], ColourSpace::Srgb, &[]), []);
}

#[test]
fn a_profile_comes_back_byte_for_byte() {
    let components = points(3);
    let profile: Vec<u8> = (0..=255).collect();
    let file = write(&WriteRequest {
        profile: &profile,
        ..request(&components)
    })
    .expect("boxes");
    let header = read(&file).expect("a header");
    assert_eq!(header.colour().method, Method::Profile(&profile));
}

#[test]
fn precisions_that_differ_come_back() {
    let mut components = points(2);
    components[1].prec = 12;
    components[1].sgnd = 1;
    let file = write(&request(&components)).expect("boxes");
    let header = read(&file).expect("a header");
    assert_eq!(header.image().and_then(|image| image.depth()), None);
    let depths: Vec<_> = header.depths().map(|d| (d.bits, d.signed)).collect();
    assert_eq!(depths, [(8, false), (12, true)]);
}

#[test]
fn requests_are_refused() {
    let components = points(2);
    let right = request(&components);
    let none: &[Component] = &[];
    assert_eq!(refused(&request(none)), (Cause::WriteCountWrong, 0));
    assert_eq!(
        refused(&request(&points(16385))),
        (Cause::WriteCountWrong, 0)
    );
    assert_eq!(
        refused(&WriteRequest { x1: 10, ..right }),
        (Cause::WriteZero, 0)
    );
    assert_eq!(
        refused(&WriteRequest { y1: 20, ..right }),
        (Cause::WriteZero, 0)
    );
    let long = WriteRequest {
        codestream: 4_261_412_864,
        ..right
    };
    assert_eq!(refused(&long), (Cause::WriteTooLong, 0));
    let profile = vec![0; 16_777_216];
    let long = WriteRequest {
        profile: &profile,
        ..right
    };
    assert_eq!(refused(&long), (Cause::WriteTooLong, 0));
    for (prec, sgnd) in [(0, 0), (39, 0), (8, 2)] {
        let mut wrong = points(3);
        wrong[1].prec = prec;
        wrong[1].sgnd = sgnd;
        assert_eq!(refused(&request(&wrong)), (Cause::WriteDepthWrong, 1));
    }
}

#[test]
fn a_list_of_the_caller_keeps_what_is_behind_the_bytes() {
    let components = points(1);
    let right = request(&components);
    let mut bytes = [77; 90];
    let short = write_into(&right, &mut bytes[..84]);
    let expected = Refused {
        cause: Cause::DestinationTooShort,
        place: 85,
    };
    assert_eq!(short, Err(expected));
    assert_eq!(bytes, [77; 90]);
    assert_eq!(write_into(&right, &mut bytes), Ok(85));
    assert_eq!(bytes[85..], [77; 5]);
    assert_eq!(bytes[..85], write(&right).expect("boxes"));
}

#[test]
fn corners_wrap() {
    let components = points(1);
    let file = write(&WriteRequest {
        x0: u32::MAX,
        x1: 1,
        ..request(&components)
    })
    .expect("boxes");
    assert_eq!(
        read(&file).expect("a header").image().map(|image| image.w),
        Some(2)
    );
}
