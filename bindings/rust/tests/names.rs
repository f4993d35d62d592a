//! Causes, places, editions and declarations are those of the C header, which include/test/names holds to the repository.

use cuzhantir_jp2::{Cause, Edition, COMPONENT_LENGTH, NO_SAMPLES, READING_LENGTH};

const HEADER: &str = include_str!("../../../include/cuzhantir_jp2.h");
const EXPORTS: &str = include_str!("../src/exports.rs");
const READING: &str = include_str!("../src/header.rs");

/// `FileTooLong` as C writes it.
fn in_c(name: &str) -> String {
    let mut written = String::from("CUZHANTIR");
    for letter in name.chars() {
        if letter.is_uppercase() {
            written.push('_');
        }
        written.extend(letter.to_uppercase());
    }
    written
}

/// Names and numbers of an enum of the header.
fn enumerators(name: &str) -> Vec<(String, u32)> {
    let start = format!("enum {name} {{\n");
    let (_, rest) = HEADER.split_once(&start).expect(name);
    let (body, _) = rest.split_once("\n};").expect("an end");
    body.lines()
        .filter_map(|line| line.trim().split_once(" = "))
        .map(|(name, rest)| {
            let digits: String = rest.chars().take_while(char::is_ascii_digit).collect();
            (name.to_owned(), digits.parse().expect("a number"))
        })
        .collect()
}

#[test]
fn causes_are_those_of_the_header() {
    let here: Vec<(String, u32)> = Cause::ALL
        .iter()
        .map(|cause| (in_c(&format!("{cause:?}")), cause.number()))
        .collect();
    let there: Vec<(String, u32)> = enumerators("cuzhantir_number")
        .into_iter()
        .filter(|(_, number)| *number != 0)
        .collect();
    assert_eq!(here, there);
}

#[test]
fn causes_have_the_words_of_the_header() {
    for cause in Cause::ALL {
        let case = format!(
            "  case {}:\n    return \"{cause}\";\n",
            in_c(&format!("{cause:?}"))
        );
        assert!(HEADER.contains(&case), "the header lacks {case}");
    }
}

#[test]
fn editions_are_those_of_the_header() {
    let here = [
        ("CUZHANTIR_EDITION_1".to_owned(), Edition::One.number()),
        ("CUZHANTIR_EDITION_2".to_owned(), Edition::Two.number()),
    ];
    assert_eq!(enumerators("cuzhantir_edition"), here);
}

#[test]
fn lengths_are_those_of_the_header() {
    let length = |name: &str| {
        let last = enumerators(name).pop().expect("an enumerator");
        assert!(last.0.ends_with("_LENGTH"), "{}", last.0);
        last.1 as usize
    };
    assert_eq!(length("cuzhantir_reading"), READING_LENGTH);
    assert_eq!(length("cuzhantir_component"), COMPONENT_LENGTH);
    assert!(HEADER.contains(&format!("#define CUZHANTIR_NO_SAMPLES {NO_SAMPLES}u\n")));
}

#[test]
fn places_are_those_of_the_header() {
    let there = enumerators("cuzhantir_reading");
    let here: Vec<(String, u32)> = READING
        .lines()
        .filter_map(|line| line.trim().strip_prefix("pub const "))
        .filter_map(|line| line.split_once(": usize = "))
        .map(|(name, number)| {
            let number = number.trim_end_matches(';').parse().expect("a number");
            (format!("CUZHANTIR_READING_{name}"), number)
        })
        .collect();
    assert_eq!(here.len(), 29);
    for place in here {
        assert!(there.contains(&place), "the header has no {place:?}");
    }
}

/// A parameter of C as Rust writes it: `const uint8_t *file` is `file: *const u8`.
fn in_rust(parameter: &str) -> String {
    let (kind, name) = match parameter.split_once(" *") {
        Some((kind, name)) => (format!("{kind} *"), name),
        None => parameter
            .rsplit_once(' ')
            .map(|(kind, name)| (kind.to_owned(), name))
            .expect("a type and a name"),
    };
    let number = |kind: &str| match kind {
        "uint8_t" => "u8",
        "uint32_t" => "u32",
        "int32_t" => "i32",
        "uint64_t" => "u64",
        "size_t" => "usize",
        other => panic!("{other}"),
    };
    let kind = match (kind.strip_suffix(" *"), kind.strip_prefix("const ")) {
        (Some(_), Some(read)) => format!("*const {}", number(read.trim_end_matches(" *"))),
        (Some(written), None) => format!("*mut {}", number(written)),
        _ => number(&kind).to_owned(),
    };
    format!("{name}: {kind}")
}

/// The parameters between a beginning and an end, apart.
fn parameters(text: &str, start: &str, end: &str) -> Vec<String> {
    let (_, rest) = text.split_once(start).expect(start);
    let (list, _) = rest.split_once(end).expect(end);
    let words: Vec<&str> = list.split_whitespace().collect();
    words
        .join(" ")
        .split(',')
        .map(|parameter| parameter.trim().to_owned())
        .filter(|parameter| !parameter.is_empty())
        .collect()
}

#[test]
fn entries_are_declared_as_in_the_header() {
    for entry in ["read", "finish", "picture", "write"] {
        let c = parameters(HEADER, &format!("\nuint32_t cuzhantir_{entry}("), ");");
        let expected: Vec<String> = c.iter().map(|parameter| in_rust(parameter)).collect();
        let here = parameters(EXPORTS, &format!("fn cuzhantir_{entry}("), ") -> u32;");
        assert_eq!(here, expected, "cuzhantir_{entry}");
    }
}
