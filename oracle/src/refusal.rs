//! Document 01's number and place for a refusal of reading, and which of its two answers a success is.
//!
//! The crate says only success or failure. Its message tells the number, except for three refusals that are silent.
//! The place, and the kind of the box in a silent refusal, are deduced: the crate's own box header reader goes over
//! the headers once more, and in `jp2h` its own content readers over the children.

use crate::asking::last_error;
use crate::consts::Jp2BoxType;
use crate::event::opj_event_mgr;
use crate::jp2::{reach, Jp2BoxHeader};
use crate::reading::{read_bare, Reading};
use crate::record::Record;
use crate::walk::Walk;

/// Whether a walk that succeeded with the stream at `tell` found a codestream. The state bits cannot say, because an
/// unknown box sets them all.
pub(crate) fn ends_at_codestream(file: &[u8], tell: u64) -> bool {
    last_box(file, tell).is_some_and(|last| last.header.ty == Jp2BoxType::JP2C)
}

/// Number and place of a refusal.
pub(crate) fn refusal(file: &[u8], reading: &Reading) -> (Option<u32>, Option<u64>) {
    let error = last_error(&reading.messages);
    let said = error.and_then(|text| number_in(&NUMBERS, text));
    let Some(last) = last_box(file, reading.tell) else {
        return (said, None);
    };
    let at_fault = match (last.header.ty, said) {
        (_, Some(2..=9 | 12)) => Some(last),
        (Jp2BoxType::JP2H, _) => refused_child(file, &last),
        _ => Some(last),
    };
    let place = at_fault.map(|walk| walk.place as u64);
    if error.is_some() {
        return (said, place);
    }
    let silent = at_fault.and_then(|walk| silent_number(walk.header.ty, &reading.record));
    (silent, place)
}

/// The beginnings of the crate's error messages, each with document 01's number for it; the first that fits counts.
/// Every refusal of reading has exactly one error message, except those of [`silent_number`].
const NUMBERS: [(&str, u32); 28] = [
    ("bad placed jpeg codestream", 2),
    // An extended length of 0; a length field of 0 never gets here.
    ("Cannot handle box of undefined sizes", 3),
    ("invalid box size ", 3),
    ("Invalid box size ", 4),
    // As an error only for a child box before jp2h; for any other box it is a warning, and the walk has ended.
    ("Problem with skipping JPEG2000 box", 4),
    ("Malformed JP2 file format: first box", 5),
    ("Malformed JP2 file format: second box", 6),
    ("The signature box must be the first", 7),
    ("Error with JP signature Box size", 7),
    ("Error with JP Signature : bad magic", 7),
    ("The ftyp box must be the second", 8),
    ("Error with FTYP signature Box size", 8),
    // The crate's message lost the box's name; both spaces are its own.
    ("The  box must be the first box", 9),
    ("Box length is inconsistent", 11),
    (
        "Stream error while reading JP2 Header box: box length is inconsistent",
        11,
    ),
    ("Stream error while reading JP2 Header box: no 'ihdr'", 12),
    // What is left with this beginning: a header cut, a length field of 0, a high word.
    ("Stream error while reading JP2 Header box: ", 10),
    ("Bad image header box", 13),
    ("Wrong values for: w(", 14),
    ("Invalid number of components (ihdr)", 15),
    ("Bad COLR header box", 16),
    ("Bad BPCC header box", 17),
    ("Only one CMAP box", 18),
    ("Invalid PCLR box", 19),
    ("Need to read a PCLR box", 21),
    ("Insufficient data for CMAP", 22),
    ("Insufficient data for CDEF", 23),
    ("Number of channel description is equal to zero", 24),
];

/// The number beside the first beginning that `text` has.
pub(crate) fn number_in(table: &[(&str, u32)], text: &str) -> Option<u32> {
    let mut rows = table.iter();
    let row = rows.find(|(beginning, _)| text.starts_with(beginning))?;
    Some(row.1)
}

/// The number of a refusal without an error message: a second `pclr` or `cdef`, or a short `pclr`. The box's kind is
/// deduced by [`last_box`] and [`refused_child`]; a palette that is held already tells the two of `pclr` apart,
/// because the crate tests that first.
fn silent_number(kind: Jp2BoxType, record: &Record) -> Option<u32> {
    match kind {
        Jp2BoxType::PCLR if record.jp2_pclr.is_some() => Some(18),
        Jp2BoxType::PCLR => Some(20),
        Jp2BoxType::CDEF => Some(18),
        _ => None,
    }
}

/// The last top-level box whose header the crate has read, when it stopped with the stream at `tell`. Every box
/// before that was passed, so going from header to header finds it.
fn last_box(file: &[u8], tell: u64) -> Option<Walk> {
    let tell = tell as usize;
    let mut last = None;
    let mut place = 0;
    while let Some(walk) = Walk::at(file, place) {
        if walk.content() > tell {
            break;
        }
        last = Some(walk);
        if walk.end() < walk.content() || walk.end() > tell {
            break;
        }
        place = walk.end();
    }
    last
}

/// The child of `jp2h` that was refused, for its content or its header: the crate's readers run once more over the
/// children, on the record that the boxes before `jp2h` gave.
fn refused_child(file: &[u8], jp2h: &Walk) -> Option<Walk> {
    let mut jp2 = read_bare(&file[..jp2h.place]).1;
    let mut manager = opj_event_mgr::default();
    let children = &file[..jp2h.end()];
    let mut place = jp2h.content();
    while place < children.len() {
        let mut rest = &children[place..];
        let Ok(header) = reach::read_box_header(&mut rest, 0) else {
            return Some(Walk {
                place,
                header: Jp2BoxHeader::default(),
            });
        };
        let child = Walk { place, header };
        if child.end() < child.content() || child.end() > children.len() {
            return Some(child);
        }
        let content = &children[child.content()..child.end()];
        if header.ty.is_image_header()
            && !reach::read_content(&header, &mut jp2, content, &mut manager)
        {
            return Some(child);
        }
        place = child.end();
    }
    None
}
