//! Reading a file up to its codestream.

use crate::asking::{ask, Message, Outcome};
use crate::event::opj_event_mgr;
use crate::jp2::reach;
use crate::memory::with_reader;
use crate::openjpeg::opj_jp2;
use crate::record::Record;
use crate::refusal::{ends_at_codestream, refusal};

/// What `opj_jp2_read_header_procedure` made of a file.
pub struct Reading {
    pub outcome: Outcome,
    /// Where the stream stood when the crate stopped; 0 after a panic.
    pub tell: u64,
    /// After success: the offset behind the codestream's header, or none where the walk ended without one.
    pub codestream: Option<u64>,
    /// After failure: document 01's number, 2 to 24, told by the crate's message or, where it is silent, deduced.
    pub cause: Option<u32>,
    /// After failure: where the header of the box at fault starts, a child's for 10, 11 and 13 to 24. Always deduced.
    pub place: Option<u64>,
    pub messages: Vec<Message>,
    pub record: Record,
    /// The crate's own record, for finishing.
    pub(crate) jp2: opj_jp2,
}

/// Reads `file` with a new decoder.
pub fn read(file: &[u8]) -> Reading {
    let mut jp2 = reach::create(true);
    let mut tell = 0;
    let (outcome, messages) = ask(|manager| {
        with_reader(file, |stream| {
            let accepted = reach::read_header_procedure(&mut jp2, stream, manager);
            tell = stream.tell() as u64;
            accepted
        })
    });
    let mut reading = Reading {
        outcome,
        tell,
        codestream: None,
        cause: None,
        place: None,
        messages,
        record: Record::from(&jp2),
        jp2,
    };
    match outcome {
        Outcome::Success if ends_at_codestream(file, tell) => reading.codestream = Some(tell),
        Outcome::Failure => (reading.cause, reading.place) = refusal(file, &reading),
        _ => {}
    }
    reading
}

/// The crate's reading with no one listening: whether it succeeded, and the record.
pub(crate) fn read_bare(file: &[u8]) -> (bool, opj_jp2) {
    let mut jp2 = reach::create(true);
    let mut manager = opj_event_mgr::default();
    let accepted = with_reader(file, |stream| {
        reach::read_header_procedure(&mut jp2, stream, &mut manager)
    });
    (accepted, jp2)
}
