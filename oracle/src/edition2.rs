//! What the port has to answer to a picture in edition 2 of the camera rules, in document 02's words (request R-2).
//!
//! What the editions have in common is edition 1's answer: where each channel goes, every number of a record but the
//! mark, and the samples. Whether a picture is refused, and every mark, are told here by the words alone. Nothing of that
//! comes from the crate's reorder.

use crate::expected::{Edition, Words};
use crate::finished::{refused, Answer, FINISHED};
use crate::picture::{FinishingRequest, MARK, RECORD};
use crate::reading::read_bare;
use crate::record::{Definition, Record};

/// What edition 2 asks for.
#[derive(Clone, Debug, PartialEq, Eq)]
pub struct Told {
    pub answer: Answer,
    /// The definitions that are applied; none where reading refuses the file.
    pub definitions: Vec<Definition>,
}

/// What edition 2 asks for of a picture to which edition 1 answers `first`; or why there is no answer.
pub fn answer(request: &FinishingRequest, first: &Answer) -> Result<Told, String> {
    let (accepted, jp2) = read_bare(&request.file);
    if !accepted {
        // Reading has no editions.
        return Ok(Told {
            answer: first.clone(),
            definitions: Vec::new(),
        });
    }
    let record = Record::from(&jp2);
    let words = Words::new(&record, request);
    let definitions = words.definitions().to_vec();
    let answer = match refusal(&words) {
        Some(refusal) => refusal,
        None => marked(first, &definitions)?,
    };
    Ok(Told {
        answer,
        definitions,
    })
}

/// 29, then 25 to 28, of which 26 counts channel 0 too, then 30.
fn refusal(words: &Words) -> Option<Answer> {
    if words.outside() {
        return Some(refused(29, 0));
    }
    if let Some((number, index)) = words.fault(Edition::Two) {
        return Some(refused(number, index as u64));
    }
    words.too_short().map(|needed| refused(30, needed))
}

/// Edition 1's finished picture, in which the plane of each channel has the typ of the channel's last definition.
fn marked(first: &Answer, definitions: &[Definition]) -> Result<Answer, String> {
    if first.kind != FINISHED {
        return Err(format!("edition 1 refuses with {}", first.number));
    }
    let mut answer = first.clone();
    if definitions.is_empty() {
        return Ok(answer);
    }
    let records = answer.records.chunks_exact_mut(RECORD);
    for (record, channel) in records.zip(&first.channels) {
        let last = last_definition(definitions, *channel);
        let last = last.ok_or(format!("nothing defines channel {channel}"))?;
        record[MARK] = last.typ.into();
    }
    Ok(answer)
}

fn last_definition(definitions: &[Definition], channel: usize) -> Option<&Definition> {
    let mut backwards = definitions.iter().rev();
    backwards.find(|definition| usize::from(definition.cn) == channel)
}
