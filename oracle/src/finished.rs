//! What the port has to answer to a picture in edition 1: reading the file and finishing it in one step. Edition 2's
//! answer is in `edition2.rs`.
//!
//! The crate says whether a picture is finished, for which of 25 to 28 it is not, and the planes. What it does not say
//! is in `expected.rs`. Where both can be asked the same they have to agree, or there is no answer.

use crate::asking::Outcome;
use crate::expected::{Edition, Words};
use crate::finishing::{channels, finish, order, Origin};
use crate::picture::{Component, FinishingRequest, Plane, NO_DATA};
use crate::reading::{read, read_bare, Reading};
use crate::record::Record;

/// Values of [`Answer::kind`].
pub const FINISHED: u64 = 0;
pub const REFUSED: u64 = 1;

/// A picture with more finished samples is not put to the crate with its samples: only whether it is refused is asked.
const MOST_ASKED: u64 = 1 << 26;

/// The port's answer, and what it writes to the front of the two destinations.
#[derive(Clone, Debug, Default, PartialEq, Eq)]
pub struct Answer {
    pub kind: u64,
    /// Of a refusal: document 01's number.
    pub number: u64,
    /// Of a refusal: box offset, index or needed length.
    pub place: u64,
    /// The number of finished records.
    pub count: u64,
    pub records: Vec<u32>,
    pub samples: Vec<i32>,
    /// Of each finished record the channel that it is.
    pub channels: Vec<usize>,
}

/// What document 01 asks for, by the crate's answer; or why there is none.
pub fn answer(request: &FinishingRequest) -> Result<Answer, String> {
    let reading = read(&request.file);
    match reading.outcome {
        Outcome::Success => after_reading(&reading, request),
        Outcome::Failure => {
            let number = reading.cause.ok_or("no number for the crate's refusal")?;
            let place = reading.place.ok_or("no place for the crate's refusal")?;
            Ok(refused(number, place))
        }
        Outcome::Panic => Err("the crate panics while reading".to_owned()),
    }
}

pub(crate) fn refused(number: u32, place: u64) -> Answer {
    Answer {
        kind: REFUSED,
        number: number.into(),
        place,
        ..Answer::default()
    }
}

fn after_reading(reading: &Reading, request: &FinishingRequest) -> Result<Answer, String> {
    let words = Words::new(&reading.record, request);
    if words.outside() {
        return Ok(refused(29, 0));
    }
    let fault = words.fault(Edition::One);
    let asked = Asked::new(reading, &words, request)?;
    if asked.number != fault.map(|(number, _)| number) {
        let number = asked.number;
        return Err(format!("the crate's number is {number:?}, not {fault:?}"));
    }
    if let Some((number, index)) = fault {
        return Ok(refused(number, index as u64));
    }
    if let Some(needed) = words.too_short() {
        return Ok(refused(30, needed));
    }
    asked.finished(reading, &words, request)
}

/// What the crate made of a picture.
struct Asked {
    /// Of 25 to 28, where the crate refuses.
    number: Option<u32>,
    /// None where the picture was too large to ask for its samples.
    planes: Option<Vec<Plane>>,
}

impl Asked {
    fn new(reading: &Reading, words: &Words, request: &FinishingRequest) -> Result<Self, String> {
        let large = words.needed_samples() > MOST_ASKED;
        let emptied = large.then(|| words.components().iter().map(emptied).collect::<Vec<_>>());
        let components = emptied.as_deref().unwrap_or(words.components());
        let finishing = finish(reading, components, &request.samples, request.ignore != 0)
            .map_err(|at| format!("the samples of component {} lie outside", at.component))?;
        let number = match finishing.outcome {
            Outcome::Success => None,
            Outcome::Failure => Some(finishing.cause.ok_or("no number for the crate's refusal")?),
            Outcome::Panic => return Err("the crate panics while finishing".to_owned()),
        };
        Ok(Asked {
            number,
            planes: (!large).then_some(finishing.planes),
        })
    }

    /// The finished picture: the crate's records, each with the place of its samples, and the crate's samples packed in
    /// channel order.
    fn finished(
        self,
        reading: &Reading,
        words: &Words,
        request: &FinishingRequest,
    ) -> Result<Answer, String> {
        let planes = self.planes.ok_or("too large to put to the crate")?;
        if words.definitions().is_empty() {
            return packed(&planes, &planes, &straight(planes.len()), words);
        }
        let channels = channels(reading, words.components(), &request.samples)
            .map_err(|at| format!("the samples of component {} lie outside", at.component))?;
        let order = order(reading, planes.len());
        packed(&planes, &channels, &order, words)
    }
}

/// Every channel where it was.
fn straight(channels: usize) -> Vec<Origin> {
    let origin = |channel| Origin {
        channel,
        unmarked: true,
    };
    (0..channels).map(origin).collect()
}

/// The same component without an area.
fn emptied(component: &Component) -> Component {
    let mut empty = *component;
    (empty.props.w, empty.props.h) = (0, 0);
    if empty.data != NO_DATA {
        empty.data = 0;
    }
    empty
}

/// The answer with these planes of the crate's, whose channels before reordering are given too.
fn packed(
    planes: &[Plane],
    channels: &[Plane],
    order: &[Origin],
    words: &Words,
) -> Result<Answer, String> {
    let mut samples = Vec::new();
    let mut places = Vec::with_capacity(channels.len());
    for channel in channels {
        let place = samples.len() as u32;
        places.push(channel.samples.as_ref().map_or(NO_DATA, |_| place));
        samples.extend(channel.samples.iter().flatten());
    }
    let mut records = Vec::with_capacity(13 * planes.len());
    for (plane, origin) in planes.iter().zip(order) {
        let channel = origin.channel;
        if !moved(&channels[channel], plane) {
            return Err(format!("no plane of the crate's is channel {channel}"));
        }
        let mut record = plane.props.numbers(places[channel]);
        if let Some(mark) = words.large_mark(channel).filter(|_| origin.unmarked) {
            record[12] = mark;
        }
        records.extend(record);
    }
    let needed = (words.needed_records(), words.needed_samples() as usize);
    if (records.len(), samples.len()) != needed {
        return Err(format!(
            "the crate's planes need other lengths than {needed:?}"
        ));
    }
    Ok(Answer {
        kind: FINISHED,
        count: planes.len() as u64,
        records,
        samples,
        channels: order.iter().map(|origin| origin.channel).collect(),
        ..Answer::default()
    })
}

/// Whether a channel and a plane are the same but for the mark.
fn moved(channel: &Plane, plane: &Plane) -> bool {
    let mut props = channel.props;
    props.alpha = plane.props.alpha;
    props == plane.props && channel.samples == plane.samples
}

/// The lengths that the finished records and samples of a picture need; none where reading refuses its file.
pub(crate) fn needed(request: &FinishingRequest) -> Option<(usize, u64)> {
    let (accepted, jp2) = read_bare(&request.file);
    let record = Record::from(&jp2);
    let words = Words::new(&record, request);
    accepted.then(|| (words.needed_records(), words.needed_samples()))
}
