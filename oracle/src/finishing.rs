//! Finishing a picture: palette and order, and document 01's number for a refusal.

use crate::asking::{ask, last_error, Level, Message, Outcome};
use crate::jp2::reach;
use crate::openjpeg::{opj_image, opj_jp2};
use crate::picture::{
    image, image_without_samples, planes, Component, Plane, Props, Unaskable, NO_DATA,
};
use crate::reading::Reading;
use crate::refusal::number_in;

/// What `opj_jp2_apply_color_postprocessing` made of a picture.
#[derive(Clone, Debug, PartialEq, Eq)]
pub struct Finishing {
    pub outcome: Outcome,
    /// After failure: document 01's number, 25 to 28.
    pub cause: Option<u32>,
    /// The crate found the mappings wrong and made all of them palette mappings.
    pub corrected: bool,
    pub messages: Vec<Message>,
    /// The components afterwards, whatever the outcome.
    pub planes: Vec<Plane>,
}

/// Finishes a picture with the record from reading. `ignore` is the crate's `ignore_pclr_cmap_cdef`.
pub fn finish(
    reading: &Reading,
    components: &[Component],
    samples: &[i32],
    ignore: bool,
) -> Result<Finishing, Unaskable> {
    let mut image = image(components, samples)?;
    let mut jp2 = reading.jp2.clone();
    jp2.ignore_pclr_cmap_cdef = ignore.into();
    let (outcome, messages) =
        ask(|manager| reach::apply_color_postprocessing(&mut jp2, &mut image, manager));
    let cause = match outcome {
        Outcome::Failure => number(&messages, &reading.jp2, &mut image),
        _ => None,
    };
    Ok(Finishing {
        outcome,
        cause,
        corrected: messages.iter().any(is_correction),
        messages,
        planes: planes(&image),
    })
}

/// The channels of a picture that the crate finishes, before their reordering: the crate runs on the same record without
/// definitions.
pub(crate) fn channels(
    reading: &Reading,
    components: &[Component],
    samples: &[i32],
) -> Result<Vec<Plane>, Unaskable> {
    let mut image = image(components, samples)?;
    let mut jp2 = reading.jp2.clone();
    jp2.color.jp2_cdef = None;
    ask(|manager| reach::apply_color_postprocessing(&mut jp2, &mut image, manager));
    Ok(planes(&image))
}

/// Where a plane comes from.
#[derive(Clone, Copy, Debug, PartialEq, Eq)]
pub(crate) struct Origin {
    pub channel: usize,
    /// No definition has set its mark.
    pub unmarked: bool,
}

/// Which channel stands at each position after the definitions. The crate reorders components that carry their number,
/// twice, with other marks; where the marks afterwards differ no definition has set them.
pub(crate) fn order(reading: &Reading, channels: usize) -> Vec<Origin> {
    let first = reordered(reading, channels, 0);
    let second = reordered(reading, channels, 1);
    let origin = |(first, second): (&Plane, &Plane)| Origin {
        channel: first.props.dx as usize,
        unmarked: first.props.alpha != second.props.alpha,
    };
    first.iter().zip(&second).map(origin).collect()
}

/// The crate's reordering of components that carry their number, and all the same mark.
fn reordered(reading: &Reading, channels: usize, mark: u16) -> Vec<Plane> {
    let numbered = |number| Component {
        props: Props {
            dx: number as u32,
            alpha: mark,
            ..Props::default()
        },
        data: NO_DATA,
    };
    let components: Vec<_> = (0..channels).map(numbered).collect();
    let mut image = image_without_samples(&components);
    let mut jp2 = reading.jp2.clone();
    jp2.color.jp2_pclr = None;
    ask(|manager| reach::apply_color_postprocessing(&mut jp2, &mut image, manager));
    planes(&image)
}

fn is_correction(message: &Message) -> bool {
    message.level == Level::Warning && message.text.starts_with("Component mapping seems wrong")
}

/// What the crate says of definitions (25) and of mappings (27) alike.
const EITHER: &str = "Invalid component index ";

/// The beginnings of the crate's other error messages, each with document 01's number for it.
const NUMBERS: [(&str, u32); 7] = [
    ("Incomplete channel definitions", 26),
    ("Invalid value for cmap[", 27),
    ("Invalid component/palette index for direct mapping", 27),
    ("Component ", 27),
    ("Direct use at #", 27),
    ("Implementation limitation: for palette mapping", 27),
    ("image->comps[", 28),
];

/// Every refusal has an error message: one for 25, 26 and 28, and for 27 as many as the crate found faults.
fn number(messages: &[Message], jp2: &opj_jp2, image: &mut opj_image) -> Option<u32> {
    let text = last_error(messages)?;
    if text.starts_with(EITHER) {
        return Some(if definitions_pass(jp2, image) { 27 } else { 25 });
    }
    number_in(&NUMBERS, text)
}

/// The crate's colour check on definitions alone: it passes over a mapping list that is not as long as the palette
/// has columns, and counts channels the same as long as the list is not empty.
fn definitions_pass(jp2: &opj_jp2, image: &mut opj_image) -> bool {
    let mut color = jp2.color.clone();
    if let Some(pclr) = &mut color.jp2_pclr {
        if let Some(&mapping) = pclr.cmap.first() {
            pclr.cmap.push(mapping);
        }
    }
    ask(|manager| reach::check_color(image, &mut color, manager)).0 == Outcome::Success
}
