//! Finishing a decoded picture: its channels expanded, and its planes in colour order.

use crate::raw::{self, Handed};
use crate::room::room;
use crate::{Header, Refused, COMPONENT_LENGTH, NO_SAMPLES};
use std::borrow::Cow;

/// A component of a picture, or a finished plane: the fields of the crate's `opj_image_comp` in their order.
#[derive(Clone, Copy, Debug, Default, PartialEq, Eq, Hash)]
pub struct Component {
    /// Horizontal separation of samples.
    pub dx: u32,
    /// Vertical separation of samples.
    pub dy: u32,
    /// Width.
    pub w: u32,
    /// Height.
    pub h: u32,
    /// Horizontal offset.
    pub x0: u32,
    /// Vertical offset.
    pub y0: u32,
    /// Bits of a sample.
    pub prec: u32,
    /// Bits of a sample, as older callers have them; nothing here looks at it.
    pub bpp: u32,
    /// 1 where samples have a sign.
    pub sgnd: u32,
    /// How many resolutions were decoded.
    pub resno_decoded: u32,
    /// By how much the picture was made smaller.
    pub factor: u32,
    /// The first sample's index in the list of samples; none where there are no samples. An index of 4294967295 counts as
    /// none too.
    pub data: Option<u32>,
    /// The mark. For writing, a component with any mark but 0 is the opacity of the picture; [`write`](fn@crate::write)
    /// says when that gets into the file.
    ///
    /// Of a plane that was finished by [`Edition::Two`] with the file's definitions, the mark is the typ, as a number, of
    /// its channel's last definition: 1 or 2 is opacity. Of one that was finished by [`Edition::One`] it does not say whether
    /// the plane is opacity, so go by the definitions: each definition sets a mark, and a later one may set it again after
    /// the record has moved. With the definitions (0, 1, 0), (1, 0, 1), opacity and then a colour, channel 1 is on plane 0
    /// and channel 0 on plane 1. Their marks are 0 and 1 in edition 2, and 0 and 0 in edition 1. Without definitions, or where
    /// they are ignored, a plane has the mark of its component.
    pub alpha: u32,
}

impl Component {
    /// The 13 numbers of a flat list.
    pub fn to_numbers(self) -> [u32; COMPONENT_LENGTH] {
        [
            self.dx,
            self.dy,
            self.w,
            self.h,
            self.x0,
            self.y0,
            self.prec,
            self.bpp,
            self.sgnd,
            self.resno_decoded,
            self.factor,
            self.data.unwrap_or(NO_SAMPLES),
            self.alpha,
        ]
    }

    /// From the 13 numbers of a flat list.
    pub fn from_numbers(numbers: [u32; COMPONENT_LENGTH]) -> Component {
        let [dx, dy, w, h, x0, y0, prec, bpp, sgnd, resno_decoded, factor, data, alpha] = numbers;
        Component {
            dx,
            dy,
            w,
            h,
            x0,
            y0,
            prec,
            bpp,
            sgnd,
            resno_decoded,
            factor,
            data: (data != NO_SAMPLES).then_some(data),
            alpha,
        }
    }
}

/// The numbers of all components in one list.
pub(crate) fn flat(components: &[Component]) -> Vec<u32> {
    components.iter().flat_map(|c| c.to_numbers()).collect()
}

/// How many components there are; more than 32 bits hold are refused like any that are too many.
pub(crate) fn counted(components: &[Component]) -> u32 {
    u32::try_from(components.len()).unwrap_or(u32::MAX)
}

/// The edition of the rules by which a picture is finished. It has to be named: none is taken by default.
///
/// The editions differ in two things: the marks of finished planes ([`Component::alpha`]), and whether channel 0 has to be
/// defined. All else is the same: which channel is on which plane, every other field of the records, the samples, and every
/// other refusal.
#[derive(Clone, Copy, Debug, PartialEq, Eq, Hash)]
pub enum Edition {
    /// Edition 1: the crate's behaviour, and that of installed cameras. Channels from 1 up have to be defined, where there
    /// are definitions. A mark may be lost where a later definition moves records.
    One,
    /// Edition 2, which is closer to Annex I: each plane has the mark that its own channel's definition gives, the last one
    /// where there are several; and channel 0 has to be defined too, where there are definitions.
    Two,
}

impl Edition {
    /// The number that `include/cuzhantir_jp2.h` has for it.
    pub fn number(self) -> u32 {
        match self {
            Edition::One => 0,
            Edition::Two => 1,
        }
    }
}

/// The components of a decoded picture, and the samples of all of them in one list.
#[derive(Clone, Debug, PartialEq, Eq)]
pub struct Components<'a> {
    numbers: Cow<'a, [u32]>,
    count: u32,
    samples: &'a [i32],
}

impl<'a> Components<'a> {
    /// From records.
    pub fn new(components: &[Component], samples: &'a [i32]) -> Self {
        Components {
            numbers: Cow::Owned(flat(components)),
            count: counted(components),
            samples,
        }
    }

    /// From a flat list with 13 numbers for each of `count` components. A shorter list is refused when it is finished (29);
    /// of a longer one the rest is not looked at.
    pub fn from_numbers(numbers: &'a [u32], count: u32, samples: &'a [i32]) -> Self {
        Components {
            numbers: Cow::Borrowed(numbers),
            count,
            samples,
        }
    }

    fn handed(&self, ignore: bool, edition: Edition) -> Handed<'_> {
        Handed {
            ignore,
            edition,
            comps: &self.numbers,
            count: self.count,
            samples: self.samples,
        }
    }
}

/// A finished picture: its planes in colour order.
#[derive(Clone, Debug, PartialEq, Eq)]
pub struct Picture {
    records: Vec<Component>,
    samples: Vec<i32>,
}

impl Picture {
    /// The records of the planes, in plane order.
    pub fn records(&self) -> &[Component] {
        &self.records
    }

    /// The samples of all planes, packed in channel order; a record's `data` says where those of its plane start.
    pub fn samples(&self) -> &[i32] {
        &self.samples
    }

    /// Plane `p`, from 0. The channel that a definition calls colour k is on plane k - 1, where the definitions name no
    /// channel and no colour twice. Without definitions channel c is on plane c.
    pub fn plane(&self, p: usize) -> Option<Plane<'_>> {
        self.records.get(p).map(|&record| Plane {
            record,
            samples: samples_of(&record, &self.samples),
        })
    }

    /// The planes in their order.
    pub fn planes(&self) -> Planes<'_> {
        Planes {
            picture: self,
            next: 0,
        }
    }
}

/// The samples of a plane; none where it has none, or where they would not lie in the list.
fn samples_of<'s>(record: &Component, samples: &'s [i32]) -> Option<&'s [i32]> {
    let start = usize::try_from(record.data?).ok()?;
    let size = u64::from(record.w) * u64::from(record.h);
    samples.get(start..)?.get(..usize::try_from(size).ok()?)
}

/// A plane of a finished picture.
#[derive(Clone, Copy, Debug, PartialEq, Eq)]
pub struct Plane<'p> {
    /// Its record.
    pub record: Component,
    /// Its samples, row by row; none where it has none.
    pub samples: Option<&'p [i32]>,
}

impl Plane<'_> {
    /// The sample at a row and a column.
    pub fn sample(&self, row: u32, column: u32) -> Option<i32> {
        if row >= self.record.h || column >= self.record.w {
            return None;
        }
        let index = u64::from(row) * u64::from(self.record.w) + u64::from(column);
        self.samples?.get(usize::try_from(index).ok()?).copied()
    }
}

/// The planes of a finished picture.
#[derive(Clone, Debug)]
pub struct Planes<'p> {
    picture: &'p Picture,
    next: usize,
}

impl<'p> Iterator for Planes<'p> {
    type Item = Plane<'p>;

    fn next(&mut self) -> Option<Plane<'p>> {
        let plane = self.picture.plane(self.next)?;
        self.next += 1;
        Some(plane)
    }

    fn size_hint(&self) -> (usize, Option<usize>) {
        let left = self.picture.records.len() - self.next;
        (left, Some(left))
    }
}

impl ExactSizeIterator for Planes<'_> {}

/// Finishes to lists of the needed lengths: the records' is asked for first, then the samples'.
fn finished(
    mut run: impl FnMut(&mut [u32], &mut [i32]) -> Result<usize, Refused>,
) -> Result<Picture, Refused> {
    let mut records = room(run(&mut [], &mut []))?;
    let mut samples = room(run(&mut records, &mut []))?;
    let planes = run(&mut records, &mut samples)?;
    Ok(Picture {
        records: records_of(&records, planes),
        samples,
    })
}

/// The first records of a flat list.
fn records_of(numbers: &[u32], planes: usize) -> Vec<Component> {
    numbers
        .chunks_exact(COMPONENT_LENGTH)
        .take(planes)
        .map(|chunk| Component::from_numbers(std::array::from_fn(|k| chunk[k])))
        .collect()
}

/// Finishes a picture with what was read of its file: samples looked up in the palette, channels packed, and their records
/// in the order of the definitions, with marks by the edition. With `ignore` palette, mappings and definitions count for
/// nothing, and the components are copied, marks included; then both editions give the same.
///
/// Where there is a palette with mappings, there is a channel for each of its columns, with the column's depth, also where a
/// mapping uses a component directly; else each component is a channel. Samples are packed in the order of the channels and
/// only records are moved, so a plane's `data` tells which channel it is. A header of a file that ended before a codestream
/// is taken too: that of an empty file has no definitions, so the components are copied.
///
/// A palette has up to 255 columns, and components may share samples, so a small picture may need much memory: the
/// destinations are made as long as the picture needs. Use [`finish_into`] to bound them.
///
/// # Errors
///
/// The numbers 25 to 30. 26 names channel 0 in [`Edition::Two`] alone. 30 comes where over 4294967294 samples, or more memory
/// than there is, would be needed.
///
/// ```
/// use cuzhantir_jp2::{finish, read, Component, Components, Edition};
///
/// // a picture whose channels are blue, green and red
/// let file = std::fs::read("../../samples/gdal-bgr.jp2")?;
/// let header = read(&file)?;
/// assert!(header.codestream().is_some());
/// // three components of one sample each, as a decoder would give them
/// let component = |at| Component { w: 1, h: 1, prec: 8, data: Some(at), ..Component::default() };
/// let components = [component(0), component(1), component(2)];
/// let decoded = Components::new(&components, &[10, 20, 30]);
/// let picture = finish(&header, &decoded, false, Edition::Two)?;
/// assert_eq!(picture.plane(0).unwrap().sample(0, 0), Some(30));
/// # Ok::<(), Box<dyn std::error::Error>>(())
/// ```
pub fn finish(
    header: &Header<'_>,
    components: &Components<'_>,
    ignore: bool,
    edition: Edition,
) -> Result<Picture, Refused> {
    finished(|records, planes| finish_into(header, components, ignore, edition, records, planes))
}

/// As [`finish`], to lists of the caller's: 13 numbers a plane to `records`, and the samples to `planes`. Answers how many
/// planes there are; what the lists have behind them stays.
///
/// # Errors
///
/// As [`finish`]; both lists then stay as they were. 30 names the length that `records` needs, or else `planes`.
pub fn finish_into(
    header: &Header<'_>,
    components: &Components<'_>,
    ignore: bool,
    edition: Edition,
    records: &mut [u32],
    planes: &mut [i32],
) -> Result<usize, Refused> {
    raw::finish(
        header.file(),
        header.numbers(),
        components.handed(ignore, edition),
        records,
        planes,
    )
}

/// Reads a file and finishes its picture: [`read`](crate::read) and [`finish`] in one step. A file that ends before a
/// codestream is finished with what was read of it; [`read`](crate::read) tells the two apart.
///
/// # Errors
///
/// The numbers 1 to 30.
pub fn read_and_finish(
    file: &[u8],
    components: &Components<'_>,
    ignore: bool,
    edition: Edition,
) -> Result<Picture, Refused> {
    finished(|records, planes| {
        read_and_finish_into(file, components, ignore, edition, records, planes)
    })
}

/// As [`read_and_finish`], to lists of the caller's, as for [`finish_into`].
///
/// # Errors
///
/// The numbers 1 to 30; both lists then stay as they were.
pub fn read_and_finish_into(
    file: &[u8],
    components: &Components<'_>,
    ignore: bool,
    edition: Edition,
    records: &mut [u32],
    planes: &mut [i32],
) -> Result<usize, Refused> {
    raw::picture(file, components.handed(ignore, edition), records, planes)
}

#[cfg(test)]
mod tests {
    use super::*;

    #[test]
    fn a_component_goes_there_and_back() {
        let numbers: [u32; COMPONENT_LENGTH] = std::array::from_fn(|k| k as u32 + 1);
        let component = Component::from_numbers(numbers);
        assert_eq!(component.to_numbers(), numbers);
        assert_eq!((component.w, component.h, component.data), (3, 4, Some(12)));
        let none = Component::from_numbers([NO_SAMPLES; COMPONENT_LENGTH]);
        assert_eq!(none.data, None);
        assert_eq!(none.to_numbers(), [NO_SAMPLES; COMPONENT_LENGTH]);
    }

    #[test]
    fn samples_stand_row_by_row() {
        let record = Component {
            w: 3,
            h: 2,
            data: Some(1),
            ..Component::default()
        };
        let picture = Picture {
            records: vec![record],
            samples: (0..9).collect(),
        };
        let plane = picture.plane(0).expect("a plane");
        assert_eq!(plane.sample(0, 0), Some(1));
        assert_eq!(plane.sample(0, 2), Some(3));
        assert_eq!(plane.sample(1, 2), Some(6));
        assert_eq!(plane.sample(0, 3), None);
        assert_eq!(plane.sample(2, 0), None);
        assert_eq!(picture.plane(1), None);
        assert_eq!(picture.planes().len(), 1);
    }

    #[test]
    fn a_plane_outside_its_samples_has_none() {
        let record = Component {
            w: 2,
            h: 2,
            data: Some(1),
            ..Component::default()
        };
        assert_eq!(
            samples_of(&record, &[0, 1, 2, 3, 4]),
            Some(&[1, 2, 3, 4][..])
        );
        assert_eq!(samples_of(&record, &[0, 1, 2, 3]), None);
        let huge = Component {
            w: u32::MAX,
            h: u32::MAX,
            ..record
        };
        assert_eq!(samples_of(&huge, &[0]), None);
        let plane = Plane {
            record: huge,
            samples: None,
        };
        assert_eq!(plane.sample(u32::MAX - 1, u32::MAX - 1), None);
    }
}
