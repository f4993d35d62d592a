//! Writing the boxes that stand before a codestream.

use crate::picture::{counted, flat};
use crate::raw::{self, Asked};
use crate::room::room;
use crate::{Component, Refused};

/// The colour space of a picture.
#[derive(Clone, Copy, Debug, PartialEq, Eq, Hash)]
pub enum ColourSpace {
    /// sRGB, written as EnumCS 16.
    Srgb,
    /// Grey, written as EnumCS 17.
    Grey,
    /// sYCC, written as EnumCS 18.
    Sycc,
    /// Any other, written as EnumCS 0.
    Other,
}

impl ColourSpace {
    /// The crate's number.
    fn number(self) -> u32 {
        match self {
            ColourSpace::Other => 0,
            ColourSpace::Srgb => 1,
            ColourSpace::Grey => 2,
            ColourSpace::Sycc => 3,
        }
    }
}

/// What is to be written.
#[derive(Clone, Copy, Debug, PartialEq, Eq, Hash)]
pub struct WriteRequest<'a> {
    /// The components, of which precision, sign and mark are looked at. Where all precisions are equal, the signs of those
    /// after the first are not written.
    pub components: &'a [Component],
    /// Left edge of the picture's area.
    pub x0: u32,
    /// Upper edge.
    pub y0: u32,
    /// Right edge: the width is `x1 - x0`, wrapping at 2^32.
    pub x1: u32,
    /// Lower edge: the height is `y1 - y0`, likewise.
    pub y1: u32,
    /// The colour space, which is written where there is no profile.
    pub space: ColourSpace,
    /// An ICC profile, of any bytes; empty for none. A file with a profile has no `cdef`, so opacity is lost: see
    /// [`write`](fn@write).
    pub profile: &'a [u8],
    /// How many bytes the codestream has, the header of its box not among them.
    pub codestream: u64,
}

/// Writes signature, file type, `jp2h` and the header of the codestream's box. The codestream goes behind them.
///
/// A `cdef` is written where all of this holds: exactly one component has a mark that is not 0; the colour space is not
/// [`ColourSpace::Other`]; the marked component comes after the colours (one for grey, else three); and there is no profile.
/// It defines that component as the opacity of the whole picture, whatever its mark. In all other cases the marks are not
/// written, and this is no error: the file then does not tell which component is opacity.
///
/// # Errors
///
/// The numbers 31 to 34, and 30 where memory lacks.
///
/// ```
/// use cuzhantir_jp2::{write, Cause, ColourSpace, Component, WriteRequest};
///
/// let grey = Component { prec: 8, ..Component::default() };
/// let request = WriteRequest {
///     components: &[grey],
///     x0: 0,
///     y0: 0,
///     x1: 3,
///     y1: 2,
///     space: ColourSpace::Grey,
///     profile: &[],
///     codestream: 100,
/// };
/// assert_eq!(write(&request)?.len(), 85);
/// let refused = write(&WriteRequest { x1: 0, ..request }).unwrap_err();
/// assert_eq!(refused.cause, Cause::WriteZero);
/// # Ok::<(), cuzhantir_jp2::Refused>(())
/// ```
pub fn write(request: &WriteRequest<'_>) -> Result<Vec<u8>, Refused> {
    let mut bytes = room(write_into(request, &mut []))?;
    let written = write_into(request, &mut bytes)?;
    bytes.truncate(written);
    Ok(bytes)
}

/// As [`write`](fn@write), to a list of the caller's. Answers how many bytes were written; those behind them stay.
///
/// # Errors
///
/// The numbers 30 to 34; the list then stays as it was. 30 names the length that it needs.
pub fn write_into(request: &WriteRequest<'_>, d: &mut [u8]) -> Result<usize, Refused> {
    let asked = Asked {
        comps: &flat(request.components),
        count: counted(request.components),
        x0: request.x0,
        y0: request.y0,
        x1: request.x1,
        y1: request.y1,
        space: request.space.number(),
        profile: request.profile,
        codestream: request.codestream,
    };
    raw::write(asked, d)
}
