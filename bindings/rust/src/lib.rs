//! The box layer of JP2 files (JPEG 2000, ISO/IEC 15444-1 Annex I).
//!
//! What a file's boxes say is read by a library whose every answer is proved; this package gives its four entries Rust's
//! own types. [`read`] reads a file up to its codestream, [`finish`] puts the planes of a decoded picture in colour order
//! with what was read, [`read_and_finish`] does both in one step, and [`write`](fn@write) makes the boxes that stand
//! before a codestream.
//!
//! A refusal is one of the numbers of document 01, the scope of the project, with a place: [`Refused`]. It changes no
//! destination. A file that ends before a codestream, such as an empty one, is not refused: test [`Header::codestream`].
//!
//! A picture is finished by one of two editions of the rules, which the caller names: [`Edition`].
//!
//! Which plane is which is said by the definitions ([`Header::definitions`]): the channel that is defined as colour k is on
//! plane k - 1. In edition 2 the mark of a finished plane says what its channel's definition says; in edition 1 marks may be
//! lost, so do not go by them; see [`Component::alpha`].
//!
//! ```
//! use cuzhantir_jp2::{
//!     finish, read, write, Asoc, ColourSpace, Component, Components, Edition, WriteRequest,
//! };
//!
//! // two planes of one row: grey, and the opacity of the picture
//! let grey = Component { w: 2, h: 1, prec: 8, data: Some(0), ..Component::default() };
//! let opacity = Component { data: Some(2), alpha: 1, ..grey };
//! let request = WriteRequest {
//!     components: &[grey, opacity],
//!     x0: 0,
//!     y0: 0,
//!     x1: 2,
//!     y1: 1,
//!     space: ColourSpace::Grey,
//!     profile: &[],
//!     codestream: 0,
//! };
//! let file = write(&request)?;
//!
//! let header = read(&file)?;
//! assert_eq!(header.codestream(), Some(file.len()));
//! assert_eq!(header.definitions().map(|d| d.asoc).collect::<Vec<_>>(), [Asoc::Colour(1), Asoc::Whole]);
//!
//! // colour 1 is on plane 0, and the other plane is the opacity, as its mark says in edition 2
//! let samples = [10, 11, 255, 0];
//! let decoded = Components::new(&[grey, opacity], &samples);
//! let picture = finish(&header, &decoded, false, Edition::Two)?;
//! assert_eq!(picture.plane(0).unwrap().samples, Some(&[10, 11][..]));
//! assert_eq!(picture.plane(1).unwrap().samples, Some(&[255, 0][..]));
//! assert_eq!(picture.plane(1).unwrap().record.alpha, 1);
//! # Ok::<(), cuzhantir_jp2::Refused>(())
//! ```
//!
//! Finishing takes up to 160 KB of the calling thread's stack. No call keeps anything, so any number of threads may call
//! at once.

#![deny(missing_docs)]
#![deny(unsafe_op_in_unsafe_fn)]

mod cause;
mod exports;
mod header;
mod lists;
mod picture;
mod raw;
mod room;
mod writing;

pub use cause::{Cause, Refused};
pub use header::{read, CieLab, Colour, Depth, FileType, Header, ImageHeader, Method, Status};
pub use lists::{
    Asoc, Compatible, Definition, Definitions, Depths, Mapping, MappingType, Mappings, Palette,
    Row, Rows, Typ,
};
pub use picture::{
    finish, finish_into, read_and_finish, read_and_finish_into, Component, Components, Edition,
    Picture, Plane, Planes,
};
pub use writing::{write, write_into, ColourSpace, WriteRequest};

/// How many numbers a reading has.
pub const READING_LENGTH: usize = 44;

/// How many numbers a component has in a flat list.
pub const COMPONENT_LENGTH: usize = 13;

/// In a flat list, the first sample's index of a component that has no samples.
pub const NO_SAMPLES: u32 = 4_294_967_295;

/// The example of the README, so that it is run with the other documentation.
#[cfg(doctest)]
#[doc = include_str!("../../README.md")]
struct Readme;
