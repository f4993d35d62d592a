//! The JP2 layer of the crate openjp2 0.6.1, unmodified and callable, to compare a port with.
//!
//! The crate's own eight files are compiled from the folder that `OPENJP2_SRC` names while this library is built.
//! The modules that are not there have stand-ins under `standins/`: types, and functions that succeed and do nothing.
//! Above them stands a small safe interface:
//!
//! - [`read`]: what `opj_jp2_read_header_procedure` makes of a file;
//! - [`finish`]: what `opj_jp2_apply_color_postprocessing` makes of a picture, with the record from reading;
//! - [`reorder`]: what `opj_jp2_apply_cdef` alone makes of components;
//! - [`write`]: the bytes that the encoder's JP2 part puts before a codestream;
//! - [`leaves`]: box kinds, box headers and numbers of 1 to 4 bytes, each by itself;
//! - [`finished`]: what the port has to answer to a picture, by the crate and, where it says nothing, by document 01;
//! - [`edition2`]: the same in edition 2 of the camera rules, which the crate does not have, by document 02;
//! - [`written`]: what the port has to answer to a writing, likewise;
//! - [`bare`]: the same runs with nothing listening and nothing copied out, for taking the time;
//! - [`generate`]: files to read, pictures to finish and writings, from a seed;
//! - [`numbers`]: what reading answers as a row of numbers, in the order that the port gives them.
//!
//! A panic inside the crate is an answer, [`Outcome::Panic`], and prints nothing.

// `jp2.rs` says `alloc::` for the standard library's part of that name.
extern crate alloc;

// The crate's own files. `event_msg!` is defined in the first and used in the others.
#[macro_use]
#[allow(warnings)]
mod event {
    include!(concat!(env!("OPENJP2_SRC"), "/event.rs"));
}
#[allow(warnings)]
mod cio {
    include!(concat!(env!("OPENJP2_SRC"), "/cio.rs"));
}
#[allow(warnings)]
mod consts {
    include!(concat!(env!("OPENJP2_SRC"), "/consts.rs"));
}
#[allow(warnings)]
mod image {
    include!(concat!(env!("OPENJP2_SRC"), "/image.rs"));
}
#[allow(warnings)]
mod jp2 {
    include!(concat!(env!("OPENJP2_SRC"), "/jp2.rs"));

    // Inside, because most of what is asked is private to this module.
    #[warn(warnings)]
    pub(crate) mod reach;
}
#[allow(warnings)]
mod malloc {
    include!(concat!(env!("OPENJP2_SRC"), "/malloc.rs"));
}
#[allow(warnings)]
mod stream {
    include!(concat!(env!("OPENJP2_SRC"), "/stream.rs"));
}
#[allow(warnings)]
mod types {
    include!(concat!(env!("OPENJP2_SRC"), "/types.rs"));
}

// The stand-ins.
#[path = "standins/c_api_types.rs"]
mod c_api_types;
#[path = "standins/function_list.rs"]
mod function_list;
#[path = "standins/j2k.rs"]
mod j2k;
#[path = "standins/math.rs"]
mod math;
#[path = "standins/openjpeg.rs"]
mod openjpeg;

// The interface.
mod asking;
pub mod bare;
pub mod edition2;
mod expected;
mod expected_writing;
pub mod finished;
mod finishing;
pub mod generate;
pub mod leaves;
mod memory;
pub mod numbers;
mod picture;
mod places;
mod reading;
mod record;
mod refusal;
mod reordering;
mod walk;
mod writing;
pub mod written;

pub use asking::{Level, Message, Outcome};
pub use finishing::{finish, Finishing};
pub use picture::{
    Component, FinishingRequest, Plane, Props, Unaskable, DATA, MARK, NO_DATA, RECORD,
};
pub use reading::{read, Reading};
pub use record::{Definition, Mapping, Palette, Profile, Record};
pub use reordering::{reorder, Reordering};
pub use writing::{write, Step, Writing, WritingRequest};
