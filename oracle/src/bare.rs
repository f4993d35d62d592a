//! The crate's runs with no messages kept and nothing copied out, for taking the time. A panic comes through.

use crate::event::opj_event_mgr;
use crate::jp2::reach;
use crate::memory::Sink;
use crate::openjpeg::{opj_image, opj_jp2};
use crate::picture::{image, planes};
use crate::reading::read_bare;
use crate::writing::{run, Step};
use crate::{Component, Plane, Unaskable, WritingRequest};

/// The crate's record after reading.
#[derive(Clone)]
pub struct Jp2(opj_jp2);

/// Reads a file: the record, or none where the crate refuses.
pub fn read(file: &[u8]) -> Option<Jp2> {
    let (accepted, jp2) = read_bare(file);
    accepted.then_some(Jp2(jp2))
}

/// The crate's picture, made ahead so that making it takes none of the time.
pub struct Image(Box<opj_image>);

impl Image {
    pub fn new(components: &[Component], samples: &[i32]) -> Result<Image, Unaskable> {
        Ok(Image(image(components, samples)?))
    }

    pub fn planes(&self) -> Vec<Plane> {
        planes(&self.0)
    }
}

/// Finishes the picture in place. The crate uses the record's definitions up, so each picture takes a clone of its own.
pub fn finish(jp2: &mut Jp2, image: &mut Image, ignore: bool) -> bool {
    jp2.0.ignore_pclr_cmap_cdef = ignore.into();
    let mut manager = opj_event_mgr::default();
    reach::apply_color_postprocessing(&mut jp2.0, &mut image.0, &mut manager)
}

/// Writes the boxes before a codestream: the bytes, or none where the crate refuses.
pub fn write(request: &WritingRequest) -> Option<Vec<u8>> {
    let sink = Sink::default();
    let mut manager = opj_event_mgr::default();
    let written = run(request, &sink, &mut Step::Setup, &mut manager);
    written.then(|| sink.bytes())
}
