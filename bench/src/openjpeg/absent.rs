//! OpenJPEG's box layer where it was not there to be built: a library that no one can have.

use oracle::numbers::Numbers;
use oracle::{FinishingRequest, Plane};

#[derive(Clone, Copy)]
pub enum Library {}

pub fn library() -> Option<Library> {
    None
}

impl Library {
    pub fn read(self, _: &[u8]) -> bool {
        match self {}
    }

    pub fn reads(self, _: &[u8], _: &Numbers) -> bool {
        match self {}
    }

    pub fn image(self, _: &FinishingRequest) -> Image {
        match self {}
    }
}

pub enum Image {}

impl Image {
    pub fn finish(&mut self, _: &[u8]) -> bool {
        match *self {}
    }

    pub fn planes(&self) -> Vec<Plane> {
        match *self {}
    }

    pub fn set(&mut self, _: &[u32; 4], _: u32, _: &[u8]) {
        match *self {}
    }

    pub fn write(&mut self, _: u32, _: &mut [u8]) -> usize {
        match *self {}
    }
}
