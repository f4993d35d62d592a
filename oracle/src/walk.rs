//! From box header to box header, with the crate's own reader.

use crate::jp2::{reach, Jp2BoxHeader};

/// A box and where its header starts, found by the crate's own `Jp2BoxHeader::read`.
#[derive(Clone, Copy)]
pub(crate) struct Walk {
    pub place: usize,
    pub header: Jp2BoxHeader,
}

impl Walk {
    pub(crate) fn at(file: &[u8], place: usize) -> Option<Walk> {
        let mut rest = file.get(place..)?;
        let header = reach::read_box_header(&mut rest, file.len() - place).ok()?;
        Some(Walk { place, header })
    }

    pub(crate) fn content(&self) -> usize {
        self.place + self.header.header_length as usize
    }

    pub(crate) fn end(&self) -> usize {
        self.place + self.header.length as usize
    }
}
