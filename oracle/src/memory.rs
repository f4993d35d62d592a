//! The crate's streams over memory.

use crate::consts::OPJ_J2K_STREAM_CHUNK_SIZE;
use crate::openjpeg::Stream;
use crate::stream::StreamInner;
use std::cell::RefCell;
use std::io::{Cursor, Result, Seek, SeekFrom, Write};
use std::rc::Rc;

/// Runs `run` on a stream that holds the whole of `file`, made as the crate makes one for a file on disk: its own
/// buffered reader, and the length known from the start.
pub(crate) fn with_reader<T>(file: &[u8], run: impl FnOnce(&mut Stream) -> T) -> T {
    // The crate wants a reader that borrows nothing. This one ends with this function, a panic included, and `run`
    // cannot keep it.
    let borrowed: &'static [u8] = unsafe { core::mem::transmute(file) };
    // A file shorter than the crate's buffer is in it whole either way, so a smaller one saves the memory.
    let capacity = file.len().min(OPJ_J2K_STREAM_CHUNK_SIZE as usize);
    let mut stream = Stream {
        m_inner: StreamInner::new_reader(capacity, Cursor::new(borrowed)),
        m_stream_length: file.len() as u64,
        m_byte_offset: 0,
    };
    run(&mut stream)
}

/// What a stream for writing wrote, still to be had when the stream is gone.
#[derive(Clone, Default)]
pub(crate) struct Sink(Rc<RefCell<Cursor<Vec<u8>>>>);

impl Sink {
    pub(crate) fn stream(&self) -> Stream {
        Stream {
            m_inner: StreamInner::new_writer(OPJ_J2K_STREAM_CHUNK_SIZE as usize, self.clone()),
            m_stream_length: 0,
            m_byte_offset: 0,
        }
    }

    pub(crate) fn bytes(&self) -> Vec<u8> {
        self.0.borrow().get_ref().clone()
    }
}

impl Write for Sink {
    fn write(&mut self, bytes: &[u8]) -> Result<usize> {
        self.0.borrow_mut().write(bytes)
    }

    fn flush(&mut self) -> Result<()> {
        Ok(())
    }
}

impl Seek for Sink {
    fn seek(&mut self, place: SeekFrom) -> Result<u64> {
        self.0.borrow_mut().seek(place)
    }
}
