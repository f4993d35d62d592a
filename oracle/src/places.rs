//! Where the lists of a file that was read stay in it.
//!
//! The crate copies its lists out and forgets where they stood. The port keeps a place and a count, so its places are
//! found once more here: the crate's own header reader goes from box to box, and of each kind the box counts that the
//! crate read into its record.

use crate::consts::Jp2BoxType;
use crate::walk::Walk;

/// A list in the file: where it starts, and how many it has. 0 and 0 where there is none.
#[derive(Clone, Copy, Debug, Default, PartialEq, Eq)]
pub(crate) struct Span {
    pub place: usize,
    pub count: usize,
}

/// The lists of one file. What the record itself counts is counted there.
#[derive(Clone, Copy, Debug, Default, PartialEq, Eq)]
pub(crate) struct Places {
    /// The compatible entries of `ftyp`.
    pub cl: usize,
    /// The content of the last `bpcc`; none is counted where it was read before the components were known.
    pub bpcc: Span,
    /// The profile of the `colr` of method 2 that is held.
    pub icc: usize,
    /// The width bytes of the palette's columns.
    pub pclr: usize,
    pub cmap: usize,
    pub cdef: usize,
}

/// The lists of a file that the crate accepted, so that every box that it read was sound.
pub(crate) fn places(file: &[u8]) -> Places {
    let mut finder = Finder::default();
    let mut place = 0;
    while let Some(walk) = Walk::at(file, place) {
        let past_the_end = walk.end() > file.len();
        if walk.header.ty == Jp2BoxType::JP2C || past_the_end || walk.end() < walk.content() {
            break;
        }
        finder.outer(file, &walk);
        place = walk.end();
    }
    finder.places
}

#[derive(Default)]
struct Finder {
    places: Places,
    /// The header bit: child boxes outside `jp2h` are read only after it, and the unknown bits hold it too.
    header_bit: bool,
    /// A colour is held: later `colr` boxes are skipped.
    colour_held: bool,
}

impl Finder {
    /// A box of the file.
    fn outer(&mut self, file: &[u8], walk: &Walk) {
        match walk.header.ty {
            Jp2BoxType::JP => return,
            Jp2BoxType::FTYP => {
                self.places.cl = walk.content() + 8;
                return;
            }
            Jp2BoxType::JP2H => self.children(file, walk),
            kind if kind.is_image_header() && self.header_bit => self.child(file, walk),
            _ => {}
        }
        self.header_bit = true;
    }

    /// The boxes inside `jp2h`.
    fn children(&mut self, file: &[u8], jp2h: &Walk) {
        let children = &file[..jp2h.end()];
        let mut place = jp2h.content();
        while let Some(child) = Walk::at(children, place) {
            if child.end() < child.content() || child.end() > children.len() {
                break;
            }
            self.child(file, &child);
            place = child.end();
        }
    }

    /// A child box that is read.
    fn child(&mut self, file: &[u8], walk: &Walk) {
        let content = walk.content();
        match walk.header.ty {
            Jp2BoxType::BPCC => {
                self.places.bpcc = Span {
                    place: content,
                    count: walk.end() - content,
                }
            }
            Jp2BoxType::COLR => self.colour(content, file[content]),
            Jp2BoxType::PCLR => self.places.pclr = content + 3,
            Jp2BoxType::CMAP => self.places.cmap = content,
            Jp2BoxType::CDEF => self.places.cdef = content + 2,
            _ => {}
        }
    }

    /// Methods 1 and 2 are held, any other is not.
    fn colour(&mut self, content: usize, method: u8) {
        if self.colour_held {
            return;
        }
        self.colour_held = matches!(method, 1 | 2);
        if method == 2 {
            self.places.icc = content + 3;
        }
    }
}
