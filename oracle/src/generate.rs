//! JP2 files to read, pictures to finish and writings, sound and unsound, the same for the same seed.
//!
//! [`Generator`] makes as many as are wanted: most put together box by box with here and there something wrong, some
//! by changing bytes of these or of real pictures. [`systematic`] goes through what can be gone through whole: orders,
//! lengths, cuts, widths and counts. [`Pictures`] and `arrangements.rs` do the same for pictures, [`Writings`]
//! and `requests.rs` for writings.

mod arrangements;
mod boxes;
mod cases;
mod children;
mod colouring;
mod contents;
mod files;
mod listings;
mod mutation;
mod pictures;
mod planes;
mod random;
mod requests;
mod systematic;
mod writings;

use files::Maker;
use mutation::mutate;
use random::Random;

pub use arrangements::{
    defined, definition_lists, definition_orders, large_pictures, mapping_lists, palette_edges,
    palette_widths, picture_edges, Definition,
};
pub use boxes::{plain, FREE, FTYP, IHDR, JP, JP2C, JP2H};
pub use contents::MAGIC;
pub use listings::{definition_listings, LISTED_CHANNELS};
pub use pictures::Pictures;
pub use requests::{
    corners, depths, large_writings, mark_patterns, writing_edges, wrong_together,
};
pub use systematic::{edges, orders, systematic, tables};
pub use writings::Writings;

/// Files from a seed. Each is made from the seed and its number alone, so one can be had without those before it.
pub struct Generator {
    seed: u64,
    /// The beginnings of real pictures, for changing.
    pictures: Vec<Vec<u8>>,
}

/// As much of a picture is changed: past the boxes before the codestream nothing is read.
const BEGINNING: usize = 256;

impl Generator {
    pub fn new(seed: u64, pictures: &[Vec<u8>]) -> Self {
        let beginning = |picture: &Vec<u8>| picture[..picture.len().min(BEGINNING)].to_vec();
        Generator {
            seed,
            pictures: pictures.iter().map(beginning).collect(),
        }
    }

    pub fn file(&self, number: u64) -> Vec<u8> {
        let mut random = Random::new(self.seed, number);
        if !random.one_in(5) {
            return Maker::new(&mut random).file();
        }
        let (mut file, other) = (self.original(&mut random), self.original(&mut random));
        for _ in 0..1 + random.below(3) {
            mutate(&mut file, &other, &mut random);
        }
        file
    }

    /// A file to change.
    fn original(&self, random: &mut Random) -> Vec<u8> {
        if self.pictures.is_empty() || !random.one_in(3) {
            return Maker::new(random).file();
        }
        self.pictures[random.below(self.pictures.len())].clone()
    }
}
