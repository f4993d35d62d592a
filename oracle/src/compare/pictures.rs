//! Compares the port's finishing with the crate's on many pictures, and in edition 2 with document 02's words.

mod check;
mod edition;
mod tally;

use crate::comparison::Comparison;
use check::CheckedPicture;
use oracle::generate::{
    definition_lists, definition_orders, large_pictures, mapping_lists, palette_edges,
    palette_widths, picture_edges, Pictures,
};

/// So many numbers of a list are printed.
const PRINTED: usize = 200;

/// Whether the two agree on all pictures, in both editions.
pub fn compare(seed: u64, count: u64) -> bool {
    let mut comparison = Comparison::<CheckedPicture>::new();
    for channels in 1..=4 {
        let name = format!("lists of definitions over {channels} channels");
        comparison.all(&name, definition_lists(channels));
    }
    comparison.all("orders of definitions", definition_orders());
    comparison.all("lists of mappings", mapping_lists());
    comparison.all("palettes of every width", palette_widths());
    comparison.all("first and last entries", palette_edges().into_iter());
    comparison.all("edges", picture_edges());
    comparison.all("large pictures", large_pictures());
    let pictures = Pictures::new(seed);
    let name = format!("generated pictures of seed {seed}");
    comparison.all(&name, (0..count).map(|number| pictures.picture(number)));
    comparison.end()
}

fn print_list<T: std::fmt::Debug>(name: &str, list: &[T]) {
    let shown = &list[..list.len().min(PRINTED)];
    let more = if list.len() > PRINTED {
        " and more"
    } else {
        ""
    };
    println!("  {name}  {shown:?}{more}");
}
