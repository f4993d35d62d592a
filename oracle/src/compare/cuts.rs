//! Cuts files that reach their codestream after every number of bytes, and compares what the port answers to each
//! beginning with what the boxes of the whole file tell (request R-1).

mod check;
mod tally;
mod telling;

use crate::comparison::Comparison;
use crate::reading::jp2_files;
use check::{CheckedCut, Cut};
use oracle::generate::Generator;
use std::path::Path;
use std::rc::Rc;
use telling::Telling;

/// Whether the two agree on all beginnings of `count` generated files that reach their codestream, and of the pictures
/// of a folder; or why the folder cannot be read.
pub fn compare(seed: u64, count: u64, folder: Option<&Path>) -> Result<bool, String> {
    let pictures = folder.map_or(Ok(Vec::new()), jp2_files)?;
    let mut comparison = Comparison::<CheckedCut>::new();
    for (path, file) in &pictures {
        let telling = Telling::new(file.clone());
        let telling = telling.ok_or(format!("{} has no codestream", path.display()))?;
        comparison.all(&format!("cuts of {}", path.display()), cuts(telling));
    }
    let files: Vec<_> = pictures.into_iter().map(|(_, file)| file).collect();
    let generator = Generator::new(seed, &files);
    let tellings = (0..).filter_map(|number| Telling::new(generator.file(number)));
    let name = format!("cuts of {count} generated files of seed {seed}");
    comparison.all(&name, tellings.take(count as usize).flat_map(cuts));
    Ok(comparison.end())
}

/// Every beginning of a file, the empty one and the whole one too.
fn cuts(telling: Telling) -> impl Iterator<Item = Cut> {
    let telling = Rc::new(telling);
    (0..=telling.file.len()).map(move |length| Cut {
        telling: Rc::clone(&telling),
        length,
    })
}
