//! Compares the port's reading with the crate's on many files.

mod check;
mod tally;

use crate::comparison::Comparison;
use crate::ours;
use oracle::generate::{systematic, Generator};
use oracle::numbers::REFUSED;
use std::path::{Path, PathBuf};

pub use check::CheckedFile;

/// A file's path and bytes.
type Picture = (PathBuf, Vec<u8>);

/// Whether the two agree on all files; or why the folder of pictures cannot be read.
pub fn compare(seed: u64, count: u64, folder: Option<&Path>) -> Result<bool, String> {
    let pictures = folder.map_or(Ok(Vec::new()), jp2_files)?;
    if !ours::minds_its_room(&[]) {
        println!("the port does not mind the length of the list that it writes to");
        return Ok(false);
    }
    if !minds_the_length() {
        println!("the port does not mind the length of a file");
        return Ok(false);
    }
    let mut comparison = Comparison::<CheckedFile>::new();
    comparison.all("systematic files", systematic());
    for (path, file) in &pictures {
        let name = format!("beginnings of {}", path.display());
        comparison.all(&name, (0..=file.len()).map(|end| &file[..end]));
    }
    let files: Vec<_> = pictures.into_iter().map(|(_, file)| file).collect();
    let generator = Generator::new(seed, &files);
    let name = format!("generated files of seed {seed}");
    comparison.all(&name, (0..count).map(|number| generator.file(number)));
    Ok(comparison.end())
}

/// Whether the port refuses by 1 a file that is longer than 32 bits count, which the crate does not, and only such a one:
/// a byte less is a box of zeros before the signature. No byte after the first box header is looked at, so that the system
/// lays out hardly any memory.
fn minds_the_length() -> bool {
    let file = vec![0; 1 << 32];
    let refused = |file: &[u8]| ours::read(file).map(|row| [row[0], row[1], row[2]]);
    let (over, most) = (refused(&file), refused(&file[1..]));
    let minded = over == Some([REFUSED, 1, 0]) && most == Some([REFUSED, 5, 0]);
    if minded {
        println!("a file of {} bytes: refused with 1", file.len());
    }
    minded
}

/// The files of a folder that have the ending of a picture, by name; or why they cannot be read.
pub fn jp2_files(folder: &Path) -> Result<Vec<Picture>, String> {
    list(folder).map_err(|error| format!("the samples cannot be read: {error}"))
}

fn list(folder: &Path) -> std::io::Result<Vec<Picture>> {
    let mut paths = Vec::new();
    for entry in std::fs::read_dir(folder)? {
        let path = entry?.path();
        if path.extension().is_some_and(|ending| ending == "jp2") {
            paths.push(path);
        }
    }
    paths.sort();
    let read = |path: PathBuf| std::fs::read(&path).map(|bytes| (path, bytes));
    paths.into_iter().map(read).collect()
}
