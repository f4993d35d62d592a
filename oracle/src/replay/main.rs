//! Writes lists of files, of pictures and of writings with the crate's answers, for replaying against the port.

mod arguments;
mod choice;
mod outcomes;
mod pictures;
mod writings;

use choice::Choice;
use oracle::generate::{edges, orders, tables, Generator};
use oracle::numbers::Numbers;
use pictures::PictureChoice;
use std::path::{Path, PathBuf};
use std::process::ExitCode;
use writings::WritingChoice;

const HELP: &str = include_str!("help.txt");

/// The list may be no longer.
const MOST_BYTES: usize = 1_500_000;

/// So many generated files are looked through for the choice.
const LOOKED_THROUGH: u64 = 100_000;

/// Of the long tables, one file of this many is taken. The tables go through 4 places, 35 lengths and 2 palettes in
/// turn; a number with no divisor in common with these comes to all.
const STRIDE: usize = 23;

/// Bytes of a picture behind its codestream's header that are taken too.
const BEYOND: usize = 4;

fn main() -> ExitCode {
    match arguments::parse(std::env::args().skip(1)).and_then(|task| run(&task)) {
        Ok(()) => ExitCode::SUCCESS,
        Err(why) => {
            eprintln!("replay-list: {why}; see oracle/replay-list --help");
            ExitCode::FAILURE
        }
    }
}

fn run(task: &arguments::Task) -> Result<(), String> {
    let arguments::Task::List {
        seed,
        pictures,
        files_path,
        pictures_path,
        writings_path,
    } = task
    else {
        print!("{HELP}");
        return Ok(());
    };
    if let Some(path) = files_path {
        list_files(*seed, pictures, path)?;
    }
    if let Some(path) = pictures_path {
        let choice = PictureChoice::new(*seed)?;
        write(path, &choice.bytes())?;
        choice.print();
    }
    if let Some(path) = writings_path {
        let choice = WritingChoice::new(*seed)?;
        let bytes = choice.bytes();
        if bytes.len() > writings::MOST_BYTES {
            return Err(format!("the list would have {} bytes", bytes.len()));
        }
        write(path, &bytes)?;
        choice.print();
    }
    Ok(())
}

fn list_files(seed: u64, pictures: &[PathBuf], path: &Path) -> Result<(), String> {
    let read = |path: &PathBuf| {
        std::fs::read(path).map_err(|error| format!("{}: {error}", path.display()))
    };
    let pictures = pictures.iter().map(read).collect::<Result<Vec<_>, _>>()?;
    let choice = choose(seed, &pictures)?;
    write(path, &bytes(choice.cases()))?;
    choice.print();
    Ok(())
}

fn choose(seed: u64, pictures: &[Vec<u8>]) -> Result<Choice, String> {
    let mut choice = Choice::default();
    for picture in pictures {
        let header = choice::codestream(picture).ok_or("a picture has no codestream")?;
        for end in 0..=picture.len().min(header + BEYOND) {
            choice.take(&picture[..end])?;
        }
    }
    for file in orders().into_iter().chain(edges()) {
        choice.take_new(file)?;
    }
    for file in tables().into_iter().step_by(STRIDE) {
        choice.take_new(file)?;
    }
    let generator = Generator::new(seed, pictures);
    for number in 0..LOOKED_THROUGH {
        choice.take_wanted(generator.file(number))?;
    }
    Ok(choice)
}

/// The number of cases; then for each the file's length, the file, and the numbers of the answer. All numbers have 4
/// bytes, the highest first.
fn bytes(cases: &[(Vec<u8>, Numbers)]) -> Vec<u8> {
    let mut bytes = (cases.len() as u32).to_be_bytes().to_vec();
    for (file, numbers) in cases {
        bytes.extend((file.len() as u32).to_be_bytes());
        bytes.extend(file);
        bytes.extend(numbers.iter().flat_map(|number| number.to_be_bytes()));
    }
    bytes
}

fn write(path: &Path, bytes: &[u8]) -> Result<(), String> {
    if bytes.len() > MOST_BYTES {
        return Err(format!("the list would have {} bytes", bytes.len()));
    }
    std::fs::write(path, bytes).map_err(|error| format!("{}: {error}", path.display()))
}
