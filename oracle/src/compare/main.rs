//! Compares the port's reading with the crate's on many files and their beginnings, its finishing on many pictures and
//! its writing on many requests, and times both. Edition 2 of finishing, which the crate does not have, is held against
//! document 02's words.

mod arguments;
mod comparison;
mod cuts;
mod orders;
mod ours;
mod pictures;
mod port;
mod rate;
mod reading;
mod writer;
mod writings;

use arguments::Task;
use std::path::Path;
use std::process::ExitCode;

const HELP: &str = include_str!("help.txt");

fn main() -> ExitCode {
    let same = match arguments::parse(std::env::args().skip(1)) {
        Ok(Task::Help) => {
            print!("{HELP}");
            Ok(true)
        }
        Ok(Task::Rate) => Ok(rate::rate()),
        Ok(Task::Orders) => Ok(orders::compare()),
        Ok(Task::Compare {
            seed,
            count,
            samples,
            cuts,
            pictures,
            writings,
        }) => compare(seed, count, samples.as_deref(), cuts, pictures, writings),
        Err(why) => Err(why),
    };
    match same {
        Ok(true) => ExitCode::SUCCESS,
        Ok(false) => ExitCode::FAILURE,
        Err(why) => stop(&why),
    }
}

/// Reading, reading beginnings, finishing and writing, each where a number of files, pictures or requests is given.
fn compare(
    seed: u64,
    count: Option<u64>,
    samples: Option<&Path>,
    cuts: Option<u64>,
    pictures: Option<u64>,
    writings: Option<u64>,
) -> Result<bool, String> {
    let mut same = true;
    if let Some(count) = count {
        same &= reading::compare(seed, count, samples)?;
    }
    if let Some(count) = cuts {
        same &= cuts::compare(seed, count, samples)?;
    }
    if let Some(count) = pictures {
        same &= pictures::compare(seed, count);
    }
    if let Some(count) = writings {
        same &= writings::compare(seed, count);
    }
    Ok(same)
}

fn stop(why: &str) -> ExitCode {
    eprintln!("compare: {why}; see compare --help");
    ExitCode::from(2)
}
