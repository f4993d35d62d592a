//! What is asked for on the command line.

use std::path::PathBuf;

pub enum Task {
    Help,
    Rate,
    Orders,
    Compare {
        seed: u64,
        /// Of generated files; none where reading is not compared.
        count: Option<u64>,
        samples: Option<PathBuf>,
        /// Of generated files whose beginnings are read; none where these are not compared.
        cuts: Option<u64>,
        /// Of generated pictures; none where finishing is not compared.
        pictures: Option<u64>,
        /// Of generated writings; none where writing is not compared.
        writings: Option<u64>,
    },
}

/// The task, or what is wrong with the arguments.
pub fn parse(arguments: impl Iterator<Item = String>) -> Result<Task, String> {
    let mut arguments = arguments;
    let (mut seed, mut count, mut samples, mut pictures) = (None, None, None, None);
    let (mut cuts, mut writings) = (None, None);
    while let Some(name) = arguments.next() {
        let mut value = || arguments.next().ok_or(format!("{name} lacks its value"));
        match name.as_str() {
            "--help" | "-h" => return Ok(Task::Help),
            "--rate" => return Ok(Task::Rate),
            "--orders" => return Ok(Task::Orders),
            "--seed" => seed = Some(number(&value()?)?),
            "--count" => count = Some(number(&value()?)?),
            "--cuts" => cuts = Some(number(&value()?)?),
            "--pictures" => pictures = Some(number(&value()?)?),
            "--writings" => writings = Some(number(&value()?)?),
            "--samples" => samples = Some(PathBuf::from(value()?)),
            _ => return Err(format!("{name} is no argument")),
        }
    }
    if [count, cuts, pictures, writings].iter().all(Option::is_none) {
        return Err("--count is missing, or --cuts, --pictures or --writings".to_owned());
    }
    Ok(Task::Compare {
        seed: seed.ok_or("--seed is missing")?,
        count,
        samples,
        cuts,
        pictures,
        writings,
    })
}

fn number(text: &str) -> Result<u64, String> {
    text.parse().map_err(|_| format!("{text} is no number"))
}
