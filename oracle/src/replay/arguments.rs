//! What is asked for on the command line.

use std::path::PathBuf;

pub enum Task {
    Help,
    List {
        seed: u64,
        pictures: Vec<PathBuf>,
        /// Where the list of files goes, if it is wanted.
        files_path: Option<PathBuf>,
        /// Where the list of pictures goes, if it is wanted.
        pictures_path: Option<PathBuf>,
        /// Where the list of writings goes, if it is wanted.
        writings_path: Option<PathBuf>,
    },
}

/// The task, or what is wrong with the arguments.
pub fn parse(mut arguments: impl Iterator<Item = String>) -> Result<Task, String> {
    let (mut seed, mut pictures) = (None, Vec::new());
    let (mut files_path, mut pictures_path, mut writings_path) = (None, None, None);
    while let Some(name) = arguments.next() {
        let mut value = || arguments.next().ok_or(format!("{name} lacks its value"));
        match name.as_str() {
            "--help" | "-h" => return Ok(Task::Help),
            "--seed" => seed = Some(number(&value()?)?),
            "--picture" => pictures.push(PathBuf::from(value()?)),
            "--pictures" => pictures_path = Some(PathBuf::from(value()?)),
            "--writings" => writings_path = Some(PathBuf::from(value()?)),
            _ if name.starts_with('-') => return Err(format!("{name} is no argument")),
            _ if files_path.is_some() => return Err(format!("{name} is one path too many")),
            _ => files_path = Some(PathBuf::from(name)),
        }
    }
    if files_path.is_none() && pictures_path.is_none() && writings_path.is_none() {
        return Err("the list's path is missing".to_owned());
    }
    Ok(Task::List {
        seed: seed.ok_or("--seed is missing")?,
        pictures,
        files_path,
        pictures_path,
        writings_path,
    })
}

fn number(text: &str) -> Result<u64, String> {
    text.parse().map_err(|_| format!("{text} is no number"))
}
