//! Makes a file with the port: the boxes before a codestream, then the codestream.
//!
//!   outside SPACE WIDTH HEIGHT PREC:SGND:MARK,.. PROFILE CODESTREAM FILE
//!
//! PROFILE is a file, or - for none. The corners are 0, 0, WIDTH and HEIGHT.

use std::process::ExitCode;

#[path = "../compare/writer.rs"]
mod writer;

/// What all boxes but the profile take, at most, for as many components as fit on a command line.
const ROOM: usize = 1 << 20;

fn main() -> ExitCode {
    match run() {
        Ok(()) => ExitCode::SUCCESS,
        Err(why) => {
            eprintln!("outside: {why}");
            ExitCode::FAILURE
        }
    }
}

fn run() -> Result<(), String> {
    let arguments: Vec<String> = std::env::args().skip(1).collect();
    let [space, width, height, components, profile, codestream, file] = &arguments[..] else {
        return Err("SPACE WIDTH HEIGHT PREC:SGND:MARK,.. PROFILE CODESTREAM FILE".to_owned());
    };
    let corner = [number(width)?, number(height)?];
    let components = components
        .split(',')
        .map(|component| record(component, corner))
        .collect::<Result<Vec<_>, _>>()?;
    let profile = match profile.as_str() {
        "-" => Vec::new(),
        path => read(path)?,
    };
    let codestream = read(codestream)?;
    let mut bytes = write(
        &components,
        corner,
        number(space)?,
        &profile,
        codestream.len(),
    )?;
    bytes.extend(codestream);
    std::fs::write(file, bytes).map_err(|error| format!("{file}: {error}"))
}

fn number(text: &str) -> Result<u32, String> {
    text.parse().map_err(|_| format!("{text} is no number"))
}

fn read(path: &str) -> Result<Vec<u8>, String> {
    std::fs::read(path).map_err(|error| format!("{path}: {error}"))
}

/// Document 01's 13 numbers of a component without samples.
fn record(text: &str, corner: [u32; 2]) -> Result<[u32; 13], String> {
    let numbers = text.split(':').map(number).collect::<Result<Vec<_>, _>>()?;
    let [precision, sign, mark] = numbers[..] else {
        return Err(format!("{text} is no component"));
    };
    let [width, height] = corner;
    Ok([
        1,
        1,
        width,
        height,
        0,
        0,
        precision,
        0,
        sign,
        0,
        0,
        u32::MAX,
        mark,
    ])
}

/// The boxes before a codestream of this length.
fn write(
    components: &[[u32; 13]],
    corner: [u32; 2],
    space: u32,
    profile: &[u8],
    codestream: usize,
) -> Result<Vec<u8>, String> {
    let numbers = components.concat();
    let mut bytes = vec![0; ROOM + profile.len()];
    let mut answer = [0u64; 4];
    let request = writer::Request {
        components: &numbers,
        count: components.len() as u32,
        corners: [0, 0, corner[0], corner[1]],
        space,
        profile: &profile,
        codestream: codestream as u64,
    };
    writer::write(&request, &mut bytes, &mut answer);
    let [kind, number, place, count] = answer;
    if kind != 0 {
        return Err(format!("refused with {number}, {place}"));
    }
    bytes.truncate(count as usize);
    Ok(bytes)
}
