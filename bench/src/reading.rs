//! Reading a file.

use crate::clock::seconds_of_one;
use crate::files::{
    bpcc, cdef, cmap, colr, file, file_around, free, further_colr, further_ihdr, ihdr, looked_up,
    pclr, reversed,
};
use crate::openjpeg;
use crate::port;
use crate::table::{Case, Run, Table};
use crate::Disagreement;
use oracle::numbers::{self, COUNT};
use std::hint::black_box;
use std::process::ExitCode;

/// A file that is read, so many calls at a time.
struct Input {
    name: String,
    file: Vec<u8>,
    calls: u32,
}

/// So many small boxes. The microseconds of such a file are the nanoseconds of a box.
const MANY: usize = 1000;

pub fn time(table: &mut Table) -> Result<(), Disagreement> {
    for input in inputs() {
        time_file(table, &input)?;
    }
    Ok(())
}

/// The files. The plain one comes first: those with many boxes are it and the boxes.
fn inputs() -> Vec<Input> {
    let mut inputs = vec![
        input("plain", file(&plain()), 5000),
        input(
            "palette and definitions",
            file(&[
                ihdr(640, 480, 1),
                colr(),
                pclr(3),
                cmap(&[0, 1, 2].map(looked_up)),
                cdef(&reversed(3)),
            ]),
            2000,
        ),
        input(
            "16384 components",
            file(&[ihdr(640, 480, 16384), bpcc(16384), colr()]),
            100,
        ),
        many("free before jp2h", file_around(&[many_of(free())], &plain(), &[])),
        many("free after jp2h", file_around(&[], &plain(), &[many_of(free())])),
    ];
    let children = [
        ("free", free()),
        ("ihdr", further_ihdr()),
        ("colr", further_colr()),
        ("bpcc", bpcc(3)),
    ];
    for (name, child) in children {
        let [ihdr, colr] = plain();
        let inside = file(&[ihdr, colr, many_of(child.clone())]);
        inputs.push(many(&format!("{name} in jp2h"), inside));
        if name != "free" {
            let outside = file_around(&[], &plain(), &[many_of(child)]);
            inputs.push(many(&format!("{name} after jp2h"), outside));
        }
    }
    inputs
}

/// The boxes of a plain file's `jp2h`.
fn plain() -> [Vec<u8>; 2] {
    [ihdr(640, 480, 3), colr()]
}

fn many_of(small: Vec<u8>) -> Vec<u8> {
    small.repeat(MANY)
}

fn many(name: &str, file: Vec<u8>) -> Input {
    input(&format!("{MANY} {name}"), file, 100)
}

fn input(name: &str, file: Vec<u8>, calls: u32) -> Input {
    Input {
        name: name.to_owned(),
        file,
        calls,
    }
}

fn time_file(table: &mut Table, input: &Input) -> Result<(), Disagreement> {
    let Input { name, file, calls } = input;
    let calls = *calls;
    if !alike(file) {
        return Err(format!("reading, {name}: the answers differ"));
    }
    let openjpeg = openjpeg::library().map(|library| -> Run {
        Box::new(move || seconds_of_one(calls, || library.read(black_box(file))))
    });
    let mut copied = file.to_vec();
    table.time(Case {
        name: format!("reading, {name}, {} bytes", file.len()),
        buffers: "hot",
        ours: Box::new(|| seconds_of_one(calls, || read(black_box(file)))),
        theirs: Box::new(|| seconds_of_one(calls, || oracle::bare::read(black_box(file)))),
        making: None,
        openjpeg,
        copy: Box::new(|| {
            seconds_of_one(calls, || black_box(&mut copied[..]).copy_from_slice(file))
        }),
    });
    Ok(())
}

/// The names of the files, a line each, for `bench/instructions`.
pub fn list() -> ExitCode {
    for input in inputs() {
        println!("{}", input.name);
    }
    ExitCode::SUCCESS
}

/// One of the files read so many times, by the one that is named, for `bench/instructions`.
pub fn repeat(who: &str, name: &str, calls: &str) -> ExitCode {
    let Ok(calls) = calls.parse::<u32>() else {
        return ExitCode::FAILURE;
    };
    let Some(Input { file, .. }) = inputs().into_iter().find(|input| input.name == name) else {
        return ExitCode::FAILURE;
    };
    for _ in 0..calls {
        match who {
            "ours" => {
                black_box(read(black_box(&file)));
            }
            "crate" => {
                black_box(oracle::bare::read(black_box(&file)));
            }
            _ => return ExitCode::FAILURE,
        }
    }
    ExitCode::SUCCESS
}

/// Whether all read the same from the file.
fn alike(file: &[u8]) -> bool {
    let Some(asked) = numbers::expected(file, &oracle::read(file)) else {
        return false;
    };
    let reads = |library: openjpeg::Library| library.reads(file, &asked);
    read(file) == asked.map(u64::from) && openjpeg::library().is_none_or(reads)
}

fn read(file: &[u8]) -> [u64; COUNT] {
    let mut out = [0; COUNT];
    port::read(file, &mut out);
    out
}
