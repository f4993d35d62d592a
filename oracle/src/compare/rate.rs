//! How fast both read boxes, and that the time grows with the file and no faster.

use crate::comparison::Checked;
use crate::ours;
use crate::reading::CheckedFile;
use oracle::generate::{plain, FREE, FTYP, IHDR, JP, JP2C, JP2H, MAGIC};
use std::hint::black_box;
use std::time::Instant;

const MEGABYTE: usize = 1_000_000;
const MEGABYTES: [usize; 3] = [1, 10, 100];

/// The best of as many runs counts: the others waited for something else.
const RUNS: usize = 5;

/// Prints the rates; false where the two disagree on a file, whose time then says nothing.
pub fn rate() -> bool {
    println!(
        "{:<16}{:>6}{:>14}{:>14}",
        "boxes of 8 bytes", "MB", "ours, MB/s", "crate, MB/s"
    );
    let makers: [(&str, fn(usize) -> Vec<u8>); 2] =
        [("after ftyp", outside), ("inside jp2h", inside)];
    for (name, make) in makers {
        for megabytes in MEGABYTES {
            let file = make(megabytes * MEGABYTE);
            if !CheckedFile::new(&file, 0).differences().is_empty() {
                println!("{name:<16}{megabytes:>6}  the answers differ");
                return false;
            }
            let ours = megabytes as f64 / best(|| ours::read(black_box(&file)));
            let theirs = megabytes as f64 / best(|| oracle::bare::read(black_box(&file)));
            println!("{name:<16}{megabytes:>6}{ours:>14.1}{theirs:>14.1}");
        }
    }
    true
}

/// The seconds of the fastest run.
fn best<T>(run: impl Fn() -> T) -> f64 {
    let timed = |_| {
        let start = Instant::now();
        black_box(run());
        start.elapsed().as_secs_f64()
    };
    (0..RUNS).map(timed).fold(f64::INFINITY, f64::min)
}

fn start() -> Vec<u8> {
    let file_type = plain(FTYP, b"jp2 \0\0\0\0jp2 ");
    [plain(JP, &MAGIC), file_type].concat()
}

/// So many bytes of empty unknown boxes.
fn unknown(bytes: usize) -> Vec<u8> {
    plain(FREE, &[]).repeat(bytes / 8)
}

/// Signature, file type, then nothing but empty unknown boxes.
fn outside(bytes: usize) -> Vec<u8> {
    [start(), unknown(bytes)].concat()
}

/// Signature, file type, one `jp2h` full of empty unknown boxes after an `ihdr`, codestream.
fn inside(bytes: usize) -> Vec<u8> {
    let ihdr = plain(IHDR, &[0, 0, 0, 3, 0, 0, 0, 2, 0, 1, 7, 7, 0, 0]);
    let header = plain(JP2H, &[ihdr, unknown(bytes)].concat());
    [start(), header, plain(JP2C, &[])].concat()
}
