//! One case of ours over and over, for `bench/profile`.

use crate::clock::seconds;
use crate::files::reversed;
use crate::finishing::{Lists, Picture};
use crate::inputs::{with_palette, without_samples};
use std::hint::black_box;
use std::process::ExitCode;

/// So many seconds of the processor's time.
const LONG: f64 = 4.0;

/// 4 channels without samples, in reverse order.
pub fn reorder() -> ExitCode {
    over_and_over(&without_samples(4, &reversed(4)), 10000)
}

/// The smallest of the palette pictures.
pub fn palette() -> ExitCode {
    over_and_over(&with_palette(640, 480), 100)
}

/// So many calls at a time.
fn over_and_over(picture: &Picture, calls: u64) -> ExitCode {
    let mut lists = Lists::written(picture);
    let (mut passed, mut all) = (0.0, 0);
    while passed < LONG {
        passed += seconds(|| {
            for _ in 0..calls {
                picture.ours(black_box(&mut lists));
            }
        });
        all += calls;
    }
    println!("{:.3} microseconds a call", 1e6 * passed / all as f64);
    ExitCode::SUCCESS
}
