//! Times the port, the crate openjp2 0.6.1, OpenJPEG's C library and a plain copy on the same inputs, in one run, and
//! prints the ratios; then the port's two editions of finishing.

// Where OpenJPEG is not there, what asks it is never reached.
#![cfg_attr(not(openjpeg), allow(unreachable_code, unused_mut, unused_variables))]

mod clock;
mod editions;
mod files;
mod finishing;
mod inputs;
mod machine;
mod memory;
#[cfg_attr(openjpeg, path = "openjpeg/linked.rs")]
#[cfg_attr(not(openjpeg), path = "openjpeg/absent.rs")]
mod openjpeg;
mod pictures;
// The comparison asks the port for more than the bench does.
#[allow(dead_code)]
#[path = "../../oracle/src/compare/port.rs"]
mod port;
mod reading;
mod repeat;
mod table;
#[path = "../../oracle/src/compare/writer.rs"]
mod writer;
mod writing;

use std::process::ExitCode;
use table::{EditionTable, Form, Table};

/// Why a case cannot be timed: two of those that are timed do not do the same.
type Disagreement = String;

fn main() -> ExitCode {
    let arguments: Vec<_> = std::env::args().skip(1).collect();
    let timed = match arguments.iter().map(String::as_str).collect::<Vec<_>>()[..] {
        [] => run(Form::Terminal),
        ["--readme"] => run(Form::Readme),
        ["--editions"] => editions::time(&EditionTable::new(Form::Terminal)),
        ["--repeat", "reorder"] => return repeat::reorder(),
        ["--repeat", "palette"] => return repeat::palette(),
        ["--readings"] => return reading::list(),
        ["--read", who, name, calls] => return reading::repeat(who, name, calls),
        _ => {
            eprintln!("bench: arguments are none, --readme, --editions, --repeat reorder or --repeat palette");
            return ExitCode::FAILURE;
        }
    };
    match timed {
        Ok(()) => ExitCode::SUCCESS,
        Err(why) => {
            eprintln!("bench: {why}");
            ExitCode::FAILURE
        }
    }
}

fn run(form: Form) -> Result<(), Disagreement> {
    let mut table = Table::new(form);
    reading::time(&mut table)?;
    pictures::time(&mut table)?;
    writing::time(&mut table)?;
    table.end();
    println!();
    editions::time(&EditionTable::new(form))
}
