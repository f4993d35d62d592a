//! The rounds, and the table.

use crate::machine;
use std::time::{Duration, Instant};

/// So many rounds count at most. The fastest run of each counts, because something was in the way of the others.
const ROUNDS: usize = 20;

/// Fewer rounds where they take longer than this together.
const LONG: Duration = Duration::from_secs(10);

/// One run, which answers the seconds of the part that counts.
pub type Run<'a> = Box<dyn FnMut() -> f64 + 'a>;

/// Those that are timed.
pub struct Case<'a> {
    pub name: String,
    /// What state the buffers are in when the time begins.
    pub buffers: &'static str,
    pub ours: Run<'a>,
    pub theirs: Run<'a>,
    /// What of the crate's run is not the crate's, where that cannot be kept out of it. It is taken off.
    pub making: Option<Run<'a>>,
    /// None where OpenJPEG's source was not there.
    pub openjpeg: Option<Run<'a>>,
    pub copy: Run<'a>,
}

const HEADS: [&str; 9] = [
    "case",
    "buffers",
    "ours",
    "crate",
    "OpenJPEG",
    "copy",
    "ours/crate",
    "ours/OpenJPEG",
    "ours/copy",
];

/// How the tables are printed.
#[derive(Clone, Copy)]
pub enum Form {
    /// With columns of one width, and what the words mean below.
    Terminal,
    /// As README.md has them, and nothing else.
    Readme,
}

/// The columns of a table. The first ones hold words.
struct Columns<const N: usize> {
    words: usize,
    /// How wide each one is, at least.
    widths: [usize; N],
}

impl<const N: usize> Columns<N> {
    /// The lines above the numbers.
    fn head(&self, names: [&str; N]) {
        self.line(names.map(str::to_owned));
        let rule = |column| if column < self.words { "---" } else { "---:" };
        let rules: Vec<_> = (0..N).map(rule).collect();
        println!("|{}|", rules.join("|"));
    }

    /// Words stand to the left, numbers to the right.
    fn line(&self, cells: [String; N]) {
        for (column, (cell, width)) in cells.iter().zip(self.widths).enumerate() {
            if column < self.words {
                print!("| {cell:<width$} ");
            } else {
                print!("| {cell:>width$} ");
            }
        }
        println!("|");
    }
}

/// The table, line by line as the times come in.
pub struct Table {
    form: Form,
    columns: Columns<{ HEADS.len() }>,
}

impl Table {
    pub fn new(form: Form) -> Self {
        let widths = match form {
            Form::Terminal => {
                println!(
                    "Microseconds of the processor's time, the fastest of up to {ROUNDS} rounds, on {}.",
                    machine::kind()
                );
                [50, 7, 9, 9, 9, 9, 10, 13, 9]
            }
            Form::Readme => {
                println!("{}. OpenJPEG: {ORIGIN}. Microseconds:", machine::kind());
                [0; HEADS.len()]
            }
        };
        println!();
        let columns = Columns { words: 2, widths };
        columns.head(HEADS);
        Table { form, columns }
    }

    /// Times a case and prints its line.
    pub fn time(&mut self, case: Case) {
        let taken_off = case.making.is_some();
        let [ours, whole, making, openjpeg, copy] = fastest([
            Some(case.ours),
            Some(case.theirs),
            case.making,
            case.openjpeg,
            Some(case.copy),
        ]);
        let theirs = if taken_off { whole - making } else { whole };
        self.columns.line([
            case.name,
            case.buffers.to_owned(),
            number(1e6 * ours),
            number(1e6 * theirs),
            number(1e6 * openjpeg),
            number(1e6 * copy),
            number(ours / theirs),
            number(ours / openjpeg),
            number(ours / copy),
        ]);
    }

    pub fn end(&self) {
        if let Form::Terminal = self.form {
            println!();
            println!("OpenJPEG: {ORIGIN}.");
            for line in NOTES {
                println!("{line}");
            }
        }
    }
}

const EDITION_HEADS: [&str; 4] = ["case", "edition 1", "edition 2", "edition 2/edition 1"];

/// Ours alone, in both editions: the crate and OpenJPEG have no edition 2.
pub struct EditionTable {
    columns: Columns<{ EDITION_HEADS.len() }>,
}

impl EditionTable {
    pub fn new(form: Form) -> Self {
        let widths = match form {
            Form::Terminal => [50, 9, 9, 19],
            Form::Readme => [0; EDITION_HEADS.len()],
        };
        println!("Ours in both editions, microseconds:");
        println!();
        let columns = Columns { words: 1, widths };
        columns.head(EDITION_HEADS);
        EditionTable { columns }
    }

    /// Times both and prints their line.
    pub fn time(&self, name: String, first: Run, second: Run) {
        let [first, second] = fastest([Some(first), Some(second)]);
        self.columns.line([
            name,
            number(1e6 * first),
            number(1e6 * second),
            number(second / first),
        ]);
    }
}

/// The fewest seconds of each. They take turns forth and back, so that each of the two that write the same destination
/// has runs right after its own.
fn fastest<const N: usize>(mut runs: [Option<Run>; N]) -> [f64; N] {
    let mut best = [f64::INFINITY; N];
    let mut order: [usize; N] = std::array::from_fn(|turn| turn);
    let start = Instant::now();
    for round in 0..ROUNDS {
        if round > 1 && start.elapsed() > LONG {
            break;
        }
        for turn in order {
            if let Some(run) = &mut runs[turn] {
                best[turn] = best[turn].min(run());
            }
        }
        order.reverse();
    }
    best
}

/// Where OpenJPEG's source is from.
const ORIGIN: &str = match option_env!("OPENJPEG_ORIGIN") {
    Some(origin) => origin,
    None => "left out, bench/build-openjpeg has said why",
};

const NOTES: [&str; 23] = [
    "Buffers: hot, all in the cache from the run before; touched, the memory of what is written was written before",
    "the time began; fresh, it is new memory that is first written while the time runs. The files and samples handed",
    "in were written before in every case.",
    "Ours reads the file and finishes the picture. The crate and OpenJPEG read, then finish in place; their picture is",
    "made before the time begins, and let go after it ends. The planes that a palette gives are allocated by them",
    "while the time runs; touched ones have memory that other planes had in the round before. Without a palette they",
    "copy no sample, where ours writes all finished samples to their destination: there ours/copy is the ratio to look",
    "at.",
    "Mixed is a palette of four columns, of which three are looked up in the first of two components and the fourth is",
    "the second component itself.",
    "With 65535 definitions nearly each of them moves a channel.",
    "Writing is of all boxes before a codestream, and of its box's header. Ours is handed the components as numbers,",
    "OpenJPEG as a picture that was made before. The crate's run makes its picture; how long that takes alone is timed",
    "in the same rounds, and taken off.",
    "OpenJPEG's and the crate's codestream part is a stand-in that does nothing. What has to be let go again is let go",
    "within the time, but for pictures.",
    "Copy is a plain copy (memcpy) of the bytes of the file that is read, of the finished samples to the destination",
    "that ours writes to, of the finished records where the planes have no samples or one (reorder, palette of 1), or of",
    "the written bytes.",
    "All take turns, forth and back, so that ours and copy each have rounds right after their own.",
    "Before a case is timed all answers are compared.",
    "A dash stands for what was not there to be timed.",
    "Figures of one run are held against each other, not against those of another.",
];

/// A number with about four digits, or a dash where there is none.
fn number(value: f64) -> String {
    if value.is_infinite() || value == 0.0 {
        return "-".to_owned();
    }
    let digits = match value {
        ..0.1 => 5,
        ..10.0 => 3,
        ..100.0 => 2,
        ..1000.0 => 1,
        _ => 0,
    };
    format!("{value:.digits$}")
}
