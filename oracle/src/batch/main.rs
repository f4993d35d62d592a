//! The oracle as a program: a request a line on standard input, an answer a line on standard output.

mod answer;
mod request;

use request::{Malformed, Request};
use std::io::{self, BufRead, BufReader, BufWriter, Write};

const HELP: &str = include_str!("help.txt");

fn main() -> io::Result<()> {
    let arguments: Vec<_> = std::env::args().skip(1).collect();
    match arguments.iter().map(String::as_str).collect::<Vec<_>>()[..] {
        [] => answer_all(),
        ["--help" | "-h"] => io::stdout().write_all(HELP.as_bytes()),
        _ => {
            eprintln!("oracle: takes its requests from standard input; see oracle --help");
            std::process::exit(2)
        }
    }
}

fn answer_all() -> io::Result<()> {
    let mut requests = BufReader::with_capacity(1 << 16, io::stdin().lock());
    let mut answers = BufWriter::with_capacity(1 << 16, io::stdout().lock());
    let mut line = Vec::new();
    while requests.read_until(b'\n', &mut line)? != 0 {
        answer_line(&line, &mut answers)?;
        line.clear();
        // Whoever waits for an answer before asking on gets it; a long list of requests is answered in blocks.
        if requests.buffer().is_empty() {
            answers.flush()?;
        }
    }
    answers.flush()
}

fn answer_line(line: &[u8], out: &mut impl Write) -> io::Result<()> {
    match parse_line(line).and_then(|request| answer::run(&request)) {
        Ok(answer) => answer::print(&answer, out)?,
        Err(Malformed(why)) => {
            write!(out, "outcome=malformed why=")?;
            answer::print_text(&why, out)?;
        }
    }
    out.write_all(b"\n")
}

fn parse_line(line: &[u8]) -> Result<Request, Malformed> {
    let line = std::str::from_utf8(line).map_err(|_| Malformed::new("the line is no UTF-8"))?;
    request::parse(line)
}
