//! Balise groups as lines of text.
//!
//! `groups in SEED COUNT` prints questions, a group a line: its telegrams in order of arrival, as
//! the characters 0 and 1 or as `HEX:n`. `groups out` answers those on standard input.

use plain::corpus::groups::Groups;
use plain::group::program::{printed, Question, MOST_CHARACTERS};
use std::io::{self, BufRead, BufReader, BufWriter, Read, Write};
use std::process::ExitCode;

/// A line with its newline that is still short enough to matter; anything longer is no question.
const LONGEST: u64 = MOST_CHARACTERS as u64 + 2;

fn main() -> ExitCode {
    let arguments: Vec<String> = std::env::args().skip(1).collect();
    let words: Vec<&str> = arguments.iter().map(String::as_str).collect();
    let done = match words[..] {
        ["in", seed, count] => match (seed.parse(), count.parse()) {
            (Ok(seed), Ok(count)) => ask(seed, count),
            _ => Err(misuse()),
        },
        ["out"] => answer_all(io::stdin().lock(), io::stdout().lock()),
        _ => Err(misuse()),
    };
    match done {
        Ok(()) => ExitCode::SUCCESS,
        Err(error) => {
            eprintln!("groups: {error}");
            ExitCode::FAILURE
        }
    }
}

fn misuse() -> io::Error {
    io::Error::other("use: groups in SEED COUNT, or groups out < QUESTIONS")
}

fn ask(seed: u64, count: u64) -> io::Result<()> {
    let mut sink = BufWriter::with_capacity(1 << 16, io::stdout().lock());
    let mut groups = Groups::new(seed);
    for _ in 0..count {
        sink.write_all(&groups.line())?;
        sink.write_all(b"\n")?;
    }
    sink.flush()
}

fn answer_all(input: impl Read, output: impl Write) -> io::Result<()> {
    let mut source = BufReader::with_capacity(1 << 16, input);
    let mut sink = BufWriter::with_capacity(1 << 16, output);
    let mut line = Vec::with_capacity(LONGEST as usize);
    loop {
        line.clear();
        source.by_ref().take(LONGEST).read_until(b'\n', &mut line)?;
        if line.is_empty() {
            break;
        }
        if line.last() == Some(&b'\n') {
            line.pop();
        } else if line.len() as u64 == LONGEST {
            // No question whatever its other characters are, so they need not be kept.
            source.skip_until(b'\n')?;
        }
        let answer = Question::of(&line).map(|question| question.answer());
        writeln!(sink, "{}", printed(answer.as_ref()))?;
    }
    sink.flush()
}
