//! Questions and answers as lines of text.
//!
//! `vectors in SEED COUNT` prints questions: `r BITS` to read, `n BITS` to normalise and
//! `w V V ...` to write. `vectors out` answers those on standard input, a line each.

use plain::corpus::draft::{digits, pack, parse, unpack};
use plain::corpus::values::values;
use plain::corpus::Corpus;
use plain::{normalise, read, worked, write, Refusal, MAX_BYTES, MAX_VALUES};
use std::fmt::Write as _;
use std::io::{self, BufRead, BufWriter, Write};
use std::process::ExitCode;

/// A question has no more bits than this; any telegram so long is refused by 2.
const MOST_BITS: usize = 1_000;

fn main() -> ExitCode {
    let arguments: Vec<String> = std::env::args().skip(1).collect();
    let words: Vec<&str> = arguments.iter().map(String::as_str).collect();
    let done = match words[..] {
        ["in", seed, count] => match (seed.parse(), count.parse()) {
            (Ok(seed), Ok(count)) => ask(seed, count),
            _ => Err(misuse()),
        },
        ["out"] => answer_all(),
        _ => Err(misuse()),
    };
    match done {
        Ok(()) => ExitCode::SUCCESS,
        Err(error) => {
            eprintln!("vectors: {error}");
            ExitCode::FAILURE
        }
    }
}

fn misuse() -> io::Error {
    io::Error::other("use: vectors in SEED COUNT, or vectors out < QUESTIONS")
}

fn ask(seed: u64, count: u64) -> io::Result<()> {
    let mut sink = BufWriter::with_capacity(1 << 16, io::stdout().lock());
    let empty = &worked::cases()[0].bits();
    writeln!(sink, "r {}", digits(&empty[..57]))?;
    writeln!(sink, "n {}", digits(&empty[..57]))?;
    for case in worked::cases() {
        let bits = digits(&case.bits());
        writeln!(sink, "r {bits}\nn {bits}\nw{}", decimals(&case.values()))?;
    }
    let mut corpus = Corpus::new(seed);
    for _ in 0..count {
        let kind = corpus.random().pick(&['r', 'n', 'w']);
        if kind == 'w' {
            writeln!(sink, "w{}", decimals(&values(corpus.random())))?;
            continue;
        }
        // Where the bytes do not go with n, the bits there are make the question.
        let telegram = corpus.telegram();
        let n = usize::try_from(telegram.n).unwrap_or(usize::MAX);
        let n = n.min(MOST_BITS);
        writeln!(sink, "{kind} {}", digits(&unpack(&telegram.bytes, n)))?;
    }
    sink.flush()
}

fn answer_all() -> io::Result<()> {
    let mut sink = BufWriter::with_capacity(1 << 16, io::stdout().lock());
    // Not by `lines`, which would let a carriage return pass.
    for line in io::stdin().lock().split(b'\n') {
        let line = String::from_utf8_lossy(&line?).into_owned();
        let Some(answer) = answer(&line) else {
            sink.flush()?;
            let start: String = line.chars().take(40).collect();
            return Err(io::Error::other(format!("not a question: {start:?}")));
        };
        match answer {
            Ok(result) => writeln!(sink, "ok {result}")?,
            Err(refusal) => writeln!(sink, "refused {} {}", refusal.number, refusal.place)?,
        }
    }
    sink.flush()
}

/// The answer to a question, if it is one.
fn answer(line: &str) -> Option<Result<String, Refusal>> {
    let (kind, rest) = line.split_once(' ').unwrap_or((line, ""));
    match kind {
        "r" => {
            let bits = parse(rest.as_bytes())?;
            let mut out = [0; MAX_VALUES];
            let count = read(&pack(&bits), bits.len() as u64, &mut out);
            Some(count.map(|count| format!("{count}{}", decimals(&out[..count]))))
        }
        "n" => {
            let bits = parse(rest.as_bytes())?;
            let mut out = [0; MAX_BYTES];
            let done = normalise(&pack(&bits), bits.len() as u64, &mut out);
            Some(done.map(|()| digits(&unpack(&out, bits.len()))))
        }
        "w" => {
            let mut out = [0; MAX_BYTES];
            let n = write(&numbers(rest)?, &mut out);
            Some(n.map(|n| digits(&unpack(&out, n as usize))))
        }
        _ => None,
    }
}

fn numbers(text: &str) -> Option<Vec<u64>> {
    // `parse` alone would let a plus sign pass.
    let plain = text
        .bytes()
        .all(|byte| byte == b' ' || byte.is_ascii_digit());
    let words = text.split(' ').filter(|word| !word.is_empty());
    words
        .map(|word| word.parse().ok())
        .collect::<Option<_>>()
        .filter(|_| plain)
}

/// Each value with a space before it.
fn decimals(values: &[u64]) -> String {
    let mut text = String::new();
    for value in values {
        // Writing to a string cannot fail.
        let _ = write!(text, " {value}");
    }
    text
}
