//! Prints test telegrams with their answers: `corpus SEED COUNT`.
//!
//! A line is `N HEX CHECK ROOM ANSWER OUT`: bits, bytes, the answer of the check, the length
//! of the output lent to the normaliser, its answer, and that output afterwards.

use plain::corpus::Corpus;
use std::io::{self, BufWriter, Write};
use std::process::ExitCode;

/// What the lent output holds beforehand.
const FORMER: u8 = 0xa5;

fn main() -> ExitCode {
    let numbers: Vec<u64> = std::env::args()
        .skip(1)
        .filter_map(|argument| argument.parse().ok())
        .collect();
    let [seed, count] = numbers[..] else {
        eprintln!("use: corpus SEED COUNT");
        return ExitCode::FAILURE;
    };
    match print(seed, count) {
        Ok(()) => ExitCode::SUCCESS,
        Err(error) => {
            eprintln!("corpus: {error}");
            ExitCode::FAILURE
        }
    }
}

fn print(seed: u64, count: u64) -> io::Result<()> {
    let mut sink = BufWriter::with_capacity(1 << 16, io::stdout().lock());
    let mut corpus = Corpus::new(seed);
    for _ in 0..count {
        let telegram = corpus.telegram();
        let room = match corpus.random().below(10) {
            0 => corpus.random().pick(&[0, 1, 103, 105, 110, 120]),
            _ => 104,
        };
        let mut out = vec![FORMER; room];
        let check = plain::check(&telegram.bytes, telegram.n);
        let answer = plain::normalise(&telegram.bytes, telegram.n, &mut out);
        writeln!(
            sink,
            "{} {} {} {room} {} {}",
            telegram.n,
            hex(&telegram.bytes),
            plain::code(&check),
            plain::code(&answer),
            hex(&out)
        )?;
    }
    sink.flush()
}

fn hex(bytes: &[u8]) -> String {
    if bytes.is_empty() {
        return "-".to_string();
    }
    let digit = |half: u8| char::from(b"0123456789abcdef"[usize::from(half & 15)]);
    let digits = bytes
        .iter()
        .flat_map(|byte| [digit(byte >> 4), digit(*byte)]);
    let mut text = String::with_capacity(2 * bytes.len());
    text.extend(digits);
    text
}
