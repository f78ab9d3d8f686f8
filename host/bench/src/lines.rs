//! The line programs on one file of 200,000 lines.

use crate::ratio::Ratios;
use crate::table::print_row;
use plain::corpus::draft::unpack;
use plain::corpus::Corpus;
use std::fs::{self, File};
use std::io::{BufWriter, Write};
use std::process::{Command, Stdio};
use std::time::Instant;

const LINES: usize = 200_000;
const REPEATS: usize = 9;

pub fn report([proved, independent]: [&str; 2], folder: &str) {
    let input = format!("{folder}/lines.in");
    write_input(&input);
    let mut ratios = Ratios::default();
    for _ in 0..REPEATS {
        ratios.add(
            time(proved, &input, &format!("{folder}/lines.1")),
            time(independent, &input, &format!("{folder}/lines.2")),
        );
    }
    let same = fs::read(format!("{folder}/lines.1")).unwrap()
        == fs::read(format!("{folder}/lines.2")).unwrap();
    assert!(same, "the two programs answer differently");
    let name = format!("200,000 lines, {REPEATS} repeats");
    print_row(&name, "program", "ms", &ratios, None);
}

/// Accepted and refused telegrams, one a line.
fn write_input(path: &str) {
    let mut corpus = Corpus::new(1);
    let mut file = BufWriter::new(File::create(path).unwrap());
    for _ in 0..LINES {
        let telegram = corpus.telegram();
        let n = (telegram.n as usize).min(8 * telegram.bytes.len());
        let mut line: Vec<u8> = unpack(&telegram.bytes, n)
            .iter()
            .map(|bit| b'0' + u8::from(*bit))
            .collect();
        line.push(b'\n');
        file.write_all(&line).unwrap();
    }
}

fn time(program: &str, input: &str, output: &str) -> f64 {
    let start = Instant::now();
    let status = Command::new(program)
        .stdin(File::open(input).unwrap())
        .stdout(Stdio::from(File::create(output).unwrap()))
        .status()
        .unwrap();
    assert!(status.success());
    start.elapsed().as_secs_f64() * 1000.0
}
