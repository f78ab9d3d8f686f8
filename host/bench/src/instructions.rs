//! How many instructions a telegram takes, by callgrind: unlike times, they are the same whatever else the machine does.

use crate::functions::Function;
use plain::corpus::Telegram;
use std::fs::{self, File};
use std::io::{self, Read};
use std::process::Command;

/// The word after which this program goes over telegrams, for callgrind to count.
pub const GO_OVER: &str = "go-over";

/// Two runs differ by what so many more rounds take: that the program starts and reads telegrams is in both.
const FEWER_ROUNDS: usize = 1;
const MORE_ROUNDS: usize = 3;

const SIZE_BYTES: usize = 8;

pub struct Counter<'a> {
    folder: &'a str,
}

impl<'a> Counter<'a> {
    /// A counter that puts its files into the folder, where there is a valgrind.
    pub fn new(folder: &'a str) -> Option<Self> {
        let version = Command::new("valgrind").arg("--version").output();
        match version {
            Ok(output) if output.status.success() => Some(Counter { folder }),
            _ => None,
        }
    }

    /// The mean number of instructions of one telegram. The few that go from one to the next are in it, as they are in the time.
    pub fn count(&self, function: Function, telegrams: &[Telegram]) -> f64 {
        let input = format!("{}/telegrams", self.folder);
        fs::write(&input, written(telegrams)).unwrap();
        let [fewer, more] =
            [FEWER_ROUNDS, MORE_ROUNDS].map(|rounds| self.run(function, &input, rounds));
        (more - fewer) as f64 / ((MORE_ROUNDS - FEWER_ROUNDS) * telegrams.len()) as f64
    }

    /// All instructions of one run of this program.
    fn run(&self, function: Function, input: &str, rounds: usize) -> u64 {
        let counts = format!("{}/callgrind", self.folder);
        let status = Command::new("valgrind")
            .args(["--quiet", "--tool=callgrind"])
            .arg(format!("--callgrind-out-file={counts}"))
            .arg(std::env::current_exe().unwrap())
            .args([GO_OVER, function.name(), &rounds.to_string()])
            // a file, for a pipe would be read in more or fewer pieces
            .stdin(File::open(input).unwrap())
            .status()
            .unwrap();
        assert!(status.success(), "valgrind ended with {status}");
        total(&fs::read_to_string(counts).unwrap())
    }
}

/// The sum that callgrind writes at the end.
fn total(counts: &str) -> u64 {
    let total = counts
        .lines()
        .find_map(|line| line.strip_prefix("totals: "));
    total.and_then(|total| total.trim().parse().ok()).unwrap()
}

/// Runs a function over the telegrams on standard input.
pub fn go_over(function: Function, rounds: usize) {
    let mut input = Vec::new();
    io::stdin().read_to_end(&mut input).unwrap();
    function.go_over(&read(&input), rounds);
}

/// Each telegram as its number of bits and its bytes.
fn written(telegrams: &[Telegram]) -> Vec<u8> {
    let mut file = Vec::new();
    for telegram in telegrams {
        file.extend(telegram.n.to_le_bytes());
        file.extend(&telegram.bytes);
    }
    file
}

fn read(mut file: &[u8]) -> Vec<Telegram> {
    let mut telegrams = Vec::new();
    while let Some((size, rest)) = file.split_first_chunk::<SIZE_BYTES>() {
        let n = u64::from_le_bytes(*size);
        let (bytes, rest) = rest.split_at(n.div_ceil(8) as usize);
        telegrams.push(Telegram {
            n,
            bytes: bytes.to_vec(),
        });
        file = rest;
    }
    telegrams
}
