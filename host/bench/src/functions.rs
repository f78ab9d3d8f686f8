//! Check and normaliser, proved and independent, over the telegrams of a corpus.

use crate::corpora::Corpus;
use crate::instructions::Counter;
use crate::proved;
use crate::ratio::{Ratios, REPEATS};
use crate::table::print_row;
use plain::corpus::Telegram;
use std::hint::black_box;
use std::time::Instant;

const ROUNDS: usize = 20;
const MAX_BYTES: usize = plain::MAX_BITS.div_ceil(8);

#[derive(Clone, Copy)]
pub enum Function {
    ProvedCheck,
    IndependentCheck,
    ProvedNormalise,
    IndependentNormalise,
}

use Function::{IndependentCheck, IndependentNormalise, ProvedCheck, ProvedNormalise};

const COMPARED: [(&str, [Function; 2]); 2] = [
    ("check", [ProvedCheck, IndependentCheck]),
    ("normalise", [ProvedNormalise, IndependentNormalise]),
];

/// Without a counter, no instructions are counted.
pub fn report(corpora: &[Corpus], counter: Option<&Counter>) {
    for Corpus { name, telegrams } in corpora {
        for (what, pair) in COMPARED {
            let times = times(pair, telegrams);
            let instructions = counter.map(|counter| pair.map(|f| counter.count(f, telegrams)));
            print_row(name, what, "ns", &times, instructions);
        }
    }
}

fn times(pair: [Function; 2], telegrams: &[Telegram]) -> Ratios {
    let mut times = Ratios::default();
    for _ in 0..REPEATS {
        let [proved, independent] = pair.map(|function| time(function, telegrams));
        times.add(proved, independent);
    }
    times
}

/// The mean time of one telegram, in nanoseconds.
fn time(function: Function, telegrams: &[Telegram]) -> f64 {
    let start = Instant::now();
    function.go_over(telegrams, ROUNDS);
    start.elapsed().as_nanos() as f64 / (ROUNDS * telegrams.len()) as f64
}

impl Function {
    /// Calls the function with each telegram, so many times. What is timed and what is counted is this.
    #[inline(never)]
    pub fn go_over(self, telegrams: &[Telegram], rounds: usize) {
        let mut out = [0; MAX_BYTES];
        match self {
            ProvedCheck => go_over(telegrams, rounds, |bytes, n| proved::check(bytes, n) == 0),
            IndependentCheck => go_over(telegrams, rounds, independent_check),
            ProvedNormalise => go_over(telegrams, rounds, |bytes, n| {
                proved::normalise(bytes, n, &mut out) == 0
            }),
            IndependentNormalise => go_over(telegrams, rounds, |bytes, n| {
                independent_normalise(bytes, n, &mut out)
            }),
        }
    }

    pub fn name(self) -> &'static str {
        match self {
            ProvedCheck => "proved-check",
            IndependentCheck => "independent-check",
            ProvedNormalise => "proved-normalise",
            IndependentNormalise => "independent-normalise",
        }
    }

    pub fn named(name: &str) -> Option<Self> {
        let mut all = COMPARED.into_iter().flat_map(|(_, pair)| pair);
        all.find(|function| function.name() == name)
    }
}

fn go_over(telegrams: &[Telegram], rounds: usize, mut accepts: impl FnMut(&[u8], u64) -> bool) {
    for _ in 0..rounds {
        for telegram in telegrams {
            let telegram = black_box(telegram);
            assert!(black_box(accepts(&telegram.bytes, telegram.n)));
        }
    }
}

// As far as the proved functions are behind the C face, these are behind a call of their own.
#[inline(never)]
fn independent_check(bytes: &[u8], n: u64) -> bool {
    plain::check(bytes, n).is_ok()
}

#[inline(never)]
fn independent_normalise(bytes: &[u8], n: u64, out: &mut [u8]) -> bool {
    plain::normalise(bytes, n, out).is_ok()
}
