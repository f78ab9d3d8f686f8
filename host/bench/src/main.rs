//! Times the proved check, normaliser, message of a group and line program beside the independent ones, in one run, and prints the ratios; and counts
//! the instructions of check and normaliser.
//!
//! `bench PROVED-LINES INDEPENDENT-LINES FOLDER SEED`: the two line programs, a folder for files, and what decides the telegrams and groups that are
//! held out.
//!
//! `bench go-over FUNCTION ROUNDS`: what is counted, with telegrams on standard input. The program runs itself so.

mod corpora;
mod functions;
mod groups;
mod instructions;
mod lines;
mod proved;
mod ratio;
mod table;

use functions::Function;
use instructions::{Counter, GO_OVER};
use std::process::ExitCode;

fn main() -> ExitCode {
    let arguments: Vec<String> = std::env::args().skip(1).collect();
    let words: Vec<&str> = arguments.iter().map(String::as_str).collect();
    match run(&words) {
        Some(()) => ExitCode::SUCCESS,
        None => {
            eprintln!("use: bench PROVED-LINES INDEPENDENT-LINES FOLDER SEED");
            eprintln!("     bench {GO_OVER} FUNCTION ROUNDS < TELEGRAMS");
            ExitCode::FAILURE
        }
    }
}

/// Nothing where the words are not those of the two uses.
fn run(words: &[&str]) -> Option<()> {
    match *words {
        [GO_OVER, function, rounds] => {
            instructions::go_over(Function::named(function)?, rounds.parse().ok()?);
        }
        [proved, independent, folder, seed] => {
            report([proved, independent], folder, seed.parse().ok()?);
        }
        _ => return None,
    }
    Some(())
}

fn report(line_programs: [&str; 2], folder: &str, seed: u64) {
    let counter = Counter::new(folder);
    if counter.is_none() {
        println!("instructions: valgrind is not here");
    }
    table::print_heading(counter.is_some());
    functions::report(&corpora::known(), counter.as_ref());
    groups::report_known();
    lines::report(line_programs, folder);
    println!("\nheld out: made with the seed {seed}, by which nobody picked the code");
    functions::report(&corpora::held_out(seed), counter.as_ref());
    groups::report_held_out(seed);
}
