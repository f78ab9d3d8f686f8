//! Telegrams as data sheets and back: `sheets out` turns a line of the characters 0 and 1 into
//! a sheet, `sheets in` a sheet into such a line.

use plain::sheet::program::{out, printed, take_in};
use plain::sheet::Refused;
use std::ffi::OsString;
use std::io::{self, Read, Write};
use std::process::ExitCode;

type Answer = fn(&[u8]) -> Result<Vec<u8>, Refused>;

fn main() -> ExitCode {
    let arguments: Vec<OsString> = std::env::args_os().skip(1).collect();
    let words: Vec<Option<&str>> = arguments.iter().map(|word| word.to_str()).collect();
    let done = match words[..] {
        [Some("out")] => run(out),
        [Some("in")] => run(take_in),
        _ => usage(),
    };
    done.unwrap_or_else(|error| {
        eprintln!("sheets: {error}");
        ExitCode::FAILURE
    })
}

fn run(answer: Answer) -> io::Result<ExitCode> {
    let mut input = Vec::new();
    io::stdin().lock().read_to_end(&mut input)?;
    print(&printed(answer(&input)))?;
    Ok(ExitCode::SUCCESS)
}

fn usage() -> io::Result<ExitCode> {
    print(b"usage: sheets out | in\n")?;
    Ok(ExitCode::from(2))
}

fn print(text: &[u8]) -> io::Result<()> {
    let mut sink = io::stdout().lock();
    sink.write_all(text)?;
    sink.flush()
}
