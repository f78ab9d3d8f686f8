//! Holds another program to `sheets`: `sheet_compare COUNT SEED -- PROGRAM [PREFIX ARGS]`.
//!
//! Runs PROGRAM with `out` on telegrams, and with `in` on their sheets and on damaged sheets.
//! Fixed questions come first and are not in COUNT. Prints what the answers were, and how many
//! of them differ; the exit status is then 1.

use plain::corpus::sheets::{damaged, fixed_lines, fixed_sheets, line};
use plain::corpus::Corpus;
use plain::sheet::program::{out, printed, take_in};
use plain::sheet::Refused;
use std::collections::BTreeMap;
use std::ffi::OsString;
use std::fmt::{self, Display};
use std::fs;
use std::io::{self, Write};
use std::path::PathBuf;
use std::process::{Command, ExitCode, ExitStatus, Stdio};

/// The damaged sheets that are made of one telegram.
const DAMAGED: usize = 3;
/// The differing cases that are printed and saved.
const SHOWN: u64 = 5;
/// The bytes of an answer that are printed.
const EXCERPT: usize = 160;

fn main() -> ExitCode {
    let arguments: Vec<OsString> = std::env::args_os().skip(1).collect();
    let done = parsed(&arguments).and_then(|(count, seed, program)| {
        let mut comparison = Comparison::new(program);
        comparison.run(count, seed)?;
        comparison.report();
        Ok(comparison.different == 0)
    });
    match done {
        Ok(true) => ExitCode::SUCCESS,
        Ok(false) => ExitCode::from(1),
        Err(error) => {
            eprintln!("sheet_compare: {error}");
            ExitCode::from(2)
        }
    }
}

/// The count, the seed, and the program with its first arguments.
fn parsed(arguments: &[OsString]) -> io::Result<(u64, u64, &[OsString])> {
    let misuse = || io::Error::other("use: sheet_compare COUNT SEED -- PROGRAM [PREFIX ARGS]");
    let number = |word: &OsString| word.to_str().and_then(|word| word.parse().ok());
    match arguments {
        [count, seed, dashes, program @ ..] if dashes == "--" && !program.is_empty() => {
            let numbers = number(count).zip(number(seed)).ok_or_else(misuse)?;
            Ok((numbers.0, numbers.1, program))
        }
        _ => Err(misuse()),
    }
}

/// The two ways to run the program.
#[derive(Clone, Copy, PartialEq, Eq, PartialOrd, Ord)]
enum Way {
    Out,
    In,
}

impl Way {
    fn word(self) -> &'static str {
        match self {
            Way::Out => "out",
            Way::In => "in",
        }
    }

    fn answer(self, input: &[u8]) -> Result<Vec<u8>, Refused> {
        match self {
            Way::Out => out(input),
            Way::In => take_in(input),
        }
    }
}

/// What an answer counts as. The two kinds of 20, which print alike, are kept apart.
#[derive(Clone, Copy, PartialEq, Eq, PartialOrd, Ord)]
enum Class {
    Accepted,
    Telegram(u32),
    Row,
    Name,
}

impl Class {
    fn of(answer: &Result<Vec<u8>, Refused>) -> Self {
        match answer {
            Ok(_) => Class::Accepted,
            Err(Refused::Telegram(refusal)) => Class::Telegram(refusal.number),
            Err(Refused::Row(_)) => Class::Row,
            Err(Refused::Name(_)) => Class::Name,
        }
    }
}

impl Display for Class {
    fn fmt(&self, text: &mut fmt::Formatter) -> fmt::Result {
        match self {
            Class::Accepted => write!(text, "accepted"),
            Class::Telegram(number) => write!(text, "refused by {number}"),
            Class::Row => write!(text, "refused by 20 for a row"),
            Class::Name => write!(text, "refused by 20 for a name"),
        }
    }
}

struct Comparison<'a> {
    program: &'a [OsString],
    runs: u64,
    different: u64,
    counts: BTreeMap<(Way, Class), u64>,
}

impl<'a> Comparison<'a> {
    fn new(program: &'a [OsString]) -> Self {
        Comparison {
            program,
            runs: 0,
            different: 0,
            counts: BTreeMap::new(),
        }
    }

    fn run(&mut self, count: u64, seed: u64) -> io::Result<()> {
        let mut corpus = Corpus::new(seed);
        for line in fixed_lines() {
            let _ = self.compare(Way::Out, &line)?;
        }
        for sheet in fixed_sheets(corpus.random()) {
            let _ = self.compare(Way::In, &sheet)?;
        }
        for _ in 0..count {
            let telegram = corpus.telegram();
            let line = line(corpus.random(), &telegram);
            let Ok(sheet) = self.compare(Way::Out, &line)? else {
                continue;
            };
            let _ = self.compare(Way::In, &sheet)?;
            for _ in 0..DAMAGED {
                let _ = self.compare(Way::In, &damaged(corpus.random(), &sheet))?;
            }
        }
        Ok(())
    }

    /// Puts one question to both sides, and gives this side's answer.
    fn compare(&mut self, way: Way, input: &[u8]) -> io::Result<Result<Vec<u8>, Refused>> {
        let answer = way.answer(input);
        let here = printed(answer.clone());
        let (there, status) = ask(self.program, way, input)?;
        self.runs += 1;
        *self.counts.entry((way, Class::of(&answer))).or_default() += 1;
        if there != here || status.code() != Some(0) {
            self.different += 1;
            if self.different <= SHOWN {
                self.show(way, input, &here, &there, status)?;
            }
        }
        Ok(answer)
    }

    /// Prints a case that differs, and keeps its input and both answers as files.
    fn show(
        &self,
        way: Way,
        input: &[u8],
        here: &[u8],
        there: &[u8],
        status: ExitStatus,
    ) -> io::Result<()> {
        let folder = format!("sheet_compare-{}", std::process::id());
        let folder: PathBuf = std::env::temp_dir().join(folder);
        fs::create_dir_all(&folder)?;
        let case = folder.join(self.different.to_string());
        for (ending, bytes) in [("input", input), ("here", here), ("there", there)] {
            fs::write(case.with_extension(ending), bytes)?;
        }
        let at = here.iter().zip(there).take_while(|(a, b)| a == b).count();
        println!("different: {} < {}.input", way.word(), case.display());
        println!("  here:  {}", excerpt(here));
        println!("  there: {} ({status})", excerpt(there));
        println!("  alike for {at} bytes, the exit status should be 0");
        Ok(())
    }

    fn report(&self) {
        for ((way, class), count) in &self.counts {
            println!("{count:7} {} {class}", way.word());
        }
        println!("{} runs, {} different", self.runs, self.different);
    }
}

/// What the program prints when it is given the input, and how it ends.
fn ask(program: &[OsString], way: Way, input: &[u8]) -> io::Result<(Vec<u8>, ExitStatus)> {
    let mut child = Command::new(&program[0])
        .args(&program[1..])
        .arg(way.word())
        .stdin(Stdio::piped())
        .stdout(Stdio::piped())
        .spawn()?;
    let stdin = child.stdin.take();
    let output = std::thread::scope(|scope| {
        scope.spawn(move || {
            // A program that stops early closes its end.
            stdin.map(|mut stdin| stdin.write_all(input))
        });
        child.wait_with_output()
    })?;
    Ok((output.stdout, output.status))
}

/// The start of an answer, on one line.
fn excerpt(answer: &[u8]) -> String {
    let start = &answer[..answer.len().min(EXCERPT)];
    let more = if start.len() < answer.len() {
        " ..."
    } else {
        ""
    };
    format!("{}{more}", start.escape_ascii())
}
