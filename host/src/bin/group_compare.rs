//! Holds another program to `groups`: `group_compare COUNT SEED -- PROGRAM [ARGS]`.
//!
//! Runs PROGRAM once, with all questions on its standard input. Fixed questions come first and are
//! not in COUNT. Prints what the answers were, and how many of them differ; the exit status is
//! then 1.

use plain::corpus::groups::kinds::{kinds, Kind};
use plain::corpus::groups::{fixed_lines, Groups};
use plain::group::program::{printed, Question};
use std::collections::BTreeMap;
use std::ffi::OsString;
use std::io::{self, Write};
use std::process::{Command, ExitCode, ExitStatus, Stdio};

/// The differing questions that are printed.
const SHOWN: u64 = 5;
/// The bytes of an answer of the other program that are printed.
const EXCERPT: usize = 600;

fn main() -> ExitCode {
    let arguments: Vec<OsString> = std::env::args_os().skip(1).collect();
    let done = parsed(&arguments).and_then(|(count, seed, program)| {
        let lines = lines(count, seed);
        let (there, status) = ask(program, &lines)?;
        let mut comparison = Comparison::default();
        comparison.run(&lines, &there);
        comparison.end(status);
        comparison.report();
        Ok(comparison.different == 0)
    });
    match done {
        Ok(true) => ExitCode::SUCCESS,
        Ok(false) => ExitCode::from(1),
        Err(error) => {
            eprintln!("group_compare: {error}");
            ExitCode::from(2)
        }
    }
}

/// The count, the seed, and the program with its arguments.
fn parsed(arguments: &[OsString]) -> io::Result<(u64, u64, &[OsString])> {
    let misuse = || io::Error::other("use: group_compare COUNT SEED -- PROGRAM [ARGS]");
    let number = |word: &OsString| word.to_str().and_then(|word| word.parse().ok());
    match arguments {
        [count, seed, dashes, program @ ..] if dashes == "--" && !program.is_empty() => {
            let numbers = number(count).zip(number(seed)).ok_or_else(misuse)?;
            Ok((numbers.0, numbers.1, program))
        }
        _ => Err(misuse()),
    }
}

/// The questions, each without its newline.
fn lines(count: u64, seed: u64) -> Vec<Vec<u8>> {
    let mut lines = fixed_lines();
    let mut groups = Groups::new(seed);
    lines.extend((0..count).map(|_| groups.line()));
    lines
}

#[derive(Default)]
struct Comparison {
    questions: u64,
    different: u64,
    counts: BTreeMap<Kind, u64>,
}

impl Comparison {
    /// Holds what the other program printed to the answers, line by line.
    fn run(&mut self, lines: &[Vec<u8>], there: &[u8]) {
        let mut printed_there = there.split_inclusive(|&byte| byte == b'\n');
        for line in lines {
            let there = printed_there.next().unwrap_or(b"");
            self.compare(line, there);
        }
        let more: Vec<&[u8]> = printed_there.collect();
        if !more.is_empty() {
            self.different += 1;
            println!("different: {} lines too many", more.len());
            println!("  there: {}", excerpt(&more.concat()));
        }
    }

    fn compare(&mut self, line: &[u8], there: &[u8]) {
        let asked = Question::of(line).map(|question| {
            let answer = question.answer();
            (question, answer)
        });
        let here = printed(asked.as_ref().map(|(_, answer)| answer));
        self.questions += 1;
        for kind in kinds(asked.as_ref()) {
            *self.counts.entry(kind).or_default() += 1;
        }
        if there.strip_suffix(b"\n") != Some(here.as_bytes()) {
            self.different += 1;
            if self.different <= SHOWN {
                println!("different: question {}", self.questions);
                println!("  {}", line.escape_ascii());
                println!("  here:  {here}");
                println!("  there: {}", excerpt(there));
            }
        }
    }

    /// An end that is not a good one counts as a difference, too.
    fn end(&mut self, status: ExitStatus) {
        if status.code() != Some(0) {
            self.different += 1;
            println!("different: the program ended with {status}");
        }
    }

    fn report(&self) {
        for (kind, count) in &self.counts {
            println!("{count:7} {kind}");
        }
        let (questions, different) = (self.questions, self.different);
        println!("{questions} questions, {different} different");
    }
}

/// What the program prints when it is given the questions, and how it ends.
fn ask(program: &[OsString], lines: &[Vec<u8>]) -> io::Result<(Vec<u8>, ExitStatus)> {
    let mut child = Command::new(&program[0])
        .args(&program[1..])
        .stdin(Stdio::piped())
        .stdout(Stdio::piped())
        .spawn()?;
    let stdin = child.stdin.take();
    let output = std::thread::scope(|scope| {
        scope.spawn(move || {
            let mut input = lines.join(&b'\n');
            input.push(b'\n');
            // A program that stops early closes its end.
            stdin.map(|mut stdin| stdin.write_all(&input))
        });
        child.wait_with_output()
    })?;
    Ok((output.stdout, output.status))
}

/// The start of an answer, on one line.
fn excerpt(answer: &[u8]) -> String {
    let start = &answer[..answer.len().min(EXCERPT)];
    let more = if start.len() < answer.len() {
        " ..."
    } else {
        ""
    };
    format!("{}{more}", start.escape_ascii())
}
