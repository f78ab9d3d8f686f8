//! The programs, by what they print.

use std::fs;
use std::io::Write;
use std::path::Path;
use std::process::{Command, Stdio};

const EMPTY: &str = "1001000000000010011111111000000100100101110111111111111111";

/// What a program prints, and whether it succeeds.
pub fn run(program: &str, arguments: &[&str], input: &str) -> (String, bool) {
    let mut child = Command::new(program)
        .args(arguments)
        .stdin(Stdio::piped())
        .stdout(Stdio::piped())
        .stderr(Stdio::null())
        .spawn()
        .expect("the program starts");
    let mut stdin = child.stdin.take().expect("a pipe");
    let input = input.to_string();
    let feeder = std::thread::spawn(move || {
        // A program that stops early closes its end.
        let _ = stdin.write_all(input.as_bytes());
    });
    let output = child.wait_with_output().expect("the program ends");
    feeder.join().expect("the input is given");
    let text = String::from_utf8(output.stdout).expect("text");
    (text, output.status.success())
}

fn lines(input: &str) -> String {
    run(env!("CARGO_BIN_EXE_lines"), &[], input).0
}

#[test]
fn the_line_program() {
    let ok = "ok 58 11\n";
    let refused = "refused 2 0\n";
    assert_eq!(lines(&format!("{EMPTY}\n1\n")), format!("{ok}{refused}"));
    assert_eq!(lines(&format!("{EMPTY}\n1")), format!("{ok}{refused}"));
    assert_eq!(lines(EMPTY), ok);
    assert_eq!(lines(""), "");
    assert_eq!(lines("\n"), refused);
    assert_eq!(
        lines(&format!("\n\n{EMPTY}\n\n")),
        format!("{refused}{refused}{ok}{refused}")
    );
    assert_eq!(
        lines(&format!("{EMPTY}\r\n{EMPTY}")),
        format!("{refused}{ok}")
    );
    assert_eq!(lines(&format!("{EMPTY}0\n")), "refused 11 58\n");
    // Another character counts even where a rule is broken before it.
    assert_eq!(lines(&format!("0{}x\n", &EMPTY[1..])), refused);
    assert_eq!(lines(&format!("0{}\n", &EMPTY[1..])), "refused 4 0\n");
    assert_eq!(
        lines(&format!("{}é\n{EMPTY}\n", &EMPTY[2..])),
        format!("{refused}{ok}")
    );
}

#[test]
fn long_lines_give_one_answer_each() {
    for length in [829, 830, 831, 832, 833, 834, 65_535, 65_536, 1_000_000] {
        let line = format!("{EMPTY}{}", "1".repeat(length - EMPTY.len()));
        let expected = if length > 830 {
            "refused 2 0"
        } else {
            "refused 11 58"
        };
        let input = format!("{line}\n{EMPTY}\n{line}");
        assert_eq!(lines(&input), format!("{expected}\nok 58 11\n{expected}\n"));
    }
}

#[test]
fn the_vectors_program() {
    let vectors = env!("CARGO_BIN_EXE_vectors");
    let questions = format!("r {EMPTY}\nn {EMPTY}\nw 1 16 0 0 1 0 255 9 3007 1 255\nw\nr 1\nr \n");
    let answers = format!(
        "ok 11 1 16 0 0 1 0 255 9 3007 1 255\nok {EMPTY}\nok {EMPTY}\nrefused 5 0\nrefused 2 0\nrefused 2 0\n"
    );
    assert_eq!(run(vectors, &["out"], &questions), (answers, true));
    for wrong in [
        "x 1\n",
        "r 012\n",
        "w +1\n",
        "r 1\r\n",
        "w 1 two\n",
        "w 18446744073709551616\n",
        "\n",
    ] {
        assert!(!run(vectors, &["out"], wrong).1);
    }
    let (questions, done) = run(vectors, &["in", "5", "2000"], "");
    assert!(done && questions == run(vectors, &["in", "5", "2000"], "").0);
    let (answers, done) = run(vectors, &["out"], &questions);
    assert!(done && answers.lines().count() == questions.lines().count());
}

#[test]
fn the_corpus_program() {
    let corpus = env!("CARGO_BIN_EXE_corpus");
    let (text, done) = run(corpus, &["7", "500"], "");
    assert!(done && text.lines().count() == 500);
    for line in text.lines() {
        let words: Vec<&str> = line.split(' ').collect();
        let [_, _, check, room, answer, out] = words[..] else {
            panic!("{line}");
        };
        let room: usize = room.parse().expect("a number");
        assert_eq!(out.len(), if room == 0 { 1 } else { 2 * room });
        assert_eq!(answer, if room < 104 { "1024" } else { check });
    }
    assert!(!run(corpus, &["7"], "").1);
}

const EMPTY_SHEET: &str = "variable,bits,value\r\nQ_UPDOWN,1,1\r\nM_VERSION,7,16\r\n\
    Q_MEDIA,1,0\r\nN_PIG,3,0\r\nN_TOTAL,3,1\r\nM_DUP,2,0\r\nM_MCOUNT,8,255\r\nNID_C,10,9\r\n\
    NID_BG,14,3007\r\nQ_LINK,1,1\r\nEND,8,255\r\n";

fn sheets(word: &str, input: &str) -> String {
    let (text, done) = run(env!("CARGO_BIN_EXE_sheets"), &[word], input);
    assert!(done);
    text
}

#[test]
fn the_sheets_program() {
    let refused = "refused 2 0\n";
    assert_eq!(sheets("out", EMPTY), EMPTY_SHEET);
    assert_eq!(sheets("out", &format!("{EMPTY}\n")), EMPTY_SHEET);
    for wrong in [
        "".to_string(),
        "\n".to_string(),
        format!("{EMPTY}\n\n"),
        format!("{EMPTY}\r\n"),
        format!("\n{EMPTY}\n"),
        format!("{EMPTY}\n{EMPTY}\n"),
        format!("{EMPTY} "),
        format!("0{}x\n", &EMPTY[1..]),
        EMPTY[..57].to_string(),
        EMPTY.repeat(15),
    ] {
        assert_eq!(sheets("out", &wrong), refused, "{wrong}");
    }
    assert_eq!(sheets("out", &format!("{EMPTY}0\n")), "refused 11 58\n");
    assert_eq!(sheets("in", EMPTY_SHEET), format!("{EMPTY}\n"));
    assert_eq!(sheets("in", ""), "refused 20 0\n");
    assert_eq!(
        sheets("in", &EMPTY_SHEET.replace(",16", ",17")),
        "refused 4 1\n"
    );
    assert_eq!(
        sheets("in", &EMPTY_SHEET.replace(",16", ",016")),
        "refused 20 2\n"
    );
    assert_eq!(
        sheets("in", &EMPTY_SHEET.replace("N_PIG", "N_TOTAL")),
        "refused 20 4\n"
    );
    assert_eq!(sheets("in", &EMPTY_SHEET.repeat(6000)), "refused 20 12\n");
}

#[test]
fn the_sheets_program_says_how_it_is_used() {
    for arguments in [
        &[][..],
        &["out", "in"],
        &["in", "in"],
        &["Out"],
        &["--help"],
        &[""],
    ] {
        let output = Command::new(env!("CARGO_BIN_EXE_sheets"))
            .args(arguments)
            .stdin(Stdio::null())
            .output()
            .expect("the program runs");
        assert_eq!(output.stdout, b"usage: sheets out | in\n");
        assert_eq!(output.status.code(), Some(2));
    }
}

#[test]
fn the_sheet_compare_program() {
    let compare = env!("CARGO_BIN_EXE_sheet_compare");
    let (text, alike) = run(
        compare,
        &["100", "3", "--", env!("CARGO_BIN_EXE_sheets")],
        "",
    );
    assert!(alike && text.ends_with(" runs, 0 different\n"));
    // The line program takes no arguments and knows no sheets.
    let (text, alike) = run(compare, &["1", "3", "--", env!("CARGO_BIN_EXE_lines")], "");
    let first = text.lines().next().and_then(|line| line.split_once(" < "));
    let (case, saved) = first.expect("a case and its input");
    assert!(!alike && case == "different: out");
    assert!(fs::read(saved).is_ok_and(|input| input == EMPTY.as_bytes()));
    let folder = Path::new(saved).parent().expect("a folder");
    fs::remove_dir_all(folder).expect("the folder goes again");
    assert!(!run(compare, &["100", "3", env!("CARGO_BIN_EXE_sheets")], "").1);
    assert!(!run(compare, &["100", "3", "--"], "").1);
}
