//! The programs `groups` and `group_compare`, by what they print.

use crate::programs::run;
use std::process::Command;

const GROUPS: &str = env!("CARGO_BIN_EXE_groups");
const EMPTY: &str = "1001000000000000011111111000000100100101110111111111111111";
const ALONE: &str = "90007F8125DFFFC0:58";

fn groups(input: &str) -> String {
    let (text, done) = run(GROUPS, &["out"], input);
    assert!(done);
    text
}

#[test]
fn lines_of_groups() {
    let none = "refused 21 0 0\n";
    let no = "not a question\n";
    assert_eq!(groups(""), "");
    assert_eq!(groups("\n"), none);
    assert_eq!(groups("\n\n"), none.repeat(2));
    assert_eq!(groups(ALONE), "ok 0\n");
    assert_eq!(groups(EMPTY), "ok 0\n");
    assert_eq!(groups(&format!("{ALONE}\n{EMPTY}\n")), "ok 0\n".repeat(2));
    assert_eq!(
        groups(&format!("{ALONE}\n\n{ALONE}")),
        format!("ok 0\n{none}ok 0\n")
    );
    for wrong in [
        format!("{ALONE} "),
        format!(" {ALONE}"),
        format!("{ALONE}  {ALONE}"),
        format!("{ALONE}\r"),
        format!("{ALONE}\t{ALONE}"),
        ALONE.replace(":58", ":058"),
        ALONE.replace(":58", ":"),
        ALONE.replace(":58", ":+58"),
        ALONE.replace(":58", ":18446744073709551616"),
        ALONE.replace("C0:", "C:"),
        ALONE.replace("C0:", "CG:"),
        ALONE.replace(":58", ":58:58"),
        format!("{EMPTY}2"),
        "1".repeat(1025),
        format!("{}:58", "00".repeat(129)),
        [ALONE; 17].join(" "),
        ["1".repeat(1024).as_str(); 17].join(" "),
        " ".to_string(),
        ":".to_string(),
        "\u{661}".to_string(),
    ] {
        // Whatever a line is, the next one is answered.
        assert_eq!(
            groups(&format!("{wrong}\n{ALONE}")),
            format!("{no}ok 0\n"),
            "{wrong}"
        );
    }
}

#[test]
fn words_at_their_limits() {
    assert_eq!(groups(":0"), "refused 2 0 0\n");
    assert_eq!(groups("1"), "refused 2 0 0\n");
    assert_eq!(groups(&"1".repeat(1024)), "refused 2 0 0\n");
    assert_eq!(
        groups(&format!("{}:58", "0".repeat(256))),
        "refused 2 0 0\n"
    );
    assert_eq!(groups(&ALONE.to_lowercase()), "ok 0\n");
    assert_eq!(
        groups(&ALONE.replace(":58", ":18446744073709551615")),
        "refused 2 0 0\n"
    );
    assert_eq!(groups(&[ALONE; 16].join(" ")), "refused 21 0 0\n");
    let longest = ["1".repeat(1024).as_str(); 16].join(" ");
    assert_eq!(groups(&longest), "refused 2 0 0\n");
    // The buffer is what counts, not which word has which bytes.
    let pair = "90027F8125DFFFC090127F8125DFFFC0";
    assert_eq!(groups(&format!("{pair}:58 :58")), "ok 0\n");
    assert_eq!(groups(&format!(":58 {pair}:58")), "ok 0\n");
    assert_eq!(groups(&format!("{pair}00:58 :58")), "refused 2 1 0\n");
    assert_eq!(groups(&format!("{pair}:58")), "refused 2 0 0\n");
}

#[test]
fn long_lines_give_one_answer_each() {
    for length in [16_398, 16_399, 16_400, 16_401, 16_402, 65_536, 1_000_000] {
        let line = "1".repeat(length);
        let input = format!("{line}\n{ALONE}\n{line}");
        let no = "not a question\n";
        assert_eq!(groups(&input), format!("{no}ok 0\n{no}"), "{length}");
    }
}

/// Questions of a seed. Lines that are none may hold any byte.
fn questions(seed: &str) -> Vec<u8> {
    let output = Command::new(GROUPS).args(["in", seed, "2000"]).output();
    output.expect("the program runs").stdout
}

#[test]
fn questions_are_those_of_the_seed() {
    assert_eq!(questions("5").split(|&byte| byte == b'\n').count(), 2001);
    assert!(questions("5") == questions("5") && questions("5") != questions("6"));
    for arguments in [&[][..], &["in"], &["in", "1"], &["out", "1"], &["Out"]] {
        assert!(!run(GROUPS, arguments, "").1);
    }
}

#[test]
fn the_group_compare_program() {
    let compare = env!("CARGO_BIN_EXE_group_compare");
    let (text, alike) = run(compare, &["2000", "3", "--", GROUPS, "out"], "");
    assert!(alike && text.ends_with(" questions, 0 different\n"));
    // The line program knows single telegrams only.
    let lines = env!("CARGO_BIN_EXE_lines");
    let (text, alike) = run(compare, &["10", "3", "--", lines], "");
    assert!(!alike && text.starts_with("different: question 1\n  90127F8125"));
    // One that prints nothing, and one that is not there.
    assert!(!run(compare, &["10", "3", "--", "true"], "").1);
    assert!(!run(compare, &["10", "3", "--", "/nowhere/groups"], "").1);
    assert!(!run(compare, &["10", "3", GROUPS], "").1);
    assert!(!run(compare, &["10", "3", "--"], "").1);
}
