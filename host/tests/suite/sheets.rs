//! Data sheets out and in again, and what holds over whole corpora of them.

use plain::corpus::draft::{pack, Draft};
use plain::corpus::random::Random;
use plain::corpus::sheets::{damaged, fixed_sheets};
use plain::corpus::sound::sound;
use plain::corpus::Corpus;
use plain::sheet::{export, import, Refused};
use plain::worked::{cases, danger, reverse_area, session, telegram};
use plain::{check, write, MAX_BYTES};
use std::collections::BTreeSet;

/// Rows with their line ends, after the header.
pub fn sheet(rows: &[&str]) -> Vec<u8> {
    let mut sheet = "variable,bits,value\r\n".to_string();
    for row in rows {
        sheet += row;
        sheet += "\r\n";
    }
    sheet.into_bytes()
}

pub const HEADER_ROWS: [&str; 10] = [
    "Q_UPDOWN,1,1",
    "M_VERSION,7,16",
    "Q_MEDIA,1,0",
    "N_PIG,3,0",
    "N_TOTAL,3,1",
    "M_DUP,2,0",
    "M_MCOUNT,8,255",
    "NID_C,10,9",
    "NID_BG,14,3007",
    "Q_LINK,1,1",
];

/// A draft's sheet has these rows after those of the header, and says the draft again.
fn says(draft: &Draft, packets: &[&str]) {
    let sheet = sheet(&[&HEADER_ROWS[..], packets].concat());
    let (bytes, n) = (pack(&draft.bits()), draft.len() as u64);
    let exported = export(&bytes, n).expect("a sound telegram");
    assert_eq!(
        String::from_utf8_lossy(&exported),
        String::from_utf8_lossy(&sheet)
    );
    assert_eq!(import(&sheet), Ok((bytes, n)));
}

#[test]
fn the_empty_telegram() {
    let text = b"variable,bits,value\r\nQ_UPDOWN,1,1\r\nM_VERSION,7,16\r\nQ_MEDIA,1,0\r\nN_PIG,3,0\r\n\
        N_TOTAL,3,1\r\nM_DUP,2,0\r\nM_MCOUNT,8,255\r\nNID_C,10,9\r\nNID_BG,14,3007\r\nQ_LINK,1,1\r\n\
        END,8,255\r\n";
    let bytes = [0x90, 0x02, 0x7f, 0x81, 0x25, 0xdf, 0xff, 0xc0];
    assert_eq!(export(&bytes, 58), Ok(text.to_vec()));
    assert_eq!(import(text), Ok((bytes.to_vec(), 58)));
    says(&telegram(&[]), &["END,8,255"]);
}

#[test]
fn packets_one_after_the_other() {
    says(
        &telegram(&[danger(0), reverse_area(2, 50, 400)]),
        &[
            "NID_PACKET,8,132",
            "Q_DIR,2,0",
            "L_PACKET,13,24",
            "Q_ASPECT,1,1",
            "NID_PACKET,8,44",
            "Q_DIR,2,1",
            "L_PACKET,13,79",
            "NID_XUSER,9,3",
            "Q_DIR,2,1",
            "L_PACKET,13,56",
            "Q_SCALE,2,2",
            "D_STARTREVERSE,15,50",
            "L_REVERSEAREA,15,400",
            "END,8,255",
        ],
    );
}

#[test]
fn radio_numbers_have_sixteen_characters() {
    for (radio, places) in [
        (0x0861_4970_0200_02ff, "08614970020002FF"),
        (0x8614_9700_2000_2fff, "8614970020002FFF"),
        (0, "0000000000000000"),
        (u64::MAX, "FFFFFFFFFFFFFFFF"),
    ] {
        says(
            &telegram(&[session(radio)]),
            &[
                "NID_PACKET,8,42",
                "Q_DIR,2,1",
                "L_PACKET,13,113",
                "Q_RBC,1,1",
                "NID_C,10,9",
                "NID_RBC,14,77",
                &format!("NID_RADIO,64,{places}"),
                "Q_SLEEPSESSION,1,0",
                "END,8,255",
            ],
        );
    }
}

#[test]
fn worked_cases_go_out_and_come_back_in() {
    let mut accepted = 0;
    for case in cases() {
        let (bytes, n) = (pack(&case.bits()), case.len() as u64);
        match export(&bytes, n) {
            Ok(sheet) => {
                assert_eq!(import(&sheet), Ok((bytes, n)));
                accepted += 1;
            }
            refused => assert_eq!(refused.err(), check(&bytes, n).err()),
        }
    }
    assert!(accepted > 20);
}

#[test]
fn the_corpus_goes_out_and_comes_back_in() {
    let mut corpus = Corpus::new(21);
    for _ in 0..20_000 {
        let telegram = corpus.telegram();
        let (bytes, n) = (&telegram.bytes[..], telegram.n);
        match export(bytes, n) {
            Ok(sheet) => {
                let rows = sheet.iter().filter(|&&byte| byte == b'\n').count() - 1;
                assert_eq!(check(bytes, n), Ok(rows));
                assert!(sheet.len() < 65_536);
                assert_eq!(import(&sheet), Ok((bytes.to_vec(), n)));
            }
            Err(refusal) => assert_eq!(check(bytes, n), Err(refusal)),
        }
    }
}

#[test]
fn nothing_is_accepted_but_what_is_exported() {
    let mut random = Random::new(22);
    let mut accepted = 0;
    for _ in 0..20_000 {
        let draft = sound(&mut random);
        let sheet = export(&pack(&draft.bits()), draft.len() as u64).expect("a sound telegram");
        let text = damaged(&mut random, &sheet);
        if let Ok((bytes, n)) = import(&text) {
            assert_eq!(export(&bytes, n), Ok(text));
            accepted += 1;
        }
    }
    assert!((500..10_000).contains(&accepted), "{accepted}");
}

/// The value column, if every line has three cells and a plain number or radio number as its last.
fn value_column(text: &[u8]) -> Option<Vec<u64>> {
    let text = std::str::from_utf8(text).ok()?;
    let value = |line: &str| match line.strip_prefix("NID_RADIO,64,") {
        Some(places) => u64::from_str_radix(places, 16).ok(),
        None => line.rsplit(',').next()?.parse().ok(),
    };
    text.lines().skip(1).map(value).collect()
}

#[test]
fn refusals_of_the_writer_are_those_of_the_value_column() {
    let mut random = Random::new(23);
    let mut seen = BTreeSet::new();
    for _ in 0..20_000 {
        let draft = sound(&mut random);
        let sheet = export(&pack(&draft.bits()), draft.len() as u64).expect("a sound telegram");
        let text = damaged(&mut random, &sheet);
        let answer = import(&text);
        if let Err(Refused::Row(_)) = answer {
            continue;
        }
        let values = value_column(&text).expect("good rows");
        let written = write(&values, &mut [0; MAX_BYTES]);
        match answer {
            Err(Refused::Telegram(refusal)) => {
                assert_eq!(written, Err(refusal));
                seen.insert(refusal.number);
            }
            _ => assert!(written.is_ok()),
        }
    }
    assert_eq!(seen, (4..=13).collect());
}

#[test]
fn a_small_corpus_has_every_refusal() {
    for seed in 0..8 {
        let mut corpus = Corpus::new(seed);
        let mut seen = BTreeSet::new();
        for _ in 0..500 {
            let telegram = corpus.telegram();
            let Ok(sheet) = export(&telegram.bytes, telegram.n) else {
                continue;
            };
            for _ in 0..3 {
                let answer = import(&damaged(corpus.random(), &sheet));
                seen.extend(answer.err().map(|refused| match refused {
                    Refused::Telegram(refusal) => (refusal.number, ""),
                    Refused::Row(0) => (20, "header"),
                    Refused::Row(831) => (20, "row 831"),
                    Refused::Row(_) => (20, "row"),
                    Refused::Name(_) => (20, "name"),
                }));
            }
        }
        assert_eq!(seen.len(), 10 + 4, "seed {seed}: {seen:?}");
    }
}

#[test]
fn fixed_sheets_have_a_wrong_name_for_each_of_72() {
    let sheets = fixed_sheets(&mut Random::new(24));
    let answers: Vec<_> = sheets.iter().map(|sheet| import(sheet)).collect();
    let wrong_names = answers
        .iter()
        .filter(|answer| matches!(answer, Err(Refused::Name(_))));
    assert_eq!(wrong_names.count(), 72);
}
