//! What holds over whole rows of groups.

use plain::corpus::groups::kinds::{kinds, Kind};
use plain::corpus::groups::{fixed_lines, largest, typical, Groups};
use plain::corpus::random::Random;
use plain::corpus::Telegram;
use plain::group::program::Question;
use plain::group::{message, Fault, MIN_ROOM};
use plain::sheet::export;
use plain::{check, MAX_BITS};
use std::collections::{BTreeMap, BTreeSet};

/// A telegram by its sheet: header values, and each packet's NID_PACKET, Q_DIR and Q_DIR bit.
struct Sheet {
    header: Vec<u64>,
    packets: Vec<(u64, u64, u64)>,
    /// The rows behind the header, which are the same if and only if the bits are.
    contents: Vec<String>,
}

impl Sheet {
    fn of(bytes: &[u8], n: u64) -> Sheet {
        let text = export(bytes, n).expect("an accepted telegram");
        let text = String::from_utf8(text).expect("text");
        let rows: Vec<&str> = text.lines().skip(1).collect();
        let cell = |row: &str, index| row.split(',').nth(index).map(str::to_string);
        let number = |row: &str, index| cell(row, index).and_then(|cell| cell.parse().ok());
        let value = |row: &str| -> u64 { number(row, 2).expect("a value") };
        let mut at = 0;
        let mut packets = Vec::new();
        for (index, row) in rows.iter().enumerate() {
            at += number(row, 1).expect("a width");
            if row.starts_with("NID_PACKET,") {
                packets.push((value(row), value(rows[index + 1]), at));
            }
        }
        Sheet {
            header: rows[..10].iter().map(|row| value(row)).collect(),
            packets,
            contents: rows[10..].iter().map(|row| row.to_string()).collect(),
        }
    }
}

/// The answer by the book, in lists and sets, of telegrams that go with their n.
fn by_the_book(telegrams: &[Telegram]) -> Result<Vec<(u8, u8)>, Fault> {
    let fault = |number, which, place| {
        Err(Fault {
            number,
            which,
            place,
        })
    };
    for (arrival, telegram) in telegrams.iter().enumerate() {
        if let Err(refusal) = check(&telegram.bytes, telegram.n) {
            return fault(refusal.number, arrival as u64, refusal.place);
        }
    }
    let mut sheets: Vec<Sheet> = telegrams
        .iter()
        .map(|telegram| Sheet::of(&telegram.bytes, telegram.n))
        .collect();
    sheets.sort_by_key(|sheet| sheet.header[3]);
    let same = |index: usize| {
        let values: BTreeSet<u64> = sheets.iter().map(|sheet| sheet.header[index]).collect();
        values.len() == 1
    };
    let pigs: Vec<u64> = sheets.iter().map(|sheet| sheet.header[3]).collect();
    let due = |total: u64| (0..=total).collect::<Vec<u64>>();
    if ![4, 7, 8, 9].into_iter().all(same) || pigs != due(sheets[0].header[4]) {
        return fault(21, 0, 0);
    }
    let mut counters: BTreeSet<u64> = sheets.iter().map(|sheet| sheet.header[6]).collect();
    counters.remove(&255);
    if counters.contains(&254) || counters.len() > 1 {
        return fault(22, 0, 0);
    }
    if let Some(pig) = (0..sheets.len()).find(|&pig| names_wrongly(&sheets, pig)) {
        return fault(23, pig as u64, 0);
    }
    listed(&sheets)
}

fn named(sheets: &[Sheet], pig: usize) -> Option<usize> {
    match sheets[pig].header[5] {
        1 => Some(pig + 1).filter(|&next| next < sheets.len()),
        2 => pig.checked_sub(1),
        _ => Some(pig),
    }
}

fn names_wrongly(sheets: &[Sheet], pig: usize) -> bool {
    let contents = |pig: usize| &sheets[pig].contents;
    named(sheets, pig).is_none_or(|named| contents(named) != contents(pig))
}

/// The packets of the lowest of each set of copies, if none collides with an earlier one.
fn listed(sheets: &[Sheet]) -> Result<Vec<(u8, u8)>, Fault> {
    // Each balise's set by its lowest one; joined until nothing changes.
    let mut lowest: Vec<usize> = (0..sheets.len()).collect();
    for _ in sheets {
        for pig in 0..sheets.len() {
            let other = named(sheets, pig).expect("a balise");
            let least = lowest[pig].min(lowest[other]);
            lowest[pig] = least;
            lowest[other] = least;
        }
    }
    let mut sent: Vec<(u64, u64)> = Vec::new();
    let mut answer = Vec::new();
    for (pig, sheet) in sheets.iter().enumerate() {
        for (number, &(id, direction, place)) in sheet.packets.iter().enumerate() {
            if lowest[pig] != pig {
                continue;
            }
            let collides = |&(other, earlier): &(u64, u64)| {
                id == other && id != 44 && (direction == earlier || direction + earlier >= 2)
            };
            if sent.iter().any(collides) {
                return Err(Fault {
                    number: 10,
                    which: pig as u64,
                    place,
                });
            }
            sent.push((id, direction));
            answer.push((pig as u8, number as u8));
        }
    }
    Ok(answer)
}

fn lent(telegrams: &[Telegram]) -> (Vec<u8>, Vec<u64>) {
    let bytes = telegrams.iter().flat_map(|telegram| &telegram.bytes);
    let ns = telegrams.iter().map(|telegram| telegram.n);
    (bytes.copied().collect(), ns.collect())
}

fn answer(telegrams: &[Telegram]) -> Result<Vec<(u8, u8)>, Fault> {
    let (bytes, ns) = lent(telegrams);
    message(&bytes, &ns, MIN_ROOM)
}

fn are_sound(telegrams: &[Telegram]) -> bool {
    let mut all = telegrams.iter();
    all.all(|telegram| check(&telegram.bytes, telegram.n).is_ok())
}

#[test]
fn groups_are_answered_by_the_book() {
    let mut groups = Groups::new(41);
    let mut compared = 0;
    for _ in 0..20_000 {
        let telegrams = groups.telegrams();
        let go_with_n = |telegram: &Telegram| telegram.n.div_ceil(8) == telegram.bytes.len() as u64;
        // Otherwise the bytes of one word may be those of the next telegram.
        if !telegrams.is_empty() && telegrams.iter().all(go_with_n) {
            assert_eq!(answer(&telegrams), by_the_book(&telegrams));
            compared += 1;
        }
    }
    assert!(compared > 17_000, "{compared}");
}

#[test]
fn the_order_of_arrival_does_not_matter() {
    let mut groups = Groups::new(42);
    let mut random = Random::new(43);
    let mut seen = BTreeMap::new();
    for _ in 0..20_000 {
        let mut telegrams = groups.telegrams();
        if !are_sound(&telegrams) {
            continue;
        }
        let before = answer(&telegrams);
        for _ in 0..3 {
            random.shuffle(&mut telegrams);
            assert_eq!(answer(&telegrams), before);
        }
        let number = before.map_or_else(|fault| fault.number, |_| 0);
        *seen.entry(number).or_insert(0) += 1;
    }
    let numbers: Vec<u32> = seen.keys().copied().collect();
    assert_eq!(numbers, [0, 10, 21, 22, 23]);
    assert!(seen.values().all(|&count| count > 400), "{seen:?}");
}

#[test]
fn a_refused_telegram_refuses_the_group_in_every_order() {
    let mut groups = Groups::new(44);
    let mut random = Random::new(45);
    for _ in 0..10_000 {
        let mut telegrams = groups.telegrams();
        random.shuffle(&mut telegrams);
        let go_with_n = |telegram: &Telegram| telegram.n.div_ceil(8) == telegram.bytes.len() as u64;
        if are_sound(&telegrams) || !telegrams.iter().all(go_with_n) {
            continue;
        }
        let fault = answer(&telegrams).expect_err("a refusal");
        let telegram = &telegrams[fault.which as usize];
        let refusal = check(&telegram.bytes, telegram.n).expect_err("a refusal");
        assert_eq!((refusal.number, refusal.place), (fault.number, fault.place));
        assert!(are_sound(&telegrams[..fault.which as usize]));
    }
}

#[test]
fn any_buffer_and_list_is_answered() {
    let mut random = Random::new(46);
    for _ in 0..20_000 {
        let length = random.pick(&[0, 1, 7, 8, 9, 64, 300]);
        let bytes: Vec<u8> = (0..length).map(|_| random.byte()).collect();
        let count = random.between(0, 12);
        let ns: Vec<u64> = (0..count)
            .map(|_| match random.below(4) {
                0 => random.word(),
                1 => random.below(1000),
                2 => u64::MAX - random.below(16),
                _ => 58,
            })
            .collect();
        let room = random.pick(&[0, 263, 264, usize::MAX]);
        let fault = message(&bytes, &ns, room).expect_err("noise");
        assert_eq!(fault.number == 1, room < MIN_ROOM);
    }
}

#[test]
fn a_row_of_questions_has_every_kind() {
    let mut groups = Groups::new(1);
    let mut counts: BTreeMap<Kind, u64> = BTreeMap::new();
    let mut broken = BTreeSet::new();
    for _ in 0..50_000 {
        let line = groups.line();
        assert!(!line.contains(&b'\n'));
        let asked = Question::of(&line).map(|question| {
            let answer = question.answer();
            (question, answer)
        });
        let kinds = kinds(asked.as_ref());
        if let [Kind::Telegram(number), Kind::Arrival(arrival)] = kinds[..] {
            broken.insert((number, arrival));
        }
        for kind in kinds {
            *counts.entry(kind).or_default() += 1;
        }
    }
    let often = [10, 21, 22, 23].map(Kind::Group);
    let accepted = (1..=8).map(Kind::Accepted);
    let others = [Kind::OutOfOrder, Kind::Copies, Kind::Chain];
    for kind in often.into_iter().chain(accepted).chain(others) {
        assert!(counts.get(&kind) >= Some(&500), "{kind}: {counts:?}");
    }
    assert!(counts.get(&Kind::NoQuestion) >= Some(&100));
    for number in 2..=11 {
        let missing = (0..9).find(|&arrival| !broken.contains(&(number, arrival)));
        assert_eq!(missing, None, "{number}");
    }
    assert!((0..16).all(|arrival| counts.contains_key(&Kind::Arrival(arrival))));
}

#[test]
fn fixed_lines_are_questions_and_not() {
    let lines = fixed_lines();
    let questions = lines.iter().filter(|line| Question::of(line).is_some());
    let questions = questions.count();
    assert!(
        questions > 80 && lines.len() - questions > 80,
        "{questions}"
    );
}

#[test]
fn groups_for_timing_are_accepted() {
    for seed in 0..200 {
        let (bytes, ns) = typical(seed);
        let packets = message(&bytes, &ns, MIN_ROOM).expect("a typical group");
        assert!(ns.len() == 3 && packets.len() >= 9);
        let (bytes, ns) = largest(seed);
        assert_eq!(ns, [MAX_BITS as u64; 8]);
        let packets = message(&bytes, &ns, MIN_ROOM).expect("a largest group");
        assert_eq!(packets.len(), 118);
    }
    let mut groups = Groups::new(1);
    let most = (0..50_000).filter_map(|_| answer(&groups.telegrams()).ok());
    assert_eq!(most.map(|packets| packets.len()).max(), Some(132));
}
