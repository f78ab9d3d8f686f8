//! Groups by hand: worked ones, their telegrams, identity, positions and counters.

use plain::corpus::draft::{pack, Draft};
use plain::group::program::{printed, Question};
use plain::group::{message, Fault, MIN_ROOM};
use plain::worked::*;

/// Where the fields of the header stand.
const PIG: usize = 3;
const TOTAL: usize = 4;
pub const DUP: usize = 5;
pub const COUNTER: usize = 6;
const COUNTRY: usize = 7;
const NUMBER: usize = 8;
pub const LINK: usize = 9;

/// The worked header's group, with N_PIG, N_TOTAL, M_DUP and packets.
pub fn balise(pig: u64, total: u64, dup: u64, packets: &[Vec<Cell>]) -> Draft {
    let draft = telegram(packets);
    with(with(with(draft, PIG, pig), TOTAL, total), DUP, dup)
}

/// A telegram with another value in a field of its header.
pub fn with(mut draft: Draft, index: usize, value: u64) -> Draft {
    draft.entries[index].value = value;
    draft
}

/// Balises 0 and up with these M_DUP and packets.
pub fn group(balises: &[(u64, &[Vec<Cell>])]) -> Vec<Draft> {
    let total = balises.len() as u64 - 1;
    let numbered = (0..).zip(balises);
    numbered
        .map(|(pig, (dup, packets))| balise(pig, total, *dup, packets))
        .collect()
}

/// The bytes and the list of n.
fn lent(group: &[Draft]) -> (Vec<u8>, Vec<u64>) {
    let bytes = group.iter().flat_map(|draft| pack(&draft.bits()));
    let ns = group.iter().map(|draft| draft.len() as u64);
    (bytes.collect(), ns.collect())
}

pub fn answer(group: &[Draft]) -> Result<Vec<(u8, u8)>, Fault> {
    let (bytes, ns) = lent(group);
    message(&bytes, &ns, MIN_ROOM)
}

/// Accepted with these packets, in whatever order of arrival.
pub fn accepted(group: &[Draft], packets: &[(u8, u8)]) {
    let mut arrivals = group.to_vec();
    for _ in 0..group.len() {
        assert_eq!(answer(&arrivals), Ok(packets.to_vec()));
        arrivals.rotate_left(1);
    }
    arrivals.reverse();
    assert_eq!(answer(&arrivals), Ok(packets.to_vec()));
}

pub fn fault(number: u32, which: u64, place: u64) -> Fault {
    Fault {
        number,
        which,
        place,
    }
}

/// Refused as a group, in whatever order of arrival.
pub fn refused(group: &[Draft], number: u32, which: u64, place: u64) {
    let mut arrivals = group.to_vec();
    for _ in 0..group.len().max(1) {
        assert_eq!(answer(&arrivals), Err(fault(number, which, place)));
        arrivals.reverse();
        arrivals.rotate_left(1.min(group.len()));
    }
}

#[test]
fn worked_groups() {
    for (line, expected) in [
        (
            "90127F8125DFC6D01D20000C000FF0:116 90027F8125DFC15022A01E05E063002A80D907D00007F8:181",
            "ok 3 0.0 0.1 1.0",
        ),
        (
            "9004838125DFE1100C3FC0:82 9014838125DFE1100C3FC0:82 9024038125DFE1100C3FC0:82",
            "ok 1 0.0",
        ),
        (
            "90027F8125DFE1100C3FC0:82 90137F8125DFE2500C3FC0:82",
            "refused 23 1 0",
        ),
        (
            "90127F8125DFE2500C21100C3FC0:106 90027F8125DFE1200C3FC0:82",
            "refused 10 1 82",
        ),
        (
            "90127F8125DFE2500C3FC0:82 90027F8125DFE1100C3FC1:82",
            "refused 3 1 0",
        ),
        ("", "refused 21 0 0"),
    ] {
        let answer = Question::of(line.as_bytes()).map(|question| question.answer());
        assert_eq!(printed(answer.as_ref()), expected, "{line}");
    }
}

#[test]
fn packets_are_listed_by_n_pig_and_number() {
    accepted(&[balise(0, 0, 0, &[])], &[]);
    accepted(&[balise(0, 0, 0, &[danger(1)])], &[(0, 0)]);
    let group = group(&[
        (0, &[danger(1), stop_in(0)]),
        (0, &[]),
        (0, &[gradients(2), danger(0), stop_in(1)]),
    ]);
    accepted(&group, &[(0, 0), (0, 1), (2, 0), (2, 1), (2, 2)]);
    // Eight balises, each with the same ETCS-44, which never collides.
    let eight: Vec<Draft> = (0..8)
        .map(|pig| balise(pig, 7, 0, &[absolute_stop(2)]))
        .collect();
    let packets: Vec<(u8, u8)> = (0..8).map(|pig| (pig, 0)).collect();
    accepted(&eight, &packets);
}

#[test]
fn number_1_comes_before_everything() {
    let (bytes, ns) = lent(&[balise(0, 0, 0, &[danger(1)])]);
    for room in [0, 1, 132, 263] {
        assert_eq!(message(&bytes, &ns, room), Err(fault(1, 0, 0)));
        assert_eq!(message(&[], &[], room), Err(fault(1, 0, 0)));
        assert_eq!(message(&[1], &[u64::MAX; 9], room), Err(fault(1, 0, 0)));
    }
    for room in [264, 265, usize::MAX] {
        assert_eq!(message(&bytes, &ns, room), Ok(vec![(0, 0)]));
    }
}

#[test]
fn a_telegram_is_refused_with_its_arrival_number() {
    let sound = group(&[(0, &[danger(1)]), (0, &[stop_in(1)]), (0, &[gradients(1)])]);
    for at in 0..3 {
        let mut wrong = sound.clone();
        wrong[at] = with(wrong[at].clone(), 1, 17);
        assert_eq!(answer(&wrong), Err(fault(4, at as u64, 1)));
        wrong[at] = telegram(&[danger(1), danger(2)]);
        assert_eq!(answer(&wrong), Err(fault(10, at as u64, 82)));
        wrong[at] = telegram(&[etcs(254, 1, 24, &[])]);
        assert_eq!(answer(&wrong), Err(fault(8, at as u64, 60)));
    }
    // The first in order of arrival, not the lowest N_PIG or number.
    let wrong = [
        telegram(&[danger(3)]),
        with(sound[0].clone(), 0, 0),
        sound[1].clone(),
    ];
    assert_eq!(answer(&wrong), Err(fault(7, 0, 58)));
}

#[test]
fn bytes_that_do_not_go_with_n() {
    let sound = group(&[(0, &[danger(1)]), (0, &[stop_in(1)]), (0, &[])]);
    let (bytes, ns) = lent(&sound);
    // Surplus and missing bytes are the last one's, unless the bytes end before it.
    let longer = [&bytes[..], &[0]].concat();
    assert_eq!(message(&longer, &ns, MIN_ROOM), Err(fault(2, 2, 0)));
    for (length, which) in [(29, 2), (22, 2), (21, 1), (11, 1), (10, 0), (0, 0)] {
        let cut = message(&bytes[..length], &ns, MIN_ROOM);
        assert_eq!(cut, Err(fault(2, which, 0)), "{length}");
    }
    for n in [0, 57, 831, u64::MAX, u64::MAX - 6, 1 << 63, 1 << 61 | 82] {
        for which in 0..3 {
            let mut ns = ns.clone();
            ns[which] = n;
            let refused = message(&bytes, &ns, MIN_ROOM);
            assert_eq!(refused, Err(fault(2, which as u64, 0)), "{n}");
        }
    }
    // A byte more in front of the second one moves it: its header begins with 0.
    let moved = [&bytes[..11], &[0], &bytes[11..]].concat();
    assert_eq!(message(&moved, &ns, MIN_ROOM), Err(fault(3, 1, 0)));
}

#[test]
fn number_21_no_telegram_or_too_many() {
    assert_eq!(answer(&[]), Err(fault(21, 0, 0)));
    assert_eq!(message(&[1, 2, 3], &[], MIN_ROOM), Err(fault(21, 0, 0)));
    let mut nine: Vec<Draft> = (0..8).map(|pig| balise(pig, 7, 0, &[])).collect();
    accepted(&nine, &[]);
    nine.push(nine[3].clone());
    refused(&nine, 21, 0, 0);
    // All are looked at before they are counted.
    nine[8] = telegram(&[danger(3)]);
    assert_eq!(answer(&nine), Err(fault(7, 8, 58)));
    nine.insert(8, balise(0, 0, 0, &[]));
    assert_eq!(answer(&nine), Err(fault(7, 9, 58)));
}

#[test]
fn number_21_identity_and_positions() {
    let sound = group(&[(0, &[danger(1)]), (0, &[stop_in(1)]), (0, &[])]);
    for at in 0..3 {
        for (index, value) in [
            (COUNTRY, 8),
            (COUNTRY, 9 + 512),
            (NUMBER, 3006),
            (NUMBER, 3007 ^ 8192),
            (LINK, 0),
            (TOTAL, 3),
            (TOTAL, 7),
            (PIG, (at as u64 + 1) % 3),
        ] {
            let mut wrong = sound.clone();
            wrong[at] = with(wrong[at].clone(), index, value);
            refused(&wrong, 21, 0, 0);
        }
        let mut fewer = sound.clone();
        fewer.remove(at);
        refused(&fewer, 21, 0, 0);
        let more = [&sound[..], &sound[at..=at]].concat();
        refused(&more, 21, 0, 0);
    }
    refused(&[balise(0, 1, 0, &[])], 21, 0, 0);
    refused(&[balise(1, 1, 0, &[])], 21, 0, 0);
    refused(&[balise(0, 0, 0, &[]), balise(0, 0, 0, &[])], 21, 0, 0);
    refused(&[balise(0, 1, 0, &[]), balise(2, 2, 0, &[])], 21, 0, 0);
}

/// Three empty balises with these counters.
fn counted(counters: [u64; 3]) -> Vec<Draft> {
    let balises = (0..).zip(counters);
    balises
        .map(|(pig, counter)| with(balise(pig, 2, 0, &[]), COUNTER, counter))
        .collect()
}

#[test]
fn number_22() {
    for counters in [
        [255, 255, 255],
        [0, 0, 0],
        [253, 253, 253],
        [7, 255, 7],
        [255, 0, 255],
        [255, 253, 253],
    ] {
        accepted(&counted(counters), &[]);
    }
    for counters in [
        [254, 254, 254],
        [254, 255, 255],
        [255, 255, 254],
        [254, 253, 253],
        [0, 1, 0],
        [7, 255, 6],
        [255, 0, 128],
        [253, 252, 255],
    ] {
        refused(&counted(counters), 22, 0, 0);
    }
    for counter in 0..=255 {
        let alone = [with(balise(0, 0, 0, &[]), COUNTER, counter)];
        match counter {
            254 => refused(&alone, 22, 0, 0),
            _ => accepted(&alone, &[]),
        }
    }
}
