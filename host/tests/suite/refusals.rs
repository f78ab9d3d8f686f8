//! Each refusal with its place, the order among them, and outputs left alone.

use plain::corpus::draft::{pack, Draft};
use plain::worked::*;
use plain::{check, code, normalise, read, write, Refusal, MAX_BYTES, MAX_VALUES};

const EMPTY: [u8; 8] = [0x90, 0x02, 0x7f, 0x81, 0x25, 0xdf, 0xff, 0xc0];

fn pair<T>(answer: Result<T, Refusal>) -> (u32, u64) {
    answer.map_or_else(|refusal| (refusal.number, refusal.place), |_| (0, 0))
}

/// What bits are refused by, having left every output as it was.
pub fn by_bits(bytes: &[u8], n: u64) -> (u32, u64) {
    let mut values = [3; MAX_VALUES];
    let mut out = [0xa5; MAX_BYTES + 6];
    let answer = pair(read(bytes, n, &mut values));
    assert_eq!(answer, pair(check(bytes, n)));
    assert_eq!(answer, pair(normalise(bytes, n, &mut out)));
    if answer.0 != 0 {
        assert_eq!(values, [3; MAX_VALUES]);
        assert_eq!(out, [0xa5; MAX_BYTES + 6]);
    }
    answer
}

pub fn by_draft(draft: &Draft) -> (u32, u64) {
    by_bits(&pack(&draft.bits()), draft.len() as u64)
}

/// What values are refused by, having left the output as it was.
pub fn by_values(values: &[u64]) -> (u32, u64) {
    let mut out = [0xa5; MAX_BYTES];
    let answer = pair(write(values, &mut out));
    if answer.0 != 0 {
        assert_eq!(out, [0xa5; MAX_BYTES]);
    }
    answer
}

/// Bits and values are refused alike.
pub fn both(draft: &Draft, number: u32, place: u64) {
    assert_eq!(by_draft(draft), (number, place));
    assert_eq!(by_values(&draft.values()), (number, place));
}

#[test]
fn number_1_comes_before_everything() {
    for (bytes, n) in [(&EMPTY[..], 58), (&[][..], 0), (&[1][..], u64::MAX)] {
        assert_eq!(pair(read(bytes, n, &mut [0; 829])), (1, 0));
        let mut out = [0xa5; 103];
        assert_eq!(pair(normalise(bytes, n, &mut out)), (1, 0));
        assert_eq!(out, [0xa5; 103]);
    }
    assert_eq!(pair(write(&[], &mut [0; 103])), (1, 0));
    assert_eq!(pair(write(&[], &mut [0; 104])), (5, 0));
}

#[test]
fn number_2() {
    for n in [0, 1, 57, 65, 831, 1 << 32 | 58, u64::MAX, u64::MAX - 6] {
        assert_eq!(by_bits(&EMPTY, n), (2, 0), "{n}");
    }
    assert_eq!(by_bits(&EMPTY[..7], 58), (2, 0));
    assert_eq!(by_bits(&[&EMPTY[..], &[0]].concat(), 58), (2, 0));
    assert_eq!(by_bits(&[], 0), (2, 0));
    assert_eq!(by_bits(&[0; 104], 831), (2, 0));
}

#[test]
fn number_3_comes_before_the_header() {
    for bit in 0..6 {
        let mut bytes = EMPTY;
        bytes[7] |= 1 << bit;
        assert_eq!(by_bits(&bytes, 58), (3, 0));
        bytes[0] = 0;
        assert_eq!(by_bits(&bytes, 58), (3, 0));
    }
}

#[test]
fn number_4() {
    for (index, value, place) in [
        (0, 0, 0),
        (1, 17, 1),
        (1, 0, 1),
        (2, 1, 8),
        (3, 2, 12),
        (4, 0, 12),
        (5, 3, 15),
    ] {
        let mut draft = telegram(&[]);
        draft.entries[3].value = 1;
        draft.entries[index].value = value;
        both(&draft, 4, place);
    }
    // N_PIG is not tested before N_TOTAL is there.
    assert_eq!(by_values(&[1, 16, 0, 7]), (5, 12));
    assert_eq!(by_values(&[1, 16, 0, 7, 8]), (12, 12));
    assert_eq!(by_values(&[1, 16, 0, 7, 6]), (4, 12));
}

#[test]
fn number_5() {
    // Where the fields begin: header, ETCS-132, ETCS-5 with a new country, end mark.
    let starts = [
        0, 1, 8, 9, 12, 15, 17, 25, 35, 49, 50, 58, 60, 73, 74, 82, 84, 97, 99, 114, 115, 125, 139,
        140, 142, 148, 153, 168, 169, 183, 184, 186, 192,
    ];
    let draft = telegram(&[danger(1), linking(118, [true, false])]);
    let bits = draft.bits();
    assert_eq!(bits.len(), 200);
    for n in 58..200 {
        let begun = starts.iter().rfind(|&&start| start <= n);
        let place = *begun.expect("a field");
        assert_eq!(by_bits(&pack(&bits[..n as usize]), n), (5, place), "{n}");
    }
    let values = draft.values();
    assert_eq!(values.len(), starts.len());
    for (length, &place) in starts.iter().enumerate() {
        assert_eq!(by_values(&values[..length]), (5, place), "{length}");
    }
}

#[test]
fn a_wrong_value_comes_before_a_later_field_that_is_cut_off() {
    // NC_DIFF 3, and its V_DIFF not all there.
    let group = [(15, 1), (7, 1), (1, 0), (5, 1), (4, 3), (3, 0)];
    let cut = [&HEADER[..], &etcs(27, 1, 99, &[(2, 1)]), &group].concat();
    assert_eq!(by_draft(&draft(&cut)), (7, 103));
    // NC_DIFF itself not there.
    assert_eq!(by_draft(&draft(&cut[..cut.len() - 2])), (5, 103));
    // A whole run of which only an early field is there, and wrong.
    let cut = [&HEADER[..], &etcs(72, 1, 99, &[(2, 3), (1, 0)])].concat();
    assert_eq!(by_draft(&draft(&cut)), (7, 73));
}

#[test]
fn number_6() {
    for id in [0, 1, 4, 6, 43, 45, 133, 253] {
        both(&telegram(&[danger(0), etcs(id, 1, 23, &[])]), 6, 74);
    }
    for id in [0, 6, 44, 511] {
        both(
            &telegram(&[danger(0), ctcs(id, 1, [25, 48], &[(1, 0)])]),
            6,
            97,
        );
    }
}

#[test]
fn number_7() {
    let level = |level: &[Cell]| etcs(46, 1, 99, &[level, &[(5, 0)]].concat());
    let link = |reaction| {
        let group = [(15, 1), (1, 0), (14, 0), (1, 0), (2, reaction), (6, 0)];
        etcs(5, 1, 69, &[&[(2, 0)], &group[..], &[(5, 0)]].concat())
    };
    let condition = [(2, 0), (1, 0), (15, 1), (15, 1), (4, 10), (5, 0)];
    let text = [(2, 1), (2, 0), (1, 0), (15, 0), (4, 0), (3, 6), (42, 0)];
    let signal = |signal, frequency| {
        let group = [(4, signal), (5, frequency), (15, 0)];
        let rest = [&[(2, 0), (15, 0)], &group[..], &[(5, 0)]].concat();
        ctcs(1, 1, [70, 93], &rest)
    };
    // Each packet begins at bit 74, so that its fields after L_PACKET begin at 97.
    for (packet, place) in [
        (danger(3), 82),
        (etcs(21, 1, 54, &[(2, 3), (29, 0)]), 97),
        (link(3), 130),
        (etcs(68, 1, 65, &condition), 130),
        (level(&[(3, 5)]), 97),
        (level(&[(3, 7)]), 97),
        (level(&[(3, 1), (8, 0)]), 100),
        (level(&[(3, 1), (8, 4)]), 100),
        (etcs(72, 1, 92, &[(2, 1), (2, 2), (60, 0), (5, 0)]), 99),
        (etcs(72, 1, 92, &text), 121),
        (signal(8, 0), 138),
        (signal(7, 13), 142),
        (ctcs(5, 1, [25, 48], &[(1, 1)]), 121),
        (ctcs(3, 1, [56, 79], &[(2, 3), (15, 0), (15, 0)]), 121),
    ] {
        let draft = telegram(&[danger(0), packet]);
        assert_eq!(by_draft(&draft), (7, place));
    }
    both(&telegram(&[danger(0), session(0xa)]), 7, 122);
}

#[test]
fn number_8_is_tested_inside_first_and_after_the_last_field() {
    let stop = |lengths| telegram(&[danger(0), ctcs(5, 1, lengths, &[(1, 0)])]);
    both(&stop([24, 48]), 8, 108);
    both(&stop([25, 47]), 8, 84);
    both(&stop([24, 47]), 8, 108);
    both(&telegram(&[ctcs(5, 1, [24, 0], &[(1, 1)])]), 7, 97);
    both(&telegram(&[etcs(254, 1, 24, &[])]), 8, 60);
}

#[test]
fn number_9() {
    let inner = [(9, 5), (2, 2), (13, 0), (1, 1)];
    both(&telegram(&[danger(0), etcs(44, 1, 0, &inner)]), 9, 106);
    let inner = [(9, 5), (2, 3), (13, 0), (1, 1)];
    both(&telegram(&[etcs(44, 1, 0, &inner)]), 7, 82);
}

#[test]
fn number_10_is_tested_at_the_direction() {
    both(&telegram(&[danger(2), stop_in(1), danger(2)]), 10, 106);
    both(
        &telegram(&[danger(2), stop_in(1), etcs(132, 2, 0, &[(1, 0)])]),
        10,
        106,
    );
}

#[test]
fn number_11() {
    let mut draft = telegram(&[danger(1)]);
    draft.put(plain::corpus::draft::Mark::Plain, 8, 255);
    both(&draft, 11, 82);
    for n in 59..=64 {
        assert_eq!(by_bits(&EMPTY, n), (11, 58));
    }
    assert_eq!(
        by_values(&[&telegram(&[]).values()[..], &[u64::MAX]].concat()),
        (11, 58)
    );
}

#[test]
fn codes() {
    assert_eq!(code(&check(&EMPTY, 58)), 0);
    assert_eq!(code(&check(&EMPTY, 59)), 1024 * 11 + 58);
    assert_eq!(code(&check(&EMPTY, 57)), 2048);
}
