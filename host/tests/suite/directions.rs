//! Which directions packets of one kind may have beside one another: reader, writer and sheets.

use crate::refusals::{both, by_bits, by_draft, by_values};
use crate::sheets::{sheet, HEADER_ROWS};
use plain::corpus::draft::pack;
use plain::sheet::{export, import, Refused};
use plain::worked::*;
use plain::Refusal;

/// Every pair of directions, the earlier one first, and whether the later packet may come.
pub const PAIRS: [(u64, u64, bool); 9] = [
    (0, 0, false),
    (0, 1, true),
    (0, 2, false),
    (1, 0, true),
    (1, 1, false),
    (1, 2, false),
    (2, 0, false),
    (2, 1, false),
    (2, 2, false),
];

/// A packet in another direction.
fn turned(mut packet: Vec<Cell>, direction: u64) -> Vec<Cell> {
    packet[1].1 = direction;
    packet
}

/// A packet of each kind but ETCS-44, with its number of bits.
fn kinds() -> [(Vec<Cell>, u64); 13] {
    let handover = [(2, 1), (15, 9), (10, 9), (14, 77), (64, 0), (1, 0)];
    [
        (linking(118, [true, false]), 118),
        (gradients(1), 54),
        (static_speeds(170), 170),
        (level_order(71, &[(3, 1), (8, 2)]), 71),
        (session(0), 113),
        (etcs(46, 1, 31, &[(3, 0), (5, 0)]), 31),
        (etcs(68, 1, 41, &[(2, 1), (1, 1), (15, 9)]), 41),
        (text(164, 1, [10, 20], 9), 164),
        (position(1, 7), 81),
        (etcs(131, 1, 129, &handover), 129),
        (danger(1), 24),
        (stop_in(1), 24),
        (etcs(254, 1, 23, &[]), 23),
    ]
}

/// The sheet of packets that need not go together, put together from sheets with one of them.
fn sheet_of(packets: &[Vec<Cell>]) -> Vec<u8> {
    let mut rows: Vec<String> = HEADER_ROWS.map(String::from).to_vec();
    for packet in packets {
        let alone = telegram(std::slice::from_ref(packet));
        let text = export(&pack(&alone.bits()), alone.len() as u64).expect("a sound packet");
        let text = String::from_utf8(text).expect("text");
        let lines: Vec<&str> = text.lines().collect();
        rows.extend(lines[11..lines.len() - 1].iter().map(|row| row.to_string()));
    }
    rows.push("END,8,255".to_string());
    sheet(&rows.iter().map(String::as_str).collect::<Vec<_>>())
}

/// Sound packets that go together, by all ways to ask.
fn accepted(packets: &[Vec<Cell>]) {
    let draft = telegram(packets);
    let (bytes, n) = (pack(&draft.bits()), draft.len() as u64);
    both(&draft, 0, 0);
    assert_eq!(export(&bytes, n), Ok(sheet_of(packets)));
    assert_eq!(import(&sheet_of(packets)), Ok((bytes, n)));
}

/// Sound packets of which the one with its Q_DIR at this bit collides, by all ways to ask.
fn refused(packets: &[Vec<Cell>], place: u64) {
    let draft = telegram(packets);
    let refusal = Refusal { number: 10, place };
    both(&draft, 10, place);
    assert_eq!(
        export(&pack(&draft.bits()), draft.len() as u64),
        Err(refusal)
    );
    assert_eq!(import(&sheet_of(packets)), Err(Refused::Telegram(refusal)));
}

#[test]
fn every_pair_of_every_kind() {
    for (packet, length) in kinds() {
        for (earlier, later, may_come) in PAIRS {
            let packets = [
                turned(packet.clone(), earlier),
                turned(packet.clone(), later),
            ];
            match may_come {
                true => accepted(&packets),
                false => refused(&packets, 50 + length + 8),
            }
        }
    }
}

/// CTCS packets, each in an ETCS-44.
fn ctcs_kinds(direction: u64) -> [Vec<Cell>; 5] {
    let group = [(4, 1), (5, 2), (15, 3), (5, 0)];
    let signals = [&[(2, 1), (15, 9)], &group[..]].concat();
    let group = [(15, 1), (15, 2), (1, 0), (7, 9), (5, 0)];
    let restrictions = [&[(2, 1), (15, 9)], &group[..]].concat();
    [
        ctcs(1, direction, [70, 93], &signals),
        ctcs(2, direction, [84, 107], &restrictions),
        ctcs(3, direction, [56, 79], &[(2, 1), (15, 1), (15, 2)]),
        ctcs(4, direction, [48, 71], &[(2, 1), (15, 1), (7, 2)]),
        absolute_stop(direction),
    ]
}

#[test]
fn etcs_44_goes_with_any_other_whatever_is_inside() {
    for (earlier, later, _) in PAIRS {
        for first in ctcs_kinds(earlier) {
            for second in ctcs_kinds(later) {
                accepted(&[first.clone(), second]);
            }
        }
    }
    let often = [2, 0, 2, 1, 1, 2, 0].map(absolute_stop);
    accepted(&often);
}

#[test]
fn a_ctcs_packet_is_no_second_packet_of_its_number() {
    // ETCS-5 and CTCS-5 have the same number.
    for (earlier, later, _) in PAIRS {
        let link = |direction| turned(linking(108, [false, false]), direction);
        accepted(&[link(earlier), absolute_stop(later)]);
        accepted(&[absolute_stop(earlier), link(later)]);
    }
}

#[test]
fn different_kinds_go_together() {
    accepted(&[danger(2), stop_in(0), stop_in(1)]);
    accepted(&[danger(2), stop_in(2), gradients(2), absolute_stop(2)]);
    accepted(&[danger(0), stop_in(2), danger(1)]);
    // Every two kinds, both of them for both ways.
    let kinds = kinds();
    for (index, (first, _)) in kinds.iter().enumerate() {
        for (second, _) in &kinds[index + 1..] {
            accepted(&[turned(first.clone(), 2), turned(second.clone(), 2)]);
        }
    }
}

#[test]
fn a_third_packet_is_held_to_both_others() {
    // ETCS-132 takes 24 bits: the third one is at bit 98, and the fourth at 122.
    for [first, second] in [[0, 1], [1, 0]] {
        for third in 0..3 {
            refused(&[danger(first), danger(second), danger(third)], 106);
        }
    }
    // What collides with none but the first, and what is between.
    refused(&[danger(0), stop_in(2), danger(2)], 106);
    refused(&[danger(2), stop_in(1), danger(0)], 106);
    refused(&[danger(1), stop_in(0), stop_in(1), danger(2)], 130);
    refused(&[danger(2), absolute_stop(2), danger(1)], 130);
    refused(&[absolute_stop(0), danger(2), danger(0)], 130);
}

#[test]
fn the_first_of_several_collisions() {
    // Where the later packet comes counts, not where the earlier one stands.
    refused(&[danger(2), danger(0), stop_in(1), stop_in(2)], 82);
    refused(&[danger(0), stop_in(2), stop_in(1), danger(2)], 106);
    refused(&[danger(2), stop_in(2), danger(0), stop_in(0)], 106);
    refused(&[danger(0), danger(2), danger(1), danger(1)], 82);
}

#[test]
fn direction_3_is_refused_as_a_value() {
    for direction in 0..3 {
        both(&telegram(&[danger(direction), danger(3)]), 7, 82);
    }
    both(&telegram(&[danger(0), danger(1), danger(3)]), 7, 106);
    both(&telegram(&[absolute_stop(2), absolute_stop(3)]), 7, 106);
    // It does not count before it is refused.
    both(&telegram(&[danger(3), danger(2)]), 7, 58);
}

#[test]
fn a_collision_comes_before_what_is_wrong_later() {
    let after = |direction, packet: Vec<Cell>| telegram(&[danger(direction), packet]);
    for (earlier, later) in [(0, 2), (1, 2), (2, 0), (2, 1)] {
        // The length, and a value after it; then another packet, and a further end mark.
        both(&after(earlier, etcs(132, later, 0, &[(1, 0)])), 10, 82);
        let gradients = [gradients(earlier), etcs(21, later, 54, &[(2, 3), (29, 0)])];
        assert_eq!(by_draft(&telegram(&gradients)), (10, 112));
        let packets = [danger(earlier), danger(later), etcs(43, 1, 23, &[])];
        both(&telegram(&packets), 10, 82);
        both(
            &after(earlier, [danger(later), vec![(8, 255)]].concat()),
            10,
            82,
        );
        // Nothing more than the direction, and less.
        let cut = |cells: &[Cell]| draft(&[&HEADER[..], &danger(earlier), cells].concat());
        both(&cut(&[(8, 132), (2, later)]), 10, 82);
        assert_eq!(by_draft(&cut(&[(8, 132), (1, later >> 1)])), (5, 82));
        assert_eq!(by_values(&cut(&[(8, 132)]).values()), (5, 82));
    }
}

#[test]
fn a_collision_comes_after_what_is_wrong_before() {
    let between = |packet: Vec<Cell>| telegram(&[danger(2), packet, danger(0)]);
    both(&between(etcs(43, 1, 23, &[])), 6, 74);
    both(&between(etcs(137, 3, 24, &[(1, 0)])), 7, 82);
    both(&between(etcs(137, 1, 25, &[(1, 0)])), 8, 84);
    both(&between(ctcs(5, 1, [25, 49], &[(1, 0)])), 8, 84);
    let inner = [(9, 5), (2, 1), (13, 25), (1, 0)];
    both(&between(etcs(44, 2, 48, &inner)), 9, 106);
    both(&between(vec![(8, 255)]), 11, 82);
    both(&telegram(&[etcs(132, 2, 23, &[(1, 0)]), danger(0)]), 8, 60);
    let mut header = telegram(&[danger(2), danger(0)]);
    header.entries[5].value = 3;
    both(&header, 4, 15);
    let mut bytes = pack(&telegram(&[danger(2), danger(0)]).bits());
    *bytes.last_mut().expect("a byte") |= 1;
    assert_eq!(by_bits(&bytes, 106), (3, 0));
}

#[test]
fn in_the_writer_a_direction_has_to_fit_first() {
    let mut wide = telegram(&[danger(2), danger(0)]).values();
    wide[15] = 4;
    assert_eq!(by_values(&wide), (12, 82));
    // A text of 85 characters ends at bit 822, so that a Q_DIR has no room behind it.
    let longest = |next: Vec<Cell>| telegram(&[text(772, 1, [0, 0], 85), next]).values();
    assert_eq!(by_values(&longest(etcs(72, 2, 0, &[]))), (13, 830));
    // With 84 there is room for it, but not for the L_PACKET.
    let shorter = |direction| {
        let next = etcs(72, direction, 0, &[]);
        telegram(&[text(764, 1, [0, 0], 84), next]).values()
    };
    assert_eq!(by_values(&shorter(2)), (10, 822));
    assert_eq!(by_values(&shorter(0)), (13, 824));
}

#[test]
fn sheets_with_a_collision_and_something_else() {
    let rows = |packets: &[Vec<Cell>]| String::from_utf8(sheet_of(packets)).expect("text");
    let text = rows(&[danger(2), stop_in(1), danger(0)]);
    let collision = Err(Refused::Telegram(Refusal {
        number: 10,
        place: 106,
    }));
    assert_eq!(import(text.as_bytes()), collision);
    // A wrong name comes after the values, even in an earlier row, and a bad row before them.
    let renamed = text.replacen("Q_SRSTOP", "Q_ASPECT", 1);
    assert_eq!(import(renamed.as_bytes()), collision);
    let misspelt = text.replacen("END,8", "END,9", 1);
    assert_eq!(import(misspelt.as_bytes()), Err(Refused::Row(23)));
    // For the other way it is but a name.
    let other_way = rows(&[danger(1), stop_in(1), danger(0)]);
    let renamed = other_way.replacen("Q_SRSTOP", "Q_ASPECT", 1);
    assert_eq!(import(renamed.as_bytes()), Err(Refused::Name(18)));
}
