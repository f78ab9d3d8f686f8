//! Where a refusal points: at bits counted by hand first, then at every field of a corpus.

use crate::refusals::{both, by_bits, by_draft, by_values};
use plain::corpus::draft::{pack, Draft, Entry, Mark};
use plain::corpus::random::Random;
use plain::corpus::sound::{sound, sound_with};
use plain::worked::*;
use plain::{check, code, MAX_BITS};
use std::collections::BTreeMap;

#[test]
fn an_inner_length_is_another_field_than_the_outer_one() {
    // ETCS-44 at bit 50: L_PACKET at 60, NID_XUSER at 73, its Q_DIR at 82, its L_PACKET at 84.
    let alone = |lengths| telegram(&[ctcs(5, 1, lengths, &[(1, 0)])]);
    both(&alone([26, 48]), 8, 84);
    both(&alone([25, 49]), 8, 60);
    both(&alone([26, 49]), 8, 84);
    // Each holds the length of the other.
    both(&alone([48, 25]), 8, 84);
    // The second of two, at bit 98; the first is in order.
    let second = |lengths| {
        let first = ctcs(5, 1, [25, 48], &[(1, 0)]);
        telegram(&[first, ctcs(5, 1, lengths, &[(1, 0)])])
    };
    both(&second([24, 48]), 8, 132);
    both(&second([25, 47]), 8, 108);
    both(&second([24, 47]), 8, 132);
}

#[test]
fn a_length_is_pointed_at_when_later_fields_have_gone_by() {
    // ETCS-254 has its L_PACKET last.
    both(&telegram(&[etcs(254, 1, 22, &[])]), 8, 60);
    both(&telegram(&[danger(1), etcs(254, 1, 24, &[])]), 8, 84);
    // The longest text: 772 bits, and the length at bit 60 of 830.
    both(&telegram(&[text(771, 1, [0, 0], 85)]), 8, 60);
    // The first wrong length of two.
    let packets = [danger(1), etcs(137, 1, 25, &[(1, 0)]), static_speeds(1)];
    both(&telegram(&packets), 8, 84);
}

#[test]
fn directions_and_identifiers() {
    // ETCS-44 at bit 98: NID_XUSER at 121, its Q_DIR at 130.
    let inner = |id, direction, inner: u64| {
        let cells = [(9, id), (2, inner), (13, 25), (1, 0)];
        telegram(&[danger(0), danger(1), etcs(44, direction, 48, &cells)])
    };
    both(&inner(5, 1, 2), 9, 130);
    both(&inner(5, 2, 0), 9, 130);
    both(&inner(5, 1, 3), 7, 130);
    both(&inner(5, 3, 1), 7, 106);
    both(&inner(7, 1, 2), 6, 121);
    // The identifier itself, and nothing after it.
    both(&draft(&[&HEADER[..], &[(8, 43)]].concat()), 6, 50);
    // The later of two packets, at bit 163, whatever was between.
    let twice = [session(0), etcs(42, 1, 0, &[(90, 0)])];
    assert_eq!(by_draft(&telegram(&twice)), (10, 171));
}

#[test]
fn the_first_bit_past_the_end_mark() {
    let trailed = |packets: &[Vec<Cell>], cells: &[Cell]| {
        let mut draft = telegram(packets);
        for &(width, value) in cells {
            draft.put(Mark::Plain, width, value);
        }
        draft
    };
    both(&trailed(&[], &[(1, 0)]), 11, 58);
    both(&trailed(&[], &[(1, 1), (8, 255)]), 11, 58);
    both(&trailed(&[danger(0)], &[(8, 132)]), 11, 82);
    // The end mark ends with bit 830: bits cannot follow, values can.
    let longest = trailed(&[text(772, 1, [0, 0], 85)], &[(1, 0)]);
    assert_eq!(by_draft(&longest), (2, 0));
    assert_eq!(by_values(&longest.values()), (11, 830));
}

#[test]
fn bits_that_end_in_a_list() {
    // ETCS-21 at bit 50, D_GRADIENT, Q_GDIR and G_A from 75, N_ITER at 99, the next groups from
    // 104 and 128; at the metre a list goes by at once, at another scale field by field.
    for scale in 0..3 {
        let group = [(15, 10), (1, 0), (8, 3)];
        let front = [&[(2, scale)], &group[..], &[(5, 31)]].concat();
        let packet = etcs(21, 1, 798, &[&front[..], &group.repeat(31)].concat());
        let bits = telegram(&[packet]).bits();
        for (n, place) in [
            (103, 99),
            (104, 104),
            (118, 104),
            (119, 119),
            (120, 120),
            (127, 120),
            (128, 128),
            (143, 143),
            (146, 144),
            (823, 816),
            // All of it fits but the last group, which begins at bit 824.
            (830, 824),
        ] {
            let answer = by_bits(&pack(&bits[..n]), n as u64);
            assert_eq!(answer, (5, place), "{scale} {n}");
        }
    }
}

#[test]
fn the_last_place_of_all() {
    // A text of 86 characters ends with bit 830, where the end mark would begin.
    let draft = telegram(&[text(780, 1, [0, 0], 86)]);
    let bytes = pack(&draft.bits()[..MAX_BITS]);
    assert_eq!(by_bits(&bytes, 830), (5, 830));
    assert_eq!(code(&check(&bytes, 830)), 5950);
    let draft = telegram(&[text(772, 1, [0, 0], 85)]);
    assert_eq!(by_bits(&pack(&draft.bits()[..829]), 829), (5, 822));
}

#[test]
fn values_that_end_in_a_ctcs_packet() {
    // CTCS-3 at bit 50: its fields begin at these bits.
    let starts = [50, 58, 60, 73, 82, 84, 97, 99, 114, 129];
    let values = telegram(&[reverse_area(1, 7, 9)]).values();
    for (more, place) in starts.into_iter().enumerate() {
        assert_eq!(by_values(&values[..10 + more]), (5, place));
        let mut wide = values.clone();
        wide[10 + more] = u64::MAX;
        assert_eq!(by_values(&wide), (12, place));
    }
}

/// A wrong value for a field of a sound telegram, and the number that it is refused by.
fn fault(random: &mut Random, entry: &Entry) -> Option<(u64, u32)> {
    let most = u64::MAX >> (64 - entry.width);
    let another = (entry.value + random.between(1, most)) & most;
    match entry.mark {
        Mark::Identifier => Some((random.pick(&[0, 43, 133, 253]), 6)),
        Mark::InnerIdentifier => Some((random.pick(&[0, 6, 261, 511]), 6)),
        Mark::Length | Mark::InnerLength => Some((another, 8)),
        Mark::InnerDirection if another < 3 => Some((another, 9)),
        Mark::Direction | Mark::InnerDirection | Mark::Scale => Some((3, 7)),
        // All ones would be a radio number: sixteen F.
        Mark::Ruled if entry.width == 64 => Some((0xf0, 7)),
        Mark::Ruled => Some((most, 7)),
        _ => None,
    }
}

#[test]
fn one_wrong_field_is_the_one_pointed_at() {
    let mut random = Random::new(31);
    let mut counts = BTreeMap::new();
    for _ in 0..5_000 {
        let draft = sound(&mut random);
        for (index, entry) in draft.entries.iter().enumerate() {
            let Some((value, number)) = fault(&mut random, entry) else {
                continue;
            };
            let mut wrong = draft.clone();
            wrong.entries[index].value = value;
            both(&wrong, number, draft.start(index) as u64);
            *counts.entry(number).or_insert(0) += 1;
        }
    }
    assert!(counts.keys().eq(&[6, 7, 8, 9]) && counts.values().all(|&count| count > 1000));
}

#[test]
fn whatever_is_missing_or_too_wide_is_pointed_at() {
    let mut random = Random::new(32);
    for _ in 0..5_000 {
        let draft = sound(&mut random);
        let (bits, values) = (draft.bits(), draft.values());
        let n = random.between(58, bits.len() as u64);
        if n < bits.len() as u64 {
            let begun = |index: &usize| draft.start(*index) as u64 <= n;
            let field = (0..values.len()).rfind(begun).expect("a field");
            let place = draft.start(field) as u64;
            assert_eq!(by_bits(&pack(&bits[..n as usize]), n), (5, place));
        }
        let index = random.index(values.len());
        let place = draft.start(index) as u64;
        assert_eq!(by_values(&values[..index]), (5, place));
        let mut wide = values.clone();
        wide[index] = u64::MAX;
        if draft.entries[index].width < 64 {
            assert_eq!(by_values(&wide), (12, place));
        }
    }
}

#[test]
fn repeats_and_ends_are_pointed_at() {
    let mut random = Random::new(33);
    for _ in 0..5_000 {
        let draft = sound_with(&mut random, Mark::Length);
        let packets = draft.marked(Mark::Identifier);
        let (&end, heads) = packets.split_last().expect("an end mark");
        let head = random.pick(heads);
        let mut longer = draft.clone();
        longer.truncate(end);
        put(&mut longer, &draft.entries[head..head + 2]);
        let begun = draft.start(end) as u64;
        // What follows a repeat is not looked at; an ETCS-44 is none, and lacks its L_PACKET.
        let (number, place) = match draft.entries[head].value {
            44 => (5, begun + 10),
            _ => (10, begun + 8),
        };
        // A Q_DIR that has no room is another matter.
        if longer.len() <= MAX_BITS {
            both(&longer, number, place);
        }
        let mut trailed = draft.clone();
        put(&mut trailed, &draft.entries[..1]);
        assert_eq!(by_values(&trailed.values()), (11, draft.len() as u64));
        if trailed.len() <= MAX_BITS {
            assert_eq!(by_draft(&trailed), (11, draft.len() as u64));
        }
    }
}

fn put(draft: &mut Draft, entries: &[Entry]) {
    for entry in entries {
        draft.put(entry.mark, entry.width, entry.value);
    }
}
