//! Ways to break an accepted group whose telegrams stay sound, each by one thing.

use super::header;
use crate::corpus::draft::{Draft, Mark};
use crate::corpus::packets::{packet, IDENTIFIERS};
use crate::corpus::random::Random;

/// Changes the identity, a position or the number of telegrams, for 21.
pub(super) fn identity(random: &mut Random, group: &mut Vec<Draft>) {
    let at = random.index(group.len());
    let total = group[at].entries[header::TOTAL].value;
    let pig = group[at].entries[header::PIG].value;
    match random.below(9) {
        0 => other(random, &mut group[at], header::COUNTRY, 10),
        1 => other(random, &mut group[at], header::NUMBER, 14),
        2 => other(random, &mut group[at], header::LINK, 1),
        3 => group[at].entries[header::TOTAL].value = random.between(pig, 7),
        4 => {
            // As if one or more were missing.
            let more = random.between(total, 7);
            for draft in group.iter_mut() {
                draft.entries[header::TOTAL].value = more;
            }
        }
        5 => group[at].entries[header::PIG].value = random.between(0, total),
        6 => {
            group.remove(at);
        }
        7 => group.push(group[at].clone()),
        _ => {
            // One too many for N_TOTAL.
            let fewer = total.saturating_sub(1);
            for draft in group.iter_mut() {
                draft.entries[header::TOTAL].value = fewer;
                let pig = &mut draft.entries[header::PIG].value;
                *pig = (*pig).min(fewer);
            }
        }
    }
}

/// Gives a field of the header another value, as often as not with one bit changed.
fn other(random: &mut Random, draft: &mut Draft, index: usize, width: u32) {
    let value = &mut draft.entries[index].value;
    *value = match random.percent(50) {
        true => *value ^ 1 << random.below(u64::from(width)),
        false => random.value(width),
    };
}

/// Changes counters, for 22.
pub(super) fn counters(random: &mut Random, group: &mut [Draft]) {
    let at = random.index(group.len());
    let other = random.index(group.len());
    let set = |draft: &mut Draft, value| draft.entries[header::COUNTER].value = value;
    match random.below(5) {
        0 => set(&mut group[at], 254),
        1 => group.iter_mut().for_each(|draft| set(draft, 254)),
        2 => {
            let value = random.below(256);
            set(&mut group[at], value);
        }
        _ => {
            // Two that differ, by one bit or by all that they like.
            let value = random.below(254);
            let bit = 1 << random.below(8);
            let second = random.pick(&[value ^ bit, (value + 1) % 254, 0, 253]);
            set(&mut group[at], value);
            set(&mut group[other], second);
        }
    }
}

/// Lets an M_DUP name no balise or one with other packets, for 23.
pub(super) fn name(random: &mut Random, group: &mut [Draft]) {
    let (at, dup) = match random.below(4) {
        0 => (0, 2),
        1 => (group.len() - 1, 1),
        _ => (random.index(group.len()), random.between(0, 2)),
    };
    group[at].entries[header::DUP].value = dup;
}

/// Changes the packets of one balise, which may be a copy.
pub(super) fn contents(random: &mut Random, group: &mut [Draft]) {
    let at = random.index(group.len());
    let draft = &mut group[at];
    let packets = draft.marked(Mark::Identifier);
    match random.below(5) {
        0 => {
            // One more: up to the end mark the bits of the other are the same.
            let more = made(random, 44, 1, 30);
            draft.insert(draft.entries.len() - 1, &more);
        }
        1 if packets.len() > 1 => {
            let which = random.index(packets.len() - 1);
            draft.remove(packets[which]..packets[which + 1]);
        }
        2 if packets.len() > 2 => {
            // The same packets in another order.
            let second = packets[1];
            draft.entries[header::FIELDS..packets[2]].rotate_left(second - header::FIELDS);
        }
        _ => flip(random, draft),
    }
}

/// Flips a bit of a field behind the header that may hold anything, if there is one.
fn flip(random: &mut Random, draft: &mut Draft) {
    let mut fields = draft.marked(Mark::Plain);
    fields.extend(draft.marked(Mark::Distance));
    fields.retain(|&index| index >= header::FIELDS);
    // Some plain fields say how long the packet is.
    fields.retain(|&index| draft.entries[index].width > 1);
    if fields.is_empty() {
        return;
    }
    let entry = &mut draft.entries[random.pick(&fields)];
    entry.value ^= 1 << random.below(u64::from(entry.width));
}

/// Puts a packet that can be read as an ETCS-27 or an ETCS-79 in front of a run of copies, and lets
/// one of them have the other kind. They differ in six bits, which share a byte with the header.
pub(super) fn disguise(random: &mut Random, group: &mut [Draft]) {
    let mut packet = Draft::default();
    packet.put(Mark::Identifier, 8, 27);
    packet.put(Mark::Direction, 2, random.below(3));
    packet.put(Mark::Length, 13, 91);
    packet.put(Mark::Scale, 2, random.below(3));
    // A speed with three train types; the first bit is the other kind's new country.
    packet.put(Mark::Distance, 15, 1 << 14 | random.value(14));
    packet.put(Mark::Plain, 8, random.value(8));
    packet.put(Mark::Count, 5, 3);
    for _ in 0..3 {
        packet.put(Mark::Ruled, 4, random.below(3));
        packet.put(Mark::Plain, 7, random.value(7));
    }
    packet.put(Mark::Count, 5, 0);
    let (first, last) = random.pick(&runs(group));
    for draft in &mut group[first..=last] {
        draft.insert(header::FIELDS, &packet);
    }
    let disguised = random.between(first as u64, last as u64) as usize;
    group[disguised].entries[header::FIELDS].value = 79;
}

/// Takes away an M_DUP, so that copies are copies no more.
pub(super) fn unname(random: &mut Random, group: &mut [Draft]) {
    let at = random.index(group.len());
    group[at].entries[header::DUP].value = 0;
}

/// Puts packets of a kind that is new to the group into two balises and all their copies, with
/// any directions, for 10.
pub(super) fn collide(random: &mut Random, group: &mut [Draft]) {
    let is_new = |id: &u64| {
        let mut entries = group.iter().flat_map(|draft| &draft.entries);
        !entries.any(|entry| entry.mark == Mark::Identifier && entry.value == *id)
    };
    let mut ids: Vec<u64> = IDENTIFIERS.into_iter().filter(is_new).collect();
    if ids.is_empty() || random.percent(5) {
        ids = vec![44];
    }
    let id = random.pick(&ids);
    let mut runs = runs(group);
    random.shuffle(&mut runs);
    let times = random.pick(&[2, 2, 2, 3]);
    for &(first, last) in runs.iter().cycle().take(times) {
        let direction = random.below(3);
        let packet = made(random, id, direction, 30);
        let which = random.index(group[first].marked(Mark::Identifier).len());
        for draft in &mut group[first..=last] {
            // Another fault may have left one of them with fewer packets.
            let heads = draft.marked(Mark::Identifier);
            draft.insert(heads[which.min(heads.len() - 1)], &packet);
        }
    }
}

/// The first and the last balise of each run of copies; one without copies is a run, too.
fn runs(group: &[Draft]) -> Vec<(usize, usize)> {
    let dup = |pig: usize| group[pig].entries[header::DUP].value;
    let mut runs: Vec<(usize, usize)> = Vec::new();
    for pig in 0..group.len() {
        match runs.last_mut() {
            Some((_, last)) if dup(pig) == 2 || dup(pig - 1) == 1 => *last = pig,
            _ => runs.push((pig, pig)),
        }
    }
    runs
}

/// One packet as a draft of its own.
pub(super) fn made(random: &mut Random, id: u64, direction: u64, limit: usize) -> Draft {
    let mut draft = Draft::default();
    packet(random, &mut draft, id, direction, limit);
    draft
}
