//! Telegrams that keep every rule.

use super::draft::{Draft, Entry, Mark};
use super::packets::{packet, IDENTIFIERS};
use super::random::Random;
use crate::MAX_BITS;

const END_MARK: u64 = 255;
const END_BITS: usize = 8;

/// A header that keeps the rules.
pub fn header(random: &mut Random) -> Draft {
    let mut draft = Draft::default();
    let total = random.below(8);
    draft.put(Mark::Header, 1, 1);
    draft.put(Mark::Header, 7, 16);
    draft.put(Mark::Header, 1, 0);
    draft.put(Mark::Header, 3, random.between(0, total));
    draft.put(Mark::Header, 3, total);
    draft.put(Mark::Header, 2, random.below(3));
    for width in [8, 10, 14, 1] {
        draft.put(Mark::Plain, width, random.value(width));
    }
    draft
}

/// A telegram of any size.
pub fn sound(random: &mut Random) -> Draft {
    match random.below(10) {
        0 => full(random),
        1 => alone(random),
        _ => {
            let most = random.between(58, MAX_BITS as u64) as usize;
            let packets = random.between(0, 9) as usize;
            several(random, packets, most)
        }
    }
}

/// A telegram that has a field with the mark.
pub fn sound_with(random: &mut Random, mark: Mark) -> Draft {
    loop {
        let draft = sound(random);
        if draft.entries.iter().any(|entry| entry.mark == mark) {
            return draft;
        }
    }
}

/// A telegram of up to so many packets and bits.
pub fn several(random: &mut Random, packets: usize, most: usize) -> Draft {
    let mut draft = header(random);
    for _ in 0..packets {
        let room = most.saturating_sub(draft.len() + END_BITS);
        // The limit makes lists stop; half the room now and then leaves some for more packets.
        let limit = if random.percent(60) { room / 2 } else { room };
        add(random, &mut draft, room, limit);
    }
    end(draft)
}

/// A telegram with a single packet, which has all the room to itself.
fn alone(random: &mut Random) -> Draft {
    let mut draft = header(random);
    let room = MAX_BITS - END_BITS - draft.len();
    add(random, &mut draft, room, room);
    end(draft)
}

/// A telegram of 830 bits: the last packets are made to measure.
pub fn full(random: &mut Random) -> Draft {
    loop {
        let mut draft = header(random);
        let packets = random.between(0, 6);
        for _ in 0..packets {
            let room = MAX_BITS - END_BITS - draft.len();
            add(random, &mut draft, room, room / 2);
        }
        fill(random, &mut draft);
        let draft = end(draft);
        if draft.len() == MAX_BITS {
            return draft;
        }
    }
}

/// Fills what is left with one ETCS-46 (31 bits and 3 a level) and one ETCS-72 (92 and 8 a
/// character), if they are free and a fitting pair of lengths exists.
fn fill(random: &mut Random, draft: &mut Draft) {
    let room = MAX_BITS - END_BITS - draft.len();
    let direction = random.below(3);
    let levels = random.below(32) as usize;
    let taken = (0..32)
        .map(|more| 31 + 3 * ((levels + more) % 32))
        .find(|taken| room >= taken + 92 && (room - taken - 92).is_multiple_of(8));
    let Some(taken) = taken else { return };
    if !is_free(draft, 46, direction) || !is_free(draft, 72, direction) {
        return;
    }
    head(draft, 46, direction, taken);
    let levels = (taken - 31) / 3;
    draft.put(Mark::Ruled, 3, 0);
    draft.put(Mark::Count, 5, levels as u64);
    for _ in 0..levels {
        draft.put(Mark::Ruled, 3, random.pick(&[0, 2, 3, 4]));
    }
    let characters = (room - taken - 92) / 8;
    head(draft, 72, direction, room - taken);
    draft.put(Mark::Scale, 2, random.below(3));
    draft.put(Mark::Ruled, 2, random.below(2));
    draft.put(Mark::Plain, 1, random.below(2));
    draft.put(Mark::Distance, 15, 10 * random.below(400));
    draft.put(Mark::Plain, 4, random.value(4));
    draft.put(Mark::Ruled, 3, 5);
    draft.put(
        Mark::TextLength,
        15,
        random.pick(&[0, 10, 3276, 3277, 32760, 32767]),
    );
    draft.put(Mark::Plain, 10, random.value(10));
    draft.put(Mark::Plain, 4, random.value(4));
    draft.put(Mark::Ruled, 3, 5);
    draft.put(Mark::Ruled, 2, random.below(3));
    draft.put(Mark::Count, 8, characters as u64);
    for _ in 0..characters {
        draft.put(Mark::Plain, 8, random.value(8));
    }
}

fn head(draft: &mut Draft, id: u64, direction: u64, length: usize) {
    draft.put(Mark::Identifier, 8, id);
    draft.put(Mark::Direction, 2, direction);
    draft.put(Mark::Length, 13, length as u64);
}

/// Adds one packet that may come here, unless it turns out too long.
fn add(random: &mut Random, draft: &mut Draft, room: usize, limit: usize) {
    let (id, direction) = free(random, draft);
    let (before, bits) = (draft.entries.len(), draft.len());
    packet(random, draft, id, direction, limit);
    if draft.len() - bits > room {
        draft.truncate(before);
    }
}

/// The identifier and direction of a packet that may come here. Others are drawn again, as they
/// would make telegrams of many packets rare.
pub(super) fn free(random: &mut Random, draft: &Draft) -> (u64, u64) {
    loop {
        let id = match random.percent(25) {
            true => 44,
            false => random.pick(&IDENTIFIERS),
        };
        let direction = random.below(3);
        if is_free(draft, id, direction) {
            return (id, direction);
        }
    }
}

/// Whether a packet with this identifier and direction may still come: ETCS-44 always may.
pub fn is_free(draft: &Draft, id: u64, direction: u64) -> bool {
    let mut pairs = draft.entries.windows(2);
    let collides = |pair: &[Entry]| {
        pair[0].mark == Mark::Identifier && pair[0].value == id && collide(pair[1].value, direction)
    };
    id == 44 || !pairs.any(collides)
}

/// Whether two packets of one kind with these directions are one too many.
fn collide(one: u64, other: u64) -> bool {
    one == other || one == 2 || other == 2
}

/// Adds the end mark.
pub fn end(mut draft: Draft) -> Draft {
    draft.put(Mark::Identifier, 8, END_MARK);
    draft
}
