//! Lists of values for the writer, sound and damaged.

use super::damage::{repeated, trailed, upset_one};
use super::draft::{Draft, Mark};
use super::random::Random;
use super::sound::{end, header, is_free, sound};
use crate::corpus::packets::{packet, IDENTIFIERS};

/// The next list of values.
pub fn values(random: &mut Random) -> Vec<u64> {
    let draft = match random.below(21) {
        0..=4 => sound(random),
        5 => upset_one(random, Mark::Header),
        6 => upset_one(random, Mark::Identifier),
        7 => upset_one(random, Mark::InnerIdentifier),
        8 => upset_one(random, Mark::Direction),
        9 => upset_one(random, Mark::InnerDirection),
        10 => upset_one(random, Mark::Length),
        11 => upset_one(random, Mark::InnerLength),
        12 => upset_one(random, Mark::Count),
        13 => {
            let mark = random.pick(&[Mark::Ruled, Mark::Ruled, Mark::Scale]);
            upset_one(random, mark)
        }
        14 | 15 => repeated(random),
        16 => trailed(random),
        17 => too_long(random),
        _ => return reshaped(random),
    };
    draft.values()
}

/// Makes a value too big, removes or adds one, or cuts the list.
fn reshaped(random: &mut Random) -> Vec<u64> {
    let draft = sound(random);
    let mut values = draft.values();
    let at = random.index(values.len());
    match random.below(8) {
        0 | 1 => values[at] = oversize(random, draft.entries[at].width, values[at]),
        2 | 3 => values.truncate(at),
        4 => {
            values.remove(at);
        }
        5 => {
            let value = random.value(8);
            values.insert(at, value);
        }
        6 => {
            let value = random.pick(&[0, 255, u64::MAX]);
            values.push(value);
        }
        _ => {
            // Two faults at once show which one is seen first.
            values[at] = oversize(random, draft.entries[at].width, values[at]);
            let length = random.between(at as u64, values.len() as u64);
            values.truncate(length as usize);
        }
    }
    values
}

/// A value too big for the width, unless nothing is.
fn oversize(random: &mut Random, width: u32, value: u64) -> u64 {
    let over = 1u64.checked_shl(width).unwrap_or(0);
    random.pick(&[
        over,
        over | value,
        value | 1 << 63,
        value | 1 << 32,
        u64::MAX,
        over.wrapping_mul(3) | value,
    ])
}

/// A list that comes to more bits than a telegram holds.
pub fn too_long(random: &mut Random) -> Draft {
    let mut draft = header(random);
    if random.percent(40) {
        // Texts around the longest that fits, 85 characters.
        let direction = random.below(3);
        let characters = random.between(84, 90) as usize;
        packet(random, &mut draft, 72, direction, 92 + 8 * characters);
        return end(draft);
    }
    while draft.len() <= 830 {
        let (id, direction) = (random.pick(&IDENTIFIERS), random.below(3));
        if is_free(&draft, id, direction) {
            packet(random, &mut draft, id, direction, 400);
        }
    }
    end(draft)
}
