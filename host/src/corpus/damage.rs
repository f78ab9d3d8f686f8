//! Ways to break a sound telegram.

use super::draft::{Draft, Mark};
use super::packets::{packet, IDENTIFIERS};
use super::random::Random;
use super::sound::{end, header, sound, sound_with};

/// A telegram that is sound but for a field with the mark, which has another value of its width.
pub fn upset_one(random: &mut Random, mark: Mark) -> Draft {
    let mut draft = sound_with(random, mark);
    upset(random, &mut draft, mark);
    draft
}

/// Gives a field with the mark, of which there is one, another value of its width.
pub(super) fn upset(random: &mut Random, draft: &mut Draft, mark: Mark) {
    let marked = draft.marked(mark);
    let entry = &mut draft.entries[random.pick(&marked)];
    let most = u64::MAX >> (64 - entry.width);
    entry.value = match (mark, random.below(4)) {
        // Lengths that are off by little are the ones a careless reader lets through.
        (Mark::Length | Mark::InnerLength, 0 | 1) => {
            let by = random.between(1, 9);
            random.pick(&[entry.value.wrapping_add(by), entry.value.wrapping_sub(by)]) & most
        }
        (Mark::Identifier, 0) => random.pick(&IDENTIFIERS),
        (Mark::InnerDirection, 0 | 2) => (entry.value + random.between(1, 2)) % 3,
        (Mark::InnerIdentifier, 0) => random.between(0, 6),
        (Mark::Ruled | Mark::Scale | Mark::Header, 0) => most,
        (_, 1) => entry.value ^ 1 << random.below(u64::from(entry.width)),
        _ => random.word() & most,
    };
}

/// Gives any field another value of its width.
pub fn upset_any(random: &mut Random, draft: &mut Draft) {
    let entry = draft.entries[random.index(draft.entries.len())];
    upset(random, draft, entry.mark);
}

/// A telegram with a packet that comes twice, or another with its identifier in any direction,
/// which may be the one that is still free.
pub fn repeated(random: &mut Random) -> Draft {
    let draft = sound_with(random, Mark::Length);
    let packets = draft.marked(Mark::Identifier);
    let (last, others) = packets.split_last().expect("an end mark");
    let mut repeated = draft.clone();
    repeated.truncate(*last);
    let chosen = random.index(others.len());
    let from = others[chosen];
    if random.percent(20) {
        for entry in &draft.entries[from..packets[chosen + 1]] {
            repeated.put(entry.mark, entry.width, entry.value);
        }
    } else {
        let (id, direction) = (draft.entries[from].value, random.below(3));
        packet(random, &mut repeated, id, direction, 100);
    }
    end(repeated)
}

/// A telegram with something after its end mark: another one, a few bits, a packet, or a whole
/// further telegram.
pub fn trailed(random: &mut Random) -> Draft {
    let mut draft = sound(random);
    match random.below(4) {
        0 => draft.put(Mark::Identifier, 8, 255),
        1 => {
            let width = random.between(1, 40) as u32;
            draft.put(Mark::Plain, width, random.value(width));
        }
        2 => {
            let (id, direction) = (random.pick(&IDENTIFIERS), random.below(3));
            packet(random, &mut draft, id, direction, 60);
            draft.put(Mark::Identifier, 8, 255);
        }
        _ => {
            let second = end(header(random));
            for entry in second.entries {
                draft.put(entry.mark, entry.width, entry.value);
            }
        }
    }
    draft
}

/// Flips bits anywhere.
pub fn flip(random: &mut Random, bits: &mut [bool], times: u64) {
    for _ in 0..times {
        let at = random.index(bits.len());
        bits[at] = !bits[at];
    }
}

/// Flips one bit of a field; every field is as likely, so that short ones get their share.
pub fn flip_in_field(random: &mut Random, draft: &Draft, bits: &mut [bool]) {
    let index = random.index(draft.entries.len());
    let width = u64::from(draft.entries[index].width);
    let at = draft.start(index) + random.below(width) as usize;
    bits[at] = !bits[at];
}
