//! Ways to break one telegram of a group, so that it is refused by itself.

use super::faults::made;
use crate::corpus::damage::upset;
use crate::corpus::draft::{Draft, Mark};
use crate::corpus::random::Random;
use crate::corpus::Telegram;
use crate::MIN_BITS;

/// The refusals that one telegram can get.
pub(super) const RULES: [u64; 10] = [2, 3, 4, 5, 6, 7, 8, 9, 10, 11];

/// A telegram that is to be refused by a rule, and mostly is.
pub(super) fn broken(random: &mut Random, draft: &Draft, rule: u64) -> Telegram {
    let mut draft = draft.clone();
    if (5..=10).contains(&rule) && draft.marked(Mark::InnerLength).is_empty() {
        let direction = random.below(3);
        let stop = made(random, 44, direction, 30);
        draft.insert(draft.entries.len() - 1, &stop);
    }
    match rule {
        2 => return of_other_length(random, &draft),
        3 => return with_unused_bit(random, &draft),
        5 => {
            let bits = draft.bits();
            let n = random.between(MIN_BITS as u64, bits.len() as u64 - 1) as usize;
            return Telegram::of(&bits[..n]);
        }
        7 => forbid(random, &mut draft),
        10 => repeat(random, &mut draft),
        11 => {
            let width = random.between(1, 16) as u32;
            draft.put(Mark::Plain, width, random.value(width));
        }
        _ => {
            let mark = random.pick(match rule {
                4 => &[Mark::Header][..],
                6 => &[Mark::Identifier, Mark::InnerIdentifier],
                8 => &[Mark::Length, Mark::InnerLength],
                _ => &[Mark::InnerDirection],
            });
            upset(random, &mut draft, mark);
        }
    }
    Telegram::of(&draft.bits())
}

/// An n out of range, or one that the bytes do not go with.
fn of_other_length(random: &mut Random, draft: &Draft) -> Telegram {
    let mut telegram = Telegram::of(&draft.bits());
    let n = telegram.n;
    let others = [
        0,
        1,
        57,
        831,
        n + 8,
        n - 8,
        n + 1000,
        u64::MAX,
        u64::MAX - 6,
        1 << 63 | n,
        1 << 61 | n,
        1 << 32 | n,
        n << 32,
        n.wrapping_neg(),
        random.word(),
    ];
    telegram.n = random.pick(&others);
    telegram
}

/// One with a bit past its end, if its last byte has any.
fn with_unused_bit(random: &mut Random, draft: &Draft) -> Telegram {
    let mut telegram = Telegram::of(&draft.bits());
    let unused = 8 * telegram.bytes.len() as u64 - telegram.n;
    if let Some(last) = telegram.bytes.last_mut().filter(|_| unused > 0) {
        *last |= 1 << random.below(unused);
    }
    telegram
}

/// Sets a field that may not hold everything to the most its width holds.
fn forbid(random: &mut Random, draft: &mut Draft) {
    let marks = [
        Mark::Direction,
        Mark::InnerDirection,
        Mark::Scale,
        Mark::Ruled,
    ];
    let fields: Vec<usize> = marks.iter().flat_map(|&mark| draft.marked(mark)).collect();
    let entry = &mut draft.entries[random.pick(&fields)];
    entry.value = u64::MAX >> (64 - entry.width);
}

/// Puts a packet of a kind that is there once more behind it; two are put in if there is none.
fn repeat(random: &mut Random, draft: &mut Draft) {
    let mut kinds: Vec<u64> = draft
        .marked(Mark::Identifier)
        .into_iter()
        .map(|index| draft.entries[index].value)
        .filter(|id| ![44, 255].contains(id))
        .collect();
    if kinds.is_empty() {
        let danger = made(random, 132, 2, 0);
        draft.insert(draft.entries.len() - 1, &danger);
        kinds.push(132);
    }
    let id = random.pick(&kinds);
    let direction = random.pick(&[2, 2, 0, 1]);
    let again = made(random, id, direction, 0);
    draft.insert(draft.entries.len() - 1, &again);
}
