//! Test telegrams from a seed: sound ones, damaged ones and noise.

pub mod damage;
pub mod draft;
pub mod groups;
mod maker;
pub mod packets;
pub mod random;
pub mod sheets;
pub mod sound;
pub mod values;

use crate::{MAX_BITS, MIN_BITS};
use damage::{flip, flip_in_field, repeated, trailed, upset_any, upset_one};
use draft::{pack, Mark};
use random::Random;

/// Bytes and a number of bits, which need not agree.
#[derive(Clone, Debug, PartialEq, Eq)]
pub struct Telegram {
    /// The number of bits.
    pub n: u64,
    /// The bytes.
    pub bytes: Vec<u8>,
}

impl Telegram {
    /// The telegram that these bits are.
    pub fn of(bits: &[bool]) -> Self {
        Telegram {
            n: bits.len() as u64,
            bytes: pack(bits),
        }
    }
}

/// An endless row of telegrams.
pub struct Corpus {
    random: Random,
}

impl Corpus {
    /// The row that a seed decides.
    pub fn new(seed: u64) -> Self {
        Corpus {
            random: Random::new(seed),
        }
    }

    /// The source of further random choices about these telegrams.
    pub fn random(&mut self) -> &mut Random {
        &mut self.random
    }

    /// The next telegram.
    pub fn telegram(&mut self) -> Telegram {
        let random = &mut self.random;
        match random.below(100) {
            0..=44 => Telegram::of(&sound::sound(random).bits()),
            45..=69 => by_field(random),
            70..=82 => by_bit(random),
            83..=90 => by_length(random),
            91..=95 => noise(random),
            _ => sweep(random),
        }
    }
}

/// A sound telegram with one thing changed in its fields, which is mostly wrong then.
fn by_field(random: &mut Random) -> Telegram {
    let mut draft = match random.below(13) {
        0 => upset_one(random, Mark::Header),
        1 => upset_one(random, Mark::Identifier),
        2 => upset_one(random, Mark::InnerIdentifier),
        3 => upset_one(random, Mark::Direction),
        4 => upset_one(random, Mark::InnerDirection),
        5 => upset_one(random, Mark::Length),
        6 => upset_one(random, Mark::InnerLength),
        7 => upset_one(random, Mark::Count),
        8 => {
            let mark = random.pick(&[Mark::Ruled, Mark::Ruled, Mark::Scale]);
            upset_one(random, mark)
        }
        9..=11 => repeated(random),
        _ => trailed(random),
    };
    if random.percent(15) {
        upset_any(random, &mut draft);
    }
    Telegram::of(&draft.bits())
}

/// A sound telegram with bits flipped, set past its end, or cut off.
fn by_bit(random: &mut Random) -> Telegram {
    let draft = sound::sound(random);
    let mut bits = draft.bits();
    match random.below(6) {
        0 => flip(random, &mut bits, 1),
        1 => {
            let times = random.between(2, 6);
            flip(random, &mut bits, times);
        }
        2 | 3 => {
            for _ in 0..random.pick(&[1, 1, 1, 2, 3]) {
                flip_in_field(random, &draft, &mut bits);
            }
        }
        4 => {
            // Cut within the telegram, and now and then below the shortest length.
            let least = random.pick(&[0, MIN_BITS, MIN_BITS, MIN_BITS, bits.len() - 8]);
            bits.truncate(random.between(least as u64, bits.len() as u64) as usize);
        }
        _ => {
            let mut telegram = Telegram::of(&bits);
            let unused = 8 * telegram.bytes.len() as u64 - telegram.n;
            if let Some(last) = telegram.bytes.last_mut() {
                *last |= (random.word() & ((1 << unused) - 1)) as u8;
            }
            return telegram;
        }
    }
    Telegram::of(&bits)
}

/// A sound telegram whose bytes and number of bits have moved apart, or grown together.
fn by_length(random: &mut Random) -> Telegram {
    let mut bits = sound::sound(random).bits();
    let mut telegram = Telegram::of(&bits);
    let by = random.between(1, 10);
    match random.below(6) {
        0 => telegram.n += by,
        1 => telegram.n -= by,
        2 => {
            let bytes = [0, 255, random.byte()];
            telegram.bytes.push(random.pick(&bytes));
        }
        3 => {
            telegram.bytes.pop();
        }
        4 => {
            // Within the last byte, where the bytes still go with n.
            let bytes = telegram.bytes.len() as u64;
            telegram.n = random.between(8 * bytes - 7, 8 * bytes);
        }
        _ => {
            bits.extend((0..by).map(|_| random.percent(30)));
            telegram = Telegram::of(&bits);
        }
    }
    telegram
}

/// Random bits, with nothing right, a right header, or a right packet head too.
fn noise(random: &mut Random) -> Telegram {
    let length = random.between(MIN_BITS as u64, MAX_BITS as u64) as usize;
    let mut bits = match random.below(3) {
        0 => Vec::new(),
        1 => sound::header(random).bits(),
        _ => {
            let mut draft = sound::header(random);
            draft.put(Mark::Identifier, 8, random.pick(&packets::IDENTIFIERS));
            draft.put(Mark::Direction, 2, random.below(3));
            draft.put(Mark::Length, 13, random.below(800));
            draft.bits()
        }
    };
    let missing = length.saturating_sub(bits.len());
    bits.extend((0..missing).map(|_| random.percent(50)));
    let mut telegram = Telegram::of(&bits);
    if random.percent(10) {
        let bytes = random.between(0, 120);
        telegram.bytes = (0..bytes).map(|_| random.byte()).collect();
    }
    telegram
}

/// Every number of bits, and some absurd ones, on buffers that go with it or do not.
fn sweep(random: &mut Random) -> Telegram {
    let n = random.between(0, 840);
    let bytes = match random.below(4) {
        0 | 1 => n.div_ceil(8),
        2 => random.between(0, 12),
        _ => random.between(100, 120),
    } as usize;
    let mut telegram = Telegram::of(&sound::sound(random).bits());
    if random.percent(20) {
        telegram.bytes = (0..bytes).map(|_| random.byte()).collect();
    }
    telegram.bytes.resize(bytes, 0);
    let absurd = [
        u64::MAX,
        u64::MAX - 7,
        1 << 63,
        (1 << 32) + n,
        (1 << 61) + n,
        n << 32,
        random.word(),
    ];
    telegram.n = match random.percent(10) {
        true => random.pick(&absurd),
        false => n,
    };
    telegram
}
