//! Questions for the program `groups`: groups that are accepted, groups with faults, and lines
//! that are no question.

mod balises;
mod faults;
mod fill;
mod fixed;
pub mod kinds;
mod single;
mod timed;
mod words;

pub use fixed::fixed_lines;
pub use timed::{largest, typical};

use super::draft::Draft;
use super::random::Random;
use super::{Corpus, Telegram};
use crate::group::MAX_BALISES;

/// Where the fields of the header stand in a draft.
mod header {
    pub const PIG: usize = 3;
    pub const TOTAL: usize = 4;
    pub const DUP: usize = 5;
    pub const COUNTER: usize = 6;
    pub const COUNTRY: usize = 7;
    pub const NUMBER: usize = 8;
    pub const LINK: usize = 9;
    /// The number of them.
    pub const FIELDS: usize = 10;
}

/// An endless row of questions.
pub struct Groups {
    corpus: Corpus,
}

impl Groups {
    /// The row that a seed decides.
    pub fn new(seed: u64) -> Self {
        Groups {
            corpus: Corpus::new(seed),
        }
    }

    /// The source of further random choices about these questions.
    pub fn random(&mut self) -> &mut Random {
        self.corpus.random()
    }

    /// The next question, without a newline.
    pub fn line(&mut self) -> Vec<u8> {
        let telegrams = self.telegrams();
        let random = self.random();
        let line = words::line(random, &telegrams);
        match random.below(100) {
            0 => words::spoil(random, line),
            _ => line,
        }
    }

    /// The telegrams of the next question in order of arrival.
    pub fn telegrams(&mut self) -> Vec<Telegram> {
        let random = self.random();
        match random.below(1000) {
            0..=369 => accepted(random),
            370..=629 => with_faults(random, 1),
            630..=669 => with_faults(random, 2),
            670..=809 => with_broken(random),
            810..=859 => self.with_any(),
            860..=919 => with_other_bytes(random),
            920..=959 => too_many(random),
            960..=962 => Vec::new(),
            963..=981 => large(random),
            _ => self.any(),
        }
    }

    /// A group in which one telegram is any at all, and mostly refused.
    fn with_any(&mut self) -> Vec<Telegram> {
        let mut telegrams = accepted(self.random());
        let telegram = self.corpus.telegram();
        let at = self.random().index(telegrams.len());
        telegrams[at] = telegram;
        telegrams
    }

    /// Telegrams that have nothing to do with one another.
    fn any(&mut self) -> Vec<Telegram> {
        let count = self.random().between(0, 3);
        (0..count).map(|_| self.corpus.telegram()).collect()
    }
}

/// As many balises as a group can have.
fn count(random: &mut Random) -> usize {
    random.between(1, MAX_BALISES as u64) as usize
}

/// Two or more, so that something can be wrong between them.
fn several(random: &mut Random) -> usize {
    random.between(2, MAX_BALISES as u64) as usize
}

fn accepted(random: &mut Random) -> Vec<Telegram> {
    let balises = count(random);
    let group = balises::group(random, balises);
    arrived(random, &group)
}

/// The telegrams of a group in any order of arrival.
fn arrived(random: &mut Random, group: &[Draft]) -> Vec<Telegram> {
    let mut telegrams: Vec<Telegram> = group
        .iter()
        .map(|draft| Telegram::of(&draft.bits()))
        .collect();
    if random.percent(85) {
        random.shuffle(&mut telegrams);
    }
    telegrams
}

/// A group with one fault between its telegrams, or more, which shows what is seen first.
fn with_faults(random: &mut Random, times: usize) -> Vec<Telegram> {
    let balises = match random.percent(10) {
        true => 1,
        false => several(random),
    };
    let mut group = match balises > 1 && random.percent(50) {
        true => balises::group_with_copies(random, balises),
        false => balises::group(random, balises),
    };
    for _ in 0..times {
        // A fault of 21 may have taken all of them.
        if group.is_empty() {
            break;
        }
        match random.below(20) {
            0..=4 => faults::identity(random, &mut group),
            5..=8 => faults::counters(random, &mut group),
            9..=10 => faults::name(random, &mut group),
            11..=12 => faults::contents(random, &mut group),
            13 => faults::disguise(random, &mut group),
            14 => faults::unname(random, &mut group),
            _ => faults::collide(random, &mut group),
        }
    }
    arrived(random, &group)
}

/// A group in which one telegram, or one more, is refused by itself.
fn with_broken(random: &mut Random) -> Vec<Telegram> {
    let balises = count(random);
    let mut group = balises::group(random, balises);
    if random.percent(20) {
        faults::identity(random, &mut group);
    }
    random.shuffle(&mut group);
    let mut telegrams: Vec<Telegram> = group
        .iter()
        .map(|draft| Telegram::of(&draft.bits()))
        .collect();
    for _ in 0..random.pick(&[1, 1, 1, 2]).min(group.len()) {
        let at = random.index(group.len());
        let rule = random.pick(&single::RULES);
        telegrams[at] = single::broken(random, &group[at], rule);
    }
    telegrams
}

/// A group whose words have other bytes than their telegrams.
fn with_other_bytes(random: &mut Random) -> Vec<Telegram> {
    let mut telegrams = accepted(random);
    match random.percent(40) {
        true => words::shift(random, &mut telegrams),
        false => words::resize(random, &mut telegrams),
    }
    telegrams
}

/// More telegrams than a group can have, all of them sound or one of them not.
fn too_many(random: &mut Random) -> Vec<Telegram> {
    let mut group = balises::group(random, MAX_BALISES);
    let any = random.between(9, 16) as usize;
    let count = random.pick(&[9, 9, 9, 10, 16, any]);
    while group.len() < count {
        let again = group[random.index(group.len())].clone();
        group.push(again);
    }
    let mut telegrams = arrived(random, &group);
    if random.percent(60) {
        let any = random.index(count);
        let at = random.pick(&[8, any, count - 1]);
        let rule = random.pick(&single::RULES);
        telegrams[at] = single::broken(random, &group[0], rule);
    }
    telegrams
}

/// Groups that are full.
fn large(random: &mut Random) -> Vec<Telegram> {
    let group = match random.below(4) {
        0 => fill::largest(random),
        1 => fill::most_packets(random),
        _ => {
            let balises = count(random);
            fill::full(random, balises)
        }
    };
    arrived(random, &group)
}
