//! The makings of packets: random fields, distances and lists.

use super::draft::{Draft, Mark};
use super::random::Random;

/// How the distances of one packet are chosen.
#[derive(Clone, Copy)]
enum Mood {
    /// All have a place at the metre.
    Fitting,
    /// All have one, save perhaps a few.
    Spoilt,
    /// Anything.
    Wild,
}

/// Puts the fields of one packet at the end of a draft.
pub(super) struct Maker<'a> {
    pub random: &'a mut Random,
    pub draft: &'a mut Draft,
    /// The bits that the draft is not to exceed, as far as lists and texts decide it.
    pub limit: usize,
    scale: u64,
    mood: Mood,
}

impl<'a> Maker<'a> {
    pub fn new(random: &'a mut Random, draft: &'a mut Draft, limit: usize) -> Self {
        Maker {
            limit: draft.len() + limit,
            random,
            draft,
            scale: 1,
            mood: Mood::Wild,
        }
    }

    pub fn any(&mut self, width: u32) {
        let value = self.random.value(width);
        self.draft.put(Mark::Plain, width, value);
    }

    pub fn ruled(&mut self, width: u32, least: u64, most: u64) {
        let value = self.random.between(least, most);
        self.draft.put(Mark::Ruled, width, value);
    }

    pub fn scale(&mut self) {
        self.scale = self.random.below(3);
        self.mood = match self.random.below(5) {
            0 | 1 => Mood::Fitting,
            2 | 3 => Mood::Spoilt,
            _ => Mood::Wild,
        };
        self.draft.put(Mark::Scale, 2, self.scale);
    }

    pub fn distance(&mut self, width: u32) {
        let most = u64::MAX >> (64 - width);
        let edges = [
            0,
            1,
            9,
            10,
            most / 10,
            most / 10 + 1,
            most / 10 * 10,
            most - 1,
            most,
        ];
        let fitting = match (self.scale, self.random.below(6)) {
            (0, 0) => self.random.pick(&[0, 10, most / 10, most / 100 * 10]) / 10 * 10,
            (0, _) => self.random.between(0, most / 10) * 10,
            (1, _) => self.random.value(width),
            (_, 0) => self.random.pick(&[0, 1, most / 10 - 1, most / 10]),
            (_, _) => self.random.between(0, most / 10),
        };
        let value = match self.mood {
            Mood::Fitting => fitting,
            Mood::Spoilt if self.random.percent(90) => fitting,
            Mood::Spoilt => self.random.pick(&edges),
            Mood::Wild if self.random.percent(50) => self.random.pick(&edges),
            Mood::Wild => self.random.value(width),
        };
        self.draft.put(Mark::Distance, width, value);
    }

    /// One group, a count, and as many further groups as wished for and as fit.
    pub fn list(&mut self, group: fn(&mut Self)) {
        group(self);
        self.further(group);
    }

    pub fn further(&mut self, group: fn(&mut Self)) {
        let wish = match self.random.below(3) {
            0 => self.random.below(4),
            1 => self.random.below(32),
            _ => self.random.pick(&[0, 1, 2, 30, 31]),
        };
        let count = self.draft.entries.len();
        self.draft.put(Mark::Count, 5, 0);
        for _ in 0..wish {
            let before = self.draft.entries.len();
            group(self);
            if self.draft.len() > self.limit {
                self.draft.truncate(before);
                break;
            }
            self.draft.entries[count].value += 1;
        }
    }

    pub fn country(&mut self) {
        let new = self.random.below(2);
        self.draft.put(Mark::Plain, 1, new);
        if new == 1 {
            self.any(10);
        }
    }

    pub fn level(&mut self, mark: Mark, most: u64) {
        let level = match self.random.percent(30) {
            true => 1,
            false => self.random.between(0, most),
        };
        self.draft.put(mark, 3, level);
        if level == 1 {
            self.ruled(8, 1, 3);
        }
    }

    pub fn radio(&mut self) {
        let fill = match self.random.below(4) {
            0 => self.random.pick(&[0, 16]),
            _ => self.random.between(0, 16),
        };
        let place = |random: &mut Random, index: u64| match index < fill {
            true => 15,
            false => random.below(10),
        };
        let number = (0..16).fold(0, |number, index| {
            number | place(self.random, index) << (4 * index)
        });
        self.draft.put(Mark::Ruled, 64, number);
    }
}
