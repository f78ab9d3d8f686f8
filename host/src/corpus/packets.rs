//! Sound packets with random contents, a function to a kind.

use super::draft::{Draft, Mark};
use super::maker::Maker;
use super::random::Random;

/// The identifiers of all packets.
pub const IDENTIFIERS: [u64; 14] = [5, 21, 27, 41, 42, 44, 46, 68, 72, 79, 131, 132, 137, 254];

/// Puts one packet of up to about `limit` bits at the end of a draft.
pub fn packet(random: &mut Random, draft: &mut Draft, id: u64, direction: u64, limit: usize) {
    let mut maker = Maker::new(random, draft, limit);
    let start = maker.draft.len();
    maker.draft.put(Mark::Identifier, 8, id);
    maker.draft.put(Mark::Direction, 2, direction);
    let length = maker.draft.entries.len();
    maker.draft.put(Mark::Length, 13, 0);
    match id {
        5 => maker.linking(),
        21 => maker.gradients(),
        27 => maker.static_speeds(),
        41 => maker.level_order(),
        42 => maker.session(),
        44 => maker.ctcs(direction),
        46 => maker.list(|maker| maker.level(Mark::Ruled, 4)),
        68 => maker.track_conditions(),
        72 => maker.text(),
        79 => maker.positions(),
        131 => maker.rbc_handover(),
        132 | 137 => maker.any(1),
        _ => {}
    }
    draft.entries[length].value = (draft.len() - start) as u64;
}

impl Maker<'_> {
    fn linking(&mut self) {
        self.scale();
        self.list(|maker| {
            maker.distance(15);
            maker.country();
            maker.any(14);
            maker.any(1);
            maker.ruled(2, 0, 2);
            maker.any(6);
        });
    }

    fn gradients(&mut self) {
        self.scale();
        self.list(|maker| {
            maker.distance(15);
            maker.any(1);
            maker.any(8);
        });
    }

    fn static_speeds(&mut self) {
        self.scale();
        self.list(|maker| {
            maker.distance(15);
            maker.any(7);
            maker.any(1);
            maker.further(|maker| {
                maker.ruled(4, 0, 2);
                maker.any(7);
            });
        });
    }

    fn level_order(&mut self) {
        self.scale();
        self.distance(15);
        self.list(|maker| {
            maker.level(Mark::Ruled, 4);
            maker.distance(15);
        });
    }

    fn session(&mut self) {
        self.any(1);
        self.any(10);
        self.any(14);
        self.radio();
        self.any(1);
    }

    fn track_conditions(&mut self) {
        self.scale();
        let initial = u64::from(self.random.percent(35));
        self.draft.put(Mark::Plain, 1, initial);
        if initial == 1 {
            return self.distance(15);
        }
        self.list(|maker| {
            maker.distance(15);
            maker.distance(15);
            maker.ruled(4, 0, 9);
        });
    }

    fn text(&mut self) {
        self.scale();
        self.ruled(2, 0, 1);
        self.any(1);
        self.distance(15);
        self.any(4);
        self.level(Mark::Ruled, 5);
        self.distance(15);
        if let Some(length) = self.draft.entries.last_mut() {
            length.mark = Mark::TextLength;
            if self.random.percent(30) {
                length.value = 32767;
            }
        }
        self.any(10);
        self.any(4);
        self.level(Mark::Ruled, 5);
        self.ruled(2, 0, 2);
        let room = self.limit.saturating_sub(self.draft.len() + 8) as u64 / 8;
        let characters = match self.random.below(3) {
            0 => self.random.between(0, room.min(12)),
            1 => room.min(255),
            _ => self.random.between(0, room.min(255)),
        };
        self.draft.put(Mark::Count, 8, characters);
        for _ in 0..characters {
            self.any(8);
        }
    }

    fn positions(&mut self) {
        self.scale();
        self.list(|maker| {
            maker.country();
            maker.any(14);
            maker.distance(15);
            maker.any(1);
            maker.distance(20);
        });
    }

    fn rbc_handover(&mut self) {
        self.scale();
        self.distance(15);
        self.any(10);
        self.any(14);
        self.radio();
        self.any(1);
    }

    fn ctcs(&mut self, direction: u64) {
        let id = self.random.between(1, 5);
        let start = self.draft.len();
        self.draft.put(Mark::InnerIdentifier, 9, id);
        self.draft.put(Mark::InnerDirection, 2, direction);
        let length = self.draft.entries.len();
        self.draft.put(Mark::InnerLength, 13, 0);
        match id {
            1 => self.signals(),
            2 => self.speed_restrictions(),
            5 => self.draft.put(Mark::Ruled, 1, 0),
            _ => {
                self.scale();
                self.distance(15);
                match id {
                    3 => self.distance(15),
                    _ => self.any(7),
                }
            }
        }
        self.draft.entries[length].value = (self.draft.len() - start) as u64;
    }

    fn signals(&mut self) {
        self.scale();
        self.distance(15);
        self.list(|maker| {
            maker.ruled(4, 0, 7);
            maker.ruled(5, 0, 12);
            maker.distance(15);
        });
    }

    fn speed_restrictions(&mut self) {
        self.scale();
        self.distance(15);
        self.list(|maker| {
            maker.distance(15);
            maker.distance(15);
            maker.any(1);
            maker.any(7);
        });
    }
}
