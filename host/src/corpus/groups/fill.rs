//! Telegrams as long as they may be, which can stand beside one another: packets that come once
//! in a group, and ETCS-44 made to measure.

use super::balises::identify;
use super::header;
use crate::corpus::draft::{Draft, Mark};
use crate::corpus::maker::Maker;
use crate::corpus::packets::packet;
use crate::corpus::random::Random;
use crate::corpus::sound::{self, end};
use crate::worked::{self, Cell};
use crate::MAX_BITS;

/// The bits behind which only the end mark has room.
const FULL: usize = MAX_BITS - 8;
const MOST_FURTHER: u64 = 31;

/// A CTCS packet by its number and N_ITER, with the bits that it takes inside its ETCS-44.
#[derive(Clone, Copy)]
struct Size {
    id: u64,
    further: u64,
    bits: usize,
}

/// All sizes of an ETCS-44 that a telegram has room for, the shortest first.
fn sizes() -> Vec<Size> {
    let size = |id, further, bits| Size { id, further, bits };
    let mut sizes = vec![size(5, 0, 48), size(4, 0, 71), size(3, 0, 79)];
    for further in 0..=MOST_FURTHER {
        sizes.push(size(1, further, 93 + 24 * further as usize));
        sizes.push(size(2, further, 107 + 38 * further as usize));
    }
    sizes.sort_by_key(|size| size.bits);
    sizes
}

/// Fills what is left with ETCS-44: as many as have room, or any. Gives false, having filled
/// some of it, where no sizes come to just so many bits.
fn fill(random: &mut Random, draft: &mut Draft, is_crowded: bool) -> bool {
    let sizes = sizes();
    let mut fits = vec![false; FULL + 1];
    fits[0] = true;
    for room in 1..=FULL {
        fits[room] = sizes
            .iter()
            .any(|size| size.bits <= room && fits[room - size.bits]);
    }
    while draft.len() < FULL {
        let room = FULL - draft.len();
        let fitting: Vec<Size> = sizes
            .iter()
            .filter(|size| size.bits <= room && fits[room - size.bits])
            .copied()
            .collect();
        let Some(&shortest) = fitting.first() else {
            return false;
        };
        let size = match is_crowded {
            true => shortest,
            false => random.pick(&fitting),
        };
        let direction = random.below(3);
        ctcs(random, draft, direction, size);
    }
    true
}

fn ctcs(random: &mut Random, draft: &mut Draft, direction: u64, size: Size) {
    let mut maker = Maker::new(random, draft, 0);
    maker.draft.put(Mark::Identifier, 8, 44);
    maker.draft.put(Mark::Direction, 2, direction);
    maker.draft.put(Mark::Length, 13, size.bits as u64);
    maker.draft.put(Mark::InnerIdentifier, 9, size.id);
    maker.draft.put(Mark::InnerDirection, 2, direction);
    maker
        .draft
        .put(Mark::InnerLength, 13, size.bits as u64 - 23);
    if size.id == 5 {
        return maker.draft.put(Mark::Ruled, 1, 0);
    }
    maker.scale();
    maker.distance(15);
    let group: fn(&mut Maker) = match size.id {
        3 => return maker.distance(15),
        4 => return maker.any(7),
        1 => |maker| {
            maker.ruled(4, 0, 7);
            maker.ruled(5, 0, 12);
            maker.distance(15);
        },
        _ => |maker| {
            maker.distance(15);
            maker.distance(15);
            maker.any(1);
            maker.any(7);
        },
    };
    group(&mut maker);
    maker.draft.put(Mark::Count, 5, size.further);
    for _ in 0..size.further {
        group(&mut maker);
    }
}

/// A header, and nothing that names another balise.
fn begun(random: &mut Random) -> Draft {
    let mut draft = sound::header(random);
    draft.entries[header::DUP].value = 0;
    draft
}

/// The ten packets of other kinds that are shorter than any ETCS-44.
fn short() -> Vec<Vec<Cell>> {
    let both_ways = [0, 1].map(|direction| {
        [
            worked::etcs(254, direction, 23, &[]),
            worked::danger(direction),
            worked::stop_in(direction),
            worked::etcs(46, direction, 31, &[(3, 0), (5, 0)]),
            worked::etcs(68, direction, 41, &[(2, 1), (1, 1), (15, 70)]),
        ]
    });
    both_ways.concat()
}

/// Eight telegrams of 830 bits with as many packets as so many bits allow: 118.
pub(super) fn largest(random: &mut Random) -> Vec<Draft> {
    let mut group: Vec<Draft> = (0..8).map(|_| begun(random)).collect();
    let crowded = random.index(group.len());
    let mut packets = [short(), vec![worked::gradients(1)]].concat();
    random.shuffle(&mut packets);
    group[crowded].append(&worked::draft(&packets.concat()));
    for draft in &mut group {
        let is_full = fill(random, draft, true);
        debug_assert!(is_full);
    }
    finished(random, group)
}

/// Eight telegrams with as many packets as a group can have, 132, a few bits short of the most.
pub(super) fn most_packets(random: &mut Random) -> Vec<Draft> {
    let mut group: Vec<Draft> = (0..8).map(|_| begun(random)).collect();
    let crowded = random.index(group.len());
    let mut packets = short();
    random.shuffle(&mut packets);
    group[crowded].append(&worked::draft(&packets.concat()));
    let [shortest, ..] = sizes()[..] else {
        return group;
    };
    for draft in &mut group {
        while draft.len() + shortest.bits <= FULL {
            let direction = random.below(3);
            ctcs(random, draft, direction, shortest);
        }
    }
    finished(random, group)
}

/// So many telegrams of 830 bits, of any packets.
pub(super) fn full(random: &mut Random, balises: usize) -> Vec<Draft> {
    let mut ids = [5, 21, 27, 41, 42, 46, 68, 72, 79, 131, 132, 137];
    random.shuffle(&mut ids);
    let mut group = Vec::new();
    for pig in 0..balises {
        let draft = std::iter::repeat_with(|| {
            let mut draft = begun(random);
            if let Some(&id) = ids.get(pig) {
                let direction = random.below(3);
                packet(random, &mut draft, id, direction, 600);
            }
            let is_full = fill(random, &mut draft, false);
            is_full.then_some(draft)
        });
        group.extend(draft.flatten().next());
    }
    finished(random, group)
}

fn finished(random: &mut Random, group: Vec<Draft>) -> Vec<Draft> {
    let mut group: Vec<Draft> = group.into_iter().map(end).collect();
    identify(random, &mut group);
    group
}
