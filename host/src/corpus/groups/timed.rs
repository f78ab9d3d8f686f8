//! Groups for timing, all of them accepted: the bytes and the list of n.

use super::balises::identify;
use super::{arrived, fill, header};
use crate::corpus::draft::Draft;
use crate::corpus::packets::packet;
use crate::corpus::random::Random;
use crate::corpus::sound::{self, end};
use crate::MAX_BITS;

const END_BITS: usize = 8;

/// What three balises send that share the functions which the standard's Annex B lists: pairs of
/// NID_PACKET and Q_DIR. Between them, no packet comes twice but ETCS-44.
const SHARED: [[&[(u64, u64)]; 3]; 3] = [
    // a home signal, which is a level transition too: linking, gradients and speeds first, then
    // track circuits and restrictions, then conditions, levels and position
    [
        &[(5, 1), (5, 0), (21, 1), (27, 1)],
        &[(44, 1), (44, 1), (44, 0)],
        &[(68, 1), (41, 1), (79, 2)],
    ],
    // a block section in front of a radio block centre
    [
        &[(5, 1), (5, 0), (44, 1), (21, 1), (27, 1)],
        &[(42, 1), (131, 1), (79, 2)],
        &[(44, 1), (68, 1), (72, 1)],
    ],
    // a route from a station: gradients, the route, and stop
    [
        &[(21, 1), (21, 0), (79, 2)],
        &[(5, 1), (27, 1), (68, 1), (44, 1), (44, 1)],
        &[(44, 1), (132, 1), (137, 1)],
    ],
];

/// A group of three balises as Annex B has them send, its telegrams with room used throughout.
pub fn typical(seed: u64) -> (Vec<u8>, Vec<u64>) {
    let mut random = Random::new(seed);
    let shared = random.pick(&SHARED);
    let mut group: Vec<Draft> = shared
        .iter()
        .map(|packets| function(&mut random, packets))
        .collect();
    identify(&mut random, &mut group);
    lent(&mut random, &group)
}

/// A group of eight telegrams of 830 bits, with as many packets as so many bits allow.
pub fn largest(seed: u64) -> (Vec<u8>, Vec<u64>) {
    let mut random = Random::new(seed);
    let group = fill::largest(&mut random);
    lent(&mut random, &group)
}

/// A telegram with these packets, each with an even share of the room that is left for its lists.
fn function(random: &mut Random, packets: &[(u64, u64)]) -> Draft {
    loop {
        let mut draft = sound::header(random);
        draft.entries[header::DUP].value = 0;
        for (index, &(id, direction)) in packets.iter().enumerate() {
            let room = MAX_BITS.saturating_sub(draft.len() + END_BITS);
            let share = room / (packets.len() - index);
            packet(random, &mut draft, id, direction, share);
        }
        if draft.len() + END_BITS <= MAX_BITS {
            return end(draft);
        }
    }
}

fn lent(random: &mut Random, group: &[Draft]) -> (Vec<u8>, Vec<u64>) {
    let telegrams = arrived(random, group);
    let bytes = telegrams.iter().flat_map(|telegram| &telegram.bytes);
    let ns = telegrams.iter().map(|telegram| telegram.n);
    (bytes.copied().collect(), ns.collect())
}
