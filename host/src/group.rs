//! A balise group as one message: its telegrams in any order of arrival, its packets in order.

pub mod program;

use crate::bits::split;
use crate::field::*;
use crate::refusal::{Refusal, Rule};
use crate::telegram::{Kind, Met};
use crate::{check, length_of};

/// The most balises of a group.
pub const MAX_BALISES: usize = 8;
/// The fewest packets that there must be room for.
pub const MIN_ROOM: usize = 264;
/// The most packets of an accepted group: twenty in one telegram, sixteen ETCS-44 in the others.
const MOST_PACKETS: usize = 132;
/// Where N_PIG begins.
const PIG_AT: usize = 9;
/// Where the packets begin, which is two bits inside a byte.
const PACKETS_AT: usize = 50;

/// Why a group is refused.
#[derive(Clone, Copy, Debug, PartialEq, Eq)]
pub struct Fault {
    /// The refusal number: a telegram's, or 1, 10, 21, 22 or 23.
    pub number: u32,
    /// The arrival number of the telegram that is refused by itself. For 23 and for 10 over the
    /// group it is the N_PIG, otherwise 0.
    pub which: u64,
    /// The telegram's own place. For 10 over the group it is the Q_DIR bit, otherwise 0.
    pub place: u64,
}

impl Fault {
    fn new(rule: Rule, which: usize, place: usize) -> Self {
        Fault::of(Refusal::new(rule, place), which)
    }

    fn of(refusal: Refusal, which: usize) -> Self {
        Fault {
            number: refusal.number,
            which: which as u64,
            place: refusal.place,
        }
    }
}

/// The packets of a group in order: the N_PIG of each, and its number in its telegram.
///
/// The telegrams stand in `bytes` one behind the other, in order of arrival, each from a fresh
/// byte; `ns` has their numbers of bits. `room` is the number of packets the caller has room for.
pub fn message(bytes: &[u8], ns: &[u64], room: usize) -> Result<Vec<(u8, u8)>, Fault> {
    if room < MIN_ROOM {
        return Err(Fault::new(Rule::OutputShort, 0, 0));
    }
    let mut group = Group::default();
    for (arrival, (bytes, n)) in telegrams(bytes, ns).enumerate() {
        check(bytes, n).map_err(|refusal| Fault::of(refusal, arrival))?;
        group.join(bytes);
    }
    if !group.is_whole() {
        return Err(Fault::new(Rule::Identity, 0, 0));
    }
    let balises = &group.balises[..group.joined];
    if !counters_match(balises) {
        return Err(Fault::new(Rule::Counters, 0, 0));
    }
    if let Some(pig) = first_wrong_copy(balises) {
        return Err(Fault::new(Rule::Copies, pig, 0));
    }
    packets(balises)
}

/// The bytes and the n of each telegram in order of arrival. The last has all bytes that are left,
/// and one that the bytes do not last for has too few.
pub fn telegrams<'a>(
    bytes: &'a [u8],
    ns: &'a [u64],
) -> impl Iterator<Item = (&'a [u8], u64)> + use<'a> {
    let mut rest = bytes;
    ns.iter().enumerate().map(move |(arrival, &n)| {
        let own = match arrival + 1 == ns.len() {
            true => rest.len(),
            false => rest.len().min(length_of(n)),
        };
        let (telegram, after) = rest.split_at(own);
        rest = after;
        (telegram, n)
    })
}

/// What is kept of an accepted telegram.
#[derive(Clone, Copy, Default)]
struct Balise<'a> {
    bytes: &'a [u8],
    dup: u64,
    counter: u64,
}

impl<'a> Balise<'a> {
    /// The packets with their end mark. Unused bits are 0, and the end mark says where a telegram
    /// ends, so that the same bytes are the same bits and have the same n.
    fn packets(&self) -> Option<(u8, &'a [u8])> {
        let (first, rest) = self.bytes.get(PACKETS_AT / 8..)?.split_first()?;
        Some((first << (PACKETS_AT % 8), rest))
    }
}

/// The telegrams that have come so far, all of them accepted.
#[derive(Default)]
struct Group<'a> {
    /// By N_PIG.
    balises: [Balise<'a>; MAX_BALISES],
    /// The N_PIG values that have come, a bit each.
    present: u64,
    /// N_TOTAL, NID_C, NID_BG and Q_LINK of the first one.
    identity: [u64; 4],
    joined: usize,
    /// Whether another identity came, or an N_PIG once more.
    is_torn: bool,
}

impl<'a> Group<'a> {
    fn join(&mut self, bytes: &'a [u8]) {
        let [pig, total, dup, counter, country, number, link] = split(
            bytes,
            PIG_AT,
            &[N_PIG, N_TOTAL, M_DUP, M_MCOUNT, NID_C, NID_BG, Q_LINK],
        );
        let identity = [total, country, number, link];
        if self.joined == 0 {
            self.identity = identity;
        }
        self.is_torn |= identity != self.identity || self.present >> pig & 1 == 1;
        self.present |= 1 << pig;
        self.joined += 1;
        if let Some(place) = self.balises.get_mut(pig as usize) {
            *place = Balise {
                bytes,
                dup,
                counter,
            };
        }
    }

    /// Whether these are the balises 0 to N_TOTAL of one group, each once. None of them is past
    /// N_TOTAL, so their number decides; a ninth would have the N_PIG of another.
    fn is_whole(&self) -> bool {
        let [total, ..] = self.identity;
        !self.is_torn && self.joined as u64 == total + 1
    }
}

/// Whether all counters are 255 or one and the same; 254 matches nothing, not even itself.
fn counters_match(balises: &[Balise]) -> bool {
    let mut common = 255;
    for balise in balises {
        match balise.counter {
            255 => {}
            254 => return false,
            counter if common == 255 || common == counter => common = counter,
            _ => return false,
        }
    }
    true
}

/// The lowest N_PIG whose M_DUP names no balise, or one with other packets.
fn first_wrong_copy(balises: &[Balise]) -> Option<usize> {
    let is_wrong = |(pig, balise): &(usize, &Balise)| {
        let named = match balise.dup {
            0 => return false,
            1 => pig + 1,
            // In front of the first there is none, at no index either.
            _ => pig.wrapping_sub(1),
        };
        balises
            .get(named)
            .is_none_or(|named| named.packets() != balise.packets())
    };
    let wrong = balises.iter().enumerate().find(is_wrong);
    wrong.map(|(pig, _)| pig)
}

/// All packets but those of copies, unless one collides with an earlier one.
fn packets(balises: &[Balise]) -> Result<Vec<(u8, u8)>, Fault> {
    let mut packets = Vec::with_capacity(MOST_PACKETS);
    let mut met = Met::default();
    let mut before = 0;
    for (pig, balise) in balises.iter().enumerate() {
        // One word of either neighbour makes it a copy of the one in front of it.
        let is_copy = balise.dup == 2 || before == 1;
        before = balise.dup;
        if is_copy {
            continue;
        }
        let mut at = PACKETS_AT;
        for number in 0.. {
            // The check has counted every L_PACKET, so here it leads to the next packet.
            let [identifier, direction, length] =
                split(balise.bytes, at, &[NID_PACKET, Q_DIR, L_PACKET]);
            let Some(kind) = Kind::of(identifier) else {
                break;
            };
            if !met.meet(kind, direction) {
                return Err(Fault::new(Rule::Repeated, pig, at + NID_PACKET.width));
            }
            packets.push((pig as u8, number));
            at += length as usize;
        }
    }
    Ok(packets)
}
