//! The telegrams that are timed: all are accepted.

use plain::corpus::draft::{Draft, Mark};
use plain::corpus::packets::packet;
use plain::corpus::random::Random;
use plain::corpus::sound::{end, full, header};
use plain::corpus::Telegram;
use plain::worked::{self, Cell};

const TELEGRAMS: usize = 600;
const END_BITS: usize = 8;

/// What the names of those rows begin with that are held out.
pub const HELD_OUT: &str = "held out, ";

pub struct Corpus {
    pub name: String,
    pub telegrams: Vec<Telegram>,
}

/// What balise groups send for the functions that the standard's Annex B lists: pairs of NID_PACKET and Q_DIR.
const FUNCTIONS: [&[(u64, u64)]; 6] = [
    // a block section: linking for each way, track circuits, gradients, speeds
    &[(5, 1), (5, 0), (44, 1), (21, 1), (27, 1)],
    // a home signal: circuits, restrictions, linking, gradients, speeds, track conditions, position
    &[(44, 1), (44, 1), (5, 1), (21, 1), (27, 1), (68, 1), (79, 2)],
    // a route from a station
    &[(5, 1), (27, 1), (68, 1), (44, 1), (44, 1)],
    // stop
    &[(44, 1), (132, 1), (137, 1)],
    // a level transition
    &[(5, 1), (41, 1), (79, 2)],
    // a radio block centre
    &[(42, 1), (131, 1), (79, 2)],
];

/// What the code was tried with while it was picked: the same at each run.
pub fn known() -> Vec<Corpus> {
    of_every_kind(&mut Random::new(1), |_| worked::draft(&worked::HEADER))
}

/// As many of every kind from another seed, by which nobody picked the code.
///
/// Of telegrams that are empty or of short packets, a seed decides no more than the order of the packets: here it draws their headers too, so
/// that they are others than the known ones.
pub fn held_out(seed: u64) -> Vec<Corpus> {
    let mut corpora = of_every_kind(&mut Random::new(seed), header);
    for corpus in &mut corpora {
        corpus.name.insert_str(0, HELD_OUT);
    }
    corpora
}

/// `head` makes the headers of those that are empty or of short packets.
fn of_every_kind(random: &mut Random, head: fn(&mut Random) -> Draft) -> Vec<Corpus> {
    let mut functions = FUNCTIONS.iter().cycle();
    let mut function = |random: &mut Random| function(random, functions.next().unwrap());
    let corpora = [
        ("empty, 58 bits", drawn(|| end(head(random)))),
        ("as in Annex B", drawn(|| function(random))),
        ("830 bits", drawn(|| full(random))),
        ("1 packet", drawn(|| counted(random, head, 1))),
        ("10 packets", drawn(|| counted(random, head, 10))),
        ("20 packets, 830 bits", drawn(|| counted(random, head, 20))),
    ];
    let named = corpora.map(|(name, telegrams)| Corpus {
        name: name.to_string(),
        telegrams,
    });
    named.into()
}

fn drawn(mut draw: impl FnMut() -> Draft) -> Vec<Telegram> {
    (0..TELEGRAMS)
        .map(|_| Telegram::of(&draw().bits()))
        .collect()
}

/// A telegram of so many short packets.
fn counted(random: &mut Random, head: fn(&mut Random) -> Draft, packets: usize) -> Draft {
    let mut draft = head(random);
    for (width, value) in short(random)[..packets].concat() {
        draft.put(Mark::Plain, width, value);
    }
    end(draft)
}

/// Twenty packets that may stand together and just have room, in any order: eleven of six kinds, and nine ETCS-44.
fn short(random: &mut Random) -> Vec<Vec<Cell>> {
    let mut packets = vec![worked::gradients(1)];
    for direction in [0, 1] {
        packets.push(worked::etcs(254, direction, 23, &[]));
        packets.push(worked::danger(direction));
        packets.push(worked::stop_in(direction));
        packets.push(worked::etcs(46, direction, 31, &[(3, 0), (5, 0)]));
        packets.push(worked::etcs(68, direction, 41, &[(2, 1), (1, 1), (15, 70)]));
    }
    packets.resize_with(20, || worked::absolute_stop(1));
    for last in (1..packets.len()).rev() {
        packets.swap(last, random.index(last + 1));
    }
    packets
}

/// A telegram with these packets, each with an even share of the room that is left for its lists.
fn function(random: &mut Random, packets: &[(u64, u64)]) -> Draft {
    loop {
        let mut draft = header(random);
        for (k, (id, direction)) in packets.iter().enumerate() {
            let room = plain::MAX_BITS.saturating_sub(draft.len() + END_BITS);
            packet(
                random,
                &mut draft,
                *id,
                *direction,
                room / (packets.len() - k),
            );
        }
        let draft = end(draft);
        let telegram = Telegram::of(&draft.bits());
        if plain::check(&telegram.bytes, telegram.n).is_ok() {
            return draft;
        }
    }
}
