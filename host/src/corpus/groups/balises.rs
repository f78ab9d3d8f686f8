//! Groups that are accepted, as drafts in order of N_PIG.

use super::header;
use crate::corpus::draft::{Draft, Mark};
use crate::corpus::packets::packet;
use crate::corpus::random::Random;
use crate::corpus::sound::{self, end, free};
use crate::MAX_BITS;

const END_BITS: usize = 8;

/// A group of so many balises, mostly with few and short packets.
pub(super) fn group(random: &mut Random, balises: usize) -> Vec<Draft> {
    let dups = match random.percent(45) {
        true => duplicates(random, balises),
        false => vec![0; balises],
    };
    named(random, &dups)
}

/// A group in which every two balises of a run are copies, the runs at least two long.
pub(super) fn group_with_copies(random: &mut Random, balises: usize) -> Vec<Draft> {
    let mut dups = vec![0; balises];
    let first = random.index(balises - 1);
    let last = random.between(first as u64 + 1, balises as u64 - 1) as usize;
    join(random, &mut dups[first..=last]);
    named(random, &dups)
}

/// A group whose balises have these M_DUP, which name balises that there are.
fn named(random: &mut Random, dups: &[u64]) -> Vec<Draft> {
    let mut group: Vec<Draft> = Vec::new();
    let mut sent = Draft::default();
    for (pig, &dup) in dups.iter().enumerate() {
        let draft = match group.last() {
            Some(last) if dup == 2 || last.entries[header::DUP].value == 1 => last.clone(),
            _ => contents(random, &mut sent),
        };
        group.push(draft);
        group[pig].entries[header::DUP].value = dup;
    }
    identify(random, &mut group);
    group
}

/// Makes balises those of one group: the identity, the positions and the counters.
pub(super) fn identify(random: &mut Random, group: &mut [Draft]) {
    let total = group.len() as u64 - 1;
    let [country, number, link] = [10, 14, 1].map(|width| random.value(width));
    let counter = random.below(254);
    let counter = random.pick(&[0, 253, counter, counter]);
    // All counters 255, all the same, or some of each.
    let unset = random.pick(&[0, 100, 50, 50]);
    for (pig, draft) in group.iter_mut().enumerate() {
        let counter = match random.percent(unset) {
            true => 255,
            false => counter,
        };
        for (index, value) in [
            (header::PIG, pig as u64),
            (header::TOTAL, total),
            (header::COUNTER, counter),
            (header::COUNTRY, country),
            (header::NUMBER, number),
            (header::LINK, link),
        ] {
            draft.entries[index].value = value;
        }
    }
}

/// M_DUP of each balise: some copies in runs, the others single.
fn duplicates(random: &mut Random, balises: usize) -> Vec<u64> {
    let mut dups = vec![0; balises];
    let mut rest = &mut dups[..];
    while !rest.is_empty() {
        let run = match random.percent(50) {
            true => random.between(1, rest.len() as u64) as usize,
            false => 1,
        };
        join(random, &mut rest[..run]);
        rest = &mut rest[run..];
    }
    dups
}

/// Makes a run one of copies. Each balise names one neighbour at most, so those in front of one
/// of them name the next and those behind it the previous; that one has the choice.
fn join(random: &mut Random, run: &mut [u64]) {
    let between = random.index(run.len());
    let (front, rest) = run.split_at_mut(between);
    let (one, behind) = rest.split_first_mut().expect("a balise");
    front.fill(1);
    behind.fill(2);
    let mut choices = vec![0];
    choices.extend((!front.is_empty()).then_some(2));
    choices.extend((!behind.is_empty()).then_some(1));
    *one = random.pick(&choices);
}

/// A telegram with packets that collide with none that were sent before. These are kept in mind.
fn contents(random: &mut Random, sent: &mut Draft) -> Draft {
    let mut draft = sound::header(random);
    let (packets, limit) = match random.below(40) {
        0 => (random.between(0, 9), 200),
        _ => (random.pick(&[0, 1, 1, 1, 2, 2, 3]), 30),
    };
    for _ in 0..packets {
        let (id, direction) = free(random, sent);
        let before = draft.entries.len();
        packet(random, &mut draft, id, direction, limit);
        if draft.len() > MAX_BITS - END_BITS {
            draft.truncate(before);
            continue;
        }
        sent.put(Mark::Identifier, 8, id);
        sent.put(Mark::Direction, 2, direction);
    }
    end(draft)
}
