//! Groups by hand: copies, packets that collide, and the order among refusals.

use crate::directions::PAIRS;
use crate::groups::{accepted, answer, fault, group, refused, with, COUNTER, DUP, LINK};
use plain::worked::*;

#[test]
fn copies_count_once_at_the_lowest_n_pig() {
    let packets = &[danger(1), absolute_stop(1)][..];
    let others = &[stop_in(1)][..];
    // One word is enough, of either of the two, and both may say it.
    for dups in [[1, 0], [0, 2], [1, 2]] {
        let [one, other] = dups.map(|dup| (dup, packets));
        accepted(&group(&[one, other]), &[(0, 0), (0, 1)]);
        accepted(
            &group(&[(0, others), one, other]),
            &[(0, 0), (1, 0), (1, 1)],
        );
        accepted(
            &group(&[one, other, (0, others)]),
            &[(0, 0), (0, 1), (2, 0)],
        );
    }
    // Two pairs of copies beside one another are no chain.
    let pairs = [(1, packets), (0, packets), (1, others), (0, others)];
    accepted(&group(&pairs), &[(0, 0), (0, 1), (2, 0)]);
    // Copies of nothing.
    accepted(&group(&[(1, &[]), (2, &[])]), &[]);
}

#[test]
fn chains_of_copies_are_all_one() {
    let packets = &[danger(2), gradients(0)][..];
    for dups in [
        [1, 0, 2],
        [1, 1, 0],
        [1, 1, 2],
        [0, 2, 2],
        [1, 2, 2],
        [1, 2, 2],
    ] {
        accepted(&group(&dups.map(|dup| (dup, packets))), &[(0, 0), (0, 1)]);
    }
    let eight: Vec<(u64, &[Vec<Cell>])> = (0..8).map(|pig| (u64::from(pig < 7), packets)).collect();
    accepted(&group(&eight), &[(0, 0), (0, 1)]);
    // A gap in the chain: balises 2 and 3 are the same as 0 and 1, but nobody says so.
    let gap = [(1, packets), (0, packets), (1, packets), (2, packets)];
    refused(&group(&gap), 10, 2, 58);
}

#[test]
fn number_23() {
    let (one, other) = (&[danger(1)][..], &[stop_in(1)][..]);
    // No balise there.
    refused(&group(&[(2, one)]), 23, 0, 0);
    refused(&group(&[(1, one)]), 23, 0, 0);
    refused(&group(&[(2, one), (0, other)]), 23, 0, 0);
    refused(&group(&[(0, one), (1, other)]), 23, 1, 0);
    // Other packets: another kind, one bit, one packet more or fewer, another order.
    refused(&group(&[(1, one), (0, other)]), 23, 0, 0);
    refused(&group(&[(0, one), (2, other)]), 23, 1, 0);
    let bit = [etcs(132, 1, 24, &[(1, 0)])];
    refused(&group(&[(0, one), (2, &bit)]), 23, 1, 0);
    let two = [danger(1), stop_in(1)];
    let swapped = [stop_in(1), danger(1)];
    refused(&group(&[(0, one), (2, &two)]), 23, 1, 0);
    refused(&group(&[(1, &two), (0, one)]), 23, 0, 0);
    refused(&group(&[(1, &two), (0, &swapped)]), 23, 0, 0);
    refused(&group(&[(1, &[]), (0, one)]), 23, 0, 0);
    // The lowest that is wrong, and the one that says it.
    let several = [(0, one), (2, other), (2, one), (1, other)];
    refused(&group(&several), 23, 1, 0);
    refused(
        &group(&[(0, one), (0, other), (0, &[]), (2, one)]),
        23,
        3,
        0,
    );
    // A wrong word between two copies, of which it names the other neighbour.
    refused(&group(&[(1, one), (1, one), (0, other)]), 23, 1, 0);
}

#[test]
fn copies_that_differ_in_their_first_six_bits_alone() {
    // Two kinds of one length: a speed with three train types, and a position in a new country.
    let rest = [(2, 1), (1, 1), (22, 9), (5, 3), (33, 0), (5, 0)];
    let [speeds, positions] = [27, 79].map(|id| [etcs(id, 1, 91, &rest)]);
    refused(&group(&[(1, &speeds), (0, &positions)]), 23, 0, 0);
    accepted(&group(&[(1, &speeds), (0, &speeds)]), &[(0, 0)]);
    accepted(&group(&[(1, &positions), (0, &positions)]), &[(0, 0)]);
    accepted(&group(&[(0, &speeds), (0, &positions)]), &[(0, 0), (1, 0)]);
}

#[test]
fn number_10_over_the_group() {
    for (earlier, later, may_come) in PAIRS {
        let pair = group(&[(0, &[stop_in(2), danger(earlier)]), (0, &[danger(later)])]);
        match may_come {
            true => accepted(&pair, &[(0, 0), (0, 1), (1, 0)]),
            false => refused(&pair, 10, 1, 58),
        }
        let stops = group(&[(0, &[absolute_stop(earlier)]), (0, &[absolute_stop(later)])]);
        accepted(&stops, &[(0, 0), (1, 0)]);
    }
    // Near or far, behind other packets, and the first one of several.
    let far = group(&[(0, &[danger(2)]), (0, &[]), (0, &[stop_in(1), danger(0)])]);
    refused(&far, 10, 2, 82);
    let both = [&[danger(0), stop_in(2)][..], &[stop_in(0), danger(2)]];
    refused(&group(&both.map(|packets| (0, packets))), 10, 1, 58);
    // Two ways of one kind from two balises, and then a third packet.
    let third = [&[danger(0)][..], &[danger(1)], &[gradients(1), danger(1)]];
    refused(&group(&third.map(|packets| (0, packets))), 10, 2, 112);
    // The same packets are no copies unless one says so.
    refused(&group(&[(0, &[danger(1)]), (0, &[danger(1)])]), 10, 1, 58);
}

#[test]
fn number_10_leaves_copies_out() {
    let (one, other) = (&[danger(1)][..], &[stop_in(1), danger(2)][..]);
    refused(&group(&[(1, one), (0, one), (0, other)]), 10, 2, 82);
    refused(
        &group(&[(0, one), (0, other), (2, other), (2, other)]),
        10,
        1,
        82,
    );
}

#[test]
fn the_order_among_refusals() {
    let clash = [danger(2)];
    // Each group breaks the later rules too: identity, counters, M_DUP, packets.
    let collides = group(&[(0, &clash), (0, &clash), (0, &[])]);
    refused(&collides, 10, 1, 58);
    let misnames = [&collides[..2], &[with(collides[2].clone(), DUP, 1)]].concat();
    refused(&misnames, 23, 2, 0);
    let miscounts = [&misnames[..2], &[with(misnames[2].clone(), COUNTER, 254)]].concat();
    refused(&miscounts, 22, 0, 0);
    let torn = [&miscounts[..2], &[with(miscounts[2].clone(), LINK, 0)]].concat();
    refused(&torn, 21, 0, 0);
    let broken = [&torn[..2], &[with(torn[2].clone(), 2, 1)]].concat();
    assert_eq!(answer(&broken), Err(fault(4, 2, 8)));
}
