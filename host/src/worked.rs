//! The worked telegrams, written out by hand, field by field.

use crate::corpus::draft::{Draft, Mark};

/// A field's width and value.
pub type Cell = (u32, u64);

/// The header of the shortest worked telegram.
pub const HEADER: [Cell; 10] = [
    (1, 1),
    (7, 16),
    (1, 0),
    (3, 0),
    (3, 1),
    (2, 0),
    (8, 255),
    (10, 9),
    (14, 3007),
    (1, 1),
];

/// The header, the packets and the end mark.
pub fn telegram(packets: &[Vec<Cell>]) -> Draft {
    draft(&[&HEADER, packets.concat().as_slice(), &[(8, 255)]].concat())
}

/// Fields as a draft.
pub fn draft(cells: &[Cell]) -> Draft {
    let mut draft = Draft::default();
    for &(width, value) in cells {
        draft.put(Mark::Plain, width, value);
    }
    draft
}

/// An ETCS packet: head A with the given L_PACKET, and the rest.
pub fn etcs(id: u64, direction: u64, length: u64, rest: &[Cell]) -> Vec<Cell> {
    [&[(8, id), (2, direction), (13, length)], rest].concat()
}

/// An ETCS-44 with the given lengths, and the rest of its CTCS packet.
pub fn ctcs(id: u64, direction: u64, lengths: [u64; 2], rest: &[Cell]) -> Vec<Cell> {
    let head = [(9, id), (2, direction), (13, lengths[0])];
    etcs(44, direction, lengths[1], &[&head, rest].concat())
}

/// An ETCS-5 with N_ITER 1; either group can have a new country.
pub fn linking(length: u64, new_countries: [bool; 2]) -> Vec<Cell> {
    let group = |new: bool| {
        let country: &[Cell] = if new { &[(1, 1), (10, 9)] } else { &[(1, 0)] };
        let rest = [(14, 3008), (1, 1), (2, 2), (6, 12)];
        [&[(15, 1200)], country, &rest].concat()
    };
    let [first, second] = new_countries.map(group);
    etcs(
        5,
        1,
        length,
        &[&[(2, 1)], &first[..], &[(5, 1)], &second].concat(),
    )
}

/// An ETCS-27 with N_ITER 4 and no train types.
pub fn static_speeds(length: u64) -> Vec<Cell> {
    let group = [(15, 800), (7, 40), (1, 0), (5, 0)];
    etcs(
        27,
        1,
        length,
        &[&[(2, 1)], &group[..], &[(5, 4)], &group.repeat(4)].concat(),
    )
}

/// An ETCS-41 with N_ITER 0, at level 0 or, with its NID_STM, at level 1.
pub fn level_order(length: u64, level: &[Cell]) -> Vec<Cell> {
    etcs(
        41,
        1,
        length,
        &[&[(2, 1), (15, 100)], level, &[(15, 0), (5, 0)]].concat(),
    )
}

/// An ETCS-44 with a CTCS-2, N_ITER 3.
pub fn speed_restrictions(lengths: [u64; 2]) -> Vec<Cell> {
    let group = [(15, 1000), (15, 300), (1, 0), (7, 9)];
    let rest = [
        &[(2, 1), (15, 6000)],
        &group[..],
        &[(5, 3)],
        &group.repeat(3),
    ]
    .concat();
    ctcs(2, 1, lengths, &rest)
}

/// An ETCS-72 with both levels 5: scale, distance, length of display, characters.
pub fn text(length: u64, scale: u64, distances: [u64; 2], characters: u64) -> Vec<Cell> {
    let [distance, display] = distances;
    let front = [(2, scale), (2, 1), (1, 0), (15, distance), (4, 0), (3, 5)];
    let back = [
        (15, display),
        (10, 1023),
        (4, 15),
        (3, 5),
        (2, 0),
        (8, characters),
    ];
    let words: Vec<Cell> = (0..characters).map(|index| (8, 65 + index % 26)).collect();
    etcs(72, 1, length, &[&front[..], &back, &words].concat())
}

/// An ETCS-44 with a CTCS-5 in a direction.
pub fn absolute_stop(direction: u64) -> Vec<Cell> {
    ctcs(5, direction, [25, 48], &[(1, 0)])
}

/// The stop telegram: ETCS-44 with CTCS-5, ETCS-132, ETCS-137.
pub fn stop() -> Draft {
    telegram(&[
        absolute_stop(1),
        etcs(132, 1, 24, &[(1, 0)]),
        etcs(137, 1, 24, &[(1, 1)]),
    ])
}

/// An ETCS-42 with a radio number.
pub fn session(radio: u64) -> Vec<Cell> {
    etcs(
        42,
        1,
        113,
        &[(1, 1), (10, 9), (14, 77), (64, radio), (1, 0)],
    )
}

/// An ETCS-44 with a CTCS-3.
pub fn reverse_area(scale: u64, start: u64, length: u64) -> Vec<Cell> {
    ctcs(3, 1, [56, 79], &[(2, scale), (15, start), (15, length)])
}

/// An ETCS-79 with N_ITER 0, no new country and offset 0.
pub fn position(scale: u64, position: u64) -> Vec<Cell> {
    let group = [(1, 0), (14, 3008), (15, 0), (1, 1), (20, position)];
    etcs(79, 1, 81, &[&[(2, scale)], &group[..], &[(5, 0)]].concat())
}

/// An ETCS-132 in a direction.
pub fn danger(direction: u64) -> Vec<Cell> {
    etcs(132, direction, 24, &[(1, 1)])
}

/// An ETCS-137 in a direction.
pub fn stop_in(direction: u64) -> Vec<Cell> {
    etcs(137, direction, 24, &[(1, 0)])
}

/// An ETCS-21 with N_ITER 0 in a direction.
pub fn gradients(direction: u64) -> Vec<Cell> {
    let rest = [(2, 1), (15, 205), (1, 1), (8, 5), (5, 0)];
    etcs(21, direction, 54, &rest)
}

/// Two packets of one kind, in every pair of directions.
fn pairs(packet: fn(u64) -> Vec<Cell>) -> impl Iterator<Item = Draft> {
    (0..9).map(move |pair| telegram(&[packet(pair / 3), packet(pair % 3)]))
}

/// Every worked case that a list of values or a string of bits can put, in order.
pub fn cases() -> Vec<Draft> {
    let empty = || draft(&[&HEADER[..], &[(8, 255)]].concat());
    let mut longer = empty();
    longer.put(Mark::Plain, 1, 0);
    let mut cases = vec![empty(), longer];
    let alone = [
        linking(108, [false, false]),
        linking(118, [true, false]),
        linking(118, [false, true]),
        static_speeds(170),
        level_order(71, &[(3, 1), (8, 2)]),
        level_order(63, &[(3, 0)]),
        speed_restrictions([198, 221]),
        speed_restrictions([198, 224]),
        speed_restrictions([201, 224]),
        text(164, 1, [10, 20], 9),
        text(164, 1, [10, 20], 13),
        text(196, 1, [10, 20], 13),
        session(0x0861_4970_0200_02ff),
        session(0x8614_9700_2000_2fff),
        session(0x0861_4970_0200_0ff2),
        reverse_area(2, 50, 400),
        reverse_area(1, 500, 4000),
        reverse_area(0, 200, 1005),
        text(772, 1, [10, 20], 85),
        text(780, 1, [10, 20], 86),
        reverse_area(2, 3276, 3276),
        reverse_area(2, 3277, 0),
        reverse_area(2, 0, 3277),
        position(2, 104_857),
        position(2, 104_858),
        text(164, 2, [5, 32767], 9),
    ];
    cases.extend(alone.map(|packet| telegram(&[packet])));
    cases.push(stop());
    cases.extend(pairs(danger));
    cases.extend(pairs(absolute_stop));
    cases.push(telegram(&[gradients(1), gradients(2)]));
    cases
}
