//! The message of a balise group: the proved one beside the independent one, and beside the checks of its telegrams alone.

use crate::corpora::HELD_OUT;
use crate::proved;
use crate::ratio::{Ratios, REPEATS};
use crate::table::print_row;
use plain::corpus::groups::{largest, typical};
use plain::group::{message, telegrams};
use std::hint::black_box;
use std::time::Instant;

const GROUPS: u64 = 200;
const ROUNDS: usize = 20;
const PACKETS: usize = 264;

/// The bytes of a group and how many bits each telegram has.
type Group = (Vec<u8>, Vec<u64>);

/// What the code was tried with while it was picked: the same at each run.
pub fn report_known() {
    report("", 0);
}

/// As many of each kind from another seed, by which nobody picked the code.
pub fn report_held_out(seed: u64) {
    report(HELD_OUT, seed);
}

fn report(prefix: &str, seed: u64) {
    // Each group has a seed of its own, and no two rows of groups share one.
    let first = seed.wrapping_mul(GROUPS);
    let drawn = |draw: fn(u64) -> Group| (0..GROUPS).map(|k| draw(first.wrapping_add(k))).collect();
    times(
        &format!("{prefix}a group of 3, as in Annex B"),
        drawn(typical),
    );
    times(&format!("{prefix}a group of 8 of 830 bits"), drawn(largest));
}

fn times(name: &str, groups: Vec<Group>) {
    let mut whole = Ratios::default();
    let mut beside_checks = Ratios::default();
    for _ in 0..REPEATS {
        let proved = time(&groups, proved_message);
        whole.add(proved, time(&groups, independent_message));
        beside_checks.add(proved, time(&groups, proved_checks));
    }
    print_row(name, "message", "ns", &whole, None);
    print_row(name, "and checks", "ns", &beside_checks, None);
}

fn proved_message((bytes, sizes): &Group) -> bool {
    let mut pigs = [0; PACKETS];
    let mut numbers = [0; PACKETS];
    proved::group(bytes, sizes, &mut pigs, &mut numbers) <= PACKETS as u64
}

#[inline(never)]
fn independent_message((bytes, sizes): &Group) -> bool {
    message(bytes, sizes, PACKETS).is_ok()
}

fn proved_checks((bytes, sizes): &Group) -> bool {
    telegrams(bytes, sizes).all(|(part, n)| proved::check(part, n) == 0)
}

/// The mean time of one group, in nanoseconds.
fn time(groups: &[Group], accepts: impl Fn(&Group) -> bool) -> f64 {
    let start = Instant::now();
    for _ in 0..ROUNDS {
        for group in groups {
            assert!(black_box(accepts(black_box(group))));
        }
    }
    start.elapsed().as_nanos() as f64 / (ROUNDS * groups.len()) as f64
}
