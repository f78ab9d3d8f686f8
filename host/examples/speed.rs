//! Times the check and the normaliser, in nanoseconds per telegram.

use plain::corpus::random::Random;
use plain::corpus::sound::{full, several};
use plain::corpus::Telegram;
use plain::{check, normalise, worked, MAX_BITS, MAX_BYTES};
use std::hint::black_box;
use std::time::Instant;

const TELEGRAMS: usize = 1000;
const ROUNDS: usize = 20;
const REPEATS: usize = 51;

fn main() {
    let mut random = Random::new(1);
    let empty = Telegram::of(&worked::telegram(&[]).bits());
    let typical: Vec<Telegram> = std::iter::repeat_with(|| several(&mut random, 8, 650))
        .filter(|draft| draft.len() >= 300 && count_packets(draft) >= 3)
        .map(|draft| Telegram::of(&draft.bits()))
        .take(TELEGRAMS)
        .collect();
    let mut random = Random::new(2);
    let longest: Vec<Telegram> = std::iter::repeat_with(|| Telegram::of(&full(&mut random).bits()))
        .take(TELEGRAMS)
        .collect();
    report("empty, 58 bits", &vec![empty; TELEGRAMS]);
    report("typical, 300 to 650 bits", &typical);
    report("longest, 830 bits", &longest);
}

fn count_packets(draft: &plain::corpus::draft::Draft) -> usize {
    draft.marked(plain::corpus::draft::Mark::Length).len()
}

fn report(name: &str, telegrams: &[Telegram]) {
    assert!(telegrams
        .iter()
        .all(|telegram| telegram.n as usize <= MAX_BITS));
    let checking = median(telegrams, |telegram| {
        black_box(check(black_box(&telegram.bytes), telegram.n)).is_ok()
    });
    let mut out = [0; MAX_BYTES];
    let normalising = median(telegrams, |telegram| {
        let done = normalise(black_box(&telegram.bytes), telegram.n, &mut out);
        black_box(&out);
        done.is_ok()
    });
    println!("{name}: check {checking:.1} ns, normalise {normalising:.1} ns");
}

/// The middle of the repeats, each the mean over all telegrams and rounds.
fn median(telegrams: &[Telegram], mut work: impl FnMut(&Telegram) -> bool) -> f64 {
    let mut times: Vec<f64> = (0..REPEATS)
        .map(|_| {
            let start = Instant::now();
            for _ in 0..ROUNDS {
                let sound = telegrams.iter().filter(|telegram| work(telegram)).count();
                assert_eq!(sound, telegrams.len());
            }
            start.elapsed().as_nanos() as f64 / (ROUNDS * telegrams.len()) as f64
        })
        .collect();
    times.sort_by(f64::total_cmp);
    times[REPEATS / 2]
}
