//! Telegrams as the words of a line, and lines that are no question.

use crate::corpus::draft::{digits, pack, unpack};
use crate::corpus::random::Random;
use crate::corpus::Telegram;
use crate::group::program::{MOST_BITS, MOST_BYTES, MOST_WORDS};

/// How the words of a line are written.
#[derive(Clone, Copy, PartialEq, Eq)]
enum Form {
    Bits,
    Capitals,
    Small,
    Mixed,
}

/// A line with these telegrams. One whose bytes do not go with its n can't be written as bits.
pub(super) fn line(random: &mut Random, telegrams: &[Telegram]) -> Vec<u8> {
    let form = match random.below(20) {
        0..=10 => Form::Capitals,
        11 => Form::Small,
        12..=15 => Form::Bits,
        _ => Form::Mixed,
    };
    let words: Vec<String> = telegrams
        .iter()
        .map(|telegram| match form {
            Form::Mixed => {
                let form = random.pick(&[Form::Bits, Form::Capitals, Form::Small]);
                word(telegram, form)
            }
            form => word(telegram, form),
        })
        .collect();
    words.join(" ").into_bytes()
}

fn word(telegram: &Telegram, form: Form) -> String {
    let bits = unpack(&telegram.bytes, usize::try_from(telegram.n).unwrap_or(0));
    let is_plain = (1..=MOST_BITS as u64).contains(&telegram.n)
        && bits.len() as u64 == telegram.n
        && pack(&bits) == telegram.bytes;
    if form == Form::Bits && is_plain {
        return digits(&bits);
    }
    let bytes = telegram.bytes.iter().map(|byte| match form {
        Form::Small => format!("{byte:02x}"),
        _ => format!("{byte:02X}"),
    });
    format!("{}:{}", bytes.collect::<String>(), telegram.n)
}

/// Makes words longer or shorter by bytes, which moves what follows in the buffer.
pub(super) fn resize(random: &mut Random, telegrams: &mut [Telegram]) {
    let at = match random.percent(50) {
        true => telegrams.len() - 1,
        false => random.index(telegrams.len()),
    };
    let bytes = &mut telegrams[at].bytes;
    let by = random.pick(&[1, 1, 1, 2, 8]);
    match random.below(4) {
        0 => bytes.resize((bytes.len() + by).min(MOST_BYTES), 0),
        1 => {
            let byte = random.byte();
            bytes.insert(0, byte);
        }
        2 => bytes.truncate(bytes.len().saturating_sub(by)),
        _ => {
            bytes.remove(0);
        }
    }
    bytes.truncate(MOST_BYTES);
}

/// Moves bytes from a word to the next or back, which leaves the buffer as it was.
pub(super) fn shift(random: &mut Random, telegrams: &mut [Telegram]) {
    for at in 1..telegrams.len() {
        let (front, back) = telegrams.split_at_mut(at);
        let (one, other) = (&mut front[at - 1].bytes, &mut back[0].bytes);
        let both = [&one[..], other].concat();
        let least = both.len().saturating_sub(MOST_BYTES) as u64;
        let cut = random.between(least, both.len().min(MOST_BYTES) as u64) as usize;
        *one = both[..cut].to_vec();
        *other = both[cut..].to_vec();
    }
}

/// Makes a line none that is a question, or now and then one that still is.
pub(super) fn spoil(random: &mut Random, mut line: Vec<u8>) -> Vec<u8> {
    let colon = line.iter().position(|&byte| byte == b':');
    match (random.below(5), colon) {
        (0, _) => space(random, &mut line),
        (1 | 2, Some(colon)) => misspell(random, &mut line, colon),
        (3, _) => lengthen(random, &mut line),
        _ => {
            let any = random.byte().max(b'\n' + 1);
            let character = random.pick(&[any, b'\r', b'2', b'g', b'+', b'\t', b':', b'-', 0]);
            let at = random.index(line.len() + 1);
            line.insert(at, character);
        }
    }
    line
}

/// Puts a space where none should be, or a carriage return at the end.
fn space(random: &mut Random, line: &mut Vec<u8>) {
    let space = line.iter().position(|&byte| byte == b' ');
    match (random.below(4), space) {
        (0, Some(space)) => line.insert(space, b' '),
        (1, _) => line.insert(0, b' '),
        (2, _) => line.push(b'\r'),
        _ => line.push(b' '),
    }
}

/// Spoils the word with a colon here: an odd digit, a needless zero, a number too big or none.
fn misspell(random: &mut Random, line: &mut Vec<u8>, colon: usize) {
    let numbers: [&[u8]; 4] = [
        b"18446744073709551616",
        b"99999999999999999999",
        b"",
        b"+58",
    ];
    match random.below(5) {
        0 => {
            line.remove(colon.saturating_sub(1));
        }
        1 => line.insert(colon, b'0'),
        2 => line.insert(colon + 1, b'0'),
        3 => {
            line.remove(colon);
        }
        _ => {
            line.truncate(colon + 1);
            line.extend(random.pick(&numbers));
        }
    }
}

/// Makes a line of too many words, or a word that is too long or just not.
fn lengthen(random: &mut Random, line: &mut Vec<u8>) {
    let words = line.split(|&byte| byte == b' ').count();
    match random.below(3) {
        0 => line.extend(b" 90027F8125DFFFC0:58".repeat(MOST_WORDS + 1 - words)),
        1 => *line = vec![b'1'; MOST_BITS + random.index(3)],
        _ => {
            let digits = vec![b'0'; 2 * MOST_BYTES + random.index(4)];
            *line = [&digits[..], b":58"].concat();
        }
    }
}
