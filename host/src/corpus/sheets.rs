//! Inputs for the program `sheets`: lines of telegrams, and sheets with damage.

mod cells;
mod fixed;
mod lists;
mod rows;
mod text;

use super::draft::{digits, unpack};
use super::random::Random;
use super::Telegram;
use crate::worked;

/// Lines that do not depend on chance: the worked telegrams, and lines with few or no bits.
pub fn fixed_lines() -> Vec<Vec<u8>> {
    let worked = worked::cases();
    let mut lines: Vec<String> = worked.iter().map(|case| digits(&case.bits())).collect();
    let empty = lines[0].clone();
    lines.extend(["", "\n", "\n\n", "0", "1\n", "\r\n"].map(String::from));
    lines.extend(["\n", "\n\n", "\r\n", " \n", "\0"].map(|end| format!("{empty}{end}")));
    lines.into_iter().map(String::into_bytes).collect()
}

/// Sheets that depend on chance for little: each header, name and form of a value.
pub fn fixed_sheets(random: &mut Random) -> Vec<Vec<u8>> {
    fixed::sheets(random)
}

/// A telegram as a line. Where its bytes do not go with its n, the bits there are make the line,
/// and now and then the line is no right one.
pub fn line(random: &mut Random, telegram: &Telegram) -> Vec<u8> {
    let n = usize::try_from(telegram.n).unwrap_or(usize::MAX);
    let mut line = digits(&unpack(&telegram.bytes, n)).into_bytes();
    match random.below(40) {
        0 | 1 => return line,
        2 => line.extend(b"\n"),
        3 => line.extend(b"\r"),
        4 => line.insert(0, b'\n'),
        5 => text::insert_byte(random, &mut line),
        6 => line.resize(random.between(829, 2000) as usize, b'0'),
        _ => {}
    }
    line.push(b'\n');
    line
}

/// A sheet with damage, and now and then more of it, which shows what is seen first.
pub fn damaged(random: &mut Random, sheet: &[u8]) -> Vec<u8> {
    let times = random.pick(&[1, 1, 1, 1, 2]);
    (0..times).fold(sheet.to_vec(), |text, _| damaged_once(random, text))
}

fn damaged_once(random: &mut Random, text: Vec<u8>) -> Vec<u8> {
    match random.below(100) {
        0..=19 => text::damaged(random, text),
        20..=44 => rows::damaged(random, &text),
        45..=77 => cells::damaged(random, &text),
        78..=84 => cells::damaged_radio_number(random, &text),
        85..=97 => lists::listed(random),
        _ => text::lengthened(random, text),
    }
}

/// The lines of a text, each with its newline. The first is the header.
fn lines(text: &[u8]) -> Vec<Vec<u8>> {
    let lines = text.split_inclusive(|&byte| byte == b'\n');
    lines.map(<[u8]>::to_vec).collect()
}

/// A line that is not the header, if there is one.
fn any_row(random: &mut Random, lines: &[Vec<u8>]) -> Option<usize> {
    (lines.len() > 1).then(|| 1 + random.index(lines.len() - 1))
}
