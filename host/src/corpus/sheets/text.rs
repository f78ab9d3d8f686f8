//! Damage to the text of a sheet as such: bytes, line ends, the header, the end of the text.

use super::{any_row, lines};
use crate::corpus::random::Random;

/// Bytes that mean something in a sheet, or would in other kinds of tables.
const TELLING: &[u8] = b",,\r\n\r\n\"\" 0019F+-;\t.\0\x1a\xff";

/// First rows that are not the header.
pub(super) const HEADERS: [&[u8]; 14] = [
    b"",
    b"\r\n",
    b"variable,bits,value",
    b"variable,bits,value\n",
    b"variable,bits,value\r",
    b"variable,bits,value\n\r",
    b"variable,bits,value\r\n\r\n",
    b"variable,bits,value,\r\n",
    b"Variable,Bits,Value\r\n",
    b"variable,bits\r\n",
    b"variable;bits;value\r\n",
    b"variable,value,bits\r\n",
    b"\"variable\",\"bits\",\"value\"\r\n",
    b"\xef\xbb\xbfvariable,bits,value\r\n",
];

pub(super) fn damaged(random: &mut Random, mut text: Vec<u8>) -> Vec<u8> {
    match random.below(10) {
        0 => flip_bit(random, &mut text),
        1 => replace_byte(random, &mut text),
        2 => drop_byte(random, &mut text),
        3 => insert_byte(random, &mut text),
        4 | 5 => text = with_line_end(random, &text),
        6 => text = with_header(random, &text),
        7 => text.truncate(random.between(0, text.len() as u64) as usize),
        _ => append(random, &mut text),
    }
    text
}

fn flip_bit(random: &mut Random, text: &mut [u8]) {
    if !text.is_empty() {
        text[random.index(text.len())] ^= 1 << random.below(8);
    }
}

fn replace_byte(random: &mut Random, text: &mut [u8]) {
    if !text.is_empty() {
        text[random.index(text.len())] = any_byte(random);
    }
}

fn drop_byte(random: &mut Random, text: &mut Vec<u8>) {
    if !text.is_empty() {
        text.remove(random.index(text.len()));
    }
}

pub(super) fn insert_byte(random: &mut Random, text: &mut Vec<u8>) {
    let at = random.index(text.len() + 1);
    text.insert(at, any_byte(random));
}

fn any_byte(random: &mut Random) -> u8 {
    match random.percent(80) {
        true => random.pick(TELLING),
        false => random.byte(),
    }
}

/// Gives one line, as often as not the last, another end.
fn with_line_end(random: &mut Random, text: &[u8]) -> Vec<u8> {
    let mut lines = lines(text);
    let at = match random.percent(50) {
        true => lines.len().saturating_sub(1),
        false => random.index(lines.len().max(1)),
    };
    if let Some(line) = lines.get_mut(at) {
        let kept = line.trim_ascii_end().len();
        line.truncate(kept);
        let ends: [&[u8]; 7] = [b"", b"\r", b"\n", b"\n\r", b"\r\r\n", b"\r\n\n", b" \r\n"];
        line.extend(random.pick(&ends));
    }
    lines.concat()
}

/// Puts another header in the place of the first line.
fn with_header(random: &mut Random, text: &[u8]) -> Vec<u8> {
    let mut lines = lines(text);
    if let Some(header) = lines.first_mut() {
        *header = match random.below(6) {
            0 => header.repeat(2),
            1 => header[1.min(header.len())..].to_vec(),
            _ => random.pick(&HEADERS).to_vec(),
        };
    }
    lines.concat()
}

fn append(random: &mut Random, text: &mut Vec<u8>) {
    let lines = lines(text);
    match (random.below(5), any_row(random, &lines)) {
        (0, _) => text.push(any_byte(random)),
        (1, _) => text.extend(b"\r\n"),
        (2, Some(row)) => text.extend(&lines[row]),
        (3, _) => text.extend(lines.first().cloned().unwrap_or_default()),
        _ => text.extend(text.clone()),
    }
}

/// Makes the text very long.
pub(super) fn lengthened(random: &mut Random, mut text: Vec<u8>) -> Vec<u8> {
    let near = [65_535, 65_536, 65_537, 131_072];
    let length = match random.percent(30) {
        true => random.pick(&near),
        false => random.between(40_000, 200_000) as usize,
    };
    match random.below(5) {
        0 => text.resize(length, any_byte(random)),
        1 => text.resize_with(length, || random.byte()),
        2 => {
            // One row whose value goes on and on.
            text.truncate(text.trim_ascii_end().len());
            text.resize(length, random.pick(b"0123456789F"));
            text.extend(b"\r\n");
        }
        3 => text = text.into_iter().cycle().take(length).collect(),
        _ => {
            let lines = lines(&text);
            let row = any_row(random, &lines).map_or(&b"\r\n"[..], |row| &lines[row]);
            let filler = row.iter().copied().cycle();
            text.extend(filler.take(length.saturating_sub(text.len())));
        }
    }
    text
}
