//! Damage to one row of a sheet: its name, its width, its value.

use super::{lines, lists};
use crate::corpus::random::Random;
use crate::field::{Field, ALL, END, NID_PACKET};
use crate::sheet::Row;

/// A row in its three parts, without its line end.
struct Cells {
    name: Vec<u8>,
    width: Vec<u8>,
    value: Vec<u8>,
}

impl Cells {
    /// The parts of a line, unless damage has left it without three.
    fn of(line: &[u8]) -> Option<Cells> {
        let cells: Vec<&[u8]> = line.strip_suffix(b"\r\n")?.split(|&b| b == b',').collect();
        let [name, width, value] = cells[..] else {
            return None;
        };
        Some(Cells {
            name: name.to_vec(),
            width: width.to_vec(),
            value: value.to_vec(),
        })
    }

    fn line(&self) -> Vec<u8> {
        let parts: [&[u8]; 6] = [&self.name, b",", &self.width, b",", &self.value, b"\r\n"];
        parts.concat()
    }

    fn field(&self) -> Option<&'static Field> {
        ALL.iter().find(|field| field.name.as_bytes() == self.name)
    }
}

/// A row of any field with any value, which need not fit.
pub(super) fn any(random: &mut Random) -> Vec<u8> {
    let field = ALL[random.index(ALL.len())];
    let width = random.pick(&[1, field.width as u32, 64]);
    let value = match field.holds_radio_number() {
        true => 0x0861_4970_0200_02ff,
        false => random.value(width),
    };
    Row { field, value }.text().into_bytes()
}

/// Which rows a kind of damage is meant for.
type Aim = fn(&Cells) -> bool;
type Damage = fn(&mut Random, &mut Cells);

pub(super) fn damaged(random: &mut Random, text: &[u8]) -> Vec<u8> {
    let (aim, damage): (Aim, Damage) = match random.below(13) {
        0..=4 => (|_| true, rename),
        5 => (|_| true, change_width),
        6..=10 => (|cells| !is_radio_number(cells), change_value),
        _ => (is_identifier, rename_identifier),
    };
    damaged_row(random, text, aim, damage).unwrap_or(text.to_vec())
}

/// Damages a radio number, in another sheet if this one has none.
pub(super) fn damaged_radio_number(random: &mut Random, text: &[u8]) -> Vec<u8> {
    damaged_row(random, text, is_radio_number, change_radio_number).unwrap_or_else(|| {
        let other = lists::with_radio_number(random);
        damaged_row(random, &other, is_radio_number, change_radio_number).unwrap_or(other)
    })
}

/// Damages one of the rows that the damage is meant for, if there are any.
fn damaged_row(random: &mut Random, text: &[u8], aim: Aim, damage: Damage) -> Option<Vec<u8>> {
    let mut lines = lines(text);
    let meant: Vec<usize> = (1..lines.len())
        .filter(|&row| Cells::of(&lines[row]).is_some_and(|cells| aim(&cells)))
        .collect();
    if meant.is_empty() {
        return None;
    }
    let line = &mut lines[random.pick(&meant)];
    let mut cells = Cells::of(line)?;
    damage(random, &mut cells);
    *line = cells.line();
    Some(lines.concat())
}

fn is_radio_number(cells: &Cells) -> bool {
    cells.field().is_some_and(Field::holds_radio_number)
}

fn is_identifier(cells: &Cells) -> bool {
    cells.name == NID_PACKET.name.as_bytes() || cells.name == END.name.as_bytes()
}

/// The end mark by the name of a packet's identifier, and the other way round.
fn rename_identifier(_: &mut Random, cells: &mut Cells) {
    let is_end = cells.name == END.name.as_bytes();
    let other = if is_end { NID_PACKET } else { END };
    cells.name = other.name.into();
}

fn rename(random: &mut Random, cells: &mut Cells) {
    let alike: Vec<&Field> = ALL
        .iter()
        .filter(|field| field.width.to_string().as_bytes() == cells.width)
        .filter(|field| field.name.as_bytes() != cells.name)
        .collect();
    let other = ALL[random.index(ALL.len())];
    match random.below(8) {
        0..=3 if !alike.is_empty() => cells.name = random.pick(&alike).name.into(),
        4 | 5 => {
            cells.name = other.name.into();
            cells.width = other.width.to_string().into();
        }
        6 => cells.name = other.name.into(),
        _ => misspell(random, &mut cells.name),
    }
}

fn misspell(random: &mut Random, name: &mut Vec<u8>) {
    match random.below(7) {
        0 => name.make_ascii_lowercase(),
        1 => name.extend(b"(1)"),
        2 => name.push(b' '),
        3 => name.insert(0, b' '),
        4 => *name = [b"\"", &name[..], b"\""].concat(),
        5 => name.truncate(name.len().saturating_sub(1)),
        _ => name.clear(),
    }
}

fn change_width(random: &mut Random, cells: &mut Cells) {
    match random.below(5) {
        0 => cells.width.insert(0, b'0'),
        1 => cells.width.clear(),
        2 => cells.width.push(random.pick(b"0 .,")),
        _ => cells.width = random.below(65).to_string().into(),
    }
}

fn change_value(random: &mut Random, cells: &mut Cells) {
    let width = cells.field().map_or(8, |field| field.width as u32);
    let former: u64 = String::from_utf8_lossy(&cells.value).parse().unwrap_or(0);
    let over = 1u64.checked_shl(width).unwrap_or(u64::MAX);
    cells.value = match random.below(20) {
        0..=5 => random.value(width).to_string().into(),
        6 => former.wrapping_add(1).to_string().into(),
        7 => former.saturating_sub(1).to_string().into(),
        8 => over.to_string().into(),
        9 => random.word().to_string().into(),
        10 | 11 => u64::MAX.to_string().into(),
        12 => b"18446744073709551616".to_vec(),
        13 => b"99999999999999999999".to_vec(),
        // What a careless sum keeps of it is the former value.
        14 => with_higher_bit(random, former).to_string().into(),
        15 => vec![random.pick(b"0129"); random.between(2, 60) as usize],
        16 | 17 => {
            let mut zeros = vec![b'0'; random.pick(&[1, 1, 2, 20])];
            zeros.extend(&cells.value);
            zeros
        }
        _ => misformed(random, &cells.value),
    };
}

/// A number past 64 bits that differs from a value in one bit.
fn with_higher_bit(random: &mut Random, value: u64) -> u128 {
    u128::from(value) | 1 << random.between(64, 127)
}

/// A value as another program might write it.
fn misformed(random: &mut Random, value: &[u8]) -> Vec<u8> {
    let fronts: [&[u8]; 6] = [b"+", b"-", b" ", b"0x", b"\"", b"'"];
    let backs: [&[u8]; 8] = [b" ", b".0", b"e0", b"h", b"\"", b",", b"\r", b"F"];
    match random.below(5) {
        0 => Vec::new(),
        1 => [b"\"", value, b"\""].concat(),
        2 | 3 => [random.pick(&fronts), value].concat(),
        _ => [value, random.pick(&backs)].concat(),
    }
}

fn change_radio_number(random: &mut Random, cells: &mut Cells) {
    let value = &mut cells.value;
    let at = random.index(value.len().max(1));
    match random.below(10) {
        0..=3 => {
            if let Some(place) = value.get_mut(at) {
                *place = random.pick(b"0123456789FFFFFFABEfa:/G@ ");
            }
        }
        4 => value.truncate(value.len().saturating_sub(1)),
        5 => {
            value.drain(at..value.len().min(at + 1));
        }
        6 => value.insert(at, random.pick(b"09F")),
        7 => value.make_ascii_lowercase(),
        8 => {
            // In any mix, which as a row is right.
            *value = (0..16).map(|_| random.pick(b"0123456789FFFF")).collect();
        }
        _ => *value = random.value(64).to_string().into(),
    }
}
