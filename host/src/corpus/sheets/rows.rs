//! Damage to the rows of a sheet as wholes.

use super::{any_row, cells, lines};
use crate::corpus::random::Random;
use crate::field::{END, NID_PACKET, Q_DIR};
use crate::sheet::Row;
use crate::MAX_VALUES;

pub(super) fn damaged(random: &mut Random, text: &[u8]) -> Vec<u8> {
    let mut lines = lines(text);
    let Some(row) = any_row(random, &lines) else {
        return text.to_vec();
    };
    match random.below(14) {
        0 => {
            lines.remove(row);
        }
        1 => lines.insert(row, lines[row].clone()),
        2 => {
            let other = any_row(random, &lines).unwrap_or(row);
            lines.swap(row, other);
        }
        3 => {
            let next = (row + 1).min(lines.len() - 1);
            lines.swap(row, next);
        }
        4 => lines.truncate(row),
        // The header alone, or with all of its fields: where other rules end.
        5 => lines.truncate(random.pick(&[1, 2, 11])),
        6 => lines.insert(row, cells::any(random)),
        7 => lines.push(cells::any(random)),
        8..=10 => packets_moved(random, &mut lines),
        _ => filled(random, &mut lines),
    }
    lines.concat()
}

/// The lines where packets begin, and the one of the end mark.
fn starts(lines: &[Vec<u8>]) -> Vec<usize> {
    let is_start = |line: &[u8]| {
        let name = line.split(|&byte| byte == b',').next();
        name == Some(NID_PACKET.name.as_bytes()) || name == Some(END.name.as_bytes())
    };
    let all = lines.iter().enumerate();
    all.filter(|(_, line)| is_start(line))
        .map(|(index, _)| index)
        .collect()
}

/// A packet that is dropped, doubled, or doubled before the end mark, perhaps for another way.
fn packets_moved(random: &mut Random, lines: &mut Vec<Vec<u8>>) {
    let starts = starts(lines);
    let Some(packets @ 1..) = starts.len().checked_sub(1) else {
        return;
    };
    let packet = random.index(packets);
    let (from, to) = (starts[packet], starts[packet + 1]);
    let mut rows = lines[from..to].to_vec();
    if random.percent(60) {
        turn(random, &mut rows);
    }
    match random.below(4) {
        0 => {
            lines.drain(from..to);
        }
        1 => {
            lines.splice(from..from, rows);
        }
        _ => {
            let end = starts[packets];
            lines.splice(end..end, rows);
        }
    }
}

/// Gives a packet any direction, and the CTCS packet inside the same.
fn turn(random: &mut Random, rows: &mut [Vec<u8>]) {
    let (field, value) = (Q_DIR, random.below(3));
    let name = [field.name.as_bytes(), b","].concat();
    for row in rows.iter_mut().filter(|row| row.starts_with(&name)) {
        *row = Row { field, value }.text().into_bytes();
    }
}

/// As many rows as a sheet may have, or one or two more or less: behind the end mark, before
/// it, or wherever.
fn filled(random: &mut Random, lines: &mut Vec<Vec<u8>>) {
    let rows = random.between(MAX_VALUES as u64 - 2, MAX_VALUES as u64 + 2) as usize;
    let missing = rows.saturating_sub(lines.len() - 1);
    let last = lines.len() as u64;
    let at = match random.below(3) {
        0 => last,
        1 => last - 1,
        _ => random.between(1, last),
    } as usize;
    let more: Vec<Vec<u8>> = match random.percent(50) {
        true => vec![cells::any(random); missing],
        false => (0..missing).map(|_| cells::any(random)).collect(),
    };
    lines.splice(at..at, more);
    if random.percent(20) {
        lines.push(b"\r\n".to_vec());
    }
}
