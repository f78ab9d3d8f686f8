//! Sheets that chance would bring up too seldom, or leave out: every header, name and form of a
//! value once, and another name once in the place of each.

use super::lists::{rows, sheet};
use super::text::HEADERS;
use crate::corpus::random::Random;
use crate::corpus::sound::sound;
use crate::field::{Field, ALL};
use crate::sheet::{text, Row, HEADER};
use crate::worked;
use std::collections::BTreeSet;

/// Forms of a decimal value, right and wrong.
const DECIMALS: [&str; 16] = [
    "",
    "0",
    "00",
    "09",
    "+9",
    "-9",
    " 9",
    "9 ",
    "9.0",
    "\"9\"",
    "F",
    "18446744073709551615",
    "18446744073709551616",
    "18446744073709551625",
    "20000000000000000000",
    "340282366920938463463374607431768211465",
];

/// Forms of a radio number, right and wrong.
const RADIO_NUMBERS: [&str; 12] = [
    "",
    "0",
    "F",
    "08614970020002F",
    "08614970020002FFF",
    "08614970020002ff",
    "08614970020002FA",
    "0861497002000FF2",
    "FFFFFFFFFFFFFFF0",
    "FFFFFFFFFFFFFFFF",
    "1234567890123456",
    "604068206010827519",
];

pub(super) fn sheets(random: &mut Random) -> Vec<Vec<u8>> {
    let mut sheets: Vec<Vec<u8>> = worked::cases()
        .iter()
        .map(|case| sheet(random, &case.values()))
        .collect();
    sheets.extend(headers());
    sheets.extend(ALL.iter().flat_map(widths));
    sheets.extend(values());
    sheets.extend(wrong_names(random));
    sheets
}

/// Every header, alone and with the rows of the empty telegram.
fn headers() -> Vec<Vec<u8>> {
    let empty = text(&rows(&worked::telegram(&[]).values()));
    let empty = &empty[HEADER.len()..];
    let headers = HEADERS.into_iter().chain([HEADER]);
    headers
        .flat_map(|header| [header.to_vec(), [header, empty].concat()])
        .collect()
}

/// A name in the first row, with its width and with another.
fn widths(field: &Field) -> [Vec<u8>; 2] {
    let row = |width| {
        let mut field = *field;
        field.width = width;
        text(&[Row { field, value: 1 }])
    };
    [row(field.width), row(field.width + 1)]
}

/// Every form of a value in a sheet that is right but for it.
fn values() -> Vec<Vec<u8>> {
    let radio_number = 0x0861_4970_0200_02ff;
    let session = worked::telegram(&[worked::session(radio_number)]);
    let right = String::from_utf8(text(&rows(&session.values()))).unwrap_or_default();
    let with = |former: &str, form: &str| right.replacen(former, &format!(",{form}\r\n"), 1);
    let decimals = DECIMALS.iter().map(|form| with(",9\r\n", form));
    let former = format!(",{radio_number:016X}\r\n");
    let radio_numbers = RADIO_NUMBERS.iter().map(|form| with(&former, form));
    decimals
        .chain(radio_numbers)
        .map(String::into_bytes)
        .collect()
}

/// Sheets with one wrong name, so that every name is once the one that is due.
fn wrong_names(random: &mut Random) -> Vec<Vec<u8>> {
    let mut met = BTreeSet::new();
    let mut sheets = Vec::new();
    while met.len() < ALL.len() {
        let mut rows = rows(&sound(random).values());
        for index in 0..rows.len() {
            if !met.insert(rows[index].field.name) {
                continue;
            }
            let right = rows[index].field;
            rows[index].field = other_name(random, &right);
            sheets.push(text(&rows));
            rows[index].field = right;
        }
    }
    sheets
}

/// Another name, of the same width if there is one. A radio number has no decimals, so that it
/// cannot stand for another field.
fn other_name(random: &mut Random, right: &Field) -> Field {
    let others: Vec<&Field> = ALL
        .iter()
        .filter(|field| field.name != right.name && !field.holds_radio_number())
        .collect();
    let alike: Vec<&Field> = others
        .iter()
        .copied()
        .filter(|field| field.width == right.width)
        .collect();
    *random.pick(if alike.is_empty() { &others } else { &alike })
}
