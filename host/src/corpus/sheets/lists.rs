//! Sheets of lists of values that need not be those of a telegram.

use crate::corpus::random::Random;
use crate::corpus::sound::sound;
use crate::corpus::values::{too_long, values};
use crate::field::{Field, ALL};
use crate::sheet::{due, text, Row};
use crate::source::Noted;
use crate::telegram;
use crate::values::ValueFields;

/// The sheet of a list for the writer.
pub(super) fn listed(random: &mut Random) -> Vec<u8> {
    let values = match random.percent(20) {
        true => too_long(random).values(),
        false => values(random),
    };
    sheet(random, &values)
}

/// The sheet of a telegram that has a radio number.
pub(super) fn with_radio_number(random: &mut Random) -> Vec<u8> {
    loop {
        let rows = rows(&sound(random).values());
        if rows.iter().any(|row| row.field.holds_radio_number()) {
            return text(&rows);
        }
    }
}

/// A sheet with the right names as far as the writer gets, and any after that.
pub(super) fn sheet(random: &mut Random, values: &[u64]) -> Vec<u8> {
    let mut rows = rows(values);
    for &value in &values[rows.len()..] {
        let field = any_with_decimals(random);
        rows.push(Row { field, value });
    }
    text(&rows)
}

/// The rows of values as far as the writer gets.
pub(super) fn rows(values: &[u64]) -> Vec<Row> {
    let mut fields = Noted::new(ValueFields::new(values));
    // Whether it gets to the end does not matter here.
    let _ = telegram::walk(&mut fields);
    due(&fields)
}

fn any_with_decimals(random: &mut Random) -> Field {
    loop {
        let field = ALL[random.index(ALL.len())];
        if !field.holds_radio_number() {
            return field;
        }
    }
}
