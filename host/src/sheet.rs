//! Data sheets: a telegram as a table in RFC 4180 text, a row to a field.
//!
//! A sheet and its telegram say the same: [`export`] gives the one sheet of a telegram, and
//! [`import`] accepts that sheet and no other text.

pub mod program;
mod row;

use crate::bits::{BitFields, Counter};
use crate::source::{Fields, Noted};
use crate::values::ValueFields;
use crate::{measure, telegram, Refusal, MAX_VALUES};
pub(crate) use row::Row;

/// The first row.
pub(crate) const HEADER: &[u8] = b"variable,bits,value\r\n";

/// The number of the refusals that have a row.
const SHEET_REFUSAL: u32 = 20;

/// Why a sheet is refused. Rows are counted from 1, and the header is row 0.
#[derive(Clone, Copy, Debug, PartialEq, Eq)]
pub enum Refused {
    /// The text has no row of a sheet here, or one too many.
    Row(u64),
    /// The value column is not that of a telegram.
    Telegram(Refusal),
    /// The values are those of a telegram, but this row has not the name that is due.
    Name(u64),
}

impl Refused {
    /// The refusal number.
    pub fn number(&self) -> u32 {
        match self {
            Refused::Row(_) | Refused::Name(_) => SHEET_REFUSAL,
            Refused::Telegram(refusal) => refusal.number,
        }
    }

    /// The row, or the place in the telegram.
    pub fn place(&self) -> u64 {
        match self {
            Refused::Row(row) | Refused::Name(row) => *row,
            Refused::Telegram(refusal) => refusal.place,
        }
    }
}

/// The sheet of a telegram of `n` bits.
pub fn export(bytes: &[u8], n: u64) -> Result<Vec<u8>, Refusal> {
    let n = measure(bytes, n)?;
    let mut fields = Noted::new(BitFields::new(bytes, n, Counter(0)));
    telegram::walk(&mut fields)?;
    Ok(text(&due(&fields)))
}

/// The telegram of a sheet: its bytes and its number of bits.
pub fn import(text: &[u8]) -> Result<(Vec<u8>, u64), Refused> {
    let rows = rows(text).map_err(Refused::Row)?;
    let values: Vec<u64> = rows.iter().map(|row| row.value).collect();
    let mut fields = Noted::new(ValueFields::new(&values));
    telegram::walk(&mut fields).map_err(Refused::Telegram)?;
    // Accepted values are as many as the fields, so that no row is without one.
    let due = due(&fields);
    let mut pairs = rows.iter().zip(&due);
    if let Some(index) = pairs.position(|(row, due)| row.field.name != due.field.name) {
        return Err(Refused::Name(index as u64 + 1));
    }
    let n = fields.source.position();
    Ok((fields.source.bytes[..n.div_ceil(8)].to_vec(), n as u64))
}

/// The rows after the header, or the number of the first bad one.
fn rows(text: &[u8]) -> Result<Vec<Row>, u64> {
    let mut rest = text.strip_prefix(HEADER).ok_or(0u64)?;
    let mut rows = Vec::new();
    while !rest.is_empty() {
        let number = rows.len() as u64 + 1;
        if rows.len() == MAX_VALUES {
            return Err(number);
        }
        let (row, after) = Row::first(rest).ok_or(number)?;
        rows.push(row);
        rest = after;
    }
    Ok(rows)
}

/// The rows that are due for the fields of a telegram, as far as they have been taken.
pub(crate) fn due<F>(fields: &Noted<F>) -> Vec<Row> {
    let taken = fields.taken.iter();
    taken
        .map(|&(field, value)| Row::due(field, value))
        .collect()
}

/// The sheet with these rows.
pub(crate) fn text(rows: &[Row]) -> Vec<u8> {
    let rows: String = rows.iter().map(Row::text).collect();
    [HEADER, rows.as_bytes()].concat()
}
