//! One row of a data sheet: `NAME,WIDTH,VALUE` and a line end.

use crate::field::{Field, ALL, END, NID_PACKET};
use crate::telegram::END_MARK;

const LINE_END: &str = "\r\n";

/// What a row says: a field by its name, and the value in it.
#[derive(Clone, Copy)]
pub(crate) struct Row {
    pub field: Field,
    pub value: u64,
}

impl Row {
    /// The row due for a field of a telegram: the end mark has a name of its own.
    pub fn due(field: Field, value: u64) -> Row {
        let is_end_mark = field.name == NID_PACKET.name && value == END_MARK;
        let field = if is_end_mark { END } else { field };
        Row { field, value }
    }

    /// The row as it stands in a sheet.
    pub fn text(&self) -> String {
        let (name, width, value) = (self.field.name, self.field.width, self.value);
        if self.field.holds_radio_number() {
            // Digits and F alone, as far as the telegram is accepted.
            format!("{name},{width},{value:016X}{LINE_END}")
        } else {
            format!("{name},{width},{value}{LINE_END}")
        }
    }

    /// The row at the start of a text, and the text after it.
    pub fn first(text: &[u8]) -> Option<(Row, &[u8])> {
        let end = text.iter().position(|&byte| byte == b'\n')? + 1;
        let (line, rest) = text.split_at(end);
        Some((Row::parse(line.strip_suffix(LINE_END.as_bytes())?)?, rest))
    }

    /// The row that a line without its end says.
    fn parse(line: &[u8]) -> Option<Row> {
        let cells: Vec<&[u8]> = line.split(|&byte| byte == b',').collect();
        let [name, width, value] = cells[..] else {
            return None;
        };
        let field = *ALL.iter().find(|field| field.name.as_bytes() == name)?;
        if width != field.width.to_string().as_bytes() {
            return None;
        }
        let value = match field.holds_radio_number() {
            true => radio_number(value)?,
            false => decimal(value)?,
        };
        Some(Row { field, value })
    }
}

/// A number of 64 bits, without a sign and without a needless zero.
fn decimal(digits: &[u8]) -> Option<u64> {
    let is_plain = match digits {
        [] => false,
        [b'0'] => true,
        [first, ..] => *first != b'0' && digits.iter().all(u8::is_ascii_digit),
    };
    let text = std::str::from_utf8(digits).ok()?;
    // What is left to fail is a number that is too big.
    is_plain.then(|| text.parse().ok())?
}

/// Sixteen places, each a digit or F. Whether the Fs come last is for the writer to say.
fn radio_number(places: &[u8]) -> Option<u64> {
    let is_place = |byte: &u8| byte.is_ascii_digit() || *byte == b'F';
    if places.len() != 16 || !places.iter().all(is_place) {
        return None;
    }
    let text = std::str::from_utf8(places).ok()?;
    u64::from_str_radix(text, 16).ok()
}
