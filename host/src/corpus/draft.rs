//! A telegram as a list of fields, before it is packed and perhaps damaged.

use std::ops::Range;

/// What a field is, as far as damage aims at it.
#[derive(Clone, Copy, Debug, PartialEq, Eq)]
pub enum Mark {
    /// Nothing in particular.
    Plain,
    /// A field of the header that has a rule.
    Header,
    /// NID_PACKET, the end mark's too.
    Identifier,
    /// The Q_DIR of a packet.
    Direction,
    /// The L_PACKET of a packet.
    Length,
    /// NID_XUSER.
    InnerIdentifier,
    /// The Q_DIR of a CTCS packet.
    InnerDirection,
    /// The L_PACKET of a CTCS packet.
    InnerLength,
    /// Q_SCALE.
    Scale,
    /// A distance at its packet's scale.
    Distance,
    /// L_TEXTDISPLAY, a distance that may be unlimited.
    TextLength,
    /// N_ITER or L_TEXT.
    Count,
    /// A field that may not hold everything its width holds.
    Ruled,
}

/// A field with its value.
#[derive(Clone, Copy, Debug)]
pub struct Entry {
    /// What it is.
    pub mark: Mark,
    /// Its width in bits.
    pub width: u32,
    /// Its value, which damage may leave too big for the width.
    pub value: u64,
}

/// A telegram, or a part of one, field by field.
#[derive(Clone, Debug, Default)]
pub struct Draft {
    /// The fields in order of sending.
    pub entries: Vec<Entry>,
    bits: usize,
}

impl Draft {
    /// Adds a field.
    pub fn put(&mut self, mark: Mark, width: u32, value: u64) {
        self.entries.push(Entry { mark, width, value });
        self.bits += width as usize;
    }

    /// The number of bits.
    pub fn len(&self) -> usize {
        self.bits
    }

    /// Whether there is no field.
    pub fn is_empty(&self) -> bool {
        self.entries.is_empty()
    }

    /// Adds the fields of another draft.
    pub fn append(&mut self, other: &Draft) {
        self.entries.extend(&other.entries);
        self.bits += other.bits;
    }

    /// Puts the fields of another draft in front of the one at an index.
    pub fn insert(&mut self, index: usize, other: &Draft) {
        let entries = other.entries.iter().copied();
        self.entries.splice(index..index, entries);
        self.bits += other.bits;
    }

    /// Takes out the fields of a range.
    pub fn remove(&mut self, range: Range<usize>) {
        let removed = self.entries.drain(range);
        self.bits -= removed.map(|entry| entry.width as usize).sum::<usize>();
    }

    /// Drops the fields from an index on.
    pub fn truncate(&mut self, entries: usize) {
        self.entries.truncate(entries);
        self.bits = self.entries.iter().map(|entry| entry.width as usize).sum();
    }

    /// The indices of the fields with a mark.
    pub fn marked(&self, mark: Mark) -> Vec<usize> {
        let all = self.entries.iter().enumerate();
        all.filter(|(_, entry)| entry.mark == mark)
            .map(|(index, _)| index)
            .collect()
    }

    /// The bit at which a field begins.
    pub fn start(&self, index: usize) -> usize {
        let before = self.entries.iter().take(index);
        before.map(|entry| entry.width as usize).sum()
    }

    /// The values.
    pub fn values(&self) -> Vec<u64> {
        self.entries.iter().map(|entry| entry.value).collect()
    }

    /// The bits, made one by one so as to owe nothing to the writer under test.
    pub fn bits(&self) -> Vec<bool> {
        let mut bits = Vec::with_capacity(self.bits);
        for entry in &self.entries {
            bits.extend(
                (0..entry.width)
                    .rev()
                    .map(|bit| entry.value >> bit & 1 == 1),
            );
        }
        bits
    }
}

/// Bits in bytes, first bit highest, the unused low bits of the last byte 0.
pub fn pack(bits: &[bool]) -> Vec<u8> {
    let byte = |eight: &[bool]| {
        let bits = eight.iter().enumerate();
        bits.fold(0, |byte, (index, &bit)| byte | u8::from(bit) << (7 - index))
    };
    bits.chunks(8).map(byte).collect()
}

/// The first bits of bytes, or all of them if there are not so many.
pub fn unpack(bytes: &[u8], n: usize) -> Vec<bool> {
    let bits = bytes
        .iter()
        .flat_map(|byte| (0..8).rev().map(move |bit| byte >> bit & 1 == 1));
    bits.take(n).collect()
}

/// The bits that a line of the characters 0 and 1 says, if it has no others.
pub fn parse(line: &[u8]) -> Option<Vec<bool>> {
    let bit = |character: &u8| match character {
        b'0' => Some(false),
        b'1' => Some(true),
        _ => None,
    };
    line.iter().map(bit).collect()
}

/// Bits as the characters 0 and 1.
pub fn digits(bits: &[bool]) -> String {
    bits.iter()
        .map(|&bit| if bit { '1' } else { '0' })
        .collect()
}
