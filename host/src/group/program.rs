//! What the program `groups` takes a line for, and what it prints.

use super::{message, Fault, MIN_ROOM};
use std::fmt::Write;

/// The most telegrams of a line.
pub const MOST_WORDS: usize = 16;
/// The most characters of a telegram that is written as bits.
pub const MOST_BITS: usize = 1024;
/// The most bytes of a telegram that is written as bytes.
pub const MOST_BYTES: usize = 128;
/// The most characters of a line that can be a question; a telegram is longest as bits.
pub const MOST_CHARACTERS: usize = MOST_WORDS * (MOST_BITS + 1) - 1;

/// The telegrams of a line in order of arrival.
#[derive(Clone, Debug, Default, PartialEq, Eq)]
pub struct Question {
    /// The bytes of all words, one behind the other.
    pub bytes: Vec<u8>,
    /// The n of each word.
    pub ns: Vec<u64>,
}

/// What a question comes to.
pub type Answer = Result<Vec<(u8, u8)>, Fault>;

impl Question {
    /// The question that a line without its newline is, if it is one.
    pub fn of(line: &[u8]) -> Option<Self> {
        let mut question = Question::default();
        if line.is_empty() {
            return Some(question);
        }
        for word in line.split(|&byte| byte == b' ') {
            if question.ns.len() == MOST_WORDS {
                return None;
            }
            question.add(word)?;
        }
        Some(question)
    }

    /// What it comes to.
    pub fn answer(&self) -> Answer {
        message(&self.bytes, &self.ns, MIN_ROOM)
    }

    fn add(&mut self, word: &[u8]) -> Option<()> {
        match word.iter().position(|&byte| byte == b':') {
            Some(colon) => {
                self.add_bytes(&word[..colon])?;
                self.ns.push(number(&word[colon + 1..])?);
            }
            None => {
                self.add_bits(word)?;
                self.ns.push(word.len() as u64);
            }
        }
        Some(())
    }

    fn add_bits(&mut self, word: &[u8]) -> Option<()> {
        if word.is_empty() || word.len() > MOST_BITS {
            return None;
        }
        for eight in word.chunks(8) {
            let mut byte = 0;
            for character in eight {
                byte = byte << 1
                    | match character {
                        b'0' => 0,
                        b'1' => 1,
                        _ => return None,
                    };
            }
            self.bytes.push(byte << (8 - eight.len()));
        }
        Some(())
    }

    fn add_bytes(&mut self, text: &[u8]) -> Option<()> {
        if text.len() > 2 * MOST_BYTES || !text.len().is_multiple_of(2) {
            return None;
        }
        for pair in text.chunks(2) {
            let digit = |character: u8| char::from(character).to_digit(16);
            let byte = pair
                .iter()
                .try_fold(0, |byte, &character| Some(byte << 4 | digit(character)?))?;
            self.bytes.push(byte as u8);
        }
        Some(())
    }
}

/// A decimal number of 64 bits with no needless zero. `parse` alone would let a plus sign pass.
fn number(text: &[u8]) -> Option<u64> {
    let is_plain =
        text.iter().all(u8::is_ascii_digit) && (text[..] == *b"0" || text.first() != Some(&b'0'));
    let text = std::str::from_utf8(text).ok().filter(|_| is_plain)?;
    text.parse().ok()
}

/// The answer to a line, without a newline.
pub fn printed(answer: Option<&Answer>) -> String {
    match answer {
        None => "not a question".to_string(),
        Some(Ok(packets)) => {
            let mut text = format!("ok {}", packets.len());
            for (pig, number) in packets {
                // Writing to a string cannot fail.
                let _ = write!(text, " {pig}.{number}");
            }
            text
        }
        Some(Err(fault)) => {
            format!("refused {} {} {}", fault.number, fault.which, fault.place)
        }
    }
}
