//! What the program `sheets` answers, on whole inputs and outputs.

use super::{export, import, Refused};
use crate::corpus::draft::{digits, pack, parse, unpack};
use crate::refusal::{Refusal, Rule};

/// `sheets out`: the sheet of the telegram that a line of the characters 0 and 1 says.
pub fn out(input: &[u8]) -> Result<Vec<u8>, Refused> {
    let line = input.strip_suffix(b"\n").unwrap_or(input);
    let other_character = Refused::Telegram(Refusal::new(Rule::Length, 0));
    let bits = parse(line).ok_or(other_character)?;
    export(&pack(&bits), bits.len() as u64).map_err(Refused::Telegram)
}

/// `sheets in`: the line of the telegram that a sheet says.
pub fn take_in(input: &[u8]) -> Result<Vec<u8>, Refused> {
    let (bytes, n) = import(input)?;
    let line = digits(&unpack(&bytes, n as usize));
    Ok(format!("{line}\n").into_bytes())
}

/// What is printed of an answer.
pub fn printed(answer: Result<Vec<u8>, Refused>) -> Vec<u8> {
    answer.unwrap_or_else(|refused| {
        format!("refused {} {}\n", refused.number(), refused.place()).into_bytes()
    })
}
