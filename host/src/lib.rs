//! Reader, writer and normaliser for the user bits of one balise telegram.
//!
//! A telegram is a string of bits, first bit in the highest bit of byte 0: a header, packets,
//! and an end mark, after which nothing follows.
#![forbid(unsafe_code)]
#![warn(missing_docs)]

mod bits;
pub mod corpus;
mod ctcs;
mod etcs;
mod field;
pub mod group;
mod length;
mod normal;
mod refusal;
pub mod sheet;
mod source;
mod telegram;
mod values;
pub mod worked;

pub use refusal::Refusal;

use bits::{BitFields, Counter, Keeper};
use normal::{Edit, Normaliser, MAX_EDITS};
use refusal::Rule;
use source::Fields;
use values::ValueFields;

/// The fewest bits of a telegram.
pub const MIN_BITS: usize = 58;
/// The most bits of a telegram.
pub const MAX_BITS: usize = 830;
/// The most bytes of a telegram, and the fewest to be lent for one.
pub const MAX_BYTES: usize = MAX_BITS.div_ceil(8);
/// The fewest values to be lent to the reader.
pub const MAX_VALUES: usize = 830;

/// Tests a telegram of `n` bits and gives its number of values.
pub fn check(bytes: &[u8], n: u64) -> Result<usize, Refusal> {
    let n = measure(bytes, n)?;
    let mut fields = BitFields::new(bytes, n, Counter(0));
    telegram::walk(&mut fields)?;
    Ok(fields.observer.0)
}

/// Reads a telegram of `n` bits into its values, the end mark included, and gives their number.
pub fn read(bytes: &[u8], n: u64, out: &mut [u64]) -> Result<usize, Refusal> {
    if out.len() < MAX_VALUES {
        return Err(Refusal::new(Rule::OutputShort, 0));
    }
    // A first round finds the refusal, so that the second one may write into the output.
    check(bytes, n)?;
    let n = measure(bytes, n)?;
    let mut fields = BitFields::new(bytes, n, Keeper { out, count: 0 });
    telegram::walk(&mut fields)?;
    Ok(fields.observer.count)
}

/// Writes a list of values as a telegram and gives its number of bits.
pub fn write(values: &[u64], out: &mut [u8]) -> Result<u64, Refusal> {
    if out.len() < MAX_BYTES {
        return Err(Refusal::new(Rule::OutputShort, 0));
    }
    let mut fields = ValueFields::new(values);
    telegram::walk(&mut fields)?;
    let n = fields.position();
    let length = n.div_ceil(8);
    out[..length].copy_from_slice(&fields.bytes[..length]);
    Ok(n as u64)
}

/// Puts the normal form of a telegram of `n` bits into `out`.
pub fn normalise(bytes: &[u8], n: u64, out: &mut [u8]) -> Result<(), Refusal> {
    if out.len() < MAX_BYTES {
        return Err(Refusal::new(Rule::OutputShort, 0));
    }
    let n = measure(bytes, n)?;
    let mut edits = [Edit::default(); MAX_EDITS];
    let mut fields = BitFields::new(bytes, n, Normaliser::new(&mut edits));
    telegram::walk(&mut fields)?;
    fields.observer.finish(bytes, out);
    Ok(())
}

/// The C answer: 0, or 1,024 times the refusal number plus the place.
pub fn code<T>(answer: &Result<T, Refusal>) -> u64 {
    answer.as_ref().map_or_else(Refusal::code, |_| 0)
}

/// The number of bytes that so many bits take.
#[inline(always)]
fn length_of(n: u64) -> usize {
    usize::try_from(n.div_ceil(8)).unwrap_or(usize::MAX)
}

/// The number of bits, once it agrees with the bytes and the bits past it are clear.
#[inline(always)]
fn measure(bytes: &[u8], n: u64) -> Result<usize, Refusal> {
    let bits = usize::try_from(n)
        .ok()
        .filter(|&bits| (MIN_BITS..=MAX_BITS).contains(&bits) && bits.div_ceil(8) == bytes.len())
        .ok_or(Refusal::new(Rule::Length, 0))?;
    let unused = 8 * bytes.len() - bits;
    match bytes.last() {
        Some(last) if last & ((1 << unused) - 1) != 0 => Err(Refusal::new(Rule::Padding, 0)),
        _ => Ok(bits),
    }
}
