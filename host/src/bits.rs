//! Fields out of bits, by 64-bit windows.

use crate::field::{Field, Role};
use crate::refusal::{Refusal, Rule};
use crate::source::Fields;

/// A window begins within the byte of its first bit, so this many bits are certain to be in it.
const CERTAIN: usize = 57;

/// Who is told of the fields as they go by.
pub(crate) trait Observer {
    /// A run whose fields keep their own rules, and the bit where it begins.
    fn see<const K: usize>(&mut self, start: usize, run: &'static [Field; K], values: &[u64; K]);

    /// Asked before so many runs without rules go by. Gives true, having made up for them,
    /// if they need not be seen.
    fn pass<const K: usize>(&mut self, times: u64, run: &'static [Field; K]) -> bool;
}

/// The fields of a telegram of at least eight bytes, of which `end` bits count.
pub(crate) struct BitFields<'a, O> {
    bytes: &'a [u8],
    end: usize,
    position: usize,
    pub observer: O,
}

impl<'a, O: Observer> BitFields<'a, O> {
    pub fn new(bytes: &'a [u8], end: usize, observer: O) -> Self {
        BitFields {
            bytes,
            end,
            position: 0,
            observer,
        }
    }

    /// What fields break that do not all fit: one before the end may hold a wrong value. Those
    /// past the end are not looked at, so that there may be any number of them.
    #[cold]
    fn first_fault<'f>(&self, fields: impl Iterator<Item = &'f Field>) -> Refusal {
        let mut at = self.position;
        for field in fields {
            if self.end - at < field.width {
                break;
            }
            if !field.allows(value_at(self.bytes, at, field.width)) {
                return Refusal::new(field.broken, at);
            }
            at += field.width;
        }
        Refusal::new(Rule::Ended, at)
    }
}

impl<O: Observer> Fields for BitFields<'_, O> {
    #[inline(always)]
    fn position(&self) -> usize {
        self.position
    }

    #[inline(always)]
    fn is_exhausted(&self) -> bool {
        self.position == self.end
    }

    #[inline(always)]
    fn take<const K: usize>(&mut self, run: &'static [Field; K]) -> Result<[u64; K], Refusal> {
        let span = width(run);
        if self.end - self.position < span {
            return Err(self.first_fault(run.iter()));
        }
        let start = self.position;
        let values = split(self.bytes, start, run);
        let mut at = start;
        for (field, value) in run.iter().zip(values) {
            if !field.allows(value) {
                return Err(Refusal::new(field.broken, at));
            }
            at += field.width;
        }
        self.observer.see(start, run, &values);
        self.position = at;
        Ok(values)
    }

    #[inline(always)]
    fn repeat<const K: usize>(
        &mut self,
        times: u64,
        run: &'static [Field; K],
    ) -> Result<(), Refusal> {
        let ruled = run.iter().any(|field| !field.allows_anything());
        if !ruled && self.observer.pass(times, run) {
            let span = times as usize * width(run);
            if self.end - self.position < span {
                return Err(self.first_fault(run.iter().cycle()));
            }
            self.position += span;
            return Ok(());
        }
        for _ in 0..times {
            self.take(run)?;
        }
        Ok(())
    }
}

#[inline(always)]
fn width(run: &[Field]) -> usize {
    run.iter().map(|field| field.width).sum()
}

/// The values of a run that fits, with as few windows as will do.
#[inline(always)]
pub(crate) fn split<const K: usize>(
    bytes: &[u8],
    start: usize,
    run: &'static [Field; K],
) -> [u64; K] {
    let mut values = [0; K];
    let mut base = start;
    let mut offset = 0;
    let mut window = window(bytes, base);
    for (value, field) in values.iter_mut().zip(run) {
        if offset + field.width > CERTAIN {
            base += offset;
            offset = 0;
            window = self::window(bytes, base);
        }
        *value = if field.width > CERTAIN {
            value_at(bytes, base, field.width)
        } else {
            window << offset >> (64 - field.width)
        };
        offset += field.width;
    }
    values
}

/// Where the window for bit `at` begins: the last eight bytes serve every bit within them.
#[inline(always)]
fn window_start(bytes: &[u8], at: usize) -> usize {
    (at / 8).min(bytes.len().saturating_sub(8))
}

/// The bits from `at` on, highest first: the certain ones, or all that are left.
#[inline(always)]
fn window(bytes: &[u8], at: usize) -> u64 {
    let start = window_start(bytes, at);
    let word = bytes.get(start..).and_then(|rest| rest.first_chunk());
    word.map_or(0, |word| u64::from_be_bytes(*word)) << (at - 8 * start)
}

#[inline(always)]
fn value_at(bytes: &[u8], at: usize, width: usize) -> u64 {
    if width <= CERTAIN {
        return window(bytes, at) >> (64 - width);
    }
    let low = width - 32;
    window(bytes, at) >> 32 << low | window(bytes, at + 32) >> (64 - low)
}

/// Puts a value in place of the bits that stand at `at`, in at least eight bytes.
#[inline(always)]
pub(crate) fn replace(bytes: &mut [u8], at: usize, width: usize, value: u64) {
    if width > CERTAIN {
        replace(bytes, at, width - 32, value >> 32);
        return replace(bytes, at + width - 32, 32, value & 0xffff_ffff);
    }
    let start = window_start(bytes, at);
    let shift = 64 - width - (at - 8 * start);
    let mask = u64::MAX >> (64 - width) << shift;
    if let Some(word) = bytes
        .get_mut(start..)
        .and_then(|rest| rest.first_chunk_mut())
    {
        *word = (u64::from_be_bytes(*word) & !mask | value << shift).to_be_bytes();
    }
}

/// Counts the fields and looks at nothing.
pub(crate) struct Counter(pub usize);

impl Observer for Counter {
    #[inline(always)]
    fn see<const K: usize>(&mut self, _: usize, _: &'static [Field; K], _: &[u64; K]) {
        self.0 += K;
    }

    #[inline(always)]
    fn pass<const K: usize>(&mut self, times: u64, _: &'static [Field; K]) -> bool {
        self.0 += times as usize * K;
        true
    }
}

/// Keeps every value, in order.
pub(crate) struct Keeper<'a> {
    pub out: &'a mut [u64],
    pub count: usize,
}

impl Observer for Keeper<'_> {
    #[inline(always)]
    fn see<const K: usize>(&mut self, _: usize, _: &'static [Field; K], values: &[u64; K]) {
        if let Some(slots) = self.out.get_mut(self.count..self.count + K) {
            slots.copy_from_slice(values);
        }
        self.count += K;
    }

    #[inline(always)]
    fn pass<const K: usize>(&mut self, _: u64, _: &'static [Field; K]) -> bool {
        false
    }
}

/// Whether a run has anything in it for the normal form.
#[inline(always)]
pub(crate) fn has_distance(run: &[Field]) -> bool {
    run.iter().any(|field| field.role != Role::Plain)
}
