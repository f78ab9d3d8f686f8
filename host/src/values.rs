//! Fields out of values, put down as bits on the way.

use crate::bits::replace;
use crate::field::Field;
use crate::refusal::{Refusal, Rule};
use crate::source::Fields;
use crate::{MAX_BITS, MAX_BYTES};

/// The fields of a list of values, and the bits they come to.
pub(crate) struct ValueFields<'a> {
    values: std::slice::Iter<'a, u64>,
    position: usize,
    /// Set aside from the caller's output, which a refusal must leave as it is.
    pub bytes: [u8; MAX_BYTES],
}

impl<'a> ValueFields<'a> {
    pub fn new(values: &'a [u64]) -> Self {
        ValueFields {
            values: values.iter(),
            position: 0,
            bytes: [0; MAX_BYTES],
        }
    }
}

impl Fields for ValueFields<'_> {
    #[inline(always)]
    fn position(&self) -> usize {
        self.position
    }

    #[inline(always)]
    fn is_exhausted(&self) -> bool {
        self.values.as_slice().is_empty()
    }

    #[inline(always)]
    fn take<const K: usize>(&mut self, run: &'static [Field; K]) -> Result<[u64; K], Refusal> {
        let mut taken = [0; K];
        for (slot, field) in taken.iter_mut().zip(run) {
            let refused = |rule| Refusal::new(rule, self.position);
            let value = *self.values.next().ok_or(refused(Rule::Ended))?;
            if value > u64::MAX >> (64 - field.width) {
                return Err(refused(Rule::Width));
            }
            if MAX_BITS - self.position < field.width {
                return Err(refused(Rule::Full));
            }
            if !field.allows(value) {
                return Err(refused(field.broken));
            }
            replace(&mut self.bytes, self.position, field.width, value);
            self.position += field.width;
            *slot = value;
        }
        Ok(taken)
    }
}
