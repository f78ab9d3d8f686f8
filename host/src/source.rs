//! Where fields come from: the one view that the tables have of bits and of values.

use crate::field::Field;
use crate::refusal::Refusal;

/// A source of fields in order of sending.
///
/// Fields are taken in runs. A run ends where a value decides what follows, so that a source
/// can test for room once per run; the first broken rule of the run is still the one given, at the
/// field that breaks it.
pub(crate) trait Fields {
    /// The bit at which the next field begins.
    fn position(&self) -> usize;

    /// Whether nothing is left to take.
    fn is_exhausted(&self) -> bool;

    /// Takes a run of fields.
    fn take<const K: usize>(&mut self, run: &'static [Field; K]) -> Result<[u64; K], Refusal>;

    /// Takes the same run so many times, when none of its values matters to what follows.
    #[inline(always)]
    fn repeat<const K: usize>(
        &mut self,
        times: u64,
        run: &'static [Field; K],
    ) -> Result<(), Refusal> {
        for _ in 0..times {
            self.take(run)?;
        }
        Ok(())
    }
}

/// A list whose groups differ in length: one group, N_ITER, and that many more.
#[inline(always)]
pub(crate) fn list<F: Fields>(
    fields: &mut F,
    group: impl Fn(&mut F) -> Result<(), Refusal>,
) -> Result<(), Refusal> {
    // One call for the first group and the others, so that its code is there only once.
    let mut left = None;
    loop {
        group(fields)?;
        let more = match left {
            None => fields.take(&[crate::field::N_ITER])?[0],
            Some(more) => more,
        };
        if more == 0 {
            return Ok(());
        }
        left = Some(more - 1);
    }
}

/// A source that keeps what has been taken from it.
pub(crate) struct Noted<F> {
    pub source: F,
    /// The fields of all runs that kept their own rules, with their values.
    pub taken: Vec<(Field, u64)>,
}

impl<F: Fields> Noted<F> {
    pub fn new(source: F) -> Self {
        Noted {
            source,
            taken: Vec::new(),
        }
    }
}

impl<F: Fields> Fields for Noted<F> {
    fn position(&self) -> usize {
        self.source.position()
    }

    fn is_exhausted(&self) -> bool {
        self.source.is_exhausted()
    }

    fn take<const K: usize>(&mut self, run: &'static [Field; K]) -> Result<[u64; K], Refusal> {
        let values = self.source.take(run)?;
        self.taken.extend(run.iter().copied().zip(values));
        Ok(values)
    }
}
