//! Distances and the normal form.

use crate::bits::{has_distance, replace, Observer};
use crate::field::{Field, Role};

/// A distance as a field says it, in steps of its packet's scale.
#[derive(Clone, Copy)]
struct Steps(u64);

/// A distance in decimetres. It has no arithmetic with steps.
#[derive(Clone, Copy)]
struct Decimetres(u64);

/// A Q_SCALE.
#[derive(Clone, Copy, PartialEq, Eq)]
struct Scale(u64);

impl Scale {
    const METRE: Scale = Scale(1);

    #[inline(always)]
    fn step(self) -> u64 {
        match self.0 {
            0 => 1,
            1 => 10,
            _ => 100,
        }
    }

    #[inline(always)]
    fn decimetres(self, steps: Steps) -> Decimetres {
        Decimetres(steps.0 * self.step())
    }

    /// The distance in whole steps of this scale, if it is one and a field can hold it.
    #[inline(always)]
    fn steps(self, distance: Decimetres, width: usize) -> Option<Steps> {
        let steps = distance.0 / self.step();
        (distance.0.is_multiple_of(self.step()) && steps >> width == 0).then_some(Steps(steps))
    }
}

/// One field to be replaced.
#[derive(Clone, Copy, Default)]
pub(crate) struct Edit {
    at: u16,
    width: u16,
    value: u32,
}

/// More edits than a telegram can need: a distance takes 15 bits at least, and a packet with a
/// scale has 25 bits before its first one.
pub(crate) const MAX_EDITS: usize = 64;

/// Gathers what the normal form changes. Nothing is changed before the whole telegram has been
/// accepted, and a packet with a distance that has no place at the metre drops out again.
pub(crate) struct Normaliser<'a> {
    scale: Scale,
    edits: &'a mut [Edit; MAX_EDITS],
    count: usize,
    /// The edits before those of the packet in hand.
    settled: usize,
}

impl<'a> Normaliser<'a> {
    pub fn new(edits: &'a mut [Edit; MAX_EDITS]) -> Self {
        Normaliser {
            scale: Scale::METRE,
            edits,
            count: 0,
            settled: 0,
        }
    }

    /// Puts the telegram with its changes into the output.
    #[inline(always)]
    pub fn finish(&self, bytes: &[u8], out: &mut [u8]) {
        out[..bytes.len()].copy_from_slice(bytes);
        for edit in self.edits.iter().take(self.count) {
            let value = u64::from(edit.value);
            replace(
                &mut out[..bytes.len()],
                usize::from(edit.at),
                usize::from(edit.width),
                value,
            );
        }
    }

    #[inline(always)]
    fn push(&mut self, field: &Field, at: usize, value: u64) {
        if let Some(edit) = self.edits.get_mut(self.count) {
            *edit = Edit {
                at: at as u16,
                width: field.width as u16,
                value: value as u32,
            };
            self.count += 1;
        }
    }

    /// A packet's scale, and with it the packet's distances.
    #[inline(always)]
    fn begin(&mut self, field: &Field, at: usize, value: u64) {
        self.scale = Scale(value);
        self.settled = self.count;
        if self.scale != Scale::METRE {
            self.push(field, at, Scale::METRE.0);
        }
    }

    #[inline(always)]
    fn rescale(&mut self, field: &Field, at: usize, value: u64) {
        if self.scale == Scale::METRE {
            return;
        }
        let distance = self.scale.decimetres(Steps(value));
        match Scale::METRE.steps(distance, field.width) {
            Some(metres) => self.push(field, at, metres.0),
            None => {
                self.count = self.settled;
                // Nothing more of this packet is to change, as if it were at the metre.
                self.scale = Scale::METRE;
            }
        }
    }
}

impl Observer for Normaliser<'_> {
    #[inline(always)]
    fn see<const K: usize>(&mut self, start: usize, run: &'static [Field; K], values: &[u64; K]) {
        let mut at = start;
        for (field, &value) in run.iter().zip(values) {
            match field.role {
                Role::Plain => {}
                Role::Scale => self.begin(field, at, value),
                Role::TextLength if value == 32767 => {}
                Role::Distance | Role::TextLength => self.rescale(field, at, value),
            }
            at += field.width;
        }
    }

    #[inline(always)]
    fn pass<const K: usize>(&mut self, _: u64, run: &'static [Field; K]) -> bool {
        self.scale == Scale::METRE || !has_distance(run)
    }
}
