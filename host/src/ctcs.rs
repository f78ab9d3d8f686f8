//! The CTCS packets, which travel inside ETCS-44, a function to a kind.

use crate::field::*;
use crate::length::Length;
use crate::refusal::{Refusal, Rule};
use crate::source::Fields;

/// The one packet inside an ETCS-44 of the given direction.
#[inline(always)]
pub(crate) fn packet<F: Fields>(fields: &mut F, outer_direction: u64) -> Result<(), Refusal> {
    let start = fields.position();
    let [identifier] = fields.take(&[NID_XUSER])?;
    if !(1..=5).contains(&identifier) {
        return Err(Refusal::new(Rule::Unknown, start));
    }
    let direction_at = fields.position();
    let [direction] = fields.take(&[Q_DIR])?;
    if direction != outer_direction {
        return Err(Refusal::new(Rule::InnerDirection, direction_at));
    }
    let length = Length::take(fields, start)?;
    match identifier {
        1 => signals(fields),
        2 => speed_restrictions(fields),
        3 => reverse_area(fields),
        4 => turnout(fields),
        _ => stop(fields),
    }?;
    length.hold(fields)
}

/// CTCS-1.
#[inline(always)]
fn signals<F: Fields>(fields: &mut F) -> Result<(), Refusal> {
    let [.., more] = fields.take(&[
        Q_SCALE,
        D_SIGNAL,
        NID_SIGNAL,
        NID_FREQUENCY,
        L_SECTION,
        N_ITER,
    ])?;
    fields.repeat(more, &[NID_SIGNAL, NID_FREQUENCY, L_SECTION])
}

/// CTCS-2.
#[inline(always)]
fn speed_restrictions<F: Fields>(fields: &mut F) -> Result<(), Refusal> {
    let [.., more] = fields.take(&[Q_SCALE, L_TSRarea, D_TSR, L_TSR, Q_FRONT, V_TSR, N_ITER])?;
    fields.repeat(more, &[D_TSR, L_TSR, Q_FRONT, V_TSR])
}

/// CTCS-3.
#[inline(always)]
fn reverse_area<F: Fields>(fields: &mut F) -> Result<(), Refusal> {
    fields.take(&[Q_SCALE, D_STARTREVERSE, L_REVERSEAREA])?;
    Ok(())
}

/// CTCS-4.
#[inline(always)]
fn turnout<F: Fields>(fields: &mut F) -> Result<(), Refusal> {
    fields.take(&[Q_SCALE, D_TURNOUT, V_TURNOUT])?;
    Ok(())
}

/// CTCS-5, the one without a scale.
#[inline(always)]
fn stop<F: Fields>(fields: &mut F) -> Result<(), Refusal> {
    fields.take(&[Q_STOP])?;
    Ok(())
}
