//! The telegram as a whole: header, packets, end mark.

use crate::field::*;
use crate::length::Length;
use crate::refusal::{Refusal, Rule};
use crate::source::Fields;
use crate::{ctcs, etcs};

pub(crate) const END_MARK: u64 = 255;

/// The kinds of packets; the discriminants number them for the test of repeats.
#[derive(Clone, Copy, PartialEq, Eq)]
pub(crate) enum Kind {
    Linking,
    Gradients,
    StaticSpeeds,
    LevelOrder,
    Session,
    Ctcs,
    ConditionalLevels,
    TrackConditions,
    Text,
    Positions,
    RbcHandover,
    Danger,
    StopInSr,
    DefaultBalise,
}

impl Kind {
    /// The kind that an identifier says; the end mark's says none.
    #[inline(always)]
    pub fn of(identifier: u64) -> Option<Kind> {
        Some(match identifier {
            5 => Kind::Linking,
            21 => Kind::Gradients,
            27 => Kind::StaticSpeeds,
            41 => Kind::LevelOrder,
            42 => Kind::Session,
            44 => Kind::Ctcs,
            46 => Kind::ConditionalLevels,
            68 => Kind::TrackConditions,
            72 => Kind::Text,
            79 => Kind::Positions,
            131 => Kind::RbcHandover,
            132 => Kind::Danger,
            137 => Kind::StopInSr,
            254 => Kind::DefaultBalise,
            _ => return None,
        })
    }
}

/// The ways that a Q_DIR serves, a bit each. Two packets of one kind collide if they serve one way,
/// so that 2, which is both ways, collides with every other.
#[inline(always)]
fn ways(direction: u64) -> u64 {
    match direction {
        0 => 0b01,
        1 => 0b10,
        _ => 0b11,
    }
}

/// The ways that have been served so far, for each kind.
#[derive(Default)]
pub(crate) struct Met(u64);

impl Met {
    /// Whether a packet may come here: ETCS-44 alone may come as often as it likes.
    #[inline(always)]
    pub fn meet(&mut self, kind: Kind, direction: u64) -> bool {
        let served = ways(direction) << (2 * kind as u64);
        let is_free = self.0 & served == 0;
        self.0 |= served;
        is_free || kind == Kind::Ctcs
    }
}

enum Step {
    Packet,
    EndMark,
}

/// Goes through a telegram from the first field to the end mark.
#[inline(always)]
pub(crate) fn walk<F: Fields>(fields: &mut F) -> Result<(), Refusal> {
    header(fields)?;
    let mut met = Met::default();
    while let Step::Packet = step(fields, &mut met)? {}
    Ok(())
}

#[inline(always)]
fn header<F: Fields>(fields: &mut F) -> Result<(), Refusal> {
    let [_, _, _, pig, total] = fields.take(&[Q_UPDOWN, M_VERSION, Q_MEDIA, N_PIG, N_TOTAL])?;
    if pig > total {
        let total_at = fields.position() - N_TOTAL.width;
        return Err(Refusal::new(Rule::Header, total_at));
    }
    fields.take(&[M_DUP, M_MCOUNT, NID_C, NID_BG, Q_LINK])?;
    Ok(())
}

#[inline(always)]
fn step<F: Fields>(fields: &mut F, met: &mut Met) -> Result<Step, Refusal> {
    let start = fields.position();
    let [identifier] = fields.take(&[NID_PACKET])?;
    if identifier == END_MARK {
        return match fields.is_exhausted() {
            true => Ok(Step::EndMark),
            false => Err(Refusal::new(Rule::Trailing, fields.position())),
        };
    }
    let kind = Kind::of(identifier).ok_or(Refusal::new(Rule::Unknown, start))?;
    let direction_at = fields.position();
    let [direction] = fields.take(&[Q_DIR])?;
    if !met.meet(kind, direction) {
        return Err(Refusal::new(Rule::Repeated, direction_at));
    }
    let length = Length::take(fields, start)?;
    match kind {
        Kind::Linking => etcs::linking(fields),
        Kind::Gradients => etcs::gradients(fields),
        Kind::StaticSpeeds => etcs::static_speeds(fields),
        Kind::LevelOrder => etcs::level_order(fields),
        Kind::Session => etcs::session(fields),
        Kind::Ctcs => ctcs::packet(fields, direction),
        Kind::ConditionalLevels => etcs::conditional_levels(fields),
        Kind::TrackConditions => etcs::track_conditions(fields),
        Kind::Text => etcs::text(fields),
        Kind::Positions => etcs::positions(fields),
        Kind::RbcHandover => etcs::rbc_handover(fields),
        Kind::Danger => etcs::danger(fields),
        Kind::StopInSr => etcs::stop_in_sr(fields),
        Kind::DefaultBalise => Ok(()),
    }?;
    length.hold(fields)?;
    Ok(Step::Packet)
}
