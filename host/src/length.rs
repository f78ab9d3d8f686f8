//! L_PACKET, which is tested long after it was met.

use crate::field::L_PACKET;
use crate::refusal::{Refusal, Rule};
use crate::source::Fields;

/// What a packet's L_PACKET says, and where it stands.
pub(crate) struct Length {
    /// The bit where the packet begins, with its identifier.
    start: usize,
    /// The bit where the field begins: a refusal names it, though other fields have gone by.
    at: usize,
    value: u64,
}

impl Length {
    /// Takes the L_PACKET of the packet that begins at bit `start`.
    #[inline(always)]
    pub fn take<F: Fields>(fields: &mut F, start: usize) -> Result<Self, Refusal> {
        let at = fields.position();
        let [value] = fields.take(&[L_PACKET])?;
        Ok(Length { start, at, value })
    }

    /// Holds it to the bits that the packet took, after the last field.
    #[inline(always)]
    pub fn hold<F: Fields>(self, fields: &F) -> Result<(), Refusal> {
        if (fields.position() - self.start) as u64 == self.value {
            Ok(())
        } else {
            Err(Refusal::new(Rule::PacketLength, self.at))
        }
    }
}
