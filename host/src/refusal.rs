//! Why and where a telegram is refused.

/// The rules a telegram or a group can break; the discriminants are the refusal numbers.
#[derive(Clone, Copy, Debug, PartialEq, Eq)]
#[repr(u32)]
pub(crate) enum Rule {
    OutputShort = 1,
    Length = 2,
    Padding = 3,
    Header = 4,
    Ended = 5,
    Unknown = 6,
    Value = 7,
    PacketLength = 8,
    InnerDirection = 9,
    Repeated = 10,
    Trailing = 11,
    Width = 12,
    Full = 13,
    Identity = 21,
    Counters = 22,
    Copies = 23,
}

/// A refusal: its number and the bit where the offending field begins.
#[derive(Clone, Copy, Debug, PartialEq, Eq)]
pub struct Refusal {
    /// The refusal number, 1 to 13.
    pub number: u32,
    /// The bit where the field begins, or would begin; for 11 the first one past the end mark, and
    /// 0 for 1, 2 and 3, which are of no field.
    pub place: u64,
}

impl Refusal {
    pub(crate) fn new(rule: Rule, place: usize) -> Self {
        Refusal {
            number: rule as u32,
            place: place as u64,
        }
    }

    /// The refusal as one number, as the C interface gives it.
    pub fn code(&self) -> u64 {
        1024 * u64::from(self.number) + self.place
    }
}
