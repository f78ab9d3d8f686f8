//! The fields of the tables: name, width, allowed values, and what they mean to the normal form.

use crate::refusal::Rule;

/// What a field may hold.
#[derive(Clone, Copy)]
enum Allowed {
    Anything,
    Between(u64, u64),
    RadioNumber,
}

/// What a field is to the normal form.
#[derive(Clone, Copy, PartialEq, Eq)]
pub(crate) enum Role {
    Plain,
    Scale,
    Distance,
    /// A distance whose all-ones value says "unlimited" at every scale.
    TextLength,
}

/// One field. All are constants, so that the tests below vanish where they cannot fail.
#[derive(Clone, Copy)]
pub(crate) struct Field {
    /// The variable, as the tables and the data sheets spell it.
    pub name: &'static str,
    pub width: usize,
    pub role: Role,
    /// The rule that is broken by a value that is not allowed.
    pub broken: Rule,
    allowed: Allowed,
}

impl Field {
    #[inline(always)]
    pub fn allows(&self, value: u64) -> bool {
        match self.allowed {
            Allowed::Anything => true,
            Allowed::Between(least, most) => least <= value && value <= most,
            Allowed::RadioNumber => is_radio_number(value),
        }
    }

    #[inline(always)]
    pub fn allows_anything(&self) -> bool {
        matches!(self.allowed, Allowed::Anything)
    }

    pub fn holds_radio_number(&self) -> bool {
        matches!(self.allowed, Allowed::RadioNumber)
    }
}

/// Digits 0 to 9 from the left, then only F: the trailing Fs are shifted out, and what is left
/// may have no place with its 8-bit and its 4-bit or 2-bit set.
#[inline(always)]
fn is_radio_number(value: u64) -> bool {
    let fill = value.trailing_ones() & !3;
    let digits = value.checked_shr(fill).unwrap_or(0);
    digits & (digits << 1 | digits << 2) & 0x8888_8888_8888_8888 == 0
}

const fn free(width: usize) -> Field {
    Field {
        // The table below puts in the name.
        name: "",
        width,
        role: Role::Plain,
        broken: Rule::Value,
        allowed: Allowed::Anything,
    }
}

const fn between(width: usize, least: u64, most: u64) -> Field {
    Field {
        allowed: Allowed::Between(least, most),
        ..free(width)
    }
}

const fn up_to(width: usize, most: u64) -> Field {
    between(width, 0, most)
}

const fn header(width: usize, least: u64, most: u64) -> Field {
    Field {
        broken: Rule::Header,
        ..between(width, least, most)
    }
}

const fn distance(width: usize) -> Field {
    Field {
        role: Role::Distance,
        ..free(width)
    }
}

/// Makes a constant of each field and a list of them all. Every name is spelled here and nowhere
/// else, which is why one of the constants is not in capitals throughout.
macro_rules! table {
    ($($name:ident = $field:expr;)*) => {
        $(
            #[allow(non_upper_case_globals)]
            pub(crate) const $name: Field = Field {
                name: stringify!($name),
                ..$field
            };
        )*

        /// All fields, each once.
        pub(crate) static ALL: &[Field] = &[$($name),*];
    };
}

table! {
    // Header.
    Q_UPDOWN = header(1, 1, 1);
    M_VERSION = header(7, 16, 16);
    Q_MEDIA = header(1, 0, 0);
    N_PIG = free(3);
    N_TOTAL = free(3);
    M_DUP = header(2, 0, 2);
    M_MCOUNT = free(8);
    Q_LINK = free(1);

    // Heads of packets, and lists.
    NID_PACKET = free(8);
    NID_XUSER = free(9);
    Q_DIR = up_to(2, 2);
    L_PACKET = free(13);
    Q_SCALE = Field {
        role: Role::Scale,
        ..up_to(2, 2)
    };
    N_ITER = free(5);

    // Distances: all but one are 15 bits wide and alike.
    D_LINK = distance(15);
    D_GRADIENT = distance(15);
    D_STATIC = distance(15);
    D_LEVELTR = distance(15);
    L_ACKLEVELTR = distance(15);
    D_TRACKINIT = distance(15);
    D_TRACKCOND = distance(15);
    L_TRACKCOND = distance(15);
    D_TEXTDISPLAY = distance(15);
    L_TEXTDISPLAY = Field {
        role: Role::TextLength,
        ..free(15)
    };
    D_POSOFF = distance(15);
    M_POSITION = distance(20);
    D_RBCTR = distance(15);
    D_SIGNAL = distance(15);
    L_SECTION = distance(15);
    L_TSRarea = distance(15);
    D_TSR = distance(15);
    L_TSR = distance(15);
    D_STARTREVERSE = distance(15);
    L_REVERSEAREA = distance(15);
    D_TURNOUT = distance(15);

    // Everything else, in order of first use.
    Q_NEWCOUNTRY = free(1);
    NID_C = free(10);
    NID_BG = free(14);
    Q_LINKORIENTATION = free(1);
    Q_LINKREACTION = up_to(2, 2);
    Q_LOCACC = free(6);
    Q_GDIR = free(1);
    G_A = free(8);
    V_STATIC = free(7);
    Q_FRONT = free(1);
    NC_DIFF = up_to(4, 2);
    V_DIFF = free(7);
    M_LEVELTR = up_to(3, 4);
    NID_STM = between(8, 1, 3);
    Q_RBC = free(1);
    NID_RBC = free(14);
    NID_RADIO = Field {
        allowed: Allowed::RadioNumber,
        ..free(64)
    };
    Q_SLEEPSESSION = free(1);
    Q_TRACKINIT = free(1);
    M_TRACKCOND = up_to(4, 9);
    Q_TEXTCLASS = up_to(2, 1);
    Q_TEXTDISPLAY = free(1);
    M_MODETEXTDISPLAY = free(4);
    M_LEVELTEXTDISPLAY = up_to(3, 5);
    T_TEXTDISPLAY = free(10);
    Q_TEXTCONFIRM = up_to(2, 2);
    L_TEXT = free(8);
    X_TEXT = free(8);
    Q_MPOSITION = free(1);
    Q_ASPECT = free(1);
    Q_SRSTOP = free(1);
    NID_SIGNAL = up_to(4, 7);
    NID_FREQUENCY = up_to(5, 12);
    V_TSR = free(7);
    V_TURNOUT = free(7);
    Q_STOP = up_to(1, 0);

    // What a data sheet calls the NID_PACKET that is the end mark.
    END = free(8);
}

#[cfg(test)]
mod tests {
    use super::{ALL, NID_RADIO};

    #[test]
    fn the_table_has_71_variables_and_the_end_mark() {
        assert_eq!(ALL.len(), 71 + 1);
        assert!(ALL.iter().all(|field| (1..=64).contains(&field.width)));
    }

    fn by_places(value: u64) -> bool {
        let places: Vec<u64> = (0..16).map(|i| value >> (60 - 4 * i) & 15).collect();
        let digits = places.iter().take_while(|&&place| place <= 9).count();
        places[digits..].iter().all(|&place| place == 15)
    }

    #[test]
    fn radio_numbers_agree_with_a_look_at_each_place() {
        assert!(NID_RADIO.allows(u64::MAX) && NID_RADIO.allows(0));
        for digits in 0..=16u32 {
            let fill = u64::MAX.checked_shr(4 * digits).unwrap_or(0);
            for base in [0, 0x0123_4567_8901_2345, 0x9999_9999_9999_9999] {
                let number = base & !fill | fill;
                assert!(NID_RADIO.allows(number) && by_places(number));
                for place in 0..16 {
                    for digit in 0..16u64 {
                        let other = number & !(15 << (4 * place)) | digit << (4 * place);
                        assert_eq!(NID_RADIO.allows(other), by_places(other), "{other:x}");
                    }
                }
            }
        }
    }
}
