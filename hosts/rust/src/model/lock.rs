//! What clients hold of a table, and what they wait for.
use std::fmt;
use std::ops::Range;

macro_rules! modes {
    ($($(#[doc = $text:literal])+ $mode:ident = $number:literal, $name:literal;)*) => {
        /// What a client holds of a slot, or asks of it: of its entry, and of the gap below that.
        /// The section "Modes" of `docs/PROTOCOL.md` lists which of them are compatible. `Display`
        /// and [`Mode::name`] give a mode the name that it has there.
        #[derive(Clone, Copy, Debug, PartialEq, Eq, PartialOrd, Ord, Hash)]
        #[non_exhaustive]
        pub enum Mode {
            $($(#[doc = $text])+ $mode = $number,)*
        }

        impl Mode {
            /// Its name, such as `RangeS-U`.
            #[must_use]
            pub fn name(self) -> &'static str {
                match self {
                    $(Mode::$mode => $name,)*
                }
            }

            /// The mode of a number of `krl.h`, if it is one.
            pub(crate) fn of(number: u32) -> Option<Mode> {
                match number {
                    $($number => Some(Mode::$mode),)*
                    _ => None,
                }
            }
        }
    };
}

modes! {
    /// Nothing.
    N = 0, "N";
    /// Reads the entry.
    S = 1, "S";
    /// Reads the entry, and only this client may change it next.
    U = 2, "U";
    /// Changes the entry.
    X = 3, "X";
    /// Reads the entry and the gap.
    RangeSS = 4, "RangeS-S";
    /// Reads the gap and the entry, and only this client may change the entry next.
    RangeSU = 5, "RangeS-U";
    /// Inserts into the gap.
    RangeIN = 6, "RangeI-N";
    /// Inserts into the gap, and reads the entry.
    RangeIS = 7, "RangeI-S";
    /// Inserts into the gap, reads the entry, and only this client may change it next.
    RangeIU = 8, "RangeI-U";
    /// Inserts into the gap, and changes the entry.
    RangeIX = 9, "RangeI-X";
    /// Reads the gap and inserts into it, and reads the entry.
    RangeXS = 10, "RangeX-S";
    /// Reads the gap and inserts into it, reads the entry, and only this client may change it next.
    RangeXU = 11, "RangeX-U";
    /// Reads and changes the entry and the gap.
    RangeXX = 12, "RangeX-X";
}

/// A slot of which a client holds something.
#[derive(Clone, Copy, Debug, PartialEq, Eq, PartialOrd, Ord)]
#[non_exhaustive]
pub struct HeldSlot {
    /// The slot's first point.
    pub lo: u64,
    /// One past the slot's last point, which is the key of its entry; in the last slot, which has
    /// no entry, it is [`END`](crate::END).
    pub hi: u64,
    /// The client.
    pub client: u8,
    /// The mode that the client holds.
    pub mode: Mode,
}

/// A client that waits, as the server reports it.
pub(crate) struct Waiting {
    pub client: u8,
    pub request: u64,
    pub point: u64,
    pub hi: u64,
    pub mode: Mode,
    pub waits_for: Vec<u8>,
}

impl HeldSlot {
    /// A slot of these points that the client holds in this mode, for tests of what shows locks.
    #[must_use]
    pub fn new(client: u8, points: Range<u64>, mode: Mode) -> HeldSlot {
        HeldSlot { lo: points.start, hi: points.end, client, mode }
    }
}

impl fmt::Display for Mode {
    fn fmt(&self, f: &mut fmt::Formatter<'_>) -> fmt::Result {
        f.pad(self.name())
    }
}

#[cfg(test)]
mod tests {
    use super::*;

    #[test]
    fn a_mode_has_the_number_and_the_name_of_the_library() {
        let modes: Vec<Mode> = (0..).map_while(Mode::of).collect();
        assert_eq!(modes.len(), 13);
        assert!(modes.iter().zip(0..).all(|(mode, number)| *mode as u32 == number));
        assert_eq!(Mode::of(13), None);
        assert_eq!(format!("{:>8}{:<9}|", Mode::X, Mode::RangeSS), "       XRangeS-S |");
    }
}
