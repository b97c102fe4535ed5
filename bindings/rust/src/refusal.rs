//! Why a call is refused.

use core::fmt;

/// Defines [`Reason`]: the number, the name that the header has for it, and what it means.
macro_rules! reasons {
    ($($number:literal $name:ident $meaning:literal)*) => {
        /// What a refusal's number stands for.
        #[derive(Clone, Copy, PartialEq, Eq, PartialOrd, Ord, Hash, Debug)]
        #[non_exhaustive]
        #[repr(u8)]
        pub enum Reason {
            $(
                #[doc = concat!($number, ": ", $meaning, ".")]
                $name = $number,
            )*
        }

        impl Reason {
            /// All of them, by their numbers.
            pub const ALL: &'static [Reason] = &[$(Reason::$name),*];

            /// The reason with this number, if there is one.
            #[must_use]
            pub const fn from_number(number: u8) -> Option<Reason> {
                match number {
                    $($number => Some(Reason::$name),)*
                    _ => None,
                }
            }

            /// In words.
            #[must_use]
            pub const fn meaning(self) -> &'static str {
                match self {
                    $(Reason::$name => $meaning,)*
                }
            }
        }
    };
}

reasons! {
    1 Geometry "geometry outside the limits"
    2 Size "a lent array has another size than it must, or too many chunks or records of room"
    3 Prefix "length over 32, or a bit set after the length; announce and withdraw on a table: length over 32 alone"
    4 Hop "hop not 1 to 32,767"
    5 Unsound "table not sound; in lookup only: a chunk number is 0 or beyond its pool, a third cell is no leaf, or a chunk is owned by the other party"
    6 Room "announce: list room full, in an image 4,096 routes stand; load: more records than room; any record input: over 4,096"
    7 Second "need for second chunks exceeds those lent, or the party's limit"
    8 Third "need for third chunks exceeds those lent, or the party's limit"
    9 Absent "withdrawn prefix doesn't stand"
    10 Input "record input not a multiple of 8 bytes, mark over 1, or not ascending; announce: mark over 1"
    11 Nodes "too few whole nodes lent"
    12 Hops "too few hops lent"
    13 Image "image broken on this walk: bit 15 set, child or hop beyond what is lent, no root, hop outside 1 to 32,767; image tested or changed: not well formed; bit maps: such a hop at the first set bit"
    14 Record "the hop has no record"
    15 Down "the record is down"
    17 Field "route field: a length over 32, or the field ends inside an entry"
    18 Buffer "buffer too short for the route field"
    19 Short "packet of fewer than 20 bytes"
    20 Header "version not 4, or header length not 5 words"
    21 Checksum "header checksum wrong"
    22 Life "time to live 0 or 1"
    23 Version "version neither 1 nor 2"
    24 Limits "the two parties' limits add to more than a pool's chunks"
}

impl Reason {
    /// Its number.
    #[must_use]
    pub const fn number(self) -> u8 {
        self as u8
    }
}

/// A call was refused. Nothing was changed.
#[derive(Clone, Copy, PartialEq, Eq, Hash, Debug)]
pub struct Refusal {
    pub reason: Reason,
    /// For a fault in a record input, the faulty record's index from 0. For an input that is no whole number of records,
    /// how many are whole.
    pub index: Option<u32>,
}

impl Refusal {
    /// The reason's number.
    #[must_use]
    pub const fn number(&self) -> u8 {
        self.reason.number()
    }

    /// The reason in words.
    #[must_use]
    pub const fn meaning(&self) -> &'static str {
        self.reason.meaning()
    }
}

impl fmt::Display for Refusal {
    fn fmt(&self, f: &mut fmt::Formatter) -> fmt::Result {
        write!(f, "refused {}", self.number())?;
        if let Some(index) = self.index {
            write!(f, " at {index}")?;
        }
        write!(f, ": {}", self.meaning())
    }
}

impl core::error::Error for Refusal {}

/// Splits a packed answer: bits 0 to 7 are the refusal's number, and bit 8 says that an index is carried. The calls are
/// proved to answer no other number.
pub(crate) fn answered(answer: u64) -> Result<u64, Refusal> {
    let number = answer as u8;
    if number == 0 {
        return Ok(answer);
    }
    let reason = Reason::from_number(number).expect("the library has the numbers of this version");
    Err(Refusal { reason, index: (answer >> 8 & 1 == 1).then_some((answer >> 32) as u32) })
}
