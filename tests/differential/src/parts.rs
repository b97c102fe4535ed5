//! What the run consists of, by the requests whose calls the library has: a line for each in each list.

#[cfg(feature = "pair")]
use crate::pair_twice::PairTwice;
use crate::run::Run;
use crate::twice::Twice;
use differential::gen::{Field, Rng};

/// What a run of full length must meet: calls, and labels as they are counted.
pub const MUST_HAPPEN: &[&[(&str, &str)]] = &[
    crate::run::MUST_HAPPEN,
    #[cfg(feature = "step")]
    crate::steps::MUST_HAPPEN,
    #[cfg(feature = "forward")]
    crate::forwards::MUST_HAPPEN,
    #[cfg(feature = "update")]
    crate::updates::MUST_HAPPEN,
    #[cfg(feature = "longest")]
    crate::covers::MUST_HAPPEN,
    #[cfg(feature = "pair")]
    crate::pairs::MUST_HAPPEN,
    #[cfg(feature = "pair")]
    crate::isolated::MUST_HAPPEN,
    #[cfg(feature = "pair_step")]
    crate::steps::MUST_HAPPEN_OF_TWO,
    #[cfg(feature = "pair_forward")]
    crate::forwards::MUST_HAPPEN_OF_TWO,
    #[cfg(feature = "pair_update")]
    crate::updates::MUST_HAPPEN_OF_TWO,
];

/// Asks a table something at some of these addresses, and leaves it as it is.
pub type Ask = fn(&mut Run, &mut Rng, &Twice, &[u32]);

/// What is asked of a table besides lookups.
pub const ASKED: &[Ask] = &[
    #[cfg(feature = "step")]
    crate::steps::ask,
    #[cfg(feature = "forward")]
    crate::forwards::ask,
];

/// Changes a table of any content by one call, with routes of this field.
pub type Change = fn(&mut Run, &mut Rng, &Field, &mut Twice);

/// What changes a table besides the calls of document 01.
pub const CHANGES: &[Change] = &[
    #[cfg(feature = "update")]
    crate::updates::change,
];

/// Asks something of a record input of any content.
pub type AskInput = fn(&mut Run, &mut Rng, &[u8]);

/// What is asked of a record input besides the calls of document 01.
pub const ASKED_INPUTS: &[AskInput] = &[
    #[cfg(feature = "update")]
    crate::updates::write,
    #[cfg(feature = "longest")]
    crate::covers::ask,
];

/// Parts of the run besides those of document 01's calls, of request k's and of m's.
pub const EPISODES: &[fn(&mut Run, &mut Rng)] = &[
    #[cfg(feature = "pair")]
    crate::pairs::episode,
    #[cfg(feature = "pair")]
    crate::isolated::episode,
];

/// Asks a party of a box something at some of these addresses, and leaves the box as it is.
#[cfg(feature = "pair")]
pub type AskParty = fn(&mut Run, &mut Rng, &PairTwice, u32, &[u32]);

/// What is asked of a party besides lookups.
#[cfg(feature = "pair")]
pub const ASKED_PARTIES: &[AskParty] = &[
    #[cfg(feature = "pair_step")]
    crate::steps::ask_party,
    #[cfg(feature = "pair_forward")]
    crate::forwards::ask_party,
];

/// Changes a party's table in a box of any content by one call, with routes of this field.
#[cfg(feature = "pair")]
pub type ChangeParty = fn(&mut Run, &mut Rng, &Field, &mut PairTwice, u32);

/// What changes a party's table besides announcements, withdrawals and loads.
#[cfg(feature = "pair")]
pub const CHANGES_OF_PARTIES: &[ChangeParty] = &[
    #[cfg(feature = "pair_update")]
    crate::updates::change_party,
];

/// Parts of the run over arrays of full size, which are long.
pub const LARGE: &[fn(&mut Run, &mut Rng)] = &[
    #[cfg(feature = "pair")]
    crate::pairs::large,
];
