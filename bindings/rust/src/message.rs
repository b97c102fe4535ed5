//! The route fields of BGP messages.

use crate::raw;
use crate::refusal::{answered, Reason, Refusal};

/// What a message did to a table. Entries are those of both fields, withdrawals that were passed over among them; they are
/// exact for fields of less than 4 GiB together.
#[derive(Clone, Copy, PartialEq, Eq, Hash, Debug)]
#[must_use]
pub enum Updated {
    /// All entries were dealt with.
    Done { entries: u32 },
    /// There was no room for the announcement after so many entries: [`Room`](Reason::Room), [`Second`](Reason::Second) or
    /// [`Third`](Reason::Third). The table is as after exactly those.
    Stopped { entries: u32, reason: Reason },
}

/// Splits the answer of a message: a refusal that carries an index is a stop.
pub(crate) fn dealt(answer: u64) -> Result<Updated, Refusal> {
    match answered(answer) {
        Ok(answer) => Ok(Updated::Done { entries: (answer >> 32) as u32 }),
        Err(Refusal { reason, index: Some(entries) }) => Ok(Updated::Stopped { entries, reason }),
        Err(whole) => Err(whole),
    }
}

/// The most bytes that a route field of a record input has.
pub const MOST_FIELD: usize = 5 * crate::MOST_RECORDS;

/// Writes the prefixes of a record input as one reachability field, at the front of `out`, and answers how many bytes it has.
/// No byte after it is touched. The hops and marks are not in it.
///
/// ```
/// use ghatumri::{write_field, Mark, Route};
///
/// let input = Route::new([10, 1, 2, 0], 24, 44, Mark::Behind).record();
/// let mut out = [0xEE; 6];
/// assert_eq!(write_field(&input, &mut out)?, 4);
/// assert_eq!(out, [24, 10, 1, 2, 0xEE, 0xEE]);
/// # Ok::<(), ghatumri::Refusal>(())
/// ```
///
/// # Errors
///
/// The input's: 10 for its length; record by record 3, 4, 10; 6. Then 18.
pub fn write_field(input: &[u8], out: &mut [u8]) -> Result<usize, Refusal> {
    Ok((answered(raw::write_field(input, out))? >> 32) as usize)
}
