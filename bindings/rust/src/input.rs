//! Record inputs: their routes, the run under a prefix, the tally.

use crate::raw;
use crate::refusal::{answered, Refusal};
use crate::route::{Mark, Route};
use core::iter::FusedIterator;
use core::net::Ipv4Addr;
use core::slice::ChunksExact;

/// The routes of a record input, in its order. The whole input is checked here, once, and no more on the way.
///
/// ```
/// use ghatumri::{routes, Mark, Reason, Route};
///
/// let input = [10, 0, 0, 0, 8, 0, 0, 20, 10, 1, 0, 0, 16, 1, 0, 31];
/// let hops: Vec<u16> = routes(&input)?.map(|route| route.hop).collect();
/// assert_eq!(hops, [20, 31]);
/// assert_eq!(routes(&input)?.next_back(), Some(Route::new([10, 1, 0, 0], 16, 31, Mark::Attached)));
/// let refusal = routes(&input[..15]).unwrap_err();
/// assert_eq!((refusal.reason, refusal.index), (Reason::Input, Some(1)));
/// # Ok::<(), ghatumri::Refusal>(())
/// ```
///
/// # Errors
///
/// The input's: 10 for its length; record by record 3, 4, 10; 6.
pub fn routes(input: &[u8]) -> Result<Routes<'_>, Refusal> {
    answered(raw::route(input, 0))?;
    Ok(Routes { records: input.chunks_exact(8) })
}

/// The routes of a checked record input: see [`routes`].
#[derive(Clone, Debug)]
#[must_use]
pub struct Routes<'a> {
    records: ChunksExact<'a, u8>,
}

/// The route of a record that was checked.
fn read(record: &[u8]) -> Route {
    Route::of(record.try_into().expect("a record has 8 bytes"))
}

impl Iterator for Routes<'_> {
    type Item = Route;

    fn next(&mut self) -> Option<Route> {
        self.records.next().map(read)
    }

    fn size_hint(&self) -> (usize, Option<usize>) {
        self.records.size_hint()
    }

    fn nth(&mut self, n: usize) -> Option<Route> {
        self.records.nth(n).map(read)
    }
}

impl DoubleEndedIterator for Routes<'_> {
    fn next_back(&mut self) -> Option<Route> {
        self.records.next_back().map(read)
    }
}

impl ExactSizeIterator for Routes<'_> {}
impl FusedIterator for Routes<'_> {}

/// Reads the record of that index, from 0, out of an input; beyond the end there is none. The whole input is checked
/// each time: [`routes`] reads all of them.
///
/// # Errors
///
/// The input's: 10 for its length; record by record 3, 4, 10; 6.
pub fn route(input: &[u8], index: u32) -> Result<Option<Route>, Refusal> {
    Ok(unpacked(answered(raw::route(input, index))?))
}

/// The longest route of an input that covers an address, if any does.
///
/// ```
/// use ghatumri::{longest, Mark, Route};
///
/// let input = [10, 0, 0, 0, 8, 0, 0, 20, 10, 1, 0, 0, 16, 1, 0, 31];
/// assert_eq!(longest(&input, [10, 1, 2, 3])?, Some(Route::new([10, 1, 0, 0], 16, 31, Mark::Attached)));
/// assert_eq!(longest(&input, [10, 2, 0, 0])?, Some(Route::new([10, 0, 0, 0], 8, 20, Mark::Behind)));
/// assert_eq!(longest(&input, [11, 0, 0, 0])?, None);
/// # Ok::<(), ghatumri::Refusal>(())
/// ```
///
/// # Errors
///
/// The input's: 10 for its length; record by record 3, 4, 10; 6.
pub fn longest(input: &[u8], addr: impl Into<Ipv4Addr>) -> Result<Option<Route>, Refusal> {
    Ok(unpacked(answered(raw::longest(input, u32::from(addr.into())))?))
}

/// The route of a packed answer, if it has one.
fn unpacked(answer: u64) -> Option<Route> {
    let hop = (answer >> 16) as u16;
    let mark = if answer >> 15 & 1 == 1 { Mark::Attached } else { Mark::Behind };
    (hop != 0).then(|| Route::new((answer >> 32) as u32, (answer >> 8) as u8 & 0x7F, hop, mark))
}

/// The run under a prefix: the records of that length or longer inside it, as that part of the input. An empty run
/// stands before the first record that isn't smaller than the prefix.
///
/// # Errors
///
/// The input's: 10 for its length; record by record 3, 4, 10; 6. Then 3 for the prefix.
pub fn run(input: &[u8], addr: impl Into<Ipv4Addr>, len: u8) -> Result<&[u8], Refusal> {
    let answer = answered(raw::run(input, u32::from(addr.into()), len.into()))?;
    let start = (answer >> 16) as usize & 0xFFFF;
    let records = (answer >> 32) as usize & 0xFFFF;
    Ok(&input[8 * start..8 * (start + records)])
}

/// How many routes there are of each length, 0 to 32.
///
/// # Errors
///
/// The input's: 10 for its length; record by record 3, 4, 10; 6.
pub fn tally(input: &[u8]) -> Result<[u32; 33], Refusal> {
    let mut counts = [0; 33];
    answered(raw::tally(input, &mut counts))?;
    Ok(counts)
}
