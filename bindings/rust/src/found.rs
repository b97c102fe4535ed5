//! What lookups answer.

use crate::raw;
use crate::records::{Forwarded, HopRecord};
use crate::refusal::{answered, Refusal};
use core::fmt;

/// What a lookup found.
#[derive(Clone, Copy, PartialEq, Eq, Hash, Debug)]
pub struct Found {
    /// The hop of the longest route that covers the address, or no route.
    pub hop: Option<u16>,
    /// In a table, the cells read: 1 to 3. In an image, the nodes read, and one more where a hop is answered: 1 to 10,
    /// and at most 9 for no route.
    pub reads: u8,
}

impl Found {
    /// Counts a packet of so many octets in the record of the hop that was found, and adds the port. No route changes
    /// nothing, nor does a refusal. Together with [`TableRef::lookup`](crate::TableRef::lookup) it is
    /// [`TableRef::forward`](crate::TableRef::forward).
    ///
    /// # Errors
    ///
    /// 14, 15.
    #[inline]
    pub fn count(self, records: &mut [HopRecord], octets: u32) -> Result<Forwarded, Refusal> {
        let found = u64::from(self.reads) << 8 | u64::from(self.hop.unwrap_or(0)) << 16;
        Forwarded::new(raw::count(found, records, octets))
    }
}

/// The answer of one lookup among many, in 4 bytes. A new one has not been answered: it finds no route in 0 reads.
#[derive(Clone, Copy, PartialEq, Eq, Hash, Default)]
#[repr(transparent)]
pub struct Answer(u32);

impl Answer {
    /// The low half of a lookup's packed answer. The rest of it is 0, since a lookup's refusal carries no index.
    pub(crate) fn new(answer: u64) -> Answer {
        Answer(answer as u32)
    }

    /// As words, for the library to write to.
    pub(crate) fn words(answers: &mut [Answer]) -> &mut [u32] {
        // An `Answer` is one `u32` and nothing else, and every `u32` is one.
        unsafe { core::slice::from_raw_parts_mut(answers.as_mut_ptr().cast(), answers.len()) }
    }

    /// What was found.
    ///
    /// # Errors
    ///
    /// What a single lookup of that address is refused with, once sizes are right: 5 in a table, 13 in an image.
    #[inline]
    pub fn found(self) -> Result<Found, Refusal> {
        let answer = answered(self.0.into())?;
        let hop = (answer >> 16) as u16;
        Ok(Found { hop: (hop != 0).then_some(hop), reads: (answer >> 8) as u8 })
    }

    /// As [`Found::count`], of what was found.
    ///
    /// # Errors
    ///
    /// Those of [`found`](Answer::found), 14, 15.
    #[inline]
    pub fn count(self, records: &mut [HopRecord], octets: u32) -> Result<Forwarded, Refusal> {
        Forwarded::new(raw::count(self.0.into(), records, octets))
    }
}

impl fmt::Debug for Answer {
    fn fmt(&self, f: &mut fmt::Formatter) -> fmt::Result {
        self.found().fmt(f)
    }
}
