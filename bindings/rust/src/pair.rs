//! Two parties' tables over pools that they share, in buffers that are lent.

use crate::found::{Answer, Found};
use crate::geometry::Geometry;
use crate::input::{routes, Routes};
use crate::raw;
use crate::refusal::{answered, Refusal};
use crate::route::Mark;
use crate::table::{Announced, Report, Withdrawn};
use core::fmt;
use core::net::Ipv4Addr;

/// A party of a box of two.
#[derive(Clone, Copy, PartialEq, Eq, PartialOrd, Ord, Hash, Debug)]
#[repr(u32)]
pub enum Party {
    One = 0,
    Two = 1,
}

/// How many chunks of either pool a party may use.
#[derive(Clone, Copy, PartialEq, Eq, Hash, Debug)]
pub struct Limits {
    pub second: u32,
    pub third: u32,
}

/// A party's own part of a box, only to be read.
#[derive(Clone, Copy, PartialEq, Eq)]
pub struct OwnRef<'a> {
    /// The party's route count.
    pub count: u32,
    pub limits: Limits,
    /// Records of 8 bytes, as many as there is room for; those past the count are zero.
    pub list: &'a [u8],
    pub first: &'a [u16],
    /// A count for each first cell: the party's routes longer than `p1` that have its bits.
    pub long1: &'a [u16],
}

/// A box of two parties, only to be read: its state, and the eleven arrays that every call is lent.
#[derive(Clone, Copy, PartialEq, Eq)]
pub struct PairRef<'a> {
    pub geometry: Geometry,
    pub one: OwnRef<'a>,
    pub two: OwnRef<'a>,
    /// The second pool, which both share.
    pub second: &'a [u16],
    /// The third pool, which both share.
    pub third: &'a [u16],
    /// An owner for each chunk of the second pool: the top bit is 1 for the second party, and 0 is nobody's.
    pub own2: &'a [u32],
    /// An owner for each chunk of the third pool.
    pub own3: &'a [u32],
    /// A count for each cell of the second pool, 0 in free chunks.
    pub long2: &'a [u16],
}

impl<'a> PairRef<'a> {
    /// The party's own part.
    #[must_use]
    pub fn own(&self, party: Party) -> OwnRef<'a> {
        match party {
            Party::One => self.one,
            Party::Two => self.two,
        }
    }

    /// The party's route count and both its needs, if the box is sound.
    ///
    /// # Errors
    ///
    /// 1, 2, 5.
    pub fn report(&self, party: Party) -> Result<Report, Refusal> {
        Ok(Report::of(answered(raw::pair_report(self, party as u32))?))
    }

    /// Looks one address up in the party's table. The box need not be sound.
    ///
    /// # Errors
    ///
    /// 1, 2, and 5 if the walk meets a chunk number or a third cell that no sound box has, or a chunk of the other party.
    #[inline]
    pub fn lookup(&self, party: Party, addr: impl Into<Ipv4Addr>) -> Result<Found, Refusal> {
        Answer::new(raw::pair_lookup(self, party as u32, u32::from(addr.into()))).found()
    }

    /// Takes a packet one step on its way, by the party's lookup: as [`TableRef::step`](crate::TableRef::step).
    ///
    /// # Errors
    ///
    /// 19, 20, 21, 22, then those of [`lookup`](PairRef::lookup).
    #[inline]
    pub fn step(&self, party: Party, packet: &mut [u8]) -> Result<Found, Refusal> {
        Answer::new(raw::pair_step(self, party as u32, packet)).found()
    }

    /// The party's standing routes as a record input.
    #[must_use]
    pub fn records(&self, party: Party) -> &'a [u8] {
        let own = self.own(party);
        let end = own.list.len().min(8 * own.count as usize);
        &own.list[..end]
    }

    /// The party's standing routes, in order.
    ///
    /// # Errors
    ///
    /// If its list is damaged, as a record input is refused: 10, 3, 4, 6.
    pub fn routes(&self, party: Party) -> Result<Routes<'a>, Refusal> {
        routes(self.records(party))
    }
}

/// The calls of [`PairRef`], for a type that has a `view` of itself as one.
macro_rules! pair_reads {
    () => {
        /// As [`PairRef::report`].
        ///
        /// # Errors
        ///
        /// 1, 2, 5.
        pub fn report(&self, party: Party) -> Result<Report, Refusal> {
            self.view().report(party)
        }

        /// As [`PairRef::lookup`].
        ///
        /// # Errors
        ///
        /// 1, 2, 5.
        #[inline]
        pub fn lookup(&self, party: Party, addr: impl Into<Ipv4Addr>) -> Result<Found, Refusal> {
            self.view().lookup(party, addr)
        }

        /// As [`PairRef::step`].
        ///
        /// # Errors
        ///
        /// 19, 20, 21, 22, 1, 2, 5.
        #[inline]
        pub fn step(&self, party: Party, packet: &mut [u8]) -> Result<Found, Refusal> {
            self.view().step(party, packet)
        }

        /// As [`PairRef::records`].
        #[must_use]
        pub fn records(&self, party: Party) -> &[u8] {
            self.view().records(party)
        }

        /// As [`PairRef::routes`].
        ///
        /// # Errors
        ///
        /// 10, 3, 4, 6.
        pub fn routes(&self, party: Party) -> Result<Routes<'_>, Refusal> {
            self.view().routes(party)
        }
    };
}
#[cfg(feature = "alloc")]
pub(crate) use pair_reads;

/// A party's own part of a box.
#[derive(PartialEq, Eq)]
pub struct OwnMut<'a> {
    /// The party's route count. An accepted change of the party sets it.
    pub count: u32,
    pub limits: Limits,
    /// Records of 8 bytes, as many as there is room for; those past the count are zero.
    pub list: &'a mut [u8],
    pub first: &'a mut [u16],
    /// A count for each first cell: the party's routes longer than `p1` that have its bits.
    pub long1: &'a mut [u16],
}

impl OwnMut<'_> {
    fn view(&self) -> OwnRef<'_> {
        OwnRef { count: self.count, limits: self.limits, list: self.list, first: self.first, long1: self.long1 }
    }
}

/// A box of two parties over buffers that may be changed. All eleven are lent by the caller, and nothing is allocated.
///
/// [`make`](PairMut::make) makes a box of whatever they hold. From then on a party is answered by its own calls, room and
/// limits: 7 and 8 are given to it exactly if its own need would exceed its limit.
///
/// No content of the fields does harm: a box that is not sound is refused with 5.
#[derive(PartialEq, Eq)]
pub struct PairMut<'a> {
    pub geometry: Geometry,
    pub one: OwnMut<'a>,
    pub two: OwnMut<'a>,
    /// The second pool, which both share.
    pub second: &'a mut [u16],
    /// The third pool, which both share.
    pub third: &'a mut [u16],
    /// An owner for each chunk of the second pool: the top bit is 1 for the second party, and 0 is nobody's.
    pub own2: &'a mut [u32],
    /// An owner for each chunk of the third pool.
    pub own3: &'a mut [u32],
    /// A count for each cell of the second pool, 0 in free chunks.
    pub long2: &'a mut [u16],
}

impl PairMut<'_> {
    /// The same box, only to be read.
    #[inline]
    #[must_use]
    pub fn view(&self) -> PairRef<'_> {
        PairRef {
            geometry: self.geometry,
            one: self.one.view(),
            two: self.two.view(),
            second: self.second,
            third: self.third,
            own2: self.own2,
            own3: self.own3,
            long2: self.long2,
        }
    }

    pair_reads!();

    /// Takes the party's count over from the answer of its change, if it was accepted.
    fn keep(&mut self, party: Party, answer: u64) -> Result<u64, Refusal> {
        let answer = answered(answer)?;
        let own = match party {
            Party::One => &mut self.one,
            Party::Two => &mut self.two,
        };
        own.count = (answer >> 16) as u32 & 0xFFFF;
        Ok(answer)
    }

    /// Empties the box, whatever is in it. The limits stay as the fields have them.
    ///
    /// # Errors
    ///
    /// 1, 2, 24.
    pub fn make(&mut self) -> Result<(), Refusal> {
        let answer = raw::pair_make(self);
        self.keep(Party::One, answer)?;
        self.keep(Party::Two, answer)?;
        Ok(())
    }

    /// Replaces the party's routes by those of a record input, and answers their number. The other's stay.
    ///
    /// # Errors
    ///
    /// 1, 2, 5, the input's (10 for its length; record by record 3, 4, 10; 6), 6 for the party's room, 7, 8 for its limits.
    pub fn load(&mut self, party: Party, input: &[u8]) -> Result<usize, Refusal> {
        let answer = raw::pair_load(self, party as u32, input);
        Ok((self.keep(party, answer)? >> 16) as usize & 0xFFFF)
    }

    /// Adds a route of the party's, or replaces hop and mark of its prefix. Bits of the address after the length are cleared
    /// first.
    ///
    /// # Errors
    ///
    /// 1, 2, 3 for a length over 32, 4, 5, 6, 7, 8; a replacement never meets 6 to 8, and a [`Mark`] never 10.
    pub fn announce(
        &mut self,
        party: Party,
        addr: impl Into<Ipv4Addr>,
        len: u8,
        hop: u16,
        mark: Mark,
    ) -> Result<Announced, Refusal> {
        let addr = u32::from(addr.into());
        let answer = raw::pair_announce(self, party as u32, addr, len.into(), hop.into(), mark as u32);
        Ok(Announced::of(self.keep(party, answer)?))
    }

    /// Removes a route of the party's. Bits of the address after the length are cleared first.
    ///
    /// # Errors
    ///
    /// 1, 2, 3 for a length over 32, 5, 9.
    pub fn withdraw(&mut self, party: Party, addr: impl Into<Ipv4Addr>, len: u8) -> Result<Withdrawn, Refusal> {
        let answer = raw::pair_withdraw(self, party as u32, u32::from(addr.into()), len.into());
        Ok(Withdrawn::of(self.keep(party, answer)?))
    }
}

/// Geometry, counts, limits and sizes, and none of the cells.
pub(crate) fn debug(name: &str, b: PairRef, f: &mut fmt::Formatter) -> fmt::Result {
    f.debug_struct(name)
        .field("geometry", &(b.geometry.p1, b.geometry.p2))
        .field("counts", &(b.one.count, b.two.count))
        .field("limits", &(b.one.limits, b.two.limits))
        .field("rooms", &(b.one.list.len() / 8, b.two.list.len() / 8))
        .field("second_chunks", &b.own2.len())
        .field("third_chunks", &b.own3.len())
        .finish_non_exhaustive()
}

impl fmt::Debug for OwnRef<'_> {
    fn fmt(&self, f: &mut fmt::Formatter) -> fmt::Result {
        f.debug_struct("OwnRef").field("count", &self.count).field("limits", &self.limits).finish_non_exhaustive()
    }
}

impl fmt::Debug for OwnMut<'_> {
    fn fmt(&self, f: &mut fmt::Formatter) -> fmt::Result {
        f.debug_struct("OwnMut").field("count", &self.count).field("limits", &self.limits).finish_non_exhaustive()
    }
}

impl fmt::Debug for PairRef<'_> {
    fn fmt(&self, f: &mut fmt::Formatter) -> fmt::Result {
        debug("PairRef", *self, f)
    }
}

impl fmt::Debug for PairMut<'_> {
    fn fmt(&self, f: &mut fmt::Formatter) -> fmt::Result {
        debug("PairMut", self.view(), f)
    }
}
