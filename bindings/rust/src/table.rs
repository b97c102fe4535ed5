//! SAIL tables over buffers that are lent.

use crate::found::{Answer, Found};
use crate::geometry::Geometry;
use crate::input::{routes, Routes};
use crate::message::{dealt, Updated};
use crate::raw;
use crate::records::{Forwarded, HopRecord};
use crate::refusal::{answered, Refusal};
use crate::route::Mark;
use core::fmt;
use core::net::Ipv4Addr;

/// What an accepted announcement did, and whether bits of the address after the length were cleared.
#[derive(Clone, Copy, PartialEq, Eq, Hash, Debug)]
pub enum Announced {
    Added {
        cleared: bool,
    },
    /// The prefix stood, and its hop and mark were replaced.
    Replaced {
        cleared: bool,
    },
}

/// An accepted withdrawal, and whether bits of the address after the length were cleared.
#[derive(Clone, Copy, PartialEq, Eq, Hash, Debug)]
pub struct Withdrawn {
    pub cleared: bool,
}

/// What a repair found: the records that it dropped, and how many cells of each array differ from before.
#[derive(Clone, Copy, PartialEq, Eq, Hash, Debug)]
pub struct Repaired {
    /// Records dropped of those looked at.
    pub dropped: u32,
    /// First cells that differ from before.
    pub first: u32,
    /// Cells of the second pool that do.
    pub second: u32,
    /// Cells of the third pool that do.
    pub third: u32,
}

/// Bit 9 of an accepted change.
fn cleared(answer: u64) -> bool {
    answer >> 9 & 1 == 1
}

impl Announced {
    /// What an accepted announcement answered.
    pub(crate) fn of(answer: u64) -> Announced {
        let cleared = cleared(answer);
        if answer >> 8 & 1 == 1 {
            Announced::Replaced { cleared }
        } else {
            Announced::Added { cleared }
        }
    }
}

impl Withdrawn {
    /// What an accepted withdrawal answered.
    pub(crate) fn of(answer: u64) -> Withdrawn {
        Withdrawn { cleared: cleared(answer) }
    }
}

/// What a table holds.
#[derive(Clone, Copy, PartialEq, Eq, Hash, Debug)]
pub struct Report {
    pub routes: u16,
    /// The need for second chunks.
    pub second: u16,
    /// The need for third chunks.
    pub third: u16,
}

/// A table over buffers that are only read: its state, and the eight arrays that every call is lent. It is copied
/// freely, and many threads may use it at once.
#[derive(Clone, Copy, PartialEq, Eq)]
pub struct TableRef<'a> {
    pub geometry: Geometry,
    /// The route count.
    pub count: u32,
    /// Records of 8 bytes, as many as there is room for; those past the count are zero.
    pub list: &'a [u8],
    pub first: &'a [u16],
    /// The second pool: chunks of [`Geometry::second_chunk`] cells.
    pub second: &'a [u16],
    /// The third pool: chunks of [`Geometry::third_chunk`] cells.
    pub third: &'a [u16],
    /// An owner for each chunk of the second pool.
    pub own2: &'a [u32],
    /// An owner for each chunk of the third pool.
    pub own3: &'a [u32],
    /// A count for each first cell: the routes longer than `p1` that have its bits.
    pub long1: &'a [u16],
    /// A count for each cell of the second pool: the routes longer than `p2` that have its bits, 0 in free chunks.
    pub long2: &'a [u16],
}

impl Report {
    /// What an accepted report answered.
    pub(crate) fn of(answer: u64) -> Report {
        Report { routes: (answer >> 16) as u16, second: (answer >> 32) as u16, third: (answer >> 48) as u16 }
    }
}

impl<'a> TableRef<'a> {
    /// The route count and both needs of a sound table.
    ///
    /// # Errors
    ///
    /// 1, 2, 5.
    pub fn report(&self) -> Result<Report, Refusal> {
        Ok(Report::of(answered(raw::report(self))?))
    }

    /// Looks one address up. The table need not be sound.
    ///
    /// # Errors
    ///
    /// 1, 2, and 5 where the walk meets a chunk number or a third cell that no sound table has.
    #[inline]
    pub fn lookup(&self, addr: impl Into<Ipv4Addr>) -> Result<Found, Refusal> {
        Answer::new(raw::lookup(self, u32::from(addr.into()))).found()
    }

    /// Looks many addresses up, which is several times quicker than one by one. Each answer is what
    /// [`lookup`](TableRef::lookup) gives for its address, a 5 among them too.
    ///
    /// # Errors
    ///
    /// 1, 2; also 2 where `addrs` and `out` differ in length. Nothing is then written.
    pub fn lookup_many<A: Copy + Into<Ipv4Addr>>(&self, addrs: &[A], out: &mut [Answer]) -> Result<(), Refusal> {
        // The table is judged first, with no address, and beside it lengths that differ. Nothing is refused after that.
        let uneven = usize::from(addrs.len() != out.len());
        answered(raw::lookup_many(self, &[], &mut [0][..uneven]))?;
        let mut numbers = [0; 512];
        for (addrs, out) in addrs.chunks(numbers.len()).zip(out.chunks_mut(numbers.len())) {
            for (number, &addr) in numbers.iter_mut().zip(addrs) {
                *number = u32::from(addr.into());
            }
            answered(raw::lookup_many(self, &numbers[..addrs.len()], Answer::words(out)))?;
        }
        Ok(())
    }

    /// Takes an IPv4 packet one step on its way: checks its header, looks its destination up, and with a hop lowers the
    /// time to live by one and mends the checksum, in bytes 8, 10 and 11. No route and every refusal leave the packet as
    /// it was. Bytes from 20 on are not looked at.
    ///
    /// # Errors
    ///
    /// 19 for fewer than 20 bytes, 20 for the version or the header length, 21 for the checksum, 22 for a time to live of
    /// 0 or 1; then those of [`lookup`](TableRef::lookup).
    #[inline]
    pub fn step(&self, packet: &mut [u8]) -> Result<Found, Refusal> {
        Answer::new(raw::step(self, packet)).found()
    }

    /// Looks the address of a packet up, and with a hop counts the packet and its octets in the record of that hop,
    /// `records[hop - 1]`; no other record changes. No route changes nothing, nor does a refusal.
    ///
    /// # Errors
    ///
    /// 1, 2, 5 as [`lookup`](TableRef::lookup), 14 if the hop has no record, 15 if the record is down.
    #[inline]
    pub fn forward(
        &self,
        records: &mut [HopRecord],
        addr: impl Into<Ipv4Addr>,
        octets: u32,
    ) -> Result<Forwarded, Refusal> {
        Forwarded::new(raw::forward(self, records, u32::from(addr.into()), octets))
    }

    /// The standing routes as a record input, to be handed to [`run`](crate::run), [`tally`](crate::tally) or an image.
    #[must_use]
    pub fn records(&self) -> &'a [u8] {
        let end = self.list.len().min(8 * self.count as usize);
        &self.list[..end]
    }

    /// The standing routes, in order.
    ///
    /// # Errors
    ///
    /// Where the list is damaged, as a record input is refused: 10, 3, 4, 6.
    pub fn routes(&self) -> Result<Routes<'a>, Refusal> {
        routes(self.records())
    }
}

/// The calls of [`TableRef`], for a type that has a `view` of itself as one.
macro_rules! reads {
    () => {
        /// As [`TableRef::report`].
        ///
        /// # Errors
        ///
        /// 1, 2, 5.
        pub fn report(&self) -> Result<Report, Refusal> {
            self.view().report()
        }

        /// As [`TableRef::lookup`].
        ///
        /// # Errors
        ///
        /// 1, 2, 5.
        #[inline]
        pub fn lookup(&self, addr: impl Into<Ipv4Addr>) -> Result<Found, Refusal> {
            self.view().lookup(addr)
        }

        /// As [`TableRef::lookup_many`].
        ///
        /// # Errors
        ///
        /// 1, 2.
        pub fn lookup_many<A: Copy + Into<Ipv4Addr>>(&self, addrs: &[A], out: &mut [Answer]) -> Result<(), Refusal> {
            self.view().lookup_many(addrs, out)
        }

        /// As [`TableRef::step`].
        ///
        /// # Errors
        ///
        /// 19, 20, 21, 22, 1, 2, 5.
        #[inline]
        pub fn step(&self, packet: &mut [u8]) -> Result<Found, Refusal> {
            self.view().step(packet)
        }

        /// As [`TableRef::forward`].
        ///
        /// # Errors
        ///
        /// 1, 2, 5, 14, 15.
        #[inline]
        pub fn forward(
            &self,
            records: &mut [HopRecord],
            addr: impl Into<Ipv4Addr>,
            octets: u32,
        ) -> Result<Forwarded, Refusal> {
            self.view().forward(records, addr, octets)
        }

        /// As [`TableRef::records`].
        #[must_use]
        pub fn records(&self) -> &[u8] {
            self.view().records()
        }

        /// As [`TableRef::routes`].
        ///
        /// # Errors
        ///
        /// 10, 3, 4, 6.
        pub fn routes(&self) -> Result<Routes<'_>, Refusal> {
            self.view().routes()
        }
    };
}
#[cfg(feature = "alloc")]
pub(crate) use reads;

/// A table over buffers that may be changed. All eight are lent by the caller, and nothing is allocated.
///
/// It is written with its fields by name, since arrays of both pools have one type. The buffers may hold anything:
/// [`make`](TableMut::make) or [`load`](TableMut::load) makes a table of them.
///
/// ```
/// use ghatumri::{Geometry, Mark, TableMut};
///
/// const SMALL: Geometry = Geometry::SMALL;
/// let mut table = TableMut {
///     geometry: SMALL,
///     count: 0,
///     list: &mut [0; 8 * 64],
///     first: &mut [0; SMALL.first_cells()],
///     second: &mut [0; 4 * SMALL.second_chunk()],
///     third: &mut [0; 4 * SMALL.third_chunk()],
///     own2: &mut [0; 4],
///     own3: &mut [0; 4],
///     long1: &mut [0; SMALL.first_cells()],
///     long2: &mut [0; 4 * SMALL.second_chunk()],
/// };
/// table.make()?;
/// table.announce([10, 1, 2, 0], 24, 44, Mark::Behind)?;
/// assert_eq!(table.lookup([10, 1, 2, 5])?.hop, Some(44));
/// # Ok::<(), ghatumri::Refusal>(())
/// ```
///
/// No content of the fields does harm: a table that is not sound is refused with 5, and load or repair makes it sound
/// again.
#[derive(PartialEq, Eq)]
pub struct TableMut<'a> {
    pub geometry: Geometry,
    /// The route count. An accepted change sets it, and a refusal leaves it.
    pub count: u32,
    /// Records of 8 bytes, as many as there is room for; those past the count are zero.
    pub list: &'a mut [u8],
    pub first: &'a mut [u16],
    /// The second pool: chunks of [`Geometry::second_chunk`] cells.
    pub second: &'a mut [u16],
    /// The third pool: chunks of [`Geometry::third_chunk`] cells.
    pub third: &'a mut [u16],
    /// An owner for each chunk of the second pool.
    pub own2: &'a mut [u32],
    /// An owner for each chunk of the third pool.
    pub own3: &'a mut [u32],
    /// A count for each first cell: the routes longer than `p1` that have its bits.
    pub long1: &'a mut [u16],
    /// A count for each cell of the second pool: the routes longer than `p2` that have its bits, 0 in free chunks.
    pub long2: &'a mut [u16],
}

impl TableMut<'_> {
    /// The same table, only to be read.
    #[inline]
    #[must_use]
    pub fn view(&self) -> TableRef<'_> {
        TableRef {
            geometry: self.geometry,
            count: self.count,
            list: self.list,
            first: self.first,
            second: self.second,
            third: self.third,
            own2: self.own2,
            own3: self.own3,
            long1: self.long1,
            long2: self.long2,
        }
    }

    reads!();

    /// Takes the count over from the answer of a change, where it was accepted.
    fn keep(&mut self, answer: u64) -> Result<u64, Refusal> {
        let answer = answered(answer)?;
        self.count = (answer >> 16) as u32 & 0xFFFF;
        Ok(answer)
    }

    /// Empties the table, whatever is in it.
    ///
    /// # Errors
    ///
    /// 1, 2.
    pub fn make(&mut self) -> Result<(), Refusal> {
        let answer = raw::make(self);
        self.keep(answer)?;
        Ok(())
    }

    /// Makes the table of a record input, whatever was in it, and answers the number of routes.
    ///
    /// # Errors
    ///
    /// 1, 2, the input's (10 for its length; record by record 3, 4, 10; 6), 6 for the room, 7, 8.
    pub fn load(&mut self, input: &[u8]) -> Result<usize, Refusal> {
        let answer = raw::load(self, input);
        self.keep(answer)?;
        Ok(self.count as usize)
    }

    /// Adds a route, or replaces hop and mark of a prefix that stands. Bits of the address after the length are cleared
    /// first: 10.1.2.3/24 means 10.1.2.0/24.
    ///
    /// # Errors
    ///
    /// 1, 2, 3 for a length over 32, 4, 5, 6, 7, 8; a replacement never meets 6 to 8, and a [`Mark`] never 10.
    pub fn announce(&mut self, addr: impl Into<Ipv4Addr>, len: u8, hop: u16, mark: Mark) -> Result<Announced, Refusal> {
        let answer = raw::announce(self, u32::from(addr.into()), len.into(), hop.into(), mark as u32);
        Ok(Announced::of(self.keep(answer)?))
    }

    /// Removes the route of a prefix. Bits of the address after the length are cleared first, as by
    /// [`announce`](TableMut::announce).
    ///
    /// # Errors
    ///
    /// 1, 2, 3 for a length over 32, 5, 9.
    pub fn withdraw(&mut self, addr: impl Into<Ipv4Addr>, len: u8) -> Result<Withdrawn, Refusal> {
        let answer = raw::withdraw(self, u32::from(addr.into()), len.into());
        Ok(Withdrawn::of(self.keep(answer)?))
    }

    /// Deals a BGP message to the table: the prefixes of one route field are withdrawn, and those of the other announced with
    /// the hop and [`Mark::Behind`]. A withdrawn prefix that does not stand is passed over. The hop is judged even if nothing
    /// is announced: a message that only withdraws passes 1.
    ///
    /// # Errors
    ///
    /// 1, 2, 5, 17, 4; nothing is then changed. 6, 7 and 8 are no error: see [`Updated::Stopped`].
    pub fn update(&mut self, withdrawn: &[u8], reach: &[u8], hop: u16) -> Result<Updated, Refusal> {
        let answer = raw::update(self, withdrawn, reach, hop.into());
        let updated = dealt(answer)?;
        self.count = (answer >> 16) as u32 & 0xFFFF;
        Ok(updated)
    }

    /// Puts the table right after a memory fault, whatever it holds: looks at the first [`count`](TableMut::count) records
    /// of the list, or to the end of its room if that is less, keeps each that is valid and larger than the last one kept,
    /// and loads what was kept. A sound table keeps all its records. Takes some 152 KB of stack.
    ///
    /// # Errors
    ///
    /// 1, 2, and 7, 8 on the needs of what was kept.
    pub fn repair(&mut self) -> Result<Repaired, Refusal> {
        let mut out = [0; 4];
        let answer = raw::repair(self, &mut out);
        self.keep(answer)?;
        let [dropped, first, second, third] = out;
        Ok(Repaired { dropped, first, second, third })
    }
}

/// Geometry, count and sizes, and none of the cells.
pub(crate) fn debug(name: &str, t: TableRef, f: &mut fmt::Formatter) -> fmt::Result {
    f.debug_struct(name)
        .field("geometry", &(t.geometry.p1, t.geometry.p2))
        .field("count", &t.count)
        .field("room", &(t.list.len() / 8))
        .field("second_chunks", &t.own2.len())
        .field("third_chunks", &t.own3.len())
        .finish_non_exhaustive()
}

impl fmt::Debug for TableRef<'_> {
    fn fmt(&self, f: &mut fmt::Formatter) -> fmt::Result {
        debug("TableRef", *self, f)
    }
}

impl fmt::Debug for TableMut<'_> {
    fn fmt(&self, f: &mut fmt::Formatter) -> fmt::Result {
        debug("TableMut", self.view(), f)
    }
}
