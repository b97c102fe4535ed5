//! Tables, boxes of two parties, images and maps that own their buffers.

use crate::found::{Answer, Found};
use crate::geometry::{Geometry, MOST_CHUNKS, MOST_RECORDS};
use crate::image::{self, words_for, Built, ImageAnnounced, ImageMut, ImageRef};
use crate::input::Routes;
use crate::maps::{self, MapsMut, MapsRef, MAP_BYTES, MAP_CELLS};
use crate::message::Updated;
use crate::pair::{self, Limits, OwnMut, OwnRef, PairMut, PairRef, Party};
use crate::records::{Forwarded, HopRecord};
use crate::refusal::Refusal;
use crate::route::Mark;
use crate::table::{self, Announced, Repaired, Report, TableMut, TableRef, Withdrawn};
use alloc::vec;
use alloc::vec::Vec;
use core::fmt;
use core::net::Ipv4Addr;

/// A SAIL table that owns its buffers: a [`TableMut`] over vectors.
///
/// The fields are open, since no content of them can do harm: a table that is not sound is refused with 5, and
/// [`Table::load`] or [`Table::repair`] makes it sound again.
#[derive(Clone, PartialEq, Eq)]
pub struct Table {
    pub geometry: Geometry,
    /// The route count. An accepted change sets it, and a refusal leaves it.
    pub count: u32,
    /// Records of 8 bytes, as many as there is room for; those past the count are zero.
    pub list: Vec<u8>,
    pub first: Vec<u16>,
    pub second: Vec<u16>,
    pub third: Vec<u16>,
    /// An owner for each chunk of the second pool.
    pub own2: Vec<u32>,
    /// An owner for each chunk of the third pool.
    pub own3: Vec<u32>,
    /// A count for each first cell: the routes longer than `p1` that have its bits.
    pub long1: Vec<u16>,
    /// A count for each cell of the second pool: the routes longer than `p2` that have its bits, 0 in free chunks.
    pub long2: Vec<u16>,
}

impl Table {
    /// A fresh table with no routes: room for so many records, and pools of so many chunks, each at most 4,096.
    ///
    /// # Errors
    ///
    /// 1, 2.
    pub fn new(geometry: Geometry, room: usize, second: usize, third: usize) -> Result<Table, Refusal> {
        // One more than the most is refused as well as any number above.
        let room = room.min(MOST_RECORDS + 1);
        let second = second.min(MOST_CHUNKS + 1);
        let third = third.min(MOST_CHUNKS + 1);
        let mut table = Table {
            geometry,
            count: 0,
            list: vec![0; 8 * room],
            first: vec![0; geometry.first_cells()],
            second: vec![0; second * geometry.second_chunk()],
            third: vec![0; third * geometry.third_chunk()],
            own2: vec![0; second],
            own3: vec![0; third],
            long1: vec![0; geometry.first_cells()],
            long2: vec![0; second * geometry.second_chunk()],
        };
        table.make()?;
        Ok(table)
    }

    /// The same table, only to be read.
    #[inline]
    #[must_use]
    pub fn view(&self) -> TableRef<'_> {
        TableRef {
            geometry: self.geometry,
            count: self.count,
            list: &self.list,
            first: &self.first,
            second: &self.second,
            third: &self.third,
            own2: &self.own2,
            own3: &self.own3,
            long1: &self.long1,
            long2: &self.long2,
        }
    }

    table::reads!();

    /// Lends the buffers to a change, and keeps the count that it leaves.
    fn lend<T>(&mut self, change: impl FnOnce(&mut TableMut) -> T) -> T {
        let mut lent = TableMut {
            geometry: self.geometry,
            count: self.count,
            list: &mut self.list,
            first: &mut self.first,
            second: &mut self.second,
            third: &mut self.third,
            own2: &mut self.own2,
            own3: &mut self.own3,
            long1: &mut self.long1,
            long2: &mut self.long2,
        };
        let answer = change(&mut lent);
        self.count = lent.count;
        answer
    }

    /// Empties the table, whatever is in it.
    ///
    /// # Errors
    ///
    /// 1, 2.
    pub fn make(&mut self) -> Result<(), Refusal> {
        self.lend(|t| t.make())
    }

    /// Makes the table of a record input, whatever was in it, and answers the number of routes.
    ///
    /// # Errors
    ///
    /// 1, 2, the input's (10 for its length; record by record 3, 4, 10; 6), 6 for the room, 7, 8.
    pub fn load(&mut self, input: &[u8]) -> Result<usize, Refusal> {
        self.lend(|t| t.load(input))
    }

    /// As [`TableMut::announce`].
    ///
    /// # Errors
    ///
    /// 1, 2, 3 for a length over 32, 4, 5, 6, 7, 8; a replacement never meets 6 to 8, and a [`Mark`] never 10.
    pub fn announce(&mut self, addr: impl Into<Ipv4Addr>, len: u8, hop: u16, mark: Mark) -> Result<Announced, Refusal> {
        self.lend(|t| t.announce(addr, len, hop, mark))
    }

    /// As [`TableMut::withdraw`].
    ///
    /// # Errors
    ///
    /// 1, 2, 3 for a length over 32, 5, 9.
    pub fn withdraw(&mut self, addr: impl Into<Ipv4Addr>, len: u8) -> Result<Withdrawn, Refusal> {
        self.lend(|t| t.withdraw(addr, len))
    }

    /// As [`TableMut::update`].
    ///
    /// # Errors
    ///
    /// 1, 2, 5, 17, 4; nothing is then changed. 6, 7 and 8 are no error: see [`Updated::Stopped`].
    pub fn update(&mut self, withdrawn: &[u8], reach: &[u8], hop: u16) -> Result<Updated, Refusal> {
        self.lend(|t| t.update(withdrawn, reach, hop))
    }

    /// As [`TableMut::repair`].
    ///
    /// # Errors
    ///
    /// 1, 2, 7, 8.
    pub fn repair(&mut self) -> Result<Repaired, Refusal> {
        self.lend(|t| t.repair())
    }
}

impl fmt::Debug for Table {
    fn fmt(&self, f: &mut fmt::Formatter) -> fmt::Result {
        table::debug("Table", self.view(), f)
    }
}

/// A party's own buffers in a [`Pair`].
#[derive(Clone, PartialEq, Eq, Debug)]
pub struct Own {
    /// The party's route count. An accepted change of the party sets it.
    pub count: u32,
    pub limits: Limits,
    /// Records of 8 bytes, as many as there is room for; those past the count are zero.
    pub list: Vec<u8>,
    pub first: Vec<u16>,
    /// A count for each first cell: the party's routes longer than `p1` that have its bits.
    pub long1: Vec<u16>,
}

impl Own {
    fn new(geometry: Geometry, room: usize, limits: Limits) -> Own {
        let cells = geometry.first_cells();
        Own {
            count: 0,
            limits,
            list: vec![0; 8 * room.min(MOST_RECORDS + 1)],
            first: vec![0; cells],
            long1: vec![0; cells],
        }
    }

    fn view(&self) -> OwnRef<'_> {
        OwnRef { count: self.count, limits: self.limits, list: &self.list, first: &self.first, long1: &self.long1 }
    }

    fn lend(&mut self) -> OwnMut<'_> {
        OwnMut {
            count: self.count,
            limits: self.limits,
            list: &mut self.list,
            first: &mut self.first,
            long1: &mut self.long1,
        }
    }
}

/// A box of two parties that owns its buffers: a [`PairMut`] over vectors.
///
/// ```
/// use ghatumri::{Geometry, Limits, Mark, Pair, Party, Reason};
///
/// let mine = Limits { second: 1, third: 1 };
/// let theirs = Limits { second: 3, third: 3 };
/// let mut pair = Pair::new(Geometry::SMALL, (4, 4), (8, mine), (8, theirs))?;
/// pair.announce(Party::One, [10, 1, 2, 0], 24, 44, Mark::Behind)?;
/// pair.announce(Party::Two, [10, 1, 2, 0], 24, 9, Mark::Behind)?;
/// assert_eq!(pair.lookup(Party::One, [10, 1, 2, 5])?.hop, Some(44));
/// assert_eq!(pair.lookup(Party::Two, [10, 1, 2, 5])?.hop, Some(9));
/// // One chunk is the first party's limit, though two are free.
/// let refusal = pair.announce(Party::One, [10, 32, 0, 0], 24, 5, Mark::Behind).unwrap_err();
/// assert_eq!(refusal.reason, Reason::Second);
/// # Ok::<(), ghatumri::Refusal>(())
/// ```
#[derive(Clone, PartialEq, Eq)]
pub struct Pair {
    pub geometry: Geometry,
    pub one: Own,
    pub two: Own,
    pub second: Vec<u16>,
    pub third: Vec<u16>,
    /// An owner for each chunk of the second pool: the top bit is 1 for the second party, and 0 is nobody's.
    pub own2: Vec<u32>,
    /// An owner for each chunk of the third pool.
    pub own3: Vec<u32>,
    /// A count for each cell of the second pool, 0 in free chunks.
    pub long2: Vec<u16>,
}

impl Pair {
    /// A fresh box with no routes: pools of so many second and third chunks, and for each party room for so many records and
    /// its limits.
    ///
    /// # Errors
    ///
    /// 1, 2, 24 if the two limits add to more than a pool's chunks.
    pub fn new(
        geometry: Geometry,
        chunks: (usize, usize),
        one: (usize, Limits),
        two: (usize, Limits),
    ) -> Result<Pair, Refusal> {
        let second = chunks.0.min(MOST_CHUNKS + 1);
        let third = chunks.1.min(MOST_CHUNKS + 1);
        let mut pair = Pair {
            geometry,
            one: Own::new(geometry, one.0, one.1),
            two: Own::new(geometry, two.0, two.1),
            second: vec![0; second * geometry.second_chunk()],
            third: vec![0; third * geometry.third_chunk()],
            own2: vec![0; second],
            own3: vec![0; third],
            long2: vec![0; second * geometry.second_chunk()],
        };
        pair.make()?;
        Ok(pair)
    }

    /// The same box, only to be read.
    #[inline]
    #[must_use]
    pub fn view(&self) -> PairRef<'_> {
        PairRef {
            geometry: self.geometry,
            one: self.one.view(),
            two: self.two.view(),
            second: &self.second,
            third: &self.third,
            own2: &self.own2,
            own3: &self.own3,
            long2: &self.long2,
        }
    }

    pair::pair_reads!();

    /// Lends the buffers to a change, and keeps the counts that it leaves.
    fn lend<T>(&mut self, change: impl FnOnce(&mut PairMut) -> T) -> T {
        let mut lent = PairMut {
            geometry: self.geometry,
            one: self.one.lend(),
            two: self.two.lend(),
            second: &mut self.second,
            third: &mut self.third,
            own2: &mut self.own2,
            own3: &mut self.own3,
            long2: &mut self.long2,
        };
        let answer = change(&mut lent);
        let counts = (lent.one.count, lent.two.count);
        (self.one.count, self.two.count) = counts;
        answer
    }

    /// Empties the box, whatever is in it. The limits stay as the fields have them.
    ///
    /// # Errors
    ///
    /// 1, 2, 24.
    pub fn make(&mut self) -> Result<(), Refusal> {
        self.lend(|b| b.make())
    }

    /// As [`PairMut::load`].
    ///
    /// # Errors
    ///
    /// 1, 2, 5, the input's, 6, 7, 8.
    pub fn load(&mut self, party: Party, input: &[u8]) -> Result<usize, Refusal> {
        self.lend(|b| b.load(party, input))
    }

    /// As [`PairMut::announce`].
    ///
    /// # Errors
    ///
    /// 1, 2, 3 for a length over 32, 4, 5, 6, 7, 8; a replacement never meets 6 to 8, and a [`Mark`] never 10.
    pub fn announce(
        &mut self,
        party: Party,
        addr: impl Into<Ipv4Addr>,
        len: u8,
        hop: u16,
        mark: Mark,
    ) -> Result<Announced, Refusal> {
        self.lend(|b| b.announce(party, addr, len, hop, mark))
    }

    /// As [`PairMut::withdraw`].
    ///
    /// # Errors
    ///
    /// 1, 2, 3 for a length over 32, 5, 9.
    pub fn withdraw(&mut self, party: Party, addr: impl Into<Ipv4Addr>, len: u8) -> Result<Withdrawn, Refusal> {
        self.lend(|b| b.withdraw(party, addr, len))
    }
}

impl fmt::Debug for Pair {
    fn fmt(&self, f: &mut fmt::Formatter) -> fmt::Result {
        pair::debug("Pair", self.view(), f)
    }
}

/// A tree bitmap image that owns its buffers: three words for each node, and the hops.
///
/// The fields are open, as those of [`Table`]: a walk that meets something broken is refused with 13, and so is a change
/// of an image that is not well formed. Zeros after its last word and its last hop are room to grow:
///
/// ```
/// use ghatumri::{Image, ImageAnnounced, Reason, Route};
///
/// let mut image = Image::of(&"10.0.0.0/8 20".parse::<Route>()?.record())?;
/// assert_eq!(image.announce([10, 1, 0, 0], 16, 31).unwrap_err().reason, Reason::Nodes);
/// image.resize(5, 2);
/// let ImageAnnounced::Added(built) = image.announce([10, 1, 0, 0], 16, 31)? else { panic!("it did not stand") };
/// assert_eq!((built.nodes, built.hops), (5, 2));
/// assert_eq!(image.lookup([10, 1, 2, 3])?.hop, Some(31));
/// # Ok::<(), Box<dyn std::error::Error>>(())
/// ```
#[derive(Clone, PartialEq, Eq)]
pub struct Image {
    pub words: Vec<u32>,
    pub hops: Vec<u16>,
}

impl Image {
    /// Room for so many nodes and hops, all zero.
    #[must_use]
    pub fn new(nodes: usize, hops: usize) -> Image {
        Image { words: vec![0; 3 * nodes], hops: vec![0; hops] }
    }

    /// The image of a record input, in arrays of just its size.
    ///
    /// # Errors
    ///
    /// The input's: 10 for its length; record by record 3, 4, 10; 6.
    pub fn of(input: &[u8]) -> Result<Image, Refusal> {
        // More records than the most are refused whatever the room.
        let records = (input.len() / 8).min(MOST_RECORDS);
        let mut image = Image { words: vec![0; words_for(records)], hops: vec![0; records] };
        let Built { nodes, hops } = image.build(input)?;
        image.words.truncate(3 * nodes);
        image.hops.truncate(hops);
        Ok(image)
    }

    /// Other room: for so many nodes and hops. What is new is zero, so an image that uses no more is the same.
    pub fn resize(&mut self, nodes: usize, hops: usize) {
        self.words.resize(3 * nodes, 0);
        self.hops.resize(hops, 0);
    }

    /// The same image, only to be read.
    #[inline]
    #[must_use]
    pub fn view(&self) -> ImageRef<'_> {
        ImageRef { words: &self.words, hops: &self.hops }
    }

    /// As [`ImageRef::test`].
    ///
    /// # Errors
    ///
    /// 13.
    pub fn test(&self) -> Result<Built, Refusal> {
        self.view().test()
    }

    /// As [`ImageRef::lookup`].
    ///
    /// # Errors
    ///
    /// 13.
    #[inline]
    pub fn lookup(&self, addr: impl Into<Ipv4Addr>) -> Result<Found, Refusal> {
        self.view().lookup(addr)
    }

    /// Builds the image of a record input into these arrays, whatever was in them.
    ///
    /// # Errors
    ///
    /// The input's (10 for its length; record by record 3, 4, 10; 6), 11, 12.
    pub fn build(&mut self, input: &[u8]) -> Result<Built, Refusal> {
        self.lend().build(input)
    }

    fn lend(&mut self) -> ImageMut<'_> {
        ImageMut { words: &mut self.words, hops: &mut self.hops }
    }

    /// As [`ImageMut::announce`]: in place, and with no more room than there is.
    ///
    /// # Errors
    ///
    /// 3 also for a bit after the length, 4, 13, 6 where more than 4,096 routes would stand, 11, 12; a replacement never
    /// meets the last three.
    pub fn announce(&mut self, addr: impl Into<Ipv4Addr>, len: u8, hop: u16) -> Result<ImageAnnounced, Refusal> {
        self.lend().announce(addr, len, hop)
    }

    /// As [`ImageMut::withdraw`].
    ///
    /// # Errors
    ///
    /// 3 also for a bit after the length, 13, 9.
    pub fn withdraw(&mut self, addr: impl Into<Ipv4Addr>, len: u8) -> Result<Built, Refusal> {
        self.lend().withdraw(addr, len)
    }
}

impl fmt::Debug for Image {
    fn fmt(&self, f: &mut fmt::Formatter) -> fmt::Result {
        image::debug("Image", self.view(), f)
    }
}

/// Bit maps that own their buffers: [`MAP_BYTES`] bytes of bits, and [`MAP_CELLS`] cells.
///
/// The fields are open, as those of [`Table`]: a cell that is broken is refused with 13 where a lookup meets it.
#[derive(Clone, PartialEq, Eq)]
pub struct Maps {
    pub bits: Vec<u8>,
    pub cells: Vec<u16>,
}

impl Default for Maps {
    fn default() -> Maps {
        Maps::new()
    }
}

impl Maps {
    /// Maps of no routes.
    #[must_use]
    pub fn new() -> Maps {
        Maps { bits: vec![0; MAP_BYTES], cells: vec![0; MAP_CELLS] }
    }

    /// The maps of a record input.
    ///
    /// # Errors
    ///
    /// The input's: 10 for its length; record by record 3, 4, 10; 6.
    pub fn of(input: &[u8]) -> Result<Maps, Refusal> {
        let mut maps = Maps::new();
        maps.build(input)?;
        Ok(maps)
    }

    /// The same maps, only to be read.
    #[inline]
    #[must_use]
    pub fn view(&self) -> MapsRef<'_> {
        MapsRef { bits: &self.bits, cells: &self.cells }
    }

    /// Builds the maps of a record input, whatever was in them.
    ///
    /// # Errors
    ///
    /// The input's (10 for its length; record by record 3, 4, 10; 6), 2.
    pub fn build(&mut self, input: &[u8]) -> Result<(), Refusal> {
        MapsMut { bits: &mut self.bits, cells: &mut self.cells }.build(input)
    }

    /// As [`MapsRef::lookup`].
    ///
    /// # Errors
    ///
    /// The input's, 2, 13.
    pub fn lookup(&self, input: &[u8], addr: impl Into<Ipv4Addr>) -> Result<Option<u16>, Refusal> {
        self.view().lookup(input, addr)
    }

    /// As [`MapsRef::lookup_many`].
    ///
    /// # Errors
    ///
    /// The input's, 2.
    pub fn lookup_many(&self, input: &[u8], addrs: &[u32], out: &mut [u32]) -> Result<(), Refusal> {
        self.view().lookup_many(input, addrs, out)
    }
}

impl fmt::Debug for Maps {
    fn fmt(&self, f: &mut fmt::Formatter) -> fmt::Result {
        maps::debug("Maps", self.view(), f)
    }
}
