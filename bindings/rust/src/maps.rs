//! Bit maps for cards without chunk memory, over buffers that are lent.

use crate::raw;
use crate::refusal::{answered, Refusal};
use core::fmt;
use core::net::Ipv4Addr;

/// How many bytes the bits have.
pub const MAP_BYTES: usize = 16_384;

/// How many cells there are.
pub const MAP_CELLS: usize = 131_071;

/// Basic SAIL for lengths 0 to 16, in buffers that are only read: one bit and one hop cell for each prefix, level after
/// level. Routes that are longer are found in the record input itself, so each lookup is handed the input that the maps
/// were built from. It is copied freely, and many threads may use it at once.
#[derive(Clone, Copy, PartialEq, Eq)]
pub struct MapsRef<'a> {
    /// [`MAP_BYTES`] bytes. The prefix of length l whose bits are v has bit 2^l - 1 + v, the lowest of a byte first.
    pub bits: &'a [u8],
    /// [`MAP_CELLS`] cells. A prefix has the cell of the same place.
    pub cells: &'a [u16],
}

impl MapsRef<'_> {
    /// The hop of the longest route that covers an address, or no route. The input is checked whole each time.
    ///
    /// # Errors
    ///
    /// The input's (10 for its length; record by record 3, 4, 10; 6), 2, and 13 where the first set bit on the address's
    /// way down has no hop of 1 to 32,767.
    pub fn lookup(&self, input: &[u8], addr: impl Into<Ipv4Addr>) -> Result<Option<u16>, Refusal> {
        hop(answered(raw::basic_lookup(input, self.bits, self.cells, u32::from(addr.into())))? as u32)
    }

    /// Looks many addresses up, with the checks of input and sizes once for all. Each word of `out` is then to be read
    /// with [`hop`].
    ///
    /// # Errors
    ///
    /// The input's (10 for its length; record by record 3, 4, 10; 6), 2; also 2 where `addrs` and `out` differ in length.
    /// Nothing is then written.
    pub fn lookup_many(&self, input: &[u8], addrs: &[u32], out: &mut [u32]) -> Result<(), Refusal> {
        answered(raw::basic_lookup_many(input, self.bits, self.cells, addrs, out))?;
        Ok(())
    }
}

/// Maps in buffers that may be changed. Both are lent by the caller, and nothing is allocated.
#[derive(PartialEq, Eq)]
pub struct MapsMut<'a> {
    /// As [`MapsRef::bits`].
    pub bits: &'a mut [u8],
    /// As [`MapsRef::cells`].
    pub cells: &'a mut [u16],
}

impl MapsMut<'_> {
    /// The same maps, only to be read.
    #[inline]
    #[must_use]
    pub fn view(&self) -> MapsRef<'_> {
        MapsRef { bits: self.bits, cells: self.cells }
    }

    /// Builds the maps of a record input, whatever was in the buffers.
    ///
    /// # Errors
    ///
    /// The input's (10 for its length; record by record 3, 4, 10; 6), 2.
    pub fn build(&mut self, input: &[u8]) -> Result<(), Refusal> {
        answered(raw::basic_build(input, self.bits, self.cells))?;
        Ok(())
    }
}

/// Reads one word that [`MapsRef::lookup_many`] wrote.
///
/// # Errors
///
/// 13, as [`MapsRef::lookup`].
pub fn hop(word: u32) -> Result<Option<u16>, Refusal> {
    let hop = (answered(u64::from(word))? >> 16) as u16;
    Ok((hop != 0).then_some(hop))
}

/// The sizes, and none of the bits.
pub(crate) fn debug(name: &str, maps: MapsRef, f: &mut fmt::Formatter) -> fmt::Result {
    f.debug_struct(name).field("bytes", &maps.bits.len()).field("cells", &maps.cells.len()).finish_non_exhaustive()
}

impl fmt::Debug for MapsRef<'_> {
    fn fmt(&self, f: &mut fmt::Formatter) -> fmt::Result {
        debug("MapsRef", *self, f)
    }
}

impl fmt::Debug for MapsMut<'_> {
    fn fmt(&self, f: &mut fmt::Formatter) -> fmt::Result {
        debug("MapsMut", self.view(), f)
    }
}
