//! Tree bitmap images over buffers that are lent.

use crate::found::{Answer, Found};
use crate::raw;
use crate::refusal::{answered, Refusal};
use core::fmt;
use core::net::Ipv4Addr;

/// Words that are enough for the image of any so many routes. Its hops are as many as the routes.
#[must_use]
pub const fn words_for(routes: usize) -> usize {
    // A route adds at most 8 nodes to the root, and a node has three words.
    3 * (1 + 8 * routes)
}

/// How much of its arrays an image uses. The rest is zero.
#[derive(Clone, Copy, PartialEq, Eq, Hash, Debug)]
pub struct Built {
    /// Nodes, of three words each.
    pub nodes: usize,
    /// One for each route.
    pub hops: usize,
}

impl Built {
    /// Out of an accepted answer: hops in bits 16 to 31, nodes in 32 to 63.
    fn of(answer: u64) -> Built {
        Built { nodes: (answer >> 32) as usize, hops: (answer >> 16) as usize & 0xFFFF }
    }
}

/// What an accepted announcement did to an image, and how much of its arrays the image then uses.
#[derive(Clone, Copy, PartialEq, Eq, Hash, Debug)]
pub enum ImageAnnounced {
    Added(Built),
    /// The prefix stood, and its hop was replaced.
    Replaced(Built),
}

/// An image in buffers that are only read. It is copied freely, and many threads may use it at once.
#[derive(Clone, Copy, PartialEq, Eq)]
pub struct ImageRef<'a> {
    /// Three words for each node.
    pub words: &'a [u32],
    pub hops: &'a [u16],
}

impl ImageRef<'_> {
    /// Looks one address up.
    ///
    /// # Errors
    ///
    /// 13 where the walk meets something broken.
    #[inline]
    pub fn lookup(&self, addr: impl Into<Ipv4Addr>) -> Result<Found, Refusal> {
        Answer::new(raw::tree_lookup(self.words, self.hops, u32::from(addr.into()))).found()
    }

    /// Tests the whole image: whether some record input builds these very words and hops into arrays of these lengths. A
    /// lookup asks for less.
    ///
    /// # Errors
    ///
    /// 13 where it is not so.
    pub fn test(&self) -> Result<Built, Refusal> {
        answered(raw::tree_test(self.words, self.hops)).map(Built::of)
    }
}

/// An image in buffers that may be changed. Both are lent by the caller, and nothing is allocated.
///
/// ```
/// use ghatumri::{words_for, Built, ImageMut};
///
/// let input = [10, 0, 0, 0, 8, 0, 0, 20, 10, 1, 0, 0, 16, 1, 0, 31];
/// let mut image = ImageMut { words: &mut [0; words_for(2)], hops: &mut [0; 2] };
/// assert_eq!(image.build(&input)?, Built { nodes: 5, hops: 2 });
/// assert_eq!(image.lookup([10, 1, 2, 3])?.hop, Some(31));
/// assert_eq!(image.withdraw([10, 1, 0, 0], 16)?, Built { nodes: 3, hops: 1 });
/// assert_eq!(image.lookup([10, 1, 2, 3])?.hop, Some(20));
/// # Ok::<(), ghatumri::Refusal>(())
/// ```
#[derive(PartialEq, Eq)]
pub struct ImageMut<'a> {
    /// Three words for each node.
    pub words: &'a mut [u32],
    pub hops: &'a mut [u16],
}

impl ImageMut<'_> {
    /// The same image, only to be read.
    #[inline]
    #[must_use]
    pub fn view(&self) -> ImageRef<'_> {
        ImageRef { words: self.words, hops: self.hops }
    }

    /// As [`ImageRef::lookup`].
    ///
    /// # Errors
    ///
    /// 13.
    #[inline]
    pub fn lookup(&self, addr: impl Into<Ipv4Addr>) -> Result<Found, Refusal> {
        self.view().lookup(addr)
    }

    /// As [`ImageRef::test`].
    ///
    /// # Errors
    ///
    /// 13.
    pub fn test(&self) -> Result<Built, Refusal> {
        self.view().test()
    }

    /// Builds the image of a record input, whatever was in the buffers.
    ///
    /// # Errors
    ///
    /// The input's (10 for its length; record by record 3, 4, 10; 6), 11, 12.
    pub fn build(&mut self, input: &[u8]) -> Result<Built, Refusal> {
        answered(raw::build(input, self.words, self.hops)).map(Built::of)
    }

    /// Adds a route, or replaces the hop of its prefix where it stands. The image is tested first. It then is that of a
    /// fresh build, into the same buffers, from the routes then standing. An image of no routes is one built from an
    /// empty input.
    ///
    /// # Errors
    ///
    /// 3 also for a bit after the length, 4, 13, 6 where more than 4,096 routes would stand, 11, 12; a replacement never
    /// meets the last three.
    pub fn announce(&mut self, addr: impl Into<Ipv4Addr>, len: u8, hop: u16) -> Result<ImageAnnounced, Refusal> {
        let addr = u32::from(addr.into());
        let answer = answered(raw::tree_announce(self.words, self.hops, addr, len.into(), hop.into()))?;
        let built = Built::of(answer);
        Ok(if answer >> 8 & 1 == 1 { ImageAnnounced::Replaced(built) } else { ImageAnnounced::Added(built) })
    }

    /// Removes the route of a prefix, as [`ImageMut::announce`] adds one.
    ///
    /// # Errors
    ///
    /// 3 also for a bit after the length, 13, 9.
    pub fn withdraw(&mut self, addr: impl Into<Ipv4Addr>, len: u8) -> Result<Built, Refusal> {
        answered(raw::tree_withdraw(self.words, self.hops, u32::from(addr.into()), len.into())).map(Built::of)
    }
}

/// The sizes, and none of the words.
pub(crate) fn debug(name: &str, image: ImageRef, f: &mut fmt::Formatter) -> fmt::Result {
    f.debug_struct(name)
        .field("nodes", &(image.words.len() / 3))
        .field("hops", &image.hops.len())
        .finish_non_exhaustive()
}

impl fmt::Debug for ImageRef<'_> {
    fn fmt(&self, f: &mut fmt::Formatter) -> fmt::Result {
        debug("ImageRef", *self, f)
    }
}

impl fmt::Debug for ImageMut<'_> {
    fn fmt(&self, f: &mut fmt::Formatter) -> fmt::Result {
        debug("ImageMut", self.view(), f)
    }
}
