//! Proved IPv4 lookup over buffers that you lend or own.
//!
//! A table holds routes in SAIL form: a lookup in it reads 1 to 3 cells. An image is a tree bitmap built from a record
//! input: small, and a lookup reads at most 9 nodes and one hop. Both are changed in place, route by route. Maps are bits
//! and hops for cards that have neither chunks nor nodes. [`routes`], [`run`], [`tally`], [`write_field`] and
//! [`is_broadcast`] work on record inputs directly. A [`HopRecord`] counts the packets and octets of a hop.
//!
//! Every call of the library underneath is proved for every content of the buffers, and none allocates or trusts them:
//! a table that is damaged is refused with 5 and stays as it is, until a load or a repair puts it right. A call that is
//! refused changes nothing. A message that finds no room for one of its routes is no error: [`Updated`] says how far it was
//! dealt with.
//!
//! - [`TableMut`] and [`ImageMut`] are over buffers that you lend, and [`TableRef`] and [`ImageRef`] only read them.
//! - [`PairMut`] and [`PairRef`] are two parties' tables over pools that they share. What one party is answered depends on
//!   nothing that the other does.
//! - [`Table`], [`Pair`] and [`Image`] own their buffers. They need the feature `alloc`, which is on by default. Without it the
//!   crate needs no allocator; in no case does it need `std`.
//! - [`raw`] has every call as it crosses the boundary, with its packed answer.
//!
#![cfg_attr(feature = "alloc", doc = "```")]
#![cfg_attr(not(feature = "alloc"), doc = "```ignore")]
//! use ghatumri::{Geometry, Mark, Reason, Refusal, Table};
//!
//! # fn main() -> Result<(), Refusal> {
//! let mut table = Table::new(Geometry::STANDARD, 64, 4, 4)?;
//! table.announce([10, 1, 2, 0], 24, 44, Mark::Behind)?;
//! table.announce([10, 1, 2, 128], 25, 57, Mark::Attached)?;
//! let found = table.lookup([10, 1, 2, 200])?;
//! assert_eq!((found.hop, found.reads), (Some(57), 3));
//! table.withdraw([10, 1, 2, 128], 25)?;
//! assert_eq!(table.lookup([10, 1, 2, 200])?.hop, Some(44));
//! let refusal = table.withdraw([10, 1, 2, 128], 25).unwrap_err();
//! assert_eq!((refusal.reason, refusal.number()), (Reason::Absent, 9));
//! # Ok(())
//! # }
//! ```
//!
//! An error section lists the refusals of a call in the order in which they are judged; [`Reason`] says what each means.
//! What the header says of threads is held by borrowing: a table that is changed has no readers. To change one beside
//! readers, change a copy and hand that to them, an [`Arc`](https://doc.rust-lang.org/std/sync/struct.Arc.html) for one.
#![no_std]
#![warn(missing_debug_implementations, clippy::missing_errors_doc, clippy::must_use_candidate)]
#![cfg_attr(not(feature = "alloc"), allow(rustdoc::broken_intra_doc_links))]

#[cfg(feature = "alloc")]
extern crate alloc;

mod broadcast;
mod found;
mod geometry;
mod image;
mod input;
mod maps;
mod message;
#[cfg(feature = "alloc")]
mod owned;
mod pair;
pub mod raw;
mod records;
mod refusal;
mod route;
pub mod sys;
mod table;

pub use broadcast::{is_broadcast, Rule};
pub use found::{Answer, Found};
pub use geometry::{Geometry, MOST_CHUNKS, MOST_RECORDS};
pub use image::{words_for, Built, ImageAnnounced, ImageMut, ImageRef};
pub use input::{longest, route, routes, run, tally, Routes};
pub use maps::{hop, MapsMut, MapsRef, MAP_BYTES, MAP_CELLS};
pub use message::{write_field, Updated, MOST_FIELD};
#[cfg(feature = "alloc")]
pub use owned::{Image, Maps, Own, Pair, Table};
pub use pair::{Limits, OwnMut, OwnRef, PairMut, PairRef, Party};
pub use records::{Forwarded, HopRecord, Sent};
pub use refusal::{Reason, Refusal};
pub use route::{Mark, ParseRouteError, Route};
pub use table::{Announced, Repaired, Report, TableMut, TableRef, Withdrawn};
