//! The proved library, through the Rust binding.

use ghatumri::raw::{self, Lookup, TreeLookup};
use ghatumri::{sys, Geometry, HopRecord, ImageRef, Table, TableRef};
use std::hint::black_box;

/// A standard table of an input, with room for so many records and pools of so many chunks.
pub fn table(input: &[u8], room: usize, second: usize, third: usize) -> Table {
    let mut table = Table::new(Geometry::STANDARD, room, second, third).unwrap();
    table.load(input).unwrap();
    table
}

/// How much is lent to a call.
pub fn bytes(t: TableRef) -> usize {
    let cells = t.first.len() + t.second.len() + t.third.len();
    let counts = t.long1.len() + t.long2.len();
    t.list.len() + 2 * (cells + counts) + 4 * (t.own2.len() + t.own3.len())
}

/// One call for each address: gh_lookup, or one with the same arguments. Both go through a pointer that the compiler
/// does not see through. Where it does see what is called, it leaves out the arguments that are not used.
#[inline(never)]
pub fn each(t: TableRef, look: Lookup, addrs: &[u32], out: &mut [u32]) {
    let look = black_box(look);
    for (o, &addr) in out.iter_mut().zip(addrs) {
        *o = unsafe { raw::lookup_by(look, &t, addr) } as u32;
    }
}

/// The records of 64 hops, as many as the routes have.
pub fn records() -> Vec<HopRecord> {
    (1..=64).map(HopRecord::new).collect()
}

/// A packet of 1,500 octets to each address.
#[inline(never)]
pub fn forward_each(t: TableRef, records: &mut [HopRecord], addrs: &[u32], out: &mut [u32]) {
    for (o, &addr) in out.iter_mut().zip(addrs) {
        *o = raw::forward(&t, records, addr, 1500) as u32;
    }
}

/// The same by two calls.
#[inline(never)]
pub fn count_each(t: TableRef, records: &mut [HopRecord], addrs: &[u32], out: &mut [u32]) {
    let look: Lookup = black_box(sys::gh_lookup);
    for (o, &addr) in out.iter_mut().zip(addrs) {
        *o = raw::count(unsafe { raw::lookup_by(look, &t, addr) }, records, 1500) as u32;
    }
}

/// One call for each address, as for tables.
#[inline(never)]
pub fn tree_each(image: ImageRef, look: TreeLookup, addrs: &[u32], out: &mut [u32]) {
    let look = black_box(look);
    for (o, &addr) in out.iter_mut().zip(addrs) {
        *o = unsafe { raw::tree_lookup_by(look, image.words, image.hops, addr) } as u32;
    }
}

/// A header from 192.0.2.1 to each address, with a time to live of 64 and its checksum.
pub fn headers(addrs: &[u32]) -> Vec<[u8; 20]> {
    let header = |addr: &u32| {
        let mut header = [0x45, 0, 0, 40, 0, 1, 0x40, 0, 64, 6, 0, 0, 192, 0, 2, 1, 0, 0, 0, 0];
        header[16..].copy_from_slice(&addr.to_be_bytes());
        let sum: u32 = header.chunks(2).map(|half| u32::from(half[0]) << 8 | u32::from(half[1])).sum();
        let sum = (sum & 0xFFFF) + (sum >> 16);
        header[10..12].copy_from_slice(&(!(sum + (sum >> 16)) as u16).to_be_bytes());
        header
    };
    addrs.iter().map(header).collect()
}

/// One step for each header, of a copy.
#[inline(never)]
pub fn steps(t: TableRef, headers: &[[u8; 20]], out: &mut [u32]) {
    for (o, header) in out.iter_mut().zip(headers) {
        let mut packet = *header;
        *o = raw::step(&t, black_box(&mut packet)) as u32;
    }
}

/// All of them in one call.
pub fn many(t: TableRef, addrs: &[u32], out: &mut [u32]) {
    let answer = raw::lookup_many(&t, addrs, out);
    assert!(answer == 0, "gh_lookup_many is refused: {answer:016x}");
}
