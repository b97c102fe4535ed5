//! Each call as it crosses the boundary: arrays as slices, numbers of 32 bits, and the packed answer, which the header's
//! section ANSWERS tells how to read.
//!
//! Nothing is kept here: after an accepted change its caller sets [`TableMut::count`], or the count of the party in
//! [`PairMut`], from bits 16 to 31 of the answer, and leaves it after a refusal; after an [`update`] it sets it if bit 8 is
//! set too. The rest of this crate, the comparison with a plain implementation and the measurements stand on these
//! functions.

use crate::pair::{PairMut, PairRef};
use crate::records::HopRecord;
use crate::sys;
use crate::table::{TableMut, TableRef};

/// Calls a function that takes a table: what comes before its arrays, and what comes after them. Each pointer and length
/// is that of a slice, and the borrow of one that is written keeps all others away from it. So such a call is safe.
macro_rules! lend {
    ($call:expr, ($($before:expr),*), mut $t:ident, ($($after:expr),*)) => {
        $call(
            $t.geometry.p1, $t.geometry.p2, $($before,)*
            $t.list.as_mut_ptr(), $t.list.len(),
            $t.first.as_mut_ptr(), $t.first.len(),
            $t.second.as_mut_ptr(), $t.second.len(),
            $t.third.as_mut_ptr(), $t.third.len(),
            $t.own2.as_mut_ptr(), $t.own2.len(),
            $t.own3.as_mut_ptr(), $t.own3.len(),
            $t.long1.as_mut_ptr(), $t.long1.len(),
            $t.long2.as_mut_ptr(), $t.long2.len(),
            $($after),*
        )
    };
    ($call:expr, $t:ident, ($($after:expr),*)) => {
        $call(
            $t.geometry.p1, $t.geometry.p2, $t.count,
            $t.list.as_ptr(), $t.list.len(),
            $t.first.as_ptr(), $t.first.len(),
            $t.second.as_ptr(), $t.second.len(),
            $t.third.as_ptr(), $t.third.len(),
            $t.own2.as_ptr(), $t.own2.len(),
            $t.own3.as_ptr(), $t.own3.len(),
            $t.long1.as_ptr(), $t.long1.len(),
            $t.long2.as_ptr(), $t.long2.len(),
            $($after),*
        )
    };
}

/// Calls a function that takes a box of two: its state, its arrays, and what comes after them. It is safe for the reason that
/// is given at `lend`.
macro_rules! lend_pair {
    ($call:expr, ($($state:expr),*), mut $b:ident, ($($after:expr),*)) => {
        $call(
            $($state,)*
            $b.one.list.as_mut_ptr(), $b.one.list.len(),
            $b.one.first.as_mut_ptr(), $b.one.first.len(),
            $b.one.long1.as_mut_ptr(), $b.one.long1.len(),
            $b.two.list.as_mut_ptr(), $b.two.list.len(),
            $b.two.first.as_mut_ptr(), $b.two.first.len(),
            $b.two.long1.as_mut_ptr(), $b.two.long1.len(),
            $b.second.as_mut_ptr(), $b.second.len(),
            $b.third.as_mut_ptr(), $b.third.len(),
            $b.own2.as_mut_ptr(), $b.own2.len(),
            $b.own3.as_mut_ptr(), $b.own3.len(),
            $b.long2.as_mut_ptr(), $b.long2.len(),
            $($after),*
        )
    };
    ($call:expr, mut $b:ident, ($($after:expr),*)) => {
        lend_pair!(
            $call,
            (
                $b.geometry.p1, $b.geometry.p2, $b.one.count, $b.two.count,
                $b.one.limits.second, $b.one.limits.third, $b.two.limits.second, $b.two.limits.third
            ),
            mut $b, ($($after),*)
        )
    };
    ($call:expr, $b:ident, ($($after:expr),*)) => {
        $call(
            $b.geometry.p1, $b.geometry.p2, $b.one.count, $b.two.count,
            $b.one.limits.second, $b.one.limits.third, $b.two.limits.second, $b.two.limits.third,
            $b.one.list.as_ptr(), $b.one.list.len(),
            $b.one.first.as_ptr(), $b.one.first.len(),
            $b.one.long1.as_ptr(), $b.one.long1.len(),
            $b.two.list.as_ptr(), $b.two.list.len(),
            $b.two.first.as_ptr(), $b.two.first.len(),
            $b.two.long1.as_ptr(), $b.two.long1.len(),
            $b.second.as_ptr(), $b.second.len(),
            $b.third.as_ptr(), $b.third.len(),
            $b.own2.as_ptr(), $b.own2.len(),
            $b.own3.as_ptr(), $b.own3.len(),
            $b.long2.as_ptr(), $b.long2.len(),
            $($after),*
        )
    };
}

/// The type of `gh_lookup`.
pub type Lookup = unsafe extern "C" fn(
    p1: u32,
    p2: u32,
    count: u32,
    list: *const u8,
    list_len: usize,
    first: *const u16,
    first_len: usize,
    second: *const u16,
    second_len: usize,
    third: *const u16,
    third_len: usize,
    own2: *const u32,
    own2_len: usize,
    own3: *const u32,
    own3_len: usize,
    long1: *const u16,
    long1_len: usize,
    long2: *const u16,
    long2_len: usize,
    addr: u32,
) -> u64;

/// The type of `gh_tree_lookup`.
pub type TreeLookup =
    unsafe extern "C" fn(words: *const u32, words_len: usize, hops: *const u16, hops_len: usize, addr: u32) -> u64;

#[must_use]
pub fn make(t: &mut TableMut) -> u64 {
    unsafe { lend!(sys::gh_make, (), mut t, ()) }
}

#[must_use]
pub fn load(t: &mut TableMut, input: &[u8]) -> u64 {
    unsafe { lend!(sys::gh_load, (input.as_ptr(), input.len()), mut t, ()) }
}

#[must_use]
pub fn announce(t: &mut TableMut, addr: u32, len: u32, hop: u32, mark: u32) -> u64 {
    unsafe { lend!(sys::gh_announce, (t.count), mut t, (addr, len, hop, mark)) }
}

#[must_use]
pub fn withdraw(t: &mut TableMut, addr: u32, len: u32) -> u64 {
    unsafe { lend!(sys::gh_withdraw, (t.count), mut t, (addr, len)) }
}

#[must_use]
pub fn update(t: &mut TableMut, withdrawn: &[u8], reach: &[u8], hop: u32) -> u64 {
    let (w, r) = (withdrawn.len(), reach.len());
    unsafe { lend!(sys::gh_update, (t.count), mut t, (withdrawn.as_ptr(), w, reach.as_ptr(), r, hop)) }
}

#[must_use]
pub fn repair(t: &mut TableMut, out: &mut [u32]) -> u64 {
    unsafe { lend!(sys::gh_repair, (t.count), mut t, (out.as_mut_ptr(), out.len())) }
}

#[must_use]
pub fn report(t: &TableRef) -> u64 {
    unsafe { lend!(sys::gh_report, t, ()) }
}

#[inline]
#[must_use]
pub fn lookup(t: &TableRef, addr: u32) -> u64 {
    unsafe { lookup_by(sys::gh_lookup, t, addr) }
}

/// A lookup by `gh_lookup`, or by a function that is to be measured beside it.
///
/// # Safety
///
/// The function reads no more than the slices that it is lent.
#[inline]
#[must_use]
pub unsafe fn lookup_by(look: Lookup, t: &TableRef, addr: u32) -> u64 {
    unsafe { lend!(look, t, (addr)) }
}

#[must_use]
pub fn lookup_many(t: &TableRef, addrs: &[u32], out: &mut [u32]) -> u64 {
    unsafe { lend!(sys::gh_lookup_many, t, (addrs.as_ptr(), addrs.len(), out.as_mut_ptr(), out.len())) }
}

#[inline]
#[must_use]
pub fn step(t: &TableRef, packet: &mut [u8]) -> u64 {
    unsafe { lend!(sys::gh_step, t, (packet.as_mut_ptr(), packet.len())) }
}

#[inline]
#[must_use]
pub fn forward(t: &TableRef, records: &mut [HopRecord], addr: u32, octets: u32) -> u64 {
    unsafe { lend!(sys::gh_forward, t, (records.as_mut_ptr(), records.len(), addr, octets)) }
}

#[inline]
#[must_use]
pub fn count(found: u64, records: &mut [HopRecord], octets: u32) -> u64 {
    unsafe { sys::gh_count(found, records.as_mut_ptr(), records.len(), octets) }
}

#[must_use]
pub fn pair_make(b: &mut PairMut) -> u64 {
    unsafe {
        lend_pair!(
            sys::gh_pair_make,
            (
                b.geometry.p1,
                b.geometry.p2,
                b.one.limits.second,
                b.one.limits.third,
                b.two.limits.second,
                b.two.limits.third
            ),
            mut b,
            ()
        )
    }
}

#[must_use]
pub fn pair_load(b: &mut PairMut, party: u32, input: &[u8]) -> u64 {
    unsafe { lend_pair!(sys::gh_pair_load, mut b, (party, input.as_ptr(), input.len())) }
}

#[must_use]
pub fn pair_announce(b: &mut PairMut, party: u32, addr: u32, len: u32, hop: u32, mark: u32) -> u64 {
    unsafe { lend_pair!(sys::gh_pair_announce, mut b, (party, addr, len, hop, mark)) }
}

#[must_use]
pub fn pair_withdraw(b: &mut PairMut, party: u32, addr: u32, len: u32) -> u64 {
    unsafe { lend_pair!(sys::gh_pair_withdraw, mut b, (party, addr, len)) }
}

#[must_use]
pub fn pair_report(b: &PairRef, party: u32) -> u64 {
    unsafe { lend_pair!(sys::gh_pair_report, b, (party)) }
}

#[inline]
#[must_use]
pub fn pair_lookup(b: &PairRef, party: u32, addr: u32) -> u64 {
    unsafe { lend_pair!(sys::gh_pair_lookup, b, (party, addr)) }
}

#[inline]
#[must_use]
pub fn pair_step(b: &PairRef, party: u32, packet: &mut [u8]) -> u64 {
    unsafe { lend_pair!(sys::gh_pair_step, b, (party, packet.as_mut_ptr(), packet.len())) }
}

#[must_use]
pub fn build(input: &[u8], words: &mut [u32], hops: &mut [u16]) -> u64 {
    let (w, h) = (words.len(), hops.len());
    unsafe { sys::gh_build(input.as_ptr(), input.len(), words.as_mut_ptr(), w, hops.as_mut_ptr(), h) }
}

#[inline]
#[must_use]
pub fn tree_lookup(words: &[u32], hops: &[u16], addr: u32) -> u64 {
    unsafe { tree_lookup_by(sys::gh_tree_lookup, words, hops, addr) }
}

/// A lookup by `gh_tree_lookup`, or by a function that is to be measured beside it.
///
/// # Safety
///
/// The function reads no more than the slices that it is lent.
#[inline]
#[must_use]
pub unsafe fn tree_lookup_by(look: TreeLookup, words: &[u32], hops: &[u16], addr: u32) -> u64 {
    unsafe { look(words.as_ptr(), words.len(), hops.as_ptr(), hops.len(), addr) }
}

#[must_use]
pub fn tree_test(words: &[u32], hops: &[u16]) -> u64 {
    unsafe { sys::gh_tree_test(words.as_ptr(), words.len(), hops.as_ptr(), hops.len()) }
}

#[must_use]
pub fn tree_announce(words: &mut [u32], hops: &mut [u16], addr: u32, len: u32, hop: u32) -> u64 {
    let (w, h) = (words.len(), hops.len());
    unsafe { sys::gh_tree_announce(words.as_mut_ptr(), w, hops.as_mut_ptr(), h, addr, len, hop) }
}

#[must_use]
pub fn tree_withdraw(words: &mut [u32], hops: &mut [u16], addr: u32, len: u32) -> u64 {
    let (w, h) = (words.len(), hops.len());
    unsafe { sys::gh_tree_withdraw(words.as_mut_ptr(), w, hops.as_mut_ptr(), h, addr, len) }
}

#[must_use]
pub fn run(input: &[u8], addr: u32, len: u32) -> u64 {
    unsafe { sys::gh_run(input.as_ptr(), input.len(), addr, len) }
}

#[must_use]
pub fn tally(input: &[u8], out: &mut [u32]) -> u64 {
    unsafe { sys::gh_tally(input.as_ptr(), input.len(), out.as_mut_ptr(), out.len()) }
}

#[must_use]
pub fn route(input: &[u8], index: u32) -> u64 {
    unsafe { sys::gh_route(input.as_ptr(), input.len(), index) }
}

#[must_use]
pub fn write_field(input: &[u8], out: &mut [u8]) -> u64 {
    unsafe { sys::gh_write_field(input.as_ptr(), input.len(), out.as_mut_ptr(), out.len()) }
}

#[must_use]
pub fn longest(input: &[u8], addr: u32) -> u64 {
    unsafe { sys::gh_longest(input.as_ptr(), input.len(), addr) }
}

#[must_use]
pub fn broadcast(version: u32, input: &[u8], addr: u32) -> u64 {
    unsafe { sys::gh_broadcast(version, input.as_ptr(), input.len(), addr) }
}

#[must_use]
pub fn basic_build(input: &[u8], bits: &mut [u8], cells: &mut [u16]) -> u64 {
    let (b, c) = (bits.len(), cells.len());
    unsafe { sys::gh_basic_build(input.as_ptr(), input.len(), bits.as_mut_ptr(), b, cells.as_mut_ptr(), c) }
}

#[must_use]
pub fn basic_lookup(input: &[u8], bits: &[u8], cells: &[u16], addr: u32) -> u64 {
    let (b, c) = (bits.len(), cells.len());
    unsafe { sys::gh_basic_lookup(input.as_ptr(), input.len(), bits.as_ptr(), b, cells.as_ptr(), c, addr) }
}

#[must_use]
pub fn basic_lookup_many(input: &[u8], bits: &[u8], cells: &[u16], addrs: &[u32], out: &mut [u32]) -> u64 {
    let (b, c, o) = (bits.len(), cells.len(), out.len());
    let (n, out) = (addrs.len(), out.as_mut_ptr());
    let input = (input.as_ptr(), input.len());
    unsafe {
        sys::gh_basic_lookup_many(input.0, input.1, bits.as_ptr(), b, cells.as_ptr(), c, addrs.as_ptr(), n, out, o)
    }
}
