//! Lookups written by hand, with no checks: what the proved ones are measured beside.

use ghatumri::TableRef;

/// One walk through a SAIL table that is sound. The answer is packed as gh_lookup packs it.
#[inline(always)]
unsafe fn walk(p1: u32, p2: u32, first: &[u16], second: &[u16], third: &[u16], addr: u32) -> u64 {
    let c = *first.get_unchecked((addr >> (32 - p1)) as usize);
    if c >= 0x8000 {
        return 1 << 8 | ((c & 0x7FFF) as u64) << 16;
    }
    let within = addr >> (32 - p2) & ((1 << (p2 - p1)) - 1);
    let c = *second.get_unchecked(((c as usize - 1) << (p2 - p1)) + within as usize);
    if c >= 0x8000 {
        return 2 << 8 | ((c & 0x7FFF) as u64) << 16;
    }
    let within = addr & ((1 << (32 - p2)) - 1);
    let c = *third.get_unchecked(((c as usize - 1) << (32 - p2)) + within as usize);
    3 << 8 | ((c & 0x7FFF) as u64) << 16
}

/// A call with the same arguments as gh_lookup.
///
/// # Safety
/// The table is sound.
#[allow(clippy::too_many_arguments)]
pub unsafe extern "C" fn hand_lookup(
    p1: u32,
    p2: u32,
    _count: u32,
    _list: *const u8,
    _list_len: usize,
    first: *const u16,
    first_len: usize,
    second: *const u16,
    second_len: usize,
    third: *const u16,
    third_len: usize,
    _own2: *const u32,
    _own2_len: usize,
    _own3: *const u32,
    _own3_len: usize,
    _long1: *const u16,
    _long1_len: usize,
    _long2: *const u16,
    _long2_len: usize,
    addr: u32,
) -> u64 {
    let first = std::slice::from_raw_parts(first, first_len);
    let second = std::slice::from_raw_parts(second, second_len);
    let third = std::slice::from_raw_parts(third, third_len);
    walk(p1, p2, first, second, third, addr)
}

/// A loop that writes what gh_lookup_many writes.
///
/// # Safety
/// The table is sound, and `out` is as long as `addrs`.
#[inline(never)]
pub unsafe fn lookup_many(t: TableRef, addrs: &[u32], out: &mut [u32]) {
    let (p1, p2) = (t.geometry.p1, t.geometry.p2);
    for k in 0..addrs.len() {
        let answer = walk(p1, p2, t.first, t.second, t.third, *addrs.get_unchecked(k));
        *out.get_unchecked_mut(k) = answer as u32;
    }
}

/// A DIR-24-8 table: a cell for each first 24 bits, and chunks of 256 cells for what is longer. A cell with its top
/// bit set names a chunk, otherwise it is the hop.
pub struct Dir248 {
    first: Vec<u16>,
    long: Vec<u16>,
}

impl Dir248 {
    /// From routes (address, length, hop), ascending by length.
    pub fn new(routes: &[(u32, u8, u16)]) -> Dir248 {
        let mut t = Dir248 { first: vec![0; 1 << 24], long: Vec::new() };
        for &(addr, len, hop) in routes {
            let at = (addr >> 8) as usize;
            if len <= 24 {
                t.first[at..at + (1 << (24 - len))].fill(hop);
                continue;
            }
            // Longer than 24 comes last, so the cell holds what covers it.
            if t.first[at] & 0x8000 == 0 {
                let chunk = t.long.len() / 256;
                t.long.extend([t.first[at]; 256]);
                t.first[at] = 0x8000 | chunk as u16;
            }
            let begin = (t.first[at] as usize & 0x7FFF) * 256 + (addr as usize & 0xFF);
            t.long[begin..begin + (1 << (32 - len))].fill(hop);
        }
        t
    }

    /// Writes the hop of each address, 0 for no route.
    ///
    /// # Safety
    /// `out` is as long as `addrs`.
    #[inline(never)]
    pub unsafe fn lookup_many(&self, addrs: &[u32], out: &mut [u32]) {
        for k in 0..addrs.len() {
            let addr = *addrs.get_unchecked(k);
            let mut c = *self.first.get_unchecked((addr >> 8) as usize);
            if c & 0x8000 != 0 {
                c = *self.long.get_unchecked((c as usize & 0x7FFF) * 256 + (addr as usize & 0xFF));
            }
            *out.get_unchecked_mut(k) = c as u32;
        }
    }
}

/// A walk through a tree image that was built, with the same arguments as gh_tree_lookup and its packing.
///
/// # Safety
/// The image was built.
pub unsafe extern "C" fn hand_tree_lookup(
    words: *const u32,
    words_len: usize,
    hops: *const u16,
    hops_len: usize,
    addr: u32,
) -> u64 {
    let words = std::slice::from_raw_parts(words, words_len);
    let hops = std::slice::from_raw_parts(hops, hops_len);
    let mut at = 0;
    let mut place = usize::MAX;
    let mut reads = 0;
    let mut rest = addr;
    loop {
        let bitmap = *words.get_unchecked(3 * at);
        reads += 1;
        let next = rest >> 28;
        // The bits of the inner lengths 0 to 3; at depth 8 only the first.
        let mask = if reads == 9 { 1 } else { 1 | 2 << (next >> 3) | 8 << (next >> 2) | 128 << (next >> 1) };
        let matched = bitmap & mask;
        if matched != 0 {
            let below = (1 << (31 - matched.leading_zeros())) - 1;
            place = *words.get_unchecked(3 * at + 2) as usize + (bitmap & below).count_ones() as usize;
        }
        let child = 1 << (16 + next);
        if reads == 9 || bitmap & child == 0 {
            break;
        }
        let below = (child - 1) & 0xFFFF_0000;
        at = *words.get_unchecked(3 * at + 1) as usize + (bitmap & below).count_ones() as usize;
        rest <<= 4;
    }
    let hop = if place == usize::MAX { 0 } else { *hops.get_unchecked(place) };
    // The fetch of a hop that is answered counts one more.
    let reads = reads + (hop != 0) as u64;
    reads << 8 | (hop as u64) << 16
}

/// One plain read of all that a table call is lent.
#[inline(never)]
pub fn read_all(t: TableRef) -> u64 {
    let list: u64 = t.list.iter().map(|&x| x as u64).sum();
    let cells = |cells: &[u16]| cells.iter().fold(0u32, |s, &x| s.wrapping_add(x as u32)) as u64;
    let owners = |own: &[u32]| own.iter().fold(0u32, |s, &x| s.wrapping_add(x)) as u64;
    let counts = cells(t.long1) + cells(t.long2);
    list + cells(t.first) + cells(t.second) + cells(t.third) + owners(t.own2) + owners(t.own3) + counts
}
