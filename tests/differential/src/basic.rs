//! Request k of document 02, in plain form: basic SAIL for lengths 0 to 16, "one bit for each prefix and one hop cell of
//! 16 bits for each, level after level"; "anything longer" is found in the record list.
//!
//! "That is 131,071 bits in 16,384 bytes, lowest bit first, the last bit zero, and 131,071 hop cells, zero where no
//! route stands."

use crate::gen::Rng;
use crate::plain::{bits, check_input, hop_ok, refused, Route};

/// The bytes that hold the bits.
pub const BYTES: usize = 16_384;
/// The hop cells, as many as prefixes of length 0 to 16: 1 + 2 + 4 + .. + 65,536.
pub const CELLS: usize = 131_071;
/// The longest length that has a level.
const LEVELS: u8 = 16;

/// The place of a prefix, of its bit and of its cell alike: the levels before its own have 1 + 2 + .. prefixes.
pub fn place(addr: u32, len: u8) -> usize {
    let before: usize = (0..len).map(|level| 1usize << level).sum();
    before + bits(addr, len as u32) as usize
}

fn sizes_ok(map: &[u8], cells: &[u16]) -> bool {
    map.len() == BYTES && cells.len() == CELLS
}

/// Refusals: "the record input's; 2 for another array size".
pub fn build(input: &[u8], map: &mut [u8], cells: &mut [u16]) -> u64 {
    let routes = match check_input(input) {
        Ok(routes) => routes,
        Err(answer) => return answer,
    };
    if !sizes_ok(map, cells) {
        return refused(2);
    }
    map.fill(0);
    cells.fill(0);
    for r in routes.iter().filter(|r| r.len <= LEVELS) {
        let at = place(r.addr, r.len);
        map[at / 8] |= 1 << (at % 8);
        cells[at] = r.hop;
    }
    0
}

/// One address: the list for the longer lengths, and then "down from the longest length" to 0. The sizes are right.
/// Refusal: "13 where the first set bit met on the way down has a hop outside 1 to 32,767".
fn look(routes: &[Route], map: &[u8], cells: &[u16], addr: u32) -> u64 {
    let longer = routes.iter().filter(|r| r.len > LEVELS && r.covers(addr)).max_by_key(|r| r.len);
    if let Some(r) = longer {
        return (r.hop as u64) << 16;
    }
    for len in (0..=LEVELS).rev() {
        let at = place(addr, len);
        if map[at / 8] >> (at % 8) & 1 == 1 {
            return if hop_ok(cells[at] as u32) { (cells[at] as u64) << 16 } else { refused(13) };
        }
    }
    0
}

/// The hop in bits 16 to 31, 0 for no route. "Lookup builds nothing."
pub fn lookup(input: &[u8], map: &[u8], cells: &[u16], addr: u32) -> u64 {
    match check_input(input) {
        Err(answer) => answer,
        Ok(_) if !sizes_ok(map, cells) => refused(2),
        Ok(routes) => look(&routes, map, cells, addr),
    }
}

/// The checks once; each word of `out` is what a lookup answers, a 13 too. 2 also where the lengths differ.
pub fn lookup_many(input: &[u8], map: &[u8], cells: &[u16], addrs: &[u32], out: &mut [u32]) -> u64 {
    let routes = match check_input(input) {
        Ok(routes) => routes,
        Err(answer) => return answer,
    };
    if !sizes_ok(map, cells) || addrs.len() != out.len() {
        return refused(2);
    }
    for (o, &addr) in out.iter_mut().zip(addrs) {
        *o = look(&routes, map, cells, addr) as u32;
    }
    0
}

/// Harm to the maps on the way down of this address: a bit set or cleared, a cell with another hop, a bad one among
/// them, or neither at this address but anywhere. The sizes stay.
pub fn damage(rng: &mut Rng, map: &mut [u8], cells: &mut [u16], addr: u32) {
    let len = rng.range(0, LEVELS as usize) as u8;
    let at = if rng.one_in(8) { rng.below(CELLS + 1) } else { place(addr, len) };
    match rng.below(4) {
        0 => map[at / 8] ^= 1 << (at % 8),
        1 => map[at / 8] = *rng.pick(&[0, 0xFF]),
        _ => {
            map[at / 8] |= 1 << (at % 8);
            cells[at.min(CELLS - 1)] = *rng.pick(&[0, 1, 32_767, 32_768, 65_535]);
        }
    }
}

/// Other sizes than asked for: one byte or one cell more or less, the two lengths exchanged, nothing.
pub fn other_size(rng: &mut Rng) -> (usize, usize) {
    *rng.pick(&[
        (BYTES - 1, CELLS),
        (BYTES + 1, CELLS),
        (BYTES, CELLS - 1),
        (BYTES, CELLS + 1),
        (CELLS, BYTES),
        (0, CELLS),
        (BYTES, 0),
        (0, 0),
    ])
}
