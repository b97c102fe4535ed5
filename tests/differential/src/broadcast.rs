//! Request i of document 02, in plain form: "Tell for an address whether the longest route covering it is attached and
//! this is its broadcast."

use crate::gen::Rng;
use crate::plain::{check_input, refused, Route};

/// The longest length that has a directed broadcast. "Under our older boxes' rule the highest address of an attached
/// route of length 0 to 31 is its directed broadcast. RFC 3021 gives a 31-bit link two hosts and no broadcast, so the
/// newer rule covers lengths 0 to 30."
fn longest(version: u32) -> Option<u8> {
    match version {
        1 => Some(31),
        2 => Some(30),
        _ => None,
    }
}

/// The highest address that the route covers: its own, and 2^(32 - length) - 1 more.
fn highest(r: &Route) -> u64 {
    r.addr as u64 + (1u64 << (32 - r.len as u32)) - 1
}

/// Bit 8 says yes. "Refusals: 23, version neither 1 nor 2; the record input's come after it."
pub fn broadcast(version: u32, input: &[u8], addr: u32) -> u64 {
    let Some(longest) = longest(version) else { return refused(23) };
    let routes = match check_input(input) {
        Ok(routes) => routes,
        Err(answer) => return answer,
    };
    let covering = routes.iter().filter(|r| r.covers(addr)).max_by_key(|r| r.len);
    let yes = covering.is_some_and(|r| r.mark == 1 && r.len <= longest && highest(r) == addr as u64);
    (yes as u64) << 8
}

/// A version to ask with: mostly one of the two, and others of which 257 and 258 would be these in 8 bits.
pub fn asked_version(rng: &mut Rng) -> u32 {
    if rng.one_in(8) {
        *rng.pick(&[0, 3, 255, 256, 257, 258, 65_537, u32::MAX])
    } else {
        rng.range(1, 2) as u32
    }
}
