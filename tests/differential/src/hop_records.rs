//! Request a of document 02, in plain form: "a lent list of hop records, hop h at place h counted from 1, each with a
//! port, an up or down mark, and two counts, packets and octets".

use crate::gen::Rng;
use crate::plain::{lookup, number, refused, Lent, HOP_MAX};

/// A mark of 1 is up, every other one is down.
#[derive(Clone, Copy, PartialEq, Eq, Debug, Default)]
pub struct HopRecord {
    pub port: u16,
    pub up: u8,
    pub packets: u32,
    pub octets: u32,
}

/// "The counts are Counter32 as in RFC 2578: after 4,294,967,295 the next value is 0."
pub fn counter32(value: u32, more: u64) -> u32 {
    ((value as u64 + more) % (1 << 32)) as u32
}

/// Counts a packet of so many octets on what a lookup found. "A forwarded packet adds one packet and its octets to its
/// own record, and no other record changes. The answer is lookup's, with the port; no route adds nothing. Refusals, after
/// lookup's own: 14, the hop has no record; 15, the record is down."
pub fn count(found: u64, records: &mut [HopRecord], octets: u32) -> u64 {
    let hop = (found >> 16) as u16 as usize;
    if number(found) != 0 || hop == 0 {
        return found;
    }
    let Some(record) = records.get_mut(hop - 1) else { return refused(14) };
    if record.up != 1 {
        return refused(15);
    }
    record.packets = counter32(record.packets, 1);
    record.octets = counter32(record.octets, octets as u64);
    found | (record.port as u64) << 32
}

/// A lookup in a table, and the packet counted on what it found.
pub fn forward(p1: u32, p2: u32, routes: u32, lent: &Lent, records: &mut [HopRecord], addr: u32, octets: u32) -> u64 {
    count(lookup(p1, p2, routes, lent, addr), records, octets)
}

// ---------------------------------------------------------------------------------------------------- records

/// Records for hops such as `Field` draws: few, about as many as there are common hops, or one for every hop but perhaps
/// the last. Most are up, and their counts are often about to wrap.
pub fn records(rng: &mut Rng) -> Vec<HopRecord> {
    let many = match rng.below(40) {
        0 => HOP_MAX as usize - rng.below(2),
        1..=4 => 0,
        5..=12 => rng.range(1, 8),
        _ => rng.range(8, 12),
    };
    (0..many).map(|_| record(rng)).collect()
}

fn record(rng: &mut Rng) -> HopRecord {
    let up = if rng.one_in(5) { *rng.pick(&[0, 2, 3, 128, 129, 255]) } else { 1 };
    let value = |rng: &mut Rng| match rng.below(4) {
        0 => u32::MAX - rng.below(4) as u32,
        1 => u32::MAX - rng.below(3000) as u32,
        2 => rng.below(5) as u32,
        _ => rng.word(),
    };
    HopRecord { port: rng.word() as u16, up, packets: value(rng), octets: value(rng) }
}

/// The octets of a packet: as a link has them, or any number.
pub fn octets(rng: &mut Rng) -> u32 {
    match rng.below(6) {
        0 => *rng.pick(&[0, 1, 20, u32::MAX, 1 << 31]),
        1 => rng.word(),
        _ => rng.range(20, 1500) as u32,
    }
}

/// A word such as lookups answer, in tables, images or maps: a refusal's number, no route, or a hop, with any reads.
pub fn found(rng: &mut Rng) -> u64 {
    let reads = (rng.below(11) as u64) << 8;
    match rng.below(6) {
        0 => *rng.pick(&[1, 2, 5, 13, 19, 20, 21, 22]),
        1 => reads,
        2 => (*rng.pick(&[HOP_MAX, HOP_MAX - 1, 256, 255, 4096]) as u64) << 16 | reads,
        _ => (rng.range(1, 13) as u64) << 16 | reads,
    }
}
