//! Random routes and inputs, biased so that interesting things happen.

use crate::plain::{bits, records, size2, Lent, Route};

/// A small generator of random numbers (splitmix64). The same seed gives the same numbers.
#[derive(Clone)]
pub struct Rng(u64);

impl Rng {
    pub fn new(seed: u64) -> Rng {
        Rng(seed)
    }

    /// The generator of part `n` of a run, so that each part can be run alone.
    pub fn part(seed: u64, n: u64) -> Rng {
        let mut r = Rng(seed ^ n.wrapping_mul(0xD6E8_FEB8_6659_FD93));
        r.draw();
        r
    }

    pub fn draw(&mut self) -> u64 {
        self.0 = self.0.wrapping_add(0x9E37_79B9_7F4A_7C15);
        let mut z = self.0;
        z = (z ^ (z >> 30)).wrapping_mul(0xBF58_476D_1CE4_E5B9);
        z = (z ^ (z >> 27)).wrapping_mul(0x94D0_49BB_1331_11EB);
        z ^ (z >> 31)
    }

    pub fn word(&mut self) -> u32 {
        (self.draw() >> 32) as u32
    }

    /// A number below `n`, which is not 0.
    pub fn below(&mut self, n: usize) -> usize {
        (self.draw() >> 16) as usize % n
    }

    /// A number from `a` to `b`, both among them.
    pub fn range(&mut self, a: usize, b: usize) -> usize {
        a + self.below(b - a + 1)
    }

    /// True once in `n` times.
    pub fn one_in(&mut self, n: usize) -> bool {
        self.below(n) == 0
    }

    pub fn pick<'a, T>(&mut self, from: &'a [T]) -> &'a T {
        &from[self.below(from.len())]
    }
}

/// The address with all bits after the length zero.
pub fn cut(addr: u32, len: u32) -> u32 {
    if len == 0 {
        0
    } else {
        addr >> (32 - len) << (32 - len)
    }
}

/// Where the routes of an episode lie: around few addresses, so that they nest and share cells and chunks.
pub struct Field {
    pub p1: u32,
    pub p2: u32,
    pub near: Vec<u32>,
}

impl Field {
    pub fn new(rng: &mut Rng, p1: u32, p2: u32) -> Field {
        let mut near = Vec::new();
        for _ in 0..rng.range(1, 6) {
            near.push(match rng.below(8) {
                0 => 0,
                1 => u32::MAX,
                2 if !near.is_empty() => {
                    // A neighbour: the same first cell and another second cell, or the next first cell.
                    let old = *rng.pick(&near);
                    let at = *rng.pick(&[p1, p1 + 1, p2, p2 + 1]);
                    old ^ 1 << (32 - at)
                }
                _ => rng.word(),
            });
        }
        Field { p1, p2, near }
    }

    /// An address, mostly near the others.
    pub fn addr(&self, rng: &mut Rng) -> u32 {
        if rng.one_in(12) {
            return rng.word();
        }
        let near = *rng.pick(&self.near);
        // It agrees with the near one on the first `keep` bits.
        let keep = match rng.below(6) {
            0 => self.p1 as usize,
            1 => self.p2 as usize,
            2 => self.p1 as usize - 1,
            3 => self.p2 as usize - 1,
            4 => 32,
            _ => rng.range(0, 32),
        } as u32;
        let random = rng.word();
        cut(near, keep) | (random & !cut(u32::MAX, keep))
    }

    /// A length, mostly at the levels and around them.
    pub fn len(&self, rng: &mut Rng) -> u8 {
        (match rng.below(20) {
            0 => 0,
            1 => 1,
            2 => rng.range(0, 10) as u32,
            3 => self.p1 - 1,
            4 | 5 => self.p1,
            6..=8 => self.p1 + 1,
            9 => self.p2 - 1,
            10 | 11 => self.p2,
            12..=14 => self.p2 + 1,
            15 => 31,
            16 | 17 => 32,
            _ => rng.range(0, 32) as u32,
        }) as u8
    }

    pub fn hop(&self, rng: &mut Rng) -> u16 {
        match rng.below(12) {
            0 => 1,
            1 => 32_767,
            2 => rng.range(1, 32_767) as u16,
            // Few hops, so that different routes have the same one.
            _ => rng.range(1, 9) as u16,
        }
    }

    pub fn route(&self, rng: &mut Rng) -> Route {
        let len = self.len(rng);
        Route { addr: cut(self.addr(rng), len as u32), len, hop: self.hop(rng), mark: mark(rng) }
    }

    /// At most `n` routes, ascending.
    pub fn routes(&self, rng: &mut Rng, n: usize) -> Vec<Route> {
        let mut routes: Vec<Route> = (0..n).map(|_| self.route(rng)).collect();
        tidy(&mut routes);
        routes
    }
}

/// A mark that a route may have: a third of the networks are attached.
pub fn mark(rng: &mut Rng) -> u8 {
    rng.one_in(3) as u8
}

/// Sorts the routes and leaves one for each prefix.
pub fn tidy(routes: &mut Vec<Route>) {
    routes.sort();
    routes.dedup_by_key(|r| (r.addr, r.len));
}

/// Routes all over the address space, with lengths as in a real table: half of them /24.
pub fn spread(rng: &mut Rng, n: usize) -> Vec<Route> {
    let mut routes = Vec::new();
    while routes.len() < n {
        for _ in routes.len()..n {
            let len = match rng.below(100) {
                0..=49 => 24,
                50..=59 => 23,
                60..=71 => 22,
                72..=77 => 21,
                78..=83 => 20,
                84..=88 => 19,
                89..=91 => 18,
                92..=93 => 17,
                94..=97 => 16,
                98 => rng.range(8, 15),
                _ => rng.range(25, 32),
            } as u32;
            let hop = rng.range(1, 64) as u16;
            routes.push(Route { addr: cut(rng.word(), len), len: len as u8, hop, mark: mark(rng) });
        }
        tidy(&mut routes);
    }
    routes
}

/// The addresses where an answer may change: the first and the last of each prefix, one before and one after.
pub fn edges(routes: &[Route]) -> Vec<u32> {
    let mut at = Vec::new();
    for r in routes {
        let last = r.addr | !cut(u32::MAX, r.len as u32);
        at.extend([r.addr.wrapping_sub(1), r.addr, last, last.wrapping_add(1)]);
    }
    at.sort();
    at.dedup();
    at
}

/// The records of the routes with something wrong in them, at one or two places. Now and then the harm undoes itself
/// and the input is good.
pub fn damaged_input(rng: &mut Rng, routes: &[Route]) -> Vec<u8> {
    let mut input = records(routes);
    for _ in 0..rng.range(1, 2) {
        damage_input(rng, &mut input);
    }
    input
}

fn damage_input(rng: &mut Rng, input: &mut Vec<u8>) {
    let whole = input.len() / 8;
    if whole == 0 {
        let random = rng.draw().to_le_bytes();
        input.extend(&random[..rng.range(0, 8)]);
        return;
    }
    // Early, late, or anywhere.
    let k = match rng.below(4) {
        0 => 0,
        1 => whole - 1,
        _ => rng.below(whole),
    };
    let b = 8 * k;
    match rng.below(14) {
        0 => {
            let by = rng.range(1, 7);
            input.truncate(input.len() - by);
        }
        1 => {
            for _ in 0..rng.range(1, 8) {
                let byte = if rng.one_in(2) { 0 } else { rng.word() as u8 };
                input.push(byte);
            }
        }
        2 => input[b + 4] = *rng.pick(&[33, 34, 64, 128, 255]),
        3 => {
            // One bit after the length, at the nearest place, the farthest, or between.
            let len = input[b + 4].min(32) as usize;
            if len < 32 {
                let bit = *rng.pick(&[len, 31, (len + 31) / 2]);
                input[b + bit / 8] |= 0x80 >> (bit % 8);
            }
        }
        4 => input[b + 6..b + 8].copy_from_slice(&[0, 0]),
        5 => input[b + 6] |= 0x80,
        6 => input[b + 5] = *rng.pick(&[1, 2, 3, 128, 255]),
        7 => {
            // Two records change places.
            let j = if rng.one_in(2) { k + 1 } else { rng.below(whole) };
            if j < whole && j != k {
                for x in 0..8 {
                    input.swap(b + x, 8 * j + x);
                }
            }
        }
        8 => {
            // The same record twice, perhaps with another hop or another mark.
            let mut record = input[b..b + 8].to_vec();
            if rng.one_in(2) {
                record[*rng.pick(&[5, 7])] ^= 1;
            }
            input.splice(b..b, record);
        }
        9 => {
            // The address stays and the length falls: not ascending.
            let len = input[b + 4];
            if len > 0 {
                let mut record = input[b..b + 8].to_vec();
                record[4] = len - 1;
                let addr = u32::from_be_bytes([record[0], record[1], record[2], record[3]]);
                record[..4].copy_from_slice(&cut(addr, (len - 1).min(32) as u32).to_be_bytes());
                input.splice(b + 8..b + 8, record);
            }
        }
        10 => {
            let at = rng.below(input.len());
            input[at] ^= 1 << rng.below(8);
        }
        11 => {
            let at = rng.below(input.len());
            input[at] = rng.word() as u8;
        }
        12 => {
            input.remove(rng.below(input.len()));
        }
        _ => {
            // Several faults in one record: the order among them matters.
            if rng.one_in(2) {
                input[b + 4] = 40;
            }
            if rng.one_in(2) {
                input[b + 6] |= 0x80;
            }
            if rng.one_in(2) {
                input[b + 5] = 7;
            }
            if rng.one_in(2) && k > 0 {
                let (earlier, rest) = input.split_at_mut(b);
                rest[..4].copy_from_slice(&earlier[b - 8..b - 4]);
            }
        }
    }
}

/// A prefix to ask an input or a table about: one that stands, a shorter or longer one near it, any, or a bad one. Of
/// the bad lengths 256, 280 and 2^32 - 1 would be others if only their low byte were looked at.
pub fn asked_prefix(rng: &mut Rng, field: &Field, routes: &[Route]) -> (u32, u32) {
    if rng.one_in(10) {
        return (field.addr(rng), *rng.pick(&[33, 40, 255, 24, 8, 31, 0, 256, 280, u32::MAX]));
    }
    if routes.is_empty() || rng.one_in(6) {
        let r = field.route(rng);
        return (r.addr, r.len as u32);
    }
    let r = *rng.pick(routes);
    match rng.below(5) {
        0 => (r.addr, r.len as u32),
        1 => {
            let len = rng.range(0, r.len as usize) as u32;
            (cut(r.addr, len), len)
        }
        2 => {
            let len = rng.range(r.len as usize, 32) as u32;
            (cut(r.addr | (rng.word() & !cut(u32::MAX, r.len as u32)), len), len)
        }
        3 => (r.addr, wide(rng, r.len as u32, 8)),
        _ => {
            // The neighbour of the same length.
            let len = r.len as u32;
            (if len == 0 { 0 } else { (bits(r.addr, len) ^ 1) << (32 - len) }, len)
        }
    }
}

/// The address with bits after the length set, as some feeds leave them: none, one, all, or some.
pub fn loose(rng: &mut Rng, addr: u32, len: u32) -> u32 {
    if len >= 32 {
        return addr;
    }
    let after = !cut(u32::MAX, len);
    addr | match rng.below(6) {
        0 => 1,
        1 => 1 << (31 - len),
        2 => after,
        3 => rng.word() & after,
        _ => 0,
    }
}

/// A prefix to announce or to withdraw: as `asked_prefix`, with loose bits.
pub fn asked_loose_prefix(rng: &mut Rng, field: &Field, routes: &[Route]) -> (u32, u32) {
    let (addr, len) = asked_prefix(rng, field, routes);
    (loose(rng, addr, len), len)
}

/// A hop to announce: mostly a good one, and bad ones of which 65,536 and 65,580 would be others in 16 bits.
pub fn asked_hop(rng: &mut Rng, field: &Field) -> u32 {
    if rng.one_in(20) {
        *rng.pick(&[0, 32_768, 65_535, 65_536, 65_580, 1 << 31, u32::MAX, 32_767])
    } else {
        field.hop(rng) as u32
    }
}

/// A mark to announce, of all values: mostly 0 or 1, and bad ones of which 256 and 257 would be good in 8 bits.
pub fn asked_mark(rng: &mut Rng) -> u32 {
    if rng.one_in(16) {
        *rng.pick(&[2, 3, 128, 255, 256, 257, 65_537, u32::MAX])
    } else {
        mark(rng) as u32
    }
}

/// A number that does not fit the bits of its field, and whose low bits are `low`: cut off, it would pass.
pub fn wide(rng: &mut Rng, low: u32, bits: u32) -> u32 {
    let high = match rng.below(3) {
        0 => 1,
        1 => 1 << (31 - bits),
        _ => 1 + (rng.word() >> (bits + 1)),
    };
    low | high << bits
}

/// A wrong count in a table of the right sizes: one too many or too few, none, another's, or the largest number; where
/// routes are counted, in a free chunk, or anywhere. Now and then it is the old one again.
pub fn damage_count(rng: &mut Rng, p1: u32, p2: u32, t: &mut Lent) {
    let second = !t.long2.is_empty() && rng.one_in(2);
    let size = size2(p1, p2);
    let free = t.own2.iter().position(|&o| o == 0);
    let counts = if second { &mut t.long2 } else { &mut t.long1 };
    let counted: Vec<usize> = (0..counts.len()).filter(|&k| counts[k] != 0).collect();
    let at = match rng.below(4) {
        0 | 1 if !counted.is_empty() => *rng.pick(&counted),
        2 if second => free.map_or(0, |c| c * size) + rng.below(size),
        _ => rng.below(counts.len()),
    } % counts.len();
    let other = rng.below(counts.len());
    match rng.below(6) {
        0 => counts[at] = counts[at].wrapping_add(1),
        1 => counts[at] = counts[at].wrapping_sub(1),
        2 => counts[at] = 0,
        3 => counts[at] = *rng.pick(&[1, 4096, 32_768, 65_535]),
        // The sum stays: a count goes to another cell, or to the neighbour.
        4 => counts.swap(at, other),
        _ => counts.swap(at, at ^ 1),
    }
}
