//! Request m of document 02, in plain form: "Announce and withdraw are wanted on the image itself: its words and hops
//! then equal a fresh build, into the same arrays, from the routes then standing."
//!
//! The routes are read out of the image, and it is built again.

use crate::gen::Rng;
use crate::plain::{build, hop_ok, number, ones, prefix_ok, records, refused, Route};

/// Reads routes out of words and hops of any content.
struct Reader<'a> {
    words: &'a [u32],
    hops: &'a [u16],
    /// How many nodes may still be read: a built image has each of its nodes once.
    left: usize,
    routes: Vec<Route>,
}

impl Reader<'_> {
    /// Reads the node at this place, which stands for this path of `4 * depth` bits, and all nodes under it. Nothing
    /// where a node or a hop lies beyond what is lent, or where there are more nodes than lent.
    fn node(&mut self, at: u64, depth: u32, path: u64) -> Option<()> {
        if self.left == 0 || at >= self.words.len() as u64 / 3 {
            return None;
        }
        self.left -= 1;
        let [bitmap, child_base, hop_base] = [0, 1, 2].map(|k| self.words[3 * at as usize + k]);
        self.routes_of(bitmap, hop_base, depth, path)?;
        for v in (0..16).filter(|v| depth < 8 && bitmap >> (16 + v) & 1 == 1) {
            let child = child_base as u64 + ones(bitmap, 16, 16 + v);
            self.node(child, depth + 1, path << 4 | v as u64)?;
        }
        Some(())
    }

    /// The routes that lie in one node. At depth 8 there is only the inner length 0.
    fn routes_of(&mut self, bitmap: u32, hop_base: u32, depth: u32, path: u64) -> Option<()> {
        for j in 0..if depth < 8 { 4 } else { 1 } {
            for v in 0..1 << j {
                let bit = (1 << j) - 1 + v;
                if bitmap >> bit & 1 == 1 {
                    let place = hop_base as u64 + ones(bitmap, 0, bit);
                    let len = 4 * depth + j;
                    let addr = ((path << j | v as u64) << (32 - len)) as u32;
                    let hop = *self.hops.get(place as usize)?;
                    self.routes.push(Route { addr, len: len as u8, hop, mark: 0 });
                }
            }
        }
        Some(())
    }
}

/// "An image passes the test exactly when some record input builds it into arrays of these sizes." Answers the routes
/// of that input, marks aside; nothing where there is none. If there is one, its routes are those that are read out.
pub fn well_formed(words: &[u32], hops: &[u16]) -> Option<Vec<Route>> {
    let mut reader = Reader { words, hops, left: words.len() / 3, routes: Vec::new() };
    reader.node(0, 0, 0)?;
    let mut routes = reader.routes;
    routes.sort();
    let (mut again, mut hops_again) = (vec![0; words.len()], vec![0; hops.len()]);
    let built = number(build(&records(&routes), &mut again, &mut hops_again)) == 0;
    (built && again == words && hops_again == hops).then_some(routes)
}

/// Nodes and routes of a well-formed image, as `build` tells them, or 13.
pub fn test(words: &[u32], hops: &[u16]) -> u64 {
    match well_formed(words, hops) {
        Some(routes) => build(&records(&routes), &mut words.to_vec(), &mut hops.to_vec()),
        None => refused(13),
    }
}

/// "3 in its strict form, 4 for announce, 13 for an image not well formed, [..] then for announce 6 where more than
/// 4,096 routes would stand, 11, 12": the last three are those of the fresh build. Bit 8 says that it was replaced.
pub fn announce(words: &mut [u32], hops: &mut [u16], addr: u32, len: u32, hop: u32) -> u64 {
    if !prefix_ok(addr, len) {
        return refused(3);
    }
    if !hop_ok(hop) {
        return refused(4);
    }
    let Some(mut routes) = well_formed(words, hops) else { return refused(13) };
    let before = routes.len();
    routes.retain(|r| (r.addr, r.len as u32) != (addr, len));
    let replaced = routes.len() < before;
    routes.push(Route { addr, len: len as u8, hop: hop as u16, mark: 0 });
    routes.sort();
    let answer = build(&records(&routes), words, hops);
    if number(answer) == 0 {
        answer | (replaced as u64) << 8
    } else {
        answer
    }
}

/// "3 in its strict form, [..] 13 for an image not well formed, 9 for withdraw".
pub fn withdraw(words: &mut [u32], hops: &mut [u16], addr: u32, len: u32) -> u64 {
    if !prefix_ok(addr, len) {
        return refused(3);
    }
    let Some(mut routes) = well_formed(words, hops) else { return refused(13) };
    let Some(k) = routes.iter().position(|r| (r.addr, r.len as u32) == (addr, len)) else { return refused(9) };
    routes.remove(k);
    build(&records(&routes), words, hops)
}

/// The place of a prefix's hop in the image of these routes: the hops of earlier nodes, and of earlier bits of its own
/// node, stand before it. "The change alters no hop cell before the place of the changed one."
pub fn hop_place(routes: &[Route], addr: u32, len: u32) -> usize {
    let key = |addr: u32, len: u32| {
        let (m, j) = (len / 4, len % 4);
        let bits = |n: u32| (addr as u64) >> (32 - n);
        (m, bits(4 * m), (1 << j) - 1 + bits(len) % (1 << j))
    };
    routes.iter().filter(|r| key(r.addr, r.len as u32) < key(addr, len)).count()
}

// ---------------------------------------------------------------------------------------------------- damage

/// Harm to a well-formed image, at every kind of place. Some of it leaves the image well formed: another hop, more or
/// less room after the last used.
pub fn damage(rng: &mut Rng, words: &mut Vec<u32>, hops: &mut Vec<u16>) {
    let answer = test(words, hops);
    let (nodes, used) = ((answer >> 32) as usize, (answer >> 16) as usize & 0xFFFF);
    if number(answer) != 0 {
        return;
    }
    let node = if rng.one_in(2) { rng.below(nodes) } else { nodes - 1 - rng.below(nodes.min(3)) };
    match rng.below(14) {
        0 => words[3 * node] ^= 1 << rng.below(32),
        1 => words[3 * node] |= 1 << 15,
        2 => words[3 * node + 1] = near(rng, words[3 * node + 1]),
        3 => words[3 * node + 2] = near(rng, words[3 * node + 2]),
        4 | 5 => other_hop(rng, &mut hops[..used]),
        6 => stray(rng, &mut words[3 * nodes..], &[1, 1 << 15, 1 << 31]),
        7 => stray(rng, &mut hops[used..], &[1, 1 << 15, 32_767]),
        8 => exchange(rng, words, nodes),
        9 => bare_child(rng, words, nodes, used),
        10 => deep_bit(rng, words, hops, nodes, used),
        11 => words.truncate(words.len() - words.len().min(rng.range(1, 4))),
        12 => hops.truncate(hops.len() - hops.len().min(rng.range(1, 2))),
        _ => {
            words.resize(words.len() + rng.range(0, 4), 0);
            hops.resize(hops.len() + rng.range(0, 2), 0);
        }
    }
}

/// A base near the right one, or one from where a place leaves 32 bits or comes back to the root.
fn near(rng: &mut Rng, base: u32) -> u32 {
    match rng.below(6) {
        0 | 1 => base.wrapping_add(1),
        2 | 3 => base.wrapping_sub(1),
        4 => 0,
        _ => *rng.pick(&[u32::MAX, u32::MAX - 7, 1 << 31, 0x5555_5556]),
    }
}

/// A used hop that is bad, or another good one.
fn other_hop(rng: &mut Rng, used: &mut [u16]) {
    if !used.is_empty() {
        let k = rng.below(used.len());
        used[k] = *rng.pick(&[0, 32_768, 65_535, 1, 32_767]);
    }
}

/// A word after the last used: the first, the last, or between.
fn stray<T: Copy>(rng: &mut Rng, after: &mut [T], values: &[T]) {
    if !after.is_empty() {
        let any = rng.below(after.len());
        let k = *rng.pick(&[0, after.len() - 1, any]);
        after[k] = *rng.pick(values);
    }
}

/// Two nodes change places, or their first words alone.
fn exchange(rng: &mut Rng, words: &mut [u32], nodes: usize) {
    let (a, b) = (rng.below(nodes), rng.below(nodes));
    for k in 0..if rng.one_in(2) { 1 } else { 3 } {
        words.swap(3 * a + k, 3 * b + k);
    }
}

/// A path that ends without a route: the last node gets a child with right bases and empty bitmaps.
fn bare_child(rng: &mut Rng, words: &mut Vec<u32>, nodes: usize, used: usize) {
    if words.len() < 3 * nodes + 3 {
        words.resize(3 * nodes + 3, 0);
    }
    words[3 * nodes - 3] |= 1 << rng.range(16, 31);
    words[3 * nodes..3 * nodes + 3].copy_from_slice(&[0, nodes as u32 + 1, used as u32]);
}

/// One more internal bit in the last node, with its hop at the right place: at depth 8 no route has it.
fn deep_bit(rng: &mut Rng, words: &mut [u32], hops: &mut Vec<u16>, nodes: usize, used: usize) {
    let bit = rng.range(1, 14) as u32;
    let bitmap = words[3 * nodes - 3];
    if bitmap >> bit & 1 == 0 {
        words[3 * nodes - 3] |= 1 << bit;
        let place = words[3 * nodes - 1] as usize + ones(bitmap, 0, bit) as usize;
        hops.insert(place, 5);
        if hops.len() > used + 1 {
            hops.pop();
        }
    }
}
