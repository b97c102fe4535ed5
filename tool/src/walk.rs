//! Walks over the arrays of a table or an image. The library answers hops and counts; a walk only points at the cells or
//! nodes that the answer came from, and is compared with the answer.

use crate::stop::{Done, Stop};
use ghatumri::{Found, Image, Mark, Route, Table};
use std::fmt;
use std::net::Ipv4Addr;

/// The addresses that share the first `len` bits.
#[derive(Clone, Copy, PartialEq, Eq, Debug)]
pub struct Prefix {
    pub addr: u32,
    pub len: u32,
}

impl Prefix {
    /// The first `len` bits of an address.
    pub fn of(addr: u32, len: u32) -> Prefix {
        Prefix { addr: addr & !u32::MAX.checked_shr(len).unwrap_or(0), len }
    }

    /// Its highest address.
    pub fn last(self) -> u32 {
        self.addr | u32::MAX.checked_shr(self.len).unwrap_or(0)
    }
}

impl fmt::Display for Prefix {
    fn fmt(&self, f: &mut fmt::Formatter) -> fmt::Result {
        f.pad(&format!("{}/{}", Ipv4Addr::from(self.addr), self.len))
    }
}

/// What a cell holds: the highest bit is set for a leaf, and the rest is a hop, or 0 for no route; else a chunk number.
#[derive(Clone, Copy, PartialEq, Eq, Debug)]
pub enum Content {
    Leaf(Option<u16>),
    Chunk(u16),
}

impl Content {
    pub fn of(cell: u16) -> Content {
        match (cell >> 15, cell & 0x7fff) {
            (1, 0) => Content::Leaf(None),
            (1, hop) => Content::Leaf(Some(hop)),
            _ => Content::Chunk(cell),
        }
    }
}

/// A cell on the way of an address.
#[derive(Clone, PartialEq, Eq, Debug)]
pub struct Cell {
    pub array: &'static str,
    pub index: usize,
    pub cell: u16,
    pub serves: Prefix,
    /// The count of longer routes, for a cell that can have a chunk.
    pub longer: Option<u16>,
}

/// The cells that the walk of an address meets, as far as it goes.
pub fn cells(t: &Table, addr: u32) -> Vec<Cell> {
    let g = t.geometry;
    let mut met = Vec::new();
    let index = (addr >> (32 - g.p1)) as usize;
    let mut meet = |array, index: usize, cells: &[u16], longer: Option<&[u16]>, len| {
        let &cell = cells.get(index)?;
        let longer = longer.and_then(|l| l.get(index).copied());
        met.push(Cell { array, index, cell, serves: Prefix::of(addr, len), longer });
        match Content::of(cell) {
            Content::Chunk(c) => (c as usize).checked_sub(1),
            Content::Leaf(_) => None,
        }
    };
    let rest = meet("first", index, &t.first, Some(&t.long1), g.p1).and_then(|chunk| {
        let index = chunk * g.second_chunk() + ((addr >> (32 - g.p2)) as usize & (g.second_chunk() - 1));
        meet("second", index, &t.second, Some(&t.long2), g.p2)
    });
    if let Some(chunk) = rest {
        meet("third", chunk * g.third_chunk() + (addr as usize & (g.third_chunk() - 1)), &t.third, None, 32);
    }
    met
}

/// Compares a walk with what the lookup answered: as many cells, and the last one has its hop.
pub fn agree_table(found: Found, walk: &[Cell]) -> Done<()> {
    let last = walk.last().map(|c| Content::of(c.cell));
    if usize::from(found.reads) != walk.len() || last != Some(Content::Leaf(found.hop)) {
        return Err(Stop::Disagreement("the cells on the way are not those of the lookup".into()));
    }
    Ok(())
}

/// A route that an address meets in a node: its length, and the place of its hop with what is there.
#[derive(Clone, Copy, PartialEq, Eq, Debug)]
pub struct Meets {
    pub len: u32,
    pub place: u64,
    pub hop: Option<u16>,
}

/// A node on the way of an address.
#[derive(Clone, PartialEq, Eq, Debug)]
pub struct Node {
    pub index: usize,
    /// Bit maps, child base, hop base.
    pub words: [u32; 3],
    pub path: Prefix,
    /// The longest route of this node that covers the address.
    pub meets: Option<Meets>,
}

/// Bits of a word below a place.
fn below(word: u32, place: u32) -> u64 {
    (word & ((1 << place) - 1)).count_ones().into()
}

/// The nodes that the walk of an address meets, as far as it goes: at most 9.
pub fn nodes(image: &Image, addr: u32) -> Vec<Node> {
    let mut met = Vec::new();
    let mut index = 0u64;
    for depth in 0..9 {
        let node = usize::try_from(index).ok().filter(|&n| n < image.words.len() / 3);
        let Some(node) = node else { break };
        let words = [image.words[3 * node], image.words[3 * node + 1], image.words[3 * node + 2]];
        let [maps, child, base] = words;
        // The next four bits of the address; the ninth node has no bits left, and only a route of 32 bits.
        let next = if depth < 8 { addr >> (28 - 4 * depth) & 15 } else { 0 };
        let bits = if depth < 8 { 0..4 } else { 0..1 };
        let longest = bits.rev().map(|j| (j, (1 << j) - 1 + (next >> (4 - j)))).find(|(_, bit)| maps >> bit & 1 == 1);
        let meets = longest.map(|(j, bit)| {
            let place = u64::from(base) + below(maps, bit);
            let hop = usize::try_from(place).ok().and_then(|p| image.hops.get(p)).copied();
            Meets { len: 4 * depth + j, place, hop }
        });
        met.push(Node { index: node, words, path: Prefix::of(addr, 4 * depth), meets });
        if depth == 8 || maps >> (16 + next) & 1 == 0 {
            break;
        }
        index = u64::from(child) + below(maps >> 16, next);
    }
    met
}

/// The nodes that a lookup read: one read more than nodes is that of the hop.
pub fn nodes_read(found: Found) -> u8 {
    found.reads - u8::from(found.hop.is_some())
}

/// Compares a walk with what the lookup answered: as many nodes, and the last route met has its hop.
pub fn agree_image(found: Found, walk: &[Node]) -> Done<()> {
    let last = walk.iter().rev().find_map(|n| n.meets);
    if usize::from(nodes_read(found)) != walk.len() || last.map(|m| m.hop) != found.hop.map(Some) {
        return Err(Stop::Disagreement("the nodes on the way are not those of the lookup".into()));
    }
    Ok(())
}

/// The routes of an image that is well formed, as records: read by a walk over all its nodes. The image that is built of
/// them, into arrays of the same sizes, must be the same to the byte; images are the same if and only if their routes are.
pub fn image_routes(name: &str, image: &Image) -> Done<Vec<u8>> {
    image.test().map_err(|r| Stop::refused(name, r, "image not well formed"))?;
    let mut routes = Vec::new();
    let mut open = vec![(0u64, Prefix { addr: 0, len: 0 })];
    while let Some((index, path)) = open.pop() {
        let Some(node) = usize::try_from(index).ok().and_then(|n| image.words.get(3 * n..3 * n + 3)) else { continue };
        let [maps, child, base] = [node[0], node[1], node[2]];
        for bit in (0..15).filter(|bit| maps >> bit & 1 == 1) {
            // Bit 2^j - 1 + v is the route of j more bits, of value v.
            let j = (bit + 1u32).ilog2();
            let len = path.len + j;
            let more = u64::from(bit + 1 - (1 << j)) << 32 >> len;
            let hop = usize::try_from(u64::from(base) + below(maps, bit)).ok().and_then(|p| image.hops.get(p));
            if let Some(&hop) = hop {
                routes.push(Route::new(path.addr | more as u32, len as u8, hop, Mark::Behind));
            }
        }
        for next in (0..16).filter(|next| path.len < 32 && maps >> (16 + next) & 1 == 1) {
            let len = path.len + 4;
            open.push((
                u64::from(child) + below(maps >> 16, next),
                Prefix { addr: path.addr | next << (32 - len), len },
            ));
        }
    }
    routes.sort();
    let input: Vec<u8> = routes.iter().flat_map(Route::record).collect();
    agree_routes(name, image, &input)?;
    Ok(input)
}

/// Compares an image with the one that is built of the routes read out of it.
fn agree_routes(name: &str, image: &Image, input: &[u8]) -> Done<()> {
    let mut again = Image::new(image.words.len() / 3, image.hops.len());
    // Words after the last whole node are no part of an image that is built, and are zero.
    again.words.resize(image.words.len(), 0);
    match again.build(input) {
        Ok(_) if again == *image => Ok(()),
        _ => Err(Stop::Disagreement(format!("{name}: the routes that were read build another image"))),
    }
}

#[cfg(test)]
mod tests {
    use super::*;
    use crate::form::Lent;

    const LIST_A: [&str; 5] = ["0.0.0.0/0 6", "10.0.0.0/8 20", "10.1.0.0/16 31", "10.1.2.0/24 44", "10.1.2.128/25 57"];

    fn list_a() -> Vec<u8> {
        LIST_A.iter().flat_map(|line| line.parse::<Route>().unwrap().record()).collect()
    }

    const ADDR: u32 = 0x0A01_02C8;

    #[test]
    fn a_cell_left_out_disagrees() {
        let table = Lent::default().table("a", &list_a()).unwrap();
        let (found, walk) = (table.lookup(ADDR).unwrap(), cells(&table, ADDR));
        assert_eq!((walk.len(), agree_table(found, &walk)), (3, Ok(())));
        for left_out in 0..3 {
            let mut less = walk.clone();
            less.remove(left_out);
            assert_eq!(agree_table(found, &less).unwrap_err().status(), 3);
        }
        let mut other = walk.clone();
        other[2].cell ^= 1;
        assert_eq!(agree_table(found, &other).unwrap_err().status(), 3);
    }

    #[test]
    fn a_node_with_another_child_disagrees() {
        let image = Image::of(&list_a()).unwrap();
        let (found, walk) = (image.lookup(ADDR).unwrap(), nodes(&image, ADDR));
        assert_eq!((walk.len(), agree_image(found, &walk)), (7, Ok(())));
        let mut off = image.clone();
        off.words[3 * 3 + 1] += 1;
        assert_eq!(agree_image(found, &nodes(&off, ADDR)).unwrap_err().status(), 3);
        let mut less = walk.clone();
        less.pop();
        assert_eq!(agree_image(found, &less).unwrap_err().status(), 3);
    }

    #[test]
    fn routes_that_build_another_image_disagree() {
        let image = Image::of(&list_a()).unwrap();
        assert_eq!(agree_routes("a", &image, &list_a()), Ok(()));
        assert_eq!(agree_routes("a", &image, &list_a()[..32]).unwrap_err().status(), 3);
    }
}
