//! A plain implementation of document 01, with what document 02's requests change in it, written from the documents
//! alone.
//!
//! It is slow and simple on purpose: whole tables are checked and written again at each call. Each function answers
//! with the packed number that the C boundary gives, and changes the arrays as the boundary does, so that the two can
//! be compared word by word.

use std::collections::{BTreeMap, BTreeSet};

// ---------------------------------------------------------------------------------------------------- answers

/// The low byte of an answer: the refusal's number, 0 when accepted.
pub fn number(answer: u64) -> u8 {
    answer as u8
}

/// A refusal that carries no index.
pub fn refused(number: u8) -> u64 {
    number as u64
}

/// A refusal that carries an index: bit 8 says so, the index stands in bits 32 to 63.
pub fn refused_at(number: u8, index: usize) -> u64 {
    number as u64 | 1 << 8 | (index as u64) << 32
}

pub(crate) fn accepted_routes(count: usize) -> u64 {
    (count as u64) << 16
}

pub(crate) fn accepted_lookup(reads: u64, hop: u16) -> u64 {
    reads << 8 | (hop as u64) << 16
}

/// Request c: "A tree lookup now counts its nodes and one more when it answers a hop; no route counts nodes only."
fn accepted_tree_lookup(nodes: u64, hop: u16) -> u64 {
    accepted_lookup(if hop == 0 { nodes } else { nodes + 1 }, hop)
}

// ---------------------------------------------------------------------------------------------------- routes

/// A route: a prefix, a hop and a mark, 1 for an attached network (request d). Ordered by address and then length.
#[derive(Clone, Copy, PartialEq, Eq, PartialOrd, Ord, Debug)]
pub struct Route {
    pub addr: u32,
    pub len: u8,
    pub hop: u16,
    pub mark: u8,
}

pub const HOP_MAX: u16 = 32_767;
pub const RECORDS_MAX: usize = 4_096;
pub const CHUNKS_MAX: usize = 4_096;

/// The value of the first `n` bits of an address, `n` from 0 to 32.
pub fn bits(addr: u32, n: u32) -> u32 {
    assert!(n <= 32);
    ((addr as u64) >> (32 - n)) as u32
}

impl Route {
    /// The first `len` bits agree.
    pub fn covers(&self, addr: u32) -> bool {
        bits(self.addr, self.len as u32) == bits(addr, self.len as u32)
    }

    /// The route is longer than `p` and has the bits `cell` as its first `p` bits.
    fn is_long(&self, p: u32, cell: u32) -> bool {
        self.len as u32 > p && bits(self.addr, p) == cell
    }

    pub fn record(&self) -> [u8; 8] {
        let a = self.addr.to_be_bytes();
        let h = self.hop.to_be_bytes();
        [a[0], a[1], a[2], a[3], self.len, self.mark, h[0], h[1]]
    }
}

// Lengths, hops and marks come in 32 bits wide, and none is cut before it is judged.

/// Length at most 32, and every bit after the length zero.
pub fn prefix_ok(addr: u32, len: u32) -> bool {
    len <= 32 && (addr as u64) % (1u64 << (32 - len)) == 0
}

/// The address with all bits after the length zero. The length is at most 32.
pub fn cleared(addr: u32, len: u32) -> u32 {
    (addr as u64 - addr as u64 % (1u64 << (32 - len))) as u32
}

pub fn hop_ok(hop: u32) -> bool {
    hop >= 1 && hop <= HOP_MAX as u32
}

/// Request d: the sixth byte of a record is 0, or 1 for attached.
pub fn mark_ok(mark: u32) -> bool {
    mark <= 1
}

/// Records end to end.
pub fn records(routes: &[Route]) -> Vec<u8> {
    routes.iter().flat_map(|r| r.record()).collect()
}

/// The input checks: the length (10), then record by record 3, 4, mark (10), order (10), after that 6.
pub fn check_input(input: &[u8]) -> Result<Vec<Route>, u64> {
    let whole = input.len() / 8;
    if input.len() % 8 != 0 {
        return Err(refused_at(10, whole));
    }
    let mut routes: Vec<Route> = Vec::new();
    for k in 0..whole {
        let b = &input[8 * k..8 * k + 8];
        let route = Route {
            addr: u32::from_be_bytes([b[0], b[1], b[2], b[3]]),
            len: b[4],
            hop: u16::from_be_bytes([b[6], b[7]]),
            mark: b[5],
        };
        if !prefix_ok(route.addr, route.len as u32) {
            return Err(refused_at(3, k));
        }
        if !hop_ok(route.hop as u32) {
            return Err(refused_at(4, k));
        }
        if !mark_ok(route.mark as u32) {
            return Err(refused_at(10, k));
        }
        if let Some(last) = routes.last() {
            if (route.addr, route.len) <= (last.addr, last.len) {
                return Err(refused_at(10, k));
            }
        }
        routes.push(route);
    }
    if whole > RECORDS_MAX {
        return Err(refused(6));
    }
    Ok(routes)
}

/// The run under a prefix: every record of that length or longer inside it.
pub fn run(input: &[u8], addr: u32, len: u32) -> u64 {
    let routes = match check_input(input) {
        Ok(routes) => routes,
        Err(answer) => return answer,
    };
    if !prefix_ok(addr, len) {
        return refused(3);
    }
    let len = len as u8;
    let prefix = Route { addr, len, hop: 1, mark: 0 };
    let start = routes.iter().filter(|r| (r.addr, r.len) < (addr, len)).count();
    let inside: Vec<usize> =
        (0..routes.len()).filter(|&k| routes[k].len >= len && prefix.covers(routes[k].addr)).collect();
    // The run is one part of the list and begins where an empty one would stand.
    assert!(inside.iter().enumerate().all(|(n, &k)| k == start + n));
    (start as u64) << 16 | (inside.len() as u64) << 32
}

/// A count for each of the 33 lengths. A refused tally holds 33 zeros.
pub fn tally(input: &[u8], out: &mut [u32]) -> u64 {
    if out.len() != 33 {
        return refused(2);
    }
    out.fill(0);
    match check_input(input) {
        Ok(routes) => {
            for r in routes {
                out[r.len as usize] += 1;
            }
            0
        }
        Err(answer) => answer,
    }
}

/// A route in an answer, its mark in bit 15. All fields are 0 when there is none.
fn packed_route(route: Option<&Route>) -> u64 {
    route.map_or(0, |r| (r.len as u64) << 8 | (r.mark as u64) << 15 | (r.hop as u64) << 16 | (r.addr as u64) << 32)
}

/// Reads a route back out of an input. An index beyond the end is none's.
pub fn route(input: &[u8], index: u32) -> u64 {
    match check_input(input) {
        Ok(routes) => packed_route(routes.get(index as usize)),
        Err(answer) => answer,
    }
}

/// The longest record of an input that covers an address.
pub fn longest(input: &[u8], addr: u32) -> u64 {
    match check_input(input) {
        Ok(routes) => packed_route(routes.iter().filter(|r| r.covers(addr)).max_by_key(|r| r.len)),
        Err(answer) => answer,
    }
}

// ---------------------------------------------------------------------------------------------------- by linear search

/// The hop of the longest route that covers the address, 0 when there is none.
pub fn search(routes: &[Route], addr: u32) -> u16 {
    routes.iter().filter(|r| r.covers(addr)).max_by_key(|r| r.len).map_or(0, |r| r.hop)
}

/// What a lookup in a sound table answers, worked out from the routes alone.
pub fn search_table(p1: u32, p2: u32, routes: &[Route], addr: u32) -> u64 {
    let second = routes.iter().any(|r| r.is_long(p1, bits(addr, p1)));
    let third = routes.iter().any(|r| r.is_long(p2, bits(addr, p2)));
    accepted_lookup(1 + second as u64 + third as u64, search(routes, addr))
}

/// What a lookup in a built image answers, worked out from the routes alone.
pub fn search_image(routes: &[Route], addr: u32) -> u64 {
    let stands =
        |m: &u32| *m == 0 || routes.iter().any(|r| r.len as u32 >= 4 * m && bits(r.addr, 4 * m) == bits(addr, 4 * m));
    accepted_tree_lookup((0..=8).filter(stands).count() as u64, search(routes, addr))
}

// ---------------------------------------------------------------------------------------------------- the SAIL table

/// The arrays that are lent to a table call: document 01's six, and the stored counts of request g, "for each first
/// cell, how many standing routes longer than p1 have its bits, and for each cell of the second pool how many longer
/// than p2 have its place's bits".
#[derive(Clone, PartialEq, Eq, Debug, Default)]
pub struct Lent {
    pub list: Vec<u8>,
    pub first: Vec<u16>,
    pub second: Vec<u16>,
    pub third: Vec<u16>,
    pub own2: Vec<u32>,
    pub own3: Vec<u32>,
    pub long1: Vec<u16>,
    pub long2: Vec<u16>,
}

pub(crate) const LEAF: u16 = 0x8000;

pub fn geometry_ok(p1: u32, p2: u32) -> bool {
    (12..=16).contains(&p1) && (22..=26).contains(&p2) && p2 - p1 <= 10
}

/// Cells in a chunk of the second pool.
pub fn size2(p1: u32, p2: u32) -> usize {
    1 << (p2 - p1)
}

/// Cells in a chunk of the third pool.
pub fn size3(p2: u32) -> usize {
    1 << (32 - p2)
}

impl Lent {
    /// Arrays of the right sizes, all zero.
    pub fn new(p1: u32, p2: u32, room: usize, second: usize, third: usize) -> Lent {
        Lent {
            list: vec![0; 8 * room],
            first: vec![0; 1 << p1],
            second: vec![0; second * size2(p1, p2)],
            third: vec![0; third * size3(p2)],
            own2: vec![0; second],
            own3: vec![0; third],
            long1: vec![0; 1 << p1],
            long2: vec![0; second * size2(p1, p2)],
        }
    }

    pub fn room(&self) -> usize {
        self.list.len() / 8
    }
}

/// Refusals 1 and 2. Request g: "2 also covers these arrays' sizes".
fn check_sizes(p1: u32, p2: u32, lent: &Lent) -> Result<(), u64> {
    if !geometry_ok(p1, p2) {
        return Err(refused(1));
    }
    let right = lent.list.len() % 8 == 0
        && lent.room() <= RECORDS_MAX
        && lent.first.len() == 1 << p1
        && lent.own2.len() <= CHUNKS_MAX
        && lent.own3.len() <= CHUNKS_MAX
        && lent.second.len() == lent.own2.len() * size2(p1, p2)
        && lent.third.len() == lent.own3.len() * size3(p2)
        && lent.long1.len() == lent.first.len()
        && lent.long2.len() == lent.second.len();
    if right {
        Ok(())
    } else {
        Err(refused(2))
    }
}

/// The cells of level `p` that are the first `p` bits of some route longer than `p`.
pub(crate) fn long_cells(routes: &[Route], p: u32) -> BTreeSet<u32> {
    routes.iter().filter(|r| r.len as u32 > p).map(|r| bits(r.addr, p)).collect()
}

/// The need for chunks below level `p`.
pub fn need(routes: &[Route], p: u32) -> usize {
    long_cells(routes, p).len()
}

/// For each cell of level `p` that lies in cell `i` of the shorter level `d`: the hop of the longest route of length
/// at most `p` that covers it, 0 for none. Shorter routes are written first and longer ones over them.
pub(crate) fn hops_under(by_length: &[Route], d: u32, i: u32, p: u32) -> Vec<u16> {
    let cells = 1u64 << (p - d);
    let begin = i as u64 * cells;
    let mut hops = vec![0; cells as usize];
    for r in by_length {
        let len = r.len as u32;
        if len > p || bits(r.addr, len.min(d)) != ((i as u64) >> (d - len.min(d))) as u32 {
            continue;
        }
        // The cells of level p that this route covers, as far as they lie in cell i.
        let from = bits(r.addr, p) as u64;
        let to = from + (1u64 << (p - len));
        let (from, to) = (from.max(begin), to.min(begin + cells));
        hops[(from - begin) as usize..(to - begin) as usize].fill(r.hop);
    }
    hops
}

pub(crate) fn sorted_by_length(routes: &[Route]) -> Vec<Route> {
    let mut sorted = routes.to_vec();
    sorted.sort_by_key(|r| r.len);
    sorted
}

/// The list is good: the route count is at most its room and that many records pass the input checks.
pub(crate) fn good_list(count: u32, list: &[u8]) -> Option<Vec<Route>> {
    let count = count as usize;
    if count > list.len() / 8 {
        return None;
    }
    check_input(&list[..8 * count]).ok()
}

/// The soundness of a table, by the points of document 01 and with request g's: "A sound table has them true." Answers
/// the standing routes, or nothing when not sound.
pub fn sound(p1: u32, p2: u32, count: u32, lent: &Lent) -> Option<Vec<Route>> {
    let routes = good_list(count, &lent.list)?;
    // Records past the route count are zero bytes.
    if lent.list[8 * routes.len()..].iter().any(|&b| b != 0) {
        return None;
    }
    let by_length = sorted_by_length(&routes);
    let ok = level_sound(&lent.first, 0, &hops_under(&by_length, 0, 0, p1), &long_cells(&routes, p1), 0, &lent.own2)
        && second_sound(p1, p2, &routes, &by_length, lent)
        && third_sound(p1, p2, &by_length, lent)
        && (&lent.long1, &lent.long2) == (&counts_first(p1, &routes), &counts_second(p1, p2, &routes, &lent.own2));
    ok.then_some(routes)
}

/// A stretch of cells that begins at place `place` of its array and at cell `begin` of its level. A cell names a
/// chunk exactly when it is long, and the chunk's owner is 1 plus the cell's place. Otherwise it is a leaf with the
/// hop of the longest route.
fn level_sound(cells: &[u16], place: usize, hops: &[u16], long: &BTreeSet<u32>, begin: u32, own: &[u32]) -> bool {
    let end = begin as u64 + cells.len() as u64;
    let mut is_long = vec![false; cells.len()];
    for &cell in long.range(begin..) {
        if cell as u64 >= end {
            break;
        }
        is_long[(cell - begin) as usize] = true;
    }
    (0..cells.len()).all(|k| {
        let cell = cells[k];
        if is_long[k] {
            // 0 and every number with the top bit set lie outside 1 to the number of chunks.
            let c = cell as usize;
            c >= 1 && c <= own.len() && own[c - 1] as usize == place + k + 1
        } else {
            cell == LEAF | hops[k]
        }
    })
}

/// Each chunk of the second pool is free, with all cells 0, or is named by the cell that its owner says.
fn second_sound(p1: u32, p2: u32, routes: &[Route], by_length: &[Route], lent: &Lent) -> bool {
    let size = size2(p1, p2);
    let long = long_cells(routes, p2);
    (0..lent.own2.len()).all(|c| {
        let cells = &lent.second[c * size..(c + 1) * size];
        if lent.own2[c] == 0 {
            return cells.iter().all(|&x| x == 0);
        }
        let i = lent.own2[c] - 1;
        let named = lent.first.get(i as usize).is_some_and(|&x| x as usize == c + 1);
        named && {
            let hops = hops_under(by_length, p1, i, p2);
            level_sound(cells, c * size, &hops, &long, i * size as u32, &lent.own3)
        }
    })
}

/// The same for the third pool. Its cells are leaves, one for each address. Called when the second pool is right.
fn third_sound(p1: u32, p2: u32, by_length: &[Route], lent: &Lent) -> bool {
    let size = size3(p2);
    (0..lent.own3.len()).all(|c| {
        let cells = &lent.third[c * size..(c + 1) * size];
        if lent.own3[c] == 0 {
            return cells.iter().all(|&x| x == 0);
        }
        let place = lent.own3[c] as usize - 1;
        let named = lent.second.get(place).is_some_and(|&x| x as usize == c + 1);
        named && {
            // The second cell names a chunk, so its own chunk is in use and has an owner.
            let hops = hops_under(by_length, p2, cell_of_place(p1, p2, &lent.own2, place), 32);
            cells.iter().zip(hops).all(|(&x, hop)| x == LEAF | hop)
        }
    })
}

/// The first p2 bits that a place of the second pool stands for. Its chunk is in use.
fn cell_of_place(p1: u32, p2: u32, own2: &[u32], place: usize) -> u32 {
    let size = size2(p1, p2);
    (own2[place / size] - 1) * size as u32 + (place % size) as u32
}

/// What `long1` holds: for each first cell the routes longer than p1 that have its bits.
pub(crate) fn counts_first(p1: u32, routes: &[Route]) -> Vec<u16> {
    let mut counts = vec![0; 1 << p1];
    for r in routes.iter().filter(|r| r.len as u32 > p1) {
        counts[bits(r.addr, p1) as usize] += 1;
    }
    counts
}

/// What `long2` holds: for each place of the second pool the routes longer than p2 that have its bits, "0 in free
/// chunks". The owners are right.
fn counts_second(p1: u32, p2: u32, routes: &[Route], own2: &[u32]) -> Vec<u16> {
    let size = size2(p1, p2);
    let mut counts = vec![0; own2.len() * size];
    for r in routes.iter().filter(|r| r.len as u32 > p2) {
        let c = own2.iter().position(|&o| o == bits(r.addr, p1) + 1).expect("a long route has its chunk");
        counts[c * size + bits(r.addr, p2) as usize % size] += 1;
    }
    counts
}

/// The counts on an address's walk in a sound table: its first cell's, and its second cell's where it reads one.
pub fn walk_counts(p1: u32, p2: u32, lent: &Lent, addr: u32) -> (u16, Option<u16>) {
    let i = bits(addr, p1) as usize;
    let within = bits(addr, p2) as usize % size2(p1, p2);
    let place = place_in(lent.first[i], lent.own2.len(), size2(p1, p2), within).ok();
    (lent.long1[i], place.map(|q| lent.long2[q]))
}

/// Gives the cell at `place` of its array the lowest free chunk, unless it has one. Answers the chunk, from 0.
fn open(own: &mut [u32], place: usize) -> usize {
    let owner = place as u32 + 1;
    own.iter().position(|&o| o == owner).unwrap_or_else(|| {
        let free = own.iter().position(|&o| o == 0).expect("the need was checked before");
        own[free] = owner;
        free
    })
}

/// Opens the chunks that one route needs.
fn open_for(p1: u32, p2: u32, route: Route, lent: &mut Lent) {
    if route.len as u32 > p1 {
        let c = open(&mut lent.own2, bits(route.addr, p1) as usize);
        if route.len as u32 > p2 {
            let size = size2(p1, p2);
            open(&mut lent.own3, c * size + bits(route.addr, p2) as usize % size);
        }
    }
}

/// Takes the owners from the chunks that no route needs any more.
fn close_unneeded(p1: u32, p2: u32, routes: &[Route], lent: &mut Lent) {
    let long1 = long_cells(routes, p1);
    let long2 = long_cells(routes, p2);
    for c in 0..lent.own3.len() {
        if lent.own3[c] != 0 && !long2.contains(&cell_of_place(p1, p2, &lent.own2, lent.own3[c] as usize - 1)) {
            lent.own3[c] = 0;
        }
    }
    for o in lent.own2.iter_mut() {
        if *o != 0 && !long1.contains(&(*o - 1)) {
            *o = 0;
        }
    }
}

/// Writes the list, every cell and every count anew, from the routes and the owners that now stand.
fn write_all(p1: u32, p2: u32, routes: &[Route], lent: &mut Lent) {
    lent.list.fill(0);
    lent.list[..8 * routes.len()].copy_from_slice(&records(routes));
    lent.long1 = counts_first(p1, routes);
    lent.long2 = counts_second(p1, p2, routes, &lent.own2);
    let by_length = sorted_by_length(routes);
    for (k, hop) in hops_under(&by_length, 0, 0, p1).into_iter().enumerate() {
        lent.first[k] = LEAF | hop;
    }
    let size = size2(p1, p2);
    for c in 0..lent.own2.len() {
        let cells = &mut lent.second[c * size..(c + 1) * size];
        cells.fill(0);
        if lent.own2[c] != 0 {
            let i = lent.own2[c] - 1;
            lent.first[i as usize] = c as u16 + 1;
            for (k, hop) in hops_under(&by_length, p1, i, p2).into_iter().enumerate() {
                cells[k] = LEAF | hop;
            }
        }
    }
    let size = size3(p2);
    for c in 0..lent.own3.len() {
        let cells = &mut lent.third[c * size..(c + 1) * size];
        cells.fill(0);
        if lent.own3[c] != 0 {
            let place = lent.own3[c] as usize - 1;
            lent.second[place] = c as u16 + 1;
            let hops = hops_under(&by_length, p2, cell_of_place(p1, p2, &lent.own2, place), 32);
            for (k, hop) in hops.into_iter().enumerate() {
                cells[k] = LEAF | hop;
            }
        }
    }
}

/// Refusals 7 and 8.
fn check_needs(p1: u32, p2: u32, routes: &[Route], lent: &Lent) -> Result<(), u64> {
    if need(routes, p1) > lent.own2.len() {
        Err(refused(7))
    } else if need(routes, p2) > lent.own3.len() {
        Err(refused(8))
    } else {
        Ok(())
    }
}

/// Both arms of a result are answers.
pub(crate) fn either(r: Result<u64, u64>) -> u64 {
    match r {
        Ok(answer) | Err(answer) => answer,
    }
}

pub fn make(p1: u32, p2: u32, lent: &mut Lent) -> u64 {
    either((|| {
        check_sizes(p1, p2, lent)?;
        lent.own2.fill(0);
        lent.own3.fill(0);
        write_all(p1, p2, &[], lent);
        Ok(accepted_routes(0))
    })())
}

pub fn load(p1: u32, p2: u32, input: &[u8], lent: &mut Lent) -> u64 {
    either((|| {
        check_sizes(p1, p2, lent)?;
        let routes = check_input(input)?;
        if routes.len() > lent.room() {
            return Err(refused(6));
        }
        check_needs(p1, p2, &routes, lent)?;
        // As make and then each record in order: the chunks open in that order, and the cells are written once.
        lent.own2.fill(0);
        lent.own3.fill(0);
        for &r in &routes {
            open_for(p1, p2, r, lent);
        }
        write_all(p1, p2, &routes, lent);
        Ok(accepted_routes(routes.len()))
    })())
}

/// Request b: "Announce and withdraw now clear the bits after the length"; "for announce and withdraw, 3 is now only a
/// length over 32". Answers the cleared address and the length.
pub(crate) fn check_prefix(addr: u32, len: u32) -> Result<(u32, u8), u64> {
    if len > 32 {
        return Err(refused(3));
    }
    Ok((cleared(addr, len), len as u8))
}

/// Bit 9 of an accepted answer: they "say in an accepted answer whether any were cleared".
pub(crate) fn told_cleared(given: u32, prefix: u32) -> u64 {
    ((given != prefix) as u64) << 9
}

/// Refusals 3, 4 and request d's: "announce meets 10 for a mark over 1, after 4 and before 5".
pub(crate) fn check_route(addr: u32, len: u32, hop: u32, mark: u32) -> Result<Route, u64> {
    let (addr, len) = check_prefix(addr, len)?;
    if !hop_ok(hop) {
        return Err(refused(4));
    }
    if !mark_ok(mark) {
        return Err(refused(10));
    }
    Ok(Route { addr, len, hop: hop as u16, mark: mark as u8 })
}

/// Request d: "Announce takes the mark and a replacement replaces it with the hop."
pub fn announce(p1: u32, p2: u32, count: u32, lent: &mut Lent, addr: u32, len: u32, hop: u32, mark: u32) -> u64 {
    either((|| {
        check_sizes(p1, p2, lent)?;
        let route = check_route(addr, len, hop, mark)?;
        let mut routes = sound(p1, p2, count, lent).ok_or(refused(5))?;
        let standing = routes.iter().position(|r| (r.addr, r.len) == (route.addr, route.len));
        match standing {
            Some(k) => routes[k] = route,
            None => {
                if routes.len() == lent.room() {
                    return Err(refused(6));
                }
                routes.push(route);
                routes.sort();
                check_needs(p1, p2, &routes, lent)?;
                open_for(p1, p2, route, lent);
            }
        }
        write_all(p1, p2, &routes, lent);
        Ok(accepted_routes(routes.len()) | (standing.is_some() as u64) << 8 | told_cleared(addr, route.addr))
    })())
}

pub fn withdraw(p1: u32, p2: u32, count: u32, lent: &mut Lent, addr: u32, len: u32) -> u64 {
    either((|| {
        check_sizes(p1, p2, lent)?;
        let (prefix, len) = check_prefix(addr, len)?;
        let mut routes = sound(p1, p2, count, lent).ok_or(refused(5))?;
        let k = routes.iter().position(|r| (r.addr, r.len) == (prefix, len)).ok_or(refused(9))?;
        routes.remove(k);
        close_unneeded(p1, p2, &routes, lent);
        write_all(p1, p2, &routes, lent);
        Ok(accepted_routes(routes.len()) | told_cleared(addr, prefix))
    })())
}

pub fn report(p1: u32, p2: u32, count: u32, lent: &Lent) -> u64 {
    either((|| {
        check_sizes(p1, p2, lent)?;
        let routes = sound(p1, p2, count, lent).ok_or(refused(5))?;
        let need2 = need(&routes, p1) as u64;
        let need3 = need(&routes, p2) as u64;
        Ok(accepted_routes(routes.len()) | need2 << 32 | need3 << 48)
    })())
}

/// The place in a pool of `chunks` chunks where chunk number `cell` has its cell number `within`.
pub(crate) fn place_in(cell: u16, chunks: usize, size: usize, within: usize) -> Result<usize, u64> {
    let c = cell as usize;
    if c == 0 || c > chunks {
        return Err(refused(5));
    }
    Ok((c - 1) * size + within)
}

/// The walk through the cells. Geometry and sizes are right.
fn walk(p1: u32, p2: u32, lent: &Lent, addr: u32) -> u64 {
    either((|| {
        let cell = lent.first[bits(addr, p1) as usize];
        if cell & LEAF != 0 {
            return Ok(accepted_lookup(1, cell & HOP_MAX));
        }
        let size = size2(p1, p2);
        let cell = lent.second[place_in(cell, lent.own2.len(), size, bits(addr, p2) as usize % size)?];
        if cell & LEAF != 0 {
            return Ok(accepted_lookup(2, cell & HOP_MAX));
        }
        let size = size3(p2);
        let cell = lent.third[place_in(cell, lent.own3.len(), size, addr as usize % size)?];
        if cell & LEAF != 0 {
            return Ok(accepted_lookup(3, cell & HOP_MAX));
        }
        Err(refused(5))
    })())
}

pub fn lookup(p1: u32, p2: u32, _count: u32, lent: &Lent, addr: u32) -> u64 {
    match check_sizes(p1, p2, lent) {
        Ok(()) => walk(p1, p2, lent, addr),
        Err(answer) => answer,
    }
}

pub fn lookup_many(p1: u32, p2: u32, _count: u32, lent: &Lent, addrs: &[u32], out: &mut [u32]) -> u64 {
    if let Err(answer) = check_sizes(p1, p2, lent) {
        return answer;
    }
    if addrs.len() != out.len() {
        return refused(2);
    }
    for (o, &addr) in out.iter_mut().zip(addrs) {
        *o = walk(p1, p2, lent, addr) as u32;
    }
    0
}

// ---------------------------------------------------------------------------------------------------- the printed text

/// One line of the printing program: prefix and hop. Request d: it "adds ` attached` to such lines".
pub fn line(r: &Route) -> String {
    let [a, b, c, d] = r.addr.to_be_bytes();
    let attached = if r.mark == 1 { " attached" } else { "" };
    format!("{a}.{b}.{c}.{d}/{} {}{attached}\n", r.len, r.hop)
}

/// What the printing program prints for what stands on its standard input.
pub fn printed(stdin: &[u8]) -> String {
    let input = &stdin[..stdin.len().min(520)];
    let mut lent = Lent::new(12, 22, 64, 4, 4);
    let answer = load(12, 22, input, &mut lent);
    if number(answer) != 0 {
        let at = if answer >> 8 & 1 == 1 { format!(" at {}", answer >> 32) } else { String::new() };
        return format!("refused {}{at}\n", number(answer));
    }
    let routes = check_input(input).expect("an accepted input is good");
    let head = format!("routes {} second {} third {}\n", routes.len(), need(&routes, 12), need(&routes, 22));
    head + &routes.iter().map(line).collect::<String>()
}

// ---------------------------------------------------------------------------------------------------- the tree image

/// What one node holds: the hop of each internal bit, and the values of the next four bits that have a child.
#[derive(Default)]
struct Node {
    hops: BTreeMap<u32, u16>,
    children: BTreeSet<u32>,
}

/// The nodes that stand, by depth and then by path.
fn nodes(routes: &[Route]) -> BTreeMap<(u32, u32), Node> {
    let mut nodes: BTreeMap<(u32, u32), Node> = BTreeMap::new();
    nodes.insert((0, 0), Node::default());
    for r in routes {
        let len = r.len as u32;
        for m in 0..=len / 4 {
            nodes.entry((m, bits(r.addr, 4 * m))).or_default();
            if m > 0 {
                let parent = nodes.get_mut(&(m - 1, bits(r.addr, 4 * (m - 1)))).unwrap();
                parent.children.insert(bits(r.addr, 4 * m) % 16);
            }
        }
        let m = len / 4;
        let j = len % 4;
        let v = bits(r.addr, len) % (1 << j);
        nodes.get_mut(&(m, bits(r.addr, 4 * m))).unwrap().hops.insert((1 << j) - 1 + v, r.hop);
    }
    nodes
}

pub fn build(input: &[u8], words: &mut [u32], hops: &mut [u16]) -> u64 {
    let routes = match check_input(input) {
        Ok(routes) => routes,
        Err(answer) => return answer,
    };
    let nodes = nodes(&routes);
    if words.len() / 3 < nodes.len() {
        return refused(11);
    }
    if hops.len() < routes.len() {
        return refused(12);
    }
    words.fill(0);
    hops.fill(0);
    let mut children_before = 0;
    let mut hops_before = 0;
    for (n, node) in nodes.values().enumerate() {
        let internal: u32 = node.hops.keys().map(|&bit| 1 << bit).sum();
        let extending: u32 = node.children.iter().map(|&v| 1 << (16 + v)).sum();
        words[3 * n] = internal | extending;
        words[3 * n + 1] = 1 + children_before as u32;
        words[3 * n + 2] = hops_before as u32;
        for (k, &hop) in node.hops.values().enumerate() {
            hops[hops_before + k] = hop;
        }
        children_before += node.children.len();
        hops_before += node.hops.len();
    }
    (routes.len() as u64) << 16 | (nodes.len() as u64) << 32
}

/// The number of ones of `word` at the bits from `from` up to and not including `to`.
pub fn ones(word: u32, from: u32, to: u32) -> u64 {
    (from..to).filter(|&bit| word >> bit & 1 == 1).count() as u64
}

pub fn tree_lookup(words: &[u32], hops: &[u16], addr: u32) -> u64 {
    let mut at: u64 = 0;
    let mut deepest: Option<u64> = None;
    let mut nodes = 0;
    for m in 0..=8u32 {
        // The root, or a child, is not whole within what is lent.
        if at >= words.len() as u64 / 3 {
            return refused(13);
        }
        let bitmap = words[3 * at as usize];
        let child_base = words[3 * at as usize + 1] as u64;
        let hop_base = words[3 * at as usize + 2] as u64;
        nodes += 1;
        if bitmap >> 15 & 1 == 1 {
            return refused(13);
        }
        // At depth 8 there are no further bits, and only the inner length 0 is left.
        for j in 0..if m < 8 { 4 } else { 1 } {
            let v = bits(addr, 4 * m + j) % (1 << j);
            let bit = (1 << j) - 1 + v;
            if bitmap >> bit & 1 == 1 {
                deepest = Some(hop_base + ones(bitmap, 0, bit));
            }
        }
        if m == 8 {
            break;
        }
        let next = bits(addr, 4 * m + 4) % 16;
        if bitmap >> (16 + next) & 1 == 0 {
            break;
        }
        at = child_base + ones(bitmap, 16, 16 + next);
    }
    match deepest {
        None => accepted_tree_lookup(nodes, 0),
        Some(place) if place < hops.len() as u64 && hop_ok(hops[place as usize] as u32) => {
            accepted_tree_lookup(nodes, hops[place as usize])
        }
        Some(_) => refused(13),
    }
}
