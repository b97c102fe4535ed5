//! Request j of document 02, in plain form: two customers in one box. "Each of the two has his own list, first cells and
//! counts for them; the two pools are shared."
//!
//! Two sets of routes and the numbers of their chunks determine every word of a sound box: it is read as these, and each
//! change writes all arrays anew.

use crate::fields::Table;
use crate::plain::*;
use std::collections::{BTreeMap, BTreeSet};

// ---------------------------------------------------------------------------------------------------- state and arrays

/// What the state holds for one party: its route count, and its limits of chunks.
#[derive(Clone, Copy, PartialEq, Eq, Debug, Default)]
pub struct Share {
    pub count: u32,
    pub most2: u32,
    pub most3: u32,
}

/// The state of a box. The parties are 0 and 1.
#[derive(Clone, Copy, PartialEq, Eq, Debug)]
pub struct State {
    pub p1: u32,
    pub p2: u32,
    pub shares: [Share; 2],
}

impl State {
    /// After an accepted change: bits 16 to 31 of its answer are the calling party's routes.
    pub fn keep(&mut self, party: usize, answer: u64) {
        if number(answer) == 0 {
            self.shares[party].count = (answer >> 16) as u32 & 0xFFFF;
        }
    }
}

/// What a party has for itself.
#[derive(Clone, PartialEq, Eq, Debug, Default)]
pub struct Own {
    pub list: Vec<u8>,
    pub first: Vec<u16>,
    pub long1: Vec<u16>,
}

impl Own {
    pub fn room(&self) -> usize {
        self.list.len() / 8
    }
}

/// The eleven arrays that are lent to every call.
#[derive(Clone, PartialEq, Eq, Debug, Default)]
pub struct Arrays {
    pub own: [Own; 2],
    pub second: Vec<u16>,
    pub third: Vec<u16>,
    pub own2: Vec<u32>,
    pub own3: Vec<u32>,
    pub long2: Vec<u16>,
}

impl Arrays {
    /// Arrays of the right sizes, all zero.
    pub fn new(p1: u32, p2: u32, rooms: [usize; 2], second: usize, third: usize) -> Arrays {
        Arrays {
            own: rooms.map(|room| Own { list: vec![0; 8 * room], first: vec![0; 1 << p1], long1: vec![0; 1 << p1] }),
            second: vec![0; second * size2(p1, p2)],
            third: vec![0; third * size3(p2)],
            own2: vec![0; second],
            own3: vec![0; third],
            long2: vec![0; second * size2(p1, p2)],
        }
    }
}

/// The party of a number at the boundary: 0 is the first, any other the second.
pub fn party_of(number: u32) -> usize {
    (number != 0) as usize
}

/// "An owner's top bit is 1 for the second party": the owner of a chunk that the party's cell at this place names.
pub fn owner(party: usize, place: usize) -> u32 {
    (party as u32) << 31 | (place as u32 + 1)
}

/// The party and the place of an owner. 80000000 hex is 1 plus no place.
fn owner_of(owner: u32) -> Option<(usize, usize)> {
    let place = (owner & 0x7FFF_FFFF).checked_sub(1)?;
    Some(((owner >> 31) as usize, place as usize))
}

/// Refusals 1 and 2.
fn check_sizes(s: &State, a: &Arrays) -> Result<(), u64> {
    if !geometry_ok(s.p1, s.p2) {
        return Err(refused(1));
    }
    let own_right = |own: &Own| {
        own.list.len() % 8 == 0
            && own.room() <= RECORDS_MAX
            && own.first.len() == 1 << s.p1
            && own.long1.len() == 1 << s.p1
    };
    let right = a.own.iter().all(own_right)
        && a.own2.len() <= CHUNKS_MAX
        && a.own3.len() <= CHUNKS_MAX
        && a.second.len() == a.own2.len() * size2(s.p1, s.p2)
        && a.long2.len() == a.second.len()
        && a.third.len() == a.own3.len() * size3(s.p2);
    right.then_some(()).ok_or(refused(2))
}

// ---------------------------------------------------------------------------------------------------- what a box holds

/// The number, from 0, of each chunk in use, by the party and the cell that names it: a cell of level p1 for the second
/// pool, of level p2 for the third.
type Numbers = BTreeMap<(usize, u32), usize>;

/// What a sound box holds: the routes of each party, and the numbers of the chunks.
#[derive(Clone, PartialEq, Eq, Debug, Default)]
pub struct Content {
    pub routes: [Vec<Route>; 2],
    pub second: Numbers,
    pub third: Numbers,
}

/// The cells of a level that some longer route begins with, for both parties.
fn long_of(routes: &[Vec<Route>; 2], p: u32) -> BTreeSet<(usize, u32)> {
    (0..2).flat_map(|w| long_cells(&routes[w], p).into_iter().map(move |cell| (w, cell))).collect()
}

/// The lowest number that neither party's chunks have.
fn lowest_free(numbers: &Numbers) -> usize {
    let mut used = vec![false; numbers.len() + 1];
    for &c in numbers.values().filter(|&&c| c < numbers.len()) {
        used[c] = true;
    }
    used.iter().position(|used| !used).expect("one more place than numbers")
}

impl Content {
    /// Opens the chunks that a route of the party needs: "A newly opened chunk takes the lowest free number".
    fn open(&mut self, s: &State, party: usize, r: &Route) {
        for (numbers, p) in [(&mut self.second, s.p1), (&mut self.third, s.p2)] {
            if r.len as u32 > p && !numbers.contains_key(&(party, bits(r.addr, p))) {
                let free = lowest_free(numbers);
                numbers.insert((party, bits(r.addr, p)), free);
            }
        }
    }

    /// Closes the chunks that no route needs any more.
    fn close(&mut self, s: &State) {
        for (numbers, p) in [(&mut self.second, s.p1), (&mut self.third, s.p2)] {
            let long = long_of(&self.routes, p);
            numbers.retain(|key, _| long.contains(key));
        }
    }

    /// The place in the second pool of a party's cell of level p2.
    fn place(&self, s: &State, party: usize, cell: u32) -> usize {
        let size = size2(s.p1, s.p2);
        self.second[&(party, cell / size as u32)] * size + cell as usize % size
    }

    /// Writes all arrays, whose sizes are right.
    fn write(&self, s: &State, a: &mut Arrays) {
        let by_length = [0, 1].map(|w: usize| sorted_by_length(&self.routes[w]));
        for (w, own) in a.own.iter_mut().enumerate() {
            let routes = &self.routes[w];
            own.list.fill(0);
            own.list[..8 * routes.len()].copy_from_slice(&records(routes));
            leaves(&mut own.first, &hops_under(&by_length[w], 0, 0, s.p1));
            own.long1 = counts_first(s.p1, routes);
        }
        for pool in [&mut a.second, &mut a.third, &mut a.long2] {
            pool.fill(0);
        }
        a.own2.fill(0);
        a.own3.fill(0);
        let size = size2(s.p1, s.p2);
        for (&(w, cell), &c) in &self.second {
            a.own[w].first[cell as usize] = c as u16 + 1;
            a.own2[c] = owner(w, cell as usize);
            leaves(&mut a.second[c * size..(c + 1) * size], &hops_under(&by_length[w], s.p1, cell, s.p2));
        }
        let size = size3(s.p2);
        for (&(w, cell), &c) in &self.third {
            let place = self.place(s, w, cell);
            a.second[place] = c as u16 + 1;
            a.own3[c] = owner(w, place);
            leaves(&mut a.third[c * size..(c + 1) * size], &hops_under(&by_length[w], s.p2, cell, 32));
        }
        for w in 0..2 {
            for r in self.routes[w].iter().filter(|r| r.len as u32 > s.p2) {
                a.long2[self.place(s, w, bits(r.addr, s.p2))] += 1;
            }
        }
    }
}

fn leaves(cells: &mut [u16], hops: &[u16]) {
    for (cell, hop) in cells.iter_mut().zip(hops) {
        *cell = LEAF | hop;
    }
}

/// The chunks' numbers as the owners have them. Nothing if an owner is no cell's, two are one cell's, or a third chunk's
/// is a cell of a chunk that is not the same party's.
fn numbers(s: &State, a: &Arrays) -> Option<(Numbers, Numbers)> {
    let (mut second, mut third) = (Numbers::new(), Numbers::new());
    for (c, &o) in a.own2.iter().enumerate().filter(|(_, &o)| o != 0) {
        let (w, place) = owner_of(o).filter(|&(_, place)| place < a.own[0].first.len())?;
        if second.insert((w, place as u32), c).is_some() {
            return None;
        }
    }
    let size = size2(s.p1, s.p2);
    for (c, &o) in a.own3.iter().enumerate().filter(|(_, &o)| o != 0) {
        let (w, place) = owner_of(o).filter(|&(_, place)| place < a.second.len())?;
        let (_, above) = owner_of(a.own2[place / size]).filter(|&(v, _)| v == w)?;
        if third.insert((w, (above * size + place % size) as u32), c).is_some() {
            return None;
        }
    }
    Some((second, third))
}

/// "limits that fit the pools"
fn limits_fit(s: &State, a: &Arrays) -> bool {
    let sum = |most: fn(&Share) -> u32| s.shares.iter().map(|share| most(share) as u64).sum::<u64>();
    sum(|share| share.most2) <= a.own2.len() as u64 && sum(|share| share.most3) <= a.own3.len() as u64
}

/// "needs within limits"
fn within_limits(s: &State, party: usize, routes: &[Route]) -> Result<(), u64> {
    if need(routes, s.p1) > s.shares[party].most2 as usize {
        return Err(refused(7));
    }
    if need(routes, s.p2) > s.shares[party].most3 as usize {
        return Err(refused(8));
    }
    Ok(())
}

/// "Soundness is of both together": the lists are good, the chunks are those that the routes need, needs and limits are
/// in order, and every word is as the routes and the numbers ask. The sizes are right.
pub fn sound(s: &State, a: &Arrays) -> Option<Content> {
    let [one, two] = [0, 1].map(|w| good_list(s.shares[w].count, &a.own[w].list));
    let (second, third) = numbers(s, a)?;
    let content = Content { routes: [one?, two?], second, third };
    let needed = |numbers: &Numbers, p: u32| numbers.keys().copied().eq(long_of(&content.routes, p));
    let in_order = limits_fit(s, a)
        && (0..2).all(|w| within_limits(s, w, &content.routes[w]).is_ok())
        && needed(&content.second, s.p1)
        && needed(&content.third, s.p2);
    if !in_order {
        return None;
    }
    let mut again = a.clone();
    content.write(s, &mut again);
    (again == *a).then_some(content)
}

// ---------------------------------------------------------------------------------------------------- the calls

/// "Refusals: 24, the two limits add to more than a pool's chunks, after 2 in make." Counts are not read.
pub fn make(s: &State, a: &mut Arrays) -> u64 {
    either((|| {
        check_sizes(s, a)?;
        if !limits_fit(s, a) {
            return Err(refused(24));
        }
        Content::default().write(s, a);
        Ok(accepted_routes(0))
    })())
}

/// "An accepted load acts as withdrawing all of one party's routes and then announcing the records; it checks the
/// standing table (5 after 2)."
pub fn load(s: &State, a: &mut Arrays, party: u32, input: &[u8]) -> u64 {
    let w = party_of(party);
    either((|| {
        check_sizes(s, a)?;
        let mut content = sound(s, a).ok_or(refused(5))?;
        let routes = check_input(input)?;
        if routes.len() > a.own[w].room() {
            return Err(refused(6));
        }
        within_limits(s, w, &routes)?;
        content.routes[w].clear();
        content.close(s);
        for r in routes {
            content.open(s, w, &r);
            content.routes[w].push(r);
        }
        content.write(s, a);
        Ok(accepted_routes(content.routes[w].len()))
    })())
}

/// "7 and 8 are given to a party exactly when its own need would exceed its limit."
pub fn announce(s: &State, a: &mut Arrays, party: u32, addr: u32, len: u32, hop: u32, mark: u32) -> u64 {
    let w = party_of(party);
    either((|| {
        check_sizes(s, a)?;
        let route = check_route(addr, len, hop, mark)?;
        let mut content = sound(s, a).ok_or(refused(5))?;
        let routes = &mut content.routes[w];
        let standing = routes.iter().position(|r| (r.addr, r.len) == (route.addr, route.len));
        match standing {
            Some(k) => routes[k] = route,
            None if routes.len() == a.own[w].room() => return Err(refused(6)),
            None => {
                routes.push(route);
                routes.sort();
                within_limits(s, w, routes)?;
                content.open(s, w, &route);
            }
        }
        content.write(s, a);
        let replaced = (standing.is_some() as u64) << 8;
        Ok(accepted_routes(content.routes[w].len()) | replaced | told_cleared(addr, route.addr))
    })())
}

pub fn withdraw(s: &State, a: &mut Arrays, party: u32, addr: u32, len: u32) -> u64 {
    let w = party_of(party);
    either((|| {
        check_sizes(s, a)?;
        let (prefix, len) = check_prefix(addr, len)?;
        let mut content = sound(s, a).ok_or(refused(5))?;
        let k = content.routes[w].iter().position(|r| (r.addr, r.len) == (prefix, len)).ok_or(refused(9))?;
        content.routes[w].remove(k);
        content.close(s);
        content.write(s, a);
        Ok(accepted_routes(content.routes[w].len()) | told_cleared(addr, prefix))
    })())
}

/// The party's own route count and needs.
pub fn report(s: &State, a: &Arrays, party: u32) -> u64 {
    either((|| {
        check_sizes(s, a)?;
        let content = sound(s, a).ok_or(refused(5))?;
        let routes = &content.routes[party_of(party)];
        let (need2, need3) = (need(routes, s.p1) as u64, need(routes, s.p2) as u64);
        Ok(accepted_routes(routes.len()) | need2 << 32 | need3 << 48)
    })())
}

/// "Lookup also breaks off with 5 at a chunk owned by the other"; "owner 0 is nobody's". The cell names a chunk.
fn enter(w: usize, cell: u16, own: &[u32], size: usize, within: usize) -> Result<usize, u64> {
    let place = place_in(cell, own.len(), size, within)?;
    let owner = own[cell as usize - 1];
    if owner != 0 && (owner >> 31) as usize != w {
        return Err(refused(5));
    }
    Ok(place)
}

pub fn lookup(s: &State, a: &Arrays, party: u32, addr: u32) -> u64 {
    let w = party_of(party);
    either((|| {
        check_sizes(s, a)?;
        let cell = a.own[w].first[bits(addr, s.p1) as usize];
        if cell & LEAF != 0 {
            return Ok(accepted_lookup(1, cell & HOP_MAX));
        }
        let size = size2(s.p1, s.p2);
        let cell = a.second[enter(w, cell, &a.own2, size, bits(addr, s.p2) as usize % size)?];
        if cell & LEAF != 0 {
            return Ok(accepted_lookup(2, cell & HOP_MAX));
        }
        let size = size3(s.p2);
        let cell = a.third[enter(w, cell, &a.own3, size, addr as usize % size)?];
        if cell & LEAF != 0 {
            return Ok(accepted_lookup(3, cell & HOP_MAX));
        }
        Err(refused(5))
    })())
}

/// One party of a box, as messages are read into it.
pub struct Party<'a> {
    pub state: State,
    pub arrays: &'a mut Arrays,
    pub party: u32,
}

impl Party<'_> {
    fn keep(&mut self, answer: u64) -> u64 {
        self.state.keep(party_of(self.party), answer);
        answer
    }
}

impl Table for Party<'_> {
    fn report(&self) -> u64 {
        report(&self.state, self.arrays, self.party)
    }

    fn withdraw(&mut self, addr: u32, len: u32) -> u64 {
        let answer = withdraw(&self.state, self.arrays, self.party, addr, len);
        self.keep(answer)
    }

    fn announce(&mut self, addr: u32, len: u32, hop: u32, mark: u32) -> u64 {
        let answer = announce(&self.state, self.arrays, self.party, addr, len, hop, mark);
        self.keep(answer)
    }
}

/// Other numbers for the chunks: a sound box stays sound. `number` gives the new number of each, and two never the same.
pub fn renumber(s: &State, a: &mut Arrays, mut number: impl FnMut(bool, usize) -> usize) {
    let Some(mut content) = sound(s, a) else { return };
    content.second.values_mut().for_each(|c| *c = number(false, *c));
    content.third.values_mut().for_each(|c| *c = number(true, *c));
    content.write(s, a);
}
