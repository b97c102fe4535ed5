//! Harm to a box of two parties: all that can befall a table of one, and what only two can have.

use crate::damage::Harm;
use differential::gen::Rng;
use differential::pair::{Arrays, State};
use differential::plain::{need, Lent, Route};

const SECOND: u32 = 1 << 31;

/// One change at random. Some fit no box at hand and change nothing; some leave it sound.
pub fn harm(rng: &mut Rng, s: &mut State, a: &mut Arrays, standing: &[Vec<Route>; 2]) {
    match rng.below(17) {
        0..=5 => as_of_one(rng, s, a),
        6 | 7 => other_bit(rng, a),
        8 | 9 => stray_owner(rng, a),
        10 | 11 => limits(rng, s, a, standing),
        12 => others_chunk(rng, a),
        13 => a.own.swap(0, 1),
        14 => {
            let [one, two] = &mut s.shares;
            std::mem::swap(&mut one.count, &mut two.count);
        }
        15 => owners_swapped(rng, a),
        _ => s.shares.swap(0, 1),
    }
}

/// What can befall a table of one, to what one party sees of the box: the other's chunks look free to it.
fn as_of_one(rng: &mut Rng, s: &mut State, a: &mut Arrays) {
    let w = rng.below(2);
    let bit = (w as u32) << 31;
    let sees = |own: &[u32]| -> Vec<u32> { own.iter().map(|&o| if o & SECOND == bit { o ^ bit } else { 0 }).collect() };
    let own = std::mem::take(&mut a.own[w]);
    let before = (sees(&a.own2), sees(&a.own3));
    let mut t = Lent {
        list: own.list,
        first: own.first,
        long1: own.long1,
        second: std::mem::take(&mut a.second),
        third: std::mem::take(&mut a.third),
        long2: std::mem::take(&mut a.long2),
        own2: before.0.clone(),
        own3: before.1.clone(),
    };
    Harm { p1: s.p1, p2: s.p2, count: &mut s.shares[w].count, t: &mut t }.one(rng);
    for (own, was, is) in [(&mut a.own2, &before.0, &t.own2), (&mut a.own3, &before.1, &t.own3)] {
        for c in (0..own.len()).filter(|&c| was[c] != is[c]) {
            own[c] = if is[c] == 0 { 0 } else { is[c] | bit };
        }
    }
    (a.own[w].list, a.own[w].first, a.own[w].long1) = (t.list, t.first, t.long1);
    (a.second, a.third, a.long2) = (t.second, t.third, t.long2);
}

/// The owners of either pool.
fn owners<'a>(rng: &mut Rng, a: &'a mut Arrays) -> &'a mut Vec<u32> {
    if rng.one_in(2) {
        &mut a.own2
    } else {
        &mut a.own3
    }
}

/// A chunk in use of these owners, of a party if it is named.
fn in_use(rng: &mut Rng, own: &[u32], party: Option<usize>) -> Option<usize> {
    let fits = |o: u32| o != 0 && party.map_or(true, |w| (o >> 31) as usize == w);
    let chunks: Vec<usize> = (0..own.len()).filter(|&c| fits(own[c])).collect();
    (!chunks.is_empty()).then(|| *rng.pick(&chunks))
}

/// A chunk in use gets the other party's bit.
fn other_bit(rng: &mut Rng, a: &mut Arrays) {
    let own = owners(rng, a);
    if let Some(c) = in_use(rng, own, None) {
        own[c] ^= SECOND;
    }
}

/// The owner that is neither 0 nor 1 plus a place, 80000000 hex, in a free chunk or in one in use; or a chunk in use that
/// is nobody's.
fn stray_owner(rng: &mut Rng, a: &mut Arrays) {
    let own = owners(rng, a);
    let free = own.iter().position(|&o| o == 0);
    match (free, in_use(rng, own, None)) {
        (Some(c), _) if rng.one_in(3) => own[c] = SECOND,
        (_, Some(c)) => own[c] = if rng.one_in(2) { SECOND } else { 0 },
        _ => {}
    }
}

/// A limit that is below the need, at it, the last that fits, the first that does not, or far beyond.
fn limits(rng: &mut Rng, s: &mut State, a: &Arrays, standing: &[Vec<Route>; 2]) {
    // Mostly one that is needed.
    let drawn = [(); 3].map(|()| (rng.below(2), rng.one_in(2)));
    let needs = |&(w, second): &(usize, bool)| need(&standing[w], if second { s.p1 } else { s.p2 }) as u32;
    let (w, second) = drawn.into_iter().max_by_key(needs).expect("three were drawn");
    let need = needs(&(w, second));
    let (mine, other) = (s.shares[w], s.shares[1 - w]);
    let (chunks, most, others) =
        if second { (&a.own2, mine.most2, other.most2) } else { (&a.own3, mine.most3, other.most3) };
    let fits = (chunks.len() as u32).saturating_sub(others);
    let limit = match rng.below(9) {
        0..=2 => need.saturating_sub(1),
        3 => need,
        4 => fits,
        5 => fits + 1,
        6 => most.wrapping_add(1),
        // With the other's the sum is small in 32 bits.
        7 => 0_u32.wrapping_sub(others),
        _ => *rng.pick(&[u32::MAX, SECOND, 4096, 4097, 0]),
    };
    *if second { &mut s.shares[w].most2 } else { &mut s.shares[w].most3 } = limit;
}

/// A first or a second cell of one party names a chunk of the other.
fn others_chunk(rng: &mut Rng, a: &mut Arrays) {
    let w = rng.below(2);
    let place = |o: u32| ((o & !SECOND) as usize).wrapping_sub(1);
    if rng.one_in(2) {
        if let Some(c) = in_use(rng, &a.own2, Some(1 - w)) {
            let mine = in_use(rng, &a.own2, Some(w)).map(|c| place(a.own2[c]));
            let k = mine.unwrap_or_else(|| rng.below(a.own[w].first.len()));
            if let Some(cell) = a.own[w].first.get_mut(k) {
                *cell = c as u16 + 1;
            }
        }
    } else if let (Some(c), Some(d)) = (in_use(rng, &a.own3, Some(1 - w)), in_use(rng, &a.own3, Some(w))) {
        let k = place(a.own3[d]);
        if let Some(cell) = a.second.get_mut(k) {
            *cell = c as u16 + 1;
        }
    }
}

/// A chunk of each party exchange their owners.
fn owners_swapped(rng: &mut Rng, a: &mut Arrays) {
    let own = owners(rng, a);
    if let (Some(c), Some(d)) = (in_use(rng, own, Some(0)), in_use(rng, own, Some(1))) {
        own.swap(c, d);
    }
}
