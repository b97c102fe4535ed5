//! A box of two parties: lookups next to those of a table of one, and changes next to one plain read of what is lent.

use crate::{agree, contender, gh, measure, ratio, records, Route};
use ghatumri::{raw, sys, Geometry, Limits, Mark, OwnRef, Pair, PairRef, Party, Table};
use std::cell::RefCell;
use std::hint::black_box;

const PAIR: &str = "gh_pair_lookup";
const EACH: &str = "gh_lookup";

/// One call for each address.
#[inline(never)]
fn each(b: PairRef, party: Party, addrs: &[u32], out: &mut [u32]) {
    let party = black_box(party as u32);
    for (o, &addr) in out.iter_mut().zip(addrs) {
        *o = raw::pair_lookup(&b, party, addr) as u32;
    }
}

/// A standard box in which the second party has the routes of an input, and the first none.
pub fn pair(input: &[u8], room: usize, second: usize, third: usize) -> Pair {
    let none = Limits { second: 0, third: 0 };
    let all = Limits { second: second as u32, third: third as u32 };
    let mut pair = Pair::new(Geometry::STANDARD, (second, third), (room, none), (room, all)).unwrap();
    pair.load(Party::Two, input).unwrap();
    pair
}

pub fn lookups(rounds: usize, table: &Table, pair: &Pair, addrs: &[u32]) {
    let (t, b) = (table.view(), pair.view());
    let (mut one, mut other) = (vec![0; addrs.len()], vec![0; addrs.len()]);
    gh::each(t, sys::gh_lookup, addrs, &mut one);
    each(b, Party::Two, addrs, &mut other);
    agree(PAIR, &one, &other, 0, u32::MAX);
    let out = RefCell::new(other);
    let out = || out.borrow_mut();
    let mut contenders = [
        contender(EACH, || gh::each(t, sys::gh_lookup, addrs, black_box(&mut out()))),
        contender(PAIR, || each(b, Party::Two, addrs, black_box(&mut out()))),
    ];
    measure(rounds, addrs.len(), "ns", true, &mut contenders);
    ratio(&contenders, PAIR, EACH, Some(1.8));
}

/// One plain read of all that is lent, as of a table of one.
#[inline(never)]
fn read_all(b: PairRef) -> u64 {
    let list = |list: &[u8]| list.iter().map(|&x| x as u64).sum::<u64>();
    let cells = |cells: &[u16]| cells.iter().fold(0u32, |s, &x| s.wrapping_add(x as u32)) as u64;
    let owners = |own: &[u32]| own.iter().fold(0u32, |s, &x| s.wrapping_add(x)) as u64;
    let own = |o: OwnRef| list(o.list) + cells(o.first) + cells(o.long1);
    let pools = cells(b.second) + cells(b.third) + cells(b.long2) + owners(b.own2) + owners(b.own3);
    own(b.one) + own(b.two) + pools
}

/// The calls of the second party on a box of 4,096 chunks in either pool, half of them each party's, and all in use but for
/// those of the routes that are kept back.
pub fn changes(rounds: usize, all: &[Route]) {
    const READ: &str = "one plain read of what is lent";
    const REPORT: &str = "gh_pair_report";
    const ANNOUNCE: &str = "gh_pair_announce, a new route";
    const REPLACE: &str = "gh_pair_announce, a hop replaced";
    const WITHDRAW: &str = "gh_pair_withdraw";
    const LOAD: &str = "gh_pair_load, all routes";
    let (mut theirs, mut standing, mut fresh) = (Vec::new(), Vec::new(), Vec::new());
    for (k, &r) in all.iter().enumerate() {
        match k % 64 {
            5 => fresh.push(r),
            k if k % 2 == 0 => theirs.push(r),
            _ => standing.push(r),
        }
    }
    let input = records(&standing);
    let half = Limits { second: 2048, third: 2048 };
    let mut pair = Pair::new(Geometry::STANDARD, (4096, 4096), (4096, half), (4096, half)).unwrap();
    // One after the other, so that the chunks of both lie between each other.
    for (a, b) in theirs.iter().zip(&standing) {
        pair.announce(Party::One, a.0, a.1, a.2, Mark::Behind).unwrap();
        pair.announce(Party::Two, b.0, b.1, b.2, Mark::Behind).unwrap();
    }
    pair.load(Party::One, &records(&theirs)).unwrap();
    pair.load(Party::Two, &input).unwrap();
    println!("{} routes of the first party, {} and one more of the second", pair.one.count, pair.two.count);
    let mut turn = 0;
    let shared = RefCell::new((&mut pair, &mut turn));
    let route = |turn: usize| fresh[turn % fresh.len()];
    let announce = |pair: &mut Pair, (addr, len, hop): Route| {
        pair.announce(Party::Two, addr, len, hop, Mark::Behind).unwrap();
    };
    let mut contenders = [
        contender(READ, || {
            black_box(read_all(black_box(shared.borrow().0.view())));
        }),
        contender(REPORT, || {
            black_box(shared.borrow().0.report(Party::Two).unwrap());
        }),
        contender(ANNOUNCE, || {
            let (pair, turn) = &mut *shared.borrow_mut();
            announce(pair, route(**turn));
        }),
        contender(REPLACE, || {
            let (pair, turn) = &mut *shared.borrow_mut();
            let (addr, len, hop) = route(**turn);
            announce(pair, (addr, len, hop + 1));
        }),
        contender(WITHDRAW, || {
            let (pair, turn) = &mut *shared.borrow_mut();
            let (addr, len, _) = route(**turn);
            pair.withdraw(Party::Two, addr, len).unwrap();
            **turn += 1;
        }),
        contender(LOAD, || {
            shared.borrow_mut().0.load(Party::Two, black_box(&input)).unwrap();
        }),
    ];
    measure(rounds, 1, "us", false, &mut contenders);
    for (one, limit) in [(REPORT, 5.0), (ANNOUNCE, 5.0), (REPLACE, 5.0), (WITHDRAW, 5.0), (LOAD, 8.0)] {
        ratio(&contenders, one, READ, Some(limit));
    }
}
