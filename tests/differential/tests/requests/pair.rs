//! Request j: two customers in one box.

use crate::{attached, ip, list_a, routes_after, to, CLEARED, REPLACED};
use differential::fields;
use differential::header;
use differential::hop_records::{self, HopRecord};
use differential::pair::*;
use differential::plain::{number, records, refused_at, Route};

/// A box with its state, which follows each accepted change.
#[derive(Clone, Debug, PartialEq)]
pub struct Cabinet {
    pub state: State,
    pub arrays: Arrays,
}

/// Limits for second and third chunks.
pub type Limits = (u32, u32);

impl Cabinet {
    /// Arrays of these sizes with old words in them.
    pub fn new((p1, p2): (u32, u32), rooms: [usize; 2], chunks: (usize, usize), limits: [Limits; 2]) -> Cabinet {
        let mut arrays = Arrays::new(p1, p2, rooms, chunks.0, chunks.1);
        arrays.second.fill(77);
        arrays.own3.fill(0x8000_0007);
        let shares = limits.map(|(most2, most3)| Share { count: 9, most2, most3 });
        Cabinet { state: State { p1, p2, shares }, arrays }
    }

    /// The small geometry, room for eight records each, four chunks in each pool; made.
    fn small(limits: [Limits; 2]) -> Cabinet {
        let mut cabinet = Cabinet::new((12, 22), [8, 8], (4, 4), limits);
        assert_eq!(cabinet.make(), 0);
        cabinet
    }

    pub fn make(&mut self) -> u64 {
        let answer = make(&self.state, &mut self.arrays);
        for w in 0..2 {
            self.state.keep(w, answer);
        }
        answer
    }

    fn keep(&mut self, party: u32, answer: u64) -> u64 {
        self.state.keep(party_of(party), answer);
        answer
    }

    pub fn load(&mut self, party: u32, input: &[u8]) -> u64 {
        let answer = load(&self.state, &mut self.arrays, party, input);
        self.keep(party, answer)
    }

    fn announce(&mut self, party: u32, r: &Route) -> u64 {
        self.announce_any(party, r.addr, r.len as u32, r.hop as u32, r.mark as u32)
    }

    pub fn announce_any(&mut self, party: u32, addr: u32, len: u32, hop: u32, mark: u32) -> u64 {
        let answer = announce(&self.state, &mut self.arrays, party, addr, len, hop, mark);
        self.keep(party, answer)
    }

    pub fn withdraw(&mut self, party: u32, addr: u32, len: u32) -> u64 {
        let answer = withdraw(&self.state, &mut self.arrays, party, addr, len);
        self.keep(party, answer)
    }

    pub fn report(&self, party: u32) -> u64 {
        report(&self.state, &self.arrays, party)
    }

    pub fn lookup(&self, party: u32, addr: u32) -> u64 {
        lookup(&self.state, &self.arrays, party, addr)
    }
}

/// Routes, needs of the second and of the third pool.
fn reported(routes: u64, second: u64, third: u64) -> u64 {
    routes << 16 | second << 32 | third << 48
}

fn found(hop: u64, reads: u64) -> u64 {
    hop << 16 | reads << 8
}

const NET: u32 = u32::from_be_bytes([10, 1, 2, 0]);
const OTHER: u32 = u32::from_be_bytes([10, 32, 0, 0]);

/// "24, the two limits add to more than a pool's chunks, after 2 in make."
#[test]
fn limits_at_make() {
    let made = |limits| Cabinet::new((12, 22), [8, 8], (4, 4), limits).make();
    assert_eq!(made([(2, 1), (3, 1)]), 24);
    assert_eq!(made([(1, 2), (1, 3)]), 24);
    assert_eq!(made([(1, 1), (3, 3)]), 0);
    assert_eq!(made([(0, 0), (0, 0)]), 0);
    assert_eq!(made([(5, 0), (0, 0)]), 24);
    // The sum is of numbers, not of 32 bits.
    assert_eq!(made([(u32::MAX, 0), (1, 0)]), 24);
    assert_eq!(made([(0, 1 << 31), (0, 1 << 31)]), 24);
    let mut refused = Cabinet::new((12, 22), [8, 8], (4, 4), [(5, 0), (0, 0)]);
    let before = refused.clone();
    refused.make();
    assert_eq!(refused, before);
    refused.arrays.long2.pop();
    assert_eq!(refused.make(), 2);
    refused.state.p2 = 23;
    assert_eq!(refused.make(), 1);
    let made = Cabinet::small([(1, 1), (3, 3)]);
    assert_eq!(made.arrays.own[1].first, vec![0x8000; 4096]);
    assert!(made.arrays.own2 == [0; 4] && made.arrays.own3 == [0; 4] && made.arrays.second.iter().all(|&x| x == 0));
}

#[test]
fn both_parties() {
    let mut c = Cabinet::small([(1, 1), (3, 3)]);
    assert_eq!(c.announce(0, &to(NET, 24, 44)), routes_after(1));
    assert_eq!((c.arrays.own2[0], c.arrays.own3[0]), (161, 65));
    assert_eq!((c.arrays.own[0].first[160], c.arrays.second[64]), (1, 1));
    // Its own need is what counts: three chunks are free.
    assert_eq!(c.announce(0, &to(OTHER, 24, 44)), 7);
    assert_eq!(c.announce(0, &to(ip(10, 1, 8, 0), 24, 44)), 8);
    assert_eq!(c.announce(0, &to(ip(10, 1, 3, 0), 24, 44)), routes_after(2));
    assert_eq!(c.withdraw(0, ip(10, 1, 3, 9), 24), routes_after(1) | CLEARED);
    // The second party, under any number but 0.
    assert_eq!(c.announce(u32::MAX, &to(NET, 24, 9)), routes_after(1));
    assert_eq!((c.arrays.own2[1], c.arrays.own3[1]), (0x8000_00A1, 0x8000_0441));
    assert_eq!((c.arrays.own[1].first[160], c.arrays.second[1024 + 64]), (2, 2));
    assert_eq!((c.arrays.own[0].long1[160], c.arrays.own[1].long1[160], c.arrays.long2[1088]), (1, 1, 1));
    assert_eq!([0, 1, 2].map(|w| c.lookup(w, NET + 5)), [found(44, 3), found(9, 3), found(9, 3)]);
    assert_eq!([0, 1].map(|w| c.report(w)), [reported(1, 1, 1); 2]);
    // What the first frees, the second may take.
    assert_eq!(c.withdraw(0, NET, 24), routes_after(0));
    assert_eq!(c.announce(1, &to(OTHER, 24, 8)), routes_after(2));
    assert_eq!((c.arrays.own2[0], c.arrays.own3[0]), (0x8000_00A3, 0x8000_0001));
    assert_eq!(c.report(0), 0);
    assert_eq!(c.report(1), reported(2, 2, 2));
    // Marks, replacements and refusals are as in a table of one.
    assert_eq!(c.announce(1, &attached(NET, 24, 9)), routes_after(2) | REPLACED);
    assert_eq!(c.arrays.own[1].list[..8], attached(NET, 24, 9).record());
    assert_eq!(c.withdraw(0, NET, 24), 9);
    assert_eq!(c.announce_any(1, 0, 33, 0, 2), 3);
    assert_eq!(c.announce_any(1, 0, 0, 32_768, 2), 4);
    assert_eq!(c.announce_any(1, 0, 0, 1, 2), 10);
}

/// "Soundness is of both together": damage of one party's cell is 5 for both, and the other's lookup is still served.
#[test]
fn damage_of_one() {
    let mut good = Cabinet::small([(1, 1), (3, 3)]);
    good.announce(0, &to(NET, 24, 44));
    good.announce(1, &to(NET, 24, 9));
    let mut c = good.clone();
    c.arrays.own[0].first[160] = 2;
    assert_eq!([0, 1].map(|w| c.lookup(w, NET + 5)), [5, found(9, 3)]);
    let before = c.clone();
    for w in 0..2 {
        assert_eq!(c.report(w), 5);
        assert_eq!(c.announce(w, &to(0, 0, 1)), 5);
        assert_eq!(c.withdraw(w, NET, 24), 5);
        assert_eq!(c.load(w, &[1]), 5);
    }
    assert_eq!(c, before);
    let harms: &[fn(&mut Cabinet)] = &[
        // The other party's bit, and the owner that is nobody's and not 0.
        |c| c.arrays.own2[0] ^= 1 << 31,
        |c| c.arrays.own3[1] ^= 1 << 31,
        |c| c.arrays.own2[3] = 1 << 31,
        |c| c.arrays.own3[2] = 1 << 31,
        |c| c.arrays.own2.swap(0, 1),
        |c| c.arrays.own2[2] = 161,
        |c| c.arrays.own3[2] = 66,
        // Limits that do not fit, or are below a need, of either party.
        |c| c.state.shares[1].most2 = 4,
        |c| c.state.shares[0].most3 = 2,
        |c| c.state.shares[0].most2 = u32::MAX,
        |c| c.state.shares[1].most2 = 0,
        |c| c.state.shares[0].most3 = 0,
        // Counts of routes, and long counts.
        |c| c.state.shares[1].count = 0,
        |c| c.state.shares[0].count = 2,
        |c| c.arrays.own[1].long1[160] = 2,
        |c| c.arrays.long2[2048] = 1,
        |c| c.arrays.long2[64] = 0,
        // What is free is not clean, or a list.
        |c| c.arrays.second[3 * 1024] = 0x8000,
        |c| c.arrays.third[2 * 1024] = 1,
        |c| c.arrays.own[0].list[63] = 1,
        |c| c.arrays.own[1].list[7] = 8,
        |c| c.arrays.own.swap(0, 1),
    ];
    for (k, harm) in harms.iter().enumerate() {
        let mut c = good.clone();
        harm(&mut c);
        assert_eq!([0, 1].map(|w| c.report(w)), [5, 5], "{k}");
        assert!(c.make() == 0 || k == 7 || k == 8 || k == 9, "{k}");
    }
    // With limits that do not fit, 24 is make's; to the other calls the box is not sound.
    let mut c = good.clone();
    c.state.shares[1].most2 = 4;
    assert_eq!((c.report(0), c.clone().make()), (5, 24));
    // Narrower limits that both needs keep are none of these.
    c.state.shares[1].most2 = 1;
    assert_eq!(c.report(1), reported(1, 1, 1));
}

/// "Lookup also breaks off with 5 at a chunk owned by the other."
#[test]
fn lookups_at_the_others() {
    let mut good = Cabinet::small([(2, 2), (2, 2)]);
    good.announce(0, &to(NET, 24, 44));
    good.announce(1, &to(NET, 24, 9));
    let look = |harm: fn(&mut Arrays)| {
        let mut c = good.clone();
        harm(&mut c.arrays);
        [0, 1].map(|w| c.lookup(w, NET + 5))
    };
    assert_eq!(look(|a| a.own2[0] |= 1 << 31), [5, found(9, 3)]);
    assert_eq!(look(|a| a.own2[1] = 1), [found(44, 3), 5]);
    assert_eq!(look(|a| a.own3[0] = 1 << 31), [5, found(9, 3)]);
    assert_eq!(look(|a| a.own3[1] &= !(1 << 31)), [found(44, 3), 5]);
    // The owner 0 is nobody's: the walk goes on. So it does at the party's own, whatever its place.
    assert_eq!(look(|a| a.own2.fill(0)), [found(44, 3), found(9, 3)]);
    assert_eq!(look(|a| a.own2[..2].copy_from_slice(&[7, 1 << 31])), [found(44, 3), found(9, 3)]);
    assert_eq!(look(|a| a.own[0].first[160] = 5), [5, found(9, 3)]);
    assert_eq!(look(|a| a.own[1].first[160] = 3), [found(44, 3), 5]);
}

/// "An accepted load acts as withdrawing all of one party's routes and then announcing the records": between the other's
/// chunks 1 and 3 it takes 2 and 4.
#[test]
fn loads() {
    let mut c = Cabinet::small([(2, 2), (2, 2)]);
    let cell = |k: u32| to(k << 20, 24, k as u16);
    for (w, k) in [(0, 1), (1, 2), (0, 3)] {
        c.announce(w, &cell(k));
    }
    assert_eq!(c.load(1, &records(&[cell(7), cell(9)])), routes_after(2));
    assert_eq!(c.arrays.own2, [2, 0x8000_0008, 4, 0x8000_000A]);
    assert_eq!(c.arrays.own3, [1, 0x8000_0401, 2049, 0x8000_0C01]);
    assert_eq!(c.load(0, &records(&[cell(1)])), routes_after(1));
    assert_eq!(c.arrays.own2, [2, 0x8000_0008, 0, 0x8000_000A]);
    // The order of refusals: 5 before the input's, then 6 by its own room, 7 and 8 by its own limits.
    assert_eq!(c.load(0, &[0; 9]), refused_at(10, 1));
    let many: Vec<Route> = (1..=9).map(cell).collect();
    assert_eq!(c.load(0, &records(&many)), 6);
    assert_eq!(c.load(0, &records(&many[..3])), 7);
    let deep: Vec<Route> = (0..3).map(|k| to(k << 10, 32, 1)).collect();
    assert_eq!(c.load(0, &records(&deep)), 8);
    assert_eq!(c.load(0, &records(&list_a())), routes_after(5));
    assert_eq!([0, 1].map(|w| c.report(w)), [reported(5, 1, 1), reported(2, 2, 2)]);
    let mut by_calls = c.clone();
    assert_eq!(c.load(1, &records(&list_a())), routes_after(5));
    for k in [7, 9] {
        assert_eq!(number(by_calls.withdraw(1, cell(k).addr, 24)), 0);
    }
    list_a().iter().for_each(|r| assert_eq!(number(by_calls.announce(1, r)), 0));
    assert_eq!(c, by_calls);
}

/// "2": all eleven arrays, also the other's, in lookups too.
#[test]
fn other_sizes() {
    let harms: &[fn(&mut Arrays)] = &[
        |a| a.own[0].list.truncate(63),
        |a| a.own[1].list.resize(8 * 4097, 0),
        |a| a.own[0].first.push(0),
        |a| a.own[1].first.truncate(4095),
        |a| a.own[0].long1.truncate(1),
        |a| a.own[1].long1.push(0),
        |a| a.second.push(0),
        |a| a.third.truncate(0),
        |a| a.own2.push(0),
        |a| a.own3.truncate(3),
        |a| a.long2.truncate(1024),
        |a| (a.own3, a.third) = (vec![0; 4097], vec![0; 4097 * 1024]),
    ];
    for (k, harm) in harms.iter().enumerate() {
        let mut c = Cabinet::small([(2, 2), (2, 2)]);
        harm(&mut c.arrays);
        for w in 0..2 {
            let answers =
                [c.load(w, &[1]), c.announce_any(w, 0, 33, 0, 2), c.withdraw(w, 0, 33), c.report(w), c.lookup(w, 0)];
            assert_eq!(answers, [2; 5], "{k}");
        }
        assert_eq!(c.make(), 2);
    }
}

/// The header step, the count and the message over a party are those of a table over its lookup and its changes.
#[test]
fn steps_counts_and_messages() {
    let mut c = Cabinet::small([(1, 1), (2, 2)]);
    c.announce(0, &to(0, 0, 6));
    c.announce(1, &to(NET, 24, 2));
    let packet = *b"\x45\x00\x00\x28\x00\x01\x40\x00\x02\x06\xaa\xc8\xc0\x00\x02\x01\x0a\x01\x02\x05";
    for (party, answer) in [(0, found(6, 1)), (1, found(2, 3))] {
        let mut p = packet;
        assert_eq!(header::step_by(|addr| c.lookup(party, addr), &mut p), answer);
        assert_eq!(p[8..12], [0x01, 0x06, 0xAB, 0xC8]);
    }
    let mut records = [HopRecord { port: 5, up: 1, packets: 0, octets: 0 }; 2];
    assert_eq!(hop_records::count(c.lookup(0, NET), &mut records, 100), 14);
    assert_eq!(hop_records::count(c.lookup(1, NET), &mut records, 100), found(2, 3) | 5 << 32);
    assert_eq!((records[1].packets, records[1].octets, records[0].packets), (1, 100, 0));
    // Two second chunks are free and the first party's limit is one.
    let reach = [0x18, 10, 1, 2, 0x18, 10, 32, 0];
    let mut first = Party { state: c.state, arrays: &mut c.arrays, party: 0 };
    assert_eq!(fields::update_by(&mut first, &[0], &reach, 9), 7 | 1 << 8 | 1 << 16 | 2 << 32);
    c.state.shares[0].count = 1;
    assert_eq!([0, 1].map(|w| c.lookup(w, NET)), [found(9, 3), found(2, 3)]);
    let mut second = Party { state: c.state, arrays: &mut c.arrays, party: 1 };
    assert_eq!(fields::update_by(&mut second, &[], &reach, 9), 2 << 16 | 2 << 32);
}
