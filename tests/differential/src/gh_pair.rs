//! The library's calls on a box of two parties, as the Rust binding wraps them, and arrays to lend to them.

use crate::gh::Fenced;
#[cfg(feature = "pair_forward")]
use crate::gh::Records;
use differential::pair::{Arrays, Own, Share, State};
use ghatumri::{raw, Geometry, Limits, OwnMut, OwnRef, PairMut, PairRef};

/// What a party has for itself, as lent to the library.
struct Three {
    list: Fenced<u8>,
    first: Fenced<u16>,
    long1: Fenced<u16>,
}

impl Three {
    fn new(own: &Own) -> Three {
        let Own { list, first, long1 } = own;
        Three { list: Fenced::new(list), first: Fenced::new(first), long1: Fenced::new(long1) }
    }

    fn set(&mut self, own: &Own) {
        self.list.set(&own.list);
        self.first.set(&own.first);
        self.long1.set(&own.long1);
    }

    fn lend(&self, share: &Share) -> OwnRef<'_> {
        OwnRef {
            count: share.count,
            limits: limits(share),
            list: &self.list,
            first: &self.first,
            long1: &self.long1,
        }
    }

    fn lend_mut(&mut self, share: &Share) -> OwnMut<'_> {
        OwnMut {
            count: share.count,
            limits: limits(share),
            list: &mut self.list,
            first: &mut self.first,
            long1: &mut self.long1,
        }
    }

    fn differs(&self, names: [&str; 3], should: &Own) -> Option<String> {
        self.list
            .differs(names[0], &should.list)
            .or_else(|| self.first.differs(names[1], &should.first))
            .or_else(|| self.long1.differs(names[2], &should.long1))
    }
}

/// The eleven arrays of a box, as lent to the library.
pub struct Eleven {
    own: [Three; 2],
    second: Fenced<u16>,
    third: Fenced<u16>,
    own2: Fenced<u32>,
    own3: Fenced<u32>,
    long2: Fenced<u16>,
}

impl Eleven {
    pub fn new(a: &Arrays) -> Eleven {
        Eleven {
            own: [Three::new(&a.own[0]), Three::new(&a.own[1])],
            second: Fenced::new(&a.second),
            third: Fenced::new(&a.third),
            own2: Fenced::new(&a.own2),
            own3: Fenced::new(&a.own3),
            long2: Fenced::new(&a.long2),
        }
    }

    pub fn set(&mut self, a: &Arrays) {
        for (three, own) in self.own.iter_mut().zip(&a.own) {
            three.set(own);
        }
        self.second.set(&a.second);
        self.third.set(&a.third);
        self.own2.set(&a.own2);
        self.own3.set(&a.own3);
        self.long2.set(&a.long2);
    }

    pub fn differs(&self, should: &Arrays) -> Option<String> {
        self.own[0]
            .differs(["list1", "first1", "long11"], &should.own[0])
            .or_else(|| self.own[1].differs(["list2", "first2", "long12"], &should.own[1]))
            .or_else(|| self.second.differs("second", &should.second))
            .or_else(|| self.third.differs("third", &should.third))
            .or_else(|| self.own2.differs("own2", &should.own2))
            .or_else(|| self.own3.differs("own3", &should.own3))
            .or_else(|| self.long2.differs("long2", &should.long2))
    }

    fn lend(&self, s: &State) -> PairRef<'_> {
        let [one, two] = &self.own;
        PairRef {
            geometry: Geometry { p1: s.p1, p2: s.p2 },
            one: one.lend(&s.shares[0]),
            two: two.lend(&s.shares[1]),
            second: &self.second,
            third: &self.third,
            own2: &self.own2,
            own3: &self.own3,
            long2: &self.long2,
        }
    }

    fn lend_mut(&mut self, s: &State) -> PairMut<'_> {
        let [one, two] = &mut self.own;
        PairMut {
            geometry: Geometry { p1: s.p1, p2: s.p2 },
            one: one.lend_mut(&s.shares[0]),
            two: two.lend_mut(&s.shares[1]),
            second: &mut self.second,
            third: &mut self.third,
            own2: &mut self.own2,
            own3: &mut self.own3,
            long2: &mut self.long2,
        }
    }
}

fn limits(share: &Share) -> Limits {
    Limits { second: share.most2, third: share.most3 }
}

pub fn make(s: &State, t: &mut Eleven) -> u64 {
    raw::pair_make(&mut t.lend_mut(s))
}

pub fn load(s: &State, t: &mut Eleven, party: u32, input: &[u8]) -> u64 {
    raw::pair_load(&mut t.lend_mut(s), party, input)
}

pub fn announce(s: &State, t: &mut Eleven, party: u32, addr: u32, len: u32, hop: u32, mark: u32) -> u64 {
    raw::pair_announce(&mut t.lend_mut(s), party, addr, len, hop, mark)
}

pub fn withdraw(s: &State, t: &mut Eleven, party: u32, addr: u32, len: u32) -> u64 {
    raw::pair_withdraw(&mut t.lend_mut(s), party, addr, len)
}

pub fn report(s: &State, t: &Eleven, party: u32) -> u64 {
    raw::pair_report(&t.lend(s), party)
}

pub fn lookup(s: &State, t: &Eleven, party: u32, addr: u32) -> u64 {
    raw::pair_lookup(&t.lend(s), party, addr)
}

#[cfg(feature = "pair_step")]
pub fn step(s: &State, t: &Eleven, party: u32, packet: &mut [u8]) -> u64 {
    raw::pair_step(&t.lend(s), party, packet)
}

#[cfg(feature = "pair_forward")]
pub fn forward(s: &State, t: &Eleven, party: u32, records: &mut Records, addr: u32, octets: u32) -> u64 {
    raw::pair_forward(&t.lend(s), party, records.lend(), addr, octets)
}

#[cfg(feature = "pair_update")]
pub fn update(s: &State, t: &mut Eleven, party: u32, withdrawn: &[u8], reach: &[u8], hop: u32) -> u64 {
    raw::pair_update(&mut t.lend_mut(s), party, withdrawn, reach, hop)
}
