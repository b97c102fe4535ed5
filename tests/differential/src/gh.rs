//! The exported functions of the proved library, as the Rust binding wraps them, and arrays to lend to them.
//!
//! Each array that the library sees stands between two fences of known words, so that a write outside it shows.

#[cfg(feature = "forward")]
use differential::hop_records::HopRecord;
use differential::plain::Lent;
use ghatumri::{raw, Geometry, TableMut, TableRef};
use std::ops::{Deref, DerefMut};

pub use raw::{basic_build, basic_lookup, basic_lookup_many, broadcast, build, route, run, tally};
pub use raw::{tree_announce, tree_lookup, tree_test, tree_withdraw};

/// A word that an array can be made of.
pub trait Word: Copy + PartialEq + std::fmt::LowerHex {
    const FENCE: Self;
}

impl Word for u8 {
    const FENCE: u8 = 0xA5;
}

impl Word for u16 {
    const FENCE: u16 = 0xA55A;
}

impl Word for u32 {
    const FENCE: u32 = 0xA55A_C33C;
}

/// An array between two fences.
pub struct Fenced<T> {
    all: Vec<T>,
    before: usize,
    len: usize,
}

const FENCE: usize = 19;

impl<T: Word> Fenced<T> {
    /// An array with this content. Its start is at an odd number of words, so it is aligned for its words and for
    /// nothing larger.
    pub fn new(content: &[T]) -> Fenced<T> {
        let mut all = vec![T::FENCE; FENCE];
        all.extend_from_slice(content);
        all.extend([T::FENCE; FENCE]);
        Fenced { all, before: FENCE, len: content.len() }
    }

    /// Takes another content, of any length.
    pub fn set(&mut self, content: &[T]) {
        if content.len() == self.len {
            self.copy_from_slice(content);
        } else {
            *self = Fenced::new(content);
        }
    }

    pub fn fence_stands(&self) -> bool {
        let fence = |part: &[T]| part.iter().all(|&x| x == T::FENCE);
        fence(&self.all[..self.before]) && fence(&self.all[self.before + self.len..])
    }

    /// The first place where the array is not as it should be.
    pub fn differs(&self, name: &str, should: &[T]) -> Option<String> {
        if !self.fence_stands() {
            return Some(format!("{name}: a word outside the array was written"));
        }
        if self[..] == *should {
            return None;
        }
        let k = (0..should.len()).find(|&k| self[k] != should[k])?;
        Some(format!("{name}[{k}] is {:x} and should be {:x} (hex)", self[k], should[k]))
    }
}

impl<T> Deref for Fenced<T> {
    type Target = [T];
    fn deref(&self) -> &[T] {
        &self.all[self.before..self.before + self.len]
    }
}

impl<T> DerefMut for Fenced<T> {
    fn deref_mut(&mut self) -> &mut [T] {
        &mut self.all[self.before..self.before + self.len]
    }
}

/// The eight arrays of a table, as lent to the library.
pub struct Eight {
    pub list: Fenced<u8>,
    pub first: Fenced<u16>,
    pub second: Fenced<u16>,
    pub third: Fenced<u16>,
    pub own2: Fenced<u32>,
    pub own3: Fenced<u32>,
    pub long1: Fenced<u16>,
    pub long2: Fenced<u16>,
}

impl Eight {
    pub fn new(lent: &Lent) -> Eight {
        Eight {
            list: Fenced::new(&lent.list),
            first: Fenced::new(&lent.first),
            second: Fenced::new(&lent.second),
            third: Fenced::new(&lent.third),
            own2: Fenced::new(&lent.own2),
            own3: Fenced::new(&lent.own3),
            long1: Fenced::new(&lent.long1),
            long2: Fenced::new(&lent.long2),
        }
    }

    fn lend(&self, p1: u32, p2: u32, count: u32) -> TableRef<'_> {
        TableRef {
            geometry: Geometry { p1, p2 },
            count,
            list: &self.list,
            first: &self.first,
            second: &self.second,
            third: &self.third,
            own2: &self.own2,
            own3: &self.own3,
            long1: &self.long1,
            long2: &self.long2,
        }
    }

    fn lend_mut(&mut self, p1: u32, p2: u32, count: u32) -> TableMut<'_> {
        TableMut {
            geometry: Geometry { p1, p2 },
            count,
            list: &mut self.list,
            first: &mut self.first,
            second: &mut self.second,
            third: &mut self.third,
            own2: &mut self.own2,
            own3: &mut self.own3,
            long1: &mut self.long1,
            long2: &mut self.long2,
        }
    }

    pub fn set(&mut self, lent: &Lent) {
        self.list.set(&lent.list);
        self.first.set(&lent.first);
        self.second.set(&lent.second);
        self.third.set(&lent.third);
        self.own2.set(&lent.own2);
        self.own3.set(&lent.own3);
        self.long1.set(&lent.long1);
        self.long2.set(&lent.long2);
    }

    pub fn differs(&self, should: &Lent) -> Option<String> {
        self.list
            .differs("list", &should.list)
            .or_else(|| self.first.differs("first", &should.first))
            .or_else(|| self.second.differs("second", &should.second))
            .or_else(|| self.third.differs("third", &should.third))
            .or_else(|| self.own2.differs("own2", &should.own2))
            .or_else(|| self.own3.differs("own3", &should.own3))
            .or_else(|| self.long1.differs("long1", &should.long1))
            .or_else(|| self.long2.differs("long2", &should.long2))
    }
}

pub fn make(p1: u32, p2: u32, t: &mut Eight) -> u64 {
    raw::make(&mut t.lend_mut(p1, p2, 0))
}

pub fn load(p1: u32, p2: u32, input: &[u8], t: &mut Eight) -> u64 {
    raw::load(&mut t.lend_mut(p1, p2, 0), input)
}

pub fn announce(p1: u32, p2: u32, count: u32, t: &mut Eight, addr: u32, len: u32, hop: u32, mark: u32) -> u64 {
    raw::announce(&mut t.lend_mut(p1, p2, count), addr, len, hop, mark)
}

pub fn withdraw(p1: u32, p2: u32, count: u32, t: &mut Eight, addr: u32, len: u32) -> u64 {
    raw::withdraw(&mut t.lend_mut(p1, p2, count), addr, len)
}

pub fn repair(p1: u32, p2: u32, count: u32, t: &mut Eight, out: &mut [u32]) -> u64 {
    raw::repair(&mut t.lend_mut(p1, p2, count), out)
}

pub fn report(p1: u32, p2: u32, count: u32, t: &Eight) -> u64 {
    raw::report(&t.lend(p1, p2, count))
}

pub fn lookup(p1: u32, p2: u32, count: u32, t: &Eight, addr: u32) -> u64 {
    raw::lookup(&t.lend(p1, p2, count), addr)
}

pub fn lookup_many(p1: u32, p2: u32, count: u32, t: &Eight, addrs: &[u32], out: &mut [u32]) -> u64 {
    raw::lookup_many(&t.lend(p1, p2, count), addrs, out)
}

#[cfg(feature = "step")]
pub fn step(p1: u32, p2: u32, count: u32, t: &Eight, packet: &mut [u8]) -> u64 {
    raw::step(&t.lend(p1, p2, count), packet)
}

#[cfg(feature = "longest")]
pub use raw::longest;

#[cfg(feature = "update")]
pub use raw::write_field;

#[cfg(feature = "update")]
pub fn update(p1: u32, p2: u32, count: u32, t: &mut Eight, withdrawn: &[u8], reach: &[u8], hop: u32) -> u64 {
    raw::update(&mut t.lend_mut(p1, p2, count), withdrawn, reach, hop)
}

#[cfg(feature = "forward")]
pub fn forward(p1: u32, p2: u32, count: u32, t: &Eight, records: &mut Records, addr: u32, octets: u32) -> u64 {
    raw::forward(&t.lend(p1, p2, count), records.lend(), addr, octets)
}

#[cfg(feature = "forward")]
pub fn count(found: u64, records: &mut Records, octets: u32) -> u64 {
    raw::count(found, records.lend(), octets)
}

/// Hop records as they are lent to the library, between two others that are up.
#[cfg(feature = "forward")]
pub struct Records(Vec<ghatumri::HopRecord>);

#[cfg(feature = "forward")]
impl Records {
    const FENCE: HopRecord = HopRecord { port: 0xA55A, up: 1, packets: 0xA55A_C33C, octets: 0xC33C_A55A };

    pub fn new(records: &[HopRecord]) -> Records {
        let lent = |&HopRecord { port, up, packets, octets }: &_| ghatumri::HopRecord { port, up, packets, octets };
        Records([&[Records::FENCE], records, &[Records::FENCE]].concat().iter().map(lent).collect())
    }

    pub fn lend(&mut self) -> &mut [ghatumri::HopRecord] {
        let end = self.0.len() - 1;
        &mut self.0[1..end]
    }

    /// The first record that is not as it should be.
    pub fn differs(&self, should: &[HopRecord]) -> Option<String> {
        let read = |r: &ghatumri::HopRecord| HopRecord { port: r.port, up: r.up, packets: r.packets, octets: r.octets };
        let should = [&[Records::FENCE], should, &[Records::FENCE]].concat();
        let k = self.0.iter().zip(&should).position(|(is, should)| read(is) != *should)?;
        if k == 0 || k == self.0.len() - 1 {
            return Some("a record outside the list was written".to_string());
        }
        Some(format!("the record of hop {k} is {:?} and should be {:?}", read(&self.0[k]), should[k]))
    }
}
