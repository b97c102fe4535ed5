//! Packets forwarded and counted, on tables, boxes and records of any content.

use crate::gh::{self, Records};
#[cfg(feature = "pair_forward")]
use crate::gh_pair;
#[cfg(feature = "pair_forward")]
use crate::pair_twice::PairTwice;
use crate::run::Run;
use crate::twice::Twice;
use differential::gen::Rng;
use differential::hop_records::{self as plain, counter32, HopRecord};
#[cfg(feature = "pair_forward")]
use differential::pair;
use differential::plain::number;

pub const MUST_HAPPEN: &[(&str, &str)] = &[
    (
        "forward",
        "0, 1, 2, 5, 14, 15, counted, no route, packets wrap, octets wrap, last record, no records, twice in a run",
    ),
    ("count", "0, 1, 2, 5, 13, 14, 15, 19, 22, counted, no route, last record"),
];

#[cfg(feature = "pair_forward")]
pub const MUST_HAPPEN_OF_TWO: &[(&str, &str)] =
    &[("pair_forward", "0, 1, 2, 5, 14, 15, counted, no route, octets wrap, last record, no records")];

/// Hop records held twice, and what has been counted on them by the accepted calls alone.
struct Counted {
    plain: Vec<HopRecord>,
    library: Records,
    before: Vec<HopRecord>,
    /// For each record the packets that went to it, and their octets.
    went: Vec<(u64, u64)>,
}

impl Counted {
    fn new(records: Vec<HopRecord>) -> Counted {
        let went = vec![(0, 0); records.len()];
        Counted { library: Records::new(&records), before: records.clone(), plain: records, went }
    }

    /// After a call of both: the answers and every record are compared, and the packet is accounted for.
    fn compare(
        &mut self,
        run: &mut Run,
        name: &'static str,
        is: u64,
        should: u64,
        octets: u32,
        told: &dyn Fn() -> String,
    ) {
        run.lookups += 1;
        run.answered(name, is, should, told);
        if let Some(what) = self.library.differs(&self.plain) {
            run.fault(&what, told);
        }
        let hop = (is >> 16) as u16 as usize;
        match number(is) {
            0 if hop == 0 => run.count(name, "no route"),
            0 => {
                run.count(name, "counted");
                let (packets, sum) = &mut self.went[hop - 1];
                (*packets, *sum) = (*packets + 1, *sum + octets as u64);
                let (packets, sum) = (*packets, *sum);
                self.labels(run, name, hop, packets, sum);
            }
            14 if self.plain.is_empty() => run.count(name, "no records"),
            _ => {}
        }
    }

    fn labels(&self, run: &mut Run, name: &'static str, hop: usize, packets: u64, octets: u64) {
        let before = &self.before[hop - 1];
        if before.packets as u64 + packets == 1 << 32 {
            run.count(name, "packets wrap");
        }
        if before.octets as u64 + octets >= 1 << 32 {
            run.count(name, "octets wrap");
        }
        if hop == self.plain.len() {
            run.count(name, "last record");
        }
        if packets == 2 {
            run.count(name, "twice in a run");
        }
    }

    /// Over the whole run: each record has what went to it and no more, and ports and marks are as they were.
    fn totals(&self, run: &Run, told: &dyn Fn() -> String) {
        for ((was, is), (packets, octets)) in self.before.iter().zip(&self.plain).zip(&self.went) {
            let should =
                HopRecord { packets: counter32(was.packets, *packets), octets: counter32(was.octets, *octets), ..*was };
            if *is != should {
                run.fault(&format!("after the run a record is {is:?} and should be {should:?}"), told);
            }
        }
    }
}

/// What packets are forwarded by: a table, or a party of a box.
struct Router<'a> {
    name: &'static str,
    library: &'a dyn Fn(&mut Records, u32, u32) -> u64,
    plain: &'a dyn Fn(&mut [HopRecord], u32, u32) -> u64,
    /// The library's lookup in the same table.
    lookup: &'a dyn Fn(u32) -> u64,
    told: &'a dyn Fn(&str) -> String,
}

/// A run of packets through a table, to some of these addresses.
pub fn ask(run: &mut Run, rng: &mut Rng, t: &Twice, addrs: &[u32]) {
    let router = Router {
        name: "forward",
        library: &|records, addr, octets| gh::forward(t.p1, t.p2, t.count, &t.library, records, addr, octets),
        plain: &|records, addr, octets| plain::forward(t.p1, t.p2, t.count, &t.plain, records, addr, octets),
        lookup: &|addr| gh::lookup(t.p1, t.p2, t.count, &t.library, addr),
        told: &|call| t.tell(call),
    };
    router.ask(run, rng, addrs);
    if let Some(what) = t.library.differs(&t.plain) {
        run.fault(&what, &|| t.tell("a run of packets"));
    }
}

/// A run of packets through a party of a box.
#[cfg(feature = "pair_forward")]
pub fn ask_party(run: &mut Run, rng: &mut Rng, t: &PairTwice, party: u32, addrs: &[u32]) {
    let router = Router {
        name: "pair_forward",
        library: &|records, addr, octets| gh_pair::forward(&t.state, &t.library, party, records, addr, octets),
        plain: &|records, addr, octets| plain::count(pair::lookup(&t.state, &t.plain, party, addr), records, octets),
        lookup: &|addr| gh_pair::lookup(&t.state, &t.library, party, addr),
        told: &|call| t.tell(party, call),
    };
    router.ask(run, rng, addrs);
    if let Some(what) = t.library.differs(&t.plain) {
        run.fault(&what, &|| t.tell(party, "a run of packets"));
    }
}

impl Router<'_> {
    /// Packets forwarded, and packets counted on what was found.
    fn ask(&self, run: &mut Run, rng: &mut Rng, addrs: &[u32]) {
        let mut counted = Counted::new(plain::records(rng));
        for _ in 0..10 {
            let addr = if addrs.is_empty() { rng.word() } else { *rng.pick(addrs) };
            let octets = plain::octets(rng);
            if rng.one_in(3) {
                let found = if rng.one_in(3) { (self.lookup)(addr) } else { plain::found(rng) };
                let is = gh::count(found, &mut counted.library, octets);
                let should = plain::count(found, &mut counted.plain, octets);
                counted.compare(run, "count", is, should, octets, &|| format!("call: Count({found:016x}, {octets})"));
            } else {
                let is = (self.library)(&mut counted.library, addr, octets);
                let should = (self.plain)(&mut counted.plain, addr, octets);
                let told = || (self.told)(&format!("Forward({addr:08x}, {octets})"));
                counted.compare(run, self.name, is, should, octets, &told);
            }
        }
        counted.totals(run, &|| (self.told)("a run of packets"));
    }
}
