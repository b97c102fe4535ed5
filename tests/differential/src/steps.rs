//! Packets through the header step, on tables and boxes of any content.

use crate::gh::{self, Fenced};
#[cfg(feature = "pair_step")]
use crate::gh_pair;
#[cfg(feature = "pair_step")]
use crate::pair_twice::PairTwice;
use crate::run::Run;
use crate::twice::Twice;
use differential::gen::Rng;
use differential::header::{self, checksum_right, damage, destination, fresh_checksum, mended, packet};
#[cfg(feature = "pair_step")]
use differential::pair;
use differential::plain::{number, search, Route};

pub const MUST_HAPPEN: &[(&str, &str)] = &[(
    "step",
    "0, 1, 2, 5, 19, 20, 21, 22, lowered, no route, in 1, in 2, in 3, longer than a header, checksum FFFF came, \
     checksum 0000 left, 19 before 1, 20 before 2, 21 before 5, 22 before 5, 22 before no route",
)];

#[cfg(feature = "pair_step")]
pub const MUST_HAPPEN_OF_TWO: &[(&str, &str)] = &[(
    "pair_step",
    "0, 1, 2, 5, 19, 20, 21, 22, lowered, no route, in 1, in 2, in 3, 21 before 2, 22 before no route",
)];

/// What packets go through: a table, or a party of a box.
struct Router<'a> {
    name: &'static str,
    library: &'a dyn Fn(&mut [u8]) -> u64,
    plain: &'a dyn Fn(&mut [u8]) -> u64,
    /// The library's lookup in the same table.
    lookup: &'a dyn Fn(u32) -> u64,
    /// The routes that the table serves, if it is sound.
    standing: Option<&'a [Route]>,
    told: &'a dyn Fn(&str) -> String,
}

/// Packets through a table, to some of these addresses.
pub fn ask(run: &mut Run, rng: &mut Rng, t: &Twice, addrs: &[u32]) {
    let router = Router {
        name: "step",
        library: &|packet| gh::step(t.p1, t.p2, t.count, &t.library, packet),
        plain: &|packet| header::step(t.p1, t.p2, t.count, &t.plain, packet),
        lookup: &|addr| gh::lookup(t.p1, t.p2, t.count, &t.library, addr),
        standing: t.standing.as_deref(),
        told: &|call| t.tell(call),
    };
    router.ask(run, rng, addrs);
    if let Some(what) = t.library.differs(&t.plain) {
        run.fault(&what, &|| t.tell("steps"));
    }
}

/// Packets through a party of a box, to some of these addresses.
#[cfg(feature = "pair_step")]
pub fn ask_party(run: &mut Run, rng: &mut Rng, t: &PairTwice, party: u32, addrs: &[u32]) {
    let router = Router {
        name: "pair_step",
        library: &|packet| gh_pair::step(&t.state, &t.library, party, packet),
        plain: &|packet| header::step_by(|addr| pair::lookup(&t.state, &t.plain, party, addr), packet),
        lookup: &|addr| gh_pair::lookup(&t.state, &t.library, party, addr),
        standing: t.standing.as_ref().map(|both| &both[pair::party_of(party)][..]),
        told: &|call| t.tell(party, call),
    };
    router.ask(run, rng, addrs);
    if let Some(what) = t.library.differs(&t.plain) {
        run.fault(&what, &|| t.tell(party, "steps"));
    }
}

impl Router<'_> {
    /// Right packets and others.
    fn ask(&self, run: &mut Run, rng: &mut Rng, addrs: &[u32]) {
        for _ in 0..4 {
            let addr = self.address(rng, addrs);
            let mut packet = packet(rng, addr);
            if rng.one_in(3) {
                damage(rng, &mut packet);
            }
            self.one(run, &packet);
        }
    }

    /// One of these addresses; in a table that is not sound preferably one whose walk breaks off.
    fn address(&self, rng: &mut Rng, addrs: &[u32]) -> u32 {
        let drawn = [(); 8].map(|()| if addrs.is_empty() { rng.word() } else { *rng.pick(addrs) });
        let broken = |addr: &&u32| number((self.lookup)(**addr)) == 5;
        let preferred = if self.standing.is_none() { drawn.iter().find(broken) } else { None };
        *preferred.unwrap_or(&drawn[0])
    }

    /// One packet in both, and what then holds of it.
    fn one(&self, run: &mut Run, packet: &[u8]) {
        run.lookups += 1;
        let mut should = packet.to_vec();
        let mut lent = Fenced::new(packet);
        let is = (self.library)(&mut lent);
        let told = || (self.told)(&format!("Step({packet:02x?})"));
        run.answered(self.name, is, (self.plain)(&mut should), &told);
        if let Some(what) = lent.differs("packet", &should) {
            run.fault(&what, &told);
        }
        if number(is) != 0 || is >> 16 == 0 {
            if lent[..] != *packet {
                run.fault("without a hop the packet is as it was", &told);
            }
        } else if let Some(what) = wrong(packet, &lent) {
            run.fault(what, &told);
        }
        if let (0, Some(routes)) = (number(is), self.standing) {
            if is >> 16 != search(routes, destination(packet)) as u64 {
                run.fault("a linear search over the standing routes finds another hop", &told);
            }
        }
        self.labels(run, packet, &lent, is);
    }

    fn labels(&self, run: &mut Run, was: &[u8], is: &[u8], answer: u64) {
        let mut count = |label: &str| run.count(self.name, label);
        match number(answer) {
            0 if answer >> 16 == 0 => count("no route"),
            0 => {
                count("lowered");
                count(&format!("in {}", answer >> 8 & 0xFF));
                if was.len() > header::HEADER {
                    count("longer than a header");
                }
                if was[10..12] == [0xFF, 0xFF] {
                    count("checksum FFFF came");
                }
                if is[10..12] == [0, 0] && fresh_checksum(was) != 0 {
                    count("checksum 0000 left");
                }
            }
            n @ 19..=22 => {
                let addr = if was.len() < header::HEADER { 0 } else { destination(was) };
                match (self.lookup)(addr) {
                    found if number(found) != 0 => count(&format!("{n} before {found}")),
                    found if found >> 16 == 0 => count(&format!("{n} before no route")),
                    _ => {}
                }
            }
            _ => {}
        }
    }
}

/// What is wrong with a packet that was passed on, by the words of the request.
fn wrong(was: &[u8], is: &[u8]) -> Option<&'static str> {
    let half = |packet: &[u8], k: usize| u16::from_be_bytes([packet[k], packet[k + 1]]);
    if (0..was.len()).any(|k| was[k] != is[k] && ![8, 10, 11].contains(&k)) {
        return Some("another byte than the time to live and the checksum differs");
    }
    if is[8] != was[8] - 1 {
        return Some("the time to live is not one less");
    }
    if !checksum_right(is) || half(is, 10) != mended(half(was, 10), half(was, 8), half(is, 8)) {
        return Some("the checksum is not the one of RFC 1624");
    }
    None
}
