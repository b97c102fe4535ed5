//! Directed broadcast: at the ends of routes and elsewhere, under both rules and under versions that are none.

use crate::gh::{self, Fenced};
use crate::inputs::tell;
use crate::run::Run;
use differential::broadcast::{asked_version, broadcast};
use differential::gen::{Field, Rng};
use differential::plain::{number, records, Route};

/// Asks both, and compares.
fn one(run: &mut Run, version: u32, input: &[u8], addr: u32) -> u64 {
    run.lookups += 1;
    let is = gh::broadcast(version, input, addr);
    let told = || format!("call: broadcast {addr:08x} under version {version} of {}", tell(input));
    run.answered("broadcast", is, broadcast(version, input, addr), &told);
    is
}

/// One address under both rules. Where they differ, the route has 31 bits.
fn both_rules(run: &mut Run, input: &[u8], addr: u32) {
    let (older, newer) = (one(run, 1, input, addr), one(run, 2, input, addr));
    if number(older) != 0 {
        return;
    }
    run.count("broadcast", if older == 0 { "no" } else { "yes" });
    if older != newer {
        run.count("broadcast", "older alone");
        let record = |r: &[u8]| (u32::from_be_bytes([r[0], r[1], r[2], r[3]]), r[4] as u32);
        let covers = |&(a, len): &(u32, u32)| (a ^ addr) as u64 >> (32 - len) == 0;
        let longest = input.chunks(8).map(record).filter(covers).map(|(_, len)| len).max();
        if longest != Some(31) {
            run.fault("the rules differ at another length", &|| format!("{addr:08x} of {}", tell(input)));
        }
    }
}

/// A few addresses on one input: mostly the last of a route or beside it.
pub fn ask(run: &mut Run, rng: &mut Rng, routes: &[Route], input: &Fenced<u8>) {
    for _ in 0..6 {
        let addr = if routes.is_empty() || rng.one_in(6) {
            rng.word()
        } else {
            let r = rng.pick(routes);
            let last = r.addr as u64 + (1u64 << (32 - r.len)) - 1;
            (last as u32).wrapping_add(*rng.pick(&[0, 0, 0, 1, u32::MAX]))
        };
        one(run, asked_version(rng), input, addr);
        both_rules(run, input, addr);
    }
}

/// A link of two addresses among the routes, mostly attached: both of them, and those beside it.
pub fn links(run: &mut Run, rng: &mut Rng, field: &Field, routes: &[Route]) {
    for _ in 0..4 {
        let mark = !rng.one_in(4) as u8;
        let link = Route { addr: field.addr(rng) & !1, len: 31, hop: field.hop(rng), mark };
        let mut with = routes.to_vec();
        with.retain(|r| (r.addr, r.len) != (link.addr, link.len));
        with.push(link);
        with.sort();
        let input = records(&with);
        let lent = Fenced::new(&input);
        for step in [0, 1, 2, u32::MAX] {
            both_rules(run, &lent, link.addr.wrapping_add(step));
        }
        if let Some(what) = lent.differs("input", &input) {
            run.fault(&what, &|| format!("broadcasts over {}", tell(&input)));
        }
    }
}
