//! Sequences of calls on tables: routes come and go, arrays are damaged and put right, sizes and geometries are wrong.

use crate::damage::{renumber, Harm};
use crate::parts::CHANGES;
use crate::run::Run;
use crate::twice::{used, Call, Twice};
use differential::gen::{
    asked_hop, asked_loose_prefix, asked_mark, cut, damaged_input, loose, mark, spread, tidy, wide, Field, Rng,
};
use differential::plain::{geometry_ok, need, number, records, size2, size3, Lent, Route};
use differential::repair::memory_fault;

/// All geometries, the cheap and the named ones more often.
pub fn geometry(rng: &mut Rng) -> (u32, u32) {
    if rng.one_in(3) {
        loop {
            let (p1, p2) = (rng.range(12, 16) as u32, rng.range(22, 26) as u32);
            if geometry_ok(p1, p2) {
                return (p1, p2);
            }
        }
    }
    *rng.pick(&[(12, 22), (12, 22), (12, 22), (16, 24), (13, 23), (13, 22), (14, 24), (16, 26)])
}

/// Room and pools, mostly so small that they fill.
pub fn sizes(rng: &mut Rng) -> (usize, usize, usize) {
    let room = match rng.below(12) {
        0 => rng.range(0, 2),
        1..=5 => rng.range(3, 12),
        6..=8 => rng.range(12, 40),
        _ => rng.range(40, 160),
    };
    let pool = |rng: &mut Rng| match rng.below(10) {
        0 => 0,
        1 => 1,
        2..=4 if room < 40 => rng.range(1, 3),
        5..=8 => rng.range(2, 8),
        _ => rng.range(8, 24),
    };
    (room, pool(rng), pool(rng))
}

/// Fills the arrays with what a caller may have left there.
fn litter(rng: &mut Rng, t: &mut Lent) {
    let zero = rng.one_in(3);
    let mut word = || if zero { 0 } else { rng.word() };
    t.list.fill_with(|| word() as u8);
    t.first.fill_with(|| word() as u16);
    t.second.fill_with(|| word() as u16);
    t.third.fill_with(|| word() as u16);
    t.long1.fill_with(|| word() as u16);
    t.long2.fill_with(|| word() as u16);
    t.own2.fill_with(&mut word);
    t.own3.fill_with(&mut word);
}

/// A route to announce: a new one, a standing one with another hop, or with another mark alone, one that nests with a
/// standing one, a bad one. One in three has loose bits after its length.
pub fn to_announce(rng: &mut Rng, field: &Field, standing: &[Route]) -> Call {
    if !standing.is_empty() && rng.one_in(16) {
        let r = rng.pick(standing);
        return Call::Announce(r.addr, r.len as u32, r.hop as u32, 1 - r.mark as u32);
    }
    let (addr, len) = match rng.below(12) {
        0 | 1 if !standing.is_empty() => {
            let r = rng.pick(standing);
            (r.addr, r.len as u32)
        }
        2 | 3 => asked_loose_prefix(rng, field, standing),
        4 if !standing.is_empty() => {
            // A short route over standing ones, announced late.
            let r = *rng.pick(standing);
            let len = rng.below(r.len as usize + 1) as u32;
            (cut(r.addr, len), len)
        }
        _ => {
            let r = field.route(rng);
            (r.addr, r.len as u32)
        }
    };
    let addr = if rng.one_in(3) { loose(rng, addr, len) } else { addr };
    let (hop, mark) = (asked_hop(rng, field), asked_mark(rng));
    let hop = if rng.one_in(24) { wide(rng, hop & 0x7FFF, 16) } else { hop };
    let mark = if rng.one_in(24) { wide(rng, mark & 1, 8) } else { mark };
    Call::Announce(addr, len, hop, mark)
}

pub fn to_withdraw(rng: &mut Rng, field: &Field, standing: &[Route]) -> Call {
    if standing.is_empty() || rng.one_in(6) {
        let (addr, len) = asked_loose_prefix(rng, field, standing);
        return Call::Withdraw(addr, len);
    }
    let r = rng.pick(standing);
    let addr = if rng.one_in(3) { loose(rng, r.addr, r.len as u32) } else { r.addr };
    Call::Withdraw(addr, r.len as u32)
}

/// Records to load into a list of this room: standing ones, or others.
pub fn to_load(rng: &mut Rng, field: &Field, room: usize, standing: &[Route]) -> Call {
    let n = match rng.below(4) {
        0 => rng.range(0, room),
        1 => room + rng.range(0, 2),
        _ => rng.range(0, 12),
    };
    let mut routes = if !standing.is_empty() && rng.one_in(3) { standing.to_vec() } else { field.routes(rng, n) };
    if rng.one_in(4) {
        // Enough long routes to want more chunks than there are.
        for _ in 0..rng.range(1, 6) {
            let len = *rng.pick(&[field.p1 + 1, field.p2, field.p2 + 1, 32]);
            routes.push(Route { addr: cut(rng.word(), len), len: len as u8, hop: field.hop(rng), mark: mark(rng) });
        }
        tidy(&mut routes);
    }
    let input = if rng.one_in(4) { damaged_input(rng, &routes) } else { records(&routes) };
    Call::Load(input)
}

/// A repair, now and then with another number of words than it must have.
fn to_repair(rng: &mut Rng) -> Call {
    Call::Repair(if rng.one_in(12) { *rng.pick(&[0, 3, 5]) } else { 4 })
}

/// Any call, also where the table is not sound.
fn any_call(rng: &mut Rng, field: &Field, t: &Twice, standing: &[Route]) -> Call {
    match rng.below(14) {
        0..=3 => to_announce(rng, field, standing),
        4..=6 => to_withdraw(rng, field, standing),
        7 | 8 => Call::Report,
        12 | 13 => to_repair(rng),
        9 => {
            // From sixteen addresses on the library takes them by turns.
            let n = rng.range(0, 40);
            let room = if rng.one_in(3) { rng.range(0, 41) } else { n };
            Call::LookupMany((0..n).map(|_| field.addr(rng)).collect(), room)
        }
        10 => to_load(rng, field, t.plain.room(), standing),
        _ => Call::Make,
    }
}

pub fn episode(run: &mut Run, rng: &mut Rng) {
    let (p1, p2) = geometry(rng);
    let (mut room, mut second, mut third) = sizes(rng);
    let field = Field::new(rng, p1, p2);
    // Now and then exactly what some routes need: once they stand, all is full.
    let mut filling = Vec::new();
    if rng.one_in(5) {
        filling = field.routes(rng, 12);
        (room, second, third) = (filling.len(), need(&filling, p1), need(&filling, p2));
    }
    let mut lent = Lent::new(p1, p2, room, second, third);
    litter(rng, &mut lent);
    let mut t = Twice::new(p1, p2, rng.below(room + 2) as u32, lent);
    if rng.one_in(3) {
        for _ in 0..3 {
            let call = any_call(rng, &field, &t, &[]);
            t.step(run, &call);
        }
        t.look_around(run, rng, 40);
    }
    let begin = if rng.one_in(3) { to_load(rng, &field, room, &[]) } else { Call::Make };
    t.step(run, &begin);
    if t.standing.is_none() {
        t.step(run, &Call::Make);
    }
    if !filling.is_empty() {
        t.step(run, &Call::Make);
        while !filling.is_empty() {
            let r = filling.swap_remove(rng.below(filling.len()));
            t.step(run, &Call::Announce(r.addr, r.len as u32, r.hop as u32, r.mark as u32));
        }
    }
    let mut growing = true;
    for _ in 0..rng.range(20, 140) {
        if rng.one_in(14) {
            growing = !growing;
        }
        one_step(run, rng, &field, &mut t, growing);
    }
    t.look_around(run, rng, 700);
    t.against_fresh_load(run);
}

fn one_step(run: &mut Run, rng: &mut Rng, field: &Field, t: &mut Twice, growing: bool) {
    let standing = t.standing.clone().expect("between steps the table is sound");
    match rng.below(100 + 12 * CHANGES.len()) {
        100.. => CHANGES[rng.below(CHANGES.len())](run, rng, field, t),
        0..=57 => {
            // Mostly announcing, then mostly withdrawing, so that the table fills and empties.
            let call = if rng.below(10) < if growing { 8 } else { 3 } {
                to_announce(rng, field, &standing)
            } else {
                to_withdraw(rng, field, &standing)
            };
            t.step(run, &call);
        }
        58..=61 => {
            t.step(run, &Call::Report);
        }
        62..=68 => t.look_around(run, rng, 160),
        69..=71 => {
            let call = to_load(rng, field, t.plain.room(), &standing);
            t.step(run, &call);
        }
        72 => {
            t.step(run, &Call::Make);
        }
        73..=76 => {
            if renumber(rng, t.p1, t.p2, &mut t.plain) {
                run.count("table", "chunks renumbered");
                t.look_again();
                assert!(t.standing.is_some(), "other numbers leave a table sound");
                t.step(run, &Call::Report);
            }
        }
        77..=90 => damaged(run, rng, field, t, &standing),
        91..=94 => other_sizes(run, rng, field, t, &standing),
        95..=97 => other_geometry(run, rng, field, t, &standing),
        _ => {
            // A sure refusal in each of the orders that the document fixes.
            let r = field.route(rng);
            let bad_len = *rng.pick(&[33, 64, 255, 256, 280, u32::MAX]);
            let bad_hop = *rng.pick(&[0, 32_768, 65_536, 65_580, u32::MAX]);
            let bad_mark = *rng.pick(&[2, 255, 256, 257, u32::MAX]);
            for call in [
                Call::Announce(r.addr, bad_len, bad_hop, bad_mark),
                Call::Announce(r.addr, r.len as u32, bad_hop, bad_mark),
                Call::Announce(r.addr, r.len as u32, r.hop as u32, bad_mark),
                Call::Withdraw(r.addr, bad_len),
            ] {
                t.step(run, &call);
            }
        }
    }
}

/// Damages the arrays or the count at one to three places, makes some calls, and puts the table right again: as it
/// was, by a repair, or by a load or a make, which read nothing of it.
fn damaged(run: &mut Run, rng: &mut Rng, field: &Field, t: &mut Twice, standing: &[Route]) {
    let (good, count) = (t.plain.clone(), t.count);
    for _ in 0..*rng.pick(&[1, 1, 1, 1, 2, 3]) {
        Harm { p1: t.p1, p2: t.p2, count: &mut t.count, t: &mut t.plain }.one(rng);
    }
    t.look_again();
    if t.plain != good || t.count != count {
        run.count("table", if t.standing.is_some() { "damaged and sound" } else { "damaged and not sound" });
    }
    // Calls that need soundness: one of them would change the table if the damage were not seen.
    t.step(run, &Call::Report);
    let call = if rng.one_in(2) { to_announce(rng, field, standing) } else { to_withdraw(rng, field, standing) };
    t.step(run, &call);
    for change in CHANGES {
        change(run, rng, field, t);
    }
    if rng.one_in(3) {
        t.look_around(run, rng, 60);
    }
    match rng.below(8) {
        0 => {
            let call = to_load(rng, field, t.plain.room(), standing);
            t.step(run, &call);
        }
        1 => {
            t.step(run, &Call::Make);
        }
        2..=5 => {
            // Of harm for this very call, too; and a second time, which finds nothing.
            if rng.one_in(2) {
                let harmed = memory_fault(rng, t.p1, t.p2, &mut t.count, &mut t.plain);
                run.count("repair", harmed);
                t.look_again();
            } else if rng.one_in(4) && 8 * t.plain.room() == t.plain.list.len() {
                // A list of other routes, which may want more chunks than there are.
                let other = records(&field.routes(rng, t.plain.room()));
                let n = other.len().min(t.plain.list.len());
                t.plain.list[..n].copy_from_slice(&other[..n]);
                t.count = n as u32 / 8;
                t.look_again();
            }
            let call = to_repair(rng);
            t.step(run, &call);
            t.step(run, &Call::Repair(4));
            t.step(run, &Call::Report);
        }
        _ => {}
    }
    if t.standing.is_none() || rng.one_in(2) {
        t.plain = good;
        t.count = count;
        t.look_again();
    }
}

/// Some calls on a table beside the one at hand.
fn odd_calls(run: &mut Run, rng: &mut Rng, field: &Field, mut odd: Twice, standing: &[Route]) {
    for _ in 0..rng.range(2, 5) {
        let call = match rng.below(8) {
            0 => Call::Make,
            1 => Call::Load(records(standing)),
            2 => Call::Announce(1, 8, 0, 2),
            3 => Call::Withdraw(1, 8),
            _ => any_call(rng, field, &odd, standing),
        };
        odd.step(run, &call);
        let addr = field.addr(rng);
        odd.look(run, addr);
        odd.ask(run, rng, &[addr]);
        for change in CHANGES {
            change(run, rng, field, &mut odd);
        }
    }
}

/// A length near this one, or far from it.
pub fn near(rng: &mut Rng, len: usize, step: usize) -> usize {
    match rng.below(8) {
        0 => len + 1,
        1 => len.saturating_sub(1),
        2 => len + step,
        3 => len.saturating_sub(step),
        4 => 0,
        5 => 2 * len,
        6 => len / 2,
        _ => rng.below(2 * len + 2),
    }
}

/// One array has another length. Now and then the lengths fit again, and the table may even be sound.
fn other_sizes(run: &mut Run, rng: &mut Rng, field: &Field, t: &Twice, standing: &[Route]) {
    let mut lent = t.plain.clone();
    let (size2, size3) = (size2(t.p1, t.p2), size3(t.p2));
    match rng.below(14) {
        0 | 1 => {
            let n = near(rng, lent.list.len(), 8);
            lent.list.resize(n, 0);
        }
        2 => {
            let n = 8 * *rng.pick(&[4096, 4097, 5000]);
            lent.list.resize(n, 0);
        }
        3 => {
            let n = near(rng, lent.first.len(), 256);
            lent.first.resize(n, 0x8000);
        }
        4 => {
            let n = near(rng, lent.second.len(), size2);
            lent.second.resize(n, 0);
        }
        5 => {
            let n = near(rng, lent.third.len(), size3);
            lent.third.resize(n, 0);
        }
        6 => {
            let n = near(rng, lent.own2.len(), 2);
            lent.own2.resize(n, 0);
        }
        7 => {
            let n = near(rng, lent.own3.len(), 2);
            lent.own3.resize(n, 0);
        }
        8 => {
            // A pool of another size, in good order.
            let n = near(rng, lent.own2.len(), 2);
            lent.own2.resize(n, 0);
            lent.second.resize(n * size2, 0);
            lent.long2.resize(n * size2, 0);
        }
        9 => {
            let n = near(rng, lent.own3.len(), 2);
            lent.own3.resize(n, 0);
            lent.third.resize(n * size3, 0);
        }
        10 => {
            // One chunk too many, or as many as may be.
            let n = rng.range(4096, 4097);
            if rng.one_in(2) {
                lent.own2.resize(n, 0);
                lent.second.resize(n * size2, 0);
                lent.long2.resize(n * size2, 0);
            } else {
                lent.own3.resize(n, 0);
                lent.third.resize(n * size3, 0);
            }
        }
        11 => {
            let n = near(rng, lent.long1.len(), 2);
            lent.long1.resize(n, 0);
        }
        12 => {
            let n = near(rng, lent.long2.len(), size2);
            lent.long2.resize(n, 0);
        }
        _ => {
            std::mem::swap(&mut lent.second, &mut lent.third);
            if rng.one_in(2) {
                std::mem::swap(&mut lent.own2, &mut lent.own3);
            }
        }
    }
    odd_calls(run, rng, field, Twice::new(t.p1, t.p2, t.count, lent), standing);
}

/// A geometry near this one, or far from it. Some are inside the limits.
pub fn near_geometry(rng: &mut Rng, p1: u32, p2: u32) -> (u32, u32) {
    match rng.below(8) {
        0 => (p1 - 1, p2),
        1 => (p1 + 1, p2),
        2 => (p1, p2 - 1),
        3 => (p1, p2 + 1),
        4 => (p2, p1),
        5 => (rng.range(0, 40) as u32, rng.range(0, 40) as u32),
        6 => (rng.word(), rng.word()),
        _ => *rng.pick(&[(0, 0), (u32::MAX, u32::MAX), (p1 + 32, p2 + 32), (p1, p2 | 1 << 31), (32, 32)]),
    }
}

/// Another geometry over the same arrays, or a wrong one over arrays that would fit it.
fn other_geometry(run: &mut Run, rng: &mut Rng, field: &Field, t: &Twice, standing: &[Route]) {
    if rng.one_in(2) {
        let (p1, p2) = near_geometry(rng, t.p1, t.p2);
        odd_calls(run, rng, field, Twice::new(p1, p2, t.count, t.plain.clone()), standing);
    } else {
        let (p1, p2) = *rng.pick(&[
            (11, 21),
            (11, 22),
            (12, 23),
            (12, 21),
            (13, 24),
            (14, 25),
            (15, 26),
            (16, 27),
            (17, 26),
            (17, 27),
        ]);
        let mut lent = Lent::new(p1, p2, rng.range(0, 4), rng.range(0, 2), rng.range(0, 2));
        lent.first.fill(0x8000);
        odd_calls(run, rng, field, Twice::new(p1, p2, 0, lent), standing);
    }
}

/// Full-sized tables: 4,096 records of room and pools up to 4,096 chunks. Few calls, since each is long.
pub fn large(run: &mut Run, rng: &mut Rng, kind: u64) {
    let (p1, p2, second, third, mut routes) = match kind % 3 {
        0 => {
            // Every second and every third chunk is wanted: one long route under each first cell.
            let routes: Vec<Route> = (0..4096u32)
                .map(|i| Route {
                    addr: i << 20 | (rng.word() >> 12),
                    len: 32,
                    hop: rng.range(1, 99) as u16,
                    mark: mark(rng),
                })
                .collect();
            (12, 22, 4096, 4096, routes)
        }
        1 => (16, 24, 4096, 600, spread(rng, 4095)),
        _ => {
            // Close together: many routes in few chunks.
            let near = rng.word();
            let mut routes: Vec<Route> = (0..4096)
                .map(|_| {
                    let len = rng.range(17, 32) as u32;
                    let keep = rng.range(12, 20) as u32;
                    let addr = cut(near, keep) | (rng.word() & !cut(u32::MAX, keep));
                    Route { addr: cut(addr, len), len: len as u8, hop: rng.range(1, 9) as u16, mark: mark(rng) }
                })
                .collect();
            tidy(&mut routes);
            (16, 26, 700, 4096, routes)
        }
    };
    let field = Field::new(rng, p1, p2);
    let mut t = Twice::new(p1, p2, 0, Lent::new(p1, p2, 4096, second, third));
    let answer = t.step(run, &Call::Load(records(&routes)));
    if number(answer) != 0 {
        // Too much for these pools: fewer routes.
        routes.truncate(500);
        t.step(run, &Call::Load(records(&routes)));
    }
    for (label, n) in [
        ("4096 second chunks", used(&t.plain.own2)),
        ("4096 third chunks", used(&t.plain.own3)),
        ("4096 routes", t.count as usize),
    ] {
        if n == 4096 {
            run.count("table", label);
        }
    }
    t.step(run, &Call::Report);
    // Every edge once; a linear search over so many routes is long.
    t.look_around(run, rng, if kind % 3 == 1 { usize::MAX } else { 1500 });
    for k in 0..8 {
        let standing = t.standing.clone().unwrap_or_default();
        let call = match k % 4 {
            0 => to_announce(rng, &field, &standing),
            1 => to_withdraw(rng, &field, &standing),
            2 => {
                let r = *rng.pick(&standing);
                Call::Withdraw(r.addr, r.len as u32)
            }
            _ => {
                // Room and chunks were just freed.
                let r = *rng.pick(&standing);
                Call::Announce(r.addr ^ 1 << (32 - p1), 32, 7, 1)
            }
        };
        t.step(run, &call);
    }
    let count = t.count;
    Harm { p1, p2, count: &mut t.count, t: &mut t.plain }.one(rng);
    t.look_again();
    t.step(run, &Call::Report);
    if rng.one_in(2) {
        t.step(run, &Call::Repair(4));
        t.step(run, &Call::Report);
    }
    t.count = count;
    t.step(run, &Call::Load(records(&routes[..routes.len() / 2])));
    t.look_around(run, rng, 400);
}
