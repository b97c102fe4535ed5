//! Sequences of calls of two parties in one box: routes come and go on both sides, arrays and limits are damaged, sizes
//! and geometries are wrong.

use crate::gh;
use crate::pair_damage::harm;
use crate::pair_twice::PairTwice;
use crate::parts::CHANGES_OF_PARTIES;
use crate::run::Run;
use crate::tables::{geometry, near, near_geometry, sizes, to_announce, to_load, to_withdraw};
use crate::twice::{used, Call, Twice};
use differential::gen::{edges, Field, Rng};
use differential::pair::{party_of, renumber, Arrays, Share, State};
use differential::plain::{records, size2, size3, walk_counts, Lent, Route};
use std::collections::BTreeSet;

pub const MUST_HAPPEN: &[(&str, &str)] = &[
    ("pair_make", "0, 1, 2, 24, 2 before 24, 24 past 32 bits"),
    (
        "pair_load",
        "0, 1, 2, 3 at, 4 at, 5, 6, 7, 8, 10 at, opened before the other's, opened after the other's, closed",
    ),
    (
        "pair_announce",
        "0, 1, 2, 3, 4, 5, 6, 7, 8, 10, replaced, opened before the other's, opened after the other's, \
         7 with free chunks, 8 with free chunks, 6 with more room at the other's, party 0 if cut",
    ),
    ("pair_withdraw", "0, 1, 2, 3, 5, 9, closed, party 0 if cut"),
    ("pair_report", "0, 1, 2, 5"),
    (
        "pair_lookup",
        "0, 1, 2, 5, 5 for one alone, through nobody's chunk, hop in 1, hop in 2, hop in 3, no route in 1, \
         no route in 2, no route in 3",
    ),
    ("pair", "damaged and not sound, damaged and sound, chunks renumbered, no second chunk free, 4096 chunks of two"),
];

/// Limits for both parties in a pool: mostly such as fit, often to the last chunk, and now and then such as do not.
pub fn limits(rng: &mut Rng, chunks: usize) -> [u32; 2] {
    let one = rng.below(chunks + 1);
    let two = if rng.one_in(2) { chunks - one } else { rng.below(chunks - one + 1) };
    match rng.below(24) {
        0 => [one as u32, (chunks - one) as u32 + 1],
        1 => [u32::MAX, one as u32 + 1],
        2 => [1 << 31, 1 << 31],
        _ => [one as u32, two as u32],
    }
}

/// A state with these limits.
pub fn state((p1, p2): (u32, u32), most2: [u32; 2], most3: [u32; 2]) -> State {
    State { p1, p2, shares: [0, 1].map(|w| Share { count: 0, most2: most2[w], most3: most3[w] }) }
}

/// Fills the arrays with what a caller may have left there.
fn litter(rng: &mut Rng, a: &mut Arrays) {
    let zero = rng.one_in(3);
    let mut word = || if zero { 0 } else { rng.word() };
    for own in &mut a.own {
        own.list.fill_with(|| word() as u8);
        own.first.fill_with(|| word() as u16);
        own.long1.fill_with(|| word() as u16);
    }
    for cells in [&mut a.second, &mut a.third, &mut a.long2] {
        cells.fill_with(|| word() as u16);
    }
    a.own2.fill_with(&mut word);
    a.own3.fill_with(&mut word);
}

/// A party's number: 0 is the first, and every other one the second.
fn party(rng: &mut Rng) -> u32 {
    if rng.one_in(2) {
        0
    } else {
        *rng.pick(&[1, 1, 1, 1, 2, 256, 65_536, 1 << 31, u32::MAX])
    }
}

pub fn episode(run: &mut Run, rng: &mut Rng) {
    let (p1, p2) = geometry(rng);
    let (one, second, third) = sizes(rng);
    let two = sizes(rng).0;
    let field = Field::new(rng, p1, p2);
    let mut arrays = Arrays::new(p1, p2, [one, two], second, third);
    litter(rng, &mut arrays);
    let mut t = PairTwice::new(state((p1, p2), limits(rng, second), limits(rng, third)), arrays);
    if rng.one_in(3) {
        any_calls(run, rng, &field, &mut t, &[vec![], vec![]]);
    }
    // Limits that do not fit are refused; then others, until some do.
    while t.standing.is_none() {
        t.step(run, 0, &Call::Make);
        if t.standing.is_none() {
            t.state = state((p1, p2), limits(rng, second), limits(rng, third));
        }
    }
    let mut growing = true;
    for _ in 0..rng.range(20, 120) {
        if rng.one_in(14) {
            growing = !growing;
        }
        one_step(run, rng, &field, &mut t, growing);
    }
    t.look_around(run, rng, 300);
    for w in 0..2 {
        against_fresh_load(run, &t, w);
    }
}

fn one_step(run: &mut Run, rng: &mut Rng, field: &Field, t: &mut PairTwice, growing: bool) {
    let party = party(rng);
    let standing = t.standing.clone().expect("between steps the box is sound");
    let mine = &standing[party_of(party)];
    match rng.below(100 + 16 * CHANGES_OF_PARTIES.len()) {
        100.. => CHANGES_OF_PARTIES[rng.below(CHANGES_OF_PARTIES.len())](run, rng, field, t, party),
        0..=59 => {
            let call = if rng.below(10) < if growing { 8 } else { 3 } {
                to_announce(rng, field, mine)
            } else {
                to_withdraw(rng, field, mine)
            };
            t.step(run, party, &call);
            let parties: BTreeSet<u32> = t.plain.own2.iter().map(|&o| if o == 0 { 2 } else { o >> 31 }).collect();
            if parties == BTreeSet::from([0, 1]) {
                run.count("pair", "no second chunk free");
            }
        }
        60..=63 => {
            t.step(run, party, &Call::Report);
        }
        64..=71 => t.look_around(run, rng, 120),
        72..=77 => {
            let call = to_load(rng, field, t.plain.own[party_of(party)].room(), mine);
            t.step(run, party, &call);
        }
        78..=81 => other_numbers(run, rng, t),
        82..=93 => damaged(run, rng, field, t, &standing),
        94..=96 => other_sizes(run, rng, field, t, &standing),
        97 | 98 => {
            let (p1, p2) = near_geometry(rng, t.state.p1, t.state.p2);
            let mut odd = PairTwice::new(State { p1, p2, ..t.state }, t.plain.clone());
            any_calls(run, rng, field, &mut odd, &standing);
        }
        _ => {
            t.step(run, party, &Call::Make);
        }
    }
}

/// A full box: all 4,096 chunks of both pools in use, so many of them each party's, one long route under each of its first
/// cells. Few calls, since each is long.
pub fn large(run: &mut Run, rng: &mut Rng) {
    let one = rng.range(1, 4095) as u32;
    let most = [one, 4096 - one];
    let mut t = PairTwice::new(state((12, 22), most, most), Arrays::new(12, 22, [4096, 4096], 4096, 4096));
    t.step(run, 0, &Call::Make);
    // The parties' routes are under the same first cells, so that one's chunks look like the other's.
    for party in [1, 0] {
        let (len, hop) = (*rng.pick(&[23, 24, 32]), rng.range(1, 99) as u16);
        let addr = |i: u32| i << 20 | 1 << 9;
        let routes: Vec<Route> =
            (0..most[party as usize]).map(|i| Route { addr: addr(i), len, hop, mark: 0 }).collect();
        t.step(run, party, &Call::Load(records(&routes)));
    }
    if used(&t.plain.own2) == 4096 && used(&t.plain.own3) == 4096 {
        run.count("pair", "4096 chunks of two");
    }
    let field = Field::new(rng, 12, 22);
    for _ in 0..3 {
        // No chunk is free; one is freed, and is its party's alone.
        let party = party(rng);
        let mine = t.standing.clone().expect("the box is sound")[party_of(party)].clone();
        let gone = *rng.pick(&mine);
        let new = Call::Announce(most[party_of(party)] << 20, 32, 7, 1);
        t.step(run, party, &new);
        t.step(run, party, &Call::Withdraw(gone.addr, gone.len as u32));
        t.step(run, 1 - party_of(party) as u32, &Call::Announce(u32::MAX, 32, 8, 0));
        t.step(run, party, &to_announce(rng, &field, &mine));
        t.step(run, party, &new);
    }
    t.look_around(run, rng, 200);
    let standing = t.standing.clone().expect("the box is sound");
    harm(rng, &mut t.state, &mut t.plain, &standing);
    t.look_again();
    t.step(run, 0, &Call::Report);
}

/// Two chunks of each pool exchange their numbers. The box stays sound.
fn other_numbers(run: &mut Run, rng: &mut Rng, t: &mut PairTwice) {
    let exchanged = [t.plain.own2.len(), t.plain.own3.len()].map(|n| (rng.below(n.max(1)), rng.below(n.max(1))));
    let before = t.plain.clone();
    renumber(&t.state, &mut t.plain, |third, c| match exchanged[third as usize] {
        (a, b) if c == a => b,
        (a, b) if c == b => a,
        _ => c,
    });
    if t.plain != before {
        run.count("pair", "chunks renumbered");
    }
    t.look_again();
    assert!(t.standing.is_some(), "other numbers leave a box sound");
    t.step(run, 1, &Call::Report);
}

/// Some calls of both parties on a box of any content.
fn any_calls(run: &mut Run, rng: &mut Rng, field: &Field, t: &mut PairTwice, standing: &[Vec<Route>; 2]) {
    for _ in 0..rng.range(2, 6) {
        let party = party(rng);
        let mine = &standing[party_of(party)];
        let call = match rng.below(9) {
            0 => Call::Make,
            1 => Call::Load(records(mine)),
            2 => to_load(rng, field, t.plain.own[party_of(party)].room(), mine),
            3 => Call::Announce(1, 8, 0, 2),
            4 => Call::Report,
            5 | 6 => to_withdraw(rng, field, mine),
            _ => to_announce(rng, field, mine),
        };
        t.step(run, party, &call);
        for change in CHANGES_OF_PARTIES {
            change(run, rng, field, t, party);
        }
        let addr = field.addr(rng);
        t.look(run, party, addr);
        t.ask(run, rng, party, &[addr]);
    }
}

/// Damages the arrays or the state at one to three places, makes some calls of both parties, and restores the box.
fn damaged(run: &mut Run, rng: &mut Rng, field: &Field, t: &mut PairTwice, standing: &[Vec<Route>; 2]) {
    let (good, state) = (t.plain.clone(), t.state);
    for _ in 0..*rng.pick(&[1, 1, 1, 1, 2, 3]) {
        harm(rng, &mut t.state, &mut t.plain, standing);
    }
    t.look_again();
    if t.plain != good || t.state != state {
        run.count("pair", if t.standing.is_some() { "damaged and sound" } else { "damaged and not sound" });
    }
    for party in 0..2 {
        t.step(run, party, &Call::Report);
    }
    t.look_around(run, rng, 40);
    any_calls(run, rng, field, t, standing);
    if t.standing.is_none() || rng.one_in(2) {
        t.plain = good;
        t.state = state;
        t.look_again();
    }
}

/// One array has another length, or a pool has another number of chunks. Now and then the box may even be sound.
fn other_sizes(run: &mut Run, rng: &mut Rng, field: &Field, t: &PairTwice, standing: &[Vec<Route>; 2]) {
    let mut a = t.plain.clone();
    let (size2, size3) = (size2(t.state.p1, t.state.p2), size3(t.state.p2));
    let w = rng.below(2);
    match rng.below(10) {
        0 => a.own[w].list.resize(near(rng, t.plain.own[w].list.len(), 8), 0),
        1 => a.own[w].list.resize(8 * *rng.pick(&[4096, 4097, 5000]), 0),
        2 => a.own[w].first.resize(near(rng, t.plain.own[w].first.len(), 256), 0x8000),
        3 => a.own[w].long1.resize(near(rng, t.plain.own[w].long1.len(), 2), 0),
        4 => a.second.resize(near(rng, t.plain.second.len(), size2), 0),
        5 => a.third.resize(near(rng, t.plain.third.len(), size3), 0),
        6 => a.own2.resize(near(rng, t.plain.own2.len(), 2), 0),
        7 => a.own3.resize(near(rng, t.plain.own3.len(), 2), 0),
        8 => a.long2.resize(near(rng, t.plain.long2.len(), size2), 0),
        _ => {
            // Pools of another size, in good order; or one chunk too many.
            let n = if rng.one_in(4) { rng.range(4096, 4097) } else { near(rng, a.own2.len(), 2) };
            a.own2.resize(n, 0);
            a.second.resize(n * size2, 0);
            a.long2.resize(n * size2, 0);
        }
    }
    let mut state = t.state;
    let beyond = rng.one_in(3);
    if beyond {
        state.shares[w].most3 = 4097;
    }
    let mut odd = PairTwice::new(state, a);
    if beyond {
        odd.step(run, 0, &Call::Make);
    }
    any_calls(run, rng, field, &mut odd, standing);
}

/// "Demand 3 is read for each party, with its limits in place of the chunks lent": a load of its routes into a fresh
/// table of one answers the same, and has as many chunks in use and the same counts on every walk.
fn against_fresh_load(run: &mut Run, t: &PairTwice, w: usize) {
    let Some(standing) = &t.standing else { return };
    let (s, share, routes) = (t.state, t.state.shares[w], &standing[w]);
    let lent = Lent::new(s.p1, s.p2, t.plain.own[w].room(), share.most2 as usize, share.most3 as usize);
    let mut fresh = Twice::new(s.p1, s.p2, 0, lent);
    let told = || t.tell(w as u32, "against a fresh load");
    if fresh.step(run, &Call::Load(records(routes))) != (routes.len() as u64) << 16 {
        run.fault("a fresh load of the standing routes is refused", &told);
    }
    let mine = |own: &[u32]| own.iter().filter(|&&o| o != 0 && (o >> 31) as usize == w).count();
    if [mine(&t.plain.own2), mine(&t.plain.own3)] != [used(&fresh.plain.own2), used(&fresh.plain.own3)] {
        run.fault("a fresh load has another number of chunks in use", &told);
    }
    if t.plain.own[w].long1 != fresh.plain.long1 {
        run.fault("a fresh load has other counts at first cells", &told);
    }
    // The box as a table of one, whose walks are the party's.
    let a = t.plain.clone();
    let own = a.own[w].clone();
    let (first, second, third, own2, own3) = (own.first, a.second, a.third, a.own2, a.own3);
    let walks = Lent { list: own.list, first, second, third, own2, own3, long1: own.long1, long2: a.long2 };
    for addr in edges(routes) {
        if t.look(run, w as u32, addr) != gh::lookup(s.p1, s.p2, fresh.count, &fresh.library, addr) {
            run.fault(&format!("a fresh load answers {addr:08x} otherwise"), &told);
        }
        if walk_counts(s.p1, s.p2, &walks, addr) != walk_counts(s.p1, s.p2, &fresh.plain, addr) {
            run.fault("a fresh load has other counts on an address's walk", &told);
        }
    }
}
