//! Request j: runs of both parties, and what one of them can learn of the other: nothing.

use crate::pair::Cabinet;
use differential::gen::{asked_hop, asked_loose_prefix, asked_mark, damaged_input, edges, Field, Rng};
use differential::pair::{renumber, sound};
use differential::plain::{self, number, records, Lent};

/// A drawn call of one party.
#[derive(Clone, Debug)]
enum Call {
    Announce(u32, u32, u32, u32),
    Withdraw(u32, u32),
    Load(Vec<u8>),
    Report,
    Lookup(u32),
}

fn drawn(rng: &mut Rng, field: &Field) -> Call {
    match rng.below(12) {
        0 => Call::Report,
        1 if rng.one_in(2) => {
            let routes = field.routes(rng, 6);
            Call::Load(if rng.one_in(4) { damaged_input(rng, &routes) } else { records(&routes) })
        }
        1..=4 => Call::Lookup(field.addr(rng)),
        5 | 6 => {
            let (addr, len) = asked_loose_prefix(rng, field, &[]);
            Call::Withdraw(addr, len)
        }
        _ => {
            let (addr, len) = asked_loose_prefix(rng, field, &[]);
            Call::Announce(addr, len, asked_hop(rng, field), asked_mark(rng))
        }
    }
}

fn play(c: &mut Cabinet, party: u32, call: &Call) -> u64 {
    match call {
        Call::Announce(addr, len, hop, mark) => c.announce_any(party, *addr, *len, *hop, *mark),
        Call::Withdraw(addr, len) => c.withdraw(party, *addr, *len),
        Call::Load(input) => c.load(party, input),
        Call::Report => c.report(party),
        Call::Lookup(addr) => c.lookup(party, *addr),
    }
}

/// The same call on a table of one party.
fn play_alone((p1, p2): (u32, u32), count: &mut u32, t: &mut Lent, call: &Call) -> u64 {
    let answer = match call {
        Call::Announce(addr, len, hop, mark) => plain::announce(p1, p2, *count, t, *addr, *len, *hop, *mark),
        Call::Withdraw(addr, len) => plain::withdraw(p1, p2, *count, t, *addr, *len),
        Call::Load(input) => plain::load(p1, p2, input, t),
        Call::Report => return plain::report(p1, p2, *count, t),
        Call::Lookup(addr) => return plain::lookup(p1, p2, *count, t, *addr),
    };
    if number(answer) == 0 {
        *count = (answer >> 16) as u32 & 0xFFFF;
    }
    answer
}

/// "one party's hops, counts of cells read, reports and refusals depend on its own calls, list room and limits, the
/// geometry and nothing else": next to an idle and a busy neighbour, in small and large pools, and as in a table of one
/// that has the limits for chunks.
#[test]
fn isolation() {
    let mut rng = Rng::new(10);
    let mut seen = [0; 11];
    for round in 0..24 {
        let geometry = *rng.pick(&[(12, 22), (13, 22)]);
        let field = Field::new(&mut rng, geometry.0, geometry.1);
        let mine = (rng.range(0, 3) as u32, rng.range(0, 3) as u32);
        let room = rng.range(1, 9);
        let w = round % 2;
        // The neighbour's limits and room, and chunks that are lent to nobody.
        let mut boxes = [((0, 0), 0, 0), ((3, 2), 7, 0), ((1, 4), 3, 30)].map(|(other, room2, more)| {
            let (mut limits, mut rooms) = ([mine, other], [room, room2]);
            limits.rotate_left(w);
            rooms.rotate_left(w);
            let chunks = ((mine.0 + other.0) as usize + more, (mine.1 + other.1) as usize + more);
            let mut c = Cabinet::new(geometry, rooms, chunks, limits);
            assert_eq!(c.make(), 0);
            c
        });
        let mut alone = Lent::new(geometry.0, geometry.1, room, mine.0 as usize, mine.1 as usize);
        let mut count = 0;
        plain::make(geometry.0, geometry.1, &mut alone);
        for _ in 0..60 {
            for busy in &mut boxes[1..] {
                let call = drawn(&mut rng, &field);
                play(busy, 1 - w as u32, &call);
            }
            let call = drawn(&mut rng, &field);
            let answer = play_alone(geometry, &mut count, &mut alone, &call);
            seen[number(answer).min(10) as usize] += 1;
            for c in &mut boxes {
                assert_eq!(play(c, w as u32, &call), answer, "{call:x?}");
            }
        }
    }
    assert!([0, 3, 4, 6, 7, 8, 9, 10].iter().all(|&n| seen[n] > 3), "{seen:?}");
}

/// Over runs of both: every box is sound, holds exactly what the accepted calls of each party say, serves it, and leaves
/// what is the other's as it was.
#[test]
fn runs_of_both() {
    let mut rng = Rng::new(11);
    for _ in 0..12 {
        let field = Field::new(&mut rng, 12, 22);
        let mut c = Cabinet::new((12, 22), [12, 6], (5, 6), [(3, 2), (2, 4)]);
        c.make();
        for _ in 0..60 {
            let w = rng.below(2);
            let call = drawn(&mut rng, &field);
            let before = c.clone();
            play(&mut c, w as u32, &call);
            let other = 1 - w;
            assert_eq!(c.arrays.own[other], before.arrays.own[other]);
            assert_eq!(c.state.shares[other], before.state.shares[other]);
            for k in 0..5 {
                let o = before.arrays.own2[k];
                if o != 0 && o >> 31 == other as u32 {
                    let cells = 1024 * k..1024 * (k + 1);
                    assert_eq!(c.arrays.own2[k], o);
                    assert_eq!(c.arrays.second[cells.clone()], before.arrays.second[cells.clone()]);
                    assert_eq!(c.arrays.long2[cells.clone()], before.arrays.long2[cells]);
                }
            }
        }
        let content = sound(&c.state, &c.arrays).expect("every run leaves a sound box");
        for (w, routes) in content.routes.iter().enumerate() {
            for addr in edges(routes) {
                assert_eq!(c.lookup(w as u32, addr), plain::search_table(12, 22, routes, addr));
            }
        }
        let mut other_numbers = c.clone();
        renumber(&c.state, &mut other_numbers.arrays, |third, k| if third { 5 - k } else { 4 - k });
        assert_eq!(other_numbers.report(0), c.report(0));
        assert_eq!(sound(&c.state, &other_numbers.arrays).unwrap().routes, content.routes);
    }
}
