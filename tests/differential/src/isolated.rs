//! One party's calls in several boxes and in a table of one: "one party's hops, counts of cells read, reports and refusals
//! depend on its own calls, list room and limits, the geometry and nothing else."

use crate::pair_twice::PairTwice;
use crate::pairs::state;
use crate::run::Run;
use crate::tables::{geometry, to_announce, to_load, to_withdraw};
use crate::twice::{Call, Twice};
use differential::gen::{Field, Rng};
use differential::pair::Arrays;
use differential::plain::{number, Lent, Route};

pub const MUST_HAPPEN: &[(&str, &str)] =
    &[("isolated", "0, 3, 4, 6, 7, 8, 9, 10, idle, busy, large pools, first party, second party")];

/// A box with a neighbour.
struct Next {
    pair: PairTwice,
    busy: bool,
    field: Field,
}

/// The party whose answers are compared, with what they may depend on.
struct Mine {
    party: usize,
    room: usize,
    most: [usize; 2],
}

impl Mine {
    /// A made box in which the party has its room and limits, the neighbour its own, and more chunks are lent.
    fn next(&self, run: &mut Run, rng: &mut Rng, (p1, p2): (u32, u32), busy: bool, more: usize) -> Next {
        let other = if busy { [rng.range(1, 6), rng.range(1, 6)] } else { [0, rng.range(0, 3)] };
        let mut rooms = [self.room, rng.range(busy as usize, 20)];
        rooms.rotate_left(self.party);
        let mut most = [0, 1].map(|pool| [self.most[pool] as u32, other[pool] as u32]);
        most.iter_mut().for_each(|both| both.rotate_left(self.party));
        let chunks = [0, 1].map(|pool| (self.most[pool] + other[pool]).max(more));
        let arrays = Arrays::new(p1, p2, rooms, chunks[0], chunks[1]);
        let mut pair = PairTwice::new(state((p1, p2), most[0], most[1]), arrays);
        let answer = pair.step(run, 0, &Call::Make);
        assert_eq!(answer, 0, "limits that fit");
        run.count("isolated", if busy { "busy" } else { "idle" });
        if more > 0 {
            run.count("isolated", "large pools");
        }
        Next { pair, busy, field: Field::new(rng, p1, p2) }
    }
}

/// A call of a party with these routes in a list of this room.
fn asked(rng: &mut Rng, field: &Field, room: usize, standing: &[Route]) -> Call {
    match rng.below(20) {
        0 => Call::Report,
        1 => to_load(rng, field, room, standing),
        2..=7 => to_withdraw(rng, field, standing),
        _ => to_announce(rng, field, standing),
    }
}

pub fn episode(run: &mut Run, rng: &mut Rng) {
    let geometry = geometry(rng);
    let (p1, p2) = geometry;
    let field = Field::new(rng, p1, p2);
    let mine = Mine { party: rng.below(2), room: rng.range(0, 14), most: [rng.range(0, 5), rng.range(0, 5)] };
    run.count("isolated", ["first party", "second party"][mine.party]);
    let large = if rng.one_in(4) { rng.range(100, 4096) } else { rng.range(12, 20) };
    let mut boxes =
        [(false, 0), (true, 0), (true, large)].map(|(busy, more)| mine.next(run, rng, geometry, busy, more));
    let mut alone = Twice::new(p1, p2, 0, Lent::new(p1, p2, mine.room, mine.most[0], mine.most[1]));
    alone.step(run, &Call::Make);
    let steps = if large > 100 { 12 } else { 50 };
    for _ in 0..steps {
        for next in boxes.iter_mut().filter(|next| next.busy) {
            let other = 1 - mine.party;
            let (room, standing) = (next.pair.plain.own[other].room(), next.pair.standing.clone().unwrap_or_default());
            let call = asked(rng, &next.field, room, &standing[other]);
            next.pair.step(run, other as u32, &call);
        }
        let standing = alone.standing.clone().unwrap_or_default();
        let call = asked(rng, &field, mine.room, &standing);
        let answer = alone.step(run, &call);
        run.count("isolated", &number(answer).to_string());
        let addr = field.addr(rng);
        let found = alone.look(run, addr);
        for next in &mut boxes {
            let told = next.pair.tell(mine.party as u32, &format!("{call:?}, alone {answer:016x}"));
            if next.pair.step(run, mine.party as u32, &call) != answer {
                run.fault("next to another party, or in other pools, a call is answered otherwise", &|| told.clone());
            }
            if next.pair.look(run, mine.party as u32, addr) != found {
                run.fault(&format!("next to another party {addr:08x} is answered otherwise"), &|| told.clone());
            }
        }
    }
}
