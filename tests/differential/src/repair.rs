//! Request l of document 02, in plain form: "a repair that reads the list, keeps each record that is valid and larger
//! than the last one kept, and drops the others".

use crate::gen::{damage_count, Rng};
use crate::plain::{check_input, geometry_ok, load, number, records, refused, Lent, Route};

/// The routes that are kept, and how many records were dropped. "It looks at the records up to the state's route count,
/// or to the end of the room if that is less."
pub fn kept(count: u32, list: &[u8]) -> (Vec<Route>, usize) {
    let looked_at = list.chunks_exact(8).take(count as usize);
    let all = looked_at.len();
    let mut kept: Vec<Route> = Vec::new();
    for record in looked_at {
        // A record by itself is a record input of one: 3, 4 and the mark are judged.
        let Ok(route) = check_input(record) else { continue };
        let route = route[0];
        if kept.last().map_or(true, |last| (route.addr, route.len) > (last.addr, last.len)) {
            kept.push(route);
        }
    }
    let dropped = all - kept.len();
    (kept, dropped)
}

/// "It loads what was kept and reports the records dropped and the cells that differ from before, for each of the three
/// arrays": the four words of `out`; bits 16 to 31 of the answer are the routes after it. "Refusals: 1, 2, then 7, 8
/// over the kept records"; 2 also where `out` is not of four words.
pub fn repair(p1: u32, p2: u32, count: u32, lent: &mut Lent, out: &mut [u32]) -> u64 {
    if geometry_ok(p1, p2) && out.len() != 4 {
        return refused(2);
    }
    let (kept, dropped) = kept(count, &lent.list);
    let before = lent.clone();
    let answer = load(p1, p2, &records(&kept), lent);
    if number(answer) == 0 {
        let differ = |is: &[u16], was: &[u16]| is.iter().zip(was).filter(|(is, was)| is != was).count() as u32;
        out[0] = dropped as u32;
        out[1] = differ(&lent.first, &before.first);
        out[2] = differ(&lent.second, &before.second);
        out[3] = differ(&lent.third, &before.third);
    }
    answer
}

/// What a memory fault may do to a table of the right sizes: bits or words of any array, a field of a record that the
/// repair judges, the order of the records, or the count. Answers what was harmed.
pub fn memory_fault(rng: &mut Rng, p1: u32, p2: u32, count: &mut u32, t: &mut Lent) -> &'static str {
    let room = t.room() as u32;
    match rng.below(9) {
        0 => {
            flip(rng, &mut t.first, |x, bit| *x ^= 1 << (bit % 16));
            "first cells harmed"
        }
        1 => {
            flip(rng, &mut t.second, |x, bit| *x ^= 1 << (bit % 16));
            "second cells harmed"
        }
        2 => {
            flip(rng, &mut t.third, |x, bit| *x ^= 1 << (bit % 16));
            "third cells harmed"
        }
        3 => {
            flip(rng, &mut t.own2, |x, bit| *x ^= 1 << bit);
            "owners harmed"
        }
        4 => {
            flip(rng, &mut t.own3, |x, bit| *x ^= 1 << bit);
            "owners harmed"
        }
        5 => {
            damage_count(rng, p1, p2, t);
            "counts harmed"
        }
        6 => {
            *count = *rng.pick(&[0, 1, count.wrapping_sub(1), count.wrapping_add(1), room, room + 1, u32::MAX]);
            "route count harmed"
        }
        _ => {
            damage_record(rng, *count, &mut t.list);
            "list harmed"
        }
    }
}

/// Other words at one to three places.
fn flip<T>(rng: &mut Rng, words: &mut [T], change: fn(&mut T, usize)) {
    for _ in 0..rng.range(1, 3) {
        if !words.is_empty() {
            let k = rng.below(words.len());
            change(&mut words[k], rng.below(32));
        }
    }
}

/// A record that the table counts, or one past them, gets another byte, a bad field, or another's place.
fn damage_record(rng: &mut Rng, count: u32, list: &mut [u8]) {
    let room = list.len() / 8;
    let counted = room.min(count as usize);
    if room == 0 {
        return;
    }
    let k = if counted == 0 || rng.one_in(8) { rng.below(room) } else { rng.below(counted) };
    let other = rng.below(counted.max(1));
    match rng.below(8) {
        0 => list[8 * k + 4] = *rng.pick(&[0, 8, 32, 33, 255]),
        1 => list[8 * k + 5] = *rng.pick(&[0, 1, 2, 255]),
        2 => list[8 * k + 6] ^= 0x80,
        3 => list[8 * k + 6..8 * k + 8].fill(0),
        // Now it is larger than all that follow, or smaller than all before.
        4 => list[8 * k] = *rng.pick(&[0, 0xFF]),
        5 => list.copy_within(8 * other..8 * other + 8, 8 * k),
        6 => (0..8).for_each(|b| list.swap(8 * k + b, 8 * other + b)),
        _ => list[8 * k + rng.below(8)] ^= 1 << rng.below(8),
    }
}
