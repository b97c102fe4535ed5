//! Request l: a table is put right after a memory fault.

use crate::*;
use differential::gen::{Field, Rng};
use differential::repair::{kept, memory_fault, repair};

/// List A in room for eight records and one chunk of each pool, with this count and this harm; what a repair answers
/// and says, and the table that it leaves.
fn repaired(count: u32, harm: fn(&mut Lent)) -> (u64, [u32; 4], Lent) {
    let mut t = table(&list_a(), 1, 1);
    harm(&mut t);
    let mut out = [77; 4];
    let answer = repair(16, 24, count, &mut t, &mut out);
    (answer, out, t)
}

#[test]
fn nothing_to_do() {
    let (answer, out, t) = repaired(5, |_| ());
    assert_eq!((answer, out), (routes_after(5), [0; 4]));
    assert_eq!(t, table(&list_a(), 1, 1));
}

/// "keeps each record that is valid and larger than the last one kept, and drops the others".
#[test]
fn records_dropped() {
    // 10.1.0.0/16 has length 33: its leaves in the second chunk fall to 10.0.0.0/8.
    let (answer, out, t) = repaired(5, |t| t.list[16 + 4] = 33);
    assert_eq!((answer, out), (routes_after(4), [1, 0, 255, 0]));
    let mut left = list_a();
    left.remove(2);
    assert_eq!(t, table(&left, 1, 1));
    // 10.0.0.0/8 has become 255.0.0.0/8, and what follows is smaller.
    let (answer, out, t) = repaired(5, |t| t.list[8] = 0xFF);
    assert_eq!((answer, out), (routes_after(2), [3, 512, 256, 256]));
    assert_eq!(t, table(&[to(0, 0, 6), to(ip(255, 0, 0, 0), 8, 20)], 1, 1));
    // A mark over 1.
    let (answer, out, t) = repaired(5, |t| t.list[32 + 5] = 2);
    assert_eq!((answer, out), (routes_after(4), [1, 0, 1, 256]));
    assert_eq!(t, table(&list_a()[..4], 1, 1));
    // A mark of 1 is valid, and no cell has it.
    let (answer, out, t) = repaired(5, |t| t.list[32 + 5] = 1);
    assert_eq!((answer, out), (routes_after(5), [0; 4]));
    assert_eq!(t.list[37], 1);
    // The same record twice: the first is kept. Hop 0 and a bit after the length.
    let (_, out, _) = repaired(5, |t| t.list.copy_within(24..32, 32));
    assert_eq!(out, [1, 0, 1, 256]);
    let (_, out, _) = repaired(5, |t| t.list[16 + 7] = 0);
    assert_eq!(out, [1, 0, 255, 0]);
    let (_, out, _) = repaired(5, |t| t.list[16 + 3] = 1);
    assert_eq!(out, [1, 0, 255, 0]);
}

/// A dropped record is not the last one kept: a large bad one drops nothing else.
#[test]
fn larger_than_the_last_kept() {
    let mut list = records(&[to(0, 0, 6), to(ip(255, 0, 0, 0), 8, 1), to(ip(10, 0, 0, 0), 8, 20)]);
    assert_eq!(kept(3, &list), (vec![to(0, 0, 6), to(ip(255, 0, 0, 0), 8, 1)], 1));
    list[8 + 7] = 0;
    assert_eq!(kept(3, &list), (vec![to(0, 0, 6), to(ip(10, 0, 0, 0), 8, 20)], 1));
}

/// "the cells that differ from before": owners, counts and the list are put right and not reported.
#[test]
fn cells_put_right() {
    let good = table(&list_a(), 1, 1);
    type Harm = fn(&mut Lent);
    let cases: [(Harm, [u32; 4]); 6] = [
        (|t| t.first[2562] = 0x8000, [0, 1, 0, 0]),
        (|t| t.second[9] = 0, [0, 0, 1, 0]),
        (|t| t.third[..4].fill(1), [0, 0, 0, 4]),
        (|t| (t.own2[0], t.own3[0]) = (7, 0), [0; 4]),
        (|t| (t.long1[0], t.long2[2]) = (7, 0), [0; 4]),
        (|t| t.list[63] = 1, [0; 4]),
    ];
    for (harm, says) in cases {
        let (answer, out, t) = repaired(5, harm);
        assert_eq!((answer, out, &t), (routes_after(5), says, &good));
    }
}

/// "It looks at the records up to the state's route count, or to the end of the room if that is less."
#[test]
fn other_counts() {
    // Three zero records have hop 0.
    for count in [8, 9, 4096, 1 << 29, u32::MAX] {
        let (answer, out, t) = repaired(count, |_| ());
        assert_eq!((answer, out, t), (routes_after(5), [3, 0, 0, 0], table(&list_a(), 1, 1)));
    }
    let (answer, out, t) = repaired(3, |_| ());
    assert_eq!((answer, out, t), (routes_after(3), [0, 1, 256, 256], table(&list_a()[..3], 1, 1)));
    let (answer, out, t) = repaired(0, |_| ());
    assert_eq!((answer, out, t), (routes_after(0), [0, 65_536, 256, 256], table(&[], 1, 1)));
}

/// "Refusals: 1, 2, then 7, 8 over the kept records." A refusal leaves all, `out` too.
#[test]
fn refusals() {
    let mut t = table(&list_a(), 1, 1);
    // 10.1.2.0/24 has become 10.0.2.0/24, 10.1.0.0/16 is not valid: the two long routes that are kept want two chunks.
    t.list[24 + 1] = 0;
    t.list[16 + 4] = 33;
    let before = t.clone();
    let mut out = [77; 4];
    let mut go = |p2: u32, t: &mut Lent, room: usize| {
        let answer = repair(16, p2, 5, t, &mut out[..room]);
        (answer, out == [77; 4])
    };
    assert_eq!(go(24, &mut t, 4), (7, true));
    assert_eq!(go(24, &mut t, 3), (2, true));
    assert_eq!(go(27, &mut t, 3), (1, true));
    assert_eq!(t, before);
    let mut short = t.clone();
    short.long1.pop();
    assert_eq!(go(24, &mut short, 4), (2, true));
    // One second chunk and two third ones: 10.1.1.0/25 instead of 10.1.2.0/24.
    let mut t = table(&list_a(), 1, 1);
    t.list[24..32].copy_from_slice(&to(ip(10, 1, 1, 0), 25, 44).record());
    let before = t.clone();
    assert_eq!(go(24, &mut t, 4), (8, true));
    assert_eq!(t, before);
    // Dropped records want no chunks.
    t.list[24 + 7] = 0;
    assert_eq!(go(24, &mut t, 4).0, routes_after(4));
    assert_eq!(repair(16, 24, 4, &mut t, &mut [0; 5]), 2);
    assert_eq!(repair(11, 24, 4, &mut t, &mut []), 1);
}

/// "A sound table keeps all its records", also where a run of calls has numbered its chunks otherwise than a load.
#[test]
fn sound_and_numbered_otherwise() {
    let mut t = table(&[], 2, 2);
    announce(16, 24, 0, &mut t, ip(10, 2, 2, 0), 25, 1, 0);
    announce(16, 24, 1, &mut t, ip(10, 1, 2, 0), 25, 2, 0);
    assert_eq!((t.first[2562], t.first[2561]), (1, 2));
    let standing = sound(16, 24, 2, &t).unwrap();
    let mut out = [77; 4];
    assert_eq!(repair(16, 24, 2, &mut t, &mut out), routes_after(2));
    // The chunks exchange their numbers: two first cells, and 128 hops in each third chunk.
    assert_eq!(out, [0, 2, 0, 256]);
    assert_eq!(t, table(&standing, 2, 2));
    assert_eq!(repair(16, 24, 2, &mut t, &mut out), routes_after(2));
    assert_eq!(out, [0; 4]);
}

/// The same after a run that closed a chunk: what is in chunk 2 of each pool goes to chunk 1.
#[test]
fn sound_with_a_closed_chunk() {
    let mut t = table(&[], 2, 2);
    announce(16, 24, 0, &mut t, ip(10, 1, 2, 0), 25, 1, 0);
    announce(16, 24, 1, &mut t, ip(10, 2, 2, 0), 25, 2, 0);
    withdraw(16, 24, 2, &mut t, ip(10, 1, 2, 0), 25);
    assert_eq!((t.first[2561], t.first[2562], t.own2[0], t.own3[0]), (0x8000, 2, 0, 0));
    let standing = sound(16, 24, 1, &t).unwrap();
    let mut out = [77; 4];
    assert_eq!(repair(16, 24, 1, &mut t, &mut out), routes_after(1));
    assert_eq!(out, [0, 1, 512, 512]);
    assert_eq!(t, table(&standing, 2, 2));
}

/// Over random faults: what is left is a load of the kept records and is sound, a second repair finds nothing, and a
/// sound table keeps its routes.
#[test]
fn after_memory_faults() {
    let mut rng = Rng::new(37);
    let (mut dropped, mut refused) = (0, 0);
    for _ in 0..150 {
        let (p1, p2) = *rng.pick(&[(12, 22), (12, 22), (13, 22), (16, 24)]);
        let field = Field::new(&mut rng, p1, p2);
        let routes = field.routes(&mut rng, 12);
        let (second, third) = (need(&routes, p1), need(&routes, p2));
        let mut t = Lent::new(p1, p2, 14, second, third);
        let mut count = (load(p1, p2, &records(&routes), &mut t) >> 16) as u32;
        for _ in 0..rng.range(0, 4) {
            memory_fault(&mut rng, p1, p2, &mut count, &mut t);
        }
        let before = t.clone();
        let was = sound(p1, p2, count, &t);
        let (left, gone) = kept(count, &t.list);
        let mut out = [77; 4];
        let answer = repair(p1, p2, count, &mut t, &mut out);
        if number(answer) != 0 {
            assert!(number(answer) == 7 || number(answer) == 8);
            assert_eq!((&t, out), (&before, [77; 4]));
            refused += 1;
            continue;
        }
        assert_eq!((answer, out[0] as usize), (routes_after(left.len() as u64), gone));
        let mut fresh = Lent::new(p1, p2, 14, second, third);
        load(p1, p2, &records(&left), &mut fresh);
        assert_eq!(t, fresh);
        assert_eq!(sound(p1, p2, left.len() as u32, &t), Some(left.clone()));
        if let Some(was) = was {
            assert_eq!((was, gone), (left.clone(), 0));
        }
        assert_eq!(repair(p1, p2, left.len() as u32, &mut t, &mut out), answer);
        assert_eq!(out, [0; 4]);
        dropped += gone;
    }
    assert!(dropped > 100 && refused > 1, "{dropped} dropped, {refused} refused");
}
