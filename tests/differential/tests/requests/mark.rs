//! Request d: a mark for attached networks.

use crate::*;
use differential::gen::{Field, Rng};

/// 10.1.0.0/16 to 31, attached.
const RECORD: [u8; 8] = [0x0A, 0x01, 0x00, 0x00, 0x10, 0x01, 0x00, 0x1F];

/// List A with 10.1.0.0/16 attached.
fn list_b() -> Vec<Route> {
    let mut routes = list_a();
    routes[2].mark = 1;
    routes
}

/// The sixth byte of a record is 0, "or 1 for attached". Read back it is bit 15.
#[test]
fn records_carry_it() {
    let r = attached(ip(10, 1, 0, 0), 16, 31);
    assert_eq!(r.record(), RECORD);
    assert_eq!(check_input(&RECORD), Ok(vec![r]));
    assert_eq!(route(&RECORD, 0), 16 << 8 | 1 << 15 | 31 << 16 | (ip(10, 1, 0, 0) as u64) << 32);
    assert_eq!(route(&records(&list_a()), 2), 16 << 8 | 31 << 16 | (ip(10, 1, 0, 0) as u64) << 32);
    // The longest length leaves bit 15 alone.
    assert_eq!(route(&to(5, 32, 1).record(), 0), 32 << 8 | 1 << 16 | 5 << 32);
}

/// 10 is for a sixth byte over 1, after 3 and 4 and before the order.
#[test]
fn over_one_in_an_input() {
    let good = records(&list_a());
    for mark in [2, 3, 128, 255] {
        let mut input = good.clone();
        input[8 * 3 + 5] = mark;
        assert_eq!(check_input(&input), Err(refused_at(10, 3)));
        assert_eq!(tally(&input, &mut [0; 33]), refused_at(10, 3));
        assert_eq!(run(&input, 0, 33), refused_at(10, 3));
        assert_eq!(route(&input, 0), refused_at(10, 3));
        assert_eq!(build(&input, &mut [0; 60], &mut [0; 9]), refused_at(10, 3));
        assert_eq!(load(16, 24, &input, &mut Lent::new(16, 24, 8, 1, 1)), refused_at(10, 3));
        // In one record after 3 and 4; an earlier record's order comes before.
        input[8 * 3 + 7] = 0;
        assert_eq!(check_input(&input), Err(refused_at(4, 3)));
        input[8 * 3 + 4] = 33;
        assert_eq!(check_input(&input), Err(refused_at(3, 3)));
        input.copy_within(0..8, 16);
        assert_eq!(check_input(&input), Err(refused_at(10, 2)));
    }
    // A mark does not order: the same prefix twice, with 0 and then 1.
    assert_eq!(check_input(&records(&[to(0, 0, 6), attached(0, 0, 6)])), Err(refused_at(10, 1)));
}

/// "announce meets 10 for a mark over 1, after 4 and before 5", with no index.
#[test]
fn over_one_in_announce() {
    let mut t = table(&list_a(), 1, 1);
    let before = t.clone();
    for mark in [2, 255, 256, 257, 65_537, u32::MAX] {
        assert_eq!(announce(16, 24, 5, &mut t, 0, 1, 9, mark), 10);
        assert_eq!(announce(16, 24, 5, &mut t, 0, 1, 0, mark), 4);
        assert_eq!(announce(16, 24, 5, &mut t, 0, 33, 9, mark), 3);
        assert_eq!(announce(16, 24, 5, &mut t, 0, 33, 0, mark), 3);
        assert_eq!(announce(16, 27, 5, &mut t, 0, 1, 9, mark), 1);
        // The table is not sound with another count; a mark of 1 then meets 5.
        assert_eq!(announce(16, 24, 4, &mut t, 0, 1, 9, mark), 10);
        assert_eq!(announce(16, 24, 4, &mut t, 0, 1, 9, 1), 5);
    }
    assert_eq!(t, before);
}

/// Scalars are 32 bits wide and none is cut: 280 is not 24, 65,580 is not 44.
#[test]
fn wide_scalars() {
    let mut t = table(&list_a(), 1, 1);
    let (before, at) = (t.clone(), ip(10, 1, 2, 0));
    assert_eq!(announce(16, 24, 5, &mut t, at, 280, 44, 0), 3);
    assert_eq!(announce(16, 24, 5, &mut t, at, 24, 65_580, 0), 4);
    assert_eq!(announce(16, 24, 5, &mut t, at, 24, 44, 257), 10);
    assert_eq!(withdraw(16, 24, 5, &mut t, at, 280), 3);
    assert_eq!(run(&records(&list_a()), at, 280), 3);
    assert_eq!(t, before);
}

/// "a replacement replaces it with the hop", also where only one of the two differs; "cells and tree images don't".
#[test]
fn announced_and_replaced() {
    let mut t = table(&list_a(), 1, 1);
    let plain = t.clone();
    assert_eq!(announce(16, 24, 5, &mut t, ip(10, 1, 0, 0), 16, 31, 1), routes_after(5) | REPLACED);
    assert_eq!(t.list[16..24], RECORD);
    assert_eq!(sound(16, 24, 5, &t), Some(list_b()));
    // All but the list is as it was.
    assert_eq!(Lent { list: plain.list.clone(), ..t.clone() }, plain);
    // A hop alone replaces the mark by the one given.
    assert_eq!(announce(16, 24, 5, &mut t, ip(10, 1, 0, 0), 16, 32, 0), routes_after(5) | REPLACED);
    assert_eq!(t.list[16..24], [0x0A, 0x01, 0x00, 0x00, 0x10, 0x00, 0x00, 0x20]);
    // A new route with its mark.
    assert_eq!(announce(16, 24, 5, &mut t, ip(192, 0, 2, 0), 24, 9, 1), 7);
    assert_eq!(announce(16, 24, 5, &mut t, ip(192, 0, 0, 0), 16, 9, 1), routes_after(6));
    assert_eq!(t.list[40..48], attached(ip(192, 0, 0, 0), 16, 9).record());
    assert_eq!(withdraw(16, 24, 6, &mut t, ip(192, 0, 0, 0), 16), routes_after(5));
}

/// "Standing routes, the run and load carry it; cells and tree images don't."
#[test]
fn carried_or_not() {
    let mut rng = Rng::new(2);
    for _ in 0..20 {
        let field = Field::new(&mut rng, 16, 24);
        let marked = field.routes(&mut rng, 8);
        let bare: Vec<Route> = marked.iter().map(|r| Route { mark: 0, ..*r }).collect();
        let (a, b) = (table(&marked, 8, 8), table(&bare, 8, 8));
        assert_eq!(a.list[..8 * marked.len()], records(&marked));
        assert_eq!(Lent { list: b.list.clone(), ..a.clone() }, b);
        assert_eq!(report(16, 24, marked.len() as u32, &a), report(16, 24, marked.len() as u32, &b));
        assert_eq!(run(&a.list[..8 * marked.len()], 0, 0), (marked.len() as u64) << 32);
        assert_eq!(image(&marked), image(&bare));
    }
}

fn image(routes: &[Route]) -> (Vec<u32>, Vec<u16>) {
    let (mut words, mut hops) = (vec![9; 200], vec![9; 9]);
    assert_eq!(number(build(&records(routes), &mut words, &mut hops)), 0);
    (words, hops)
}

/// "The printing program adds ` attached` to such lines."
#[test]
fn printed_lines() {
    let list_a_text = "routes 5 second 1 third 1\n0.0.0.0/0 6\n10.0.0.0/8 20\n10.1.0.0/16 31\n10.1.2.0/24 44\n\
                       10.1.2.128/25 57\n";
    assert_eq!(printed(&records(&list_a())), list_a_text);
    assert_eq!(printed(&records(&list_b())), list_a_text.replace(" 31\n", " 31 attached\n"));
    assert_eq!(line(&attached(u32::MAX, 32, 32_767)), "255.255.255.255/32 32767 attached\n");
    assert_eq!(printed(&[]), "routes 0 second 0 third 0\n");
    let mut input = records(&list_a());
    input[8 * 3 + 5] = 2;
    assert_eq!(printed(&input), "refused 10 at 3\n");
    // Five second chunks, and more records than the room of 64.
    let many: Vec<Route> = (0..66).map(|k| to(k << 20, 13, 1)).collect();
    assert_eq!(printed(&records(&many[..5])), "refused 7\n");
    assert_eq!(printed(&records(&many[..65])), "refused 6\n");
    assert_eq!(printed(&records(&many)), "refused 6\n");
}
