//! Request g: the long route counts are kept.

use crate::*;
use differential::gen::{asked_hop, asked_loose_prefix, asked_mark, damage_count, edges, Field, Rng};

/// The places that hold a count other than 0, and the count.
fn counted(counts: &[u16]) -> Vec<(usize, u16)> {
    (0..counts.len()).filter(|&k| counts[k] != 0).map(|k| (k, counts[k])).collect()
}

#[test]
fn counts_of_list_a() {
    let mut t = table(&list_a(), 2, 1);
    assert_eq!(counted(&t.long1), [(2561, 2)]);
    assert_eq!(counted(&t.long2), [(2, 1)]);
    assert_eq!(walk_counts(16, 24, &t, ip(10, 1, 2, 5)), (2, Some(1)));
    assert_eq!(walk_counts(16, 24, &t, ip(10, 1, 3, 1)), (2, Some(0)));
    assert_eq!(walk_counts(16, 24, &t, ip(10, 2, 0, 1)), (0, None));
    assert_eq!(withdraw(16, 24, 5, &mut t, ip(10, 1, 2, 128), 25), routes_after(4));
    assert_eq!((counted(&t.long1), counted(&t.long2)), (vec![(2561, 1)], vec![]));
    assert_eq!(report(16, 24, 4, &t), 4 << 16 | 1 << 32);
    assert_eq!(withdraw(16, 24, 4, &mut t, ip(10, 1, 2, 0), 24), routes_after(3));
    assert_eq!((counted(&t.long1), counted(&t.long2)), (vec![], vec![]));
    assert_eq!((t.first[2561], t.own2[0]), (0x801F, 0));
}

/// A replacement counts nothing, a refused call neither; a route of exactly p1 bits is not longer than p1.
#[test]
fn what_is_counted() {
    let mut t = table(&[], 1, 1);
    assert_eq!((counted(&t.long1), counted(&t.long2)), (vec![], vec![]));
    assert_eq!(announce(16, 24, 0, &mut t, ip(10, 1, 0, 0), 16, 3, 0), routes_after(1));
    assert_eq!(counted(&t.long1), []);
    assert_eq!(announce(16, 24, 1, &mut t, ip(10, 1, 2, 0), 24, 3, 0), routes_after(2));
    assert_eq!((counted(&t.long1), counted(&t.long2)), (vec![(2561, 1)], vec![]));
    assert_eq!(announce(16, 24, 2, &mut t, ip(10, 1, 2, 3), 24, 4, 1), routes_after(2) | REPLACED | CLEARED);
    assert_eq!(announce(16, 24, 2, &mut t, ip(10, 2, 2, 0), 24, 4, 0), 7);
    assert_eq!((counted(&t.long1), counted(&t.long2)), (vec![(2561, 1)], vec![]));
    for (k, d) in [0, 128].into_iter().enumerate() {
        announce(16, 24, 2 + k as u32, &mut t, ip(10, 1, 2, d), 25, 5, 0);
    }
    assert_eq!((counted(&t.long1), counted(&t.long2)), (vec![(2561, 3)], vec![(2, 2)]));
    // Withdrawing the /24 leaves both chunks.
    assert_eq!(withdraw(16, 24, 4, &mut t, ip(10, 1, 2, 0), 24), routes_after(3));
    assert_eq!((counted(&t.long1), counted(&t.long2)), (vec![(2561, 2)], vec![(2, 2)]));
    assert_eq!((t.own2[0], t.own3[0]), (2562, 3));
}

/// "2 also covers these arrays' sizes", in every call.
#[test]
fn other_sizes() {
    let harms: [fn(&mut Lent); 6] = [
        |t| t.long1.truncate(65_535),
        |t| t.long1.push(0),
        |t| t.long1.clear(),
        |t| t.long2.truncate(255),
        |t| t.long2.push(0),
        |t| t.long2.clear(),
    ];
    for (k, harm) in harms.iter().enumerate() {
        let mut t = table(&list_a(), 1, 1);
        harm(&mut t);
        let before = t.clone();
        assert_eq!(make(16, 24, &mut t), 2, "{k}");
        assert_eq!(load(16, 24, &[1], &mut t), 2, "{k}");
        assert_eq!(announce(16, 24, 5, &mut t, 0, 33, 0, 2), 2, "{k}");
        assert_eq!(withdraw(16, 24, 5, &mut t, 0, 33), 2, "{k}");
        assert_eq!(report(16, 24, 5, &t), 2, "{k}");
        assert_eq!(lookup(16, 24, 5, &t, 0), 2, "{k}");
        assert_eq!(lookup_many(16, 24, 5, &t, &[0], &mut [7]), 2, "{k}");
        assert_eq!(make(16, 27, &mut t), 1, "{k}");
        assert_eq!(t, before);
    }
    // No second chunks: no counts for them.
    assert_eq!(table(&[], 0, 0).long2, []);
}

/// "5 a stored count that is wrong; lookup's 5 is as before."
#[test]
fn wrong_counts() {
    let harms: [fn(&mut Lent); 8] = [
        |t| t.long1[0] = 1,
        |t| t.long1[2561] = 1,
        |t| t.long1[2561] = 3,
        |t| t.long1.swap(2561, 2562),
        |t| t.long2[2] = 0,
        |t| t.long2[2] = 257,
        |t| t.long2.swap(2, 3),
        |t| t.long2[511] = 1,
    ];
    for (k, harm) in harms.iter().enumerate() {
        let mut t = table(&list_a(), 2, 1);
        harm(&mut t);
        let before = t.clone();
        assert_eq!(report(16, 24, 5, &t), 5, "{k}");
        assert_eq!(announce(16, 24, 5, &mut t, 0, 0, 7, 0), 5, "{k}");
        assert_eq!(withdraw(16, 24, 5, &mut t, 0, 0), 5, "{k}");
        assert_eq!(t, before);
        assert_eq!(lookup(16, 24, 5, &t, ip(10, 1, 2, 200)), 57 << 16 | 3 << 8);
        // Load and make read nothing of them.
        assert_eq!(load(16, 24, &records(&list_a()), &mut t), routes_after(5));
        assert_eq!(t, table(&list_a(), 2, 1));
        harm(&mut t);
        assert_eq!(make(16, 24, &mut t), routes_after(0));
        assert_eq!(t, table(&[], 2, 1));
    }
}

/// "Demand 3's fresh load has equal counts for first cells, and equal counts on every address's walk."
#[test]
fn as_a_fresh_load() {
    let mut rng = Rng::new(29);
    let mut wrong = 0;
    for _ in 0..30 {
        let (p1, p2) = *rng.pick(&[(12, 22), (13, 22), (16, 24), (16, 26)]);
        let field = Field::new(&mut rng, p1, p2);
        let mut t = Lent::new(p1, p2, 30, 5, 5);
        make(p1, p2, &mut t);
        let mut count = 0;
        for _ in 0..60 {
            let standing = sound(p1, p2, count, &t).unwrap();
            let (addr, len) = asked_loose_prefix(&mut rng, &field, &standing);
            let answer = if rng.one_in(3) {
                withdraw(p1, p2, count, &mut t, addr, len)
            } else {
                let (hop, mark) = (asked_hop(&mut rng, &field), asked_mark(&mut rng));
                announce(p1, p2, count, &mut t, addr, len, hop, mark)
            };
            if number(answer) == 0 {
                count = (answer >> 16) as u32 & 0xFFFF;
            }
        }
        let standing = sound(p1, p2, count, &t).unwrap();
        let mut fresh = Lent::new(p1, p2, 30, 5, 5);
        assert_eq!(load(p1, p2, &records(&standing), &mut fresh), routes_after(count as u64));
        assert_eq!(t.long1, fresh.long1);
        for addr in edges(&standing) {
            assert_eq!(walk_counts(p1, p2, &t, addr), walk_counts(p1, p2, &fresh, addr));
        }
        let good = t.clone();
        damage_count(&mut rng, p1, p2, &mut t);
        assert_eq!(report(p1, p2, count, &t) == 5, t != good);
        wrong += (t != good) as u32;
    }
    assert!(wrong > 15, "{wrong} wrong");
}
