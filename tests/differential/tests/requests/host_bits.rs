//! Request b: feeds that leave host bits set.

use crate::*;
use differential::gen::{asked_loose_prefix, cut, Field, Rng};

/// "Two suppliers' consoles send 10.1.2.3/24 and mean 10.1.2.0/24."
#[test]
fn a_feed() {
    let mut t = table(&[], 1, 1);
    assert_eq!(announce(16, 24, 0, &mut t, ip(10, 1, 2, 3), 24, 44, 0), routes_after(1) | CLEARED);
    assert_eq!(t.list[..8], [0x0A, 0x01, 0x02, 0x00, 0x18, 0x00, 0x00, 0x2C]);
    assert_eq!(announce(16, 24, 1, &mut t, ip(10, 1, 2, 0), 24, 45, 0), routes_after(1) | REPLACED);
    assert_eq!(announce(16, 24, 1, &mut t, ip(10, 1, 2, 255), 24, 46, 1), routes_after(1) | REPLACED | CLEARED);
    assert_eq!(t.list[..8], [0x0A, 0x01, 0x02, 0x00, 0x18, 0x01, 0x00, 0x2E]);
    assert_eq!(withdraw(16, 24, 1, &mut t, ip(10, 1, 2, 9), 24), routes_after(0) | CLEARED);
    assert_eq!(t, table(&[], 1, 1));
    // A refusal does not tell.
    assert_eq!(withdraw(16, 24, 0, &mut t, ip(10, 1, 2, 9), 24), 9);
    assert_eq!(withdraw(16, 24, 0, &mut t, ip(10, 1, 2, 0), 24), 9);
}

/// The shortest and the longest length: all bits are cleared, and none.
#[test]
fn the_ends() {
    let mut t = table(&[], 1, 1);
    assert_eq!(announce(16, 24, 0, &mut t, ip(10, 1, 2, 3), 0, 6, 0), routes_after(1) | CLEARED);
    assert_eq!(sound(16, 24, 1, &t), Some(vec![to(0, 0, 6)]));
    assert_eq!(announce(16, 24, 1, &mut t, u32::MAX, 32, 7, 0), routes_after(2));
    assert_eq!(withdraw(16, 24, 2, &mut t, 0, 0), routes_after(1));
    assert_eq!(withdraw(16, 24, 1, &mut t, u32::MAX, 31), 9);
    assert_eq!(withdraw(16, 24, 1, &mut t, u32::MAX, 32), routes_after(0));
    assert_eq!((cleared(u32::MAX, 0), cleared(u32::MAX, 32), cleared(u32::MAX, 31)), (0, u32::MAX, u32::MAX - 1));
}

/// "for announce and withdraw, 3 is now only a length over 32".
#[test]
fn refusals() {
    let mut t = table(&list_a(), 1, 1);
    let before = t.clone();
    for len in [33, 40, 255, 256, 280, u32::MAX] {
        assert_eq!(announce(16, 24, 5, &mut t, ip(10, 1, 2, 3), len, 44, 0), 3);
        assert_eq!(withdraw(16, 24, 5, &mut t, ip(10, 1, 2, 3), len), 3);
    }
    assert_eq!(announce(16, 24, 5, &mut t, ip(10, 1, 2, 3), 24, 0, 0), 4);
    assert_eq!(announce(16, 24, 4, &mut t, ip(10, 1, 2, 3), 24, 44, 0), 5);
    assert_eq!(withdraw(16, 24, 4, &mut t, ip(10, 1, 2, 3), 24), 5);
    assert_eq!(announce(16, 24, 5, &mut t, ip(10, 2, 2, 3), 24, 44, 0), 7);
    assert_eq!(t, before);
}

/// "Load, build and the run stay strict."
#[test]
fn strict_ones() {
    let input = [0x0A, 0x01, 0x02, 0x03, 0x18, 0x00, 0x00, 0x2C];
    assert_eq!(load(16, 24, &input, &mut Lent::new(16, 24, 8, 1, 1)), refused_at(3, 0));
    assert_eq!(build(&input, &mut [0; 30], &mut [0; 3]), refused_at(3, 0));
    assert_eq!(tally(&input, &mut [0; 33]), refused_at(3, 0));
    assert_eq!(run(&records(&list_a()), ip(10, 1, 2, 3), 24), 3);
    assert_eq!(run(&records(&list_a()), ip(10, 1, 2, 0), 24), 3 << 16 | 2 << 32);
}

/// "all else, demands 2 and 3 too, goes by the cleared prefix": the same with the address and with its cut, but for
/// the flag.
#[test]
fn as_with_the_cut() {
    let mut rng = Rng::new(17);
    let mut told = 0;
    for _ in 0..30 {
        let field = Field::new(&mut rng, 12, 22);
        let mut loose = Lent::new(12, 22, 10, 4, 4);
        make(12, 22, &mut loose);
        let mut strict = loose.clone();
        let mut count = 0;
        for _ in 0..40 {
            let standing = sound(12, 22, count, &loose).unwrap();
            let (addr, len) = asked_loose_prefix(&mut rng, &field, &standing);
            let clear = if len > 32 { addr } else { cut(addr, len) };
            let (a, b) = if rng.one_in(3) {
                (withdraw(12, 22, count, &mut loose, addr, len), withdraw(12, 22, count, &mut strict, clear, len))
            } else {
                let hop = rng.range(1, 9) as u32;
                let a = announce(12, 22, count, &mut loose, addr, len, hop, 0);
                (a, announce(12, 22, count, &mut strict, clear, len, hop, 0))
            };
            assert_eq!(loose, strict);
            assert_eq!(a, if number(b) == 0 && addr != clear { b | CLEARED } else { b });
            if number(a) == 0 {
                count = (a >> 16) as u32 & 0xFFFF;
                told += (a & CLEARED != 0) as u32;
            }
        }
    }
    assert!(told > 100, "{told} cleared");
}
