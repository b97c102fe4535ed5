//! Request e: the route fields of BGP messages.

use crate::*;
use differential::fields::*;
use differential::gen::{Field, Rng};

fn hex(text: &str) -> Vec<u8> {
    let digits: Vec<u8> = text.chars().filter_map(|c| c.to_digit(16)).map(|d| d as u8).collect();
    digits.chunks(2).map(|d| d[0] << 4 | d[1]).collect()
}

/// List A's prefixes as a field.
const LIST_A: &str = "00 08 0A 10 0A01 18 0A0102 19 0A010280";

/// What BIRD 2.0.12 sent: eleven prefixes that it announced, not in order, and two fields in which it withdrew them.
const REACH: &str = "00 16c63364 0cac10 18c00002 180a0102 100a01 0180 0a6440 190a010280 080a 20cb007107";
const GONE: &str = "16c63364 0cac10 18c00002 0180 0a6440 20cb007107";
const GONE_A: &str = "00 180a0102 100a01 190a010280 080a";

/// An empty table of the standard geometry.
fn empty(room: usize, second: usize, third: usize) -> Lent {
    let mut lent = Lent::new(16, 24, room, second, third);
    make(16, 24, &mut lent);
    lent
}

/// Both fields and a hop into a table of the standard geometry.
fn read(t: &mut Lent, count: u32, withdrawn: &str, reach: &str, hop: u32) -> u64 {
    update(16, 24, count, t, &hex(withdrawn), &hex(reach), hop)
}

/// "a length byte, then only as many bytes as the length needs, trailing bits of no meaning".
#[test]
fn entries_of_a_field() {
    assert_eq!(entries(&[]), Some(vec![]));
    assert_eq!(entries(&hex("00")), Some(vec![(0, 0)]));
    assert_eq!(entries(&hex("17 0A0103")), Some(vec![(ip(10, 1, 2, 0), 23)]));
    assert_eq!(
        entries(&hex("01 FF 08 0A 09 0AFF")),
        Some(vec![(1 << 31, 1), (ip(10, 0, 0, 0), 8), (ip(10, 128, 0, 0), 9)])
    );
    assert_eq!(entries(&hex("20 FFFFFFFF 00")), Some(vec![(u32::MAX, 32), (0, 0)]));
    let nets = list_a().iter().map(|r| (r.addr, r.len)).collect();
    assert_eq!(entries(&hex(LIST_A)), Some(nets));
    // "a length over 32 or a field that ends inside an entry"
    for broken in ["21 0A010203", "FF", "18 0A01", "01", "00 20 0A0102", "08"] {
        assert_eq!(entries(&hex(broken)), None, "{broken}");
    }
}

#[test]
fn written() {
    let input = records(&list_a());
    let mut out = [0xEE; 20];
    assert_eq!(write_field(&input, &mut out), 15 << 32);
    assert_eq!((&out[..15], &out[15..]), (&hex(LIST_A)[..], &[0xEE; 5][..]));
    assert_eq!(write_field(&input, &mut [0; 15]), 15 << 32);
    let mut short = [0xEE; 14];
    assert_eq!((write_field(&input, &mut short), short), (18, [0xEE; 14]));
    assert_eq!(write_field(&[], &mut []), 0);
    // The record input's refusals come first, with their index.
    assert_eq!(write_field(&input[..39], &mut []), refused_at(10, 4));
    assert_eq!(write_field(&records(&[to(0, 0, 0)]), &mut []), refused_at(4, 0));
    let many: Vec<Route> = (0..4097).map(|k| to(k << 8, 32, 1)).collect();
    assert_eq!(write_field(&records(&many), &mut []), 6);
    assert_eq!(write_field(&records(&many[..4096]), &mut vec![0; 20_480]), 20_480 << 32);
}

/// A whole message of BIRD's, and messages that stop for want of second chunks, third chunks and room.
#[test]
fn messages_of_bird() {
    let mut t = empty(64, 4, 4);
    assert_eq!(read(&mut t, 0, "", REACH, 44), 0x0000_000B_000B_0000);
    assert_eq!(report(16, 24, 11, &t), 11 << 16 | 4 << 32 | 2 << 48);
    assert_eq!(read(&mut empty(64, 4, 1), 0, "", REACH, 44), 0x0000_000A_000A_0108);
    assert_eq!(read(&mut empty(8, 4, 4), 0, "", REACH, 44), 0x0000_0008_0008_0106);
    let mut t = empty(64, 3, 4);
    assert_eq!(read(&mut t, 0, "", REACH, 44), 0x0000_000A_000A_0107);
    // The end of the table, then the rest of the withdrawals: one prefix is absent and is passed over.
    assert_eq!(read(&mut t, 10, "", "", 44), 0x0000_0000_000A_0000);
    assert_eq!(read(&mut t, 10, GONE, "", 44), 0x0000_0006_0005_0000);
    let stands = sound(16, 24, 5, &t).unwrap();
    assert_eq!(stands, list_a().iter().map(|r| Route { hop: 44, ..*r }).collect::<Vec<_>>());
    assert_eq!(read(&mut t, 5, GONE_A, "", 44), 0x0000_0005_0000_0000);
    assert_eq!(t, empty(64, 3, 4));
}

/// "The table is then as after exactly those."
#[test]
fn stops() {
    let (mut t, mut by_calls) = (table(&list_a(), 1, 1), table(&list_a(), 1, 1));
    // A withdrawal, an absent one, a replacement, a new one, and 10.2.2.0/24, which wants a second chunk.
    let answer = read(&mut t, 5, "08 0A 08 0B", "10 0A01 09 0A80 18 0A0202 00", 9);
    assert_eq!(answer, 7 | 1 << 8 | 5 << 16 | 4 << 32);
    assert_eq!(withdraw(16, 24, 5, &mut by_calls, ip(10, 0, 0, 0), 8), routes_after(4));
    assert_eq!(announce(16, 24, 4, &mut by_calls, ip(10, 1, 0, 0), 16, 9, 0), routes_after(4) | REPLACED);
    assert_eq!(announce(16, 24, 4, &mut by_calls, ip(10, 128, 0, 0), 9, 9, 0), routes_after(5));
    assert_eq!(t, by_calls);
    // The first entry stops: nothing was dealt with, and nothing changed.
    let before = t.clone();
    assert_eq!(read(&mut t, 5, "", "18 0A0202", 9), 7 | 1 << 8 | 5 << 16);
    assert_eq!(t, before);
}

/// Withdrawals first: a prefix in both fields stands. Duplicates replace, or are passed over. "mark 0".
#[test]
fn in_field_order() {
    let mut t = empty(2, 0, 0);
    assert_eq!(announce(16, 24, 0, &mut t, 0, 0, 3, 1), routes_after(1));
    assert_eq!(read(&mut t, 1, "00 00", "00 08 0A 00", 7), 2 << 16 | 5 << 32);
    assert_eq!(sound(16, 24, 2, &t), Some(vec![to(0, 0, 7), to(ip(10, 0, 0, 0), 8, 7)]));
    // A replacement takes the mark away, with the same hop too.
    announce(16, 24, 2, &mut t, 0, 0, 7, 1);
    assert_eq!(read(&mut t, 2, "", "00", 7), 2 << 16 | 1 << 32);
    assert_eq!(t.list[..8], to(0, 0, 7).record());
    // The room is full, and a withdrawal makes some.
    assert_eq!(read(&mut t, 2, "00", "09 0A80", 8), 2 << 16 | 2 << 32);
}

/// "1, 2 and the table's 5 first; 17, [..]; 4 for the hop": these leave all as it was.
#[test]
fn refusals_in_order() {
    let good = table(&list_a(), 1, 1);
    let broken = "21 0A010203";
    for (withdrawn, reach, hop, number) in [
        ("08 0A", broken, 0, 17),
        (broken, "08 0A", 7, 17),
        ("08 0A", "18 0A01", 7, 17),
        ("08 0A", "08 0A", 0, 4),
        ("08 0A", "", 32_768, 4),
        ("", "", 65_580, 4),
        ("", "", 32_767, 5 << 16),
    ] {
        let mut t = good.clone();
        assert_eq!(read(&mut t, 5, withdrawn, reach, hop), number);
        assert_eq!(update(16, 27, 5, &mut t, &hex(withdrawn), &hex(reach), hop), 1);
        assert_eq!(update(16, 25, 5, &mut t, &hex(withdrawn), &hex(reach), hop), 2);
        assert_eq!(read(&mut t, 4, withdrawn, reach, hop), 5);
        assert_eq!(t, good);
    }
}

/// Reading back what was written gives those prefixes, with the one hop and mark 0; bits of no meaning do not matter.
#[test]
fn read_back() {
    let mut rng = Rng::new(5);
    for _ in 0..100 {
        let field = Field::new(&mut rng, 16, 24);
        let routes = field.routes(&mut rng, 12);
        let mut out = vec![0; 60];
        let written = write_field(&records(&routes), &mut out) >> 32;
        out.truncate(written as usize);
        let mut t = empty(12, 12, 12);
        assert_eq!(update(16, 24, 0, &mut t, &[], &out, 77) & 0xFF, 0);
        let read: Vec<Route> = routes.iter().map(|r| to(r.addr, r.len, 77)).collect();
        assert_eq!(t.list[..8 * read.len()], records(&read));
        let nets: Vec<Net> = routes.iter().map(|r| (r.addr, r.len)).collect();
        let loose = field_of(&mut rng, &nets);
        assert_eq!((entries(&loose), loose.len()), (Some(nets), out.len()));
    }
}
