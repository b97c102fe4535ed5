//! Request h: the header step.

use crate::*;
use differential::gen::{Field, Rng};
use differential::header::*;

const TO_192: [u8; 20] = *b"\x45\x00\x00\x73\x00\x00\x40\x00\x40\x11\xb8\x61\xc0\xa8\x00\x01\xc0\xa8\x00\xc7";
const TO_10: [u8; 20] = *b"\x45\x00\x00\x28\x6c\xfb\x40\x00\x40\x11\xfe\xff\xc0\x00\x02\x01\x0a\x01\x02\xc8";
const LIVES_2: [u8; 20] = *b"\x45\x00\x00\x28\x00\x01\x40\x00\x02\x06\xaa\xc8\xc0\x00\x02\x01\x0a\x01\x02\x05";

/// What a step in list A's table answers, and the packet then.
fn stepped(packet: &[u8]) -> (u64, Vec<u8>) {
    let mut packet = packet.to_vec();
    let answer = step(16, 24, 5, &table(&list_a(), 1, 1), &mut packet);
    (answer, packet)
}

/// The packet with other bytes from a place on.
fn with(packet: &[u8], at: usize, bytes: &[u8]) -> Vec<u8> {
    let mut packet = packet.to_vec();
    packet[at..at + bytes.len()].copy_from_slice(bytes);
    packet
}

/// RFC 1071, section 3: the sum of these eight bytes is DDF2. RFC 1624, section 4: by equation 3 its example
/// becomes 0000.
#[test]
fn sums_of_the_rfcs() {
    let mut header = [0; 20];
    header[..8].copy_from_slice(&[0x00, 0x01, 0xF2, 0x03, 0xF4, 0xF5, 0xF6, 0xF7]);
    assert_eq!(fresh_checksum(&header), !0xDDF2);
    assert_eq!(mended(0xDD2F, 0x5555, 0x3285), 0x0000);
    assert!(same_value(0, 0xFFFF) && !same_value(0, 1) && !same_value(0xFFFE, 0xFFFF));
}

#[test]
fn lowered_and_mended() {
    assert_eq!(stepped(&TO_192), (0x0006_0100, with(&TO_192, 8, &[0x3F, 0x11, 0xB9, 0x61])));
    assert_eq!(stepped(&TO_10), (0x0039_0300, with(&TO_10, 8, &[0x3F, 0x11, 0x00, 0x00])));
    assert_eq!(stepped(&LIVES_2), (0x002C_0300, with(&LIVES_2, 8, &[0x01, 0x06, 0xAB, 0xC8])));
    // Identification, checksum before and after.
    for (ident, was, is) in [
        (0x6CFA_u16, 0xFF00_u16, 0x0001_u16),
        (0x6CFC, 0xFEFE, 0xFFFE),
        (0x6BFB, 0x0000, 0x0100),
        (0x6BFB, 0xFFFF, 0x0100),
    ] {
        let mut packet = with(&TO_10, 4, &ident.to_be_bytes());
        packet[10..12].copy_from_slice(&was.to_be_bytes());
        let (answer, left) = stepped(&packet);
        assert_eq!(answer, 0x0039_0300);
        assert_eq!((left[8], &left[10..12]), (0x3F, &is.to_be_bytes()[..]), "{ident:04x}");
    }
}

/// "No route leaves the header as it was."
#[test]
fn no_route() {
    let mut t = table(&list_a(), 1, 1);
    assert_eq!(withdraw(16, 24, 5, &mut t, 0, 0), routes_after(4));
    let mut packet = TO_192;
    assert_eq!(step(16, 24, 4, &t, &mut packet), 0x0000_0100);
    assert_eq!(packet, TO_192);
}

#[test]
fn refusals_in_order() {
    let wrong_sum = [0xB8, 0x60];
    for (packet, number) in [
        (TO_192[..19].to_vec(), 19),
        (vec![], 19),
        (with(&TO_192, 0, &[0x46]), 20),
        (with(&TO_192, 0, &[0x65]), 20),
        (with(&TO_192, 10, &wrong_sum), 21),
        (with(&with(&TO_192, 10, &wrong_sum), 0, &[0x46]), 20),
        (with(&LIVES_2, 8, &[1]), 21),
        (with(&with(&LIVES_2, 8, &[1]), 10, &[0xAB, 0xC8]), 22),
        (with(&with(&LIVES_2, 8, &[0]), 10, &[0xAC, 0xC8]), 22),
    ] {
        assert_eq!(stepped(&packet), (number, packet));
    }
    // Before lookup's own: 1, 2 and 5.
    let mut t = table(&list_a(), 1, 1);
    let (mut good, mut bad) = (TO_10, with(&TO_10, 0, &[0x44]));
    for (p2, number) in [(27, 1), (25, 2)] {
        assert_eq!(step(16, p2, 5, &t, &mut good), number);
        assert_eq!(step(16, p2, 5, &t, &mut bad), 20);
    }
    t.second[2] = 0;
    assert_eq!(step(16, 24, 5, &t, &mut good), 5);
    assert_eq!(step(16, 24, 5, &t, &mut bad), 20);
    assert_eq!((good, bad), (TO_10, with(&TO_10, 0, &[0x44])));
}

/// "Given a packet's first 20 bytes": what follows them is neither read nor written.
#[test]
fn longer_packets() {
    let mut packet = TO_192.to_vec();
    packet.extend([1, 2, 3, 4]);
    let (answer, left) = stepped(&packet);
    assert_eq!((answer, &left[20..]), (0x0006_0100, &[1, 2, 3, 4][..]));
    assert_eq!(left[..20], stepped(&TO_192).1);
}

/// Packets as they are drawn: right, with every wanted sum, and the mended sum is the one of RFC 1624 and the one that is
/// worked out afresh.
#[test]
fn drawn_packets() {
    let mut rng = Rng::new(8);
    let field = Field::new(&mut rng, 16, 24);
    let (mut zero, mut ones, mut lowest) = (0, 0, 0);
    for _ in 0..3000 {
        let addr = field.addr(&mut rng);
        let was = packet(&mut rng, addr);
        assert!(was.len() >= HEADER && checksum_right(&was) && destination(&was) == addr && was[8] >= 2);
        zero += (was[10..12] == [0, 0]) as u32;
        ones += (was[10..12] == [0xFF, 0xFF]) as u32;
        lowest += (was[8] == 2) as u32;
        let mut is = was.clone();
        let answer = step_by(|a| (a as u64 >> 28 << 16) | 1 << 8, &mut is);
        if answer >> 16 == 0 {
            assert_eq!(is, was);
            continue;
        }
        let half = |p: &[u8], k: usize| u16::from_be_bytes([p[k], p[k + 1]]);
        assert_eq!(half(&is, 10), mended(half(&was, 10), half(&was, 8), half(&is, 8)));
        assert_eq!(half(&is, 10), fresh_checksum(&is));
    }
    assert!(zero > 30 && ones > 30 && lowest > 100, "{zero} {ones} {lowest}");
}

/// Each refusal is drawn, and a damaged packet is left as it is.
#[test]
fn drawn_damage() {
    let mut rng = Rng::new(9);
    let mut seen = [0; 23];
    for _ in 0..2000 {
        let mut was = packet(&mut rng, 5);
        damage(&mut rng, &mut was);
        let mut is = was.clone();
        let n = number(step_by(|_| 7 << 16, &mut is)) as usize;
        seen[n] += 1;
        assert!(n == 0 || is == was);
    }
    assert!(seen[0] > 10 && seen[19..].iter().all(|&n| n > 100), "{seen:?}");
}
