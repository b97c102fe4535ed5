//! Header steps through the safe methods: what becomes of a header is worked out by RFC 1071, afresh for each.
#![cfg(feature = "alloc")]

use ghatumri::*;

/// The ones' complement sum of a header's ten halves.
fn sum(header: &[u8]) -> u16 {
    let mut sum: u32 = header[..20].chunks(2).map(|half| u32::from(half[0]) << 8 | u32::from(half[1])).sum();
    while sum > 0xFFFF {
        sum = (sum & 0xFFFF) + (sum >> 16);
    }
    sum as u16
}

/// The header with its checksum worked out afresh.
fn fresh(mut header: [u8; 20]) -> [u8; 20] {
    header[10..12].fill(0);
    let checksum = !sum(&header);
    header[10..12].copy_from_slice(&checksum.to_be_bytes());
    header
}

/// From 192.0.2.1 to an address, with a time to live.
fn header(to: [u8; 4], life: u8, ident: u16) -> [u8; 20] {
    let [high, low] = ident.to_be_bytes();
    let [a, b, c, d] = to;
    fresh([0x45, 0, 0, 0x28, high, low, 0x40, 0, life, 17, 0, 0, 192, 0, 2, 1, a, b, c, d])
}

/// 10.0.0.0/8 to 20 and 10.1.2.128/25 to 57.
fn table() -> Table {
    let mut table = Table::new(Geometry::STANDARD, 8, 1, 1).unwrap();
    table.announce([10, 0, 0, 0], 8, 20, Mark::Behind).unwrap();
    table.announce([10, 1, 2, 128], 25, 57, Mark::Behind).unwrap();
    table
}

#[test]
fn lowered() {
    let table = table();
    for (to, hop, reads) in [([10, 1, 2, 200], 57, 3), ([10, 1, 2, 5], 20, 3), ([10, 9, 0, 1], 20, 1)] {
        for life in [2, 3, 64, 255] {
            // Every identification: every checksum but one of two zeros is met.
            for ident in 0..=u16::MAX {
                let mut packet = header(to, life, ident);
                assert_eq!(table.step(&mut packet), Ok(Found { hop: Some(hop), reads }));
                assert_eq!(packet, header(to, life - 1, ident));
            }
        }
    }
}

#[test]
fn left() {
    let table = table();
    let mut packet = header([11, 0, 0, 1], 64, 1);
    let was = packet;
    assert_eq!(table.step(&mut packet), Ok(Found { hop: None, reads: 1 }));
    assert_eq!(packet, was);
    assert_eq!(table.view().step(&mut packet), Ok(Found { hop: None, reads: 1 }));
    // Each refusal in its order: what is wrong with the packet, and the number.
    let cases: [(fn(&mut [u8; 20]), u8, Reason); 5] = [
        (|_| (), 19, Reason::Short),
        (|p| p[0] = 0x46, 20, Reason::Header),
        (|p| p[0] = 0x65, 20, Reason::Header),
        (|p| p[1] ^= 1, 20, Reason::Checksum),
        (|p| *p = header([10, 1, 2, 200], 1, 7), 20, Reason::Life),
    ];
    for (harm, bytes, reason) in cases {
        let mut packet = header([10, 1, 2, 200], 2, 7);
        harm(&mut packet);
        let was = packet;
        assert_eq!(table.step(&mut packet[..bytes.into()]).unwrap_err().reason, reason);
        assert_eq!(packet, was);
    }
    let mut damaged = table.clone();
    damaged.first[2561] = 2;
    let mut packet = header([10, 1, 2, 200], 2, 7);
    let was = packet;
    assert_eq!(damaged.step(&mut packet).unwrap_err().reason, Reason::Unsound);
    assert_eq!(packet, was);
}
