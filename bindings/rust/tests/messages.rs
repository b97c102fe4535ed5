//! Messages through the safe methods: what BIRD 2.0.12 sent (tests/peers/bgp), and the numbers that documents 01 and 02 give.
#![cfg(feature = "alloc")]

use ghatumri::*;

/// List A's prefixes as a route field.
const FIELD_A: [u8; 15] = [0, 8, 10, 16, 10, 1, 24, 10, 1, 2, 25, 10, 1, 2, 128];

/// BIRD's reachability field: 11 prefixes, not sorted; and six that it withdraws later.
const REACH: [u8; 36] = [
    0x00, 0x16, 0xc6, 0x33, 0x64, 0x0c, 0xac, 0x10, 0x18, 0xc0, 0x00, 0x02, 0x18, 0x0a, 0x01, 0x02, 0x10, 0x0a, 0x01,
    0x01, 0x80, 0x0a, 0x64, 0x40, 0x19, 0x0a, 0x01, 0x02, 0x80, 0x08, 0x0a, 0x20, 0xcb, 0x00, 0x71, 0x07,
];
const GONE: [u8; 21] = [
    0x16, 0xc6, 0x33, 0x64, 0x0c, 0xac, 0x10, 0x18, 0xc0, 0x00, 0x02, 0x01, 0x80, 0x0a, 0x64, 0x40, 0x20, 0xcb, 0x00,
    0x71, 0x07,
];

fn table(room: usize, second: usize, third: usize) -> Table {
    Table::new(Geometry::STANDARD, room, second, third).unwrap()
}

#[test]
fn all_or_up_to_a_stop() {
    let cases = [
        (64, 4, 4, Updated::Done { entries: 11 }, 11),
        (64, 3, 4, Updated::Stopped { entries: 10, reason: Reason::Second }, 10),
        (64, 4, 1, Updated::Stopped { entries: 10, reason: Reason::Third }, 10),
        (8, 4, 4, Updated::Stopped { entries: 8, reason: Reason::Room }, 8),
    ];
    for (room, second, third, says, routes) in cases {
        let mut t = table(room, second, third);
        assert_eq!((t.update(&[], &REACH, 44), t.count), (Ok(says), routes));
        assert_eq!(u32::from(t.report().unwrap().routes), routes);
        assert!(t.routes().unwrap().all(|r| (r.hop, r.mark) == (44, Mark::Behind)));
    }
    let mut t = table(64, 4, 4);
    let _ = t.update(&[], &REACH, 44).unwrap();
    let report = t.report().unwrap();
    assert_eq!((report.second, report.third), (4, 2));
}

/// A withdrawal of an absent prefix is passed over and counts; what is left is list A's prefixes.
#[test]
fn withdrawn() {
    let mut t = table(64, 3, 4);
    let _ = t.update(&[], &REACH, 44).unwrap();
    assert_eq!((t.update(&GONE, &[], 1), t.count), (Ok(Updated::Done { entries: 6 }), 5));
    let mut out = [0xEE; 16];
    assert_eq!(write_field(t.records(), &mut out), Ok(15));
    assert_eq!((&out[..15], out[15]), (&FIELD_A[..], 0xEE));
    assert_eq!(write_field(t.records(), &mut out[..14]).unwrap_err().reason, Reason::Buffer);
    assert_eq!((t.update(&FIELD_A, &[], 1), t.count), (Ok(Updated::Done { entries: 5 }), 0));
}

/// A refusal of the whole leaves the table, its count too, and the fields are judged before the hop.
#[test]
fn refused() {
    let mut t = table(64, 4, 4);
    let _ = t.update(&[], &FIELD_A, 44).unwrap();
    let before = t.clone();
    for (withdrawn, reach, hop, number) in
        [(&[33][..], &[][..], 0, 17), (&[], &[24, 10, 1], 44, 17), (&[], &[], 0, 4), (&FIELD_A, &[], 32_768, 4)]
    {
        assert_eq!(
            t.update(withdrawn, reach, hop).unwrap_err(),
            Refusal { reason: Reason::from_number(number).unwrap(), index: None }
        );
        assert_eq!(t, before);
    }
    t.count = 4;
    assert_eq!(t.update(&[33], &[], 0).unwrap_err().number(), 5);
    t.count = 5;
    assert_eq!(t.update(&[], &[], 32_767), Ok(Updated::Done { entries: 0 }));
    // What stands so stays to the byte.
    assert_eq!(t.update(&[], &FIELD_A, 44), Ok(Updated::Done { entries: 5 }));
    assert_eq!(t, before);
}
