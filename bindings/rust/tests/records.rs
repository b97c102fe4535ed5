//! Packets forwarded and counted, through the safe methods: list A, with port 100 + h for hop h. The numbers are document
//! 02's and RFC 2578's.
#![cfg(feature = "alloc")]

use core::mem::{offset_of, size_of};
use ghatumri::*;

fn list_a() -> Vec<u8> {
    let route = |addr: [u8; 4], len, hop| Route::new(addr, len, hop, Mark::Behind).record();
    [
        route([0, 0, 0, 0], 0, 6),
        route([10, 0, 0, 0], 8, 20),
        route([10, 1, 0, 0], 16, 31),
        route([10, 1, 2, 0], 24, 44),
        route([10, 1, 2, 128], 25, 57),
    ]
    .concat()
}

fn table() -> Table {
    let mut table = Table::new(Geometry::STANDARD, 8, 1, 1).unwrap();
    table.load(&list_a()).unwrap();
    table
}

/// So many records that are up.
fn records(n: u16) -> Vec<HopRecord> {
    (1..=n).map(|hop| HopRecord::new(100 + hop)).collect()
}

fn to(hop: u16, reads: u8) -> Result<Forwarded, Refusal> {
    Ok(Forwarded { sent: Some(Sent { hop, port: 100 + hop }), reads })
}

fn refused(reason: Reason) -> Result<Forwarded, Refusal> {
    Err(Refusal { reason, index: None })
}

/// The struct as C has it.
#[test]
fn layout() {
    assert_eq!(size_of::<HopRecord>(), 12);
    assert_eq!(offset_of!(HopRecord, port), 0);
    assert_eq!(offset_of!(HopRecord, up), 2);
    assert_eq!(offset_of!(HopRecord, packets), 4);
    assert_eq!(offset_of!(HopRecord, octets), 8);
    assert!(HopRecord::new(7).is_up());
    assert!((0..=255).all(|up| HopRecord { up, ..HopRecord::default() }.is_up() == (up == 1)));
}

#[test]
fn forwarded() {
    let table = table();
    let mut records = records(57);
    records[56].packets = 4_294_967_295;
    records[56].octets = 4_294_967_000;
    let mut expected = records.clone();
    assert_eq!(raw::forward(&table.view(), &mut records, 0x0A01_02C8, 1500), 0x0000_009D_0039_0300);
    expected[56].packets = 0;
    expected[56].octets = 1204;
    assert_eq!(records, expected);
    let cases = [
        ([10, 1, 2, 200], 57, 3),
        ([10, 1, 2, 5], 44, 3),
        ([10, 1, 3, 1], 31, 2),
        ([10, 2, 0, 1], 20, 1),
        ([192, 0, 2, 1], 6, 1),
    ];
    for (k, (addr, hop, reads)) in cases.into_iter().enumerate() {
        let octets = 40 + k as u32;
        assert_eq!(table.forward(&mut records, addr, octets), to(hop, reads));
        let its = &mut expected[usize::from(hop) - 1];
        its.packets += 1;
        its.octets += octets;
        assert_eq!(records, expected);
    }
    // Ten packets from 4,294,967,290 on.
    records[56].packets = 4_294_967_290;
    for _ in 0..10 {
        assert_eq!(table.view().forward(&mut records, [10, 1, 2, 200], 1500), to(57, 3));
    }
    assert_eq!(records[56].packets, 4);
}

/// Lookup's own, 14, 15 and no route leave every record.
#[test]
fn not_forwarded() {
    let mut table = table();
    let mut records = records(57);
    let leaves = |table: &Table, records: &mut [HopRecord], addr: [u8; 4], answer| {
        let was = records.to_vec();
        assert_eq!(table.forward(records, addr, 1500), answer);
        assert_eq!(table.lookup(addr).and_then(|found| found.count(records, 1500)), answer);
        assert_eq!(records, was);
    };
    leaves(&table, &mut records[..56], [10, 1, 2, 200], refused(Reason::Record));
    leaves(&table, &mut [], [10, 1, 2, 200], refused(Reason::Record));
    for up in [0, 2, 3, 128, 255] {
        records[56].up = up;
        leaves(&table, &mut records, [10, 1, 2, 200], refused(Reason::Down));
        leaves(&table, &mut records[..56], [10, 1, 2, 200], refused(Reason::Record));
    }
    table.withdraw([0, 0, 0, 0], 0).unwrap();
    leaves(&table, &mut records, [192, 0, 2, 1], Ok(Forwarded { sent: None, reads: 1 }));
    table.second[2] = 0;
    leaves(&table, &mut records, [10, 1, 2, 200], refused(Reason::Unsound));
    table.count = 0;
    table.geometry.p1 = 11;
    leaves(&table, &mut records, [10, 1, 2, 200], refused(Reason::Geometry));
}

/// By what was found, one by one and among many, in a table and in an image.
#[test]
fn counted() {
    let table = table();
    let mut records = records(57);
    let mut out = [Answer::default(); 3];
    table.lookup_many(&[[10, 1, 2, 200], [10, 1, 2, 5], [10, 1, 2, 200]], &mut out).unwrap();
    let sent = out.map(|answer| answer.count(&mut records, 40));
    assert_eq!(sent, [to(57, 3), to(44, 3), to(57, 3)]);
    assert_eq!((records[56].packets, records[56].octets), (2, 80));
    assert_eq!((records[43].packets, records[43].octets), (1, 40));
    let mut image = Image::new(7, 5);
    image.build(&list_a()).unwrap();
    assert_eq!(image.lookup([10, 1, 2, 200]).unwrap().count(&mut records, 2), to(57, 8));
    assert_eq!((records[56].packets, records[56].octets), (3, 82));
    // Numbers that no lookup answers: as they are without a hop, and 14 over 32,767.
    let was = records.clone();
    for found in [0, 0x100, 0xFF00, 5, 0x0039_0305, 0x3_0000_010A, u64::MAX] {
        assert_eq!(raw::count(found, &mut records, 9), found);
    }
    let mut many = vec![HopRecord::new(9); 40_000];
    for found in [0x8000_0300, 0x1_0001_0000, 0x9D_0039_0300, 0x1_0000_0000, 0xFFFF_FFFF_FFFF_FF00] {
        assert_eq!(raw::count(found, &mut many, 9), 14);
    }
    assert!(many.iter().all(|record| *record == HopRecord::new(9)));
    assert_eq!(raw::count(0x7FFF_0300, &mut many, 9), 0x9_7FFF_0300);
    assert_eq!(many[32_766], HopRecord { packets: 1, octets: 9, ..HopRecord::new(9) });
    assert_eq!(records, was);
}
