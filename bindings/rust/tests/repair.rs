//! Tables put right after a memory fault, through the safe methods: the numbers are worked out from document 02's words.
#![cfg(feature = "alloc")]

use ghatumri::*;

fn list_a() -> Vec<u8> {
    let route = |addr: [u8; 4], len, hop| Route::new(addr, len, hop, Mark::Behind).record();
    [
        route([0, 0, 0, 0], 0, 6),
        route([10, 0, 0, 0], 8, 20),
        route([10, 1, 0, 0], 16, 31),
        route([10, 1, 2, 0], 24, 44),
        route([10, 1, 2, 128], 25, 57),
    ]
    .concat()
}

/// List A in room for eight records and one chunk of each pool.
fn table() -> Table {
    let mut table = Table::new(Geometry::STANDARD, 8, 1, 1).unwrap();
    table.load(&list_a()).unwrap();
    table
}

fn found(dropped: u32, first: u32, second: u32, third: u32) -> Result<Repaired, Refusal> {
    Ok(Repaired { dropped, first, second, third })
}

#[test]
fn put_right() {
    // What is harmed, what a repair says of it, and how many routes are left.
    let cases: [(fn(&mut Table), Result<Repaired, Refusal>, u32); 8] = [
        (|_| (), found(0, 0, 0, 0), 5),
        (|t| t.list[8 * 2 + 4] = 33, found(1, 0, 255, 0), 4),
        (|t| t.list[8] = 0xFF, found(3, 512, 256, 256), 2),
        (|t| t.first[2562] = 0x8000, found(0, 1, 0, 0), 5),
        (|t| t.count = 9, found(3, 0, 0, 0), 5),
        (|t| t.count = 3, found(0, 1, 256, 256), 3),
        (|t| t.count = 0, found(0, 65_536, 256, 256), 0),
        (|t| t.list[8 * 4 + 5] = 2, found(1, 0, 1, 256), 4),
    ];
    for (harm, says, left) in cases {
        let mut t = table();
        harm(&mut t);
        assert_eq!((t.repair(), t.count), (says, left));
        assert_eq!(t.report().unwrap().routes as u32, left);
        let sound = t.clone();
        assert_eq!(t.repair(), found(0, 0, 0, 0));
        assert_eq!(t, sound);
    }
}

/// A refusal leaves the table, its count too.
#[test]
fn refused() {
    let mut t = table();
    // 10.2.2.128/25: two second chunks are needed.
    t.list[8 * 4 + 1] = 2;
    let before = t.clone();
    assert_eq!(t.repair().unwrap_err().number(), 7);
    assert_eq!(t, before);
    // 10.1.1.0/25 for 10.1.2.0/24: two third chunks are.
    let mut t = table();
    (t.list[8 * 3 + 2], t.list[8 * 3 + 4]) = (1, 25);
    assert_eq!(t.repair().unwrap_err().number(), 8);
    t.own3.push(0);
    assert_eq!(t.repair().unwrap_err().number(), 2);
    t.geometry.p1 = 11;
    assert_eq!(t.repair().unwrap_err().number(), 1);
}

/// Over lent buffers, and the words of the call itself.
#[test]
fn lent() {
    let mut t = table();
    let Table { geometry, list, first, second, third, own2, own3, long1, long2, .. } = &mut t;
    let mut lent = TableMut { geometry: *geometry, count: 9, list, first, second, third, own2, own3, long1, long2 };
    let mut out = [7; 5];
    assert_eq!(raw::repair(&mut lent, &mut out), 2);
    assert_eq!(raw::repair(&mut lent, &mut out[..3]), 2);
    assert_eq!((lent.count, out), (9, [7; 5]));
    assert_eq!(raw::repair(&mut lent, &mut out[..4]), 5 << 16);
    assert_eq!(out, [3, 0, 0, 0, 7]);
    assert_eq!((lent.repair(), lent.count), (found(3, 0, 0, 0), 5));
}
