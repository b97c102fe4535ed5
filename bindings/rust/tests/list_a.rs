//! List A of document 01, and the refusals, in tables and images that own their buffers.
#![cfg(feature = "alloc")]

use ghatumri::*;
use std::net::Ipv4Addr;

fn list_a() -> Vec<u8> {
    [
        Route::new([0, 0, 0, 0], 0, 6, Mark::Behind),
        Route::new([10, 0, 0, 0], 8, 20, Mark::Behind),
        Route::new([10, 1, 0, 0], 16, 31, Mark::Behind),
        Route::new([10, 1, 2, 0], 24, 44, Mark::Behind),
        Route::new([10, 1, 2, 128], 25, 57, Mark::Behind),
    ]
    .iter()
    .flat_map(Route::record)
    .collect()
}

const ADDED: Announced = Announced::Added { cleared: false };
const REPLACED: Announced = Announced::Replaced { cleared: false };

fn refused<T: std::fmt::Debug>(r: Result<T, Refusal>) -> (u8, Option<u32>) {
    let refusal = r.unwrap_err();
    (refusal.number(), refusal.index)
}

#[test]
fn a_table() {
    let mut table = Table::new(Geometry::STANDARD, 8, 1, 1).unwrap();
    assert_eq!(table.load(&list_a()), Ok(5));
    assert_eq!(table.records(), list_a());
    let hop = |t: &Table, a: [u8; 4]| t.lookup(a).map(|f| (f.hop, f.reads));
    assert_eq!(hop(&table, [10, 1, 2, 200]), Ok((Some(57), 3)));
    assert_eq!(hop(&table, [10, 1, 2, 5]), Ok((Some(44), 3)));
    assert_eq!(hop(&table, [10, 1, 3, 1]), Ok((Some(31), 2)));
    assert_eq!(hop(&table, [192, 0, 2, 1]), Ok((Some(6), 1)));
    assert_eq!(table.report(), Ok(Report { routes: 5, second: 1, third: 1 }));
    assert_eq!((table.first[2561], table.own2[0], table.second[2], table.own3[0]), (1, 2562, 1, 3));
    assert_eq!((table.long1[2561], table.long1[2560], table.long2[2], table.long2[3]), (2, 0, 1, 0));

    let addrs = [Ipv4Addr::new(10, 1, 2, 200), Ipv4Addr::new(0, 0, 0, 0)];
    let mut out = [Answer::default(); 2];
    table.lookup_many(&addrs, &mut out).unwrap();
    assert_eq!(out[0].found(), Ok(Found { hop: Some(57), reads: 3 }));
    assert_eq!(out[1].found(), Ok(Found { hop: Some(6), reads: 1 }));
    assert_eq!(refused(table.lookup_many(&addrs, &mut [Answer::default(); 3])), (2, None));

    assert_eq!(table.announce([10, 1, 0, 0], 16, 32, Mark::Behind), Ok(REPLACED));
    assert_eq!(table.announce([11, 0, 0, 0], 8, 7, Mark::Attached), Ok(ADDED));
    assert_eq!(table.count, 6);
    assert_eq!(route(table.records(), 5), Ok(Some(Route::new([11, 0, 0, 0], 8, 7, Mark::Attached))));
    assert_eq!(table.announce([11, 0, 0, 0], 8, 7, Mark::Behind), Ok(REPLACED));
    assert_eq!(route(table.records(), 5).unwrap().unwrap().mark, Mark::Behind);
    assert_eq!(refused(table.announce([10, 2, 0, 0], 17, 7, Mark::Behind)), (7, None));
    assert_eq!(refused(table.announce([10, 1, 0, 0], 33, 0, Mark::Behind)), (3, None));
    assert_eq!(table.withdraw([0, 0, 0, 0], 0), Ok(Withdrawn { cleared: false }));
    assert_eq!(hop(&table, [192, 0, 2, 1]), Ok((None, 1)));
    assert_eq!(refused(table.withdraw([0, 0, 0, 0], 0)), (9, None));

    let before = table.clone();
    table.first[0] = 77;
    assert_eq!(refused(table.report()), (5, None));
    assert_eq!(refused(table.lookup([0, 0, 0, 1])), (5, None));
    table.first[0] = before.first[0];
    assert_eq!(table, before);
    table.make().unwrap();
    assert_eq!(table.report(), Ok(Report { routes: 0, second: 0, third: 0 }));
}

/// 10.1.2.3/24 means 10.1.2.0/24, in announce and withdraw and nowhere else.
#[test]
fn host_bits() {
    let mut table = Table::new(Geometry::STANDARD, 8, 1, 1).unwrap();
    assert_eq!(table.announce([10, 1, 2, 3], 24, 44, Mark::Behind), Ok(Announced::Added { cleared: true }));
    assert_eq!(table.records(), [0x0A, 0x01, 0x02, 0x00, 0x18, 0x00, 0x00, 0x2C]);
    assert_eq!(table.announce([10, 1, 2, 0], 24, 45, Mark::Behind), Ok(REPLACED));
    assert_eq!(table.announce([10, 1, 2, 7], 24, 46, Mark::Attached), Ok(Announced::Replaced { cleared: true }));
    assert_eq!(table.count, 1);
    assert_eq!(table.withdraw([10, 1, 2, 9], 24), Ok(Withdrawn { cleared: true }));
    assert_eq!(refused(table.withdraw([10, 1, 2, 9], 24)), (9, None));
    assert_eq!(refused(table.announce([10, 1, 2, 3], 33, 44, Mark::Behind)), (3, None));
    let loose = Route::new([10, 1, 2, 3], 24, 44, Mark::Behind).record();
    assert_eq!(refused(table.load(&loose)), (3, Some(0)));
    assert_eq!(refused(Image::of(&loose)), (3, Some(0)));
    assert_eq!(refused(run(&list_a(), [10, 1, 2, 3], 24)), (3, None));
}

/// Numbers that differ, and that do not fit 8 bits: two second chunks and one third, runs and counts over 255, an index
/// over 16 bits.
#[test]
fn every_field() {
    let mut table = Table::new(Geometry::STANDARD, 8, 2, 1).unwrap();
    table.load(&list_a()).unwrap();
    assert_eq!(table.announce([10, 2, 3, 0], 24, 300, Mark::Behind), Ok(ADDED));
    assert_eq!(table.report(), Ok(Report { routes: 6, second: 2, third: 1 }));
    assert_eq!(table.announce([10, 2, 3, 0], 24, 32_767, Mark::Behind), Ok(REPLACED));
    assert_eq!(table.lookup([10, 2, 3, 4]), Ok(Found { hop: Some(32_767), reads: 2 }));

    // 10.x.y.0/24, the k-th to hop k + 1. 10.2.0.0/15 has those from 512 on.
    let rows = |n: u32| -> Vec<u8> {
        (0..n)
            .flat_map(|k| Route::new(0x0A00_0000 + (k << 8), 24, 1 + (k % 32_767) as u16, Mark::Behind).record())
            .collect()
    };
    let input = rows(900);
    assert_eq!(run(&input, [10, 2, 0, 0], 15), Ok(&input[8 * 512..]));
    assert_eq!(tally(&input).unwrap()[24], 900);
    assert_eq!(route(&input, 899), Ok(Some(Route::new([10, 3, 131, 0], 24, 900, Mark::Behind))));
    let mut image = Image::new(1000, 1000);
    assert_eq!(image.build(&input), Ok(Built { nodes: 965, hops: 900 }));
    assert_eq!(image.lookup([10, 3, 4, 255]), Ok(Found { hop: Some(773), reads: 8 }));

    let mut long = rows(70_000);
    assert_eq!(refused(route(&long, 0)), (6, None));
    long[8 * 66_000 + 5] = 2;
    assert_eq!(refused(tally(&long)), (10, Some(66_000)));
    long.push(0);
    assert_eq!(refused(run(&long, [0, 0, 0, 0], 0)), (10, Some(70_000)));
}

#[test]
fn sizes_and_geometries() {
    assert!(Table::new(Geometry::SMALL, 0, 0, 0).is_ok());
    assert!(Table::new(Geometry { p1: 16, p2: 26 }, 4096, 4096, 4096).is_ok());
    for (p1, p2) in [(16, 27), (12, 23), (11, 22), (0, 0), (40, 99), (u32::MAX, u32::MAX)] {
        assert_eq!(refused(Table::new(Geometry { p1, p2 }, 1, 1, 1)), (1, None));
    }
    assert_eq!(refused(Table::new(Geometry::SMALL, 4097, 0, 0)), (2, None));
    assert_eq!(refused(Table::new(Geometry::SMALL, usize::MAX, usize::MAX, usize::MAX)), (2, None));
}

#[test]
fn an_image() {
    let image = Image::of(&list_a()).unwrap();
    assert_eq!(image.words.len(), 7 * 3);
    assert_eq!(image.words[18..], [5, 7, 3]);
    assert_eq!(image.hops, [6, 20, 31, 44, 57]);
    assert_eq!(image.lookup([10, 1, 2, 200]), Ok(Found { hop: Some(57), reads: 8 }));
    assert_eq!(image.lookup([10, 1, 3, 1]), Ok(Found { hop: Some(31), reads: 7 }));
    assert_eq!(image.lookup([192, 0, 2, 1]), Ok(Found { hop: Some(6), reads: 2 }));
    assert_eq!(refused(Image::new(6, 5).build(&list_a())), (11, None));
    assert_eq!(refused(Image::new(7, 4).build(&list_a())), (12, None));
    assert_eq!(refused(Image::new(0, 0).lookup([1, 2, 3, 4])), (13, None));
    assert_eq!(Image::of(&[]).unwrap().lookup([192, 0, 2, 1]), Ok(Found { hop: None, reads: 1 }));
    let host = Image::of(&Route::new([10, 1, 2, 200], 32, 57, Mark::Behind).record()).unwrap();
    assert_eq!(host.lookup([10, 1, 2, 200]), Ok(Found { hop: Some(57), reads: 10 }));
    assert_eq!(host.lookup([10, 1, 2, 201]), Ok(Found { hop: None, reads: 8 }));
}

#[test]
fn inputs() {
    let input = list_a();
    let run_of = |a: [u8; 4], len| run(&input, a, len).map(|part| part.as_ptr() as usize - input.as_ptr() as usize);
    assert_eq!(run(&input, [10, 1, 0, 0], 16).unwrap(), &input[16..40]);
    assert_eq!((run_of([10, 1, 0, 0], 16), run_of([11, 0, 0, 0], 8)), (Ok(16), Ok(40)));
    assert!(run(&input, [11, 0, 0, 0], 8).unwrap().is_empty());
    assert_eq!(refused(run(&input, [1, 0, 0, 0], 0)), (3, None));
    let counts = tally(&input).unwrap();
    assert_eq!((counts[0], counts[8], counts[25], counts.iter().sum::<u32>()), (1, 1, 1, 5));
    assert_eq!(route(&input, 4), Ok(Some(Route::new([10, 1, 2, 128], 25, 57, Mark::Behind))));
    assert_eq!(route(&input, 5), Ok(None));
    assert_eq!(route(&input, 4).unwrap().unwrap().to_string(), "10.1.2.128/25 57");
    let attached = Route::new([10, 1, 0, 0], 16, 31, Mark::Attached);
    assert_eq!(attached.record(), [0x0A, 0x01, 0x00, 0x00, 0x10, 0x01, 0x00, 0x1F]);
    assert_eq!(route(&attached.record(), 0), Ok(Some(attached)));
    assert_eq!(attached.to_string(), "10.1.0.0/16 31 attached");
    assert_eq!(refused(tally(&input[..39])), (10, Some(4)));
    let mut bad = input.clone();
    bad[8 * 3 + 5] = 2;
    assert_eq!(refused(route(&bad, 0)), (10, Some(3)));
    assert_eq!(
        route(&bad, 0).unwrap_err().to_string(),
        "refused 10 at 3: record input not a multiple of 8 bytes, mark over 1, or not ascending; announce: mark over 1"
    );
}
