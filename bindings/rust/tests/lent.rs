//! Tables and images over lent buffers: the same answers as the calls themselves give, and the count kept.

use ghatumri::*;
use std::net::Ipv4Addr;

/// Buffers for a table, with old content.
struct Buffers {
    list: Vec<u8>,
    first: Vec<u16>,
    second: Vec<u16>,
    third: Vec<u16>,
    own2: Vec<u32>,
    own3: Vec<u32>,
    long1: Vec<u16>,
    long2: Vec<u16>,
}

impl Buffers {
    fn new(g: Geometry, room: usize, second: usize, third: usize) -> Buffers {
        Buffers {
            list: vec![7; 8 * room],
            first: vec![7; g.first_cells()],
            second: vec![7; second * g.second_chunk()],
            third: vec![7; third * g.third_chunk()],
            own2: vec![7; second],
            own3: vec![7; third],
            long1: vec![7; g.first_cells()],
            long2: vec![7; second * g.second_chunk()],
        }
    }

    fn lend(&mut self, geometry: Geometry) -> TableMut<'_> {
        TableMut {
            geometry,
            count: 0,
            list: &mut self.list,
            first: &mut self.first,
            second: &mut self.second,
            third: &mut self.third,
            own2: &mut self.own2,
            own3: &mut self.own3,
            long1: &mut self.long1,
            long2: &mut self.long2,
        }
    }
}

fn routes_of(text: &str) -> Vec<Route> {
    text.lines().map(|line| line.trim().parse().unwrap()).collect()
}

/// List A of document 01, and one route more.
fn listed() -> Vec<Route> {
    routes_of(
        "0.0.0.0/0 6
        10.0.0.0/8 20
        10.1.0.0/16 31
        10.1.2.0/24 44
        10.1.2.128/25 57
        10.2.3.0/24 300 attached",
    )
}

fn input() -> Vec<u8> {
    listed().iter().flat_map(Route::record).collect()
}

#[test]
fn a_table_and_its_count() {
    let mut buffers = Buffers::new(Geometry::STANDARD, 8, 2, 1);
    let mut table = buffers.lend(Geometry::STANDARD);
    assert_eq!(table.report().unwrap_err().reason, Reason::Unsound);
    table.make().unwrap();
    for route in listed() {
        assert_eq!(
            table.announce(route.addr, route.len, route.hop, route.mark),
            Ok(Announced::Added { cleared: false })
        );
    }
    assert_eq!(table.count, 6);
    assert_eq!(table.report(), Ok(Report { routes: 6, second: 2, third: 1 }));
    assert_eq!(table.records(), input());
    assert!(table.routes().unwrap().eq(listed()));

    // A refusal leaves the count, and all else.
    assert_eq!(table.announce([10, 3, 0, 0], 17, 1, Mark::Behind).unwrap_err().reason, Reason::Second);
    assert_eq!(table.withdraw([10, 3, 0, 0], 17).unwrap_err().reason, Reason::Absent);
    assert_eq!(table.load(&input()[1..]).unwrap_err(), Refusal { reason: Reason::Input, index: Some(5) });
    assert_eq!(table.report(), Ok(Report { routes: 6, second: 2, third: 1 }));
    assert_eq!(table.lookup([10, 1, 2, 200]), Ok(Found { hop: Some(57), reads: 3 }));
    assert_eq!(table.lookup([10, 2, 3, 4]), Ok(Found { hop: Some(300), reads: 2 }));

    // A view is the same table.
    let view = table.view();
    assert_eq!(view.lookup([10, 2, 3, 4]), table.lookup([10, 2, 3, 4]));
    assert_eq!((view.report(), view.records()), (table.report(), table.records()));

    assert_eq!(table.withdraw([10, 2, 3, 0], 24), Ok(Withdrawn { cleared: false }));
    assert_eq!((table.count, table.report().unwrap().second), (5, 1));
    assert_eq!(table.load(&input()), Ok(6));
    assert_eq!(table.count, 6);
    table.make().unwrap();
    assert_eq!(table.count, 0);
    assert!(table.first.iter().all(|&cell| cell == 0x8000) && table.list.iter().all(|&byte| byte == 0));
}

/// The list is damaged, or the count is beyond it.
#[test]
fn routes_of_a_damaged_list() {
    let mut buffers = Buffers::new(Geometry::SMALL, 6, 4, 4);
    let mut table = buffers.lend(Geometry::SMALL);
    table.load(&input()).unwrap();
    table.list[8 * 4 + 7] = 0;
    assert_eq!(table.routes().unwrap_err(), Refusal { reason: Reason::Hop, index: Some(4) });
    table.count = u32::MAX;
    assert_eq!(table.records().len(), 8 * 6);
    assert_eq!(table.lookup([10, 1, 2, 200]).unwrap().hop, Some(57));
    assert_eq!(table.announce([0; 4], 0, 6, Mark::Behind).unwrap_err().reason, Reason::Unsound);
    assert_eq!(table.count, u32::MAX);
}

/// Many lookups are as many single ones, whatever the addresses are given as, and across the blocks they are taken in.
#[test]
fn many() {
    let mut buffers = Buffers::new(Geometry::STANDARD, 8, 2, 1);
    let mut table = buffers.lend(Geometry::STANDARD);
    table.load(&input()).unwrap();
    // 10.0.0.0 to 10.2.255.255 in steps of 100 or so.
    let numbers: Vec<u32> = (0..1900).map(|k| 0x0A00_0000 + k * 103).collect();
    let addrs: Vec<Ipv4Addr> = numbers.iter().map(|&n| n.into()).collect();
    for n in [0, 1, 511, 512, 513, 1024, 1900] {
        let mut out = vec![Answer::default(); n];
        table.lookup_many(&addrs[..n], &mut out).unwrap();
        for (addr, answer) in addrs.iter().zip(&out) {
            assert_eq!(answer.found(), table.lookup(*addr));
        }
        let mut same = vec![Answer::default(); n];
        table.lookup_many(&numbers[..n], &mut same).unwrap();
        assert_eq!(out, same);
    }

    let new = Answer::default();
    let mut out = [new; 3];
    assert_eq!(table.lookup_many(&addrs[..2], &mut out).unwrap_err().reason, Reason::Size);
    assert_eq!(table.lookup_many(&addrs[..4], &mut out).unwrap_err().reason, Reason::Size);
    assert_eq!(out, [new; 3]);
    assert_eq!(new.found(), Ok(Found { hop: None, reads: 0 }));

    // Of a broken chunk number the answer of its own address tells, and no other.
    table.first[0x0A01] = 3;
    table.lookup_many(&[[10, 1, 2, 200], [10, 2, 3, 4], [9, 9, 9, 9]], &mut out).unwrap();
    assert_eq!(out[0].found().unwrap_err(), Refusal { reason: Reason::Unsound, index: None });
    assert_eq!(out[1].found(), Ok(Found { hop: Some(300), reads: 2 }));
    assert_eq!(out[2].found(), Ok(Found { hop: Some(6), reads: 1 }));
    assert_eq!(format!("{:?}", out[2]), "Ok(Found { hop: Some(6), reads: 1 })");

    table.geometry.p2 = 27;
    assert_eq!(table.lookup_many::<u32>(&[], &mut []).unwrap_err().reason, Reason::Geometry);
    assert_eq!(table.lookup_many(&addrs[..1], &mut []).unwrap_err().reason, Reason::Geometry);
}

/// The limits and sizes of a geometry are the library's.
#[test]
fn geometries() {
    let edge = |x: u32| [x, x << 8, x << 31, u32::MAX - x];
    for p1 in (0..40).flat_map(edge) {
        for p2 in (0..40).flat_map(edge) {
            let g = Geometry { p1, p2 };
            let made = Buffers::new(g, 1, 1, 1).lend(g).make();
            assert_eq!(g.within_limits(), made.is_ok(), "{g:?}");
            assert!(made.is_ok() || made.unwrap_err().reason == Reason::Geometry && g.first_cells() == 0);
        }
    }
    let g = Geometry::STANDARD;
    assert_eq!((g.first_cells(), g.second_chunk(), g.third_chunk()), (65_536, 256, 256));
    let g = Geometry { p1: 14, p2: 23 };
    assert_eq!((g.first_cells(), g.second_chunk(), g.third_chunk()), (1 << 14, 512, 512));
}

#[test]
fn an_image() {
    let (mut words, mut hops) = ([9; words_for(6)], [9; 6]);
    let mut image = ImageMut { words: &mut words, hops: &mut hops };
    assert_eq!(image.lookup([10, 1, 2, 200]).unwrap_err().reason, Reason::Image);
    let Built { nodes, hops } = image.build(&input()).unwrap();
    // Seven nodes for list A, and three more under 10.0.0.0/12 for 10.2.3.0/24.
    assert_eq!((nodes, hops), (10, 6));
    assert_eq!(image.hops, [6, 20, 31, 44, 57, 300]);
    assert!(image.words[3 * nodes..].iter().all(|&word| word == 0));
    assert_eq!(image.lookup([10, 1, 2, 200]), Ok(Found { hop: Some(57), reads: 8 }));
    let view = image.view();
    assert_eq!(view.lookup([10, 2, 3, 4]), Ok(Found { hop: Some(300), reads: 8 }));
    assert_eq!(view.lookup([10, 2, 3, 4]), image.lookup([10, 2, 3, 4]));
    let image = ImageRef { words: &[], hops: &[] };
    assert_eq!(image.lookup([10, 2, 3, 4]).unwrap_err().reason, Reason::Image);
}

/// What is printed of a table has its sizes and none of its cells.
#[test]
fn short_debug() {
    let mut buffers = Buffers::new(Geometry::STANDARD, 64, 4, 3);
    let mut table = buffers.lend(Geometry::STANDARD);
    table.load(&input()).unwrap();
    let shown = "{ geometry: (16, 24), count: 6, room: 64, second_chunks: 4, third_chunks: 3, .. }";
    assert_eq!(format!("{table:?}"), format!("TableMut {shown}"));
    assert_eq!(format!("{:?}", table.view()), format!("TableRef {shown}"));
    let image = ImageMut { words: &mut [0; 21], hops: &mut [0; 5] };
    assert_eq!(format!("{image:?}"), "ImageMut { nodes: 7, hops: 5, .. }");
    assert_eq!(format!("{:?}", image.view()), "ImageRef { nodes: 7, hops: 5, .. }");
    #[cfg(feature = "alloc")]
    {
        let mut owned = Table::new(Geometry::STANDARD, 64, 4, 3).unwrap();
        owned.load(&input()).unwrap();
        assert_eq!(format!("{owned:?}"), format!("Table {shown}"));
        assert_eq!(format!("{:?}", Image::new(7, 5)), "Image { nodes: 7, hops: 5, .. }");
    }
}
