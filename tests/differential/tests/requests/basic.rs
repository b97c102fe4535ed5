//! Request k: bit maps for the oldest cards.

use crate::*;
use differential::basic::{build, damage, lookup, lookup_many, other_size, place, BYTES, CELLS};
use differential::gen::{edges, spread, Field, Rng};

struct Maps {
    input: Vec<u8>,
    map: Vec<u8>,
    cells: Vec<u16>,
}

impl Maps {
    /// The maps of these routes, built over old words.
    fn of(routes: &[Route]) -> Maps {
        let mut maps = Maps { input: records(routes), map: vec![0xA5; BYTES], cells: vec![0xA55A; CELLS] };
        assert_eq!(build(&maps.input, &mut maps.map, &mut maps.cells), 0);
        maps
    }

    fn look(&self, addr: u32) -> u64 {
        lookup(&self.input, &self.map, &self.cells, addr)
    }
}

fn hop(hop: u64) -> u64 {
    hop << 16
}

/// Places of the bits that are set.
fn set_bits(map: &[u8]) -> Vec<usize> {
    (0..8 * map.len()).filter(|&k| map[k / 8] >> (k % 8) & 1 == 1).collect()
}

/// The table of figure 2 of source document 000, its bits at the top of the address.
fn figure() -> Vec<Route> {
    let bits =
        [("", 6), ("1", 4), ("01", 3), ("001", 3), ("111", 7), ("0011", 1), ("1110", 8), ("11100", 2), ("001011", 9)];
    let mut routes: Vec<Route> = bits
        .iter()
        .map(|(b, hop)| to(u32::from_str_radix(&format!("{b:0<32}"), 2).unwrap(), b.len() as u8, *hop))
        .collect();
    routes.sort();
    routes
}

#[test]
fn the_figure_of_the_source() {
    let m = Maps::of(&figure());
    assert_eq!(m.map[..10], [0x15, 0x41, 0x04, 0x20, 0x00, 0x00, 0x00, 0x08, 0x00, 0x04]);
    assert!(m.map[10..].iter().all(|&b| b == 0));
    let standing: Vec<(usize, u16)> = (0..CELLS).filter(|&k| m.cells[k] != 0).map(|k| (k, m.cells[k])).collect();
    assert_eq!(standing, [(0, 6), (2, 4), (4, 3), (8, 3), (14, 7), (18, 1), (29, 8), (59, 2), (74, 9)]);
    // Levels 0 to 3 of part (c), B3 with its two solid nodes, and N3.
    assert_eq!(set_bits(&m.map[..2]), [0, 2, 4, 8, 14]);
    assert_eq!(m.cells[7..15], [0, 3, 0, 0, 0, 0, 0, 7]);
    // The address 001010 of the text is not in 001011*, and falls to 001*.
    assert_eq!(m.look(ip(40, 0, 0, 0)), hop(3));
    for (a, h) in [(44, 9), (60, 1), (100, 3), (128, 4), (224, 2), (232, 8), (240, 7), (0, 6)] {
        assert_eq!(m.look(ip(a, 0, 0, 0)), hop(h), "{a}");
    }
}

#[test]
fn list_a_in_maps() {
    let mut m = Maps::of(&list_a());
    assert_eq!(set_bits(&m.map), [0, 265, 68_096]);
    assert_eq!((m.map[0], m.map[33], m.map[8_512]), (0x01, 0x02, 0x01));
    assert_eq!((m.cells[0], m.cells[265], m.cells[68_096]), (6, 20, 31));
    assert_eq!(m.cells.iter().filter(|&&c| c != 0).count(), 3);
    // The first two are found in the list.
    let asked = [ip(10, 1, 2, 200), ip(10, 1, 2, 5), ip(10, 1, 3, 1), ip(10, 2, 0, 1), ip(192, 0, 2, 1)];
    let hops = [57, 44, 31, 20, 6];
    for (a, h) in asked.iter().zip(hops) {
        assert_eq!(m.look(*a), hop(h));
    }
    let mut out = [9; 5];
    assert_eq!(lookup_many(&m.input, &m.map, &m.cells, &asked, &mut out), 0);
    assert_eq!(out.map(|o| o as u64), hops.map(hop));
    // Without its bit the longest prefix does not stand, whatever its cell holds.
    m.map[8_512] = 0;
    assert_eq!(m.look(ip(10, 1, 3, 1)), hop(20));
}

/// "13 where the first set bit met on the way down has a hop outside 1 to 32,767": a shorter one does not help, and
/// what is found before is not touched.
#[test]
fn broken_cells() {
    let mut m = Maps::of(&list_a());
    for bad in [0, 32_768, 65_535] {
        m.cells[265] = bad;
        assert_eq!(m.look(ip(10, 2, 0, 1)), 13);
        assert_eq!(m.look(ip(10, 1, 3, 1)), hop(31));
        assert_eq!(m.look(ip(10, 1, 2, 200)), hop(57));
        assert_eq!(m.look(ip(192, 0, 2, 1)), hop(6));
        let mut out = [9; 2];
        assert_eq!(lookup_many(&m.input, &m.map, &m.cells, &[ip(10, 2, 0, 1), 0], &mut out), 0);
        assert_eq!(out, [13, 6 << 16]);
    }
    m.cells[265] = 32_767;
    assert_eq!(m.look(ip(10, 2, 0, 1)), hop(32_767));
    // A bit that no route set, and one that is gone at level 0.
    m.map[place(ip(10, 2, 0, 0), 16) / 8] |= 1 << (place(ip(10, 2, 0, 0), 16) % 8);
    assert_eq!(m.look(ip(10, 2, 0, 1)), 13);
    m.map[0] = 0;
    assert_eq!(m.look(ip(192, 0, 2, 1)), 0);
    // The last bit is nobody's.
    m.map[BYTES - 1] |= 0x80;
    assert_eq!(m.look(u32::MAX), 0);
}

/// The last prefix of level 16 has the last cell; the bit after its own is the last one, and zero.
#[test]
fn places() {
    assert_eq!((place(u32::MAX, 0), place(0, 1), place(u32::MAX, 1), place(0, 2)), (0, 1, 2, 3));
    assert_eq!((place(0, 16), place(u32::MAX, 16)), (65_535, CELLS - 1));
    let m = Maps::of(&[to(ip(255, 255, 0, 0), 16, 5)]);
    assert_eq!(set_bits(&m.map), [CELLS - 1]);
    assert_eq!(m.map[BYTES - 1], 0x40);
    assert_eq!((m.look(u32::MAX), m.look(ip(255, 254, 0, 0))), (hop(5), 0));
    let empty = Maps::of(&[]);
    assert!(empty.map.iter().all(|&b| b == 0) && empty.cells.iter().all(|&c| c == 0));
    assert_eq!(empty.look(7), 0);
}

/// "the record input's; 2 for another array size", and a refusal leaves all.
#[test]
fn refusals() {
    let good = records(&list_a());
    let mut bad = good.clone();
    bad[8 + 5] = 2;
    let many = records(&(0..4097).map(|k| to(k << 16, 16, 1)).collect::<Vec<_>>());
    for (bytes, cells) in [(16_383, 131_071), (16_385, 131_071), (16_384, 131_070), (16_384, 131_072), (0, 0)] {
        let (mut map, mut cells) = (vec![3; bytes], vec![4; cells]);
        for (input, answer) in
            [(&good[..], 2), (&bad[..], refused_at(10, 1)), (&good[..39], refused_at(10, 4)), (&many[..], 6)]
        {
            assert_eq!(build(input, &mut map, &mut cells), answer);
            assert_eq!(lookup(input, &map, &cells, 5), answer);
            assert_eq!(lookup_many(input, &map, &cells, &[5], &mut [7]), answer);
        }
        assert!(map.iter().all(|&b| b == 3) && cells.iter().all(|&c| c == 4));
    }
    let m = Maps::of(&list_a());
    for room in [0, 1, 3] {
        let mut out = vec![7; room];
        assert_eq!(lookup_many(&m.input, &m.map, &m.cells, &[5, 6], &mut out), 2);
        assert_eq!(lookup_many(&bad, &m.map, &m.cells, &[5, 6], &mut out), refused_at(10, 1));
        assert!(out.iter().all(|&o| o == 7));
    }
    assert_eq!(lookup(&bad, &m.map, &m.cells, 5), refused_at(10, 1));
}

/// "For every good record input, the arrays built from it and every address, its hop equals that of the covering
/// rule." And of arrays of any content the first set bit decides.
#[test]
fn as_the_covering_rule() {
    let mut rng = Rng::new(23);
    let mut broken = 0;
    for round in 0..12 {
        let field = Field::new(&mut rng, 12, 22);
        let routes = if round % 3 == 0 { spread(&mut rng, 40) } else { field.routes(&mut rng, 30) };
        let mut m = Maps::of(&routes);
        for addr in edges(&routes) {
            assert_eq!(m.look(addr), hop(search(&routes, addr) as u64), "{addr:08x}");
        }
        let short: Vec<usize> = routes.iter().filter(|r| r.len <= 16).map(|r| place(r.addr, r.len)).collect();
        assert_eq!(set_bits(&m.map).len(), short.len());
        for _ in 0..20 {
            let addr = field.addr(&mut rng);
            damage(&mut rng, &mut m.map, &mut m.cells, addr);
            let long: Vec<Route> = routes.iter().filter(|r| r.len > 16).copied().collect();
            let first = (0..=16).rev().map(|len| place(addr, len)).find(|k| set_bits(&m.map).contains(k));
            let answer = match (search(&long, addr), first.map(|k| m.cells[k])) {
                (0, None) => 0,
                (0, Some(c)) if c == 0 || c > 32_767 => 13,
                (0, Some(c)) => hop(c as u64),
                (h, _) => hop(h as u64),
            };
            assert_eq!(m.look(addr), answer);
            broken += (answer == 13) as u32;
        }
        let (bytes, cells) = other_size(&mut rng);
        assert_eq!(build(&m.input, &mut vec![0; bytes], &mut vec![0; cells]), 2);
    }
    assert!(broken > 20, "{broken} broken");
}
