//! The plain implementation against every example of document 01, with the counts of document 02, and against its own
//! definitions taken literally.

use differential::gen::{cut, damage_count, edges, Field, Rng};
use differential::plain::*;

fn ip(a: u8, b: u8, c: u8, d: u8) -> u32 {
    u32::from_be_bytes([a, b, c, d])
}

fn to(addr: u32, len: u8, hop: u16) -> Route {
    Route { addr, len, hop, mark: 0 }
}

fn list_a() -> Vec<Route> {
    vec![
        to(0, 0, 6),
        to(ip(10, 0, 0, 0), 8, 20),
        to(ip(10, 1, 0, 0), 16, 31),
        to(ip(10, 1, 2, 0), 24, 44),
        to(ip(10, 1, 2, 128), 25, 57),
    ]
}

/// What a lookup answers: hop and reads.
fn found(hop: u64, reads: u64) -> u64 {
    hop << 16 | reads << 8
}

fn routes_after(count: u64) -> u64 {
    count << 16
}

fn report_of(count: u64, second: u64, third: u64) -> u64 {
    count << 16 | second << 32 | third << 48
}

/// List A in the standard geometry, in arrays with some room.
fn table_a() -> Lent {
    let mut lent = Lent::new(16, 24, 8, 2, 3);
    assert_eq!(load(16, 24, &records(&list_a()), &mut lent), routes_after(5));
    lent
}

#[test]
fn a_record() {
    assert_eq!(to(ip(10, 1, 2, 128), 25, 57).record(), [0x0A, 0x01, 0x02, 0x80, 0x19, 0x00, 0x00, 0x39]);
}

#[test]
fn lookups_of_list_a() {
    let t = table_a();
    let look = |a| lookup(16, 24, 5, &t, a);
    assert_eq!(look(ip(10, 1, 2, 200)), found(57, 3));
    assert_eq!(look(ip(10, 1, 2, 5)), found(44, 3));
    assert_eq!(look(ip(10, 1, 3, 1)), found(31, 2));
    assert_eq!(look(ip(10, 2, 0, 1)), found(20, 1));
    assert_eq!(look(ip(192, 0, 2, 1)), found(6, 1));
    let addrs = [ip(10, 1, 2, 200), ip(192, 0, 2, 1)];
    let mut out = [7; 2];
    assert_eq!(lookup_many(16, 24, 5, &t, &addrs, &mut out), 0);
    assert_eq!(out, [57 << 16 | 3 << 8, 6 << 16 | 1 << 8]);
    assert_eq!(lookup_many(16, 24, 5, &t, &addrs, &mut [7; 3]), 2);
}

#[test]
fn cells_and_owners_of_list_a() {
    let t = table_a();
    assert_eq!(report(16, 24, 5, &t), report_of(5, 1, 1));
    assert_eq!((t.first[2561], t.own2[0]), (1, 2562));
    assert_eq!((t.second[2], t.own3[0]), (1, 3));
    assert_eq!(t.second[3], 0x801F);
    assert_eq!((t.own2[1], t.own3[1], t.own3[2]), (0, 0, 0));
    assert_eq!(t.third[127], 0x8000 | 44);
    assert_eq!(t.third[128], 0x8000 | 57);
    assert_eq!(t.list[40..], [0; 24]);
}

#[test]
fn withdrawals_from_list_a() {
    let mut t = table_a();
    assert_eq!(withdraw(16, 24, 5, &mut t, 0, 0), routes_after(4));
    assert_eq!(lookup(16, 24, 4, &t, ip(192, 0, 2, 1)), found(0, 1));

    let mut t = table_a();
    assert_eq!(withdraw(16, 24, 5, &mut t, ip(10, 1, 2, 128), 25), routes_after(4));
    assert_eq!(lookup(16, 24, 4, &t, ip(10, 1, 2, 200)), found(44, 2));
    assert_eq!(report(16, 24, 4, &t), report_of(4, 1, 0));
    assert_eq!(t.own3, [0, 0, 0]);
    assert!(t.third.iter().all(|&x| x == 0));
    // It no longer stands.
    assert_eq!(withdraw(16, 24, 4, &mut t, ip(10, 1, 2, 128), 25), 9);
}

#[test]
fn image_of_list_a() {
    let mut words = [9; 7 * 3 + 2];
    let mut hops = [9; 6];
    assert_eq!(build(&records(&list_a()), &mut words, &mut hops), 5 << 16 | 7 << 32);
    assert_eq!(words[18..], [5, 7, 3, 0, 0]);
    assert_eq!(hops, [6, 20, 31, 44, 57, 0]);
    let look = |a| tree_lookup(&words, &hops, a);
    // The counts of request c: the nodes, and one more for the hop.
    assert_eq!(look(ip(10, 1, 2, 200)), found(57, 8));
    assert_eq!(look(ip(10, 1, 3, 1)), found(31, 7));
    assert_eq!(look(ip(192, 0, 2, 1)), found(6, 2));
    // Bases count what stands before.
    assert_eq!(words[..6], [1 | 1 << 16, 1, 0, 1 << (16 + 10), 2, 1]);
}

/// Request c: "no route counts nodes only", and "the largest count is 10".
#[test]
fn counts_of_tree_lookups() {
    let image = |routes: &[Route]| {
        let (mut words, mut hops) = (vec![0; 3 * (1 + 8 * routes.len())], vec![0; routes.len()]);
        assert_eq!(number(build(&records(routes), &mut words, &mut hops)), 0);
        (words, hops)
    };
    let (words, hops) = image(&[]);
    assert_eq!(tree_lookup(&words, &hops, ip(192, 0, 2, 1)), found(0, 1));
    // A route of length 32: nine nodes and the hop for itself, eight nodes alone for its neighbour.
    let (words, hops) = image(&[to(ip(10, 1, 2, 200), 32, 70)]);
    assert_eq!(tree_lookup(&words, &hops, ip(10, 1, 2, 200)), found(70, 10));
    assert_eq!(tree_lookup(&words, &hops, ip(10, 1, 2, 201)), found(0, 8));
    // The hop of a short route is one fetch too, however deep the walk goes on.
    let (words, hops) = image(&[to(ip(10, 0, 0, 0), 8, 20), to(ip(10, 1, 2, 200), 32, 70)]);
    assert_eq!(tree_lookup(&words, &hops, ip(10, 1, 2, 201)), found(20, 9));
    assert_eq!(tree_lookup(&words, &hops, ip(11, 0, 0, 0)), found(0, 2));
    // 13 has no count.
    assert_eq!(tree_lookup(&words, &[20, 32_768], ip(10, 1, 2, 200)), 13);
}

#[test]
fn refusals_of_images() {
    let input = records(&list_a());
    assert_eq!(build(&input, &mut [0; 20], &mut [0; 5]), 11);
    assert_eq!(build(&input, &mut [0; 21], &mut [0; 4]), 12);
    assert_eq!(build(&input, &mut [0; 20], &mut [0; 4]), 11);
    assert_eq!(build(&[], &mut [], &mut []), 11);
    assert_eq!(build(&[], &mut [0; 3], &mut []), 1 << 32);
    assert_eq!(tree_lookup(&[0; 2], &[], 5), 13);
    assert_eq!(tree_lookup(&[0; 3], &[], 5), found(0, 1));
    assert_eq!(tree_lookup(&[1 << 15, 0, 0], &[], 5), 13);
    assert_eq!(tree_lookup(&[1 << 16, 1, 0], &[], 5), 13);
    assert_eq!(tree_lookup(&[1, 1, 0], &[], 5), 13);
    assert_eq!(tree_lookup(&[1, 1, 0], &[0], 5), 13);
    assert_eq!(tree_lookup(&[1, 1, 0], &[32_768], 5), 13);
    assert_eq!(tree_lookup(&[1, 1, 0], &[32_767], 5), found(32_767, 2));
    assert_eq!(tree_lookup(&[1, 1, u32::MAX], &[5], 5), 13);
    // Nodes first: the child that is missing counts although a match was found before.
    assert_eq!(tree_lookup(&[1 | 1 << 16, u32::MAX, 0], &[5], 5), 13);
    // A node that is its own child is read at each depth; at depth 8 only bits 0 and 15 are looked at.
    assert_eq!(tree_lookup(&[0xFFFF << 16 | 2, 0, 0], &[5], 0), found(5, 10));
    let deep = [1 << 16, 0, 0];
    assert_eq!(tree_lookup(&deep, &[], 0), found(0, 9));
}

#[test]
fn the_most_nodes() {
    // 4,096 routes of length 32 that part after 12 bits.
    let routes: Vec<Route> = (0..4096).map(|k| to(k << 20, 32, 1)).collect();
    let mut words = vec![0; 3 * 32_769];
    let mut hops = vec![0; 4096];
    let nodes = 1 + 16 + 256 + 6 * 4096;
    assert_eq!(build(&records(&routes), &mut words, &mut hops), 4096 << 16 | nodes << 32);
}

#[test]
fn runs_and_tally_of_list_a() {
    let input = records(&list_a());
    assert_eq!(run(&input, ip(10, 1, 0, 0), 16), 2 << 16 | 3 << 32);
    assert_eq!(run(&input, ip(11, 0, 0, 0), 8), 5 << 16);
    assert_eq!(run(&input, 0, 0), 5 << 32);
    assert_eq!(run(&input, ip(10, 1, 2, 0), 25), 4 << 16);
    assert_eq!(run(&input, ip(10, 1, 2, 128), 24), 3);
    assert_eq!(run(&input, 0, 33), 3);
    assert_eq!(run(&[], 0, 0), 0);
    let mut out = [9; 33];
    assert_eq!(tally(&input, &mut out), 0);
    let mut counts = [0; 33];
    for len in [0, 8, 16, 24, 25] {
        counts[len] = 1;
    }
    assert_eq!(out, counts);
    assert_eq!(tally(&input[..39], &mut out), refused_at(10, 4));
    assert_eq!(out, [0; 33]);
    assert_eq!(tally(&input, &mut [0; 32]), 2);
}

#[test]
fn routes_read_back() {
    let input = records(&list_a());
    assert_eq!(route(&input, 4), 25 << 8 | 57 << 16 | (ip(10, 1, 2, 128) as u64) << 32);
    assert_eq!(route(&input, 0), 6 << 16);
    assert_eq!(route(&input, 5), 0);
    assert_eq!(route(&input, u32::MAX), 0);
    assert_eq!(route(&input[..7], 0), refused_at(10, 0));
    // The one that an address meets: list A's examples, with /0 withdrawn too.
    assert_eq!(longest(&input, ip(10, 1, 2, 200)), route(&input, 4));
    assert_eq!(longest(&input, ip(10, 1, 2, 5)), route(&input, 3));
    assert_eq!(longest(&input, ip(10, 2, 0, 1)), route(&input, 1));
    assert_eq!(longest(&input, ip(192, 0, 2, 1)), route(&input, 0));
    assert_eq!(longest(&input[8..], ip(192, 0, 2, 1)), 0);
    assert_eq!(longest(&input[..7], 0), refused_at(10, 0));
}

#[test]
fn geometries() {
    let go = |p1: u32, p2: u32| {
        // Arrays of the right sizes, where the geometry has any.
        let mut lent = Lent { first: vec![0; 1 << p1], long1: vec![0; 1 << p1], ..Lent::default() };
        make(p1, p2, &mut lent)
    };
    assert_eq!(go(16, 24), 0);
    assert_eq!(go(12, 22), 0);
    assert_eq!(go(16, 26), 0);
    assert_eq!(go(16, 27), 1);
    assert_eq!(go(12, 23), 1);
    assert_eq!(go(11, 22), 1);
    assert_eq!(go(17, 26), 1);
    assert_eq!(go(16, 21), 1);
    assert_eq!(go(0, 0), 1);
    let all = (0..40).flat_map(|a| (0..40).map(move |b| (a, b))).filter(|&(a, b)| geometry_ok(a, b)).count();
    assert_eq!(all, 15);
}

#[test]
fn sizes() {
    let ok = Lent::new(12, 22, 4, 2, 3);
    assert_eq!(make(12, 22, &mut ok.clone()), 0);
    type Harm = fn(&mut Lent);
    let harms: [Harm; 11] = [
        |t| t.list.push(0),
        |t| t.list.truncate(31),
        |t| t.list = vec![0; 8 * 4097],
        |t| t.first.push(0),
        |t| t.first.truncate(4095),
        |t| t.second.push(0),
        |t| t.third.truncate(1),
        |t| t.own2.push(0),
        |t| t.own2.clear(),
        |t| t.own3.truncate(2),
        |t| {
            t.own3 = vec![0; 4097];
            t.third = vec![0; 4097 << 10];
        },
    ];
    for (k, harm) in harms.iter().enumerate() {
        let mut t = ok.clone();
        harm(&mut t);
        let before = t.clone();
        assert_eq!(make(12, 22, &mut t), 2, "{k}");
        assert_eq!(report(12, 22, 0, &t), 2, "{k}");
        assert_eq!(lookup(12, 22, 0, &t, 0), 2, "{k}");
        assert_eq!(announce(12, 22, 0, &mut t, 1, 33, 0, 0), 2, "{k}");
        assert_eq!(t, before);
    }
    let mut t = Lent::new(12, 22, 4096, 0, 4096);
    assert_eq!(make(12, 22, &mut t), 0);
}

#[test]
fn prefixes_and_hops() {
    let mut t = Lent::new(12, 22, 4, 1, 1);
    make(12, 22, &mut t);
    assert_eq!(announce(12, 22, 0, &mut t, 0, 33, 0, 0), 3);
    // A bit after the length is cleared (request b), so the hop is judged.
    assert_eq!(announce(12, 22, 0, &mut t, 1, 31, 0, 0), 4);
    assert_eq!(announce(12, 22, 0, &mut t, 0, 0, 0, 0), 4);
    assert_eq!(announce(12, 22, 0, &mut t, 0, 0, 32_768, 0), 4);
    assert_eq!(announce(12, 22, 0, &mut t, 0, 0, 32_767, 0), routes_after(1));
    assert_eq!(announce(12, 22, 1, &mut t, 0, 0, 5, 0), routes_after(1) | 1 << 8);
    assert_eq!(lookup(12, 22, 1, &t, 77), found(5, 1));
    // The count is more than the room, or past it stand other bytes than zero.
    assert_eq!(announce(12, 22, 5, &mut t, 0, 0, 5, 0), 5);
    assert_eq!(announce(12, 22, 0, &mut t, 0, 0, 5, 0), 5);
    assert_eq!(withdraw(12, 22, 5, &mut t, 0, 33), 3);
    // A number that does not fit its field is over its limit, whatever its low bits are.
    assert_eq!(announce(12, 22, 0, &mut t, 0, 256, 5, 0), 3);
    assert_eq!(announce(12, 22, 0, &mut t, 0, 0, 65_541, 0), 4);
    assert_eq!(announce(12, 22, 0, &mut t, 0, 0, 5, 257), 10);
    assert_eq!(withdraw(12, 22, 0, &mut t, 0, 256), 3);
    assert_eq!(run(&records(&list_a()), ip(10, 1, 0, 0), 272), 3);
}

#[test]
fn a_pool_of_one_chunk() {
    let mut t = Lent::new(16, 24, 4, 1, 1);
    make(16, 24, &mut t);
    assert_eq!(announce(16, 24, 0, &mut t, ip(10, 1, 2, 0), 24, 3, 0), routes_after(1));
    assert_eq!(t.first[2561], 1);
    let before = t.clone();
    assert_eq!(announce(16, 24, 1, &mut t, ip(10, 2, 2, 0), 24, 4, 0), 7);
    assert_eq!(t, before);
    assert_eq!(withdraw(16, 24, 1, &mut t, ip(10, 1, 2, 0), 24), routes_after(0));
    assert_eq!(announce(16, 24, 0, &mut t, ip(10, 2, 2, 0), 24, 4, 0), routes_after(1));
    assert_eq!((t.first[2562], t.own2[0]), (1, 2563));
    // The third pool, and the list's room, in their order.
    assert_eq!(announce(16, 24, 1, &mut t, ip(10, 2, 3, 0), 25, 4, 0), routes_after(2));
    assert_eq!(announce(16, 24, 2, &mut t, ip(10, 2, 4, 0), 25, 4, 0), 8);
    assert_eq!(announce(16, 24, 2, &mut t, ip(10, 3, 4, 0), 25, 4, 0), 7);
    assert_eq!(announce(16, 24, 2, &mut t, 0, 0, 4, 0), routes_after(3));
    assert_eq!(announce(16, 24, 3, &mut t, 0, 1, 4, 0), routes_after(4));
    assert_eq!(announce(16, 24, 4, &mut t, ip(10, 3, 4, 0), 25, 4, 0), 6);
    assert_eq!(announce(16, 24, 4, &mut t, ip(10, 2, 3, 0), 25, 9, 0), routes_after(4) | 1 << 8);
}

#[test]
fn slips_that_the_document_names() {
    let mut t = Lent::new(16, 24, 8, 2, 2);
    make(16, 24, &mut t);
    // A short route announced late leaves the longer one's leaves.
    announce(16, 24, 0, &mut t, ip(10, 1, 0, 0), 16, 1, 0);
    announce(16, 24, 1, &mut t, ip(10, 0, 0, 0), 8, 2, 0);
    assert_eq!(lookup(16, 24, 2, &t, ip(10, 1, 0, 1)), found(1, 1));
    // A withdrawal under a cover leaves the cover.
    withdraw(16, 24, 2, &mut t, ip(10, 1, 0, 0), 16);
    assert_eq!(lookup(16, 24, 1, &t, ip(10, 1, 0, 1)), found(2, 1));
    // A route of length 32, at the last address.
    announce(16, 24, 1, &mut t, u32::MAX, 32, 3, 0);
    assert_eq!(lookup(16, 24, 2, &t, u32::MAX), found(3, 3));
    assert_eq!(lookup(16, 24, 2, &t, u32::MAX - 1), found(0, 3));
}

#[test]
fn inputs() {
    let a = to(ip(10, 0, 0, 0), 8, 1);
    let b = to(ip(10, 0, 0, 0), 9, 1);
    let with = |routes: &[Route], harm: fn(&mut [u8])| {
        let mut input = records(routes);
        harm(&mut input);
        check_input(&input)
    };
    assert_eq!(with(&[], |_| ()), Ok(vec![]));
    assert_eq!(with(&[a, b], |_| ()), Ok(vec![a, b]));
    assert_eq!(with(&[b, a], |_| ()), Err(refused_at(10, 1)));
    assert_eq!(with(&[a, a], |_| ()), Err(refused_at(10, 1)));
    assert_eq!(with(&[a, b], |x| x[12] = 33), Err(refused_at(3, 1)));
    assert_eq!(with(&[a, b], |x| x[1] = 1), Err(refused_at(3, 0)));
    assert_eq!(with(&[a, b], |x| x[7] = 0), Err(refused_at(4, 0)));
    assert_eq!(with(&[a, b], |x| x[6] = 0x80), Err(refused_at(4, 0)));
    assert_eq!(with(&[a, b], |x| x[6] = 0x7F), Ok(vec![to(a.addr, 8, 0x7F01), b]));
    assert_eq!(with(&[a, b], |x| x[5] = 2), Err(refused_at(10, 0)));
    // In one record 3 comes before 4, and 4 before the mark and the order.
    assert_eq!(with(&[b, a], |x| (x[12], x[15], x[13]) = (33, 0, 2)), Err(refused_at(3, 1)));
    assert_eq!(with(&[b, a], |x| (x[15], x[13]) = (0, 2)), Err(refused_at(4, 1)));
    // The earlier record comes first, and the length before all records.
    assert_eq!(with(&[a, b], |x| (x[5], x[12]) = (2, 33)), Err(refused_at(10, 0)));
    assert_eq!(check_input(&[0xFF; 15]), Err(refused_at(10, 1)));
    // Too many records: only after each of them has passed.
    let many: Vec<Route> = (0..4097).map(|k| to(k << 8, 24, 1)).collect();
    assert!(check_input(&records(&many[..4096])).is_ok());
    assert_eq!(check_input(&records(&many)), Err(6));
    let mut input = records(&many);
    input[8 * 4096 + 5] = 2;
    assert_eq!(check_input(&input), Err(refused_at(10, 4096)));
    // Load: more than the room, and then the needs.
    let mut t = Lent::new(16, 24, 1, 0, 0);
    assert_eq!(load(16, 24, &records(&[a, b]), &mut t), 6);
    let long = [to(ip(10, 0, 0, 0), 25, 1)];
    assert_eq!(load(16, 24, &records(&long), &mut t), 7);
    assert_eq!(load(16, 24, &records(&long), &mut Lent::new(16, 24, 1, 1, 0)), 8);
    assert_eq!(load(16, 24, &records(&long), &mut Lent::new(16, 24, 1, 1, 1)), routes_after(1));
}

/// The soundness of a table, cell by cell and word by word as document 01 has it, over all routes each time.
fn sound_literally(p1: u32, p2: u32, count: u32, t: &Lent) -> bool {
    let count = count as usize;
    if count > t.room() {
        return false;
    }
    let Ok(routes) = check_input(&t.list[..8 * count]) else { return false };
    let long = |p: u32, cell: u32| routes.iter().any(|r| r.len as u32 > p && bits(r.addr, p) == cell);
    let best = |p: u32, cell: u32| {
        let addr = ((cell as u64) << (32 - p)) as u32;
        routes.iter().filter(|r| r.len as u32 <= p && r.covers(addr)).max_by_key(|r| r.len).map_or(0, |r| r.hop)
    };
    let names = |cell: u16, own: &[u32], index: usize| {
        cell & 0x8000 == 0 && cell != 0 && own.get(cell as usize - 1) == Some(&(index as u32 + 1))
    };
    let (size2, size3) = (size2(p1, p2), size3(p2));
    // The cell of the first level that names a second chunk, if one does; the place that names a third chunk.
    let namer2 = |c: usize| t.first.iter().position(|&x| x as usize == c + 1);
    let namer3 = |c: usize| t.second.iter().position(|&x| x as usize == c + 1);
    let first = (0..t.first.len()).all(|i| {
        if long(p1, i as u32) {
            names(t.first[i], &t.own2, i)
        } else {
            t.first[i] == 0x8000 | best(p1, i as u32)
        }
    });
    let second = (0..t.own2.len()).all(|c| match namer2(c) {
        None => t.own2[c] == 0 && t.second[c * size2..(c + 1) * size2].iter().all(|&x| x == 0),
        Some(i) => {
            t.own2[c] as usize == i + 1
                && (0..size2).all(|k| {
                    let cell = (i * size2 + k) as u32;
                    let q = c * size2 + k;
                    if long(p2, cell) {
                        names(t.second[q], &t.own3, q)
                    } else {
                        t.second[q] == 0x8000 | best(p2, cell)
                    }
                })
        }
    });
    let third = (0..t.own3.len()).all(|c| match namer3(c) {
        None => t.own3[c] == 0 && t.third[c * size3..(c + 1) * size3].iter().all(|&x| x == 0),
        Some(q) => {
            t.own3[c] as usize == q + 1
                && namer2(q / size2).is_some_and(|i| {
                    let begin = ((i * size2 + q % size2) * size3) as u32;
                    (0..size3).all(|k| t.third[c * size3 + k] == 0x8000 | best(32, begin + k as u32))
                })
        }
    });
    let longer = |p: u32, cell: u32| routes.iter().filter(|r| r.len as u32 > p && bits(r.addr, p) == cell).count();
    let counts1 = (0..t.first.len()).all(|i| t.long1[i] as usize == longer(p1, i as u32));
    let counts2 = (0..t.own2.len()).all(|c| {
        let namer = namer2(c);
        let in_place = |k: usize| namer.map_or(0, |i| longer(p2, (i * size2 + k) as u32));
        (0..size2).all(|k| t.long2[c * size2 + k] as usize == in_place(k))
    });
    first && second && third && counts1 && counts2 && t.list[8 * count..].iter().all(|&b| b == 0)
}

#[test]
fn sound_as_the_document_says() {
    let mut rng = Rng::new(41);
    let (mut yes, mut no) = (0, 0);
    for round in 0..40 {
        let (p1, p2) = *rng.pick(&[(12, 22), (13, 23), (13, 22), (16, 26)]);
        let field = Field::new(&mut rng, p1, p2);
        let mut t = Lent::new(p1, p2, 14, 4, 3);
        make(p1, p2, &mut t);
        let mut count = 0;
        for _ in 0..16 {
            let r = field.route(&mut rng);
            let answer = announce(p1, p2, count, &mut t, r.addr, r.len as u32, r.hop as u32, r.mark as u32);
            if number(answer) == 0 {
                count = (answer >> 16) as u32 & 0xFFFF;
            }
        }
        assert!(sound_literally(p1, p2, count, &t), "round {round}");
        let good = t.clone();
        for _ in 0..20 {
            t.clone_from(&good);
            match rng.below(8) {
                0 => *pick(&mut rng, &mut t.first) = value(&mut rng),
                1 => *pick(&mut rng, &mut t.second) = value(&mut rng),
                2 => *pick(&mut rng, &mut t.third) = value(&mut rng),
                3 => *pick(&mut rng, &mut t.own2) = rng.below(4000) as u32,
                4 => *pick(&mut rng, &mut t.own3) = rng.below(5) as u32,
                5 => *pick(&mut rng, &mut t.list) = value(&mut rng) as u8,
                6 => damage_count(&mut rng, p1, p2, &mut t),
                _ => {
                    let (a, b) = (rng.below(1 << p1), rng.below(1 << p1));
                    t.first.swap(a, b);
                }
            }
            let count = if rng.one_in(8) { rng.below(18) as u32 } else { count };
            let literally = sound_literally(p1, p2, count, &t);
            assert_eq!(sound(p1, p2, count, &t).is_some(), literally, "round {round}");
            *(if literally { &mut yes } else { &mut no }) += 1;
        }
    }
    assert!(yes > 20 && no > 200, "{yes} sound, {no} not");
}

fn pick<'a, T>(rng: &mut Rng, from: &'a mut [T]) -> &'a mut T {
    let k = rng.below(from.len());
    &mut from[k]
}

fn value(rng: &mut Rng) -> u16 {
    match rng.below(4) {
        0 => 0,
        1 => 0x8000,
        2 => rng.below(6) as u16,
        _ => 0x8000 | rng.below(10) as u16,
    }
}

/// Over runs of calls: every table is sound, its lookups are those of a linear search, and a load is what make and
/// then the announcements give.
#[test]
fn runs_of_calls() {
    let mut rng = Rng::new(7);
    for round in 0..60 {
        let (p1, p2) = *rng.pick(&[(12, 22), (13, 23), (13, 22), (14, 22), (16, 24)]);
        let field = Field::new(&mut rng, p1, p2);
        let (room, second, third) = (rng.range(0, 20), rng.range(0, 5), rng.range(0, 5));
        let mut t = Lent::new(p1, p2, room, second, third);
        make(p1, p2, &mut t);
        let mut standing: Vec<Route> = Vec::new();
        for _ in 0..40 {
            let count = standing.len() as u32;
            let before = t.clone();
            let answer = if rng.one_in(3) && !standing.is_empty() {
                let r = standing[rng.below(standing.len())];
                let answer = withdraw(p1, p2, count, &mut t, r.addr, r.len as u32);
                assert_eq!(number(answer), 0);
                standing.retain(|s| (s.addr, s.len) != (r.addr, r.len));
                answer
            } else {
                let r = field.route(&mut rng);
                let answer = announce(p1, p2, count, &mut t, r.addr, r.len as u32, r.hop as u32, r.mark as u32);
                if number(answer) == 0 {
                    standing.retain(|s| (s.addr, s.len) != (r.addr, r.len));
                    standing.push(r);
                    standing.sort();
                }
                answer
            };
            if number(answer) != 0 {
                assert_eq!(t, before);
            } else {
                assert_eq!(answer >> 16 & 0xFFFF, standing.len() as u64);
            }
            assert_eq!(sound(p1, p2, standing.len() as u32, &t).as_ref(), Some(&standing), "round {round}");
        }
        for addr in edges(&standing).into_iter().chain((0..20).map(|_| rng.word())) {
            assert_eq!(lookup(p1, p2, 0, &t, addr), search_table(p1, p2, &standing, addr));
        }
        let mut loaded = Lent::new(p1, p2, room, second, third);
        assert_eq!(load(p1, p2, &records(&standing), &mut loaded), routes_after(standing.len() as u64));
        let mut announced = Lent::new(p1, p2, room, second, third);
        make(p1, p2, &mut announced);
        for (k, r) in standing.iter().enumerate() {
            announce(p1, p2, k as u32, &mut announced, r.addr, r.len as u32, r.hop as u32, r.mark as u32);
        }
        assert_eq!(loaded, announced);

        let mut words = vec![0; 3 * (1 + 8 * standing.len())];
        let mut hops = vec![0; standing.len()];
        assert_eq!(number(build(&records(&standing), &mut words, &mut hops)), 0);
        for addr in edges(&standing).into_iter().chain((0..20).map(|_| rng.word())) {
            assert_eq!(tree_lookup(&words, &hops, addr), search_image(&standing, addr));
        }
    }
}

#[test]
fn cuts() {
    assert_eq!(cut(u32::MAX, 0), 0);
    assert_eq!(cut(u32::MAX, 32), u32::MAX);
    assert_eq!(bits(u32::MAX, 0), 0);
    assert!(prefix_ok(0, 0) && prefix_ok(u32::MAX, 32) && !prefix_ok(1 << 31, 0) && !prefix_ok(0, 33));
}
