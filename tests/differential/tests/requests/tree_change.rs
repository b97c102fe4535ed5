//! Request m: a tree image is tested and changed in place.

use crate::*;
use differential::gen::{asked_hop, asked_prefix, Field, Rng};
use differential::tree_change::{announce, damage, hop_place, test, well_formed, withdraw};

#[derive(Clone, PartialEq, Eq, Debug)]
struct Image {
    words: Vec<u32>,
    hops: Vec<u16>,
}

impl Image {
    /// The image of these routes, in arrays of these sizes, built over old words.
    fn of(routes: &[Route], words: usize, hops: usize) -> Image {
        let mut image = Image { words: vec![9; words], hops: vec![9; hops] };
        assert_eq!(number(build(&records(routes), &mut image.words, &mut image.hops)), 0);
        image
    }

    fn announce(&mut self, addr: u32, len: u32, hop: u32) -> u64 {
        announce(&mut self.words, &mut self.hops, addr, len, hop)
    }

    fn withdraw(&mut self, addr: u32, len: u32) -> u64 {
        withdraw(&mut self.words, &mut self.hops, addr, len)
    }

    fn test(&self) -> u64 {
        test(&self.words, &self.hops)
    }

    /// The same image, with something done to it.
    fn with(&self, harm: fn(&mut Image)) -> Image {
        let mut image = self.clone();
        harm(&mut image);
        image
    }
}

/// What is answered: hops and nodes.
fn sizes(hops: u64, nodes: u64) -> u64 {
    hops << 16 | nodes << 32
}

/// The words of list A's image, node by node.
const LIST_A: [[u32; 3]; 7] = [
    [0x0001_0001, 1, 0],
    [0x0400_0000, 2, 1],
    [0x0001_0001, 3, 1],
    [0x0002_0000, 4, 2],
    [0x0001_0001, 5, 2],
    [0x0004_0000, 6, 3],
    [0x0000_0005, 7, 3],
];

/// List A's image with room for `nodes` nodes and `hops` hops.
fn image_a(nodes: usize, hops: usize) -> Image {
    Image::of(&list_a(), 3 * nodes, hops)
}

#[test]
fn image_of_list_a() {
    let a = image_a(8, 7);
    assert_eq!(a.words[..21], LIST_A.concat());
    assert_eq!(a.hops, [6, 20, 31, 44, 57, 0, 0]);
    assert_eq!(a.test(), sizes(5, 7));
    assert_eq!(well_formed(&a.words, &a.hops), Some(list_a()));
}

#[test]
fn withdrawn_from_list_a() {
    let mut a = image_a(7, 5);
    assert_eq!(a.withdraw(ip(10, 1, 2, 128), 25), sizes(4, 7));
    assert_eq!(a.words[18..], [1, 7, 3]);
    assert_eq!(a.words[..18], LIST_A[..6].concat());
    assert_eq!(a.hops, [6, 20, 31, 44, 0]);
    assert_eq!(a.withdraw(ip(10, 1, 2, 128), 25), 9);
    let mut a = image_a(7, 5);
    assert_eq!(a.withdraw(0, 0), sizes(4, 7));
    assert_eq!(a.words[0], 0x0001_0000);
    assert_eq!([0, 1, 2, 3, 4, 5, 6].map(|n| a.words[3 * n + 2]), [0, 0, 0, 1, 1, 2, 2]);
    assert_eq!(a.hops, [20, 31, 44, 57, 0]);
    // The last route: the bare root stays.
    let mut a = Image::of(&[to(0, 0, 6)], 7, 2);
    assert_eq!(a.words, [1, 1, 0, 0, 0, 0, 0]);
    assert_eq!(a.withdraw(0, 0), sizes(0, 1));
    assert_eq!((a.words, a.hops), (vec![0, 1, 0, 0, 0, 0, 0], vec![0, 0]));
}

#[test]
fn announced_in_list_a() {
    let mut a = image_a(7, 6);
    assert_eq!(a.announce(ip(10, 1, 2, 64), 26, 9), sizes(6, 7));
    assert_eq!(a.words[18..], [0x15, 7, 3]);
    assert_eq!(a.hops, [6, 20, 31, 44, 57, 9]);
    // Early in the order: every later hop base is one more.
    let mut a = image_a(7, 6);
    assert_eq!(a.announce(0, 1, 9), sizes(6, 7));
    assert_eq!(a.words[0], 0x0001_0003);
    assert!((1..7).all(|n| a.words[3 * n + 2] == LIST_A[n][2] + 1));
    assert_eq!(a.hops, [6, 9, 20, 31, 44, 57]);
    // Two nodes more at the end.
    let mut a = image_a(9, 6);
    assert_eq!(a.announce(ip(10, 1, 2, 200), 32, 70), sizes(6, 9));
    assert_eq!(a.words[18..], [0x1000_0005, 7, 3, 0x0100_0000, 8, 5, 1, 9, 5]);
    assert_eq!(a.hops, [6, 20, 31, 44, 57, 70]);
    // A replaced hop, and no word.
    let mut a = image_a(7, 5);
    assert_eq!(a.announce(ip(10, 1, 0, 0), 16, 32), sizes(5, 7) | REPLACED);
    assert_eq!((&a.words[..], &a.hops[..]), (&LIST_A.concat()[..], &[6, 20, 32, 44, 57][..]));
}

/// Nodes at each depth: 192.0.2.0/24 stands beside all that was there.
#[test]
fn another_branch() {
    let mut a = image_a(13, 6);
    assert_eq!(a.announce(ip(192, 0, 2, 0), 24, 3), sizes(6, 13));
    let words = [
        [0x1001_0001, 1, 0],
        [0x0400_0000, 3, 1],
        [0x0001_0000, 4, 1],
        [0x0001_0001, 5, 1],
        [0x0001_0000, 6, 2],
        [0x0002_0000, 7, 2],
        [0x0001_0000, 8, 2],
        [0x0001_0001, 9, 2],
        [0x0001_0000, 10, 3],
        [0x0004_0000, 11, 3],
        [0x0004_0000, 12, 3],
        [0x0000_0005, 13, 3],
        [0x0000_0001, 13, 5],
    ];
    assert_eq!((&a.words[..], &a.hops[..]), (&words.concat()[..], &[6, 20, 31, 44, 57, 3][..]));
    assert_eq!(a.withdraw(ip(192, 0, 2, 0), 24), sizes(5, 7));
    assert_eq!(a, image_a(13, 6));
    // One node, or one hop, too few: 11 before 12, and a replacement meets neither.
    for (words, hops, answer) in [(38, 6, 11), (38, 5, 11), (39, 5, 12), (40, 6, sizes(6, 13))] {
        let mut a = Image::of(&list_a(), words, hops);
        let before = a.clone();
        assert_eq!(a.announce(ip(192, 0, 2, 0), 24, 3), answer);
        assert_eq!(a == before, number(answer) != 0);
        assert_eq!(number(a.announce(0, 0, 7)), 0);
    }
}

/// "An image passes the test exactly when some record input builds it into arrays of these sizes."
#[test]
fn broken_images() {
    let a = image_a(8, 7);
    let a = a.with(|a| a.words.truncate(23));
    assert_eq!(a.test(), sizes(5, 7));
    let harms: [fn(&mut Image); 15] = [
        |a| a.words[18 + 1] = 8,
        |a| a.words[18 + 2] = 2,
        |a| a.words[22] = 1,
        |a| a.words[21] = 1 << 31,
        |a| a.hops[5] = 1,
        |a| a.hops[6] = 9,
        |a| a.hops[2] = 0,
        |a| a.hops[2] = 32_768,
        |a| a.words[18] |= 1 << 15,
        |a| a.words[18] |= 1 << 1,
        |a| a.words[0] = 0,
        |a| a.words[3 + 1] = 0,
        |a| a.words.truncate(20),
        |a| a.hops.truncate(4),
        |a| a.words.clear(),
    ];
    for (k, harm) in harms.iter().enumerate() {
        let mut b = a.with(*harm);
        let before = b.clone();
        assert_eq!(b.test(), 13, "{k}");
        assert_eq!(b.announce(0, 0, 7), 13, "{k}");
        assert_eq!(b.announce(0, 9, 7), 13, "{k}");
        assert_eq!(b.withdraw(0, 0), 13, "{k}");
        assert_eq!(b, before);
    }
    // Other hops, and less or more room after the last used, are well formed.
    let goods: [fn(&mut Image); 4] =
        [|a| a.hops[2] = 32_767, |a| a.hops.truncate(5), |a| a.words.truncate(21), |a| a.words.resize(90, 0)];
    for good in goods {
        assert_eq!(a.with(good).test(), sizes(5, 7));
    }
}

/// "No path may end without a route, the bare root of an empty list aside", and the corners at depth 8.
#[test]
fn bare_paths_and_deep_bits() {
    assert_eq!(test(&[0, 1, 0], &[]), sizes(0, 1));
    assert_eq!(test(&[0, 0, 0], &[]), 13);
    assert_eq!(test(&[0, 1], &[]), 13);
    assert_eq!(test(&[0x0001_0000, 1, 0, 0, 2, 0], &[]), 13);
    assert_eq!(test(&[0x0001_0001, 1, 0, 0, 2, 1], &[5]), 13);
    assert_eq!(test(&[0x0001_0000, 1, 0, 1, 2, 0], &[5]), sizes(1, 2));
    // Every node is the root: no end of it.
    assert_eq!(test(&[0xFFFF_7FFF, 0, 0], &[5; 16]), 13);
    // A route of length 32, whose node has bit 0 and no other.
    let a = Image::of(&[to(0, 32, 5)], 30, 3);
    assert_eq!(a.words[24..27], [1, 9, 0]);
    assert_eq!(a.with(|a| (a.words[24], a.hops[1]) = (3, 5)).test(), 13);
    assert_eq!(a.with(|a| a.words[24] = 2).test(), 13);
    assert_eq!(a.with(|a| (a.words[24], a.words[27], a.words[28], a.words[29]) = (0x0001_0001, 1, 10, 1)).test(), 13);
    // Siblings whose words are exchanged: the hops then belong to others, unless all bases agree.
    let two = Image::of(&[to(0, 4, 5), to(1 << 28, 5, 6)], 9, 2);
    assert_eq!(two.words, [0x0003_0000, 1, 0, 1, 3, 0, 2, 3, 1]);
    assert_eq!(two.with(|a| (0..3).for_each(|k| a.words.swap(3 + k, 6 + k))).test(), 13);
    assert_eq!(two.with(|a| a.words.swap(3, 6)).test(), sizes(2, 3));
}

/// "Refusals, in order": the lowest step wins, and lengths and hops are 32 bits wide.
#[test]
fn order_of_refusals() {
    let good = image_a(7, 5);
    let broken = good.with(|a| a.words[1] = 7);
    for image in [&good, &broken] {
        let mut a = image.clone();
        for (addr, len) in [(1, 24), (ip(10, 1, 2, 3), 24), (0, 33), (0, 280), (0, u32::MAX)] {
            assert_eq!(a.announce(addr, len, 0), 3);
            assert_eq!(a.announce(addr, len, 5), 3);
            assert_eq!(a.withdraw(addr, len), 3);
        }
        for hop in [0, 32_768, 65_536, 65_580, u32::MAX] {
            assert_eq!(a.announce(0, 0, hop), 4);
            assert_eq!(a.announce(ip(192, 0, 2, 0), 24, hop), 4);
        }
        assert_eq!(a, *image);
    }
    assert_eq!(broken.clone().withdraw(ip(192, 0, 2, 0), 24), 13);
    assert_eq!(good.clone().withdraw(ip(192, 0, 2, 0), 24), 9);
    assert_eq!(good.clone().announce(ip(192, 0, 2, 0), 24, 3), 11);
    assert_eq!(good.clone().announce(ip(10, 1, 2, 192), 26, 3), 12);
}

/// "6 where more than 4,096 routes would stand": an image has no list whose room ends.
#[test]
fn the_most_routes() {
    let routes: Vec<Route> = (0..4096).map(|k| to(k << 20, 32, 1)).collect();
    let nodes = 1 + 16 + 256 + 6 * 4096;
    let full = Image::of(&routes, 3 * 32_769, 4097);
    assert_eq!(full.test(), sizes(4096, nodes));
    let mut a = full.clone();
    assert_eq!(a.announce(0, 0, 5), 6);
    assert_eq!(a, full);
    assert_eq!(a.announce(5 << 20, 32, 5), sizes(4096, nodes) | REPLACED);
    // 6 comes before 11 and 12.
    let mut tight = Image::of(&routes, 3 * nodes as usize, 4096);
    assert_eq!(tight.announce(1, 32, 5), 6);
    assert_eq!(a.withdraw(5 << 20, 32), sizes(4095, nodes - 6));
    assert_eq!(a.announce(0, 0, 5), sizes(4096, nodes - 6));
    assert_eq!(a.announce(1 << 31, 1, 5), 6);
    // No record input builds an image of 4,097 routes, right as all its bases are.
    let mut more = full;
    more.words[0] |= 1;
    (1..nodes as usize).for_each(|n| more.words[3 * n + 2] += 1);
    more.hops.insert(0, 7);
    assert_eq!(more.hops.len(), 4098);
    assert_eq!(more.test(), 13);
    assert!(!well_formed_literally(&more) && well_formed_but_for_the_bound(&more));
}

/// The test as document 02 words it, over the nodes in the fixed order: depth by depth, each node's bitmaps, bases and
/// hops, no node without a route or a child, nothing after the last used.
fn well_formed_but_for_the_bound(image: &Image) -> bool {
    let Image { words, hops } = image;
    let (mut children, mut internal) = (0, 0);
    let mut depth_nodes = vec![0];
    for depth in 0..=8 {
        let mut next = Vec::new();
        for n in depth_nodes {
            let Some(node) = words.get(3 * n..3 * n + 3) else { return false };
            let map = node[0];
            let bare = map == 0 && n > 0;
            if bare || map >> 15 & 1 == 1 || (depth == 8 && map > 1) {
                return false;
            }
            if node[1] as usize != 1 + children || node[2] as usize != internal {
                return false;
            }
            let ones = (map & 0x7FFF).count_ones() as usize;
            if !hops.get(internal..internal + ones).is_some_and(|h| h.iter().all(|h| (1..=32_767).contains(h))) {
                return false;
            }
            internal += ones;
            for _ in 0..(map >> 16).count_ones() {
                children += 1;
                next.push(children);
            }
        }
        depth_nodes = next;
    }
    words[3 * (1 + children)..].iter().all(|&w| w == 0) && hops[internal..].iter().all(|&h| h == 0)
}

fn well_formed_literally(image: &Image) -> bool {
    well_formed_but_for_the_bound(image) && image.hops.iter().filter(|&&h| h != 0).count() <= 4096
}

#[test]
fn tested_as_the_document_says() {
    let mut rng = Rng::new(13);
    let (mut yes, mut no) = (0, 0);
    for _ in 0..400 {
        let field = Field::new(&mut rng, 16, 24);
        let n = rng.range(0, 12);
        let routes = field.routes(&mut rng, n);
        let room = 3 * (1 + 8 * routes.len());
        let mut image = Image::of(&routes, room, routes.len() + rng.below(3));
        if rng.one_in(2) {
            let nodes = (image.test() >> 32) as usize;
            image.words.truncate(3 * nodes + rng.below(7));
        }
        for _ in 0..rng.range(1, 2) {
            damage(&mut rng, &mut image.words, &mut image.hops);
        }
        let literally = well_formed_literally(&image);
        assert_eq!(image.test() != 13, literally, "{image:x?}");
        *(if literally { &mut yes } else { &mut no }) += 1;
    }
    assert!(yes > 50 && no > 200, "{yes} well formed, {no} not");
}

/// Over runs of changes: which routes stand is worked out from the accepted calls, and the image is that of a fresh
/// build of them. No hop cell before the place of the changed one is altered.
#[test]
fn runs_of_changes() {
    let mut rng = Rng::new(19);
    let mut met = [0; 16];
    for _ in 0..40 {
        let field = Field::new(&mut rng, 16, 24);
        let (words, hops) = (rng.range(3, 150), rng.range(0, 12));
        let mut image = Image::of(&[], words, hops);
        let mut standing: Vec<Route> = Vec::new();
        for _ in 0..50 {
            let before = image.clone();
            let (addr, len) = asked_prefix(&mut rng, &field, &standing);
            let was = standing.clone();
            let old = standing.iter().position(|r| (r.addr, r.len as u32) == (addr, len));
            let answer = if rng.one_in(2) {
                let hop = asked_hop(&mut rng, &field);
                let answer = image.announce(addr, len, hop);
                if number(answer) == 0 {
                    assert_eq!(answer & REPLACED != 0, old.is_some());
                    standing.retain(|r| (r.addr, r.len as u32) != (addr, len));
                    standing.push(to(addr, len as u8, hop as u16));
                    standing.sort();
                }
                answer
            } else {
                let answer = image.withdraw(addr, len);
                if number(answer) == 0 {
                    standing.remove(old.unwrap());
                }
                answer
            };
            met[number(answer) as usize] += 1;
            assert_eq!(image, Image::of(&standing, words, hops));
            if number(answer) != 0 {
                assert_eq!(image, before);
            } else {
                let place = hop_place(&was, addr, len);
                assert_eq!(place, hop_place(&standing, addr, len));
                assert_eq!(image.hops[..place], before.hops[..place]);
                assert_eq!(answer & !REPLACED, image.test());
            }
        }
    }
    assert!([0, 3, 4, 9, 11, 12].iter().all(|&n| met[n] > 10), "{met:?}");
}
