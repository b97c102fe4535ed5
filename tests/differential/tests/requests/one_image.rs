//! Request n: one image for one set of routes.

use crate::*;
use differential::gen::{Field, Rng};
use differential::tree_change::{announce, withdraw};

type Image = (Vec<u32>, Vec<u16>);

/// The image of these routes in arrays of these sizes, over old words that differ from call to call.
fn built(routes: &[Route], words: usize, hops: usize, old: u8) -> Image {
    let mut image = (vec![old as u32; words], vec![old as u16; hops]);
    assert_eq!(number(build(&records(routes), &mut image.0, &mut image.1)), 0);
    image
}

/// The routes announced one by one on an empty image.
fn announced(routes: &[Route], words: usize, hops: usize) -> Image {
    let mut image = built(&[], words, hops, 3);
    for r in routes {
        assert_eq!(number(announce(&mut image.0, &mut image.1, r.addr, r.len as u32, r.hop as u32)), 0);
    }
    image
}

/// All orders of these routes.
fn orders(routes: &[Route]) -> Vec<Vec<Route>> {
    if routes.is_empty() {
        return vec![vec![]];
    }
    let mut all = Vec::new();
    for k in 0..routes.len() {
        let mut rest = routes.to_vec();
        let first = rest.remove(k);
        all.extend(orders(&rest).into_iter().map(|order| [vec![first], order].concat()));
    }
    all
}

/// "in whichever order they came": 120 orders, a detour, a hop that is replaced.
#[test]
fn list_a_in_every_order() {
    let image = built(&list_a(), 21, 5, 1);
    assert_eq!(image.1, [6, 20, 31, 44, 57]);
    let all = orders(&list_a());
    assert_eq!(all.len(), 120);
    for order in all {
        assert_eq!(announced(&order, 21, 5), image);
    }
    // More room: the used part is the same, and the rest is zero.
    let mut detour = announced(&list_a(), 39, 6);
    assert_eq!(number(announce(&mut detour.0, &mut detour.1, ip(192, 0, 2, 0), 24, 3)), 0);
    assert_eq!(number(withdraw(&mut detour.0, &mut detour.1, ip(192, 0, 2, 0), 24)), 0);
    assert_eq!(detour, built(&list_a(), 39, 6, 2));
    assert_eq!((&detour.0[..21], &detour.1[..5]), (&image.0[..], &image.1[..]));
    assert!(detour.0[21..].iter().all(|&w| w == 0) && detour.1[5] == 0);
    let mut other = list_a();
    other[1].hop = 9;
    let mut image_b = announced(&other, 21, 5);
    announce(&mut image_b.0, &mut image_b.1, ip(10, 0, 0, 0), 8, 20);
    assert_eq!(image_b, image);
}

/// "equal arrays exactly when they hold the same prefixes with the same hops, marks aside".
#[test]
fn what_tells_images_apart() {
    let image = built(&list_a(), 24, 5, 1);
    let mut marked = list_a();
    marked[2].mark = 1;
    assert_eq!(built(&marked, 24, 5, 2), image);
    let mut hop = list_a();
    hop[4].hop = 58;
    let (words, hops) = built(&hop, 24, 5, 2);
    assert_eq!((words, hops), (image.0.clone(), vec![6, 20, 31, 44, 58]));
    // 10.1.3.0/24 instead of 10.1.2.0/24: eight nodes.
    let mut moved = list_a();
    moved[3].addr = ip(10, 1, 3, 0);
    moved.sort();
    assert_ne!(built(&moved, 24, 5, 2).0, image.0);
}

/// Both, over random lists: another order with other routes in between, and a list that differs in one route.
#[test]
fn random_lists() {
    let mut rng = Rng::new(43);
    for _ in 0..60 {
        let field = Field::new(&mut rng, 16, 24);
        let routes = field.routes(&mut rng, 10);
        let (words, hops) = (3 * (1 + 8 * 12), 12);
        let image = built(&routes, words, hops, 1);
        let mut order = routes.clone();
        (1..order.len()).for_each(|k| order.swap(k, rng.below(k + 1)));
        let mut other = announced(&order, words, hops);
        let r = field.route(&mut rng);
        if !routes.iter().any(|s| (s.addr, s.len) == (r.addr, r.len)) {
            announce(&mut other.0, &mut other.1, r.addr, r.len as u32, r.hop as u32);
            assert_ne!(other, image);
            // A refused call changes nothing.
            assert_eq!(announce(&mut other.0, &mut other.1, r.addr, 33, 1), 3);
            assert_eq!(number(withdraw(&mut other.0, &mut other.1, r.addr, r.len as u32)), 0);
        }
        assert_eq!(other, image);
        let mut fewer = routes.clone();
        fewer.remove(rng.below(routes.len()));
        assert_ne!(built(&fewer, words, hops, 2), image);
    }
}
