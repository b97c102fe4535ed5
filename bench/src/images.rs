//! The test and the changes of a tree image, beside one plain read of it and a fresh build of the same routes.

use crate::{contender, measure, ratio, records, Route};
use ghatumri::Image;
use std::cell::RefCell;
use std::hint::black_box;

const READ: &str = "one plain read of the image";
const TEST: &str = "gh_tree_test";
const ANNOUNCE: &str = "gh_tree_announce, a new route";
const REPLACE: &str = "gh_tree_announce, a hop replaced";
const WITHDRAW: &str = "gh_tree_withdraw";
const BUILD: &str = "gh_build, all routes";

/// Reads every word and every hop once. The sums keep the reads, and are as cheap as any.
#[inline(never)]
fn read_all(image: &Image) -> u32 {
    let words = image.words.iter().fold(0u32, |sum, w| sum.wrapping_add(*w));
    image.hops.iter().fold(words, |sum, h| sum.wrapping_add((*h).into()))
}

/// The calls over the image of these routes, with room for as much as they need. One of those kept back is announced,
/// given another hop and withdrawn, and another the next time.
pub fn changes(rounds: usize, all: &[Route]) {
    let (mut standing, mut fresh) = (Vec::new(), Vec::new());
    for (k, &r) in all.iter().enumerate() {
        if k % 64 == 5 { &mut fresh } else { &mut standing }.push(r);
    }
    let input = records(&standing);
    let mut image = Image::of(&records(all)).unwrap();
    let built = image.build(&input).unwrap();
    let bytes = 4 * image.words.len() + 2 * image.hops.len();
    println!("{} routes and one more, {} nodes, {bytes} bytes lent", standing.len(), built.nodes);
    let mut turn = 0;
    let shared = RefCell::new((&mut image, &mut turn));
    let route = |turn: usize| fresh[turn % fresh.len()];
    let mut contenders = [
        contender(READ, || {
            black_box(read_all(black_box(shared.borrow().0)));
        }),
        contender(TEST, || {
            black_box(shared.borrow().0.test().unwrap());
        }),
        contender(ANNOUNCE, || {
            let (image, turn) = &mut *shared.borrow_mut();
            let (addr, len, hop) = route(**turn);
            image.announce(addr, len, hop).unwrap();
        }),
        contender(REPLACE, || {
            let (image, turn) = &mut *shared.borrow_mut();
            let (addr, len, hop) = route(**turn);
            image.announce(addr, len, hop + 1).unwrap();
        }),
        contender(WITHDRAW, || {
            let (image, turn) = &mut *shared.borrow_mut();
            let (addr, len, _) = route(**turn);
            image.withdraw(addr, len).unwrap();
            **turn += 1;
        }),
        contender(BUILD, || {
            shared.borrow_mut().0.build(black_box(&input)).unwrap();
        }),
    ];
    measure(rounds, 1, "us", false, &mut contenders);
    ratio(&contenders, TEST, READ, Some(4.0));
    for one in [ANNOUNCE, REPLACE, WITHDRAW] {
        ratio(&contenders, one, BUILD, Some(1.0));
    }
}
