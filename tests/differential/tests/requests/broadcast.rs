//! Request i: directed broadcast, old rule and new.

use crate::*;
use differential::broadcast::broadcast;
use differential::gen::{edges, Field, Rng};

const YES: u64 = 1 << 8;
const NO: u64 = 0;

/// The answers of the older and of the newer rule.
fn both(routes: &[Route], addr: u32) -> (u64, u64) {
    (broadcast(1, &records(routes), addr), broadcast(2, &records(routes), addr))
}

/// RFC 3021: a 31-bit link has two hosts and no broadcast. The older boxes took its upper address.
#[test]
fn links_of_two_addresses() {
    let link = [attached(ip(192, 0, 2, 0), 31, 5)];
    assert_eq!(both(&link, ip(192, 0, 2, 1)), (YES, NO));
    assert_eq!(both(&link, ip(192, 0, 2, 0)), (NO, NO));
    assert_eq!(both(&link, ip(192, 0, 2, 2)), (NO, NO));
    let link = [attached(ip(192, 0, 2, 4), 30, 5)];
    assert_eq!(both(&link, ip(192, 0, 2, 7)), (YES, YES));
    for d in [3, 4, 5, 6, 8] {
        assert_eq!(both(&link, ip(192, 0, 2, d)), (NO, NO));
    }
    let host = [attached(ip(192, 0, 2, 1), 32, 5)];
    assert_eq!(both(&host, ip(192, 0, 2, 1)), (NO, NO));
}

/// "whether the longest route covering it is attached": another attached route that covers it is of no account.
#[test]
fn the_longest_decides() {
    let net = attached(ip(10, 0, 0, 0), 24, 5);
    assert_eq!(both(&[net], ip(10, 0, 0, 255)), (YES, YES));
    for host in [to(ip(10, 0, 0, 255), 32, 6), attached(ip(10, 0, 0, 255), 32, 6)] {
        assert_eq!(both(&[net, host], ip(10, 0, 0, 255)), (NO, NO));
    }
    let half = to(ip(10, 0, 0, 128), 25, 6);
    assert_eq!(both(&[net, half], ip(10, 0, 0, 255)), (NO, NO));
    assert_eq!(both(&[net, half], ip(10, 0, 0, 127)), (NO, NO));
    let half = attached(ip(10, 0, 0, 128), 25, 6);
    assert_eq!(both(&[to(ip(10, 0, 0, 0), 24, 5), half], ip(10, 0, 0, 255)), (YES, YES));
    assert_eq!(both(&[to(ip(10, 0, 0, 0), 24, 5)], ip(10, 0, 0, 255)), (NO, NO));
    // The upper address of a link inside an attached network is not that network's broadcast.
    let link = attached(ip(10, 0, 0, 254), 31, 7);
    assert_eq!(both(&[net, link], ip(10, 0, 0, 255)), (YES, NO));
}

/// The shortest length: the highest of all addresses.
#[test]
fn length_0() {
    let all = [attached(0, 0, 5)];
    assert_eq!(both(&all, u32::MAX), (YES, YES));
    assert_eq!(both(&all, ip(10, 255, 255, 255)), (NO, NO));
    assert_eq!(both(&[], u32::MAX), (NO, NO));
    assert_eq!(both(&[attached(0, 1, 5)], 0x7FFF_FFFF), (YES, YES));
}

/// "23, version neither 1 nor 2; the record input's come after it."
#[test]
fn refusals() {
    let good = records(&list_a());
    let mut bad = good.clone();
    bad[8 * 2 + 5] = 2;
    for version in [0, 3, 255, 257, 65_537, u32::MAX] {
        assert_eq!(broadcast(version, &good, 5), 23);
        assert_eq!(broadcast(version, &bad, 5), 23);
        assert_eq!(broadcast(version, &good[..7], 5), 23);
    }
    for version in [1, 2] {
        assert_eq!(broadcast(version, &good, 5), NO);
        assert_eq!(broadcast(version, &bad, 5), refused_at(10, 2));
        assert_eq!(broadcast(version, &good[..7], 5), refused_at(10, 0));
    }
}

/// "The rules differ only at length 31: show it." At every edge of many lists, by the addresses that a route covers.
#[test]
fn where_the_rules_differ() {
    let mut rng = Rng::new(31);
    let (mut yes, mut differ) = (0, 0);
    for _ in 0..60 {
        let field = Field::new(&mut rng, 16, 24);
        let routes = field.routes(&mut rng, 40);
        for addr in edges(&routes) {
            let covering = routes.iter().rev().find(|r| r.covers(addr) && r.len as u32 == longest_cover(&routes, addr));
            // The next address is no longer covered, or there is none.
            let last = covering.filter(|r| addr == u32::MAX || !r.covers(addr + 1)).filter(|r| r.mark == 1);
            let older = last.is_some_and(|r| r.len < 32);
            let newer = last.is_some_and(|r| r.len < 31);
            assert_eq!(both(&routes, addr), ((older as u64) << 8, (newer as u64) << 8));
            assert_eq!(older != newer, last.is_some_and(|r| r.len == 31));
            yes += newer as u32;
            differ += (older != newer) as u32;
        }
    }
    assert!(yes > 100 && differ > 10, "{yes} broadcasts, {differ} under the older rule alone");
}

fn longest_cover(routes: &[Route], addr: u32) -> u32 {
    routes.iter().filter(|r| r.covers(addr)).map(|r| r.len as u32).max().unwrap_or(0)
}
