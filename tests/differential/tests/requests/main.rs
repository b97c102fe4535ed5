//! The plain implementation against the examples of document 02's requests: one module for each request.

use differential::plain::*;

mod basic;
mod broadcast;
mod counts;
mod fields;
mod header;
mod hop_records;
mod host_bits;
mod isolation;
mod mark;
mod one_image;
mod pair;
mod repair;
mod tree_change;

fn ip(a: u8, b: u8, c: u8, d: u8) -> u32 {
    u32::from_be_bytes([a, b, c, d])
}

fn to(addr: u32, len: u8, hop: u16) -> Route {
    Route { addr, len, hop, mark: 0 }
}

fn attached(addr: u32, len: u8, hop: u16) -> Route {
    Route { addr, len, hop, mark: 1 }
}

/// List A of document 01.
fn list_a() -> Vec<Route> {
    vec![
        to(0, 0, 6),
        to(ip(10, 0, 0, 0), 8, 20),
        to(ip(10, 1, 0, 0), 16, 31),
        to(ip(10, 1, 2, 0), 24, 44),
        to(ip(10, 1, 2, 128), 25, 57),
    ]
}

/// What a change of a table answers: the routes after it.
fn routes_after(count: u64) -> u64 {
    count << 16
}

const REPLACED: u64 = 1 << 8;
const CLEARED: u64 = 1 << 9;

/// A table of the routes in the standard geometry, with room for eight records and as many chunks as named.
fn table(routes: &[Route], second: usize, third: usize) -> Lent {
    let mut lent = Lent::new(16, 24, 8, second, third);
    assert_eq!(load(16, 24, &records(routes), &mut lent), routes_after(routes.len() as u64));
    lent
}
