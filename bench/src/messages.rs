//! Messages dealt to a table, beside announcements in the same table: 200 new routes, and the largest field of entries that are all 0.0.0.0/0.

use crate::{contender, gh, measure, ratio, records, Route};
use ghatumri::{write_field, Mark, Table, MOST_FIELD};
use std::cell::RefCell;
use std::hint::black_box;

const ANNOUNCE: &str = "gh_announce, a new route";
const WITHDRAW: &str = "gh_withdraw";
const NEW: &str = "gh_update, 200 new routes";
const GONE: &str = "gh_update, these withdrawn";
const ZEROS: &str = "gh_update, 65,000 entries 0.0.0.0/0";

/// The prefixes of these routes as a field.
fn field(routes: &[Route]) -> Vec<u8> {
    let mut out = vec![0; MOST_FIELD];
    let bytes = write_field(&records(routes), &mut out).unwrap();
    out.truncate(bytes);
    out
}

/// A table of 3,000 of these routes; of the others one is announced and withdrawn, and 200 come and go by messages.
pub fn messages(rounds: usize, all: &[Route]) {
    let (mut standing, mut others) = (Vec::new(), Vec::new());
    for (k, &r) in all.iter().enumerate() {
        if k % 4 != 3 && standing.len() < 3000 { &mut standing } else { &mut others }.push(r);
    }
    let mut table: Table = gh::table(&records(&standing), 4096, 4096, 256);
    let (one, fresh) = (others[0], field(&others[1..201]));
    let zeros = vec![0; 65_000];
    println!("{} routes, {} bytes lent", standing.len(), gh::bytes(table.view()));
    let mut turn = 0;
    let shared = RefCell::new((&mut table, &mut turn));
    let mut contenders = [
        contender(ANNOUNCE, || {
            shared.borrow_mut().0.announce(one.0, one.1, one.2, Mark::Behind).unwrap();
        }),
        contender(WITHDRAW, || {
            shared.borrow_mut().0.withdraw(one.0, one.1).unwrap();
        }),
        contender(NEW, || {
            let _ = shared.borrow_mut().0.update(&[], black_box(&fresh), 7).unwrap();
        }),
        contender(GONE, || {
            let _ = shared.borrow_mut().0.update(black_box(&fresh), &[], 7).unwrap();
        }),
        // Another hop each time, so that the first entry is written.
        contender(ZEROS, || {
            let (table, turn) = &mut *shared.borrow_mut();
            let _ = table.update(&[], black_box(&zeros), 1 + **turn % 2).unwrap();
            **turn += 1;
        }),
    ];
    measure(rounds, 1, "us", false, &mut contenders);
    ratio(&contenders, NEW, ANNOUNCE, Some(6.0));
    ratio(&contenders, GONE, ANNOUNCE, None);
    ratio(&contenders, ZEROS, ANNOUNCE, Some(12.0));
}
