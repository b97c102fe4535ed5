//! Measures the proved library beside others, in one run, and prints ratios.
//!
//!     bench [ROUNDS]
//!
//! In each round every contender runs once over the same addresses, one after the other, so that a slow moment of the
//! machine meets them all. A time is the median over the rounds. A ratio is the median of the rounds' ratios.

mod gh;
mod hand;
mod images;
mod maps;
mod messages;
mod pairs;

use ghatumri::{sys, Answer, Image, Mark, Table};
use hand::Dir248;
use maps::Maps;
use std::cell::RefCell;
use std::hint::black_box;
use std::net::Ipv4Addr;
use std::time::Instant;

type Route = (u32, u8, u16);

const ROUTES: usize = 4096;
const ADDRESSES: usize = 1 << 20;

// ---------------------------------------------------------------------------------------------------- routes and traffic

struct Rng(u64);

impl Rng {
    fn next(&mut self) -> u64 {
        self.0 = self.0.wrapping_add(0x9E37_79B9_7F4A_7C15);
        let z = (self.0 ^ (self.0 >> 30)).wrapping_mul(0xBF58_476D_1CE4_E5B9);
        let z = (z ^ (z >> 27)).wrapping_mul(0x94D0_49BB_1331_11EB);
        z ^ (z >> 31)
    }

    fn word(&mut self) -> u32 {
        (self.next() >> 32) as u32
    }

    fn below(&mut self, n: usize) -> usize {
        (self.next() >> 16) as usize % n
    }
}

/// How many of 1,000 routes have each length, about as in tables of the Internet: most are /24. A few longer ones
/// stand for a network's own.
const LENGTHS: [(u8, usize); 20] = [
    (8, 1),
    (10, 1),
    (11, 1),
    (12, 1),
    (13, 1),
    (14, 2),
    (15, 3),
    (16, 15),
    (17, 9),
    (18, 15),
    (19, 27),
    (20, 44),
    (21, 50),
    (22, 113),
    (23, 103),
    (24, 584),
    (25, 6),
    (26, 6),
    (28, 6),
    (32, 12),
];

fn cut(addr: u32, len: u8) -> u32 {
    if len == 0 {
        0
    } else {
        addr >> (32 - len) << (32 - len)
    }
}

/// The default route and others up to 4,096, ascending by address and then length. Addresses lie in 1.0.0.0 to
/// 223.255.255.255.
fn routes(rng: &mut Rng) -> Vec<Route> {
    let mut routes = vec![(0, 0, 1)];
    while routes.len() < ROUTES {
        let mut pick = rng.below(1000);
        let mut len = 24;
        for (l, share) in LENGTHS {
            if pick < share {
                len = l;
                break;
            }
            pick -= share;
        }
        let addr = rng.word() % (223 << 24) + (1 << 24);
        routes.push((cut(addr, len), len, 1 + rng.below(64) as u16));
        if routes.len() == ROUTES {
            routes.sort();
            routes.dedup_by_key(|r| (r.0, r.1));
        }
    }
    routes
}

/// 4,096 routes longer than 24 bits, each alone under its first 16: every one needs a chunk of its own in both pools.
fn scattered(rng: &mut Rng) -> Vec<Route> {
    let mut one = |k: u32| {
        let len = 25 + rng.below(8) as u8;
        (cut(k << 20 | rng.word() >> 12, len), len, 1 + rng.below(64) as u16)
    };
    (0..ROUTES as u32).map(&mut one).collect()
}

fn records(routes: &[Route]) -> Vec<u8> {
    let mut input = Vec::new();
    for &(addr, len, hop) in routes {
        input.extend(addr.to_be_bytes());
        input.extend([len, 0]);
        input.extend(hop.to_be_bytes());
    }
    input
}

/// Addresses of no pattern.
fn random_traffic(rng: &mut Rng) -> Vec<u32> {
    (0..ADDRESSES).map(|_| rng.word()).collect()
}

/// Each address lies in some route, the default route aside.
fn prefix_traffic(rng: &mut Rng, routes: &[Route]) -> Vec<u32> {
    (0..ADDRESSES)
        .map(|_| {
            let (addr, len, _) = routes[1 + rng.below(routes.len() - 1)];
            addr | (rng.word() & !cut(u32::MAX, len))
        })
        .collect()
}

// ---------------------------------------------------------------------------------------------------- measuring

struct Contender<'a> {
    name: &'static str,
    run: Box<dyn FnMut() + 'a>,
    /// Seconds of each round.
    times: Vec<f64>,
}

fn contender<'a>(name: &'static str, run: impl FnMut() + 'a) -> Contender<'a> {
    Contender { name, run: Box::new(run), times: Vec::new() }
}

fn median(mut of: Vec<f64>) -> f64 {
    of.sort_by(f64::total_cmp);
    of[of.len() / 2]
}

/// Runs all of them in each round, and prints the time of each for one of `count` things. Where they are `apart`, that
/// is, none changes what another sees, a round begins with another one each time, and each runs once untimed right
/// before its timed run: so none pays for what the one before it left in the caches.
fn measure(rounds: usize, count: usize, unit: &str, apart: bool, contenders: &mut [Contender]) {
    let scale = if unit == "ns" { 1e9 } else { 1e6 };
    for round in 0..=rounds {
        for k in 0..contenders.len() {
            let begins = if apart { round } else { 0 };
            let at = (begins + k) % contenders.len();
            let c = &mut contenders[at];
            if apart {
                (c.run)();
            }
            let begin = Instant::now();
            (c.run)();
            let time = begin.elapsed().as_secs_f64();
            // The first round only warms up.
            if round > 0 {
                c.times.push(time / count as f64);
            }
        }
    }
    for c in contenders.iter() {
        let least = c.times.iter().copied().fold(f64::INFINITY, f64::min);
        println!("  {:<44}{:>10.2} {unit}   (least {:.2})", c.name, scale * median(c.times.clone()), scale * least);
    }
}

/// Prints how long one took beside another, and whether that is within what is wanted.
fn ratio(contenders: &[Contender], one: &str, other: &str, limit: Option<f64>) {
    let times = |name: &str| contenders.iter().find(|c| c.name == name).map(|c| &c.times);
    let (Some(a), Some(b)) = (times(one), times(other)) else { return };
    let ratio = median(a.iter().zip(b).map(|(a, b)| a / b).collect());
    let verdict = match limit {
        Some(limit) if ratio <= limit => format!("   wanted: at most {limit}"),
        Some(limit) => format!("   OVER: wanted at most {limit}"),
        None => String::new(),
    };
    println!("  ratio {ratio:>6.2}  {one} / {other}{verdict}");
}

/// Prints how many nanoseconds longer one took than another, and whether that is within what is wanted.
fn more(contenders: &[Contender], one: &str, other: &str, limit: f64) {
    let times = |name: &str| contenders.iter().find(|c| c.name == name).map(|c| &c.times);
    let (Some(a), Some(b)) = (times(one), times(other)) else { return };
    let more = 1e9 * median(a.iter().zip(b).map(|(a, b)| a - b).collect());
    let verdict = if more <= limit { "wanted: at most" } else { "OVER: wanted at most" };
    println!("  more  {more:>6.2}  {one} - {other}   {verdict} {limit} ns");
}

/// Two contenders must have written the same, in the bits that `mask` has.
fn agree(name: &str, one: &[u32], other: &[u32], shift: u32, mask: u32) {
    let differ = one.iter().zip(other).position(|(a, b)| a >> shift & mask != b & mask);
    assert!(differ.is_none(), "{name} answers otherwise at address {}", differ.unwrap());
}

// ---------------------------------------------------------------------------------------------------- rte_lpm

#[cfg(dpdk)]
mod dpdk {
    extern "C" {
        fn ghdpdk_start(addrs: *const u32, lens: *const u8, hops: *const u16, n: usize) -> i32;
        fn ghdpdk_each(addrs: *const u32, out: *mut u32, n: usize);
        fn ghdpdk_bulk(addrs: *const u32, out: *mut u32, n: usize);
        fn ghdpdk_four(addrs: *const u32, out: *mut u32, n: usize);
    }

    pub fn start(routes: &[super::Route]) -> bool {
        let addrs: Vec<u32> = routes.iter().map(|r| r.0).collect();
        let lens: Vec<u8> = routes.iter().map(|r| r.1).collect();
        let hops: Vec<u16> = routes.iter().map(|r| r.2).collect();
        let failed = unsafe { ghdpdk_start(addrs.as_ptr(), lens.as_ptr(), hops.as_ptr(), addrs.len()) };
        if failed != 0 {
            println!("rte_lpm did not start (step {failed}), and is left out");
        }
        failed == 0
    }

    type Looks = fn(&[u32], &mut [u32]);
    pub const LOOKS: [(&str, Looks); 3] = [
        ("rte_lpm_lookup, one by one", |a, o| unsafe { ghdpdk_each(a.as_ptr(), o.as_mut_ptr(), a.len()) }),
        ("rte_lpm_lookup_bulk, 64 at a time", |a, o| unsafe { ghdpdk_bulk(a.as_ptr(), o.as_mut_ptr(), a.len()) }),
        ("rte_lpm_lookupx4", |a, o| unsafe { ghdpdk_four(a.as_ptr(), o.as_mut_ptr(), a.len()) }),
    ];
}

#[cfg(not(dpdk))]
mod dpdk {
    pub fn start(_routes: &[super::Route]) -> bool {
        println!("rte_lpm is not here (libdpdk-dev), and is left out");
        false
    }

    type Looks = fn(&[u32], &mut [u32]);
    pub const LOOKS: [(&str, Looks); 0] = [];
}

// ---------------------------------------------------------------------------------------------------- the measurements

const MANY: &str = "gh_lookup_many";
const RUST_MANY: &str = "Table::lookup_many of the Rust binding";
const HAND_MANY: &str = "unchecked Rust loop";
const EACH: &str = "gh_lookup";
const STEP: &str = "gh_step, of a copy of the header";
const HAND_EACH: &str = "unchecked Rust call, same arguments";
const FORWARD: &str = "gh_forward";
const COUNTED: &str = "gh_lookup, then gh_count";
const DIR: &str = "DIR-24-8, unchecked Rust loop";
const TREE: &str = "gh_tree_lookup";
const HAND_TREE: &str = "unchecked Rust tree bitmap call";

fn lookups(rounds: usize, table: &Table, image: &Image, dir: &Dir248, rte: bool, addrs: &[u32]) {
    let headers = gh::headers(addrs);
    {
        let mut out = vec![vec![0; addrs.len()]; 3];
        let (first, rest) = out.split_at_mut(1);
        let first = &mut first[0];
        gh::many(table.view(), addrs, first);
        gh::each(table.view(), sys::gh_lookup, addrs, &mut rest[0]);
        agree(EACH, first, &rest[0], 0, u32::MAX);
        gh::steps(table.view(), &headers, &mut rest[0]);
        agree(STEP, first, &rest[0], 0, u32::MAX);
        unsafe { hand::lookup_many(table.view(), addrs, &mut rest[0]) };
        agree(HAND_MANY, first, &rest[0], 0, u32::MAX);
        gh::each(table.view(), hand::hand_lookup, addrs, &mut rest[0]);
        agree(HAND_EACH, first, &rest[0], 0, u32::MAX);
        let mut records = gh::records();
        gh::forward_each(table.view(), &mut records, addrs, &mut rest[0]);
        agree(FORWARD, first, &rest[0], 0, u32::MAX);
        gh::count_each(table.view(), &mut records, addrs, &mut rest[0]);
        agree(COUNTED, first, &rest[0], 0, u32::MAX);
        unsafe { dir.lookup_many(addrs, &mut rest[0]) };
        agree(DIR, first, &rest[0], 16, 0xFFFF);
        if rte {
            for (name, look) in dpdk::LOOKS {
                look(addrs, &mut rest[0]);
                agree(name, first, &rest[0], 16, 0xFFFF);
            }
        }
        gh::tree_each(image.view(), sys::gh_tree_lookup, addrs, &mut rest[0]);
        agree(TREE, first, &rest[0].iter().map(|x| x >> 16).collect::<Vec<_>>(), 16, 0xFFFF);
        gh::tree_each(image.view(), hand::hand_tree_lookup, addrs, &mut rest[1]);
        agree(HAND_TREE, &rest[0], &rest[1], 0, u32::MAX);
    }
    // All write to one array, since where an array lies in memory shows in the times. The binding's has a type of its own.
    let out = RefCell::new(vec![0; addrs.len()]);
    let out = || out.borrow_mut();
    let named: Vec<Ipv4Addr> = addrs.iter().map(|&addr| addr.into()).collect();
    let mut answers = vec![Answer::default(); addrs.len()];
    let (t, image) = (table.view(), image.view());
    let records = RefCell::new(gh::records());
    let records = || records.borrow_mut();
    let mut contenders = vec![
        contender(MANY, || gh::many(t, addrs, black_box(&mut out()))),
        contender(RUST_MANY, || t.lookup_many(&named, black_box(&mut answers)).unwrap()),
        contender(HAND_MANY, || unsafe { hand::lookup_many(t, addrs, black_box(&mut out())) }),
        contender(EACH, || gh::each(t, sys::gh_lookup, addrs, black_box(&mut out()))),
        contender(STEP, || gh::steps(t, &headers, black_box(&mut out()))),
        contender(HAND_EACH, || gh::each(t, hand::hand_lookup, addrs, black_box(&mut out()))),
        contender(FORWARD, || gh::forward_each(t, &mut records(), addrs, black_box(&mut out()))),
        contender(COUNTED, || gh::count_each(t, &mut records(), addrs, black_box(&mut out()))),
        contender(DIR, || unsafe { dir.lookup_many(addrs, black_box(&mut out())) }),
        contender(TREE, || gh::tree_each(image, sys::gh_tree_lookup, addrs, black_box(&mut out()))),
        contender(HAND_TREE, || gh::tree_each(image, hand::hand_tree_lookup, addrs, black_box(&mut out()))),
    ];
    if rte {
        for (name, look) in dpdk::LOOKS {
            contenders.push(contender(name, move || look(addrs, black_box(&mut out()))));
        }
    }
    measure(rounds, addrs.len(), "ns", true, &mut contenders);
    ratio(&contenders, MANY, HAND_MANY, Some(1.15));
    ratio(&contenders, RUST_MANY, MANY, None);
    ratio(&contenders, EACH, HAND_EACH, Some(1.5));
    more(&contenders, STEP, EACH, 20.0);
    ratio(&contenders, FORWARD, EACH, Some(1.3));
    ratio(&contenders, COUNTED, EACH, None);
    ratio(&contenders, MANY, DIR, None);
    for (name, _) in dpdk::LOOKS {
        ratio(&contenders, MANY, name, Some(0.6));
    }
    ratio(&contenders, TREE, HAND_TREE, None);
}

/// Bit maps, beside a loop over the same arrays.
fn map_lookups(rounds: usize, maps: &Maps, addrs: &[u32]) {
    const MANY: &str = "gh_basic_lookup_many";
    const HAND: &str = "unchecked Rust loop over the same maps";
    let (mut one, mut other) = (vec![0; addrs.len()], vec![0; addrs.len()]);
    maps.lookup_many(addrs, &mut one);
    unsafe { maps.hand_many(addrs, &mut other) };
    agree(HAND, &one, &other, 0, u32::MAX);
    let out = RefCell::new(other);
    let out = || out.borrow_mut();
    let mut contenders = [
        contender(MANY, || maps.lookup_many(addrs, black_box(&mut out()))),
        contender(HAND, || unsafe { maps.hand_many(addrs, black_box(&mut out())) }),
    ];
    measure(rounds, addrs.len(), "ns", true, &mut contenders);
    ratio(&contenders, MANY, HAND, None);
}

fn announce(table: &mut Table, (addr, len, hop): Route) {
    table.announce(addr, len, hop, Mark::Behind).unwrap();
}

/// The calls that change or check a whole table, beside one plain read of what is lent.
fn changes(rounds: usize, table: &mut Table, input: &[u8], fresh: &[Route]) {
    const READ: &str = "one plain read of what is lent";
    const REPORT: &str = "gh_report";
    const ANNOUNCE: &str = "gh_announce, a new route";
    const REPLACE: &str = "gh_announce, a hop replaced";
    const WITHDRAW: &str = "gh_withdraw";
    const LOAD: &str = "gh_load, all routes";
    const REPAIR: &str = "gh_repair, all routes";
    let mut turn = 0;
    let shared = RefCell::new((table, &mut turn));
    let route = |turn: usize| fresh[turn % fresh.len()];
    let mut contenders = [
        contender(READ, || {
            black_box(hand::read_all(black_box(shared.borrow().0.view())));
        }),
        contender(REPORT, || {
            black_box(shared.borrow().0.report().unwrap());
        }),
        contender(ANNOUNCE, || {
            let (table, turn) = &mut *shared.borrow_mut();
            announce(table, route(**turn));
        }),
        contender(REPLACE, || {
            let (table, turn) = &mut *shared.borrow_mut();
            let (addr, len, hop) = route(**turn);
            announce(table, (addr, len, hop + 1));
        }),
        contender(WITHDRAW, || {
            let (table, turn) = &mut *shared.borrow_mut();
            let (addr, len, _) = route(**turn);
            table.withdraw(addr, len).unwrap();
            **turn += 1;
        }),
        contender(LOAD, || {
            shared.borrow_mut().0.load(black_box(input)).unwrap();
        }),
        contender(REPAIR, || {
            black_box(shared.borrow_mut().0.repair().unwrap());
        }),
    ];
    measure(rounds, 1, "us", false, &mut contenders);
    let limits = [(REPORT, 4.0), (ANNOUNCE, 6.0), (REPLACE, 6.0), (WITHDRAW, 6.0), (LOAD, 10.0), (REPAIR, 8.0)];
    for (one, limit) in limits {
        ratio(&contenders, one, READ, Some(limit));
    }
}

fn main() {
    let rounds = match std::env::args().nth(1).map(|a| a.parse::<usize>()) {
        None => 15,
        Some(Ok(n)) if n > 0 => n,
        _ => {
            println!("usage: bench [ROUNDS]");
            std::process::exit(2)
        }
    };
    let mut rng = Rng(20_240_601);
    let all = routes(&mut rng);
    let input = records(&all);
    let table = gh::table(&input, ROUTES, 4096, 256);
    let report = table.report().unwrap();
    let mut by_length = all.clone();
    by_length.sort_by_key(|r| r.1);
    let dir = Dir248::new(&by_length);
    let image = Image::of(&input).unwrap();
    println!(
        "{} routes, standard geometry, needs {} and {}, {} bytes lent; image of {} nodes; {} rounds",
        all.len(),
        report.second,
        report.third,
        gh::bytes(table.view()),
        image.words.len() / 3,
        rounds
    );
    let maps = Maps::of(&input);
    let pair = pairs::pair(&input, ROUTES, 4096, 256);
    let rte = dpdk::start(&all);
    for (name, addrs) in [("random", random_traffic(&mut rng)), ("prefix-based", prefix_traffic(&mut rng, &all))] {
        println!("\n{name} traffic, {} addresses, time for one", addrs.len());
        lookups(rounds, &table, &image, &dir, rte, &addrs);
        map_lookups(rounds, &maps, &addrs);
        pairs::lookups(rounds, &table, &pair, &addrs);
    }

    println!("\nchanges, time for one call");
    change_table(rounds, &all, 4096, 256);
    println!("\nchanges, pools of just the need");
    change_table(rounds, &all, report.second.into(), report.third.into());
    println!("\nchanges, the largest table, all chunks in use");
    let apart = scattered(&mut rng);
    change_table(rounds, &apart, 4096, 4096);

    println!("\nmessages, time for one call");
    messages::messages(4 * rounds, &all);
    println!("\nchanges of the largest box of two, all chunks in use");
    pairs::changes(4 * rounds, &apart);

    println!("\nchanges of an image, time for one call");
    images::changes(4 * rounds, &all);
    println!("\nchanges of an image, 4,096 long routes far apart");
    images::changes(4 * rounds, &apart);
}

/// The changes over a table with pools of so many chunks. Some routes are kept back, to be announced and withdrawn.
fn change_table(rounds: usize, all: &[Route], second: usize, third: usize) {
    let (mut standing, mut fresh) = (Vec::new(), Vec::new());
    for (k, &r) in all.iter().enumerate() {
        if k % 64 == 5 { &mut fresh } else { &mut standing }.push(r);
    }
    let input = records(&standing);
    let mut table = gh::table(&input, ROUTES, second, third);
    println!("{} routes and one more, {} bytes lent", standing.len(), gh::bytes(table.view()));
    changes(4 * rounds, &mut table, &input, &fresh);
}
