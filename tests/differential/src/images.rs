//! Tree images: built, damaged, and made of random words.

use crate::gh::{self, Fenced};
use crate::inputs::tell;
use crate::run::Run;
use differential::gen::{edges, spread, Field, Rng};
use differential::plain::{self, number, records};

/// Builds into arrays of about the size that is needed, filled with old words. Answers the image when it was built.
pub fn build(run: &mut Run, rng: &mut Rng, input: &[u8]) -> Option<(Vec<u32>, Vec<u16>)> {
    let mut enough = (vec![0; 3 * 32_769], vec![0; 4096]);
    let answer = plain::build(input, &mut enough.0, &mut enough.1);
    let (nodes, hops) = if number(answer) == 0 {
        ((answer >> 32) as usize, (answer >> 16) as usize & 0xFFFF)
    } else {
        (rng.below(20), rng.below(20))
    };
    let about = |rng: &mut Rng, n: usize| match rng.below(8) {
        0 | 1 => n.saturating_sub(1),
        2 => rng.below(n + 1),
        3 => n + rng.range(1, 9),
        _ => n,
    };
    let words = about(rng, nodes) * 3 + if rng.one_in(3) { rng.range(1, 2) } else { 0 };
    let hops = about(rng, hops);
    let mut words_should: Vec<u32> = (0..words).map(|_| rng.word()).collect();
    let mut hops_should: Vec<u16> = (0..hops).map(|_| rng.word() as u16).collect();
    let mut words = Fenced::new(&words_should);
    let mut hops = Fenced::new(&hops_should);
    let lent = Fenced::new(input);
    let is = gh::build(&lent, &mut words, &mut hops);
    let told = || format!("call: build into {} words and {} hops of {}", words.len(), hops.len(), tell(input));
    run.calls += 1;
    run.answered("build", is, plain::build(input, &mut words_should, &mut hops_should), &told);
    let differs = words.differs("words", &words_should).or_else(|| hops.differs("hops", &hops_should));
    if let Some(what) = differs.or_else(|| lent.differs("input", input)) {
        run.fault(&what, &told);
    }
    (number(is) == 0).then_some((words_should, hops_should))
}

/// Looks one address up in both, and compares.
fn look(run: &mut Run, words: &Fenced<u32>, hops: &Fenced<u16>, addr: u32) -> u64 {
    run.lookups += 1;
    let is = gh::tree_lookup(words, hops, addr);
    let told = || {
        let mut told = format!("call: tree lookup of {addr:08x} in {} words and {} hops", words.len(), hops.len());
        if words.len() < 200 {
            told += &format!("\n{:x?}\n{:x?}", &words[..], &hops[..]);
        }
        told
    };
    run.answered("tree_lookup", is, plain::tree_lookup(words, hops, addr), &told);
    if number(is) == 0 {
        let found = if is >> 16 == 0 { "no route" } else { "hop" };
        run.count("tree_lookup", &format!("{found} in {}", is >> 8 & 0xFF));
    }
    is
}

pub fn episode(run: &mut Run, rng: &mut Rng) {
    let field = Field::new(rng, 16, 24);
    let n = *rng.pick(&[0, 1, 3, 8, 20, 60, 200]);
    let routes = match rng.below(5) {
        0 => spread(rng, n),
        1 => {
            // Lengths at the ends of the strides.
            let mut routes = field.routes(rng, n);
            routes.retain(|r| r.len % 4 == 0 || r.len % 4 == 3);
            routes
        }
        _ => field.routes(rng, n),
    };
    let input = records(&routes);
    // Into arrays of several sizes, until it is built.
    let (words, hops) = loop {
        if let Some(image) = build(run, rng, &input) {
            break image;
        }
    };
    let mut addrs = edges(&routes);
    addrs.extend([0, u32::MAX]);
    for _ in 0..10 {
        addrs.push(rng.word());
        addrs.push(field.addr(rng));
    }
    let (lent_words, lent_hops) = (Fenced::new(&words), Fenced::new(&hops));
    for &addr in &addrs {
        let is = look(run, &lent_words, &lent_hops, addr);
        if is != plain::search_image(&routes, addr) {
            let told = || format!("call: tree lookup of {addr:08x} in the image of {}", tell(&input));
            run.fault("a linear search over the routes finds another answer", &told);
        }
    }
    for _ in 0..30 {
        let (mut words, mut hops) = (words.clone(), hops.clone());
        for _ in 0..rng.range(1, 2) {
            // Of four addresses the one whose walk is deepest.
            let few = [(); 4].map(|()| *rng.pick(&addrs));
            let at = few.into_iter().max_by_key(|&a| nodes_read(&words, a).len()).unwrap();
            damage(rng, &mut words, &mut hops, at);
        }
        let (lent_words, lent_hops) = (Fenced::new(&words), Fenced::new(&hops));
        for k in 0..addrs.len().min(100) {
            // All of them where there are few.
            let addr = if addrs.len() <= 100 { addrs[k] } else { *rng.pick(&addrs) };
            look(run, &lent_words, &lent_hops, addr);
        }
        if let Some(what) = lent_words.differs("words", &words).or_else(|| lent_hops.differs("hops", &hops)) {
            run.fault(&what, &|| "tree lookups".to_string());
        }
    }
}

/// The nodes that the walk of an address reads, as far as they stand.
fn nodes_read(words: &[u32], addr: u32) -> Vec<usize> {
    let mut read = vec![0];
    for m in 0..8 {
        let bitmap = words[3 * read[m]];
        let next = addr << (4 * m) >> 28;
        let below = (bitmap >> 16) & ((1 << next) - 1);
        let child = words[3 * read[m] + 1] as usize + below.count_ones() as usize;
        if bitmap >> (16 + next) & 1 == 0 || child >= words.len() / 3 {
            break;
        }
        read.push(child);
    }
    read
}

/// Harm to an image that has a root, mostly on the walk of this address.
fn damage(rng: &mut Rng, words: &mut Vec<u32>, hops: &mut Vec<u16>, addr: u32) {
    let nodes = words.len() / 3;
    let read = nodes_read(words, addr);
    let node = match rng.below(4) {
        0 => *rng.pick(&read),
        1 => rng.below(nodes),
        _ => read[read.len() - 1],
    };
    match rng.below(12) {
        0 | 11 => words[3 * node] |= 1 << 15,
        1 => words[3 * node] ^= 1 << rng.below(32),
        2 => words[3 * node] = rng.word(),
        3 => words[3 * node + 1] = rng.below(nodes + 2) as u32,
        4 => {
            words[3 * node + 1] =
                *rng.pick(&[u32::MAX, u32::MAX - 7, 0x5555_5555, 0x5555_5556, 0xAAAA_AAAB, 0, 1 << 31])
        }
        5 => words[3 * node + 2] = rng.below(hops.len() + 2) as u32,
        6 => words[3 * node + 2] = *rng.pick(&[u32::MAX, u32::MAX - 7, 0, 1 << 31, 1 << 16]),
        7 => words.truncate(rng.below(words.len() + 1).max(3)),
        8 => {
            hops.truncate(rng.below(hops.len() + 1));
        }
        9 if !hops.is_empty() => {
            let k = rng.below(hops.len());
            hops[k] = *rng.pick(&[0, 32_768, 65_535, 32_767, 1]);
        }
        _ => words.truncate(words.len() - words.len().min(rng.below(3))),
    }
    if words.len() < 3 {
        words.resize(3, 0);
    }
}

/// Images of random words, where walks go in circles, end at the last word, or leave what is lent.
pub fn wild(run: &mut Run, rng: &mut Rng) {
    for _ in 0..150 {
        let nodes = rng.range(0, 6);
        let mut words = Vec::new();
        let mut hops: Vec<u16> = (0..rng.below(12)).map(|_| rng.range(1, 99) as u16).collect();
        for h in hops.iter_mut() {
            if rng.one_in(12) {
                *h = *rng.pick(&[0, 32_767, 32_768, 65_535]);
            }
        }
        for _ in 0..nodes {
            let dense = rng.word() | rng.word();
            let sparse = rng.word() & rng.word();
            let mut bitmap = match rng.below(4) {
                0 => dense,
                1 => sparse | 0xFFFF_0000,
                2 => sparse & 0xFFFF | dense & 0xFFFF_0000,
                _ => rng.word(),
            };
            if !rng.one_in(10) {
                bitmap &= !(1 << 15);
            }
            // Bases so near to 0 that most children and hops stand, or so near to the top that a sum leaves 32 bits.
            let top = |rng: &mut Rng| u32::MAX - rng.below(5) as u32;
            let child = if rng.one_in(8) { top(rng) } else { rng.below(nodes + 1) as u32 };
            let hop = if rng.one_in(8) { top(rng) } else { rng.below(hops.len() + 2) as u32 };
            words.extend([bitmap, child, hop]);
        }
        for _ in 0..rng.below(3) {
            words.push(rng.word());
        }
        let (words, hops) = (Fenced::new(&words), Fenced::new(&hops));
        for _ in 0..12 {
            // Addresses whose next four bits are small stay within the children.
            let addr = if rng.one_in(2) { rng.word() & 0x1111_1111 } else { rng.word() };
            look(run, &words, &hops, addr);
        }
    }
}
