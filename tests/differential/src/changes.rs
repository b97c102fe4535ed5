//! Tree images tested and changed in place. After each accepted change the arrays are those that the library's own build
//! makes of the routes then standing. Damage of every kind: 13 exactly where no build gives these bytes.

use crate::gh::{self, Fenced};
use crate::run::Run;
use differential::gen::{asked_hop, asked_prefix, edges, spread, wide, Field, Rng};
use differential::plain::{self, number, records, Route};
use differential::tree_change::{self, damage, hop_place};

#[derive(Clone, Copy, Debug)]
enum Call {
    Test,
    Announce(u32, u32, u32),
    Withdraw(u32, u32),
}

impl Call {
    fn name(self) -> &'static str {
        match self {
            Call::Test => "tree_test",
            Call::Announce(..) => "tree_announce",
            Call::Withdraw(..) => "tree_withdraw",
        }
    }
}

/// A call on an image of these routes, mostly a change.
fn asked(rng: &mut Rng, field: &Field, routes: &[Route]) -> Call {
    let (addr, len) = asked_prefix(rng, field, routes);
    match rng.below(9) {
        0 => Call::Test,
        1..=4 => Call::Announce(addr, len, asked_hop(rng, field)),
        // A hop that does not fit its field, where all else is right.
        5 if rng.one_in(6) => Call::Announce(addr, len, wide(rng, 5, 16)),
        _ if rng.one_in(2) && !routes.is_empty() => {
            let r = rng.pick(routes);
            Call::Withdraw(r.addr, r.len as u32)
        }
        _ => Call::Withdraw(addr, len),
    }
}

/// An image of any content, as the plain implementation has it and as it is lent to the library.
struct Twice {
    words: Vec<u32>,
    hops: Vec<u16>,
    lent_words: Fenced<u32>,
    lent_hops: Fenced<u16>,
}

impl Twice {
    fn new(words: Vec<u32>, hops: Vec<u16>) -> Twice {
        let (lent_words, lent_hops) = (Fenced::new(&words), Fenced::new(&hops));
        Twice { words, hops, lent_words, lent_hops }
    }

    fn told(&self, what: &str) -> String {
        let mut told = format!("call: {what} in {} words and {} hops", self.words.len(), self.hops.len());
        if self.words.len() < 300 {
            told += &format!(", which then are\n{:x?}\n{:x?}", &self.words, &self.hops);
        }
        told
    }

    /// Makes one call in both, and compares the answers and every word.
    fn step(&mut self, run: &mut Run, call: Call) -> u64 {
        let (words, hops) = (&mut self.lent_words, &mut self.lent_hops);
        let is = match call {
            Call::Test => gh::tree_test(words, hops),
            Call::Announce(addr, len, hop) => gh::tree_announce(words, hops, addr, len, hop),
            Call::Withdraw(addr, len) => gh::tree_withdraw(words, hops, addr, len),
        };
        let (words, hops) = (&mut self.words, &mut self.hops);
        let should = match call {
            Call::Test => tree_change::test(words, hops),
            Call::Announce(addr, len, hop) => tree_change::announce(words, hops, addr, len, hop),
            Call::Withdraw(addr, len) => tree_change::withdraw(words, hops, addr, len),
        };
        let told = || self.told(&format!("{call:x?}"));
        run.calls += 1;
        run.answered(call.name(), is, should, &told);
        let differs = self.lent_words.differs("words", &self.words);
        if let Some(what) = differs.or_else(|| self.lent_hops.differs("hops", &self.hops)) {
            run.fault(&what, &told);
        }
        self.wide(run, call, is);
        is
    }

    /// Counts refusals of numbers that would pass if they were cut to their fields.
    fn wide(&self, run: &mut Run, call: Call, is: u64) {
        let (Call::Announce(addr, len, _) | Call::Withdraw(addr, len)) = call else { return };
        if number(is) == 3 && len > 255 && plain::prefix_ok(addr, len & 0xFF) {
            run.count(call.name(), "wide length");
        }
        if let Call::Announce(_, _, hop) = call {
            if number(is) == 4 && hop > 65_535 && plain::hop_ok(hop & 0xFFFF) {
                run.count(call.name(), "wide hop");
            }
        }
    }
}

/// A well-formed image and the routes that stand in it, worked out from the accepted calls alone.
struct Standing {
    twice: Twice,
    routes: Vec<Route>,
}

impl Standing {
    /// The image of these routes in arrays of these lengths, built by the library over old words.
    fn new(run: &mut Run, rng: &mut Rng, mut routes: Vec<Route>, words: usize, hops: usize) -> Option<Standing> {
        let old = rng.word();
        let (mut words, mut hops) = (vec![old; words], vec![old as u16; hops]);
        run.calls += 1;
        run.count("build", &number(gh::build(&records(&routes), &mut words, &mut hops)).to_string());
        // A route of an image has no mark.
        routes.iter_mut().for_each(|r| r.mark = 0);
        let built = Standing { twice: Twice::new(words, hops), routes };
        (tree_change::well_formed(&built.twice.words, &built.twice.hops).as_ref() == Some(&built.routes))
            .then_some(built)
    }

    /// One call, and what follows of it for the routes and the arrays.
    fn step(&mut self, run: &mut Run, rng: &mut Rng, call: Call) -> u64 {
        let (words, hops) = (self.twice.words.clone(), self.twice.hops.clone());
        let was = self.routes.clone();
        let is = self.twice.step(run, call);
        let told = || self.twice.told(&format!("{call:x?}"));
        if number(is) != 0 || matches!(call, Call::Test) {
            if (&words, &hops) != (&self.twice.words, &self.twice.hops) {
                run.fault("what changes nothing changed a word", &told);
            }
            return is;
        }
        let (Call::Announce(addr, len, _) | Call::Withdraw(addr, len)) = call else { return is };
        self.routes.retain(|r| (r.addr, r.len as u32) != (addr, len));
        if let Call::Announce(_, _, hop) = call {
            self.routes.push(Route { addr, len: len as u8, hop: hop as u16, mark: 0 });
            self.routes.sort();
        }
        let place = hop_place(&was, addr, len);
        if hops[..place] != self.twice.hops[..place] {
            run.fault("a hop before the place of the changed one is altered", &|| {
                self.twice.told(&format!("{call:x?}"))
            });
        }
        self.labels(run, call, is, was.len());
        self.as_built(run, rng, call, is);
        is
    }

    /// What an accepted change did.
    fn labels(&self, run: &mut Run, call: Call, is: u64, routes: usize) {
        let replaced = is >> 8 & 1 == 1;
        let told = || self.twice.told(&format!("{call:x?}"));
        let label = match call {
            Call::Announce(..) if self.routes.len() == routes => "replaced",
            Call::Announce(..) => "added",
            _ if self.routes.is_empty() => "none left",
            _ => "removed",
        };
        if replaced != (label == "replaced") {
            run.fault("a replacement is told as none, or the other way round", &told);
        }
        run.count(call.name(), label);
        if routes == plain::RECORDS_MAX {
            run.count(call.name(), &format!("{label} of 4096"));
        }
    }

    /// The library's own build of the routes then standing, into arrays of these lengths, says the same and leaves the
    /// same words.
    fn as_built(&self, run: &mut Run, rng: &mut Rng, call: Call, is: u64) {
        let old = rng.word();
        let mut words = Fenced::new(&vec![old; self.twice.words.len()]);
        let mut hops = Fenced::new(&vec![old as u16; self.twice.hops.len()]);
        let answer = gh::build(&records(&self.routes), &mut words, &mut hops);
        let told = || self.twice.told(&format!("{call:x?}, beside a build of the routes then standing"));
        if answer != is & !(1 << 8) {
            run.fault("a build of the routes then standing says something else", &told);
        }
        let differs = words.differs("words of the build", &self.twice.lent_words);
        if let Some(what) = differs.or_else(|| hops.differs("hops of the build", &self.twice.lent_hops)) {
            run.fault(&what, &told);
        }
    }

    /// Every address at an edge is served as a linear search over the routes does.
    fn look(&self, run: &mut Run) {
        for addr in edges(&self.routes) {
            run.lookups += 1;
            let is = gh::tree_lookup(&self.twice.lent_words, &self.twice.lent_hops, addr);
            if is != plain::search_image(&self.routes, addr) {
                let told = || self.twice.told(&format!("lookup of {addr:08x}"));
                run.fault("a linear search over the routes then standing finds another answer", &told);
            }
        }
    }

    /// Harm to a copy, and calls on it. The first call is the test.
    fn harmed(&self, run: &mut Run, rng: &mut Rng, field: &Field) {
        let (mut words, mut hops) = (self.twice.words.clone(), self.twice.hops.clone());
        for _ in 0..rng.range(1, 2) {
            damage(rng, &mut words, &mut hops);
        }
        let place = self.differs_at(&words, &hops);
        let mut twice = Twice::new(words, hops);
        let is = twice.step(run, Call::Test);
        run.count("tree_test", &format!("{} by {place}", number(is)));
        for _ in 0..3 {
            let call = asked(rng, field, &self.routes);
            let then = twice.step(run, call);
            if number(is) == 13 && [3, 4].contains(&number(then)) {
                run.count(call.name(), &format!("{} before 13", number(then)));
            }
        }
    }

    /// The kind of place at which an image first differs from this one.
    fn differs_at(&self, words: &[u32], hops: &[u16]) -> &'static str {
        let answer = tree_change::test(&self.twice.words, &self.twice.hops);
        let (nodes, used) = ((answer >> 32) as usize, (answer >> 16) as usize & 0xFFFF);
        let word = words.iter().zip(&self.twice.words).position(|(a, b)| a != b);
        let hop = hops.iter().zip(&self.twice.hops).position(|(a, b)| a != b);
        match (word, hop) {
            (Some(k), _) if k >= 3 * nodes => "a word after the last",
            (Some(k), _) => ["bits", "a child base", "a hop base"][k % 3],
            (None, Some(k)) if k >= used => "a hop after the last",
            (None, Some(_)) => "a hop",
            (None, None) => "room",
        }
    }
}

/// Arrays about as long as these routes need, so that room ends now and then.
fn room(rng: &mut Rng, routes: &[Route]) -> (usize, usize) {
    let mut enough = (vec![0; 3 * (1 + 8 * routes.len())], vec![0; routes.len()]);
    let nodes = (plain::build(&records(routes), &mut enough.0, &mut enough.1) >> 32) as usize;
    let more = *rng.pick(&[0, 0, 2, 9, 40, 200]);
    (3 * (nodes + more) + rng.below(3), routes.len() + *rng.pick(&[0, 1, 3, 20]))
}

pub fn episode(run: &mut Run, rng: &mut Rng) {
    let field = Field::new(rng, 16, 24);
    let n = *rng.pick(&[0, 0, 1, 2, 5, 12, 40]);
    let routes = if rng.one_in(5) { spread(rng, n) } else { field.routes(rng, n) };
    let (words, hops) = room(rng, &routes);
    let mut image = Standing::new(run, rng, routes, words, hops).expect("there is room");
    for _ in 0..40 {
        let call = asked(rng, &field, &image.routes);
        image.step(run, rng, call);
        if rng.one_in(4) {
            image.harmed(run, rng, &field);
        }
    }
    image.look(run);
    // Down to nothing, and on from there.
    if rng.one_in(4) {
        while !image.routes.is_empty() {
            let r = *rng.pick(&image.routes);
            image.step(run, rng, Call::Withdraw(r.addr, r.len as u32));
        }
        let r = field.route(rng);
        image.step(run, rng, Call::Announce(r.addr, r.len as u32, r.hop as u32));
        image.harmed(run, rng, &field);
    }
}

/// A full image, of 4,096 routes: a replacement goes in, one route more does not (6 comes before 11 and 12), and after a
/// withdrawal it does if there is room. Then images of 4,096 routes and of some less.
pub fn large(run: &mut Run, rng: &mut Rng) {
    let field = Field::new(rng, 16, 24);
    let routes = spread(rng, plain::RECORDS_MAX);
    let (words, hops) = room(rng, &routes);
    let mut image = Standing::new(run, rng, routes, words, hops).expect("there is room");
    let full = *rng.pick(&image.routes);
    let more = loop {
        let r = field.route(rng);
        if !image.routes.iter().any(|s| (s.addr, s.len) == (r.addr, r.len)) {
            break r;
        }
    };
    let hop = 1 + full.hop as u32 % 64;
    image.step(run, rng, Call::Announce(full.addr, full.len as u32, hop));
    image.step(run, rng, Call::Announce(more.addr, more.len as u32, hop));
    image.step(run, rng, Call::Withdraw(full.addr, full.len as u32));
    image.step(run, rng, Call::Announce(more.addr, more.len as u32, hop));
    for _ in 0..12 {
        let call = asked(rng, &field, &image.routes);
        image.step(run, rng, call);
    }
    for _ in 0..6 {
        image.harmed(run, rng, &field);
    }
}

/// Words of any bitmaps, whose bases are those of the fixed order: what is wrong, if anything, is deeper. Paths go beyond
/// depth 8, end without a route, or have bits that none has at depth 8.
pub fn wild(run: &mut Run, rng: &mut Rng) {
    let field = Field::new(rng, 16, 24);
    for _ in 0..40 {
        let most = rng.range(1, 12);
        let chain = rng.one_in(2);
        let (mut words, mut nodes, mut used, mut n) = (Vec::new(), 1, 0, 0);
        while n < nodes {
            let mut bitmap = match rng.below(4) {
                0 => rng.word() & rng.word() & 0x7FFF,
                1 if !chain => 0,
                _ => 1,
            };
            if nodes < most {
                bitmap |= if chain { 1 << rng.range(16, 31) } else { rng.word() & rng.word() & 0xFFFF_0000 };
            }
            if rng.one_in(40) {
                bitmap |= 1 << 15;
            }
            words.extend([bitmap, nodes as u32, used as u32]);
            nodes += (bitmap >> 16).count_ones() as usize;
            used += (bitmap & 0x7FFF).count_ones() as usize;
            n += 1;
        }
        words.resize(words.len() + rng.below(6), 0);
        let mut hops: Vec<u16> = (0..used).map(|_| field.hop(rng)).collect();
        hops.resize(used + rng.below(3), 0);
        let mut twice = Twice::new(words, hops);
        let is = twice.step(run, Call::Test);
        run.count("tree_test", &format!("{} of any bitmaps", number(is)));
        let routes = tree_change::well_formed(&twice.words, &twice.hops).unwrap_or_default();
        for _ in 0..3 {
            twice.step(run, asked(rng, &field, &routes));
        }
    }
}
