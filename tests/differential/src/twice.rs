//! A table held twice, in the arrays of the plain implementation and in those lent to the library. Each call goes to
//! both, and answers and arrays are compared.

use crate::gh::{self, Eight, Fenced};
use crate::run::Run;
use differential::gen::{cut, edges, Rng};
use differential::plain::{self, number, records, Lent, Route};
use differential::repair;

#[derive(Clone, Debug)]
pub enum Call {
    Make,
    Load(Vec<u8>),
    /// Address, length, hop and mark, as wide as the boundary takes them.
    Announce(u32, u32, u32, u32),
    Withdraw(u32, u32),
    /// The number of words for what is told.
    Repair(usize),
    Report,
    /// The addresses, and the length of the array for the answers.
    LookupMany(Vec<u32>, usize),
}

pub struct Twice {
    pub p1: u32,
    pub p2: u32,
    pub count: u32,
    pub plain: Lent,
    pub library: Eight,
    before: Lent,
    /// The standing routes, worked out from the accepted calls alone. Nothing while the table is not sound.
    pub standing: Option<Vec<Route>>,
}

impl Twice {
    /// A table held twice, over any content at all.
    pub fn new(p1: u32, p2: u32, count: u32, plain: Lent) -> Twice {
        let library = Eight::new(&plain);
        let mut twice = Twice { p1, p2, count, plain, library, before: Lent::default(), standing: None };
        twice.look_again();
        twice
    }

    /// After a change from outside: the library's arrays follow, and the standing routes are read off if any stand.
    pub fn look_again(&mut self) {
        self.library.set(&self.plain);
        let sound = number(plain::report(self.p1, self.p2, self.count, &self.plain)) == 0;
        self.standing = if sound { plain::sound(self.p1, self.p2, self.count, &self.plain) } else { None };
    }

    pub fn tell(&self, call: &str) -> String {
        let lent = &self.plain;
        let mut told = format!(
            "call: {call}\ntable: geometry ({}, {}), count {}, list of {} bytes, cells {}, {}, {}, owners {}, {}\n",
            self.p1,
            self.p2,
            self.count,
            lent.list.len(),
            lent.first.len(),
            lent.second.len(),
            lent.third.len(),
            lent.own2.len(),
            lent.own3.len()
        );
        match &self.standing {
            Some(routes) => {
                told += "standing:";
                for r in routes.iter().take(64) {
                    told += &format!(" {:08x}/{} to {} mark {};", r.addr, r.len, r.hop, r.mark);
                }
                told += &format!(" {} in all", routes.len());
            }
            None => told += "the table is not sound",
        }
        told
    }

    /// Makes one call of both, compares all, and keeps account of the standing routes. Answers what both answered.
    pub fn step(&mut self, run: &mut Run, call: &Call) -> u64 {
        run.calls += 1;
        let (p1, p2, count) = (self.p1, self.p2, self.count);
        self.before.clone_from(&self.plain);
        let (name, is, should) = match call {
            Call::Make => {
                let is = gh::make(p1, p2, &mut self.library);
                ("make", is, plain::make(p1, p2, &mut self.plain))
            }
            Call::Load(input) => {
                let lent = Fenced::new(input);
                let is = gh::load(p1, p2, &lent, &mut self.library);
                if let Some(what) = lent.differs("input", input) {
                    run.fault(&what, &|| self.tell(&format!("{call:?}")));
                }
                ("load", is, plain::load(p1, p2, input, &mut self.plain))
            }
            Call::Announce(addr, len, hop, mark) => {
                let is = gh::announce(p1, p2, count, &mut self.library, *addr, *len, *hop, *mark);
                ("announce", is, plain::announce(p1, p2, count, &mut self.plain, *addr, *len, *hop, *mark))
            }
            Call::Withdraw(addr, len) => {
                let is = gh::withdraw(p1, p2, count, &mut self.library, *addr, *len);
                ("withdraw", is, plain::withdraw(p1, p2, count, &mut self.plain, *addr, *len))
            }
            Call::Repair(room) => {
                let filled: Vec<u32> = (0..*room as u32).map(|k| !k).collect();
                let mut out = Fenced::new(&filled);
                let mut out_should = filled;
                let is = gh::repair(p1, p2, count, &mut self.library, &mut out);
                let should = repair::repair(p1, p2, count, &mut self.plain, &mut out_should);
                if let Some(what) = out.differs("out", &out_should) {
                    run.fault(&what, &|| self.tell(&format!("{call:?}")));
                }
                if number(is) == 0 {
                    self.count_repaired(run, &out);
                } else if number(is) == 2 && number(plain::report(p1, p2, count, &self.plain)) != 2 {
                    run.count("repair", "2 by words");
                }
                ("repair", is, should)
            }
            Call::Report => {
                let is = gh::report(p1, p2, count, &self.library);
                ("report", is, plain::report(p1, p2, count, &self.plain))
            }
            Call::LookupMany(addrs, room) => {
                let filled: Vec<u32> = (0..*room as u32).map(|k| !k).collect();
                let mut out = Fenced::new(&filled);
                let mut out_should = filled;
                let lent = Fenced::new(addrs);
                let is = gh::lookup_many(p1, p2, count, &self.library, &lent, &mut out);
                let should = plain::lookup_many(p1, p2, count, &self.plain, addrs, &mut out_should);
                if let Some(what) = out.differs("out", &out_should).or_else(|| lent.differs("addrs", addrs)) {
                    run.fault(&what, &|| self.tell(&format!("{call:?}")));
                }
                ("lookup_many", is, should)
            }
        };
        run.answered(name, is, should, &|| self.tell(&format!("{call:?}")));
        match (number(is), call) {
            (3, Call::Announce(_, 256.., _, _)) => run.count("announce", "wide length"),
            (4, Call::Announce(_, _, 65_536.., _)) => run.count("announce", "wide hop"),
            (10, Call::Announce(_, _, _, 256..)) => run.count("announce", "wide mark"),
            (3, Call::Withdraw(_, 256..)) => run.count("withdraw", "wide length"),
            _ => {}
        }
        if let Some(what) = self.library.differs(&self.plain) {
            run.fault(&what, &|| self.tell(&format!("{call:?}")));
        }
        let changes = !matches!(call, Call::Report | Call::LookupMany(..));
        if number(is) != 0 || !changes {
            if self.plain != self.before {
                run.fault("the plain implementation changed what it must not", &|| self.tell(&format!("{call:?}")));
            }
            if number(is) != 0 {
                return is;
            }
        }
        if changes {
            self.count = (is >> 16) as u32 & 0xFFFF;
            self.account(run, call, count, is);
        }
        is
    }

    /// After an accepted change: which routes stand now, and whether the list holds exactly these.
    fn account(&mut self, run: &mut Run, call: &Call, count: u32, answer: u64) {
        let mut standing = self.standing.take().unwrap_or_default();
        match call {
            Call::Make => standing.clear(),
            Call::Load(input) => {
                standing = plain::check_input(input).expect("an accepted input is good");
            }
            Call::Announce(given, len, hop, mark) => {
                let addr = plain::cleared(*given, *len);
                let route = Route { addr, len: *len as u8, hop: *hop as u16, mark: *mark as u8 };
                let replaced = match standing.iter_mut().find(|r| (r.addr, r.len) == (addr, route.len)) {
                    Some(r) => {
                        if r.hop == route.hop && r.mark != route.mark {
                            run.count("announce", "mark alone");
                        }
                        *r = route;
                        true
                    }
                    None => {
                        standing.push(route);
                        standing.sort();
                        false
                    }
                };
                if (answer >> 8 & 1 == 1) != replaced {
                    run.fault("replaced is told wrongly", &|| self.tell(&format!("{call:?}")));
                }
                if replaced {
                    run.count("announce", "replaced");
                }
                self.told_cleared(run, call, answer, *given != addr);
                if *given != addr {
                    run.count("announce", if replaced { "replaced and cleared" } else { "added and cleared" });
                }
                self.count_opened(run);
            }
            Call::Withdraw(given, len) => {
                let addr = plain::cleared(*given, *len);
                standing.retain(|r| (r.addr, r.len as u32) != (addr, *len));
                self.told_cleared(run, call, answer, *given != addr);
                if *given != addr {
                    run.count("withdraw", "cleared");
                }
                if standing.iter().any(|r| (r.len as u32) < *len && r.covers(addr)) {
                    run.count("withdraw", "under a cover");
                }
                let fewer = |now: &[u32], was: &[u32]| used(now) < used(was);
                if fewer(&self.plain.own2, &self.before.own2) {
                    run.count("withdraw", "second closed");
                }
                if fewer(&self.plain.own3, &self.before.own3) {
                    run.count("withdraw", "third closed");
                }
            }
            Call::Repair(_) => standing = repair::kept(count, &self.before.list).0,
            Call::Report | Call::LookupMany(..) => {}
        }
        let mut list = records(&standing);
        list.resize(self.plain.list.len().max(list.len()), 0);
        let told = format!("{call:?}");
        self.standing = Some(standing);
        if let Some(what) = self.library.list.differs("list", &list) {
            run.fault(&what, &|| self.tell(&told));
        }
        if self.count as usize != self.standing.as_ref().unwrap().len() {
            run.fault("the count is not that of the standing routes", &|| self.tell(&told));
        }
    }

    /// Bit 9 of an accepted change tells whether bits after the length were cleared.
    fn told_cleared(&self, run: &mut Run, call: &Call, answer: u64, cleared: bool) {
        if (answer >> 9 & 1 == 1) != cleared {
            run.fault("cleared is told wrongly", &|| self.tell(&format!("{call:?}")));
        }
    }

    /// Which of the four numbers a repair told.
    fn count_repaired(&self, run: &mut Run, told: &[u32]) {
        for (label, &n) in ["dropped", "first differ", "second differ", "third differ"].into_iter().zip(told) {
            if n != 0 {
                run.count("repair", label);
            }
        }
        if told.iter().all(|&n| n == 0) {
            run.count("repair", "nothing found");
        } else if self.standing.is_some() {
            // A run numbered the chunks otherwise than a load does, and no record was dropped.
            run.count("repair", "sound and cells differ");
        }
    }

    fn count_opened(&self, run: &mut Run) {
        for (label, now, was) in [
            ("second opened", &self.plain.own2, &self.before.own2),
            ("third opened", &self.plain.own3, &self.before.own3),
        ] {
            if let Some(c) = (0..now.len()).find(|&c| was[c] == 0 && now[c] != 0) {
                run.count("announce", label);
                if was[c..].iter().any(|&o| o != 0) {
                    run.count("announce", "hole filled");
                }
            }
        }
        let full = |own: &[u32]| !own.is_empty() && used(own) == own.len();
        let lent = &self.plain;
        if full(&lent.own2) && full(&lent.own3) && self.count as usize == lent.room() {
            run.count("announce", "room and chunks full");
        }
    }

    /// Looks one address up, in both tables and by linear search where the table is sound.
    pub fn look(&self, run: &mut Run, addr: u32) -> u64 {
        run.lookups += 1;
        let is = gh::lookup(self.p1, self.p2, self.count, &self.library, addr);
        let should = plain::lookup(self.p1, self.p2, self.count, &self.plain, addr);
        let told = || self.tell(&format!("Lookup({addr:08x})"));
        run.answered("lookup", is, should, &told);
        if let Some(routes) = &self.standing {
            let found = plain::search_table(self.p1, self.p2, routes, addr);
            if is != found {
                run.fault("a linear search over the standing routes finds another answer", &told);
            }
            let hop = if is >> 16 == 0 { "no route" } else { "hop" };
            run.count("lookup", &format!("{hop} in {}", is >> 8 & 0xFF));
        }
        is
    }

    /// Looks all these addresses up, one by one and then together.
    pub fn look_all(&mut self, run: &mut Run, addrs: Vec<u32>) {
        for &addr in &addrs {
            self.look(run, addr);
        }
        if let Some(what) = self.library.differs(&self.plain) {
            run.fault(&what, &|| self.tell("lookups"));
        }
        let n = addrs.len();
        self.step(run, &Call::LookupMany(addrs, n));
    }

    /// Lookups at the edges of all prefixes, or of some when there are many, and at random.
    pub fn look_around(&mut self, run: &mut Run, rng: &mut Rng, most: usize) {
        let listed = self.plain.room().min(self.count as usize);
        let mut addrs = match plain::check_input(&self.plain.list[..8 * listed]) {
            Ok(routes) => edges(&routes),
            Err(_) => Vec::new(),
        };
        while addrs.len() > most {
            let k = rng.below(addrs.len());
            addrs.swap_remove(k);
        }
        addrs.extend([0, u32::MAX]);
        for _ in 0..6 {
            addrs.push(rng.word());
        }
        // Addresses in the chunks' own cells, which random ones seldom meet.
        for _ in 0..4 {
            if let Some(&o) = self.plain.own2.iter().find(|&&o| o != 0 && (o as usize) <= self.plain.first.len()) {
                if self.p1 <= 32 && self.p1 > 0 {
                    let near = (((o - 1) as u64) << (32 - self.p1)) as u32;
                    addrs.push(near | (rng.word() & !cut(u32::MAX, self.p1)));
                }
            }
        }
        self.ask(run, rng, &addrs);
        self.look_all(run, addrs);
    }

    /// What else there is to ask at these addresses.
    pub fn ask(&self, run: &mut Run, rng: &mut Rng, addrs: &[u32]) {
        for ask in crate::parts::ASKED {
            ask(run, rng, self, addrs);
        }
    }

    /// A fresh load of the standing routes gives the same answers at the edges and has as many chunks in use.
    pub fn against_fresh_load(&self, run: &mut Run) {
        let Some(routes) = &self.standing else { return };
        let lent = &self.plain;
        let (size2, size3) = (plain::size2(self.p1, self.p2), plain::size3(self.p2));
        let fresh = Lent::new(self.p1, self.p2, lent.room(), lent.second.len() / size2, lent.third.len() / size3);
        let mut fresh = Twice::new(self.p1, self.p2, 0, fresh);
        let answer = fresh.step(run, &Call::Load(records(routes)));
        let told = || self.tell("against a fresh load");
        if number(answer) != 0 {
            run.fault("a fresh load of the standing routes is refused", &told);
        }
        if used(&fresh.plain.own2) != used(&lent.own2) || used(&fresh.plain.own3) != used(&lent.own3) {
            run.fault("a fresh load has another number of chunks in use", &told);
        }
        if fresh.plain.long1 != lent.long1 {
            run.fault("a fresh load has other counts at first cells", &told);
        }
        for addr in edges(routes) {
            run.lookups += 2;
            if plain::walk_counts(self.p1, self.p2, lent, addr)
                != plain::walk_counts(self.p1, self.p2, &fresh.plain, addr)
            {
                run.fault("a fresh load has other counts on an address's walk", &told);
            }
            if gh::lookup(self.p1, self.p2, self.count, &self.library, addr)
                != gh::lookup(self.p1, self.p2, fresh.count, &fresh.library, addr)
            {
                run.fault(&format!("a fresh load answers {addr:08x} otherwise"), &told);
            }
        }
    }
}

/// Chunks in use.
pub fn used(own: &[u32]) -> usize {
    own.iter().filter(|&&o| o != 0).count()
}
