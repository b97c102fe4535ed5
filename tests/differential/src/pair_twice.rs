//! A box of two parties held twice, in the arrays of the plain implementation and in those lent to the library. Each call
//! goes to both, and answers and arrays are compared.

use crate::gh::Fenced;
use crate::gh_pair::{self as gh, Eleven};
use crate::parts::ASKED_PARTIES;
use crate::run::Run;
use crate::twice::Call;
use differential::gen::{edges, Rng};
use differential::pair::{self as plain, party_of, Arrays, State};
use differential::plain::{bits, check_input, cleared, number, records, search_table, size2, size3, Route};

pub struct PairTwice {
    pub state: State,
    pub plain: Arrays,
    pub library: Eleven,
    before: Arrays,
    /// The standing routes of each party, worked out from its accepted calls alone. Nothing while the box is not sound.
    pub standing: Option<[Vec<Route>; 2]>,
}

impl PairTwice {
    /// A box held twice, over any content at all.
    pub fn new(state: State, plain: Arrays) -> PairTwice {
        let library = Eleven::new(&plain);
        let mut twice = PairTwice { state, plain, library, before: Arrays::default(), standing: None };
        twice.look_again();
        twice
    }

    /// After a change from outside: the library's arrays follow, and the standing routes are read off if any stand.
    pub fn look_again(&mut self) {
        self.library.set(&self.plain);
        let sizes_right = ![1, 2].contains(&number(plain::report(&self.state, &self.plain, 0)));
        let content = if sizes_right { plain::sound(&self.state, &self.plain) } else { None };
        self.standing = content.map(|content| content.routes);
    }

    pub fn tell(&self, party: u32, call: &str) -> String {
        let (s, a) = (&self.state, &self.plain);
        let mut told = format!(
            "call: party {party}, {call}\nbox: {s:?}, lists of {} and {} bytes, cells {}, {}, {}, {}, owners {}, {}\n",
            a.own[0].list.len(),
            a.own[1].list.len(),
            a.own[0].first.len(),
            a.own[1].first.len(),
            a.second.len(),
            a.third.len(),
            a.own2.len(),
            a.own3.len()
        );
        match &self.standing {
            Some(routes) => {
                for (w, routes) in routes.iter().enumerate() {
                    told += &format!("standing of party {w}, {} in all:", routes.len());
                    for r in routes.iter().take(64) {
                        told += &format!(" {:08x}/{} to {} mark {};", r.addr, r.len, r.hop, r.mark);
                    }
                    told += "\n";
                }
            }
            None => told += "the box is not sound",
        }
        told
    }

    /// Makes one call of both, compares all, and keeps account of the standing routes. Answers what both answered.
    pub fn step(&mut self, run: &mut Run, party: u32, call: &Call) -> u64 {
        run.calls += 1;
        self.before.clone_from(&self.plain);
        let (s, library, plain) = (&self.state, &mut self.library, &mut self.plain);
        let (name, is, should) = match call {
            Call::Make => ("pair_make", gh::make(s, library), plain::make(s, plain)),
            Call::Load(input) => {
                let is = gh::load(s, library, party, &Fenced::new(input));
                ("pair_load", is, plain::load(s, plain, party, input))
            }
            &Call::Announce(addr, len, hop, mark) => {
                let is = gh::announce(s, library, party, addr, len, hop, mark);
                ("pair_announce", is, plain::announce(s, plain, party, addr, len, hop, mark))
            }
            &Call::Withdraw(addr, len) => {
                let is = gh::withdraw(s, library, party, addr, len);
                ("pair_withdraw", is, plain::withdraw(s, plain, party, addr, len))
            }
            Call::Report => ("pair_report", gh::report(s, library, party), plain::report(s, plain, party)),
            Call::Repair(_) | Call::LookupMany(..) => unreachable!("there are none of a box"),
        };
        let told = || self.tell(party, &format!("{call:?}"));
        run.answered(name, is, should, &told);
        if let Some(what) = self.library.differs(&self.plain) {
            run.fault(&what, &told);
        }
        if number(is) != 0 || matches!(call, Call::Report) {
            if self.plain != self.before {
                run.fault("the plain implementation changed what it must not", &told);
            }
            self.refusals(run, party, name, number(is));
            return is;
        }
        if matches!(call, Call::Make) {
            self.state.shares.iter_mut().for_each(|share| share.count = 0);
            self.standing = Some([Vec::new(), Vec::new()]);
        } else {
            self.state.keep(party_of(party), is);
            self.frame(run, party, call);
            self.account(run, party, call, is);
        }
        self.labels(run, party, name);
        is
    }

    /// Nothing of the other's changed: its own arrays, and the chunks that were its.
    fn frame(&self, run: &Run, party: u32, call: &Call) {
        let other = 1 - party_of(party);
        let (was, is, s) = (&self.before, &self.plain, &self.state);
        let same = |own: &[u32], then: &[u32], cells: &[&[u16]], cells_then: &[&[u16]], size: usize| {
            (0..own.len()).filter(|&c| own[c] != 0 && (own[c] >> 31) as usize == other).all(|c| {
                let chunk = c * size..(c + 1) * size;
                own[c] == then[c] && cells.iter().zip(cells_then).all(|(a, b)| a[chunk.clone()] == b[chunk.clone()])
            })
        };
        let (size2, size3) = (size2(s.p1, s.p2), size3(s.p2));
        if was.own[other] != is.own[other]
            || !same(&was.own2, &is.own2, &[&was.second, &was.long2], &[&is.second, &is.long2], size2)
            || !same(&was.own3, &is.own3, &[&was.third], &[&is.third], size3)
        {
            run.fault("something of the other party's changed", &|| self.tell(party, &format!("{call:?}")));
        }
    }

    /// After an accepted change: which routes of the party stand now, and whether its list holds exactly these.
    fn account(&mut self, run: &mut Run, party: u32, call: &Call, answer: u64) {
        let w = party_of(party);
        let mut all = self.standing.take().expect("a box that a call changes is sound");
        let standing = &mut all[w];
        let place = |standing: &[Route], addr, len| standing.binary_search_by_key(&(addr, len), |r| (r.addr, r.len));
        let mut told = 0;
        match *call {
            Call::Load(ref input) => *standing = check_input(input).expect("an accepted input is good"),
            Call::Announce(given, len, hop, mark) => {
                let route = Route { addr: cleared(given, len), len: len as u8, hop: hop as u16, mark: mark as u8 };
                told = ((given != route.addr) as u64) << 9;
                match place(standing, route.addr, route.len) {
                    Ok(k) => {
                        standing[k] = route;
                        told |= 1 << 8;
                        run.count("pair_announce", "replaced");
                    }
                    Err(k) => standing.insert(k, route),
                }
            }
            Call::Withdraw(given, len) => {
                let addr = cleared(given, len);
                told = ((given != addr) as u64) << 9;
                standing.remove(place(standing, addr, len as u8).expect("what is withdrawn stood"));
            }
            _ => unreachable!("not a change of one party"),
        }
        let mut list = records(standing);
        list.resize(self.plain.own[w].list.len().max(list.len()), 0);
        let right = self.plain.own[w].list == list && answer == (standing.len() as u64) << 16 | told;
        self.standing = Some(all);
        if !right {
            run.fault("the list or the answer is not that of the standing routes", &|| {
                self.tell(party, &format!("{call:?}"))
            });
        }
    }

    /// Refusals that a table of one with the box's pools would not give, and the order among make's.
    fn refusals(&self, run: &mut Run, party: u32, name: &'static str, n: u8) {
        let a = &self.plain;
        let free = |own: &[u32]| own.contains(&0);
        let [one, two] = self.state.shares.map(|share| [share.most2 as u64, share.most3 as u64]);
        let limits = [one[0] + two[0], one[1] + two[1]];
        match n {
            2 if name == "pair_make" && (limits[0] > a.own2.len() as u64 || limits[1] > a.own3.len() as u64) => {
                run.count(name, "2 before 24");
            }
            7 if free(&a.own2) => run.count(name, "7 with free chunks"),
            8 if free(&a.own3) => run.count(name, "8 with free chunks"),
            6 if a.own[1 - party_of(party)].room() > a.own[party_of(party)].room() => {
                run.count(name, "6 with more room at the other's");
            }
            24 if limits.iter().any(|sum| sum >> 32 != 0) => run.count(name, "24 past 32 bits"),
            _ => {}
        }
    }

    /// Which chunks an accepted change opened and closed.
    fn labels(&self, run: &mut Run, party: u32, name: &'static str) {
        let mine = |o: u32| o != 0 && (o >> 31) as usize == party_of(party);
        for (was, is) in [(&self.before.own2, &self.plain.own2), (&self.before.own3, &self.plain.own3)] {
            let opened = (0..is.len()).find(|&c| mine(is[c]) && was[c] != is[c]);
            if let Some(c) = opened {
                run.count(name, "opened");
                if is[c..].iter().any(|&o| o != 0 && !mine(o)) {
                    run.count(name, "opened before the other's");
                }
                if is[..c].iter().any(|&o| o != 0 && !mine(o)) {
                    run.count(name, "opened after the other's");
                }
            }
            if (0..is.len()).any(|c| mine(was[c]) && is[c] == 0) {
                run.count(name, "closed");
            }
        }
        if party > 1 && party & 0xFF == 0 {
            run.count(name, "party 0 if cut");
        }
    }

    /// Looks one address up for a party, in both boxes and by linear search if the box is sound.
    pub fn look(&self, run: &mut Run, party: u32, addr: u32) -> u64 {
        run.lookups += 1;
        let is = gh::lookup(&self.state, &self.library, party, addr);
        let should = plain::lookup(&self.state, &self.plain, party, addr);
        let told = || self.tell(party, &format!("Lookup({addr:08x})"));
        run.answered("pair_lookup", is, should, &told);
        if let Some(routes) = &self.standing {
            if is != search_table(self.state.p1, self.state.p2, &routes[party_of(party)], addr) {
                run.fault("a linear search over the standing routes finds another answer", &told);
            }
            let hop = if is >> 16 == 0 { "no route" } else { "hop" };
            run.count("pair_lookup", &format!("{hop} in {}", is >> 8 & 0xFF));
        } else if number(is) == 0 && is >> 8 & 0xFF > 1 {
            let cell = self.plain.own[party_of(party)].first[bits(addr, self.state.p1) as usize];
            if self.plain.own2[cell as usize - 1] == 0 {
                run.count("pair_lookup", "through nobody's chunk");
            }
        }
        is
    }

    /// Lookups of both parties at the edges of all prefixes of both, or of some when there are many, and at random.
    pub fn look_around(&self, run: &mut Run, rng: &mut Rng, most: usize) {
        let mut addrs = vec![0, u32::MAX, rng.word()];
        for (own, share) in self.plain.own.iter().zip(&self.state.shares) {
            let listed = own.room().min(share.count as usize);
            addrs.extend(edges(&check_input(&own.list[..8 * listed]).unwrap_or_default()));
        }
        while addrs.len() > most {
            addrs.swap_remove(rng.below(addrs.len()));
        }
        for party in [0, 1] {
            self.ask(run, rng, party, &addrs);
        }
        for addr in addrs {
            let both = [0, 1].map(|party| self.look(run, party, addr));
            if both.contains(&5) && both != [5, 5] {
                run.count("pair_lookup", "5 for one alone");
            }
        }
        if let Some(what) = self.library.differs(&self.plain) {
            run.fault(&what, &|| self.tell(0, "lookups"));
        }
    }

    /// What else there is to ask for a party at these addresses.
    pub fn ask(&self, run: &mut Run, rng: &mut Rng, party: u32, addrs: &[u32]) {
        for ask in ASKED_PARTIES {
            ask(run, rng, self, party, addrs);
        }
    }
}
