//! Messages read into tables and boxes of any content, and fields written.

use crate::gh::{self, Fenced};
#[cfg(feature = "pair_update")]
use crate::gh_pair;
use crate::inputs::tell;
#[cfg(feature = "pair_update")]
use crate::pair_twice::PairTwice;
use crate::run::Run;
use crate::twice::{Call, Twice};
use differential::fields::{self, damage, entries, field_of, Net};
use differential::gen::{asked_hop, asked_prefix, Field, Rng};
#[cfg(feature = "pair_update")]
use differential::pair;
use differential::plain::{self, check_input, number, Route};

pub const MUST_HAPPEN: &[(&str, &str)] = &[
    (
        "update",
        "0, 1, 2, 4, 5, 6 at, 7 at, 8 at, 17, nothing to do, withdrawn, passed over, added, replaced, mark lost, stands, \
         in both fields, stopped at the first, stopped after some, stopped after withdrawals, 5 before 17, 17 before 4, \
         wide hop",
    ),
    ("write_field", "0, 3 at, 4 at, 6, 10 at, 18, to the last byte, bytes after it"),
];

#[cfg(feature = "pair_update")]
pub const MUST_HAPPEN_OF_TWO: &[(&str, &str)] = &[(
    "pair_update",
    "0, 1, 2, 4, 5, 6 at, 7 at, 8 at, 17, withdrawn, passed over, added, replaced, stopped at the first, \
     stopped after some, stopped after withdrawals",
)];

/// A message: both fields, and the hop.
#[derive(Debug)]
struct Message {
    withdrawn: Vec<u8>,
    reach: Vec<u8>,
    hop: u32,
}

/// Standing prefixes, ones near them, and new ones; some of them twice.
fn nets(rng: &mut Rng, field: &Field, standing: &[Route]) -> Vec<Net> {
    let many = match rng.below(24) {
        0 => rng.range(100, 300),
        1..=5 => 0,
        _ => rng.range(1, 14),
    };
    let mut nets: Vec<Net> = Vec::new();
    for _ in 0..many {
        let net = match rng.below(8) {
            0 | 1 if !standing.is_empty() => {
                let r = rng.pick(standing);
                (r.addr, r.len)
            }
            2 if !nets.is_empty() => *rng.pick(&nets),
            3 => {
                let (addr, len) = asked_prefix(rng, field, standing);
                (addr, len.min(32) as u8)
            }
            _ => {
                let r = field.route(rng);
                (r.addr, r.len)
            }
        };
        nets.push(net);
    }
    nets
}

fn message(rng: &mut Rng, field: &Field, standing: &[Route]) -> Message {
    let (goes, comes) = (nets(rng, field, standing), nets(rng, field, standing));
    let (mut withdrawn, mut reach) = (field_of(rng, &goes), field_of(rng, &comes));
    let broken = rng.one_in(8);
    if broken {
        let one = if rng.one_in(2) { &mut withdrawn } else { &mut reach };
        damage(rng, one);
    }
    let hop = match standing {
        // Of two refusals the first is given.
        _ if broken && rng.one_in(3) => *rng.pick(&[0, 32_768, 65_580, u32::MAX]),
        // The hop of a standing route: what stands with it and mark 0 stays as it is.
        [first, ..] if rng.one_in(3) => first.hop as u32,
        _ => asked_hop(rng, field),
    };
    Message { withdrawn, reach, hop }
}

/// One message into a table, in both.
pub fn change(run: &mut Run, rng: &mut Rng, field: &Field, t: &mut Twice) {
    let message = message(rng, field, &listed(&t.plain.list, t.count));
    let (was, (withdrawn, reach)) = (t.plain.clone(), message.lent());
    run.calls += 1;
    let is = gh::update(t.p1, t.p2, t.count, &mut t.library, &withdrawn, &reach, message.hop);
    let should = fields::update(t.p1, t.p2, t.count, &mut t.plain, &withdrawn, &reach, message.hop);
    run.answered("update", is, should, &|| t.tell(&format!("{message:02x?}")));
    let differs = t.library.differs(&t.plain).or_else(|| message.differs(&withdrawn, &reach));
    if let Some(what) = differs {
        run.fault(&what, &|| t.tell(&format!("{message:02x?}")));
    }
    if [0, 6, 7, 8].contains(&number(is)) {
        t.count = (is >> 16) as u32 & 0xFFFF;
        let mut standing = t.standing.take().expect("a table that a message changes is sound");
        message.account(run, "update", &mut standing, is);
        let holds = holds(&t.plain.list, t.count, &standing);
        t.standing = Some(standing);
        if !holds {
            run.fault("the list does not hold what stands", &|| t.tell(&format!("{message:02x?}")));
        }
        t.step(run, &Call::Report);
    } else {
        if t.plain != was {
            run.fault("what is refused changed the table", &|| t.tell(&format!("{message:02x?}")));
        }
        message.refusals(run, "update", number(is));
    }
}

/// One message into a party of a box, in both.
#[cfg(feature = "pair_update")]
pub fn change_party(run: &mut Run, rng: &mut Rng, field: &Field, t: &mut PairTwice, party: u32) {
    let w = pair::party_of(party);
    let message = message(rng, field, &listed(&t.plain.own[w].list, t.state.shares[w].count));
    let (was, (withdrawn, reach)) = (t.plain.clone(), message.lent());
    run.calls += 1;
    let is = gh_pair::update(&t.state, &mut t.library, party, &withdrawn, &reach, message.hop);
    let mut table = pair::Party { state: t.state, arrays: &mut t.plain, party };
    let should = fields::update_by(&mut table, &withdrawn, &reach, message.hop);
    run.answered("pair_update", is, should, &|| t.tell(party, &format!("{message:02x?}")));
    let differs = t.library.differs(&t.plain).or_else(|| message.differs(&withdrawn, &reach));
    if let Some(what) = differs {
        run.fault(&what, &|| t.tell(party, &format!("{message:02x?}")));
    }
    if [0, 6, 7, 8].contains(&number(is)) {
        t.state.shares[w].count = (is >> 16) as u32 & 0xFFFF;
        let mut standing = t.standing.take().expect("a box that a message changes is sound");
        message.account(run, "pair_update", &mut standing[w], is);
        let holds = holds(&t.plain.own[w].list, t.state.shares[w].count, &standing[w]);
        t.standing = Some(standing);
        if !holds {
            run.fault("the list does not hold what stands", &|| t.tell(party, &format!("{message:02x?}")));
        }
        t.step(run, party, &Call::Report);
    } else {
        if t.plain != was {
            run.fault("what is refused changed the box", &|| t.tell(party, &format!("{message:02x?}")));
        }
        message.refusals(run, "pair_update", number(is));
    }
}

/// The routes of a list of any content, none if it is not good.
fn listed(list: &[u8], count: u32) -> Vec<Route> {
    let many = (list.len() / 8).min(count as usize);
    check_input(&list[..8 * many]).unwrap_or_default()
}

/// The list holds exactly these routes.
fn holds(list: &[u8], count: u32, standing: &[Route]) -> bool {
    let (records, rest) = list.split_at((8 * count as usize).min(list.len()));
    records == plain::records(standing) && rest.iter().all(|&byte| byte == 0)
}

impl Message {
    fn lent(&self) -> (Fenced<u8>, Fenced<u8>) {
        (Fenced::new(&self.withdrawn), Fenced::new(&self.reach))
    }

    fn differs(&self, withdrawn: &Fenced<u8>, reach: &Fenced<u8>) -> Option<String> {
        withdrawn.differs("withdrawn", &self.withdrawn).or_else(|| reach.differs("reach", &self.reach))
    }

    /// Which routes stand after exactly the entries dealt with.
    fn account(&self, run: &mut Run, name: &'static str, standing: &mut Vec<Route>, is: u64) {
        let goes = entries(&self.withdrawn).expect("checked before the work");
        let comes = entries(&self.reach).expect("checked before the work");
        let dealt = (is >> 32) as usize;
        for (k, &(addr, len)) in goes.iter().chain(&comes).take(dealt).enumerate() {
            let place = standing.binary_search_by_key(&(addr, len), |r| (r.addr, r.len));
            let route = Route { addr, len, hop: self.hop as u16, mark: 0 };
            let label = match (k < goes.len(), place) {
                (true, Ok(at)) => {
                    standing.remove(at);
                    "withdrawn"
                }
                (true, Err(_)) => "passed over",
                (false, Ok(at)) => match std::mem::replace(&mut standing[at], route) {
                    Route { mark: 1, .. } => "mark lost",
                    was if was == route => "stands",
                    _ => "replaced",
                },
                (false, Err(at)) => {
                    standing.insert(at, route);
                    "added"
                }
            };
            run.count(name, label);
        }
        labels(run, name, &goes, &comes, dealt, number(is) != 0);
    }

    /// The order among the refusals that leave all as it was.
    fn refusals(&self, run: &mut Run, name: &'static str, n: u8) {
        let broken = entries(&self.withdrawn).is_none() || entries(&self.reach).is_none();
        if n == 5 && broken {
            run.count(name, "5 before 17");
        }
        if n == 17 && !plain::hop_ok(self.hop) {
            run.count(name, "17 before 4");
        }
        if n == 4 && self.hop > 0xFFFF {
            run.count(name, "wide hop");
        }
    }
}

fn labels(run: &mut Run, name: &'static str, goes: &[Net], comes: &[Net], dealt: usize, stopped: bool) {
    let mut count = |label| run.count(name, label);
    if goes.len() + comes.len() == 0 {
        count("nothing to do");
    }
    if goes.iter().any(|net| comes.contains(net)) {
        count("in both fields");
    }
    if stopped {
        count(if dealt == goes.len() { "stopped at the first" } else { "stopped after some" });
        if !goes.is_empty() {
            count("stopped after withdrawals");
        }
    }
}

/// The field of a record input, into about as many bytes as it needs. Read back it has the prefixes of the input.
pub fn write(run: &mut Run, rng: &mut Rng, input: &[u8]) {
    let enough = check_input(input).map_or(9, |routes| routes.iter().map(|r| fields::entry(r.addr, r.len).len()).sum());
    let room = match rng.below(6) {
        0 => enough.saturating_sub(1),
        1 => rng.below(enough + 1),
        2 | 3 => enough + rng.range(1, 9),
        _ => enough,
    };
    let mut should: Vec<u8> = (0..room).map(|_| rng.word() as u8).collect();
    let lent = Fenced::new(input);
    let mut out = Fenced::new(&should);
    run.calls += 1;
    let is = gh::write_field(&lent, &mut out);
    let told = || format!("call: write the field into {room} bytes of {}", tell(input));
    run.answered("write_field", is, fields::write_field(input, &mut should), &told);
    if let Some(what) = out.differs("out", &should).or_else(|| lent.differs("input", input)) {
        run.fault(&what, &told);
    }
    if number(is) == 0 {
        run.count("write_field", if enough == room { "to the last byte" } else { "bytes after it" });
        let nets = check_input(input).map(|routes| routes.iter().map(|r| (r.addr, r.len)).collect());
        if entries(&out[..(is >> 32) as usize]) != nets.ok() {
            run.fault("the field read back has other prefixes", &told);
        }
    }
}
