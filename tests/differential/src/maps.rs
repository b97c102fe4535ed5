//! Bit maps: built over old words, looked up, damaged, and made of random words.

use crate::gh::{self, Fenced};
use crate::inputs::tell;
use crate::run::Run;
use differential::basic::{self, damage, other_size, BYTES, CELLS};
use differential::gen::{damaged_input, edges, spread, Field, Rng};
use differential::plain::{number, records, search, Route};

/// An input and the maps that are lent beside it.
struct Lent {
    input: Fenced<u8>,
    bits: Fenced<u8>,
    cells: Fenced<u16>,
}

impl Lent {
    fn new(input: &[u8], bits: &[u8], cells: &[u16]) -> Lent {
        Lent { input: Fenced::new(input), bits: Fenced::new(bits), cells: Fenced::new(cells) }
    }

    fn told(&self, call: &str) -> String {
        format!("call: {call} with {} bytes and {} cells of {}", self.bits.len(), self.cells.len(), tell(&self.input))
    }

    /// Looks one address up in both, and compares.
    fn look(&self, run: &mut Run, addr: u32) -> u64 {
        run.lookups += 1;
        let is = gh::basic_lookup(&self.input, &self.bits, &self.cells, addr);
        let should = basic::lookup(&self.input, &self.bits, &self.cells, addr);
        run.answered("basic_lookup", is, should, &|| self.told(&format!("basic lookup of {addr:08x}")));
        if number(is) == 0 {
            run.count("basic_lookup", if is == 0 { "no route" } else { "hop" });
        }
        is
    }

    /// Looks many up in both, into words that are as many or not.
    fn look_many(&self, run: &mut Run, rng: &mut Rng, addrs: &[u32]) {
        let room = if rng.one_in(4) { rng.below(addrs.len() + 3) } else { addrs.len() };
        let mut should: Vec<u32> = (0..room).map(|_| rng.word()).collect();
        let mut out = Fenced::new(&should);
        let is = gh::basic_lookup_many(&self.input, &self.bits, &self.cells, addrs, &mut out);
        let told = || self.told(&format!("basic lookup of {} addresses into {room} words", addrs.len()));
        let answer = basic::lookup_many(&self.input, &self.bits, &self.cells, addrs, &mut should);
        run.calls += 1;
        run.answered("basic_lookup_many", is, answer, &told);
        if let Some(what) = out.differs("out", &should) {
            run.fault(&what, &told);
        }
    }
}

/// Builds into arrays of these sizes, filled with old words. Answers them as they then are.
fn build(run: &mut Run, rng: &mut Rng, input: &[u8], (bytes, cells): (usize, usize)) -> (Vec<u8>, Vec<u16>) {
    let old = rng.word();
    let mut bits_should = vec![old as u8; bytes];
    let mut cells_should = vec![old as u16; cells];
    let mut lent = Lent::new(input, &bits_should, &cells_should);
    let is = gh::basic_build(&lent.input, &mut lent.bits, &mut lent.cells);
    let told = || lent.told("basic build");
    run.calls += 1;
    run.answered("basic_build", is, basic::build(input, &mut bits_should, &mut cells_should), &told);
    let differs = lent.bits.differs("bits", &bits_should).or_else(|| lent.cells.differs("cells", &cells_should));
    if let Some(what) = differs.or_else(|| lent.input.differs("input", input)) {
        run.fault(&what, &told);
    }
    (bits_should, cells_should)
}

/// Addresses at the edges of the routes, and others.
fn asked(rng: &mut Rng, field: &Field, routes: &[Route]) -> Vec<u32> {
    let mut addrs = edges(routes);
    addrs.extend([0, u32::MAX]);
    for _ in 0..10 {
        addrs.push(rng.word());
        addrs.push(field.addr(rng));
    }
    addrs
}

pub fn episode(run: &mut Run, rng: &mut Rng) {
    let field = Field::new(rng, 16, 24);
    let n = *rng.pick(&[0, 1, 3, 8, 20, 60, 200]);
    let routes = if rng.one_in(3) { spread(rng, n) } else { field.routes(rng, n) };
    let input = records(&routes);
    let addrs = asked(rng, &field, &routes);

    // As built, every address has the hop of the covering rule.
    let (bits, cells) = build(run, rng, &input, (BYTES, CELLS));
    let lent = Lent::new(&input, &bits, &cells);
    for &addr in &addrs {
        let is = lent.look(run, addr);
        if is != (search(&routes, addr) as u64) << 16 {
            run.fault("a linear search over the routes finds another hop", &|| lent.told(&format!("{addr:08x}")));
        }
        if routes.iter().any(|r| r.len > 16 && r.covers(addr)) {
            run.count("basic_lookup", "longer than 16");
        }
    }
    lent.look_many(run, rng, &addrs);

    // Damaged, and of other sizes.
    let (mut bits, mut cells) = (bits, cells);
    for _ in 0..4 {
        for _ in 0..rng.range(1, 3) {
            let at = *rng.pick(&addrs);
            damage(rng, &mut bits, &mut cells, at);
        }
        let lent = Lent::new(&input, &bits, &cells);
        for &addr in addrs.iter().take(60) {
            lent.look(run, addr);
        }
        lent.look_many(run, rng, &addrs);
    }
    let sizes = other_size(rng);
    let (bits, cells) = build(run, rng, &input, sizes);
    let lent = Lent::new(&input, &bits, &cells);
    lent.look(run, addrs[0]);
    lent.look_many(run, rng, &addrs);

    // Inputs with something wrong, over arrays of right and of other sizes.
    for _ in 0..6 {
        let input = damaged_input(rng, &routes);
        let sizes = if rng.one_in(3) { other_size(rng) } else { (BYTES, CELLS) };
        let (bits, cells) = build(run, rng, &input, sizes);
        let lent = Lent::new(&input, &bits, &cells);
        lent.look(run, addrs[0]);
        lent.look_many(run, rng, &addrs);
    }
    wild(run, rng, &input, &addrs);
}

/// Maps of random words: bits are set where no cell has a hop, and the last bit too.
fn wild(run: &mut Run, rng: &mut Rng, input: &[u8], addrs: &[u32]) {
    let dense = rng.one_in(2);
    let byte = |rng: &mut Rng| if dense { rng.word() } else { rng.word() & rng.word() & rng.word() } as u8;
    let bits: Vec<u8> = (0..BYTES).map(|_| byte(rng)).collect();
    let cells: Vec<u16> = (0..CELLS).map(|_| rng.word() as u16).collect();
    let lent = Lent::new(input, &bits, &cells);
    for &addr in addrs.iter().take(60) {
        lent.look(run, addr);
    }
    lent.look_many(run, rng, addrs);
}

/// Lists of 4,096 records and of one more.
pub fn long(run: &mut Run, rng: &mut Rng) {
    let field = Field::new(rng, 16, 24);
    for n in [4096, 4097] {
        let routes = spread(rng, n);
        let input = records(&routes);
        let addrs = asked(rng, &field, &routes[..200]);
        let (bits, cells) = build(run, rng, &input, (BYTES, CELLS));
        let lent = Lent::new(&input, &bits, &cells);
        for &addr in addrs.iter().take(100) {
            lent.look(run, addr);
        }
        lent.look_many(run, rng, &addrs);
    }
}
