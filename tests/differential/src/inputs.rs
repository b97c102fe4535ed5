//! Record inputs, good and damaged: the run, the tally, routes read back, broadcasts, build.

use crate::gh::{self, Fenced};
use crate::run::Run;
use differential::gen::{asked_prefix, damaged_input, spread, Field, Rng};
use differential::plain::{self, number, records, Route};

pub fn episode(run: &mut Run, rng: &mut Rng) {
    let field = Field::new(rng, 16, 24);
    let n = *rng.pick(&[0, 1, 2, 5, 20, 60]);
    let routes = if rng.one_in(4) { spread(rng, n) } else { field.routes(rng, n) };
    for _ in 0..4 {
        ask(run, rng, &field, &routes, &records(&routes));
    }
    for _ in 0..12 {
        let input = damaged_input(rng, &routes);
        ask(run, rng, &field, &routes, &input);
    }
    crate::broadcasts::links(run, rng, &field, &routes);
}

/// Inputs of 4,096 records and of more, good and with something wrong late.
pub fn long(run: &mut Run, rng: &mut Rng) {
    let field = Field::new(rng, 16, 24);
    for n in [4095, 4096, 4097, 4097 + rng.below(2000)] {
        let routes = spread(rng, n);
        let mut input = records(&routes);
        ask(run, rng, &field, &routes, &input);
        let late = 8 * rng.range(n - 2, n - 1);
        match rng.below(4) {
            0 => input[late + 4] = 33,
            1 => input[late + 5] = 1,
            2 => input[late + 6..late + 8].fill(0),
            _ => input.truncate(late + 7),
        }
        ask(run, rng, &field, &routes, &input);
        let input = damaged_input(rng, &routes);
        ask(run, rng, &field, &routes, &input);
    }
}

/// Every call that takes a record input and no table, on one input.
fn ask(run: &mut Run, rng: &mut Rng, field: &Field, routes: &[Route], input: &[u8]) {
    let lent = Fenced::new(input);
    for _ in 0..3 {
        let (addr, len) = asked_prefix(rng, field, routes);
        let is = gh::run(&lent, addr, len);
        let told = || format!("call: run under {addr:08x}/{len} of {}", tell(input));
        run.calls += 1;
        run.answered("run", is, plain::run(input, addr, len), &told);
        if is == 3 && len > 255 {
            run.count("run", "wide length");
        }
        if number(is) == 0 {
            run.count("run", if is >> 32 == 0 { "empty" } else { "some" });
        }
    }

    let room = if rng.one_in(5) { *rng.pick(&[0, 1, 32, 34, 66]) } else { 33 };
    let mut should: Vec<u32> = (0..room).map(|_| rng.word()).collect();
    let mut out = Fenced::new(&should);
    let is = gh::tally(&lent, &mut out);
    let told = || format!("call: tally into {room} words of {}", tell(input));
    run.calls += 1;
    run.answered("tally", is, plain::tally(input, &mut should), &told);
    if let Some(what) = out.differs("out", &should) {
        run.fault(&what, &told);
    }

    let whole = input.len() / 8;
    for _ in 0..3 {
        let index = match rng.below(8) {
            0 => whole as u32,
            1 => u32::MAX,
            2 => whole as u32 + 1,
            3 => 1 << 29,
            _ => rng.below(whole + 1) as u32,
        };
        let is = gh::route(&lent, index);
        let told = || format!("call: route {index} of {}", tell(input));
        run.calls += 1;
        run.answered("route", is, plain::route(input, index), &told);
        if is == 0 {
            run.count("route", "none");
        } else if number(is) == 0 {
            // What is read back is the record itself.
            let r = Route {
                addr: (is >> 32) as u32,
                len: (is >> 8) as u8 & 0x7F,
                hop: (is >> 16) as u16,
                mark: (is >> 15) as u8 & 1,
            };
            if r.record() != input[8 * index as usize..8 * index as usize + 8] {
                run.fault("the route is not that of the record", &told);
            }
        }
    }

    crate::broadcasts::ask(run, rng, routes, &lent);
    crate::images::build(run, rng, input);
    for ask in crate::parts::ASKED_INPUTS {
        ask(run, rng, input);
    }
    if let Some(what) = lent.differs("input", input) {
        run.fault(&what, &|| format!("over {}", tell(input)));
    }
}

/// An input in words.
pub fn tell(input: &[u8]) -> String {
    let mut told = format!("an input of {} bytes", input.len());
    if input.len() <= 1024 {
        for (k, record) in input.chunks(8).enumerate() {
            told += if k % 4 == 0 { "\n " } else { "  " };
            for b in record {
                told += &format!("{b:02x}");
            }
        }
    }
    told
}
