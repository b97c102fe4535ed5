//! The longest record of an input that covers an address.

use crate::gh;
use crate::inputs::tell;
use crate::run::Run;
use differential::gen::{edges, Rng};
use differential::plain::{check_input, longest, number, search};

pub const MUST_HAPPEN: &[(&str, &str)] = &[("longest", "0, 3 at, 4 at, 6, 10 at, some, none")];

/// Addresses at the edges of the records, and any.
pub fn ask(run: &mut Run, rng: &mut Rng, input: &[u8]) {
    let routes = check_input(input).unwrap_or_default();
    let edges = edges(&routes);
    for _ in 0..4 {
        let addr = if edges.is_empty() || rng.one_in(5) { rng.word() } else { *rng.pick(&edges) };
        run.lookups += 1;
        let is = gh::longest(input, addr);
        let told = || format!("call: longest that covers {addr:08x} of {}", tell(input));
        run.answered("longest", is, longest(input, addr), &told);
        if number(is) == 0 {
            run.count("longest", if is == 0 { "none" } else { "some" });
            if (is >> 16) as u16 != search(&routes, addr) {
                run.fault("a linear search over the routes finds another hop", &told);
            }
        }
    }
}
