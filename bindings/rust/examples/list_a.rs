//! A table of two routes, one of them attached, asked and changed.

use ghatumri::{Geometry, Mark, Reason, Refusal, Table};

fn main() -> Result<(), Refusal> {
    // Room for 64 routes, and 4 chunks in each pool.
    let mut table = Table::new(Geometry::STANDARD, 64, 4, 4)?;
    table.announce([10, 1, 2, 0], 24, 44, Mark::Behind)?;
    table.announce([10, 1, 2, 128], 25, 57, Mark::Attached)?;
    let found = table.lookup([10, 1, 2, 200])?;
    println!("hop {:?} in {} cells", found.hop, found.reads);
    match table.withdraw([10, 1, 3, 0], 24) {
        Err(refusal) if refusal.reason == Reason::Absent => println!("{refusal}"),
        other => drop(other?),
    }
    for route in table.routes()? {
        println!("{route}");
    }
    Ok(())
}
