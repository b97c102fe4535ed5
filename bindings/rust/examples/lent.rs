//! A table and an image over buffers of fixed size, as in firmware: nothing is allocated.

use ghatumri::{words_for, Answer, Geometry, ImageMut, Mark, Refusal, TableMut};
use std::net::Ipv4Addr;

const SMALL: Geometry = Geometry::SMALL;
/// Chunks in each pool, and room for routes.
const CHUNKS: usize = 4;
const ROOM: usize = 64;

fn main() -> Result<(), Refusal> {
    let mut table = TableMut {
        geometry: SMALL,
        count: 0,
        list: &mut [0; 8 * ROOM],
        first: &mut [0; SMALL.first_cells()],
        second: &mut [0; CHUNKS * SMALL.second_chunk()],
        third: &mut [0; CHUNKS * SMALL.third_chunk()],
        own2: &mut [0; CHUNKS],
        own3: &mut [0; CHUNKS],
        long1: &mut [0; SMALL.first_cells()],
        long2: &mut [0; CHUNKS * SMALL.second_chunk()],
    };
    table.make()?;
    table.announce([10, 1, 2, 0], 24, 44, Mark::Behind)?;
    table.announce([10, 1, 2, 128], 25, 57, Mark::Attached)?;
    println!("{table:?}");
    for route in table.routes()? {
        println!("{route}");
    }

    let addrs = [Ipv4Addr::new(10, 1, 2, 200), Ipv4Addr::new(10, 1, 2, 5), Ipv4Addr::new(192, 0, 2, 1)];
    let mut out = [Answer::default(); 3];
    table.lookup_many(&addrs, &mut out)?;
    for (addr, answer) in addrs.iter().zip(out) {
        let found = answer.found()?;
        println!("{addr}: {:?} in {} cells", found.hop, found.reads);
    }

    let mut image = ImageMut { words: &mut [0; words_for(ROOM)], hops: &mut [0; ROOM] };
    let built = image.build(table.records())?;
    println!("{} nodes, {:?}", built.nodes, image.lookup([10, 1, 2, 200])?);
    Ok(())
}
