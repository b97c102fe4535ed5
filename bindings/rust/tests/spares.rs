//! Spares that are compared: the images of list A of document 01, and of lists that differ from it in one record. `docs/SPARES.md` shows `same_spares`.

use ghatumri::*;

/// Whether two images hold the same routes.
fn same_spares(one: &ImageRef, other: &ImageRef) -> Result<bool, Refusal> {
    let (used, used_there) = (one.test()?, other.test()?);
    let (words, hops) = (3 * used.nodes, used.hops);
    Ok(used == used_there && one.words[..words] == other.words[..words] && one.hops[..hops] == other.hops[..hops])
}

const LIST_A: [&str; 5] = ["0.0.0.0/0 6", "10.0.0.0/8 20", "10.1.0.0/16 31", "10.1.2.0/24 44", "10.1.2.128/25 57"];

/// The image of these routes in arrays of these sizes, over old words.
struct Spare {
    words: Vec<u32>,
    hops: Vec<u16>,
}

impl Spare {
    fn of(routes: &[&str], words: usize, hops: usize, old: u16) -> Spare {
        let input: Vec<u8> = routes.iter().flat_map(|text| text.parse::<Route>().unwrap().record()).collect();
        let mut spare = Spare { words: vec![u32::from(old); words], hops: vec![old; hops] };
        spare.lend().build(&input).unwrap();
        spare
    }

    fn lend(&mut self) -> ImageMut<'_> {
        ImageMut { words: &mut self.words, hops: &mut self.hops }
    }

    fn view(&self) -> ImageRef<'_> {
        ImageRef { words: &self.words, hops: &self.hops }
    }
}

#[test]
fn same_and_not() {
    let spare = Spare::of(&LIST_A, 24, 6, 1);
    let with = |k: usize, text| {
        let mut routes = LIST_A;
        routes[k] = text;
        routes
    };
    let marked = Spare::of(&with(2, "10.1.0.0/16 31 attached"), 24, 6, 2);
    assert!(marked.view() == spare.view() && same_spares(&marked.view(), &spare.view()) == Ok(true));
    let hop = Spare::of(&with(4, "10.1.2.128/25 58"), 24, 6, 3);
    assert!(hop.words == spare.words && hop.hops[..4] == spare.hops[..4] && hop.hops[4] == 58);
    assert_eq!(same_spares(&hop.view(), &spare.view()), Ok(false));
    let other = [LIST_A[0], LIST_A[1], LIST_A[2], LIST_A[4], "10.1.3.0/24 44"];
    assert_eq!(same_spares(&Spare::of(&other, 24, 6, 4).view(), &spare.view()), Ok(false));
}

#[test]
fn in_larger_arrays() {
    let spare = Spare::of(&LIST_A, 21, 5, 1);
    let mut larger = Spare::of(&[], 39, 7, 2);
    for k in [3, 0, 4, 2, 1] {
        let route: Route = LIST_A[k].parse().unwrap();
        larger.lend().announce(route.addr, route.len, route.hop).unwrap();
    }
    larger.lend().announce([192, 0, 2, 0], 24, 3).unwrap();
    assert_eq!(same_spares(&larger.view(), &spare.view()), Ok(false));
    larger.lend().withdraw([192, 0, 2, 0], 24).unwrap();
    larger.lend().withdraw([192, 0, 2, 0], 24).unwrap_err();
    assert_eq!(same_spares(&larger.view(), &spare.view()), Ok(true));
    assert!(larger.view() != spare.view());
    assert!(larger.view() == Spare::of(&LIST_A, 39, 7, 3).view());
    // Damaged behind the used part, where no lookup goes.
    larger.words[38] = 1;
    assert_eq!(same_spares(&larger.view(), &spare.view()).unwrap_err().reason, Reason::Image);
}
