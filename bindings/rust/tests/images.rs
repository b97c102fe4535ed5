//! Images that are tested and changed in place: list A of document 01, room and refusals, through the safe functions.

use ghatumri::*;
use ImageAnnounced::{Added, Replaced};

fn list_a() -> Vec<u8> {
    ["0.0.0.0/0 6", "10.0.0.0/8 20", "10.1.0.0/16 31", "10.1.2.0/24 44", "10.1.2.128/25 57"]
        .iter()
        .flat_map(|text| text.parse::<Route>().unwrap().record())
        .collect()
}

/// Buffers with old content, and the image of list A built into them.
struct Buffers {
    words: Vec<u32>,
    hops: Vec<u16>,
}

impl Buffers {
    fn list_a(words: usize, hops: usize) -> Buffers {
        let mut buffers = Buffers { words: vec![9; words], hops: vec![9; hops] };
        assert_eq!(buffers.lend().build(&list_a()), Ok(Built { nodes: 7, hops: 5 }));
        buffers
    }

    fn lend(&mut self) -> ImageMut<'_> {
        ImageMut { words: &mut self.words, hops: &mut self.hops }
    }
}

fn reason<T: std::fmt::Debug>(answer: Result<T, Refusal>) -> Reason {
    let refusal = answer.unwrap_err();
    assert_eq!(refusal.index, None);
    refusal.reason
}

#[test]
fn announced_and_withdrawn() {
    let mut buffers = Buffers::list_a(39, 6);
    let before = buffers.words.clone();
    let mut image = buffers.lend();
    assert_eq!(image.test(), Ok(Built { nodes: 7, hops: 5 }));
    assert_eq!(image.view().test(), image.test());

    // 192.0.2.0/24 brings a node at each depth.
    assert_eq!(image.announce([192, 0, 2, 0], 24, 3), Ok(Added(Built { nodes: 13, hops: 6 })));
    assert_eq!(image.words[..9], [0x1001_0001, 1, 0, 0x0400_0000, 3, 1, 0x0001_0000, 4, 1]);
    assert_eq!(image.words[33..], [5, 13, 3, 1, 13, 5]);
    assert_eq!(image.hops, [6, 20, 31, 44, 57, 3]);
    assert_eq!(image.lookup([192, 0, 2, 9]), Ok(Found { hop: Some(3), reads: 8 }));
    assert_eq!(image.announce([192, 0, 2, 0], 24, 300), Ok(Replaced(Built { nodes: 13, hops: 6 })));
    assert_eq!(image.lookup([192, 0, 2, 9]).unwrap().hop, Some(300));
    assert_eq!(image.withdraw([192, 0, 2, 0], 24), Ok(Built { nodes: 7, hops: 5 }));
    assert_eq!((&*image.words, &*image.hops), (&before[..], &[6, 20, 31, 44, 57, 0][..]));

    // Down to no route at all: the root stays, and nothing else.
    for (addr, len, nodes) in [
        ([10, 1, 2, 128], 25, 7),
        ([10, 0, 0, 0], 8, 7),
        ([10, 1, 2, 0], 24, 5),
        ([0; 4], 0, 5),
        ([10, 1, 0, 0], 16, 1),
    ] {
        assert_eq!(image.withdraw(addr, len).unwrap().nodes, nodes);
    }
    assert_eq!(image.test(), Ok(Built { nodes: 1, hops: 0 }));
    assert_eq!(image.words[..3], [0, 1, 0]);
    assert!(image.words[3..].iter().all(|&word| word == 0) && image.hops.iter().all(|&hop| hop == 0));
    assert_eq!(image.announce([0; 4], 0, 6), Ok(Added(Built { nodes: 1, hops: 1 })));
}

#[test]
fn refusals_in_order() {
    let mut buffers = Buffers::list_a(38, 5);
    let (words, hops) = (buffers.words.clone(), buffers.hops.clone());
    let mut image = buffers.lend();
    assert_eq!(reason(image.announce([10, 1, 2, 3], 24, 0)), Reason::Prefix);
    assert_eq!(reason(image.announce([10, 1, 2, 0], 33, 0)), Reason::Prefix);
    assert_eq!(reason(image.withdraw([10, 1, 2, 3], 24)), Reason::Prefix);
    assert_eq!(reason(image.announce([10, 1, 2, 0], 24, 0)), Reason::Hop);
    assert_eq!(reason(image.announce([10, 1, 2, 0], 24, 32_768)), Reason::Hop);
    assert_eq!(reason(image.withdraw([192, 0, 2, 0], 24)), Reason::Absent);
    assert_eq!(reason(image.announce([192, 0, 2, 0], 24, 3)), Reason::Nodes);
    assert_eq!(reason(image.announce([10, 1, 2, 64], 26, 9)), Reason::Hops);
    assert_eq!((&*image.words, &*image.hops), (&words[..], &hops[..]));

    // A base that no lookup reads.
    image.words[19] = 8;
    assert_eq!(image.lookup([10, 1, 2, 200]).unwrap().hop, Some(57));
    assert_eq!(reason(image.test()), Reason::Image);
    assert_eq!(reason(image.withdraw([192, 0, 2, 0], 24)), Reason::Image);
    assert_eq!(reason(image.announce([0; 4], 0, 7)), Reason::Image);
    assert_eq!(reason(image.announce([0; 4], 0, 0)), Reason::Hop);
    assert_eq!(reason(image.announce([0; 4], 33, 0)), Reason::Prefix);
    image.words[19] = 7;

    // What stands after the last used.
    image.words[37] = 1;
    assert_eq!(reason(image.test()), Reason::Image);
    image.words[37] = 0;
    assert_eq!(image.test(), Ok(Built { nodes: 7, hops: 5 }));
    assert_eq!(reason(ImageRef { words: &[0, 1], hops: &[] }.test()), Reason::Image);
    assert_eq!(ImageRef { words: &[0, 1, 0], hops: &[] }.test(), Ok(Built { nodes: 1, hops: 0 }));
}

/// 4,096 routes are the most that stand in an image.
#[test]
fn the_most_routes() {
    let input: Vec<u8> = (0..4096).flat_map(|k| Route::new(k << 20, 32, 1, Mark::Behind).record()).collect();
    let (mut words, mut hops) = (vec![0; words_for(MOST_RECORDS)], vec![0; MOST_RECORDS + 1]);
    let mut image = ImageMut { words: &mut words, hops: &mut hops };
    let full = image.build(&input).unwrap();
    assert_eq!(reason(image.announce([0; 4], 0, 5)), Reason::Room);
    assert_eq!(image.announce(7 << 20, 32, 5), Ok(Replaced(full)));
    assert_eq!(image.withdraw(7 << 20, 32), Ok(Built { nodes: full.nodes - 6, hops: 4095 }));
    assert_eq!(image.announce([0; 4], 0, 5), Ok(Added(Built { nodes: full.nodes - 6, hops: 4096 })));
}

#[cfg(feature = "alloc")]
#[test]
fn owned() {
    let mut image = Image::of(&list_a()).unwrap();
    let before = image.clone();
    assert_eq!(image.test(), Ok(Built { nodes: 7, hops: 5 }));
    assert_eq!(reason(image.announce([10, 1, 2, 200], 32, 70)), Reason::Nodes);
    image.resize(9, 5);
    assert_eq!(reason(image.announce([10, 1, 2, 200], 32, 70)), Reason::Hops);
    image.resize(9, 6);
    assert_eq!(image.announce([10, 1, 2, 200], 32, 70), Ok(Added(Built { nodes: 9, hops: 6 })));
    assert_eq!(image.words[18..], [0x1000_0005, 7, 3, 0x0100_0000, 8, 5, 1, 9, 5]);
    assert_eq!(image.lookup([10, 1, 2, 200]).unwrap().hop, Some(70));
    assert_eq!(image.announce([10, 1, 2, 200], 32, 71), Ok(Replaced(Built { nodes: 9, hops: 6 })));
    assert_eq!(image.withdraw([10, 1, 2, 200], 32), Ok(Built { nodes: 7, hops: 5 }));
    image.resize(7, 5);
    assert_eq!(image, before);
    assert_eq!(reason(image.withdraw([10, 1, 2, 200], 32)), Reason::Absent);

    // All zero is no image; one built from nothing has no routes.
    let mut image = Image::new(9, 6);
    assert_eq!(reason(image.announce([0; 4], 0, 6)), Reason::Image);
    image.build(&[]).unwrap();
    assert_eq!(image.announce([0; 4], 0, 6), Ok(Added(Built { nodes: 1, hops: 1 })));
}
