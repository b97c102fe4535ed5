//! Bit maps: list A of document 01, the figure of source document 000, damage and refusals, through the safe functions.
#![cfg(feature = "alloc")]

use ghatumri::*;
use std::net::Ipv4Addr;

fn records(routes: &[([u8; 4], u8, u16)]) -> Vec<u8> {
    routes.iter().flat_map(|&(addr, len, hop)| Route::new(addr, len, hop, Mark::Behind).record()).collect()
}

fn list_a() -> Vec<u8> {
    records(&[
        ([0, 0, 0, 0], 0, 6),
        ([10, 0, 0, 0], 8, 20),
        ([10, 1, 0, 0], 16, 31),
        ([10, 1, 2, 0], 24, 44),
        ([10, 1, 2, 128], 25, 57),
    ])
}

#[test]
fn list_a_in_maps() {
    let input = list_a();
    let mut maps = Maps::of(&input).unwrap();
    assert_eq!((maps.bits[0], maps.bits[33], maps.bits[8512]), (0x01, 0x02, 0x01));
    assert_eq!((maps.cells[0], maps.cells[265], maps.cells[68_096]), (6, 20, 31));
    assert_eq!(maps.cells.iter().filter(|&&c| c != 0).count(), 3);
    let asked =
        [([10, 1, 2, 200], 57), ([10, 1, 2, 5], 44), ([10, 1, 3, 1], 31), ([10, 2, 0, 1], 20), ([192, 0, 2, 1], 6)];
    for (addr, hop) in asked {
        assert_eq!(maps.lookup(&input, addr), Ok(Some(hop)));
    }
    let addrs = asked.map(|(addr, _)| u32::from(Ipv4Addr::from(addr)));
    let mut out = [0; 5];
    maps.lookup_many(&input, &addrs, &mut out).unwrap();
    assert_eq!(out.map(hop), asked.map(|(_, hop)| Ok(Some(hop))));

    // A broken cell is met by its own addresses alone.
    maps.cells[265] = 32_768;
    assert_eq!(maps.lookup(&input, [10, 2, 0, 1]).unwrap_err().number(), 13);
    assert_eq!(maps.lookup(&input, [10, 1, 3, 1]), Ok(Some(31)));
    assert_eq!(maps.lookup(&input, [10, 1, 2, 200]), Ok(Some(57)));
    maps.lookup_many(&input, &addrs, &mut out).unwrap();
    assert_eq!((hop(out[3]).unwrap_err().number(), hop(out[4])), (13, Ok(Some(6))));
    maps.cells[265] = 0;
    assert_eq!(maps.lookup(&input, [10, 2, 0, 1]).unwrap_err().number(), 13);

    // Where the bit of 10.1.0.0/16 is cleared, that of 10.0.0.0/8 is met.
    maps.cells[265] = 20;
    maps.bits[8512] = 0;
    assert_eq!(maps.lookup(&input, [10, 1, 3, 1]), Ok(Some(20)));
    assert_eq!(maps.lookup(&input, [10, 1, 2, 200]), Ok(Some(57)));
}

#[test]
fn the_figure_of_the_source() {
    let input = records(&[
        ([0, 0, 0, 0], 0, 6),
        ([32, 0, 0, 0], 3, 3),
        ([44, 0, 0, 0], 6, 9),
        ([48, 0, 0, 0], 4, 1),
        ([64, 0, 0, 0], 2, 3),
        ([128, 0, 0, 0], 1, 4),
        ([224, 0, 0, 0], 3, 7),
        ([224, 0, 0, 0], 4, 8),
        ([224, 0, 0, 0], 5, 2),
    ]);
    let maps = Maps::of(&input).unwrap();
    assert_eq!(maps.bits[..10], [0x15, 0x41, 0x04, 0x20, 0x00, 0x00, 0x00, 0x08, 0x00, 0x04]);
    assert!(maps.bits[10..].iter().all(|&b| b == 0));
    for (first, hop) in [(40, 3), (44, 9), (60, 1), (100, 3), (128, 4), (224, 2), (232, 8), (240, 7), (0, 6)] {
        assert_eq!(maps.lookup(&input, [first, 0, 0, 0]), Ok(Some(hop)));
    }
}

#[test]
fn refusals() {
    let input = list_a();
    let mut maps = Maps::new();
    assert_eq!(maps.lookup(&[], [1, 2, 3, 4]), Ok(None));
    assert_eq!(maps.build(&input[..39]).unwrap_err(), Refusal { reason: Reason::Input, index: Some(4) });
    assert_eq!(maps, Maps::new());
    assert_eq!(maps.lookup_many(&input, &[0, 1], &mut [0; 3]).unwrap_err().number(), 2);
    for (bytes, cells) in [(16_383, 131_071), (16_385, 131_071), (16_384, 131_070), (16_384, 131_072)] {
        let mut maps = Maps { bits: vec![9; bytes], cells: vec![9; cells] };
        assert_eq!(maps.build(&input).unwrap_err(), Refusal { reason: Reason::Size, index: None });
        assert_eq!(maps.lookup(&input, [1, 2, 3, 4]).unwrap_err().number(), 2);
        assert_eq!(maps.build(&input[..8 * 5 - 1]).unwrap_err().number(), 10);
        // A record that is wrong is told before a size that is.
        let mut wrong = input.clone();
        wrong[8 + 4] = 33;
        assert_eq!(maps.build(&wrong).unwrap_err(), Refusal { reason: Reason::Prefix, index: Some(1) });
        assert_eq!(maps.lookup(&wrong, [1, 2, 3, 4]).unwrap_err().number(), 3);
        assert!(maps.bits.iter().all(|&b| b == 9) && maps.cells.iter().all(|&c| c == 9));
    }
}
