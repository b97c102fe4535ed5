//! Two parties in one box: the vectors of the request, in the small geometry.
#![cfg(feature = "alloc")]

use ghatumri::{raw, Announced, Found, Geometry, Limits, Mark, Pair, Party, Reason, Refusal, Report};

const ONE: Limits = Limits { second: 1, third: 1 };
const THREE: Limits = Limits { second: 3, third: 3 };
const ADDED: Announced = Announced::Added { cleared: false };

/// Four chunks in either pool: one for the first party, three for the second.
fn small() -> Pair {
    Pair::new(Geometry::SMALL, (4, 4), (8, ONE), (8, THREE)).unwrap()
}

fn announce(pair: &mut Pair, party: Party, addr: [u8; 4], hop: u16) -> Result<Announced, Refusal> {
    pair.announce(party, addr, 24, hop, Mark::Behind)
}

fn found(hop: u16, reads: u8) -> Found {
    Found { hop: Some(hop), reads }
}

#[test]
fn limits_fit_the_pools() {
    let made = |one: (u32, u32), two: (u32, u32)| {
        let limits = |(second, third)| Limits { second, third };
        Pair::new(Geometry::SMALL, (4, 4), (8, limits(one)), (8, limits(two))).map(|_| ()).map_err(|r| r.number())
    };
    assert_eq!(made((1, 2), (3, 2)), Ok(()));
    assert_eq!(made((2, 2), (3, 2)), Err(24));
    assert_eq!(made((1, 2), (3, 3)), Err(24));
    assert_eq!(made((u32::MAX, 0), (u32::MAX, 0)), Err(24));
}

#[test]
fn each_by_its_own_limit_and_owner() {
    let mut pair = small();
    assert_eq!(announce(&mut pair, Party::One, [10, 1, 2, 0], 44), Ok(ADDED));
    assert_eq!((pair.own2[0], pair.own3[0]), (161, 65));
    // Three chunks are free, but one is the party's limit.
    assert_eq!(announce(&mut pair, Party::One, [10, 32, 0, 0], 5).unwrap_err().reason, Reason::Second);
    assert_eq!(announce(&mut pair, Party::Two, [10, 1, 2, 0], 9), Ok(ADDED));
    assert_eq!((pair.own2[1], pair.own3[1]), (0x8000_00A1, 0x8000_0441));
    assert_eq!(pair.lookup(Party::One, [10, 1, 2, 5]), Ok(found(44, 3)));
    assert_eq!(pair.lookup(Party::Two, [10, 1, 2, 5]), Ok(found(9, 3)));
    for party in [Party::One, Party::Two] {
        assert_eq!(pair.report(party), Ok(Report { routes: 1, second: 1, third: 1 }));
    }
    assert_eq!((pair.one.count, pair.two.count), (1, 1));
    pair.withdraw(Party::One, [10, 1, 2, 0], 24).unwrap();
    assert_eq!(announce(&mut pair, Party::Two, [10, 32, 0, 0], 5), Ok(ADDED));
    assert_eq!((pair.own2[0], pair.own3[0]), (0x8000_00A3, 0x8000_0001));
    assert_eq!((pair.one.count, pair.two.count), (0, 2));
}

#[test]
fn damage_of_one_is_unsound_for_both() {
    let mut pair = small();
    announce(&mut pair, Party::One, [10, 1, 2, 0], 44).unwrap();
    announce(&mut pair, Party::Two, [10, 1, 2, 0], 9).unwrap();
    let sound = pair.clone();
    // The first party's cell names the second party's chunk.
    pair.one.first[160] = 2;
    assert_eq!(pair.lookup(Party::One, [10, 1, 2, 5]).unwrap_err().reason, Reason::Unsound);
    assert_eq!(pair.lookup(Party::Two, [10, 1, 2, 5]), Ok(found(9, 3)));
    let before = pair.clone();
    for party in [Party::One, Party::Two] {
        assert_eq!(pair.report(party).unwrap_err().number(), 5);
        assert_eq!(announce(&mut pair, party, [10, 1, 2, 0], 7).unwrap_err().number(), 5);
        assert_eq!(pair.withdraw(party, [10, 1, 2, 0], 24).unwrap_err().number(), 5);
        assert_eq!(pair.load(party, &[]).unwrap_err().number(), 5);
    }
    assert!(pair == before);
    // The top bit with no place is nobody's, and not 0.
    let mut stray = sound;
    stray.own2[3] = 0x8000_0000;
    assert_eq!(stray.report(Party::One).unwrap_err().number(), 5);
}

#[test]
fn a_load_between_the_others_chunks() {
    let record = |b: [u8; 4], hop: u8| [b[0], b[1], b[2], b[3], 24, 0, 0, hop];
    let input = [record([10, 1, 2, 0], 1), record([10, 32, 0, 0], 2)].concat();
    let wide = Limits { second: 2, third: 2 };
    let mut pair = Pair::new(Geometry::SMALL, (4, 4), (8, wide), (8, wide)).unwrap();
    announce(&mut pair, Party::One, [10, 1, 2, 0], 44).unwrap();
    announce(&mut pair, Party::Two, [10, 64, 0, 0], 9).unwrap();
    announce(&mut pair, Party::One, [10, 32, 0, 0], 45).unwrap();
    assert_eq!((pair.own2[0], pair.own2[2]), (161, 163));
    assert_eq!(pair.load(Party::Two, &input), Ok(2));
    assert_eq!((pair.own2[1], pair.own2[3]), (0x8000_00A1, 0x8000_00A3));
    assert_eq!(pair.lookup(Party::Two, [10, 32, 0, 1]), Ok(found(2, 3)));
    assert_eq!(pair.lookup(Party::One, [10, 32, 0, 1]), Ok(found(45, 3)));
    let over = [input.clone(), record([10, 64, 0, 0], 3).to_vec()].concat();
    assert_eq!(pair.load(Party::Two, &over).unwrap_err().reason, Reason::Second);
    assert_eq!(pair.routes(Party::Two).unwrap().len(), 2);
}

/// The same calls next to an idle and to a busy second party, in small and in large pools: word for word the same answers.
#[test]
fn isolation() {
    let script = |pair: &mut Pair, busy: bool| {
        let mut answers = Vec::new();
        for k in 0..6u32 {
            if busy {
                for j in 0..4 {
                    let _ = announce(pair, Party::Two, [10, (16 * (k + j)) as u8, 2, 0], 9);
                }
                let _ = pair.withdraw(Party::Two, [10, (16 * k) as u8, 2, 0], 24);
            }
            let addr = (10 << 24) | (k % 3) << 21;
            let answer = pair.announce(Party::One, addr.to_be_bytes(), 24 + (k % 2) as u8, 40, Mark::Behind);
            answers.push(format!("{answer:?}"));
            answers.push(format!("{:?}", pair.lookup(Party::One, addr.to_be_bytes())));
            answers.push(format!("{:?}", pair.report(Party::One)));
        }
        answers
    };
    let pair = |chunks: usize, theirs: u32| {
        let theirs = Limits { second: theirs, third: theirs };
        Pair::new(Geometry::SMALL, (chunks, chunks), (4, Limits { second: 2, third: 2 }), (16, theirs)).unwrap()
    };
    let alone = script(&mut pair(4, 2), false);
    assert_eq!(alone, script(&mut pair(4, 2), true));
    assert_eq!(alone, script(&mut pair(4096, 4000), true));
}

/// Any number but 0 is the second party.
#[test]
fn party_numbers() {
    let mut pair = small();
    announce(&mut pair, Party::Two, [10, 1, 2, 0], 9).unwrap();
    let of = |party| raw::pair_report(&pair.view(), party);
    assert_eq!(of(0), 0);
    assert_eq!((of(1), of(7)), (of(u32::MAX), of(u32::MAX)));
    assert_ne!(of(0), of(2));
}
