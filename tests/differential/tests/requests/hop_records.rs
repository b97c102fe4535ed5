//! Request a: hop records with packet counts.

use crate::*;
use differential::gen::Rng;
use differential::hop_records::{self, count, counter32, forward, found, octets, HopRecord};

/// A record for each hop up to the last, on port 100 plus the hop.
fn desk(last: u16) -> Vec<HopRecord> {
    (1..=last).map(|h| HopRecord { port: 100 + h, up: 1, packets: h as u32, octets: 0 }).collect()
}

/// A packet of 1,500 octets in list A's table.
fn send(records: &mut [HopRecord], addr: u32) -> u64 {
    forward(16, 24, 5, &table(&list_a(), 1, 1), records, addr, 1500)
}

/// "A forwarded packet adds one packet and its octets to its own record, and no other record changes."
#[test]
fn own_record() {
    let mut records = desk(57);
    (records[56].packets, records[56].octets) = (4_294_967_295, 4_294_967_000);
    let before = records.clone();
    assert_eq!(send(&mut records, ip(10, 1, 2, 200)), 0x0000_009D_0039_0300);
    assert_eq!(records[56], HopRecord { packets: 0, octets: 1204, ..before[56] });
    assert_eq!(records[..56], before[..56]);
    // The answer is lookup's, with the port.
    assert_eq!(send(&mut records, ip(10, 1, 2, 5)), 0x0000_0090_002C_0300);
    assert_eq!(records[43], HopRecord { packets: 45, octets: 1500, ..before[43] });
    // The largest port and the smallest.
    records[30].port = 65_535;
    assert_eq!(send(&mut records, ip(10, 1, 3, 1)), 0x0000_FFFF_001F_0200);
    records[30].port = 0;
    assert_eq!(send(&mut records, ip(10, 1, 3, 1)), 0x0000_0000_001F_0200);
}

/// "14, the hop has no record; 15, the record is down": neither changes anything. 1 is up and no other number.
#[test]
fn refusals() {
    let mut records = desk(56);
    assert_eq!(send(&mut records, ip(10, 1, 2, 200)), 14);
    assert_eq!(records, desk(56));
    assert_eq!(send(&mut [], ip(10, 1, 2, 200)), 14);
    for up in [0, 2, 7, 129, 255] {
        let mut records = desk(57);
        records[56].up = up;
        let before = records.clone();
        assert_eq!(send(&mut records, ip(10, 1, 2, 200)), 15);
        assert_eq!(records, before);
    }
}

/// "no route adds nothing", also without records; lookup's own refusals come first.
#[test]
fn nothing_found() {
    let mut t = table(&list_a(), 1, 1);
    withdraw(16, 24, 5, &mut t, 0, 0);
    let mut records = desk(57);
    assert_eq!(forward(16, 24, 4, &t, &mut records, ip(192, 0, 2, 1), 1500), 0x0000_0100);
    assert_eq!(forward(16, 24, 4, &t, &mut [], ip(192, 0, 2, 1), 1500), 0x0000_0100);
    t.second[2] = 0;
    assert_eq!(forward(16, 24, 4, &t, &mut [], ip(10, 1, 2, 200), 1500), 5);
    assert_eq!(forward(16, 24, 4, &t, &mut records, ip(10, 1, 2, 200), 1500), 5);
    assert_eq!(forward(16, 25, 4, &t, &mut records, ip(10, 1, 2, 200), 1500), 2);
    assert_eq!(forward(16, 27, 4, &t, &mut records, ip(10, 1, 2, 200), 1500), 1);
    assert_eq!(records, desk(57));
}

/// "after 4,294,967,295 the next value is 0".
#[test]
fn counters() {
    assert_eq!(
        (counter32(4_294_967_295, 1), counter32(4_294_967_294, 1), counter32(0, 1 << 32)),
        (0, 4_294_967_295, 0)
    );
    let mut records = desk(57);
    records[56].packets = 4_294_967_290;
    for _ in 0..10 {
        send(&mut records, ip(10, 1, 2, 200));
    }
    assert_eq!((records[56].packets, records[56].octets), (4, 15_000));
}

/// The record part alone, over a found word: a forwarded packet is a lookup and then this.
#[test]
fn counted_alone() {
    let mut records = desk(3);
    assert_eq!(count(0x0003_0200, &mut records, 7), 0x0000_0067_0003_0200);
    assert_eq!(records[2], HopRecord { packets: 4, octets: 7, ..desk(3)[2] });
    for (found, answer) in [(0x0004_0300, 14), (0x0000_0300, 0x0000_0300), (5, 5), (22, 22), (0x7FFF_0100, 14)] {
        assert_eq!(count(found, &mut records, 7), answer);
    }
    assert_eq!(records[2].packets, 4);
}

/// Over drawn runs: what each record counts is what went to it.
#[test]
fn drawn_runs() {
    let mut rng = Rng::new(3);
    let mut seen = [0; 16];
    for _ in 0..300 {
        let before = hop_records::records(&mut rng);
        let mut records = before.clone();
        let mut went = vec![(0, 0); before.len()];
        for _ in 0..10 {
            let (found, octets) = (found(&mut rng), octets(&mut rng));
            let answer = count(found, &mut records, octets);
            seen[number(answer).min(15) as usize] += 1;
            if number(answer) == 0 && found >> 16 != 0 {
                let hop = (found >> 16) as usize;
                assert_eq!(answer, found | (before[hop - 1].port as u64) << 32);
                went[hop - 1] = (went[hop - 1].0 + 1, went[hop - 1].1 + octets as u64);
            }
        }
        for (k, (packets, octets)) in went.into_iter().enumerate() {
            let (was, is) = (before[k], records[k]);
            assert_eq!(is.packets, counter32(was.packets, packets));
            assert_eq!(is.octets, counter32(was.octets, octets));
            assert_eq!((is.port, is.up), (was.port, was.up));
        }
    }
    assert!(seen[0] > 500 && seen[14] > 200 && seen[15] > 100, "{seen:?}");
}
