//! Routes as text and as records, and the routes of an input one after the other.

use ghatumri::*;

#[test]
fn text() {
    for (text, route) in [
        ("0.0.0.0/0 6", Route::new([0, 0, 0, 0], 0, 6, Mark::Behind)),
        ("10.1.2.0/24 44", Route::new([10, 1, 2, 0], 24, 44, Mark::Behind)),
        ("10.1.2.128/25 57 attached", Route::new([10, 1, 2, 128], 25, 57, Mark::Attached)),
        ("255.255.255.255/32 32767", Route::new([255; 4], 32, 32_767, Mark::Behind)),
    ] {
        assert_eq!(text.parse(), Ok(route));
        assert_eq!(route.to_string(), text);
    }
}

/// A text that is of the form and no route has the refusal of its record, with no index. No number is cut.
#[test]
fn text_refused() {
    for (text, reason) in [
        ("10.1.2.3/24 44", Reason::Prefix),
        ("10.1.2.0/33 44", Reason::Prefix),
        ("10.1.2.0/280 44", Reason::Prefix),
        ("10.1.2.0/4294967320 44", Reason::Prefix),
        ("10.1.2.0/33 0", Reason::Prefix),
        ("10.1.2.0/24 0", Reason::Hop),
        ("10.1.2.0/24 32768", Reason::Hop),
        ("10.1.2.0/24 65580", Reason::Hop),
        ("10.1.2.0/24 18446744073709551660 attached", Reason::Hop),
    ] {
        let refusal = Refusal { reason, index: None };
        assert_eq!(text.parse::<Route>(), Err(ParseRouteError::Refused(refusal)), "{text}");
        assert_eq!(text.parse::<Route>().unwrap_err().to_string(), refusal.to_string());
    }
}

#[test]
fn no_text() {
    for text in [
        "",
        "10.1.2.0/24",
        "10.1.2.0/24 ",
        "10.1.2.0 44",
        "10.1.2/24 44",
        "10.1.2.0/ 44",
        "10.1.2.0/+24 44",
        "10.1.2.0/024 44",
        "10.1.2.0/24 044",
        "10.1.2.0/24 -1",
        "10.01.2.0/24 44",
        "10.1.2.256/24 44",
        "10.1.2.0/24  44",
        " 10.1.2.0/24 44",
        "10.1.2.0/24 44 ",
        "10.1.2.0/24 44\n",
        "10.1.2.0/24 44attached",
        "10.1.2.0/24 44 attached attached",
        "10.1.2.0/24 44 Attached",
        "10.1.2.0/24 attached",
        "::/0 44",
    ] {
        assert_eq!(text.parse::<Route>(), Err(ParseRouteError::Form), "{text}");
    }
}

/// The record of document 01, and what is refused of one.
#[test]
fn records() {
    let record = [0x0A, 0x01, 0x02, 0x80, 0x19, 0x00, 0x00, 0x39];
    let route = Route::new([10, 1, 2, 128], 25, 57, Mark::Behind);
    assert_eq!(Route::try_from(record), Ok(route));
    assert_eq!((route.record(), <[u8; 8]>::from(route)), (record, record));
    assert_eq!(route.check(), Ok(()));
    for (place, byte, reason) in [
        (3, 0x81, Reason::Prefix),
        (4, 33, Reason::Prefix),
        (4, 24, Reason::Prefix),
        (7, 0, Reason::Hop),
        (6, 0x80, Reason::Hop),
        (5, 2, Reason::Input),
    ] {
        let mut wrong = record;
        wrong[place] = byte;
        assert_eq!(Route::try_from(wrong), Err(Refusal { reason, index: Some(0) }));
    }
    let of =
        |len, hop| Route::new([10, 1, 2, 128], len, hop, Mark::Attached).check().map_err(|r| (r.number(), r.index));
    assert_eq!(
        (of(32, 32_767), of(33, 0), of(25, 0), of(24, 1)),
        (Ok(()), Err((3, None)), Err((4, None)), Err((3, None)))
    );
}

/// More than 255 of them, with marks, against the call that reads one.
#[test]
fn one_after_the_other() {
    let marked = |k: u32| if k % 3 == 0 { Mark::Attached } else { Mark::Behind };
    let all: Vec<Route> = (0..900).map(|k| Route::new(0x0A00_0000 + (k << 8), 24, 1 + k as u16, marked(k))).collect();
    let input: Vec<u8> = all.iter().flat_map(Route::record).collect();
    let read = routes(&input).unwrap();
    assert_eq!(read.len(), 900);
    assert!(read.clone().eq(all.iter().copied()));
    assert!(read.clone().rev().eq(all.iter().rev().copied()));
    for (k, route_k) in read.clone().enumerate() {
        assert_eq!(route(&input, k as u32), Ok(Some(route_k)));
    }
    let mut some = read;
    assert_eq!((some.nth(300), some.next_back(), some.len()), (Some(all[300]), Some(all[899]), 598));
    assert_eq!((some.nth(598), some.next(), some.next_back()), (None, None, None));
    assert_eq!(routes(&[]).unwrap().next(), None);

    // The run under a prefix is an input too.
    let part = run(&input, [10, 2, 0, 0], 15).unwrap();
    assert!(routes(part).unwrap().eq(all[512..].iter().copied()));

    let refused = |input: &[u8]| routes(input).map(|_| ()).map_err(|r| (r.number(), r.index));
    assert_eq!(refused(&input[..8 * 900 - 3]), Err((10, Some(899))));
    let mut wrong = input;
    wrong[8 * 701 + 4] = 23;
    assert_eq!(refused(&wrong), Err((3, Some(701))));
    wrong[8 * 300 + 6..8 * 301].fill(0);
    assert_eq!(refused(&wrong), Err((4, Some(300))));
}
