//! Directed broadcast through the safe function: RFC 3021's link of two hosts, and what document 02's words decide.

use ghatumri::*;

fn records(routes: &[([u8; 4], u8, Mark)]) -> Vec<u8> {
    routes.iter().flat_map(|&(addr, len, mark)| Route::new(addr, len, 1, mark).record()).collect()
}

fn both(input: &[u8], addr: [u8; 4]) -> (bool, bool) {
    let told = |rule| is_broadcast(rule, input, addr).unwrap();
    (told(Rule::Older), told(Rule::Newer))
}

#[test]
fn two_hosts() {
    let link = records(&[([192, 0, 2, 0], 31, Mark::Attached)]);
    assert_eq!(both(&link, [192, 0, 2, 1]), (true, false));
    assert_eq!(both(&link, [192, 0, 2, 0]), (false, false));
}

#[test]
fn the_longest_decides() {
    let net = ([10, 0, 0, 0], 24, Mark::Attached);
    let last = [10, 0, 0, 255];
    assert_eq!(both(&records(&[net]), last), (true, true));
    for mark in [Mark::Behind, Mark::Attached] {
        assert_eq!(both(&records(&[net, (last, 32, mark)]), last), (false, false));
    }
    assert_eq!(both(&records(&[net, ([10, 0, 0, 128], 25, Mark::Behind)]), last), (false, false));
    assert_eq!(both(&records(&[net, ([10, 0, 0, 128], 25, Mark::Attached)]), last), (true, true));
    assert_eq!(both(&records(&[([0, 0, 0, 0], 0, Mark::Attached)]), [255; 4]), (true, true));
    assert_eq!(both(&[], [255; 4]), (false, false));
}

#[test]
fn refused() {
    let input = records(&[([10, 0, 0, 0], 24, Mark::Attached)]);
    let refusal = is_broadcast(Rule::Newer, &input[..7], [10, 0, 0, 255]).unwrap_err();
    assert_eq!((refusal.reason, refusal.index), (Reason::Input, Some(0)));
}
