//! From one form to another and back, and against the plain implementation, on lists drawn as the comparison draws them.

mod common;

use common::{drawn, line, text, Folder};
use differential::gen::{edges, Rng};
use differential::plain::{need, records, Route};
use std::collections::BTreeSet;
use std::net::Ipv4Addr;

fn lists() -> impl Iterator<Item = (Rng, Vec<Route>)> {
    (0..12).map(|n| {
        let mut rng = Rng::part(39, n);
        let count = [0, 1, 2, 5, 20, 100, 400][n as usize % 7];
        let routes = drawn(&mut rng, count);
        (rng, routes)
    })
}

fn lines(routes: &[Route]) -> String {
    routes.iter().map(line).collect()
}

#[test]
fn round_trips() {
    let folder = Folder::new("round-trips");
    for (mut rng, routes) in lists() {
        // Lines in any order, with blanks and remarks.
        let mut shuffled = routes.clone();
        for k in (1..shuffled.len()).rev() {
            shuffled.swap(k, rng.below(k + 1));
        }
        let loose = lines(&shuffled).replace(' ', " \t ").replace('\n', "  # a remark\r\n");
        folder.write("list.txt", loose);
        let input = folder.accepted(&["records", "list.txt"]);
        assert_eq!(input, records(&routes));
        folder.write("list.rec", &input);
        assert_eq!(text(folder.accepted(&["text", "list.rec"])), lines(&routes));
        // Images have no marks.
        folder.write("list.img", folder.accepted(&["image", "list.rec"]));
        assert_eq!(text(folder.accepted(&["text", "list.img"])), lines(&routes).replace(" attached", ""));
        for geometry in ["standard", "small", "13,23"] {
            folder.write("list.tbl", folder.accepted(&["table", "-g", geometry, "list.img"]));
            assert_eq!(text(folder.accepted(&["text", "list.tbl"])), lines(&routes).replace(" attached", ""));
            assert_eq!(folder.accepted(&["image", "list.tbl"]), folder.read("list.img"));
        }
        folder.write("list.tbl", folder.accepted(&["table", "list.txt"]));
        assert_eq!(folder.accepted(&["records", "list.tbl"]), input);
        for name in ["list.img", "list.tbl"] {
            folder.write("big", big(&folder.read(name)));
            assert_eq!(folder.accepted(&["text", "big"]), folder.accepted(&["text", name]));
            folder.accepted(&["answers", "big", "list.rec"]);
        }
    }
}

/// The same snapshot in the other byte order, by its own reading of the first line.
fn big(snapshot: &[u8]) -> Vec<u8> {
    let end = snapshot.iter().position(|&b| b == b'\n').unwrap() + 1;
    let line = std::str::from_utf8(&snapshot[..end]).unwrap();
    let words: Vec<&str> = line.split_whitespace().collect();
    let number =
        |name: &str| words.iter().position(|w| *w == name).map_or(0, |k| words[k + 1].parse::<usize>().unwrap());
    // Elements of 1, 2 and 4 bytes, in order.
    let parts = if words[1] == "image" {
        vec![(4, 3 * number("nodes")), (2, number("hops"))]
    } else {
        let (p1, p2, second, third) = (number("p1"), number("p2"), number("second"), number("third"));
        let (first, pool) = (1 << p1, second << (p2 - p1));
        let cells = first + pool + (third << (32 - p2));
        vec![(1, 8 * number("room")), (2, cells), (4, second + third), (2, first + pool)]
    };
    let mut out = line.replace("little", "big").into_bytes();
    let mut rest = &snapshot[end..];
    for (size, n) in parts {
        let (part, after) = rest.split_at(size * n);
        part.chunks_exact(size).for_each(|element| out.extend(element.iter().rev()));
        rest = after;
    }
    assert!(rest.is_empty());
    out
}

/// The longest of the routes that cover an address, by looking at all of them.
fn longest(routes: &[Route], addr: u32) -> Option<&Route> {
    routes.iter().filter(|r| r.covers(addr)).max_by_key(|r| r.len)
}

#[test]
fn why_names_the_longest_route() {
    let folder = Folder::new("why");
    for (mut rng, routes) in lists() {
        folder.write("list.rec", records(&routes));
        let mut addrs = vec![rng.word(), rng.word()];
        addrs.extend(edges(&routes).into_iter().step_by(1 + routes.len() / 4));
        for addr in addrs {
            let said = text(folder.accepted(&["why", &Ipv4Addr::from(addr).to_string(), "list.rec"]));
            let first = said.lines().next().unwrap();
            let addr_text = Ipv4Addr::from(addr);
            let is = match longest(&routes, addr) {
                None => format!("{addr_text} has no route"),
                Some(r) => {
                    let attached = if r.mark == 1 { ", attached" } else { "" };
                    format!("{addr_text} goes to hop {} by {}/{}{attached}", r.hop, Ipv4Addr::from(r.addr), r.len)
                }
            };
            assert_eq!(first, is);
        }
    }
}

#[test]
fn room_has_the_needs() {
    let folder = Folder::new("room");
    for (_, routes) in lists() {
        folder.write("list.rec", records(&routes));
        for (name, p1, p2) in [("standard", 16, 24), ("small", 12, 22)] {
            let said = text(folder.accepted(&["room", "-g", name, "list.rec"]));
            let number = |word: &str| -> usize {
                let line = said.lines().find(|l| l.starts_with(word)).unwrap();
                line.split_whitespace().nth(1).unwrap().parse().unwrap()
            };
            let is = (number("routes"), number("second"), number("third"));
            assert_eq!(is, (routes.len(), need(&routes, p1), need(&routes, p2)));
        }
    }
}

#[test]
fn diff_is_that_of_sets() {
    let folder = Folder::new("diff");
    for ((_, one), (mut rng, two)) in lists().zip(lists().skip(1)) {
        // Some routes of the other list, some with another hop.
        let mut two = two;
        for r in &one {
            if rng.one_in(2) && !two.iter().any(|t| (t.addr, t.len) == (r.addr, r.len)) {
                let mut r = *r;
                r.hop = if rng.one_in(3) { 1 + r.hop % 32767 } else { r.hop };
                two.push(r);
            }
        }
        two.sort_by_key(|r| (r.addr, r.len));
        two.truncate(4096);
        folder.write("one", records(&one));
        folder.write("two", records(&two));
        let (status, said) = folder.run(&["diff", "one", "two"]);
        let sets = [&one, &two].map(|l| l.iter().map(|r| line(r).trim_end().to_string()).collect::<BTreeSet<_>>());
        let prefix = |s: &String| s.split(' ').next().unwrap().to_string();
        let [ones, twos] = [&sets[0], &sets[1]].map(|s| s.iter().map(prefix).collect::<BTreeSet<_>>());
        let said = text(said);
        let marked =
            |mark: &str| said.lines().filter_map(|l| l.strip_prefix(mark)).map(String::from).collect::<BTreeSet<_>>();
        let only = |a: &BTreeSet<String>, keys: &BTreeSet<String>| {
            a.iter().filter(|s| !keys.contains(&prefix(s))).cloned().collect::<BTreeSet<_>>()
        };
        assert_eq!(marked("- "), only(&sets[0], &twos));
        assert_eq!(marked("+ "), only(&sets[1], &ones));
        let changed = sets[0].difference(&sets[1]).filter(|s| twos.contains(&prefix(s))).count();
        assert_eq!(marked("~ ").len(), changed);
        assert_eq!(status, i32::from(sets[0] != sets[1]));
    }
}

#[test]
fn answers_against_a_search() {
    let folder = Folder::new("answers");
    for ((_, one), (mut rng, two)) in lists().zip(lists().skip(1)) {
        folder.write("one", records(&one));
        folder.write("two.img", folder.pipe(&["image"], &records(&two)).1);
        let (_, said) = folder.run(&["answers", "one", "two.img"]);
        let said = text(said);
        let parse = |s: &str| u32::from(s.parse::<Ipv4Addr>().unwrap());
        let ranges: Vec<(u32, u32)> = said
            .lines()
            .filter(|l| !l.starts_with("addresses"))
            .map(|l| l.split_whitespace().collect::<Vec<_>>())
            .map(|w| (parse(w[0]), parse(w[1])))
            .collect();
        let hop = |routes: &[Route], addr: u32| longest(routes, addr).map(|r| r.hop);
        let mut asked: Vec<u32> = (0..2000).map(|_| rng.word()).collect();
        asked.extend(edges(&one));
        asked.extend(edges(&two));
        for &(from, to) in ranges.iter().step_by(1 + ranges.len() / 500) {
            asked.extend([from, to, from.wrapping_sub(1), to.wrapping_add(1)]);
        }
        for addr in asked {
            let differs = ranges.iter().any(|&(from, to)| from <= addr && addr <= to);
            assert_eq!(differs, hop(&one, addr) != hop(&two, addr), "{}", Ipv4Addr::from(addr));
        }
    }
}
