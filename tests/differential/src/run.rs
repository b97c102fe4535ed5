//! What a run has seen, and how it tells a fault.

use differential::plain::number;
use std::collections::BTreeMap;

pub struct Run {
    pub seed: u64,
    /// The part of the run that is going on. Each part can be run alone.
    pub episode: u64,
    /// Calls of the library, those for one address not among them.
    pub calls: u64,
    /// Calls for one address: single lookups, in tables, images and maps, and broadcasts.
    pub lookups: u64,
    /// How often each call gave each answer. A label is a refusal's number, or a name for something else worth counting.
    pub seen: BTreeMap<(&'static str, String), u64>,
}

impl Run {
    pub fn new(seed: u64) -> Run {
        Run { seed, episode: 0, calls: 0, lookups: 0, seen: BTreeMap::new() }
    }

    pub fn count(&mut self, call: &'static str, label: &str) {
        *self.seen.entry((call, label.to_string())).or_insert(0) += 1;
    }

    /// Compares an answer with what it should be, and counts it.
    pub fn answered(&mut self, call: &'static str, is: u64, should: u64, told: &dyn Fn() -> String) {
        if is != should {
            self.fault(&format!("the answer is {} and should be {}", say(is), say(should)), told);
        }
        let n = number(is);
        let with_index = if n != 0 && is >> 8 & 1 == 1 { " at" } else { "" };
        self.count(call, &format!("{n}{with_index}"));
    }

    /// Ends the run: `told` says at which call and over which arrays.
    pub fn fault(&self, what: &str, told: &dyn Fn() -> String) -> ! {
        println!("FAULT: {what}");
        println!("{}", told());
        println!(
            "episode {} of seed {}; again: differential 1 {} {}",
            self.episode, self.seed, self.seed, self.episode
        );
        std::process::exit(1)
    }

    /// What a run of full length must meet and this one has not: then it shows less than it should.
    pub fn missing(&self) -> Vec<String> {
        let parts = crate::parts::MUST_HAPPEN.iter().copied().flatten();
        let asked = parts.flat_map(|(call, labels)| labels.split(", ").map(move |label| (*call, label)));
        asked
            .filter(|(call, label)| !self.seen.contains_key(&(call, label.to_string())))
            .map(|(call, label)| format!("{call}: {label}"))
            .collect()
    }

    pub fn print(&self) {
        let mut last = "";
        for ((call, label), times) in &self.seen {
            if *call != last {
                print!("{}{call}:", if last.is_empty() { "" } else { "\n" });
                last = call;
            }
            print!("  {label} ({times})");
        }
        println!();
    }
}

/// An answer in words.
fn say(answer: u64) -> String {
    let n = number(answer);
    if n == 0 {
        format!("{answer:016x} (hex, accepted)")
    } else if answer >> 8 & 1 == 1 {
        format!("{answer:016x} (hex, refused {n} at {})", answer >> 32)
    } else {
        format!("{answer:016x} (hex, refused {n})")
    }
}

/// What a run of full length meets. Numbers are refusals, 0 is accepted, `at` is with an index.
pub const MUST_HAPPEN: &[(&str, &str)] = &[
    ("make", "0, 1, 2"),
    ("load", "0, 1, 2, 3 at, 4 at, 6, 7, 8, 10 at"),
    (
        "announce",
        "0, 1, 2, 3, 4, 5, 6, 7, 8, 10, replaced, added and cleared, replaced and cleared, mark alone, \
         room and chunks full, second opened, third opened, hole filled, wide length, wide hop, wide mark",
    ),
    ("withdraw", "0, 1, 2, 3, 5, 9, cleared, second closed, third closed, under a cover, wide length"),
    (
        "repair",
        "0, 1, 2, 2 by words, 7, 8, dropped, first differ, second differ, third differ, nothing found, \
         sound and cells differ, first cells harmed, second cells harmed, third cells harmed, owners harmed, \
         counts harmed, route count harmed, list harmed",
    ),
    ("report", "0, 1, 2, 5"),
    ("lookup", "0, 1, 2, 5, hop in 1, hop in 2, hop in 3, no route in 1, no route in 2, no route in 3"),
    ("lookup_many", "0, 1, 2"),
    ("build", "0, 3 at, 4 at, 6, 10 at, 11, 12"),
    (
        "tree_lookup",
        "0, 13, hop in 2, hop in 3, hop in 4, hop in 5, hop in 6, hop in 7, hop in 8, hop in 9, hop in 10, \
         no route in 1, no route in 2, no route in 3, no route in 4, no route in 5, no route in 6, no route in 7, \
         no route in 8, no route in 9",
    ),
    (
        "tree_test",
        "0, 13, 13 by bits, 13 by a child base, 13 by a hop base, 13 by a hop, 13 by a word after the last, \
         13 by a hop after the last, 13 by room, 0 by a hop, 0 by room, 0 of any bitmaps, 13 of any bitmaps",
    ),
    (
        "tree_announce",
        "0, 3, 4, 6, 11, 12, 13, added, replaced, replaced of 4096, 3 before 13, 4 before 13, wide length, wide hop",
    ),
    ("tree_withdraw", "0, 3, 9, 13, removed, removed of 4096, none left, 3 before 13, wide length"),
    ("run", "0, 3, 3 at, 4 at, 6, 10 at, empty, some, wide length"),
    ("tally", "0, 2, 3 at, 4 at, 6, 10 at"),
    ("route", "0, 3 at, 4 at, 6, 10 at, none"),
    ("broadcast", "0, 3 at, 4 at, 6, 10 at, 23, yes, no, older alone"),
    ("basic_build", "0, 2, 3 at, 4 at, 6, 10 at"),
    ("basic_lookup", "0, 2, 6, 10 at, 13, hop, no route, longer than 16"),
    ("basic_lookup_many", "0, 2, 6, 10 at"),
    ("table", "damaged and not sound, chunks renumbered, 4096 second chunks, 4096 third chunks, 4096 routes"),
];
