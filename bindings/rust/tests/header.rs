//! The exported functions are declared three times: as they are proved (`crates/cards/src`), in the C header, and in
//! `sys.rs`. Names, order and types of the arguments agree, and no function is left out.

use ghatumri::{Geometry, HopRecord, Mark, Reason, Refusal, Rule, MOST_CHUNKS, MOST_RECORDS};
use std::collections::BTreeMap;
use std::fs;
use std::path::{Path, PathBuf};

/// A function's arguments, name and type, written as in C: `(list, uint8_t *), (list_len, size_t)`.
type Functions = BTreeMap<String, Vec<(String, String)>>;

fn repository() -> PathBuf {
    Path::new(env!("CARGO_MANIFEST_DIR")).join("../..")
}

fn read(path: &Path) -> String {
    fs::read_to_string(path).unwrap_or_else(|e| panic!("{}: {e}", path.display()))
}

/// Words of one space between them.
fn spaced(text: &str) -> String {
    text.split_whitespace().collect::<Vec<_>>().join(" ")
}

/// The text between `from` and the next `to` after it, for each place where `from` stands.
fn between<'a>(text: &'a str, from: &'a str, to: &'a str) -> impl Iterator<Item = &'a str> + 'a {
    text.split(from).skip(1).map(move |rest| rest.split(to).next().unwrap())
}

/// The header's prototypes: `uint64_t gh_NAME(ARGUMENTS);`.
fn header() -> Functions {
    let mut text = String::new();
    for part in read(&repository().join("include/ghatumri.h")).split("/*") {
        text += part.split_once("*/").map_or(part, |(_, code)| code);
    }
    let mut found = Functions::new();
    for prototype in between(&text, "uint64_t gh_", ";") {
        let (name, rest) = prototype.split_once('(').unwrap();
        let (arguments, after) = rest.split_once(')').unwrap();
        // An inline function has a body.
        if !after.is_empty() {
            continue;
        }
        let argument = |text: &str| {
            let text = spaced(&text.replace("GH_RESTRICT", " "));
            let at = text.rfind([' ', '*']).unwrap() + 1;
            (text[at..].to_string(), spaced(&text[..at].replace('*', " * ")))
        };
        found.insert(format!("gh_{name}"), arguments.split(',').map(argument).collect());
    }
    found
}

/// A type of one number or word.
fn in_c(word: &str) -> String {
    match word.trim() {
        "usize" => "size_t".to_string(),
        "HopRecord" => "struct gh_hop_record".to_string(),
        w if w.starts_with('u') => format!("uint{}_t", &w[1..]),
        other => panic!("{other} is no type of the boundary"),
    }
}

/// The arguments of a function of `sys.rs` or of `cards`: `NAME: TYPE, ..`. A slice is a pointer and a length.
fn arguments(text: &str) -> Vec<(String, String)> {
    let mut found = Vec::new();
    for argument in text.split(',').filter(|a| !a.trim().is_empty()) {
        let (name, of) = argument.split_once(':').unwrap();
        let (name, of) = (name.trim().to_string(), of.trim());
        let slice = |of: &str| in_c(of.trim_end_matches(']'));
        if let Some(of) = of.strip_prefix("&mut [") {
            found.push((name.clone(), slice(of) + " *"));
            found.push((name + "_len", "size_t".to_string()));
        } else if let Some(of) = of.strip_prefix("&[") {
            found.push((name.clone(), format!("const {} *", slice(of))));
            found.push((name + "_len", "size_t".to_string()));
        } else if let Some(of) = of.strip_prefix("*mut ") {
            found.push((name, in_c(of) + " *"));
        } else if let Some(of) = of.strip_prefix("*const ") {
            found.push((name, format!("const {} *", in_c(of))));
        } else {
            found.push((name, in_c(of)));
        }
    }
    found
}

/// The functions that come after these words, each of which answers a u64.
fn functions(text: &str, declared: &str) -> Functions {
    let function = |text: &str| {
        let (name, rest) = text.split_once('(').unwrap();
        let (inside, after) = rest.split_once(')').unwrap();
        assert!(spaced(after).starts_with("-> u64"), "{name} answers{after}");
        (name.to_string(), arguments(inside))
    };
    text.split(declared).skip(1).map(function).collect()
}

fn cards() -> Functions {
    let mut found = Functions::new();
    for file in fs::read_dir(repository().join("crates/cards/src")).unwrap() {
        found.extend(functions(&read(&file.unwrap().path()), "pub extern \"C\" fn "));
    }
    found
}

fn sys() -> Functions {
    functions(&read(&repository().join("bindings/rust/src/sys.rs")), "pub fn ")
}

fn agree(a: &Functions, b: &Functions) {
    for (name, arguments) in a {
        assert_eq!(Some(arguments), b.get(name), "{name}");
    }
    assert_eq!(a.len(), b.len());
}

#[test]
fn the_header_declares_what_is_proved() {
    let header = header();
    assert!(header.len() >= 12, "{:?}", header.keys());
    agree(&cards(), &header);
}

#[test]
fn sys_declares_what_the_header_does() {
    agree(&header(), &sys());
}

/// The reading itself is right.
#[test]
fn as_read() {
    let is: Vec<String> = header()["gh_tally"].iter().map(|(name, of)| format!("{of} {name}")).collect();
    assert_eq!(is, ["const uint8_t * input", "size_t input_len", "uint32_t * out", "size_t out_len"]);
    let count = |call: &str| header()[call].len();
    assert_eq!((count("gh_make"), count("gh_lookup_many"), count("gh_route")), (18, 23, 3));
}

/// Each refusal has one number, one name and one meaning: `GH_REFUSED_ABSENT = 9` is `Reason::Absent`.
#[test]
fn one_meaning() {
    let header = read(&repository().join("include/ghatumri.h"));
    let texts = between(&header, "texts[] = {", "};").next().unwrap();
    // An entry is `/* NUMBER */ "TEXT"`, of one string. Numbers that are nobody's have none.
    let entry = |entry: &'_ str| {
        let (number, text) = entry.split_once("*/").unwrap();
        let mut parts = text.split('"').skip(1).step_by(2);
        let text = parts.next()?.to_string();
        assert_eq!(parts.next(), None, "{text}");
        Some((number.trim().parse::<u8>().unwrap(), text))
    };
    let texts: BTreeMap<u8, String> = texts.split("/*").skip(1).filter_map(entry).collect();
    assert_eq!(texts.len(), Reason::ALL.len() + 1);
    let names = between(&header, "enum gh_refusal {", "}").next().unwrap();
    let names: Vec<String> = between(names, "GH_REFUSED_", ",").map(spaced).collect();
    assert_eq!(names.len(), Reason::ALL.len());
    for (name, &reason) in names.iter().zip(Reason::ALL) {
        assert_eq!(*name, format!("{reason:?}").to_uppercase() + &format!(" = {}", reason.number()));
        assert_eq!(reason.meaning(), texts[&reason.number()]);
        assert_eq!(Reason::from_number(reason.number()), Some(reason));
    }
    let numbers = (0..=u8::MAX).filter(|&number| Reason::from_number(number).is_some());
    assert_eq!(numbers.count(), Reason::ALL.len());
    assert_eq!(Refusal { reason: Reason::Absent, index: None }.to_string(), format!("refused 9: {}", texts[&9]));
}

/// Limits and named geometries.
#[test]
fn one_limit() {
    let header = read(&repository().join("include/ghatumri.h"));
    let define = |name: &str| -> usize {
        let line = between(&header, &format!("#define {name} "), "\n").next().unwrap().to_string();
        line.split_whitespace().next().unwrap().parse().unwrap()
    };
    assert_eq!((define("GH_MOST_RECORDS"), define("GH_MOST_CHUNKS")), (MOST_RECORDS, MOST_CHUNKS));
    let named = |p1, p2| Geometry { p1: define(p1) as u32, p2: define(p2) as u32 };
    assert_eq!(named("GH_STANDARD_P1", "GH_STANDARD_P2"), Geometry::STANDARD);
    assert_eq!(named("GH_SMALL_P1", "GH_SMALL_P2"), Geometry::SMALL);
    assert_eq!((define("GH_BEHIND"), define("GH_ATTACHED")), (Mark::Behind as usize, Mark::Attached as usize));
    assert_eq!(define("GH_UP"), HopRecord::UP.into());
    assert_eq!((define("GH_OLDER_RULE"), define("GH_NEWER_RULE")), (Rule::Older as usize, Rule::Newer as usize));
}

#[test]
fn one_version() {
    let header = read(&repository().join("include/ghatumri.h"));
    let version = between(&header, "GH_VERSION_TEXT", "\n").next().unwrap().trim().trim_matches('"');
    assert_eq!(version, env!("CARGO_PKG_VERSION"));
}
