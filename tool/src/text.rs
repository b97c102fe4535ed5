//! Lists as text, one route a line.

use crate::form::over;
use crate::stop::{Done, Fault, Stop};
use ghatumri::{Geometry, Mark, ParseRouteError, Reason, Route, Table};
use std::net::Ipv4Addr;

/// The records of a text, in ascending order. All faults of the text are reported at once.
pub fn read(name: &str, bytes: &[u8], clear: bool) -> Done<Vec<u8>> {
    let mut found: Vec<(Route, usize)> = Vec::new();
    let mut faults = Vec::new();
    let mut cleared = 0;
    for (at, line) in bytes.split(|&b| b == b'\n').enumerate() {
        let line = String::from_utf8_lossy(line.strip_suffix(b"\r").unwrap_or(line));
        let words: Vec<&str> = words(&line);
        if words.is_empty() || (at == 0 && is_heading(&words)) {
            continue;
        }
        match route(&words, clear) {
            Ok((route, bits)) => {
                cleared += usize::from(bits);
                found.push((route, at + 1));
            }
            Err((refused, meaning)) => faults.push(Fault { line: at + 1, refused, meaning }),
        }
    }
    found.sort();
    for pair in found.windows(2) {
        let [(one, line), (two, later)] = [pair[0], pair[1]];
        if (one.addr, one.len) == (two.addr, two.len) {
            let (line, later) = (line.min(later), line.max(later));
            let meaning = format!("{}/{} is already on line {line}", one.addr, one.len);
            faults.push(Fault { line: later, refused: None, meaning });
        }
    }
    if !faults.is_empty() {
        faults.sort_by_key(|f| f.line);
        return Err(Stop::Faults { file: name.into(), faults });
    }
    if cleared > 0 {
        let lines = if cleared == 1 { "line" } else { "lines" };
        eprintln!("ghatumri: {name}: bits after the length cleared in {cleared} {lines}");
    }
    Ok(found.iter().flat_map(|(route, _)| route.record()).collect())
}

/// The words of a line before its remark.
fn words(line: &str) -> Vec<&str> {
    let line = line.split('#').next().unwrap_or("");
    line.split([' ', '\t']).filter(|w| !w.is_empty()).collect()
}

/// The first line that `scripts/show` prints: `routes 5 second 1 third 1`.
fn is_heading(words: &[&str]) -> bool {
    let number = |w: &str| w.bytes().all(|b| b.is_ascii_digit());
    matches!(words, ["routes", a, "second", b, "third", c] if number(a) && number(b) && number(c))
}

/// The route of a line, and whether bits were cleared; or the refusal's number and what is wrong.
fn route(words: &[&str], clear: bool) -> Result<(Route, bool), (Option<u8>, String)> {
    let refusal = match words.join(" ").parse::<Route>() {
        Ok(route) => return Ok((route, false)),
        Err(ParseRouteError::Form) => {
            return Err((None, format!("not of the form 10.1.2.0/24 44 [attached]: {}", shown(&words.join(" ")))));
        }
        Err(ParseRouteError::Refused(refusal)) => refusal,
    };
    let number = refusal.number();
    let (addr, len) = words[0].split_once('/').unwrap_or((words[0], ""));
    match (refusal.reason, len.parse::<u8>(), addr.parse::<Ipv4Addr>()) {
        (Reason::Prefix, Ok(len), Ok(addr)) if !over(len) => {
            // A hop that does not fit is over the limit too.
            let hop = words[1].parse().unwrap_or(u16::MAX);
            let mark = if words.len() == 3 { Mark::Attached } else { Mark::Behind };
            match announced(addr, len, hop, mark) {
                Some(route) if clear => Ok((route, true)),
                _ => Err((Some(number), bits_set(words[0], announced(addr, len, 1, mark)))),
            }
        }
        (Reason::Prefix, ..) => Err((Some(number), format!("length {len} is over 32"))),
        _ => Err((Some(number), format!("hop {} is not 1 to 32,767", words[1]))),
    }
}

fn bits_set(prefix: &str, meant: Option<Route>) -> String {
    let meant = meant.map_or(String::new(), |r| format!(" ({}/{}? -c clears)", r.addr, r.len));
    format!("a bit is set after the length: {prefix}{meant}")
}

/// The route that an announcement makes of these, on an empty table.
fn announced(addr: Ipv4Addr, len: u8, hop: u16, mark: Mark) -> Option<Route> {
    let mut table = Table::new(Geometry::SMALL, 1, 1, 1).ok()?;
    table.announce(addr, len, hop, mark).ok()?;
    table.routes().ok()?.next()
}

/// A part of a file as an error message shows it: short, and with nothing that a terminal acts on.
fn shown(text: &str) -> String {
    let short: String = text.chars().take(60).map(|c| if c.is_control() { '?' } else { c }).collect();
    if text.chars().count() > 60 {
        short + "..."
    } else {
        short
    }
}

/// Routes as lines.
pub fn write(routes: impl Iterator<Item = Route>) -> String {
    routes.map(|r| format!("{r}\n")).collect()
}
