//! `repair`: what a repair of a table drops, and how many cells it alters.

use crate::answer::Answer;
use crate::form::{meaning, table_meaning};
use crate::json::Object;
use crate::stop::{Done, Stop};
use ghatumri::{Reason, Route, Table};

/// A record that a repair dropped.
struct Dropped {
    record: usize,
    bytes: String,
    refused: Option<u8>,
    meaning: String,
}

/// Repairs the table, whose snapshot is `name`, after its count is replaced by `count` if there is one.
pub fn repair(name: &str, table: &mut Table, count: Option<u32>) -> Done<Answer> {
    table.count = count.unwrap_or(table.count);
    let beyond = beyond(table);
    if let Some(&last) = beyond.last() {
        let (records, were) = if beyond.len() == 1 { ("1 record follows", "was") } else { ("records follow", "were") };
        let n = if beyond.len() == 1 { String::new() } else { format!("{} ", beyond.len()) };
        eprintln!("ghatumri: {name}: {n}{records} the count and {were} not examined; --count {last} includes them");
    }
    let before = table.report();
    let looked_at = table.records().to_vec();
    let done = table.repair().map_err(|r| {
        let kept = match r.reason {
            Reason::Second => {
                format!("what is kept needs more second chunks than the {} that are lent", table.own2.len())
            }
            Reason::Third => {
                format!("what is kept needs more third chunks than the {} that are lent", table.own3.len())
            }
            _ => r.meaning().into(),
        };
        Stop::refused(name, r, kept)
    })?;
    let dropped = dropped(&looked_at, table.records());
    agree_dropped(dropped.len(), done.dropped)?;

    let mut answer = Answer::new("repair");
    answer.yes = before.is_ok();
    match before {
        Ok(_) => answer.line("before: sound"),
        Err(r) => answer.line(format!("before: refused {}: {}", r.number(), table_meaning(r))),
    }
    for d in &dropped {
        let refused = d.refused.map_or(String::new(), |n| format!("refused {n}: "));
        answer.line(format!("dropped record {}: {}: {refused}{}", d.record, d.bytes, d.meaning));
    }
    answer.line(format!("records looked at {} dropped {}", looked_at.len() / 8, done.dropped));
    answer.line(format!("cells that differ: first {} second {} third {}", done.first, done.second, done.third));
    let after = table.report().map_err(|r| Stop::Disagreement(format!("the repaired table is {r}")))?;
    let (second, third) = (table.own2.len(), table.own3.len());
    let (routes, need2, need3) = (after.routes, after.second, after.third);
    answer.line(format!("after: routes {routes} second {need2} of {second} third {need3} of {third}"));

    answer.field("refused", before.err().map(|r| r.number()));
    answer.field("records", looked_at.len() / 8);
    answer.field("not_examined", beyond.len());
    answer.field("dropped", dropped.iter().map(Dropped::object).collect::<Vec<_>>());
    let cells = Object::new().with("first", done.first).with("second", done.second).with("third", done.third);
    answer.field("cells", cells);
    let pool = |need: u16, lent: usize| Object::new().with("need", need).with("lent", lent);
    answer.field("routes", after.routes);
    answer.field("second", pool(after.second, second));
    answer.field("third", pool(after.third, third));
    Ok(answer)
}

/// The numbers, from 1, of the records after the count that are not all zero.
fn beyond(table: &Table) -> Vec<usize> {
    let records = table.list.chunks_exact(8).enumerate().skip(table.count as usize);
    records.filter(|(_, r)| r.iter().any(|&b| b != 0)).map(|(k, _)| k + 1).collect()
}

/// The records of `before` that are not in `after`, which is part of it in the same order.
fn dropped(before: &[u8], after: &[u8]) -> Vec<Dropped> {
    let mut kept = after.chunks_exact(8).peekable();
    let mut last = String::new();
    let mut dropped = Vec::new();
    for (record, bytes) in before.chunks_exact(8).enumerate() {
        let route = <[u8; 8]>::try_from(bytes).map(Route::try_from);
        if kept.peek() == Some(&bytes) {
            kept.next();
            last = route.ok().and_then(Result::ok).map_or(String::new(), |r| format!("{}/{}", r.addr, r.len));
            continue;
        }
        let (refused, meaning) = match route {
            Ok(Err(r)) => (Some(r.number()), meaning(bytes, r)),
            Ok(Ok(r)) => (None, format!("{r} is not larger than {last}, the last one kept")),
            Err(_) => (None, String::new()),
        };
        let bytes = bytes.iter().map(|b| format!("{b:02X}")).collect::<Vec<_>>().join(" ");
        dropped.push(Dropped { record, bytes, refused, meaning });
    }
    dropped
}

impl Dropped {
    fn object(&self) -> Object {
        let object = Object::new().with("record", self.record).with("bytes", self.bytes.as_str());
        object.with("refused", self.refused).with("meaning", self.meaning.as_str())
    }
}

fn agree_dropped(gone: usize, dropped: u32) -> Done<()> {
    if gone != dropped as usize {
        return Err(Stop::Disagreement(format!("{gone} records are gone from the list, and {dropped} were dropped")));
    }
    Ok(())
}

#[cfg(test)]
mod tests {
    use super::*;

    #[test]
    fn another_number_dropped_disagrees() {
        let records = |lines: &[&str]| -> Vec<u8> {
            lines.iter().flat_map(|line| line.parse::<Route>().unwrap().record()).collect()
        };
        let before = records(&["10.1.0.0/16 31", "10.0.0.0/8 20", "10.1.2.0/24 44"]);
        let after = records(&["10.1.0.0/16 31", "10.1.2.0/24 44"]);
        let gone = dropped(&before, &after);
        assert_eq!(gone[0].meaning, "10.0.0.0/8 20 is not larger than 10.1.0.0/16, the last one kept");
        assert_eq!(agree_dropped(gone.len(), 1), Ok(()));
        assert_eq!(agree_dropped(gone.len(), 2).unwrap_err().status(), 3);
    }
}
