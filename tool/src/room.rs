//! `room`: what a table has and what it uses, as text and as an object.

use crate::answer::Answer;
use crate::form::{File, Form, Lent};
use crate::json::Object;
use crate::snapshot::Boxed;
use crate::stop::{Done, Stop};
use crate::walk::Prefix;
use ghatumri::{tally, HopRecord, Report, Table};

/// A chunk in use: its number, the prefix of the cell that has it, and how many routes are longer.
pub struct Owned {
    pub chunk: usize,
    pub owner: Prefix,
    pub longer: u16,
}

/// A table that its report accepts, with what the report gives.
pub struct Room {
    pub boxed: Boxed,
    pub report: Report,
    pub second: Vec<Owned>,
    pub third: Vec<Owned>,
}

impl Room {
    /// Of a table's snapshot the table itself; of every other form a table that is loaded with its routes.
    pub fn of(file: File, lent: &Lent) -> Done<Room> {
        let list = match &file.form {
            Form::Table(_) => None,
            _ => Some(file.list()?),
        };
        let boxed = match (file, list) {
            (File { form: Form::Table(boxed), name }, _) => match boxed.table.report() {
                Ok(_) => boxed,
                Err(r) => return Err(File { name, form: Form::Table(boxed) }.unsound(r)),
            },
            (file, list) => Boxed { table: lent.table(&file.name, &list.unwrap_or_default())?, records: None },
        };
        let report = boxed.table.report().map_err(|r| Stop::Disagreement(format!("the table made here is {r}")))?;
        let (second, third) = (second(&boxed.table), third(&boxed.table));
        agree_needs("second", second.len(), report.second)?;
        agree_needs("third", third.len(), report.third)?;
        Ok(Room { boxed, report, second, third })
    }

    pub fn answer(&self) -> Done<Answer> {
        let (t, g) = (&self.boxed.table, self.boxed.table.geometry);
        let mut answer = Answer::new("room");
        answer.line(format!("table ({}, {})", g.p1, g.p2));
        answer.line(format!("bytes lent {}", bytes(t)));
        answer.line(format!("routes {:>5} of {:>4}", self.report.routes, t.list.len() / 8));
        answer.field("p1", g.p1);
        answer.field("p2", g.p2);
        answer.field("bytes", bytes(t));
        answer.field("routes", Object::new().with("count", self.report.routes).with("lent", t.list.len() / 8));
        pool(&mut answer, "second", &self.second, t.own2.len(), g.second_chunk());
        pool(&mut answer, "third", &self.third, t.own3.len(), g.third_chunk());
        let lengths = lengths(t.records(), self.report.routes)?;
        let told = lengths.iter().enumerate().filter(|(_, &n)| n > 0).map(|(l, n)| format!("/{l} {n}"));
        answer.line(format!("lengths {}", told.collect::<Vec<_>>().join(", ")));
        answer.field("lengths", lengths);
        hop_records(&mut answer, self.boxed.records.as_deref());
        Ok(answer)
    }
}

fn bytes(t: &Table) -> usize {
    let halves = t.first.len() + t.second.len() + t.third.len() + t.long1.len() + t.long2.len();
    t.list.len() + 2 * halves + 4 * (t.own2.len() + t.own3.len())
}

/// The chunks of a pool that have an owner, and the cell that the owner number means.
fn owners(own: &[u32]) -> impl Iterator<Item = (usize, usize)> + '_ {
    own.iter().enumerate().filter_map(|(k, &owner)| Some((k + 1, (owner as usize).checked_sub(1)?)))
}

/// The prefix of a cell of a level.
fn prefix(cell: usize, len: u32) -> Prefix {
    Prefix { addr: ((cell as u64) << (32 - len)) as u32, len }
}

fn second(t: &Table) -> Vec<Owned> {
    let owned = |(chunk, cell)| {
        let longer = *t.long1.get(cell)?;
        Some(Owned { chunk, owner: prefix(cell, t.geometry.p1), longer })
    };
    owners(&t.own2).filter_map(owned).collect()
}

fn third(t: &Table) -> Vec<Owned> {
    let cells = t.geometry.second_chunk();
    let owned = |(chunk, cell): (usize, usize)| {
        let longer = *t.long2.get(cell)?;
        let above = (*t.own2.get(cell / cells)? as usize).checked_sub(1)?;
        Some(Owned { chunk, owner: prefix(above * cells + cell % cells, t.geometry.p2), longer })
    };
    owners(&t.own3).filter_map(owned).collect()
}

/// As many chunks have an owner as the report gives as the need.
fn agree_needs(pool: &str, owned: usize, need: u16) -> Done<()> {
    if owned != usize::from(need) {
        return Err(Stop::Disagreement(format!("{owned} {pool} chunks have an owner, and {need} are needed")));
    }
    Ok(())
}

fn pool(answer: &mut Answer, name: &str, owned: &[Owned], lent: usize, cells: usize) {
    answer.line(format!("{name:<6} {:>5} of {lent:>4} chunks of {cells} cells", owned.len()));
    for o in owned {
        answer.line(format!("  {:>4}  {:<18} longer routes {}", o.chunk, o.owner, o.longer));
    }
    let chunk =
        |o: &Owned| Object::new().with("chunk", o.chunk).with("owner", o.owner.to_string()).with("longer", o.longer);
    let object = Object::new().with("need", owned.len()).with("lent", lent).with("cells", cells);
    answer.field(name, object.with("chunks", owned.iter().map(chunk).collect::<Vec<_>>()));
}

/// Routes by length. Their sum is the count.
fn lengths(list: &[u8], routes: u16) -> Done<[u32; 33]> {
    let lengths = tally(list).map_err(|r| Stop::Disagreement(format!("the list of a sound table is {r}")))?;
    agree_lengths(lengths, routes)
}

fn agree_lengths(lengths: [u32; 33], routes: u16) -> Done<[u32; 33]> {
    if lengths.iter().sum::<u32>() != u32::from(routes) {
        return Err(Stop::Disagreement(format!("the routes by length are not {routes}")));
    }
    Ok(lengths)
}

/// The records that are not all zero, by hop.
fn hop_records(answer: &mut Answer, records: Option<&[HopRecord]>) {
    let Some(records) = records else {
        answer.field("hop_records", None::<Object>);
        return;
    };
    answer.line(format!("hop records {}", records.len()));
    let mut objects = Vec::new();
    for (k, r) in records.iter().enumerate().filter(|(_, r)| **r != HopRecord::default()) {
        let up = if r.is_up() { "up" } else { "down" };
        let HopRecord { port, packets, octets, .. } = r;
        answer.line(format!("  hop {:>5}  port {port:>5} {up:<4}  packets {packets:>10}  octets {octets:>10}", k + 1));
        let object = Object::new().with("hop", k + 1).with("port", *port).with("up", r.is_up());
        objects.push(object.with("packets", *packets).with("octets", *octets));
    }
    answer.field("hop_records", Object::new().with("lent", records.len()).with("in_use", objects));
}

#[cfg(test)]
mod tests {
    use super::*;
    use ghatumri::Route;

    #[test]
    fn a_missing_owner_disagrees() {
        let input = "10.1.2.0/24 44".parse::<Route>().unwrap().record();
        let mut table = Lent::default().table("a", &input).unwrap();
        let need = table.report().unwrap().second;
        assert_eq!((need, agree_needs("second", second(&table).len(), need)), (1, Ok(())));
        table.own2[0] = 0;
        assert_eq!(agree_needs("second", second(&table).len(), need).unwrap_err().status(), 3);
    }

    #[test]
    fn lengths_that_do_not_add_up_disagree() {
        let mut lengths = [0; 33];
        lengths[24] = 2;
        assert!(agree_lengths(lengths, 2).is_ok());
        assert_eq!(agree_lengths(lengths, 3).unwrap_err().status(), 3);
    }
}
