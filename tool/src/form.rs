//! The forms of a file, recognised by content, and the routes of each.

use crate::snapshot::{self, Boxed};
use crate::stop::{Done, Stop};
use crate::text;
use crate::walk;
use ghatumri::{routes, run, Geometry, Image, Reason, Refusal, Route, Table, MOST_CHUNKS, MOST_RECORDS};
use std::io::Read;

/// A file of more bytes is not read. The largest snapshot of a table has 24 MiB.
pub const MOST_BYTES: usize = 32 << 20;

/// What a file holds.
pub enum Form {
    /// Records that the library accepts, from a text or from records.
    List(Vec<u8>),
    Image(Image),
    Table(Boxed),
}

/// A file that was read: its name as it is printed, and what it holds.
pub struct File {
    pub name: String,
    pub form: Form,
}

impl File {
    /// Reads a file, `-` for standard input. A text's bits after the length are cleared if `clear` is set.
    pub fn read(name: &str, clear: bool) -> Done<File> {
        let bytes = read(name)?;
        let name = if name == "-" { "standard input" } else { name };
        let form = if bytes.starts_with(snapshot::BEGINS) {
            snapshot::read(name, &bytes)?
        } else if bytes.iter().any(|&b| b < 9) {
            // The mark of a record is 0 or 1, and a text has no such byte.
            Form::List(accepted(name, bytes)?)
        } else {
            Form::List(accepted(name, text::read(name, &bytes, clear)?)?)
        };
        Ok(File { name: name.into(), form })
    }

    /// The routes as records: a table's list if the table is sound, an image's by a walk over its nodes.
    pub fn list(&self) -> Done<Vec<u8>> {
        match &self.form {
            Form::List(list) => Ok(list.clone()),
            Form::Image(image) => walk::image_routes(&self.name, image),
            Form::Table(t) => match t.table.report() {
                Ok(_) => Ok(t.table.records().to_vec()),
                Err(r) => Err(self.unsound(r)),
            },
        }
    }

    /// A table whose report is refused.
    pub fn unsound(&self, refusal: Refusal) -> Stop {
        let help = if refusal.reason == Reason::Unsound { "; see `ghatumri repair`" } else { "" };
        Stop::refused(&self.name, refusal, format!("{}{help}", table_meaning(refusal)))
    }
}

/// What a whole table is refused with, in words; a lookup's 5 has a wider meaning.
pub fn table_meaning(refusal: Refusal) -> &'static str {
    match refusal.reason {
        Reason::Unsound => "table not sound",
        _ => refusal.meaning(),
    }
}

fn read(name: &str) -> Done<Vec<u8>> {
    let mut bytes = Vec::new();
    let most = MOST_BYTES as u64 + 1;
    let got = match name {
        "-" => std::io::stdin().lock().take(most).read_to_end(&mut bytes),
        _ => std::fs::File::open(name).and_then(|f| f.take(most).read_to_end(&mut bytes)),
    };
    match got {
        Err(e) => Err(Stop::Trouble(format!("{name}: {e}"))),
        Ok(_) if bytes.len() > MOST_BYTES => Err(Stop::Trouble(format!("{name}: more than 32 MiB"))),
        Ok(_) => Ok(bytes),
    }
}

/// The input as it is, if the library accepts it.
fn accepted(name: &str, input: Vec<u8>) -> Done<Vec<u8>> {
    match routes(&input) {
        Ok(_) => Ok(input),
        Err(r) => Err(Stop::refused(name, r, meaning(&input, r))),
    }
}

/// What the refusal of a record input means there: the three meanings of 10 and the two of 3 are distinguished by asking the
/// library about the record alone.
pub fn meaning(input: &[u8], refusal: Refusal) -> String {
    let at = refusal.index.unwrap_or(0) as usize;
    let record = |at: usize| input.get(8 * at..8 * at + 8).and_then(|r| <[u8; 8]>::try_from(r).ok());
    let route = |at: usize| record(at).and_then(|r| Route::try_from(r).ok());
    match (refusal.reason, record(at)) {
        (Reason::Input, None) => format!("{} bytes, not a multiple of 8", input.len()),
        (Reason::Input, Some(record)) => match (route(at), at.checked_sub(1).and_then(route)) {
            (Some(this), Some(last)) => {
                format!("not ascending: {}/{} after {}/{}", this.addr, this.len, last.addr, last.len)
            }
            _ => format!("the mark is {}, over 1", record[5]),
        },
        (Reason::Prefix, Some(record)) if over(record[4]) => format!("length {} is over 32", record[4]),
        (Reason::Prefix, Some([a, b, c, d, len, ..])) => {
            format!("a bit is set after the length: {a}.{b}.{c}.{d}/{len}")
        }
        (Reason::Hop, Some([.., h, l])) => format!("hop {} is not 1 to 32,767", u16::from_be_bytes([h, l])),
        (Reason::Room, _) => format!("{} records, over 4,096", input.len() / 8),
        _ => refusal.meaning().into(),
    }
}

/// Whether a length alone is refused, with no bit set in the prefix.
pub fn over(len: u8) -> bool {
    run(&[], [0; 4], len).is_err()
}

/// What is lent to a table that is made here.
#[derive(Clone, Copy)]
pub struct Lent {
    pub geometry: Geometry,
    pub room: usize,
    pub second: usize,
    pub third: usize,
}

impl Default for Lent {
    fn default() -> Lent {
        Lent { geometry: Geometry::STANDARD, room: MOST_RECORDS, second: MOST_CHUNKS, third: MOST_CHUNKS }
    }
}

impl Lent {
    /// A table of these sizes, loaded with the records.
    pub fn table(&self, name: &str, input: &[u8]) -> Done<Table> {
        let made = Table::new(self.geometry, self.room, self.second, self.third);
        let loaded = made.and_then(|mut t| t.load(input).map(|_| t));
        loaded.map_err(|r| Stop::refused(name, r, self.meaning(input, r)))
    }

    fn meaning(&self, input: &[u8], refusal: Refusal) -> String {
        match refusal.reason {
            Reason::Geometry => format!("geometry ({}, {}) is outside the limits", self.geometry.p1, self.geometry.p2),
            Reason::Size => "more than 4,096 records of room or chunks of a pool".into(),
            Reason::Room => format!("{} routes, room for {}", input.len() / 8, self.room),
            Reason::Second => format!("need for second chunks exceeds the {} that are lent", self.second),
            Reason::Third => format!("need for third chunks exceeds the {} that are lent", self.third),
            _ => meaning(input, refusal),
        }
    }
}
