//! Snapshots: a line of text, and then the arrays of a table or an image end to end.

use crate::form::Form;
use crate::stop::{Done, Stop};
use ghatumri::{Geometry, HopRecord, Image, Table};

/// How a snapshot begins.
pub const BEGINS: &[u8] = b"ghatumri ";

/// Bytes of a hop record: port, mark, a byte that is 0, packets, octets.
const RECORD: usize = 12;

/// The table of a box, with its hop records if the snapshot has them.
pub struct Boxed {
    pub table: Table,
    pub records: Option<Vec<HopRecord>>,
}

#[derive(Clone, Copy, PartialEq, Eq)]
pub enum Order {
    Little,
    Big,
}

/// Reads the arrays of a body one after the other.
struct Body<'a> {
    rest: &'a [u8],
    order: Order,
}

impl Body<'_> {
    fn bytes(&mut self, n: usize) -> Vec<u8> {
        let (bytes, rest) = self.rest.split_at(n);
        self.rest = rest;
        bytes.to_vec()
    }

    fn halves(&mut self, n: usize) -> Vec<u16> {
        let order = self.order;
        self.bytes(2 * n).chunks_exact(2).map(|c| order.half([c[0], c[1]])).collect()
    }

    fn words(&mut self, n: usize) -> Vec<u32> {
        let order = self.order;
        self.bytes(4 * n).chunks_exact(4).map(|c| order.word([c[0], c[1], c[2], c[3]])).collect()
    }

    fn records(&mut self, n: usize) -> Vec<HopRecord> {
        let order = self.order;
        let record = |c: &[u8]| HopRecord {
            port: order.half([c[0], c[1]]),
            up: c[2],
            packets: order.word([c[4], c[5], c[6], c[7]]),
            octets: order.word([c[8], c[9], c[10], c[11]]),
        };
        self.bytes(RECORD * n).chunks_exact(RECORD).map(record).collect()
    }
}

impl Order {
    fn half(self, b: [u8; 2]) -> u16 {
        if self == Order::Big {
            u16::from_be_bytes(b)
        } else {
            u16::from_le_bytes(b)
        }
    }

    fn word(self, b: [u8; 4]) -> u32 {
        if self == Order::Big {
            u32::from_be_bytes(b)
        } else {
            u32::from_le_bytes(b)
        }
    }
}

/// What a first line calls for.
enum Line {
    Image { nodes: usize, hops: usize },
    Table { geometry: Geometry, count: u32, room: usize, second: usize, third: usize, records: Option<usize> },
}

impl Line {
    /// Reads the line after `ghatumri `. Two tables in one snapshot would be a third word here.
    fn read(line: &str) -> Option<(Line, Order)> {
        let words: Vec<&str> = line.split(' ').collect();
        let (kind, order, fields) = match words.as_slice() {
            [kind, "little", fields @ ..] => (*kind, Order::Little, fields),
            [kind, "big", fields @ ..] => (*kind, Order::Big, fields),
            _ => return None,
        };
        let line = match (kind, fields) {
            ("image", ["nodes", nodes, "hops", hops]) => Line::Image { nodes: size(nodes)?, hops: size(hops)? },
            (
                "table",
                ["p1", p1, "p2", p2, "count", count, "room", room, "second", second, "third", third, rest @ ..],
            ) => {
                let records = match rest {
                    [] => None,
                    ["records", n] => Some(size(n)?),
                    _ => return None,
                };
                Line::Table {
                    geometry: Geometry { p1: number(p1)?, p2: number(p2)? },
                    count: number(count)?,
                    room: size(room)?,
                    second: size(second)?,
                    third: size(third)?,
                    records,
                }
            }
            _ => return None,
        };
        Some((line, order))
    }

    /// The bytes of the arrays.
    fn bytes(&self) -> u64 {
        let n = |n: usize| n as u64;
        match *self {
            Line::Image { nodes, hops } => 12 * n(nodes) + 2 * n(hops),
            Line::Table { geometry: g, room, second, third, records, .. } => {
                let cells =
                    2 * n(g.first_cells()) + 2 * n(second) * n(g.second_chunk()) + n(third) * n(g.third_chunk());
                8 * n(room) + 2 * cells + 4 * n(second) + 4 * n(third) + 12 * n(records.unwrap_or(0))
            }
        }
    }
}

/// A number of 32 bits in digits, with no zero in front.
pub fn number(text: &str) -> Option<u32> {
    let plain = text == "0" || (!text.starts_with('0') && text.bytes().all(|b| b.is_ascii_digit()));
    text.parse().ok().filter(|_| plain)
}

fn size(text: &str) -> Option<usize> {
    number(text).map(|n| n as usize)
}

/// A snapshot of either kind. One with a byte too few or too many is no snapshot.
pub fn read(name: &str, all: &[u8]) -> Done<Form> {
    let bad = || Stop::Trouble(format!("{name}: the first line is not that of a snapshot"));
    let end = all.iter().take(200).position(|&b| b == b'\n').ok_or_else(bad)?;
    let line = std::str::from_utf8(&all[BEGINS.len()..end]).map_err(|_| bad())?;
    let (line, order) = Line::read(line).ok_or_else(bad)?;
    if let Line::Table { geometry: g, .. } = line {
        if !g.within_limits() {
            return Err(Stop::Trouble(format!("{name}: geometry ({}, {}) is outside the limits", g.p1, g.p2)));
        }
    }
    let wanted = end as u64 + 1 + line.bytes();
    if all.len() as u64 != wanted {
        return Err(Stop::Trouble(format!("{name}: {} bytes, but the first line calls for {wanted}", all.len())));
    }
    let mut body = Body { rest: &all[end + 1..], order };
    Ok(match line {
        Line::Image { nodes, hops } => Form::Image(Image { words: body.words(3 * nodes), hops: body.halves(hops) }),
        Line::Table { geometry: g, count, room, second, third, records } => Form::Table(Boxed {
            table: Table {
                geometry: g,
                count,
                list: body.bytes(8 * room),
                first: body.halves(g.first_cells()),
                second: body.halves(second * g.second_chunk()),
                third: body.halves(third * g.third_chunk()),
                own2: body.words(second),
                own3: body.words(third),
                long1: body.halves(g.first_cells()),
                long2: body.halves(second * g.second_chunk()),
            },
            records: records.map(|n| body.records(n)),
        }),
    })
}

fn put16(out: &mut Vec<u8>, values: &[u16]) {
    values.iter().for_each(|v| out.extend(v.to_le_bytes()));
}

fn put32(out: &mut Vec<u8>, values: &[u32]) {
    values.iter().for_each(|v| out.extend(v.to_le_bytes()));
}

/// The snapshot of an image, in little-endian order.
pub fn of_image(image: &Image) -> Vec<u8> {
    let line = format!("ghatumri image little nodes {} hops {}\n", image.words.len() / 3, image.hops.len());
    let mut out = line.into_bytes();
    put32(&mut out, &image.words);
    put16(&mut out, &image.hops);
    out
}

/// The snapshot of a table and its hop records, in little-endian order.
pub fn of_table(t: &Table, records: Option<&[HopRecord]>) -> Vec<u8> {
    let (room, second, third) = (t.list.len() / 8, t.own2.len(), t.own3.len());
    let Geometry { p1, p2 } = t.geometry;
    let more = records.map_or(String::new(), |r| format!(" records {}", r.len()));
    let count = t.count;
    let line = format!(
        "ghatumri table little p1 {p1} p2 {p2} count {count} room {room} second {second} third {third}{more}\n"
    );
    let mut out = line.into_bytes();
    out.extend(&t.list);
    put16(&mut out, &t.first);
    put16(&mut out, &t.second);
    put16(&mut out, &t.third);
    put32(&mut out, &t.own2);
    put32(&mut out, &t.own3);
    put16(&mut out, &t.long1);
    put16(&mut out, &t.long2);
    for r in records.unwrap_or_default() {
        put16(&mut out, &[r.port]);
        out.extend([r.up, 0]);
        put32(&mut out, &[r.packets, r.octets]);
    }
    out
}
