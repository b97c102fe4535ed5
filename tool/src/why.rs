//! `why`: the hop of an address, the route that it comes from, and the cells and nodes on the way.

use crate::answer::{hop, many, Answer};
use crate::form::{File, Form, Lent};
use crate::json::Object;
use crate::stop::{Done, Stop};
use crate::walk::{agree_image, agree_table, cells, nodes, nodes_read, Cell, Content, Node, Prefix};
use ghatumri::{is_broadcast, longest, route, routes, run, Image, Mark, Route, Rule, Table};
use std::net::Ipv4Addr;

pub fn why(addr: Ipv4Addr, file: &File, lent: &Lent) -> Done<Answer> {
    let mut answer = Answer::new("why");
    answer.field("address", addr.to_string());
    let list = list(file)?;
    let best = headline(&mut answer, addr, list.as_deref(), !matches!(file.form, Form::Image(_)))?;
    let (table, sound) = match &file.form {
        Form::Table(boxed) => (Some(boxed.table.clone()), boxed.table.report().is_ok()),
        Form::List(list) => (Some(lent.table(&file.name, list)?), true),
        Form::Image(_) => (None, false),
    };
    match table {
        None => answer.field("table", None::<Object>),
        Some(table) => {
            let found = walk_table(&mut answer, &table, addr, sound)?;
            if list.is_some() && found != Some(best) {
                if sound {
                    return Err(Stop::Disagreement("the table's hop is not that of the longest route".into()));
                }
                answer.line("the table does not answer what its list gives");
                answer.yes = false;
            }
        }
    }
    let (image, built) = match (&file.form, &list) {
        (Form::Image(image), list) => (Some(image.clone()), list.is_some()),
        (_, Some(list)) => (Some(Image::of(list).map_err(|r| Stop::refused(&file.name, r, r.meaning()))?), true),
        (_, None) => (None, false),
    };
    match image {
        None => answer.field("image", None::<Object>),
        Some(image) => {
            let found = walk_image(&mut answer, &image, addr)?;
            if built && found != Some(best) {
                return Err(Stop::Disagreement("the image's hop is not that of the longest route".into()));
            }
        }
    }
    Ok(answer)
}

/// The records behind a file: of a table its list, if that is good; of an image its routes, if it is well formed.
fn list(file: &File) -> Done<Option<Vec<u8>>> {
    match &file.form {
        Form::Table(boxed) => Ok(boxed.table.routes().ok().map(|_| boxed.table.records().to_vec())),
        Form::Image(image) if image.test().is_err() => Ok(None),
        _ => file.list().map(Some),
    }
}

/// The routes that cover an address, the longest first: each prefix of it that heads its own run. The first is the one that the library names
/// as the longest.
fn covering(list: &[u8], addr: Ipv4Addr) -> Vec<Route> {
    let heads = |len: u8| {
        let prefix = Prefix::of(addr.into(), len.into());
        let first = route(run(list, prefix.addr, len).ok()?, 0).ok()??;
        (u32::from(first.addr) == prefix.addr && first.len == len).then_some(first)
    };
    (0..=32).rev().filter_map(heads).collect()
}

/// Compares the routes that were found with the longest one by the library.
fn agree_longest(best: Option<Route>, covering: &[Route]) -> Done<()> {
    if best != covering.first().copied() {
        return Err(Stop::Disagreement("the routes that cover the address do not begin with the longest".into()));
    }
    Ok(())
}

/// What the list gives: the longest route that covers the address, the shorter ones, and directed broadcasts.
fn headline(answer: &mut Answer, addr: Ipv4Addr, list: Option<&[u8]>, marks: bool) -> Done<Option<u16>> {
    let covering = list.map_or(Vec::new(), |list| covering(list, addr));
    let best = list.and_then(|list| longest(list, addr).ok().flatten());
    agree_longest(best, &covering)?;
    let attached = best.filter(|_| marks).map(|r| r.mark == Mark::Attached);
    match (best, list) {
        (Some(r), _) => {
            let attached = if attached == Some(true) { ", attached" } else { "" };
            answer.line(format!("{addr} goes to hop {} by {}/{}{attached}", r.hop, r.addr, r.len));
        }
        (None, Some(_)) => answer.line(format!("{addr} has no route")),
        (None, None) => {
            answer.line(format!("{addr}: the routes are damaged"));
            answer.yes = false;
        }
    }
    for shorter in covering.iter().skip(1) {
        answer.line(format!("  also covered by {shorter}"));
    }
    let rules = [(Rule::Older, "older"), (Rule::Newer, "newer")];
    let applies = |rule| list.is_some_and(|list| is_broadcast(rule, list, addr) == Ok(true));
    let broadcast: Vec<&str> = rules.into_iter().filter(|&(rule, _)| applies(rule)).map(|(_, name)| name).collect();
    match broadcast.as_slice() {
        [] => {}
        [rule] => answer.line(format!("  directed broadcast by the {rule} rule")),
        _ => answer.line("  directed broadcast by the older and the newer rule"),
    }
    answer.field("hop", best.map(|r| r.hop));
    answer.field("route", best.map(|r| format!("{}/{}", r.addr, r.len)));
    answer.field("attached", attached);
    answer.field("covering", covering.iter().map(Route::to_string).collect::<Vec<_>>());
    answer.field("broadcast", broadcast);
    Ok(best.map(|r| r.hop))
}

/// The walk of a table. Answers the hop, or nothing if the lookup is refused.
fn walk_table(answer: &mut Answer, table: &Table, addr: Ipv4Addr, sound: bool) -> Done<Option<Option<u16>>> {
    let g = table.geometry;
    let walk = cells(table, addr.into());
    let found = table.lookup(addr);
    match found {
        Ok(f) => {
            agree_table(f, &walk)?;
            answer.line(format!("table ({}, {}): {}, {}", g.p1, g.p2, hop(f.hop), many(f.reads, "cell")));
        }
        Err(r) => {
            answer.line(format!("table ({}, {}): {r}", g.p1, g.p2));
            answer.yes = false;
        }
    }
    for cell in &walk {
        answer.line(cell_line(cell, sound));
    }
    let object = Object::new().with("p1", g.p1).with("p2", g.p2);
    let object = object.with("hop", found.ok().and_then(|f| f.hop)).with("reads", found.ok().map(|f| f.reads));
    let object = object.with("refused", found.err().map(|r| r.number()));
    answer.field("table", object.with("cells", walk.iter().map(cell_object).collect::<Vec<_>>()));
    Ok(found.ok().map(|f| f.hop))
}

fn cell_line(c: &Cell, sound: bool) -> String {
    let content = match (Content::of(c.cell), c.longer) {
        (Content::Leaf(h), _) => hop(h),
        (Content::Chunk(n), Some(longer)) if sound => format!("chunk {n}, longer routes {longer}"),
        (Content::Chunk(_), None) => "not a leaf".into(),
        (Content::Chunk(n), _) => format!("chunk {n}"),
    };
    format!("  {:<6} {:>8}  {:04X}  {:<18} {content}", c.array, c.index, c.cell, c.serves)
}

fn cell_object(c: &Cell) -> Object {
    let (chunk, hop) = match Content::of(c.cell) {
        Content::Chunk(n) => (Some(n), None),
        Content::Leaf(hop) => (None, hop),
    };
    let object = Object::new().with("array", c.array).with("index", c.index).with("cell", c.cell);
    object.with("serves", c.serves.to_string()).with("chunk", chunk).with("hop", hop)
}

/// The walk of an image. Answers the hop, or nothing if the lookup is refused.
fn walk_image(answer: &mut Answer, image: &Image, addr: Ipv4Addr) -> Done<Option<Option<u16>>> {
    let walk = nodes(image, addr.into());
    let found = image.lookup(addr);
    match found {
        Ok(f) => {
            agree_image(f, &walk)?;
            let and = if f.hop.is_some() { " and 1 hop" } else { "" };
            answer.line(format!("image: {}, {}{and}", hop(f.hop), many(nodes_read(f), "node")));
        }
        Err(r) => {
            answer.line(format!("image: refused {}: image broken on this walk", r.number()));
            answer.yes = false;
        }
    }
    for node in &walk {
        answer.line(node_line(node));
    }
    let object = Object::new().with("hop", found.ok().and_then(|f| f.hop)).with("reads", found.ok().map(|f| f.reads));
    let object = object.with("refused", found.err().map(|r| r.number()));
    answer.field("image", object.with("nodes", walk.iter().map(node_object).collect::<Vec<_>>()));
    Ok(found.ok().map(|f| f.hop))
}

fn node_line(n: &Node) -> String {
    let [maps, child, base] = n.words;
    let meets = n.meets.map_or(String::new(), |m| match m.hop {
        Some(hop) => format!("/{} to hop {hop} at {}", m.len, m.place),
        None => format!("/{} to a hop beyond the array, at {}", m.len, m.place),
    });
    format!("  node {:>5}  {maps:08X} {child:>5} {base:>5}  {:<18} {meets}", n.index, n.path)
}

fn node_object(n: &Node) -> Object {
    let meets = n.meets.map(|m| Prefix::of(n.path.addr, m.len));
    let object = Object::new().with("node", n.index).with("words", n.words).with("path", n.path.to_string());
    let object = object.with("match", meets.map(|p| p.to_string()));
    object.with("place", n.meets.map(|m| m.place)).with("hop", n.meets.and_then(|m| m.hop))
}

/// The routes of a list that the library has accepted.
pub fn accepted(name: &str, list: &[u8]) -> Done<Vec<Route>> {
    routes(list).map(Iterator::collect).map_err(|r| Stop::refused(name, r, r.meaning()))
}

#[cfg(test)]
mod tests {
    use super::*;

    #[test]
    fn another_longest_route_disagrees() {
        let [short, long] = ["10.0.0.0/8 20", "10.1.0.0/16 31"].map(|line| line.parse::<Route>().unwrap());
        let list: Vec<u8> = [short, long].iter().flat_map(Route::record).collect();
        let found = covering(&list, [10, 1, 2, 3].into());
        assert_eq!(found, [long, short]);
        assert_eq!(agree_longest(Some(long), &found), Ok(()));
        assert_eq!(agree_longest(Some(short), &found).unwrap_err().status(), 3);
        assert_eq!(agree_longest(None, &found).unwrap_err().status(), 3);
    }
}
