//! `diff` compares routes; `answers` compares what two sides answer for every address there is.

use crate::answer::{hop, many, Answer};
use crate::form::{File, Form, Lent};
use crate::json::Object;
use crate::stop::{Done, Stop};
use crate::walk::{cells, nodes, nodes_read, Prefix};
use crate::why::accepted;
use ghatumri::{Found, Image, Refusal, Route, Table};
use std::cmp::Ordering;
use std::net::Ipv4Addr;

/// The routes that differ between two files; of two images also how many words and hops do.
pub fn diff(files: [&File; 2]) -> Done<Answer> {
    let mut answer = Answer::new("diff");
    let lists = [accepted(&files[0].name, &files[0].list()?)?, accepted(&files[1].name, &files[1].list()?)?];
    match [&files[0].form, &files[1].form] {
        [Form::Image(one), Form::Image(two)] => diff_images(&mut answer, files, [one, two])?,
        _ => answer.field("images", None::<Object>),
    }
    // Images have no marks.
    let marks = !files.iter().any(|f| matches!(f.form, Form::Image(_)));
    let (mut same, mut changed, mut removed, mut added) = (0u32, Vec::new(), Vec::new(), Vec::new());
    let [mut old, mut new] = lists.map(|list| list.into_iter().peekable());
    let key = |r: &Route| (r.addr, r.len);
    loop {
        let order = match (old.peek(), new.peek()) {
            (None, None) => break,
            (Some(_), None) => Ordering::Less,
            (None, Some(_)) => Ordering::Greater,
            (Some(one), Some(two)) => key(one).cmp(&key(two)),
        };
        let one = if order.is_le() { old.next() } else { None };
        let two = if order.is_ge() { new.next() } else { None };
        match (one, two) {
            (Some(one), Some(two)) if one.hop == two.hop && (!marks || one.mark == two.mark) => same += 1,
            (Some(one), Some(two)) => {
                let [to, from] =
                    [two, one].map(|r| r.to_string().split_once(' ').map_or(String::new(), |s| s.1.into()));
                let prefix = format!("{}/{}", one.addr, one.len);
                answer.line(format!("~ {prefix} {from} -> {to}"));
                changed.push(Object::new().with("prefix", prefix).with("from", from).with("to", to));
            }
            (Some(one), None) => {
                answer.line(format!("- {one}"));
                removed.push(one.to_string());
            }
            (None, Some(two)) => {
                answer.line(format!("+ {two}"));
                added.push(two.to_string());
            }
            (None, None) => {}
        }
    }
    let counts = [changed.len(), removed.len(), added.len()];
    answer.line(format!("same {same} changed {} removed {} added {}", counts[0], counts[1], counts[2]));
    answer.yes = counts == [0; 3];
    answer.field("same", same);
    answer.field("changed", changed);
    answer.field("removed", removed);
    answer.field("added", added);
    Ok(answer)
}

/// Places at which two arrays of one size differ.
fn places<T: PartialEq>(one: &[T], two: &[T]) -> Vec<usize> {
    one.iter().zip(two).enumerate().filter(|(_, (a, b))| a != b).map(|(k, _)| k).collect()
}

/// What two images use, and the words and hops that differ.
fn diff_images(answer: &mut Answer, files: [&File; 2], images: [&Image; 2]) -> Done<()> {
    let mut used = Vec::new();
    for (file, image) in files.into_iter().zip(images) {
        let built = image.test().map_err(|r| Stop::refused(&file.name, r, "image not well formed"))?;
        let (nodes, hops) = (many(built.nodes as u64, "node"), many(built.hops as u64, "hop"));
        answer.line(format!("{}: {nodes}, {hops} in use", file.name));
        used.push(Object::new().with("nodes", built.nodes).with("hops", built.hops));
    }
    let [one, two] = images;
    let sizes = one.words.len() == two.words.len() && one.hops.len() == two.hops.len();
    let (words, hops) = (places(&one.words, &two.words), places(&one.hops, &two.hops));
    if !sizes {
        answer.line("the arrays differ in size; the routes decide");
    } else if words.is_empty() && hops.is_empty() {
        answer.line("all bytes are equal");
    } else {
        let first_word = words.first().map_or(String::new(), |k| format!(", the first in node {}", k / 3));
        let first_hop =
            hops.first().map_or(String::new(), |&k| format!(", the first at {k}: {} and {}", one.hops[k], two.hops[k]));
        let (w, h) = (words.len(), hops.len());
        let all = (one.words.len(), one.hops.len());
        answer.line(format!("{w} of {} words differ{first_word}, {h} of {} hops differ{first_hop}", all.0, all.1));
    }
    let count = |places: &[usize]| sizes.then_some(places.len());
    let object = Object::new().with("used", used).with("words_differ", count(&words));
    answer.field("images", object.with("hops_differ", count(&hops)));
    Ok(())
}

/// A side of the comparison.
enum Side {
    Table(Table),
    Image(Image),
}

/// What a side answers: a hop, no route, or a refusal's number.
type Said = Result<Option<u16>, u8>;

impl Side {
    fn of(file: &File, lent: &Lent) -> Done<Side> {
        Ok(match &file.form {
            Form::List(list) => Side::Table(lent.table(&file.name, list)?),
            Form::Table(boxed) => Side::Table(boxed.table.clone()),
            Form::Image(image) => Side::Image(image.clone()),
        })
    }

    fn lookup(&self, addr: u32) -> Result<Found, Refusal> {
        match self {
            Side::Table(table) => table.lookup(addr),
            Side::Image(image) => image.lookup(addr),
        }
    }

    /// The bits of the address that an answer depends on. After 1, 2 or 3 cells they are the first p1, p2 or 32 bits, and
    /// after n nodes the first 4n, at most 32, whatever the arrays hold. The count is the lookup's own; a refusal has none,
    /// and the cells or nodes that its walk meets are counted.
    fn bits(&self, found: &Result<Found, Refusal>, addr: u32) -> u32 {
        match self {
            Side::Table(t) => match found.map_or_else(|_| cells(t, addr).len(), |f| f.reads.into()) {
                1 => t.geometry.p1,
                2 => t.geometry.p2,
                _ => 32,
            },
            Side::Image(i) => {
                let nodes = found.map_or_else(|_| nodes(i, addr).len(), |f| nodes_read(f).into());
                (4 * nodes as u32).min(32)
            }
        }
    }

    /// What it answers for an address and all up to the last of its block, and in how many lookups it was asked. Both ends
    /// of a refused block are asked.
    fn ask(&self, addr: u32) -> Done<(Said, u32, u64)> {
        let said = |found: &Result<Found, Refusal>| found.map(|f| f.hop).map_err(|r| r.number());
        let found = self.lookup(addr);
        let last = Prefix::of(addr, self.bits(&found, addr)).last();
        if found.is_err() {
            same_at_both_ends(said(&found), said(&self.lookup(last)))?;
            return Ok((said(&found), last, 2));
        }
        Ok((said(&found), last, 1))
    }
}

fn same_at_both_ends(one: Said, two: Said) -> Done<()> {
    if one != two {
        return Err(Stop::Disagreement("the ends of a refused block have different answers".into()));
    }
    Ok(())
}

fn shown(said: Said) -> String {
    said.map_or_else(|number| format!("refused {number}"), hop)
}

/// A range of addresses to which two sides answer differently, and what each answers throughout.
#[derive(Clone, Copy)]
struct Range {
    from: u32,
    to: u32,
    said: [Said; 2],
}

impl Range {
    fn line(&self) -> String {
        let [one, two] = self.said.map(shown);
        let [from, to] = [self.from, self.to].map(|a| Ipv4Addr::from(a).to_string());
        format!("{from:<15} {to:<15} {one:<12} {two}")
    }

    fn object(&self) -> Object {
        let [one, two] = self.said.map(|s| Object::new().with("hop", s.ok().flatten()).with("refused", s.err()));
        let [from, to] = [self.from, self.to].map(|a| Ipv4Addr::from(a).to_string());
        Object::new().with("from", from).with("to", to).with("left", one).with("right", two)
    }
}

/// The addresses, of all there are, for which two sides answer differently. The next address asked is the one after the
/// smaller of the two blocks.
pub fn answers(files: [&File; 2], lent: &Lent) -> Done<Answer> {
    let sides = [Side::of(files[0], lent)?, Side::of(files[1], lent)?];
    let mut ranges: Vec<Range> = Vec::new();
    let (mut lookups, mut addresses, mut differ) = (0, 0u64, 0u64);
    let mut next = Some(0u32);
    while let Some(from) = next {
        let (one, end1, asked1) = sides[0].ask(from)?;
        let (two, end2, asked2) = sides[1].ask(from)?;
        let to = end1.min(end2);
        let size = u64::from(to - from) + 1;
        lookups += asked1 + asked2;
        addresses += size;
        if one != two {
            differ += size;
            match ranges.last_mut() {
                Some(last) if last.to.checked_add(1) == Some(from) && last.said == [one, two] => last.to = to,
                _ => ranges.push(Range { from, to, said: [one, two] }),
            }
        }
        next = to.checked_add(1);
    }
    all_addresses(addresses)?;
    let mut answer = Answer::new("answers");
    for range in &ranges {
        answer.line(range.line());
    }
    answer.line(format!("addresses {addresses} differ {differ} lookups {lookups}"));
    answer.yes = differ == 0;
    answer.field("addresses", addresses);
    answer.field("differ", differ);
    answer.field("lookups", lookups);
    answer.field("ranges", ranges.iter().map(Range::object).collect::<Vec<_>>());
    Ok(answer)
}

fn all_addresses(addresses: u64) -> Done<()> {
    if addresses != 1 << 32 {
        return Err(Stop::Disagreement(format!("the blocks have {addresses} addresses, not 4294967296")));
    }
    Ok(())
}

#[cfg(test)]
mod tests {
    use super::*;

    #[test]
    fn a_refused_block_with_two_answers_disagrees() {
        assert_eq!(same_at_both_ends(Err(5), Err(5)), Ok(()));
        assert_eq!(same_at_both_ends(Err(5), Ok(None)).unwrap_err().status(), 3);
    }

    #[test]
    fn blocks_that_do_not_add_up_disagree() {
        assert_eq!(all_addresses(1 << 32), Ok(()));
        assert_eq!(all_addresses((1 << 32) - 256).unwrap_err().status(), 3);
    }
}
