//! Request e of document 02, in plain form: the withdrawn and reachability fields of RFC 4271, "a length byte, then only
//! as many bytes as the length needs, trailing bits of no meaning".

use crate::gen::Rng;
use crate::plain::{self, check_input, cleared, hop_ok, number, refused, Lent};

/// A prefix of a field: address, without the bits of no meaning, and length.
pub type Net = (u32, u8);

/// The bytes of a prefix of this length: "as many bytes as the length needs".
fn bytes_for(len: u8) -> usize {
    (0..4).filter(|byte| len > 8 * byte).count()
}

/// The entries of a field. Nothing if it has "a length over 32" or "ends inside an entry".
pub fn entries(mut field: &[u8]) -> Option<Vec<Net>> {
    let mut nets = Vec::new();
    while let Some((&len, rest)) = field.split_first() {
        if len > 32 || rest.len() < bytes_for(len) {
            return None;
        }
        let (bytes, rest) = rest.split_at(bytes_for(len));
        let addr = bytes.iter().chain(&[0; 4]).take(4).fold(0, |addr, &byte| addr << 8 | byte as u32);
        nets.push((cleared(addr, len as u32), len));
        field = rest;
    }
    Some(nets)
}

/// The entry of a prefix.
pub fn entry(addr: u32, len: u8) -> Vec<u8> {
    let mut entry = vec![len];
    entry.extend(&addr.to_be_bytes()[..bytes_for(len)]);
    entry
}

/// A table that a message is read into. Each call answers as the boundary's does.
pub trait Table {
    fn report(&self) -> u64;
    fn withdraw(&mut self, addr: u32, len: u32) -> u64;
    fn announce(&mut self, addr: u32, len: u32, hop: u32, mark: u32) -> u64;
}

/// A table of one party with its route count.
struct One<'a> {
    p1: u32,
    p2: u32,
    count: u32,
    lent: &'a mut Lent,
}

impl Table for One<'_> {
    fn report(&self) -> u64 {
        plain::report(self.p1, self.p2, self.count, self.lent)
    }

    fn withdraw(&mut self, addr: u32, len: u32) -> u64 {
        let answer = plain::withdraw(self.p1, self.p2, self.count, self.lent, addr, len);
        self.keep(answer)
    }

    fn announce(&mut self, addr: u32, len: u32, hop: u32, mark: u32) -> u64 {
        let answer = plain::announce(self.p1, self.p2, self.count, self.lent, addr, len, hop, mark);
        self.keep(answer)
    }
}

impl One<'_> {
    fn keep(&mut self, answer: u64) -> u64 {
        if number(answer) == 0 {
            self.count = routes_after(answer) as u32;
        }
        answer
    }
}

/// Bits 16 to 31 of an accepted change, and of a message's stop.
fn routes_after(answer: u64) -> u64 {
    answer >> 16 & 0xFFFF
}

/// "Refusals: 1, 2 and the table's 5 first; 17, a length over 32 or a field that ends inside an entry; 4 for the hop; then
/// 6, 7, 8 as they arise." Bits 16 to 31 are the routes after the call and bits 32 to 63 the entries dealt with, also
/// if it stopped; bit 8 is then set.
pub fn update_by(table: &mut impl Table, withdrawn: &[u8], reach: &[u8], hop: u32) -> u64 {
    let answer = table.report();
    if number(answer) != 0 {
        return answer;
    }
    let (Some(goes), Some(comes)) = (entries(withdrawn), entries(reach)) else { return refused(17) };
    if !hop_ok(hop) {
        return refused(4);
    }
    let mut routes = routes_after(answer);
    for &(addr, len) in &goes {
        let answer = table.withdraw(addr, len as u32);
        match number(answer) {
            0 => routes = routes_after(answer),
            // "a withdrawal of an absent route is passed over"
            n => assert_eq!(n, 9),
        }
    }
    for (k, &(addr, len)) in comes.iter().enumerate() {
        // "Announced routes carry mark 0."
        let answer = table.announce(addr, len as u32, hop, 0);
        if number(answer) != 0 {
            assert!((6..=8).contains(&number(answer)));
            return answer | 1 << 8 | routes << 16 | ((goes.len() + k) as u64) << 32;
        }
        routes = routes_after(answer);
    }
    routes << 16 | ((goes.len() + comes.len()) as u64) << 32
}

/// A message read into a table of one party.
pub fn update(p1: u32, p2: u32, count: u32, lent: &mut Lent, withdrawn: &[u8], reach: &[u8], hop: u32) -> u64 {
    update_by(&mut One { p1, p2, count, lent }, withdrawn, reach, hop)
}

/// "A writer puts a list's prefixes out as one reachability field and touches no byte after it"; bits 32 to 63 are the
/// bytes written. "The writer gives the record input's, then 18 when its buffer is too short."
pub fn write_field(input: &[u8], out: &mut [u8]) -> u64 {
    let routes = match check_input(input) {
        Ok(routes) => routes,
        Err(answer) => return answer,
    };
    let field: Vec<u8> = routes.iter().flat_map(|r| entry(r.addr, r.len)).collect();
    if out.len() < field.len() {
        return refused(18);
    }
    out[..field.len()].copy_from_slice(&field);
    (field.len() as u64) << 32
}

// ---------------------------------------------------------------------------------------------------- fields

/// A field of these prefixes, with bits of no meaning set now and then.
pub fn field_of(rng: &mut Rng, nets: &[Net]) -> Vec<u8> {
    let mut field = Vec::new();
    for &(addr, len) in nets {
        let loose = if rng.one_in(3) { rng.word() } else { 0 };
        let after = (u32::MAX as u64 >> len) as u32;
        field.extend(entry(addr | loose & after, len));
    }
    field
}

/// Harm to a field: a length over 32, an end inside an entry, other bytes. Now and then it is still a field.
pub fn damage(rng: &mut Rng, field: &mut Vec<u8>) {
    match rng.below(6) {
        0 => field.push(*rng.pick(&[33, 34, 64, 128, 255])),
        1 => field.push(rng.range(1, 32) as u8),
        2 => {
            field.pop();
        }
        3 => field.truncate(rng.below(field.len() + 1)),
        4 => field.insert(0, *rng.pick(&[1, 8, 32, 33, 255])),
        _ => {
            for _ in 0..rng.range(1, 12) {
                field.push(rng.word() as u8 % 48);
            }
        }
    }
}
