//! Harm to the arrays of a table, at every kind of place: single words, and changes that are wrong although owners
//! and names agree. Beside it the one change that keeps a table sound: other chunk numbers.

use differential::gen::{damage_count, Rng};
use differential::plain::{size2, size3, Lent};

const LEAF: u16 = 0x8000;

/// A table whose arrays have the right sizes.
pub struct Harm<'a> {
    pub p1: u32,
    pub p2: u32,
    pub count: &'a mut u32,
    pub t: &'a mut Lent,
}

impl Harm<'_> {
    fn size2(&self) -> usize {
        size2(self.p1, self.p2)
    }

    fn size3(&self) -> usize {
        size3(self.p2)
    }

    /// One change at random. Some fit no table at hand and change nothing; some leave it sound.
    pub fn one(&mut self, rng: &mut Rng) {
        match rng.below(33) {
            0 | 1 => self.first_cell(rng),
            2 | 3 => self.second_cell(rng),
            4 | 5 => self.third_cell(rng),
            6 => self.owner(rng, true),
            7 => self.owner(rng, false),
            8 => self.stray_byte(rng),
            9 => self.record_byte(rng),
            10 => self.record_hop(rng),
            11 => self.records_swapped(rng),
            12 => self.record_lost(rng),
            13 => self.count_changed(rng),
            14 | 15 => self.open_second(rng),
            16 | 17 => self.open_third(rng),
            18 | 19 => self.close_second(rng),
            20 | 21 => self.close_third(rng),
            22 => self.names_swapped(rng),
            23 => self.contents_swapped(rng),
            24 => self.named_twice(rng),
            25 | 26 => self.free_chunk(rng),
            27 => self.leaf_off(rng),
            28 => self.copied(rng),
            29..=31 => damage_count(rng, self.p1, self.p2, self.t),
            _ => self.owner_and_name(rng),
        }
    }

    /// A value for a cell that now holds `old`, in an array where `near` is another cell's value.
    fn value(&self, rng: &mut Rng, old: u16, near: u16, chunks: usize) -> u16 {
        match rng.below(9) {
            0 => 0,
            1 => LEAF,
            2 => LEAF | rng.range(0, 9) as u16,
            3 => rng.range(0, chunks + 1) as u16,
            4 => old ^ 1 << rng.below(16),
            5 => near,
            6 => *rng.pick(&[0x7FFF, 0xFFFF, 4096, 4097]),
            7 => old ^ LEAF,
            _ => rng.word() as u16,
        }
    }

    /// A place of the first cells: one that names a chunk, one beside it, the ends, or any.
    fn first_place(&self, rng: &mut Rng) -> usize {
        let n = self.t.first.len();
        let named: Vec<usize> = self.t.own2.iter().filter(|&&o| o != 0).map(|&o| o as usize - 1).collect();
        match rng.below(5) {
            0 | 1 if !named.is_empty() => *rng.pick(&named) % n,
            2 if !named.is_empty() => (*rng.pick(&named) + n + rng.range(0, 2) - 1) % n,
            3 => *rng.pick(&[0, n - 1]),
            _ => rng.below(n),
        }
    }

    /// A place of a pool: first or last of a chunk, a cell that names one, or any; in a chunk in use or a free one.
    fn pool_place(&self, rng: &mut Rng, own: &[u32], cells: &[u16], size: usize) -> Option<usize> {
        if own.is_empty() {
            return None;
        }
        let in_use: Vec<usize> = (0..own.len()).filter(|&c| own[c] != 0).collect();
        let c = if in_use.is_empty() || rng.one_in(4) { rng.below(own.len()) } else { *rng.pick(&in_use) };
        let naming: Vec<usize> = (0..size).filter(|&k| cells[c * size + k] & LEAF == 0).collect();
        let k = match rng.below(5) {
            0 => 0,
            1 => size - 1,
            2 if !naming.is_empty() => *rng.pick(&naming),
            _ => rng.below(size),
        };
        Some(c * size + k)
    }

    fn first_cell(&mut self, rng: &mut Rng) {
        let k = self.first_place(rng);
        let near = self.t.first[self.first_place(rng)];
        self.t.first[k] = self.value(rng, self.t.first[k], near, self.t.own2.len());
    }

    fn second_cell(&mut self, rng: &mut Rng) {
        if let Some(k) = self.pool_place(rng, &self.t.own2, &self.t.second, self.size2()) {
            let near = self.t.second[k ^ 1];
            self.t.second[k] = self.value(rng, self.t.second[k], near, self.t.own3.len());
        }
    }

    fn third_cell(&mut self, rng: &mut Rng) {
        if let Some(k) = self.pool_place(rng, &self.t.own3, &self.t.third, self.size3()) {
            let near = self.t.third[k ^ 1];
            self.t.third[k] = self.value(rng, self.t.third[k], near, 0);
        }
    }

    fn owner(&mut self, rng: &mut Rng, second: bool) {
        let named = if second { self.t.first.len() } else { self.t.second.len() };
        let own = if second { &mut self.t.own2 } else { &mut self.t.own3 };
        if own.is_empty() {
            return;
        }
        let c = rng.below(own.len());
        let other = own[rng.below(own.len())];
        own[c] = match rng.below(7) {
            0 => 0,
            1 => own[c].wrapping_add(1),
            2 => own[c].wrapping_sub(1),
            3 => other,
            4 => rng.below(named + 2) as u32,
            5 => named as u32 + 1,
            _ => *rng.pick(&[u32::MAX, 1 << 31, 1]),
        };
    }

    /// A byte past the count: the first, the last, or any.
    fn stray_byte(&mut self, rng: &mut Rng) {
        let from = 8 * *self.count as usize;
        if from < self.t.list.len() {
            let last = self.t.list.len() - 1;
            let k = match rng.below(3) {
                0 => from,
                1 => last,
                _ => rng.range(from, last),
            };
            self.t.list[k] = rng.range(1, 255) as u8;
        }
    }

    /// A byte of a standing record.
    fn record_byte(&mut self, rng: &mut Rng) {
        let to = self.t.list.len().min(8 * *self.count as usize);
        if to > 0 {
            let k = rng.below(to);
            self.t.list[k] ^= 1 << rng.below(8);
        }
    }

    /// Another good hop in a record, while the cells keep the old one; or a bad hop.
    fn record_hop(&mut self, rng: &mut Rng) {
        let n = self.t.room().min(*self.count as usize);
        if n > 0 {
            let k = 8 * rng.below(n) + 6;
            let hop = *rng.pick(&[1u16, 2, 3, 32_767, 0, 32_768]);
            self.t.list[k..k + 2].copy_from_slice(&hop.to_be_bytes());
        }
    }

    fn records_swapped(&mut self, rng: &mut Rng) {
        let n = self.t.room().min(*self.count as usize);
        if n > 1 {
            let k = 8 * rng.below(n - 1);
            self.t.list[k..k + 16].rotate_left(8);
        }
    }

    /// A record leaves the list in good order, and the cells know nothing of it.
    fn record_lost(&mut self, rng: &mut Rng) {
        let n = self.t.room().min(*self.count as usize);
        if n > 0 {
            let k = 8 * rng.below(n);
            let end = 8 * n;
            self.t.list.copy_within(k + 8..end, k);
            self.t.list[end - 8..end].fill(0);
            *self.count -= 1;
        }
    }

    fn count_changed(&mut self, rng: &mut Rng) {
        let room = self.t.room() as u32;
        *self.count = match rng.below(7) {
            0 => self.count.saturating_sub(1),
            1 => self.count.wrapping_add(1),
            2 => room,
            3 => room + 1,
            4 => self.count.wrapping_add(65_536),
            5 => *rng.pick(&[u32::MAX, 1 << 31, 1 << 29, 4096, 4097, 0]),
            _ => rng.below(room as usize + 3) as u32,
        };
    }

    /// A chunk that no route needs is opened, with name, owner and right hops, or with one of the three left out.
    fn open_second(&mut self, rng: &mut Rng) {
        let k = self.first_place(rng);
        let size = self.size2();
        let out = left_out(rng);
        if let (Some(c), true) = (free(rng, &self.t.own2), self.t.first[k] & LEAF != 0) {
            let leaf = self.t.first[k];
            if out != Some(0) {
                self.t.second[c * size..(c + 1) * size].fill(leaf);
            }
            if out != Some(1) {
                self.t.own2[c] = k as u32 + 1;
            }
            if out != Some(2) {
                self.t.first[k] = c as u16 + 1;
            }
        }
    }

    fn open_third(&mut self, rng: &mut Rng) {
        let size = self.size3();
        let out = left_out(rng);
        let Some(k) = self.pool_place(rng, &self.t.own2, &self.t.second, self.size2()) else { return };
        if let (Some(c), true) = (free(rng, &self.t.own3), self.t.second[k] & LEAF != 0) {
            let leaf = self.t.second[k];
            if out != Some(0) {
                self.t.third[c * size..(c + 1) * size].fill(leaf);
            }
            if out != Some(1) {
                self.t.own3[c] = k as u32 + 1;
            }
            if out != Some(2) {
                self.t.second[k] = c as u16 + 1;
            }
        }
    }

    /// A chunk that routes need is closed, and its cell gets a leaf, or another chunk's name; or one part is left out.
    fn close_second(&mut self, rng: &mut Rng) {
        let size = self.size2();
        let out = left_out(rng);
        let Some(c) = in_use(rng, &self.t.own2) else { return };
        let other = in_use(rng, &self.t.own2).unwrap_or(c);
        let k = self.t.own2[c] as usize - 1;
        if k >= self.t.first.len() {
            return;
        }
        let leaf = self.t.second[c * size + rng.below(size)] | LEAF;
        for d in 0..self.t.own3.len() {
            let o = self.t.own3[d] as usize;
            if o != 0 && (o - 1) / size == c {
                let size3 = self.size3();
                self.t.third[d * size3..(d + 1) * size3].fill(0);
                self.t.own3[d] = 0;
            }
        }
        if out != Some(0) {
            self.t.second[c * size..(c + 1) * size].fill(0);
        }
        if out != Some(1) {
            self.t.own2[c] = 0;
        }
        if out != Some(2) {
            self.t.first[k] = if rng.one_in(3) { other as u16 + 1 } else { leaf };
        }
    }

    fn close_third(&mut self, rng: &mut Rng) {
        let size = self.size3();
        let out = left_out(rng);
        let Some(c) = in_use(rng, &self.t.own3) else { return };
        let other = in_use(rng, &self.t.own3).unwrap_or(c);
        let k = self.t.own3[c] as usize - 1;
        if k >= self.t.second.len() {
            return;
        }
        let leaf = self.t.third[c * size + rng.below(size)] | LEAF;
        if out != Some(0) {
            self.t.third[c * size..(c + 1) * size].fill(0);
        }
        if out != Some(1) {
            self.t.own3[c] = 0;
        }
        if out != Some(2) {
            self.t.second[k] = if rng.one_in(3) { other as u16 + 1 } else { leaf };
        }
    }

    /// A free chunk becomes a copy of one in use, owner and all: the same cell would name both.
    fn copied(&mut self, rng: &mut Rng) {
        let second = rng.one_in(2);
        let size = if second { self.size2() } else { self.size3() };
        let (own, cells) =
            if second { (&mut self.t.own2, &mut self.t.second) } else { (&mut self.t.own3, &mut self.t.third) };
        if let (Some(from), Some(to)) = (in_use(rng, own), free(rng, own)) {
            cells.copy_within(from * size..(from + 1) * size, to * size);
            own[to] = own[from];
        }
    }

    /// Two cells that name chunks exchange the names, with or without the owners; the contents stay.
    fn names_swapped(&mut self, rng: &mut Rng) {
        let second = rng.one_in(2);
        let (own, cells) =
            if second { (&mut self.t.own2, &mut self.t.first) } else { (&mut self.t.own3, &mut self.t.second) };
        if let (Some(a), Some(b)) = (in_use(rng, own), in_use(rng, own)) {
            let (ka, kb) = (own[a] as usize - 1, own[b] as usize - 1);
            if ka < cells.len() && kb < cells.len() {
                cells.swap(ka, kb);
                if rng.one_in(2) {
                    own.swap(a, b);
                }
            }
        }
    }

    /// Two chunks exchange their contents and nothing else.
    fn contents_swapped(&mut self, rng: &mut Rng) {
        let second = rng.one_in(2);
        let size = if second { self.size2() } else { self.size3() };
        let (own, cells) = if second { (&self.t.own2, &mut self.t.second) } else { (&self.t.own3, &mut self.t.third) };
        if let Some(a) = in_use(rng, own) {
            let b = rng.below(own.len());
            for k in 0..size {
                cells.swap(a * size + k, b * size + k);
            }
        }
    }

    /// A second cell names a chunk that is in use already.
    fn named_twice(&mut self, rng: &mut Rng) {
        if rng.one_in(2) {
            if let Some(c) = in_use(rng, &self.t.own2) {
                let k = self.first_place(rng);
                self.t.first[k] = c as u16 + 1;
            }
        } else if let Some(c) = in_use(rng, &self.t.own3) {
            if let Some(k) = self.pool_place(rng, &self.t.own2, &self.t.second, self.size2()) {
                self.t.second[k] = c as u16 + 1;
            }
        }
    }

    /// A free chunk that is not clean: an owner, or a cell that is not 0, at the ends or between.
    fn free_chunk(&mut self, rng: &mut Rng) {
        let second = rng.one_in(2);
        let size = if second { self.size2() } else { self.size3() };
        let (own, cells) =
            if second { (&mut self.t.own2, &mut self.t.second) } else { (&mut self.t.own3, &mut self.t.third) };
        if let Some(c) = free(rng, own) {
            match rng.below(4) {
                0 => own[c] = rng.range(1, 5000) as u32,
                1 => cells[c * size] = LEAF,
                2 => cells[c * size + size - 1] = 1,
                _ => cells[c * size + rng.below(size)] = rng.word() as u16 | 1,
            }
        }
    }

    /// The top bit of a leaf is lost, so that a hop reads as a chunk number.
    fn leaf_off(&mut self, rng: &mut Rng) {
        match rng.below(3) {
            0 => {
                let k = self.first_place(rng);
                self.t.first[k] &= !LEAF;
            }
            1 => {
                if let Some(k) = self.pool_place(rng, &self.t.own2, &self.t.second, self.size2()) {
                    self.t.second[k] &= !LEAF;
                }
            }
            _ => {
                if let Some(k) = self.pool_place(rng, &self.t.own3, &self.t.third, self.size3()) {
                    self.t.third[k] &= !LEAF;
                }
            }
        }
    }

    /// A chunk in use moves under another cell: owner and names agree, the routes do not.
    fn owner_and_name(&mut self, rng: &mut Rng) {
        if rng.one_in(2) {
            if let Some(c) = in_use(rng, &self.t.own2) {
                let (from, to) = (self.t.own2[c] as usize - 1, self.first_place(rng));
                if from < self.t.first.len() {
                    self.t.first.swap(from, to);
                    self.t.own2[c] = to as u32 + 1;
                }
            }
        } else if let Some(c) = in_use(rng, &self.t.own3) {
            let from = self.t.own3[c] as usize - 1;
            if let Some(to) = self.pool_place(rng, &self.t.own2, &self.t.second, self.size2()) {
                if from < self.t.second.len() {
                    self.t.second.swap(from, to);
                    self.t.own3[c] = to as u32 + 1;
                }
            }
        }
    }
}

/// Which of the three parts of opening or closing a chunk is left out: cells (0), owner (1), name (2), mostly none.
fn left_out(rng: &mut Rng) -> Option<usize> {
    rng.one_in(2).then(|| rng.below(3))
}

fn free(rng: &mut Rng, own: &[u32]) -> Option<usize> {
    let free: Vec<usize> = (0..own.len()).filter(|&c| own[c] == 0).collect();
    (!free.is_empty()).then(|| *rng.pick(&free))
}

fn in_use(rng: &mut Rng, own: &[u32]) -> Option<usize> {
    let in_use: Vec<usize> = (0..own.len()).filter(|&c| own[c] != 0).collect();
    (!in_use.is_empty()).then(|| *rng.pick(&in_use))
}

/// Two chunks of a pool exchange their numbers, with all that depends on them. A sound table stays sound. Answers
/// whether anything changed.
pub fn renumber(rng: &mut Rng, p1: u32, p2: u32, t: &mut Lent) -> bool {
    if rng.one_in(2) {
        let Some(a) = in_use(rng, &t.own2) else { return false };
        let b = rng.below(t.own2.len());
        let size = size2(p1, p2);
        t.own2.swap(a, b);
        for k in 0..size {
            t.second.swap(a * size + k, b * size + k);
            t.long2.swap(a * size + k, b * size + k);
        }
        for c in [a, b] {
            if t.own2[c] != 0 {
                t.first[t.own2[c] as usize - 1] = c as u16 + 1;
            }
        }
        for o in t.own3.iter_mut().filter(|o| **o != 0) {
            let place = *o as usize - 1;
            let c = place / size;
            let c = if c == a {
                b
            } else if c == b {
                a
            } else {
                c
            };
            *o = (c * size + place % size) as u32 + 1;
        }
        a != b
    } else {
        let Some(a) = in_use(rng, &t.own3) else { return false };
        let b = rng.below(t.own3.len());
        let size = size3(p2);
        t.own3.swap(a, b);
        for k in 0..size {
            t.third.swap(a * size + k, b * size + k);
        }
        for c in [a, b] {
            if t.own3[c] != 0 {
                t.second[t.own3[c] as usize - 1] = c as u16 + 1;
            }
        }
        a != b
    }
}
