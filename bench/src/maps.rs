//! Bit maps: the library's many lookups, and a loop with no checks over the same arrays, by the same steps.

use ghatumri::raw;

pub struct Maps {
    input: Vec<u8>,
    bits: Vec<u8>,
    cells: Vec<u16>,
}

impl Maps {
    pub fn of(input: &[u8]) -> Maps {
        let ghatumri::Maps { bits, cells } = ghatumri::Maps::of(input).unwrap();
        Maps { input: input.to_vec(), bits, cells }
    }

    pub fn lookup_many(&self, addrs: &[u32], out: &mut [u32]) {
        let answer = raw::basic_lookup_many(&self.input, &self.bits, &self.cells, addrs, out);
        assert!(answer == 0, "gh_basic_lookup_many is refused: {answer:016x}");
    }

    /// Writes what the library writes.
    ///
    /// # Safety
    /// The maps were built from the input, and `out` is as long as `addrs`.
    #[inline(never)]
    pub unsafe fn hand_many(&self, addrs: &[u32], out: &mut [u32]) {
        for k in 0..addrs.len() {
            *out.get_unchecked_mut(k) = (self.walk(*addrs.get_unchecked(k)) as u32) << 16;
        }
    }

    #[inline(always)]
    unsafe fn record(&self, k: usize) -> u64 {
        u64::from_be_bytes(*(self.input.as_ptr().add(8 * k) as *const [u8; 8]))
    }

    /// How many records do not come after the first `len` bits of the address.
    #[inline(always)]
    unsafe fn records_to(&self, addr: u32, len: u32) -> usize {
        let mask = if len == 0 { 0 } else { u32::MAX << (32 - len) };
        let key = ((addr & mask) as u64) << 8 | len as u64;
        let (mut low, mut high) = (0, self.input.len() / 8);
        while low < high {
            let mid = low + (high - low) / 2;
            if self.record(mid) >> 24 <= key {
                low = mid + 1;
            } else {
                high = mid;
            }
        }
        low
    }

    #[inline(always)]
    unsafe fn walk(&self, addr: u32) -> u16 {
        let mut m = 33;
        while m > 17 {
            let k = self.records_to(addr, m - 1);
            if k == 0 {
                break;
            }
            let r = self.record(k - 1);
            let len = (r >> 24) as u32 & 0xFF;
            let same = ((r >> 32) as u32 ^ addr).leading_zeros();
            if len <= same {
                if len > 16 {
                    return r as u16;
                }
                break;
            }
            m = same + 1;
        }
        for l in (0..17).rev() {
            let at = (1usize << l) - 1 + ((addr as u64) >> (32 - l)) as usize;
            if *self.bits.get_unchecked(at / 8) >> (at % 8) & 1 == 1 {
                return *self.cells.get_unchecked(at);
            }
        }
        0
    }
}
