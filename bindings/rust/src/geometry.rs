//! The levels of a table, and the sizes that follow from them.

/// The most records of an input, and of room in a list.
pub const MOST_RECORDS: usize = 4096;

/// The most chunks of a pool.
pub const MOST_CHUNKS: usize = 4096;

/// The two levels of a table: `p1` is 12 to 16, `p2` is 22 to 26, `p2 - p1` at most 10.
///
/// Buffers to lend are sized with it:
///
/// ```
/// use ghatumri::Geometry;
///
/// const SMALL: Geometry = Geometry::SMALL;
/// static mut FIRST: [u16; SMALL.first_cells()] = [0; SMALL.first_cells()];
/// static mut SECOND: [u16; 4 * SMALL.second_chunk()] = [0; 4 * SMALL.second_chunk()];
/// ```
#[derive(Clone, Copy, PartialEq, Eq, Hash, Debug)]
pub struct Geometry {
    pub p1: u32,
    pub p2: u32,
}

impl Geometry {
    /// (16, 24).
    pub const STANDARD: Geometry = Geometry { p1: 16, p2: 24 };
    /// (12, 22).
    pub const SMALL: Geometry = Geometry { p1: 12, p2: 22 };

    /// Whether it is inside the limits. Every table call refuses another one with 1.
    #[must_use]
    pub const fn within_limits(self) -> bool {
        12 <= self.p1 && self.p1 <= 16 && 22 <= self.p2 && self.p2 <= 26 && self.p2 - self.p1 <= 10
    }

    /// First cells: 2^p1. Outside the limits, 0.
    #[must_use]
    pub const fn first_cells(self) -> usize {
        self.cells(self.p1)
    }

    /// Cells of a chunk of the second pool: 2^(p2 - p1). Outside the limits, 0.
    #[must_use]
    pub const fn second_chunk(self) -> usize {
        self.cells(self.p2.wrapping_sub(self.p1))
    }

    /// Cells of a chunk of the third pool: 2^(32 - p2). Outside the limits, 0.
    #[must_use]
    pub const fn third_chunk(self) -> usize {
        self.cells(32_u32.wrapping_sub(self.p2))
    }

    /// 2^bits inside the limits.
    const fn cells(self, bits: u32) -> usize {
        if self.within_limits() {
            1 << bits
        } else {
            0
        }
    }
}
