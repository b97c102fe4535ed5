//! Hop records: where the packets of a hop go, and how many went there.

use crate::refusal::{answered, Refusal};

/// A record of a hop: hop h has `records[h - 1]`. No call changes port and mark. The counts are Counter32 (RFC 2578): after
/// 4,294,967,295 the next value is 0.
///
#[cfg_attr(feature = "alloc", doc = "```")]
#[cfg_attr(not(feature = "alloc"), doc = "```ignore")]
/// use ghatumri::{Geometry, HopRecord, Mark, Reason, Sent, Table};
///
/// let mut table = Table::new(Geometry::STANDARD, 64, 4, 4)?;
/// table.announce([10, 1, 2, 0], 24, 2, Mark::Behind)?;
/// let mut records = [HopRecord::new(101), HopRecord::new(102)];
/// let forwarded = table.forward(&mut records, [10, 1, 2, 5], 1500)?;
/// assert_eq!(forwarded.sent, Some(Sent { hop: 2, port: 102 }));
/// assert_eq!((records[1].packets, records[1].octets), (1, 1500));
/// // A lookup and a count are the same.
/// table.lookup([10, 1, 2, 5])?.count(&mut records, 40)?;
/// assert_eq!((records[1].packets, records[1].octets), (2, 1540));
/// records[1].up = 0;
/// assert_eq!(table.forward(&mut records, [10, 1, 2, 5], 40).unwrap_err().reason, Reason::Down);
/// # Ok::<(), ghatumri::Refusal>(())
/// ```
#[derive(Clone, Copy, PartialEq, Eq, Hash, Debug, Default)]
#[repr(C)]
pub struct HopRecord {
    pub port: u16,
    /// [`UP`](HopRecord::UP): up; every other number: down.
    pub up: u8,
    pub packets: u32,
    pub octets: u32,
}

impl HopRecord {
    /// The mark of a record that is up.
    pub const UP: u8 = 1;

    /// A record that is up, with nothing counted.
    #[must_use]
    pub const fn new(port: u16) -> HopRecord {
        HopRecord { port, up: HopRecord::UP, packets: 0, octets: 0 }
    }

    #[must_use]
    pub const fn is_up(&self) -> bool {
        self.up == HopRecord::UP
    }
}

/// The hop that a packet was counted for, and its port.
#[derive(Clone, Copy, PartialEq, Eq, Hash, Debug)]
pub struct Sent {
    pub hop: u16,
    pub port: u16,
}

/// What became of a packet.
#[derive(Clone, Copy, PartialEq, Eq, Hash, Debug)]
pub struct Forwarded {
    /// Its hop and port, or no route: then nothing was counted.
    pub sent: Option<Sent>,
    /// The reads of its lookup.
    pub reads: u8,
}

impl Forwarded {
    /// Reads the packed answer.
    pub(crate) fn new(answer: u64) -> Result<Forwarded, Refusal> {
        let answer = answered(answer)?;
        let (hop, port) = ((answer >> 16) as u16, (answer >> 32) as u16);
        Ok(Forwarded { sent: (hop != 0).then_some(Sent { hop, port }), reads: (answer >> 8) as u8 })
    }
}
