//! Routes: as records of 8 bytes, and as text.

use crate::raw;
use crate::refusal::{answered, Refusal};
use core::fmt;
use core::net::Ipv4Addr;
use core::str::FromStr;

/// Where a route's network is.
#[derive(Clone, Copy, PartialEq, Eq, PartialOrd, Ord, Hash, Default, Debug)]
pub enum Mark {
    /// Behind a neighbour: a record has 0 for it.
    #[default]
    Behind,
    /// On a port of our own: 1.
    Attached,
}

/// A route: a prefix, a hop and a mark.
///
/// It has a text, which is also how it is printed, and a record of 8 bytes:
///
/// ```
/// use ghatumri::{Mark, Reason, Route};
///
/// let route: Route = "10.1.2.128/25 57 attached".parse()?;
/// assert_eq!(route, Route::new([10, 1, 2, 128], 25, 57, Mark::Attached));
/// assert_eq!(route.record(), [10, 1, 2, 128, 25, 1, 0, 57]);
/// assert_eq!(Route::try_from(route.record())?, route);
/// assert_eq!(route.to_string(), "10.1.2.128/25 57 attached");
/// assert_eq!(Route::new([10, 1, 2, 3], 24, 57, Mark::Behind).check().unwrap_err().reason, Reason::Prefix);
/// # Ok::<(), Box<dyn std::error::Error>>(())
/// ```
#[derive(Clone, Copy, PartialEq, Eq, PartialOrd, Ord, Hash, Debug)]
pub struct Route {
    pub addr: Ipv4Addr,
    pub len: u8,
    pub hop: u16,
    pub mark: Mark,
}

impl Route {
    /// A route of these, which may be none: see [`Route::check`].
    #[must_use]
    pub fn new(addr: impl Into<Ipv4Addr>, len: u8, hop: u16, mark: Mark) -> Route {
        Route { addr: addr.into(), len, hop, mark }
    }

    /// Its record of 8 bytes: address, length, mark, hop. A record input is records end to end, strictly ascending by
    /// address and then length.
    #[must_use]
    pub fn record(&self) -> [u8; 8] {
        let [a, b, c, d] = self.addr.octets();
        let [h, l] = self.hop.to_be_bytes();
        [a, b, c, d, self.len, self.mark as u8, h, l]
    }

    /// Whether it is a route by itself.
    ///
    /// # Errors
    ///
    /// 3, 4; with no index.
    pub fn check(&self) -> Result<(), Refusal> {
        match answered(raw::route(&self.record(), 0)) {
            Ok(_) => Ok(()),
            Err(Refusal { reason, .. }) => Err(Refusal { reason, index: None }),
        }
    }

    /// The route of a record that is good.
    pub(crate) fn of(record: &[u8; 8]) -> Route {
        let &[a, b, c, d, len, mark, h, l] = record;
        let mark = if mark == 1 { Mark::Attached } else { Mark::Behind };
        Route { addr: Ipv4Addr::new(a, b, c, d), len, hop: u16::from_be_bytes([h, l]), mark }
    }
}

impl From<Route> for [u8; 8] {
    fn from(route: Route) -> [u8; 8] {
        route.record()
    }
}

/// Reads a record by itself. Refused as an input of this one record is: 3, 4, 10 for the mark, at index 0.
impl TryFrom<[u8; 8]> for Route {
    type Error = Refusal;

    fn try_from(record: [u8; 8]) -> Result<Route, Refusal> {
        answered(raw::route(&record, 0))?;
        Ok(Route::of(&record))
    }
}

/// The line that `scripts/show` prints: `10.1.2.0/24 44`, and ` attached` after it where it is.
impl fmt::Display for Route {
    fn fmt(&self, f: &mut fmt::Formatter) -> fmt::Result {
        write!(f, "{}/{} {}", self.addr, self.len, self.hop)?;
        match self.mark {
            Mark::Behind => Ok(()),
            Mark::Attached => f.write_str(" attached"),
        }
    }
}

/// Why a text is no route.
#[derive(Clone, Copy, PartialEq, Eq, Hash, Debug)]
pub enum ParseRouteError {
    /// It does not read as `10.1.2.0/24 44` or `10.1.2.0/24 44 attached`: one space between the parts, numbers in digits
    /// with no zero in front.
    Form,
    /// It reads so, and its numbers make no route: 3, 4.
    Refused(Refusal),
}

impl fmt::Display for ParseRouteError {
    fn fmt(&self, f: &mut fmt::Formatter) -> fmt::Result {
        match self {
            ParseRouteError::Form => f.write_str("not of the form 10.1.2.0/24 44, with ` attached` or without"),
            ParseRouteError::Refused(refusal) => refusal.fmt(f),
        }
    }
}

impl core::error::Error for ParseRouteError {}

/// Reads what [`Route`]'s `Display` writes, and nothing else. No number is cut: a length of 280 is refused with 3, and a
/// hop of 65,580 with 4.
impl FromStr for Route {
    type Err = ParseRouteError;

    fn from_str(text: &str) -> Result<Route, ParseRouteError> {
        let (rest, mark) = match text.strip_suffix(" attached") {
            Some(rest) => (rest, Mark::Attached),
            None => (text, Mark::Behind),
        };
        // A number that does not fit becomes the largest that does, which is over its limit too.
        let read = || {
            let (prefix, hop) = rest.split_once(' ')?;
            let (addr, len) = prefix.split_once('/')?;
            let len = u8::try_from(decimal(len)?).unwrap_or(u8::MAX);
            let hop = u16::try_from(decimal(hop)?).unwrap_or(u16::MAX);
            Some(Route { addr: addr.parse().ok()?, len, hop, mark })
        };
        let route = read().ok_or(ParseRouteError::Form)?;
        route.check().map_err(ParseRouteError::Refused)?;
        Ok(route)
    }
}

/// A number in digits, with no zero in front of others. One over 32 bits is told as the largest of 32.
fn decimal(text: &str) -> Option<u32> {
    let digits = text.as_bytes();
    if digits.is_empty() || !digits.iter().all(u8::is_ascii_digit) || (digits[0] == b'0' && digits.len() > 1) {
        return None;
    }
    Some(digits.iter().fold(0, |n: u32, d| n.saturating_mul(10).saturating_add((d - b'0').into())))
}
