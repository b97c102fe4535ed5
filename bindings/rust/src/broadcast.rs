//! Directed broadcast.

use crate::raw;
use crate::refusal::{answered, Refusal};
use core::net::Ipv4Addr;

/// Which attached networks have a directed broadcast. Each port names its rule.
#[derive(Clone, Copy, PartialEq, Eq, Hash, Debug)]
pub enum Rule {
    /// Those of 0 to 31 bits: version 1.
    Older = 1,
    /// Those of 0 to 30 bits: version 2. A link of 31 bits has two hosts and no broadcast (RFC 3021).
    Newer = 2,
}

/// Whether an address is a directed broadcast: the longest route of the input that covers it is attached and has a length
/// of the rule, and the address is the highest one of that route.
///
/// ```
/// use ghatumri::{is_broadcast, Mark, Route, Rule};
///
/// let link = Route::new([192, 0, 2, 0], 31, 5, Mark::Attached).record();
/// assert!(is_broadcast(Rule::Older, &link, [192, 0, 2, 1])?);
/// assert!(!is_broadcast(Rule::Newer, &link, [192, 0, 2, 1])?);
/// # Ok::<(), ghatumri::Refusal>(())
/// ```
///
/// # Errors
///
/// The input's: 10 for its length; record by record 3, 4, 10; 6. A [`Rule`] never meets 23.
pub fn is_broadcast(rule: Rule, input: &[u8], addr: impl Into<Ipv4Addr>) -> Result<bool, Refusal> {
    let answer = answered(raw::broadcast(rule as u32, input, u32::from(addr.into())))?;
    Ok(answer >> 8 & 1 == 1)
}
