//! Patterns: reading one.

use crate::lent::{self, PatternReply};
use crate::Refusal;

/// What a pattern has, so far as the search size goes by it.
#[derive(Clone, Copy, PartialEq, Eq, Hash, Debug)]
#[non_exhaustive]
pub struct Counts {
    /// How many commands as they are written, 1 to 63.
    pub commands: u32,
    /// How deep keep commands stand in each other, 0 to 3.
    pub keeps: u32,
    /// The unfolded count, 1 to 63: how many commands where each counts as often as it may come.
    pub unfolded: u32,
}

/// Reads a pattern: a caller can test one before there is a record. Refusals: 8 to 14, 24, 25.
///
/// ```
/// use chains::{read_pattern, Refusal};
///
/// // A boat entered, and then that boat finished.
/// let counts = read_pattern(&[0x27, 1, 0, 0x22, 4, 0])?;
/// assert_eq!((counts.commands, counts.keeps), (2, 1));
/// // A boat entered, and then another of its class finished: a lent sail?
/// let counts = read_pattern(&[0x27, 1, 0, 0x28, 4, 0])?;
/// assert_eq!((counts.commands, counts.keeps), (2, 1));
/// // Two to five laps: two commands, and five times the inner one with their own.
/// let counts = read_pattern(&[0x2A, 2, 5, 0x21, 3])?;
/// assert_eq!((counts.commands, counts.unfolded), (2, 6));
/// // That boat: which one?
/// assert_eq!(read_pattern(&[0x22, 4, 0]), Err(Refusal::SlotNotKept));
/// # Ok::<(), Refusal>(())
/// ```
pub fn read_pattern(pattern: &[u8]) -> Result<Counts, Refusal> {
    match lent::pattern(pattern) {
        PatternReply::Counts(counts) => Ok(counts),
        PatternReply::Refused(refusal) => Err(refusal),
    }
}
