//! The library's functions as they are, on buffers that the caller lends: one function for
//! each, and an enum for each sort of reply. Nothing is allocated.
//!
//! What becomes of each lent buffer is said with each function. [`Record`](crate::Record),
//! [`Finder`](crate::Finder) and [`Search`](crate::Search) do the lending for you. A later version
//! may add cases to a reply, so a `match` needs an arm for the rest.
//!
//! The questions about a record are 1 and 2, then at each line 3, 22, 4, 5, 6 and, where it has a
//! time, 28, and at the end 3 and 7. Those about a pattern are 8, 9, 10, 11, 24, 12 and 13 at each
//! command, then 14, then 25.
//!
//! ```
//! use chains::lent::{self, FindReply, PatternReply, WordsReply};
//!
//! let day = [1, 0, 2, 2, 0, 0, 1, 2, 0, 0, 150, 0, 1, 0]; // two places, one line
//! let pattern = [0x21, 1];
//! let PatternReply::Counts(counts) = lent::pattern(&pattern) else { panic!("refused") };
//! assert_eq!((counts.commands, counts.keeps), (1, 0));
//! let WordsReply::Words(words) = lent::words(&day, &pattern) else { panic!("refused") };
//! let (mut work, mut out) = (vec![0; words], [0; 8]);
//! match lent::find(&day, &pattern, 0, 1, &mut work, &mut out) {
//!     FindReply::Found(length) => assert_eq!(out[..length], [0]),
//!     FindReply::NoChain => println!("none"),
//!     FindReply::Refused(refusal) => println!("refused {}: {refusal}", refusal.number()),
//!     _ => println!("a reply of a later version"),
//! }
//! ```

use crate::{linked, BoatCount, Counts, Line, Options, Refusal};

/// The reply of [`begin`], [`add`] and [`add_timed`].
#[derive(Clone, Copy, PartialEq, Eq, Debug)]
#[must_use]
#[non_exhaustive]
pub enum WriteReply {
    /// The record's new length in bytes.
    Length(usize),
    /// A question was answered no; no byte was altered.
    Refused(Refusal),
}

/// The reply of [`read`].
#[derive(Clone, Copy, PartialEq, Eq, Debug)]
#[must_use]
#[non_exhaustive]
pub enum LineReply {
    /// The line, which has no time.
    Line(Line),
    /// The line, and its time in seconds since midnight.
    Timed(Line, u32),
    /// A question was answered no.
    Refused(Refusal),
}

/// The reply of [`pattern`].
#[derive(Clone, Copy, PartialEq, Eq, Debug)]
#[must_use]
#[non_exhaustive]
pub enum PatternReply {
    /// The pattern passes, and has these counts.
    Counts(Counts),
    /// A question was answered no.
    Refused(Refusal),
}

/// The reply of [`boats`].
#[derive(Clone, Copy, PartialEq, Eq, Debug)]
#[must_use]
#[non_exhaustive]
pub enum BoatsReply {
    /// The record passes, and has so many boats.
    Count(BoatCount),
    /// A question was answered no.
    Refused(Refusal),
}

/// The reply of [`words`] and [`search_words`].
#[derive(Clone, Copy, PartialEq, Eq, Debug)]
#[must_use]
#[non_exhaustive]
pub enum WordsReply {
    /// How many words of work area are needed.
    Words(usize),
    /// A question was answered no.
    Refused(Refusal),
}

/// The reply of [`check`] and [`check_with`].
#[derive(Clone, Copy, PartialEq, Eq, Debug)]
#[must_use]
#[non_exhaustive]
pub enum CheckReply {
    /// The chain leads from the first place to the second, and the pattern accepts it.
    Yes,
    /// It does not, or the pattern does not.
    No,
    /// A question was answered no.
    Refused(Refusal),
}

/// The reply of [`find`], [`find_with`] and [`search_finish`].
#[derive(Clone, Copy, PartialEq, Eq, Debug)]
#[must_use]
#[non_exhaustive]
pub enum FindReply {
    /// The first shortest chain has so many lines; they stand at the front of the output.
    Found(usize),
    /// No chain, of any length, is accepted.
    NoChain,
    /// A question was answered no.
    Refused(Refusal),
}

/// The reply of [`starts`] and [`starts_with`].
#[derive(Clone, Copy, PartialEq, Eq, Debug)]
#[must_use]
#[non_exhaustive]
pub enum StartsReply {
    /// So many lengths, one for each place of the list; they stand at the front of the lent words.
    Lengths(usize),
    /// A question was answered no.
    Refused(Refusal),
}

/// The reply of [`search_begin`] and [`search_begin_with`].
#[derive(Clone, Copy, PartialEq, Eq, Debug)]
#[must_use]
#[non_exhaustive]
pub enum BeginReply {
    /// The work area holds the search.
    Begun,
    /// A question was answered no; no word was altered.
    Refused(Refusal),
}

/// The reply of [`search_move`].
#[derive(Clone, Copy, PartialEq, Eq, Debug)]
#[must_use]
#[non_exhaustive]
pub enum MoveReply {
    /// So many states were taken up.
    Moved(usize),
    /// A question was answered no; no word was altered.
    Refused(Refusal),
}

/// The mark for none: what [`starts`] writes for a place from which no chain, of any length, is
/// accepted.
pub const NO_CHAIN: u32 = u32::MAX;

/// A reply's value, or its refusal: the reply is value + 2^32 × number.
fn taken_apart(reply: u64) -> Result<u32, Refusal> {
    let (number, value) = ((reply >> 32) as u32, reply as u32);
    if number == 0 {
        Ok(value)
    } else {
        Err(Refusal::of(number, value))
    }
}

fn write_reply(reply: u64) -> WriteReply {
    match taken_apart(reply) {
        Ok(length) => WriteReply::Length(length as usize),
        Err(refusal) => WriteReply::Refused(refusal),
    }
}

/// Begins a record of so many places, with no lines.
///
/// Refusals: 2, 23. The buffer's first four bytes are written; all others stay.
pub fn begin(buf: &mut [u8], places: u16) -> WriteReply {
    write_reply(linked::begin(buf, places))
}

/// Adds a line without a time to the record that is the first `len` bytes of the buffer.
///
/// Refusals: 20, then those of a record, 5 and 6 of the line, 21, 22, 23. The line's ten
/// bytes are written from the old end byte on, and a new end byte; all others stay.
pub fn add(buf: &mut [u8], len: usize, line: Line) -> WriteReply {
    write_reply(linked::add(buf, len, line))
}

/// Adds a line with a time, in seconds since midnight, to the record that is the first `len` bytes
/// of the buffer.
///
/// Refusals: 20, then those of a record, 5, 6 and 28 of the line, 21, 22, 23. The line's fourteen
/// bytes are written from the old end byte on, and a new end byte; all others stay.
///
/// ```
/// use chains::lent::{self, LineReply, WriteReply};
/// use chains::Line;
///
/// let mut day = [0; 18];
/// assert_eq!(lent::begin(&mut day, 2), WriteReply::Length(4));
/// let line = Line { from: 0, kind: 4, class: 2, sail: 150, to: 1 };
/// assert_eq!(lent::add_timed(&mut day, 4, line, 53_400), WriteReply::Length(18));
/// assert_eq!(lent::read(&day, 0), LineReply::Timed(line, 53_400));
/// ```
pub fn add_timed(buf: &mut [u8], len: usize, line: Line, time: u32) -> WriteReply {
    write_reply(linked::add_timed(buf, len, line, time))
}

/// How many words the library writes of a line with a time: the five of any line, and the time.
const TIMED: u32 = 6;

/// Reads a line back.
///
/// Refusals: those of the whole record, then 18.
pub fn read(record: &[u8], number: u16) -> LineReply {
    let mut fields = [0u32; TIMED as usize];
    match taken_apart(linked::read(record, number, &mut fields)) {
        Ok(written) => {
            let [from, kind, class, sail, to, time] = fields;
            // The library widens the fields to 32 bits and no further.
            let line = Line {
                from: from as u16,
                kind: kind as u8,
                class: class as u8,
                sail,
                to: to as u16,
            };
            if written == TIMED {
                LineReply::Timed(line, time)
            } else {
                LineReply::Line(line)
            }
        }
        Err(refusal) => LineReply::Refused(refusal),
    }
}

/// Reads a pattern: the count of its commands, its deepest nesting of keeps, and its unfolded count.
///
/// Refusals: those of a pattern.
pub fn pattern(pattern: &[u8]) -> PatternReply {
    let mut counts = [0u32; 3];
    match taken_apart(linked::pattern(pattern, &mut counts)) {
        Ok(_) => {
            let [commands, keeps, unfolded] = counts;
            PatternReply::Counts(Counts {
                commands,
                keeps,
                unfolded,
            })
        }
        Err(refusal) => PatternReply::Refused(refusal),
    }
}

/// Counts the different boats of a record, and the earlier lines that are read to tell.
///
/// Refusals: those of a record.
pub fn boats(record: &[u8]) -> BoatsReply {
    let mut counts = [0u32; 2];
    match taken_apart(linked::boats(record, &mut counts)) {
        Ok(_) => {
            let [boats, reads] = counts;
            BoatsReply::Count(BoatCount { boats, reads })
        }
        Err(refusal) => BoatsReply::Refused(refusal),
    }
}

fn words_reply(reply: u64) -> WordsReply {
    match taken_apart(reply) {
        Ok(words) => WordsReply::Words(words as usize),
        Err(refusal) => WordsReply::Refused(refusal),
    }
}

/// How many words of work area [`check`], [`find`] and [`starts`] need, for this record and pattern,
/// with options and without.
///
/// Refusals: those of a record and a pattern, then 16.
pub fn words(record: &[u8], pattern: &[u8]) -> WordsReply {
    words_reply(linked::words(record, pattern))
}

/// Does the chain lead from the first place to the second, and does the pattern accept it?
///
/// Refusals: those of a record and a pattern, then 15 to 18. The work area may hold anything before;
/// 18 and every reply that is no refusal leave all of it zeros, and every other refusal leaves it
/// untouched.
pub fn check(
    record: &[u8],
    pattern: &[u8],
    from: u16,
    to: u16,
    chain: &[u16],
    work: &mut [u32],
) -> CheckReply {
    check_reply(linked::check(record, pattern, from, to, chain, work))
}

/// As [`check`], with a window of the day for each kind: no also where a line of the chain is outside.
///
/// Refusals: those of a record and a pattern, then 15, 27, 16, 17, 18. The work area is left as with
/// [`check`].
pub fn check_with(
    record: &[u8],
    pattern: &[u8],
    from: u16,
    to: u16,
    chain: &[u16],
    options: &Options,
    work: &mut [u32],
) -> CheckReply {
    let options = options.words();
    check_reply(linked::check_with(
        record, pattern, from, to, chain, options, work,
    ))
}

fn check_reply(reply: u64) -> CheckReply {
    match taken_apart(reply) {
        Ok(0) => CheckReply::No,
        Ok(_) => CheckReply::Yes,
        Err(refusal) => CheckReply::Refused(refusal),
    }
}

fn find_reply(reply: u64) -> FindReply {
    match taken_apart(reply) {
        Ok(NO_CHAIN) => FindReply::NoChain,
        Ok(length) => FindReply::Found(length as usize),
        Err(refusal) => FindReply::Refused(refusal),
    }
}

/// Finds the shortest accepted chain from the first place to the second; of several, the one
/// with the lower line number at the first difference.
///
/// Refusals: as [`check`], but 19 with the shortest length for 18. The work area is left as with
/// [`check`], and is zeros after 19. A chain that is found stands at the front of the output;
/// the rest of it, and all of it after every other reply, is untouched.
pub fn find(
    record: &[u8],
    pattern: &[u8],
    from: u16,
    to: u16,
    work: &mut [u32],
    out: &mut [u16],
) -> FindReply {
    find_reply(linked::find(record, pattern, from, to, work, out))
}

/// As [`find`], with a window of the day for each kind: the chain has no line that is outside.
///
/// Refusals: those of a record and a pattern, then 15, 27, 16, 17, then 19 with the shortest length.
/// The work area and the output are left as with [`find`].
///
/// ```
/// use chains::lent::{self, FindReply, WordsReply};
/// use chains::Options;
///
/// // Two places, and one line at second 5.
/// let day = [1, 0, 2, 3, 0, 0, 1, 2, 0, 0, 150, 0, 1, 0, 0, 0, 5, 0];
/// let pattern = [0x21, 1];
/// let WordsReply::Words(words) = lent::words(&day, &pattern) else { panic!("refused") };
/// let (mut work, mut out) = (vec![0; words], [0; 8]);
/// for (open, close, expected) in [
///     (5, 6, FindReply::Found(1)),
///     (0, 5, FindReply::NoChain),
///     (6, 7, FindReply::NoChain),
/// ] {
///     let options = Options::new().window(1, open, close);
///     let reply = lent::find_with(&day, &pattern, 0, 1, &options, &mut work, &mut out);
///     assert_eq!(reply, expected);
/// }
/// ```
pub fn find_with(
    record: &[u8],
    pattern: &[u8],
    from: u16,
    to: u16,
    options: &Options,
    work: &mut [u32],
    out: &mut [u16],
) -> FindReply {
    let options = options.words();
    find_reply(linked::find_with(
        record, pattern, from, to, options, work, out,
    ))
}

/// The shortest lengths from many places to one, out of one search: for each place of the list
/// what [`find`] would say of it, with an output that is long enough.
///
/// Refusals: those of a record and a pattern, then 15 to 17, then 19 where there are fewer words for
/// lengths than places in the list, with the length of the list. 15 asks about every place of the
/// list and about `to`. The work area may hold anything before; 19 and every reply that is no refusal leave
/// all of it zeros, and every other refusal leaves it untouched. At the front of `lengths` stands
/// afterwards for each place, in the list's order and each time that it is listed, its length, or
/// [`NO_CHAIN`] where no chain is accepted; the rest, and all of it after a refusal, is untouched.
///
/// ```
/// use chains::lent::{self, StartsReply, WordsReply, NO_CHAIN};
///
/// let day = [1, 0, 2, 2, 0, 0, 1, 2, 0, 0, 150, 0, 1, 0]; // two places, one line
/// let pattern = [0x21, 1];
/// let WordsReply::Words(words) = lent::words(&day, &pattern) else { panic!("refused") };
/// let (mut work, mut lengths) = (vec![0; words], [0; 3]);
/// let reply = lent::starts(&day, &pattern, &[1, 0], 1, &mut work, &mut lengths);
/// assert_eq!(reply, StartsReply::Lengths(2));
/// assert_eq!(lengths, [NO_CHAIN, 1, 0]);
/// ```
pub fn starts(
    record: &[u8],
    pattern: &[u8],
    starts: &[u16],
    to: u16,
    work: &mut [u32],
    lengths: &mut [u32],
) -> StartsReply {
    let reply = linked::starts(record, pattern, starts, to, work, lengths);
    starts_reply(reply, starts.len())
}

/// As [`starts`], with a window of the day for each kind: for each place of the list what
/// [`find_with`] would say of it.
///
/// Refusals: those of a record and a pattern, then 15, 27, 16, 17, then 19 as with [`starts`]. The
/// work area and the lengths are left as with [`starts`].
pub fn starts_with(
    record: &[u8],
    pattern: &[u8],
    starts: &[u16],
    to: u16,
    options: &Options,
    work: &mut [u32],
    lengths: &mut [u32],
) -> StartsReply {
    let options = options.words();
    let reply = linked::starts_with(record, pattern, starts, to, options, work, lengths);
    starts_reply(reply, starts.len())
}

/// The reply about a list of so many places. A number that is the highest of 32 bits stands for all
/// longer lists too, so it is the list that tells.
fn starts_reply(reply: u64, listed: usize) -> StartsReply {
    match taken_apart(reply) {
        Ok(u32::MAX) => StartsReply::Lengths(listed),
        Ok(count) => StartsReply::Lengths(count as usize),
        Err(Refusal::OutputTooSmall { length }) if length == u32::MAX as usize => {
            StartsReply::Refused(Refusal::OutputTooSmall { length: listed })
        }
        Err(refusal) => StartsReply::Refused(refusal),
    }
}

/// How many words of work area [`search_begin`] needs, for this record and pattern, with options and
/// without: three for each line of the record more than [`words`] says.
///
/// Refusals: those of a record and a pattern, then 16.
pub fn search_words(record: &[u8], pattern: &[u8]) -> WordsReply {
    words_reply(linked::search_words(record, pattern))
}

/// Begins a search in steps for the chain that [`find`] finds, and takes up no state of it.
///
/// Refusals: those of a record and a pattern, then 15 to 17, which asks for what [`search_words`]
/// says. The work area may hold anything before; it holds the search afterwards, until it is finished, and
/// its first word is not 0. A refusal leaves it untouched. Neither the record nor the pattern is
/// looked at again.
///
/// ```
/// use chains::lent::{self, BeginReply, FindReply, MoveReply, WordsReply};
///
/// let day = [1, 0, 2, 2, 0, 0, 1, 2, 0, 0, 150, 0, 1, 0]; // two places, one line
/// let pattern = [0x21, 1];
/// let WordsReply::Words(words) = lent::search_words(&day, &pattern) else { panic!("refused") };
/// let (mut work, mut out) = (vec![0; words], [0; 8]);
/// let begun = lent::search_begin(&day, &pattern, 0, 1, &mut work);
/// assert_eq!(begun, BeginReply::Begun);
/// assert_eq!(lent::search_move(&mut work, 1), MoveReply::Moved(1));
/// assert_eq!(lent::search_finish(&mut work, &mut out), FindReply::Found(1));
/// assert_eq!(out[..1], [0]);
/// ```
pub fn search_begin(
    record: &[u8],
    pattern: &[u8],
    from: u16,
    to: u16,
    work: &mut [u32],
) -> BeginReply {
    begin_reply(linked::search_begin(record, pattern, from, to, work))
}

/// As [`search_begin`], with a window of the day for each kind: the search is for the chain that
/// [`find_with`] finds. The windows are in the area then.
///
/// Refusals: those of a record and a pattern, then 15, 27, 16, 17. The work area is left as with
/// [`search_begin`].
pub fn search_begin_with(
    record: &[u8],
    pattern: &[u8],
    from: u16,
    to: u16,
    options: &Options,
    work: &mut [u32],
) -> BeginReply {
    let options = options.words();
    begin_reply(linked::search_begin_with(
        record, pattern, from, to, options, work,
    ))
}

fn begin_reply(reply: u64) -> BeginReply {
    match taken_apart(reply) {
        Ok(_) => BeginReply::Begun,
        Err(refusal) => BeginReply::Refused(refusal),
    }
}

/// Moves a search on: takes up so many states of it, a state being a place, a spot in the pattern
/// and the boats kept, or all that remain where those are fewer.
///
/// Refusal: 26, where the work area is empty or its first word is 0, and where it is seen not to
/// be as [`search_begin`] and its moves left it. Lend all the words that [`search_begin`] was lent,
/// as they were left, or a copy of them. Of any other area nothing is promised but that the call
/// returns, and that 26 leaves it untouched.
pub fn search_move(work: &mut [u32], amount: usize) -> MoveReply {
    match taken_apart(linked::search_move(work, amount)) {
        Ok(count) => MoveReply::Moved(count as usize),
        Err(refusal) => MoveReply::Refused(refusal),
    }
}

/// Finishes a search: takes up all that remains, and replies as [`find`] does for the record and
/// the pattern that were given to [`search_begin`], or as [`find_with`] for what was given to
/// [`search_begin_with`].
///
/// Refusals: 26 as with [`search_move`], which leaves area and output untouched, then 19 with the
/// shortest length. 19 and every reply that is no refusal leave all of the area zeros: the search
/// is over. A chain that is found stands at the front of the output; the rest of it, and all of it
/// after every other reply, is untouched.
pub fn search_finish(work: &mut [u32], out: &mut [u16]) -> FindReply {
    find_reply(linked::search_finish(work, out))
}

#[cfg(test)]
mod tests {
    use super::*;

    /// What a list's length is told by: the reply, but where that can say no more.
    #[test]
    fn lists_longer_than_a_reply_can_say() {
        let refused = |length| StartsReply::Refused(Refusal::OutputTooSmall { length });
        for count in [0, 1, 70_000, u32::MAX - 1] {
            let listed = count as usize;
            assert_eq!(
                starts_reply(u64::from(count), 9),
                StartsReply::Lengths(listed)
            );
            assert_eq!(
                starts_reply(19 << 32 | u64::from(count), 9),
                refused(listed)
            );
        }
        let most = u64::from(u32::MAX);
        for listed in [u32::MAX as usize, usize::MAX] {
            assert_eq!(starts_reply(most, listed), StartsReply::Lengths(listed));
            assert_eq!(starts_reply(19 << 32 | most, listed), refused(listed));
        }
        let small = StartsReply::Refused(Refusal::WorkAreaTooSmall);
        assert_eq!(starts_reply(17 << 32, usize::MAX), small);
    }
}
