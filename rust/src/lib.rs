//! The chain finder for a sailing day's record, in safe Rust over the proved library.
//!
//! A day's record has lines; a line has a kind and a boat (class and sail number), leads from a
//! place to a place, and may have a time. A pattern says which chains of lines are accepted. The
//! finder gives the shortest accepted chain between two places: the grounds for a place in the
//! results. The repository's README explains the bytes of records and patterns.
//!
//! A pattern compares a line's boat with one that it has kept: the same (22) or another (23), and of
//! others those of its class (sister, 28) and those of another class (foreign, 29).
//!
//! Class 0 with sail number 0 says that the number was not read, so that nothing is known of the
//! boat. All four fail on such a line, and all four fail where the slot holds such a number; line
//! takes it, keep keeps it, and together they count as one boat.
//!
//! From so many to so many rounds of a pattern may come in a row (2A); a boat that a round keeps is
//! known in that round only. The search goes by the unfolded count of a pattern, in which a command
//! counts as often as it may come.
//!
//! A line's time is in seconds since midnight. A question can have a window of the day for each
//! kind, and is then answered as for the record with only the lines inside; without, times have no
//! say.
//!
//! - [`Record`] grows with its lines and can be asked directly; [`RecordIn`] stands in a buffer
//!   that is given.
//! - [`read_pattern`] tests a pattern before there is a record.
//! - [`count_boats`] counts the different boats of a record.
//! - [`Finder`] finds and checks chains, and keeps its buffers between requests. Of many places at
//!   once it tells the lengths of their shortest chains to one place, out of one search.
//! - [`Search`] finds a chain in steps, while lines are added to the record.
//! - [`Options`] has the windows that a question can be asked with, by `find_with`, `check_with`,
//!   `starts_with`, `search_with` and [`Search::begin_with`].
//! - [`Refusal`] says why a request was refused, in words.
//! - [`lent`] has the library's functions as they are, on buffers that you lend.
//!
//! ```
//! use chains::{Line, Record};
//!
//! let mut day = Record::begin(3)?;
//! day.add(Line { from: 0, kind: 1, class: 2, sail: 150, to: 1 })?;
//! day.add(Line { from: 1, kind: 4, class: 2, sail: 150, to: 2 })?;
//! // A boat entered, and then that boat finished.
//! let pattern = [0x27, 1, 0, 0x22, 4, 0];
//! if let Some(chain) = day.find(&pattern, 0, 2)? {
//!     for number in chain {
//!         println!("line {number}: {}", day.line(number)?);
//!     }
//! }
//! # assert_eq!(day.find(&pattern, 0, 2)?, Some(vec![0, 1]));
//! # Ok::<(), chains::Refusal>(())
//! ```
//!
//! What the library replies is proved. This crate adds answers of its own about a record that has
//! passed the library's questions: `lines` and `written_lines` take the lines' bytes apart in Rust,
//! and `line_count` counts them. Everything else lends buffers of the right size and takes replies
//! apart. All `unsafe` stands in one module.
//!
//! `cargo run --example worked_day -- ../examples/day` prints the grounds that README's worked
//! day has, and `cargo run --example in_steps -- ../examples/day/day.rec` adds a line to that day
//! while a search is under way.
#![deny(unsafe_code)]

mod finder;
pub mod lent;
mod linked;
mod options;
mod pattern;
mod record;
mod refusal;
mod search;

pub use finder::{Finder, Question, StartsQuestion};
pub use options::{Options, DAY};
pub use pattern::{read_pattern, Counts};
pub use record::{count_boats, BoatCount, Line, Lines, Record, RecordIn, Written, WrittenLines};
pub use refusal::Refusal;
pub use search::Search;

/// The version of the library that is linked: 1,000,000 × major + 1,000 × minor + patch.
///
/// ```
/// assert_eq!(chains::version() / 1_000_000, 1);
/// ```
pub fn version() -> u64 {
    linked::version()
}
