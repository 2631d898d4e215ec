//! The chain finder a second time: a plain program that shares no code with the library.
//!
//! It is written from document 01's sentences, from the clauses of sources 000 and 001 and from
//! requests One to Seven, to be compared with the library on many requests. It is meant to be read
//! and believed, so it allocates as it likes and prefers the plain way to the fast one.
//!
//! - `record`, `pattern`: bytes to values, or the number of the refused question.
//! - `membership`: is a word in a pattern's language, clause by clause.
//! - `machine`: the same by moving sets of states along a word, for long words.
//! - `chains`: the first shortest accepted chain, by trying all chains and by a search.
//! - `windows`: which lines are inside the windows of a question.
//! - `request`: every question in order, the replies, and what becomes of lent words.
//! - `positions`, `search`: a search begun, moved on and finished, in the words of its area.
//! - `program`: the line that the small program prints.
//! - `library`: the eighteen functions that scoring software calls, as a trait.
//! - `compare`, `cases`, `rounds`, `generator`, `random`: a library compared with this one.
//! - `rows`: the rows made at random of the test program `rows`.
//! - `faults`: copies of this program with one fault each, which the comparison must find.

pub mod cases;
pub mod chains;
pub mod compare;
pub mod faults;
pub mod generator;
pub mod library;
#[cfg(feature = "linked")]
pub mod linked;
pub mod machine;
pub mod membership;
pub mod pattern;
pub mod positions;
pub mod program;
pub mod random;
pub mod record;
pub mod request;
pub mod rounds;
pub mod rows;
pub mod search;
pub mod windows;
