//! The eighteen functions that scoring software calls, as a trait: the linked library is one
//! of these, and this program is another. Five methods stand for two functions each: a line is added
//! by one function with a time and by another without, and checker, finder, starts and the begin of
//! a search are asked by one with options and by another without.

use crate::pattern::read_pattern;
use crate::record::{self, Line};
use crate::request::{self, refused};
use crate::search;

pub use crate::request::{Ask, Listed};

/// Each reply is n · 2^32 + value: n is 0 or the number of the refused question, value
/// the second number then.
pub trait Library {
    fn begin(&self, buf: &mut [u8], places: u16) -> u64;
    fn add(&self, buf: &mut [u8], len: usize, line: Line) -> u64;
    fn read(&self, rec: &[u8], number: u16, fields: &mut [u32]) -> u64;
    fn pattern(&self, pat: &[u8], counts: &mut [u32]) -> u64;
    fn boats(&self, rec: &[u8], counts: &mut [u32]) -> u64;
    fn words(&self, rec: &[u8], pat: &[u8]) -> u64;
    fn check(&self, ask: Ask, chain: &[u16], work: &mut [u32]) -> u64;
    fn find(&self, ask: Ask, work: &mut [u32], out: &mut [u16]) -> u64;
    fn search_words(&self, rec: &[u8], pat: &[u8]) -> u64;
    fn search_begin(&self, ask: Ask, work: &mut [u32]) -> u64;
    fn search_move(&self, work: &mut [u32], amount: usize) -> u64;
    fn search_finish(&self, work: &mut [u32], out: &mut [u16]) -> u64;
    fn starts(&self, listed: Listed, work: &mut [u32], lengths: &mut [u32]) -> u64;
}

/// This program behind the same eighteen functions.
pub struct Own;

impl Library for Own {
    fn begin(&self, buf: &mut [u8], places: u16) -> u64 {
        put(record::begin(buf, places), buf)
    }

    fn add(&self, buf: &mut [u8], len: usize, line: Line) -> u64 {
        put(record::add(buf, len, line), buf)
    }

    fn read(&self, rec: &[u8], number: u16, fields: &mut [u32]) -> u64 {
        let (reply, after) = read_values(rec, number, fields);
        fields.copy_from_slice(&after);
        reply
    }

    fn pattern(&self, pat: &[u8], counts: &mut [u32]) -> u64 {
        let (reply, after) = pattern_values(pat, counts);
        counts.copy_from_slice(&after);
        reply
    }

    fn boats(&self, rec: &[u8], counts: &mut [u32]) -> u64 {
        let (reply, after) = boats_values(rec, counts);
        counts.copy_from_slice(&after);
        reply
    }

    fn words(&self, rec: &[u8], pat: &[u8]) -> u64 {
        request::words(rec, pat).unwrap_or_else(|number| refused(number, 0))
    }

    fn check(&self, ask: Ask, chain: &[u16], work: &mut [u32]) -> u64 {
        let reply = request::check(ask, chain, work.len());
        work.copy_from_slice(&reply.work_after(work));
        reply.number()
    }

    fn find(&self, ask: Ask, work: &mut [u32], out: &mut [u16]) -> u64 {
        let reply = request::find(ask, work.len(), out.len());
        work.copy_from_slice(&reply.work_after(work));
        out.copy_from_slice(&reply.out_after(out));
        reply.number()
    }

    fn search_words(&self, rec: &[u8], pat: &[u8]) -> u64 {
        search::words(rec, pat).unwrap_or_else(|number| refused(number, 0))
    }

    fn search_begin(&self, ask: Ask, work: &mut [u32]) -> u64 {
        let (reply, after) = search::begin_values(ask, work);
        work.copy_from_slice(&after);
        reply
    }

    fn search_move(&self, work: &mut [u32], amount: usize) -> u64 {
        let (reply, after) = search::move_values(work, amount);
        work.copy_from_slice(&after);
        reply
    }

    fn search_finish(&self, work: &mut [u32], out: &mut [u16]) -> u64 {
        let reply = search::finish(work, out.len());
        work.copy_from_slice(&reply.work_after(work));
        out.copy_from_slice(&reply.out_after(out));
        reply.number()
    }

    fn starts(&self, listed: Listed, work: &mut [u32], lengths: &mut [u32]) -> u64 {
        let reply = request::starts(listed, work.len(), lengths.len());
        work.copy_from_slice(&reply.work_after(work));
        lengths.copy_from_slice(&reply.lengths_after(lengths));
        reply.number()
    }
}

fn put(reply: Result<(usize, Vec<u8>), u8>, buf: &mut [u8]) -> u64 {
    match reply {
        Ok((len, after)) => {
            buf.copy_from_slice(&after);
            len as u64
        }
        Err(number) => refused(number, 0),
    }
}

/// The fields of a line: five, and the time as the sixth where there is one.
pub fn fields_of(line: &Line) -> Vec<u32> {
    let mut fields = vec![
        line.from as u32,
        line.kind as u32,
        line.class as u32,
        line.sail,
        line.to as u32,
    ];
    fields.extend(line.time);
    fields
}

/// The reply of reading a line back, and the fields after it. The questions come first,
/// however many fields are lent; fewer words than the line has get nothing, and the value is 0.
pub fn read_values(rec: &[u8], number: u16, lent: &[u32]) -> (u64, Vec<u32>) {
    let mut after = lent.to_vec();
    match record::read_line(rec, number).map(|line| fields_of(&line)) {
        Err(number) => (refused(number, 0), after),
        Ok(fields) if lent.len() < fields.len() => (0, after),
        Ok(fields) => {
            after[..fields.len()].copy_from_slice(&fields);
            (fields.len() as u64, after)
        }
    }
}

/// The reply of reading a pattern, and the counts after it: as with a line's fields, the
/// questions come first, and fewer than two words get nothing. Two get commands and keeps, a
/// third the unfolded count.
pub fn pattern_values(pat: &[u8], counts: &[u32]) -> (u64, Vec<u32>) {
    let mut after = counts.to_vec();
    match read_pattern(pat) {
        Err(number) => (refused(number, 0), after),
        Ok(_) if counts.len() < 2 => (0, after),
        Ok(pattern) => {
            let counts = [pattern.commands, pattern.keeps, pattern.unfolded];
            let written = after.len().min(counts.len());
            for (word, count) in after.iter_mut().zip(counts) {
                *word = count as u32;
            }
            (written as u64, after)
        }
    }
}

/// The reply of counting boats, and the counts after it: here too the questions come first, and
/// fewer than two words get nothing. Two or more get boats and reads in the first two.
pub fn boats_values(rec: &[u8], counts: &[u32]) -> (u64, Vec<u32>) {
    let mut after = counts.to_vec();
    match record::read_record(rec) {
        Err(number) => (refused(number, 0), after),
        Ok(_) if counts.len() < 2 => (0, after),
        Ok(day) => {
            let count = record::count_boats(&day.lines);
            after[0] = count.boats as u32;
            after[1] = count.reads as u32;
            (2, after)
        }
    }
}
