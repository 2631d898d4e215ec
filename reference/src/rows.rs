//! Requests at random for the test program `rows`, with this program's answers: the file of
//! the rows, and what they make it write.
//!
//! A row has the fields that the program reads: a name, the record, the pattern, the two
//! places, how many words of work area and how many entries of output are lent. A field is
//! its length in two bytes and so many bytes; a row is one field around its own.

use crate::generator::request;
use crate::program::{OUT, WORK};
use crate::random::Random;
use crate::record::read_record;
use crate::request::{fitted, shortest, Ask, FindReply};
use std::collections::BTreeMap;

/// The program's buffer for the file.
pub const LONGEST_FILE: usize = 65_536;
/// Longer records are left out, so that there is room for many; the largest search sizes
/// take a record of many boats.
const LONG_RECORD: usize = 250;
const LONGEST_RECORD: usize = 700;
/// So many requests are drawn, at most.
const DRAWS: usize = 2_000_000;

pub struct Rows {
    pub file: Vec<u8>,
    pub written: String,
    /// How many rows there are of each sort.
    pub counts: BTreeMap<String, usize>,
}

/// The sort of a request, the count of its places being known where the record is read, and
/// how many rows of the sort are wanted.
fn sort(reply: &FindReply, places: usize) -> (String, usize) {
    match reply {
        FindReply::Found(chain) if chain.is_empty() => ("found, empty".to_string(), 15),
        FindReply::Found(chain) if chain.len() > places => ("found, long".to_string(), 130),
        FindReply::Found(_) => ("found".to_string(), 80),
        FindReply::NoChain => ("none".to_string(), 60),
        FindReply::Refused(19, _) => ("refused 19".to_string(), 40),
        FindReply::Refused(17, _) => ("refused 17".to_string(), 12),
        // Records that are too long or too full for these are too long for the file.
        FindReply::Refused(number @ (1 | 22), _) => (format!("refused {number}"), 0),
        FindReply::Refused(16, _) => ("refused 16".to_string(), 5),
        FindReply::Refused(number, _) => (format!("refused {number}"), 8),
    }
}

/// All sorts, the refusals 2 to 17, 19, 24, 25 and 28 among them, have their number of rows.
fn complete(counts: &BTreeMap<String, usize>) -> bool {
    let refusals = (2..=17)
        .chain([19, 24, 25, 28])
        .map(|number| FindReply::Refused(number, 0));
    refusals
        .chain([FindReply::NoChain, FindReply::Found(vec![])])
        .chain([FindReply::Found(vec![0; 1]), FindReply::Found(vec![0; 2])])
        .all(|reply| {
            let (name, wanted) = sort(&reply, 1);
            counts.get(&name) == Some(&wanted)
        })
}

fn field(into: &mut Vec<u8>, bytes: &[u8]) {
    into.extend((bytes.len() as u16).to_be_bytes());
    into.extend(bytes);
}

/// The line that the program has to write for a row.
fn line(name: &str, reply: &FindReply, words: usize) -> String {
    let (said, free) = match reply {
        FindReply::Found(chain) => {
            let numbers: String = chain.iter().map(|n| format!(" {n}")).collect();
            (
                format!("found {}:{numbers}", chain.len()),
                OUT - chain.len(),
            )
        }
        FindReply::NoChain => ("none".to_string(), OUT),
        FindReply::Refused(number, 0) => (format!("refused {number}"), OUT),
        FindReply::Refused(number, second) => (format!("refused {number} with {second}"), OUT),
    };
    let after = reply.work_after(&vec![7; words]);
    let zero = after.iter().filter(|&&word| word == 0).count();
    format!(
        "{name}: {said}, {} kept, {zero} zero, {free} free\n",
        WORK - zero
    )
}

/// The rows that a seed gives: requests as they are drawn, those left out of which there
/// are enough, or which the program's area and output don't hold.
pub fn rows(seed: u64) -> Rows {
    let mut random = Random::new(seed);
    let mut made = Rows {
        file: Vec::new(),
        written: String::new(),
        counts: BTreeMap::new(),
    };
    for _ in 0..DRAWS {
        if complete(&made.counts) {
            break;
        }
        let asked = request(&mut random);
        let record_len = asked.rec.len();
        if asked.work_len > WORK || record_len > LONGEST_RECORD || asked.pat.len() > LONGEST_RECORD
        {
            continue;
        }
        // The program asks without windows, so that every line is inside.
        let ask = Ask {
            options: None,
            ..asked.ask()
        };
        let first = shortest(ask, asked.work_len);
        let length = match &first {
            Ok(Some(chain)) => chain.len(),
            _ => 0,
        };
        let room = asked.room.entries(length);
        let reply = fitted(first, room);
        let places = read_record(&asked.rec).map_or(0, |record| record.places as usize);
        let (name, wanted) = sort(&reply, places);
        let long = record_len > LONG_RECORD && name != "refused 16";
        let count = made.counts.entry(name).or_insert(0);
        if *count == wanted || room > OUT || long {
            continue;
        }
        *count += 1;
        let number: usize = made.counts.values().sum();
        let name = number.to_string();
        let mut row = Vec::new();
        field(&mut row, name.as_bytes());
        field(&mut row, &asked.rec);
        field(&mut row, &asked.pat);
        field(&mut row, &asked.from.to_be_bytes());
        field(&mut row, &asked.to.to_be_bytes());
        field(&mut row, &(asked.work_len as u32).to_be_bytes());
        field(&mut row, &(room as u32).to_be_bytes());
        field(&mut made.file, &row);
        made.written += &line(&name, &reply, asked.work_len);
    }
    made
}
