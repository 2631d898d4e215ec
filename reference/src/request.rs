//! Requests: questions 15 to 19 and 27, the replies, and what becomes of the lent words.
//!
//! A reply depends on the lengths of the work area, the output and the list of lengths and never
//! on what is in them; what they hold afterwards is a function of the reply and of what they held.

use crate::chains::{search, try_all, Asked, Tried};
use crate::pattern::{read_pattern, Pattern};
use crate::record::{count_boats, read_record, Record};
use crate::windows::Windows;
use std::collections::BTreeMap;

/// No search size is above this.
pub const LARGEST: u128 = 1_048_576;
/// Chains up to this long are checked by the language's clauses, longer ones by the machine.
pub const SHORT: usize = 8;
/// So many chains at most are tried one by one before the search is believed by itself.
pub const TRIED: usize = 30;

/// What checker, finder and the begin of a search are given.
#[derive(Clone, Copy)]
pub struct Ask<'a> {
    pub rec: &'a [u8],
    pub pat: &'a [u8],
    pub from: u16,
    pub to: u16,
    /// The words that say the windows; `None` where the question has none.
    pub options: Option<&'a [u32]>,
}

/// What the lengths from a list of places are asked with.
#[derive(Clone, Copy)]
pub struct Listed<'a> {
    pub rec: &'a [u8],
    pub pat: &'a [u8],
    pub starts: &'a [u16],
    pub to: u16,
    pub options: Option<&'a [u32]>,
}

impl<'a> Listed<'a> {
    /// The finder's question about one place alone.
    pub fn alone(&self, from: u16) -> Ask<'a> {
        Ask {
            rec: self.rec,
            pat: self.pat,
            from,
            to: self.to,
            options: self.options,
        }
    }
}

#[derive(Clone, PartialEq, Eq, Debug)]
pub enum CheckReply {
    Yes,
    No,
    Refused(u8),
}

#[derive(Clone, PartialEq, Eq, Debug)]
pub enum FindReply {
    Found(Vec<u16>),
    NoChain,
    /// The number and the second number.
    Refused(u8, usize),
}

#[derive(Clone, PartialEq, Eq, Debug)]
pub enum StartsReply {
    /// For each listed place, in the list's order, the shortest length, if there is a chain.
    Lengths(Vec<Option<usize>>),
    /// The number and the second number.
    Refused(u8, usize),
}

/// Places × (unfolded count + 1) × (boats + 1) to the power of keeps.
pub fn search_size(record: &Record, pattern: &Pattern) -> u128 {
    let boats = count_boats(&record.lines).boats;
    let mut size = record.places as u128 * (pattern.unfolded as u128 + 1);
    for _ in 0..pattern.keeps {
        size *= boats as u128 + 1;
    }
    size
}

/// How many words a request of this search size needs.
fn words_for(size: u128) -> u128 {
    4 * size + 8_192
}

/// The words that a record and a pattern need: the questions of both, and 16.
pub fn words(record: &[u8], pattern: &[u8]) -> Result<u64, u8> {
    let record = read_record(record)?;
    let pattern = read_pattern(pattern)?;
    let size = search_size(&record, &pattern);
    if size > LARGEST {
        return Err(16);
    }
    Ok(words_for(size) as u64)
}

/// Questions 1 to 17, 22, 24, 25, 27 and 28, 15 being asked of each of these places. All of them go
/// by the whole record, whatever the windows.
fn ask_about(
    rec: &[u8],
    pat: &[u8],
    places: &[u16],
    windows: &Windows,
    work_len: usize,
) -> Result<(Record, Pattern), u8> {
    let record = read_record(rec)?;
    let pattern = read_pattern(pat)?;
    if places.iter().any(|&place| place >= record.places) {
        return Err(15);
    }
    if !windows.pass() {
        return Err(27);
    }
    let size = search_size(&record, &pattern);
    if size > LARGEST {
        return Err(16);
    }
    if (work_len as u128) < words_for(size) {
        return Err(17);
    }
    Ok((record, pattern))
}

/// The questions of checker and finder up to 17.
pub fn ask(ask: Ask, work_len: usize) -> Result<Asked, u8> {
    let windows = Windows::of(ask.options);
    let places = [ask.from, ask.to];
    let (record, pattern) = ask_about(ask.rec, ask.pat, &places, &windows, work_len)?;
    Ok(Asked {
        inside: windows.inside(&record.lines),
        record,
        pattern,
        from: ask.from,
        to: ask.to,
    })
}

/// The checker. A line outside its kind's window exists, so 18 does not ask about it.
pub fn check(asking: Ask, chain: &[u16], work_len: usize) -> CheckReply {
    let asked = match ask(asking, work_len) {
        Ok(asked) => asked,
        Err(number) => return CheckReply::Refused(number),
    };
    let lines = asked.record.lines.len();
    if chain.iter().any(|&number| number as usize >= lines) {
        return CheckReply::Refused(18);
    }
    let accepted = if chain.len() <= SHORT {
        asked.accepted_by_clauses(chain)
    } else {
        asked.accepted_by_machine(chain)
    };
    if accepted {
        CheckReply::Yes
    } else {
        CheckReply::No
    }
}

/// The first shortest accepted chain of a request that passed the questions. Where
/// trying all chains settles it, the two ways must agree.
pub fn first_chain(asked: &Asked) -> Option<Vec<u16>> {
    let searched = search(asked);
    match try_all(asked, TRIED, SHORT) {
        Tried::First(chain) => assert_eq!(searched.as_ref(), Some(&chain), "the two ways differ"),
        Tried::NoChain => assert_eq!(searched, None, "the two ways differ"),
        Tried::NoneBelow(length) => assert!(
            searched.as_ref().is_none_or(|chain| chain.len() >= length),
            "the two ways differ"
        ),
    }
    searched
}

/// The questions up to 17 and the search, the output being left aside.
pub fn shortest(asking: Ask, work_len: usize) -> Result<Option<Vec<u16>>, u8> {
    ask(asking, work_len).map(|asked| first_chain(&asked))
}

/// The finder's reply, given what `shortest` says and the output's length.
pub fn fitted(shortest: Result<Option<Vec<u16>>, u8>, out_len: usize) -> FindReply {
    match shortest {
        Err(number) => FindReply::Refused(number, 0),
        Ok(None) => FindReply::NoChain,
        Ok(Some(chain)) if chain.len() > out_len => FindReply::Refused(19, chain.len()),
        Ok(Some(chain)) => FindReply::Found(chain),
    }
}

/// The finder.
pub fn find(asking: Ask, work_len: usize, out_len: usize) -> FindReply {
    fitted(shortest(asking, work_len), out_len)
}

/// The lengths from all listed places to one: each is that of the chain that the finder would find
/// from the place alone, with an output long enough. Here 19 asks whether the list of lengths holds
/// one for each listed place, and is asked before anything is searched.
pub fn starts(listed: Listed, work_len: usize, lengths_len: usize) -> StartsReply {
    let (starts, to) = (listed.starts, listed.to);
    let windows = Windows::of(listed.options);
    let all = [starts, &[to]].concat();
    let (record, pattern) = match ask_about(listed.rec, listed.pat, &all, &windows, work_len) {
        Ok(both) => both,
        Err(number) => return StartsReply::Refused(number, 0),
    };
    if starts.len() > lengths_len {
        return StartsReply::Refused(19, starts.len());
    }
    let mut asked = Asked {
        inside: windows.inside(&record.lines),
        record,
        pattern,
        from: to,
        to,
    };
    // A place that is listed again has its answer, so the search is not done again.
    let mut answers: BTreeMap<u16, Option<usize>> = BTreeMap::new();
    let answer = |&place: &u16| {
        *answers.entry(place).or_insert_with(|| {
            asked.from = place;
            first_chain(&asked).map(|chain| chain.len())
        })
    };
    StartsReply::Lengths(starts.iter().map(answer).collect())
}

/// The work area afterwards: untouched by a refusal at 17 or at any question asked before
/// it, and else all zeros. Only 18 and 19 are asked after 17.
fn work_after(refused: Option<u8>, work: &[u32]) -> Vec<u32> {
    match refused {
        None | Some(18 | 19) => vec![0; work.len()],
        Some(_) => work.to_vec(),
    }
}

impl CheckReply {
    pub fn work_after(&self, work: &[u32]) -> Vec<u32> {
        match self {
            CheckReply::Refused(number) => work_after(Some(*number), work),
            _ => work_after(None, work),
        }
    }

    /// As the library gives it: n · 2^32 + value.
    pub fn number(&self) -> u64 {
        match self {
            CheckReply::Yes => 1,
            CheckReply::No => 0,
            CheckReply::Refused(number) => refused(*number, 0),
        }
    }
}

impl FindReply {
    pub fn work_after(&self, work: &[u32]) -> Vec<u32> {
        match self {
            FindReply::Refused(number, _) => work_after(Some(*number), work),
            _ => work_after(None, work),
        }
    }

    /// The output afterwards: the chain in front when found, and the rest untouched.
    pub fn out_after(&self, out: &[u16]) -> Vec<u16> {
        let mut after = out.to_vec();
        if let FindReply::Found(chain) = self {
            after[..chain.len()].copy_from_slice(chain);
        }
        after
    }

    /// As the library gives it: n · 2^32 + value.
    pub fn number(&self) -> u64 {
        match self {
            FindReply::Found(chain) => chain.len() as u64,
            FindReply::NoChain => NO_CHAIN,
            FindReply::Refused(number, second) => refused(*number, *second as u64),
        }
    }
}

impl StartsReply {
    pub fn work_after(&self, work: &[u32]) -> Vec<u32> {
        match self {
            StartsReply::Refused(number, _) => work_after(Some(*number), work),
            _ => work_after(None, work),
        }
    }

    /// The list of lengths afterwards: an entry for each listed place in front, the mark where
    /// there is no chain, and the rest untouched. After a refusal all of it is.
    pub fn lengths_after(&self, lengths: &[u32]) -> Vec<u32> {
        let mut after = lengths.to_vec();
        if let StartsReply::Lengths(told) = self {
            for (word, length) in after.iter_mut().zip(told) {
                *word = length.map_or(NO_CHAIN as u32, |length| length as u32);
            }
        }
        after
    }

    /// As the library gives it: n · 2^32 + value. A list can be longer than 32 bits tell, and
    /// then the highest number that they tell stands for its length.
    pub fn number(&self) -> u64 {
        let told = |count: usize| (count as u64).min(u32::MAX as u64);
        match self {
            StartsReply::Lengths(lengths) => told(lengths.len()),
            StartsReply::Refused(number, second) => refused(*number, told(*second)),
        }
    }
}

/// The value that stands for none, and the mark among lengths.
pub const NO_CHAIN: u64 = 4_294_967_295;

/// A refusal as one number.
pub const fn refused(number: u8, second: u64) -> u64 {
    ((number as u64) << 32) + second
}
