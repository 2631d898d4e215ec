//! One call of a library compared with this program: the reply, every entry of every
//! lent buffer, the entries around it, and the bytes that were only to be read.

use crate::library::{boats_values, pattern_values, read_values, Ask, Library, Listed};
use crate::record::{self, Line};
use crate::request::{self, fitted, refused, CheckReply, FindReply, StartsReply, NO_CHAIN};
use crate::search::{self, NO_SEARCH};
use std::collections::BTreeSet;
use std::fmt::Debug;

/// What a comparison comes to: the reply, or a text that says where the two differ.
pub type Compared = Result<u64, String>;

/// Entries before and after a lent buffer, which no call may touch.
const MARGIN: usize = 16;

/// A buffer with a margin on both sides.
struct Lent<T> {
    all: Vec<T>,
    edge: T,
}

impl<T: Copy + PartialEq + Debug> Lent<T> {
    fn new(inside: &[T], edge: T) -> Lent<T> {
        let mut all = Vec::with_capacity(inside.len() + 2 * MARGIN);
        all.resize(MARGIN, edge);
        all.extend_from_slice(inside);
        all.resize(inside.len() + 2 * MARGIN, edge);
        Lent { all, edge }
    }

    fn inside(&mut self) -> &mut [T] {
        let end = self.all.len() - MARGIN;
        &mut self.all[MARGIN..end]
    }

    /// Is it as expected inside, and are the margins as they were?
    fn compare(&self, name: &str, expected: &[T]) -> Result<(), String> {
        let end = self.all.len() - MARGIN;
        let inside = &self.all[MARGIN..end];
        if inside != expected {
            let at = (0..inside.len())
                .find(|&at| inside[at] != expected[at])
                .expect("the two have one length");
            return Err(format!(
                "{name}: entry {at} of {} is {:?}, expected {:?}",
                inside.len(),
                inside[at],
                expected[at]
            ));
        }
        self.compare_margins(name)
    }

    /// Are the margins as they were?
    fn compare_margins(&self, name: &str) -> Result<(), String> {
        let end = self.all.len() - MARGIN;
        let mut margins = self.all[..MARGIN].iter().chain(&self.all[end..]);
        if margins.any(|entry| *entry != self.edge) {
            return Err(format!("{name}: an entry outside of it was written"));
        }
        Ok(())
    }
}

fn compare_reply(got: u64, expected: u64) -> Result<(), String> {
    if got == expected {
        return Ok(());
    }
    Err(format!(
        "reply: {}, expected {}",
        shown(got),
        shown(expected)
    ))
}

/// A reply in words.
pub fn shown(reply: u64) -> String {
    format!("number {} with {}", reply >> 32, reply & (u32::MAX as u64))
}

/// Bytes in hexadecimal, cut when there are many.
fn hex(bytes: &[u8]) -> String {
    let mut text: String = bytes
        .iter()
        .take(2_000)
        .map(|byte| format!("{byte:02x}"))
        .collect();
    if bytes.len() > 2_000 {
        text += &format!(".. ({} bytes)", bytes.len());
    }
    text
}

fn numbers(chain: &[u16]) -> String {
    let mut text: String = chain
        .iter()
        .take(500)
        .map(|number| format!(" {number}"))
        .collect();
    if chain.len() > 500 {
        text += &format!(" .. ({} entries)", chain.len());
    }
    text
}

pub fn begin(library: &dyn Library, buf: &[u8], places: u16) -> Compared {
    let (expected, after) = values_after(record::begin(buf, places), buf);
    let mut lent = Lent::new(buf, 0xA5);
    let got = library.begin(lent.inside(), places);
    compare_reply(got, expected)
        .and_then(|()| lent.compare("buffer", &after))
        .map_err(|what| format!("begin, places {places}, buffer {}: {what}", hex(buf)))?;
    Ok(got)
}

/// Gives the buffer after it too, for the next line to be added.
pub fn add(
    library: &dyn Library,
    buf: &[u8],
    len: usize,
    line: Line,
) -> Result<(u64, Vec<u8>), String> {
    let (expected, after) = values_after(record::add(buf, len, line), buf);
    let mut lent = Lent::new(buf, 0xA5);
    let got = library.add(lent.inside(), len, line);
    compare_reply(got, expected)
        .and_then(|()| lent.compare("buffer", &after))
        .map_err(|what| {
            format!(
                "add, length {len}, {line:?}, buffer of {} bytes {}: {what}",
                buf.len(),
                hex(buf)
            )
        })?;
    Ok((got, after))
}

fn values_after(reply: Result<(usize, Vec<u8>), u8>, buf: &[u8]) -> (u64, Vec<u8>) {
    match reply {
        Ok((len, after)) => (len as u64, after),
        Err(number) => (refused(number, 0), buf.to_vec()),
    }
}

pub fn read(library: &dyn Library, rec: &[u8], number: u16, fields: &[u32]) -> Compared {
    let (expected, after) = read_values(rec, number, fields);
    let given = Lent::new(rec, 0xA5);
    let mut lent = Lent::new(fields, 0xA5A5_A5A5);
    let got = library.read(
        &given.all[MARGIN..MARGIN + rec.len()],
        number,
        lent.inside(),
    );
    compare_reply(got, expected)
        .and_then(|()| lent.compare("fields", &after))
        .and_then(|()| given.compare("record", rec))
        .map_err(|what| {
            format!(
                "read, line {number}, {} fields, record {}: {what}",
                fields.len(),
                hex(rec)
            )
        })?;
    Ok(got)
}

pub fn pattern(library: &dyn Library, pat: &[u8], counts: &[u32]) -> Compared {
    let (expected, after) = pattern_values(pat, counts);
    let given = Lent::new(pat, 0xA5);
    let mut lent = Lent::new(counts, 0xA5A5_A5A5);
    let got = library.pattern(&given.all[MARGIN..MARGIN + pat.len()], lent.inside());
    compare_reply(got, expected)
        .and_then(|()| lent.compare("counts", &after))
        .and_then(|()| given.compare("pattern", pat))
        .map_err(|what| {
            format!(
                "pattern, {} words, pattern {}: {what}",
                counts.len(),
                hex(pat)
            )
        })?;
    Ok(got)
}

pub fn boats(library: &dyn Library, rec: &[u8], counts: &[u32]) -> Compared {
    let (expected, after) = boats_values(rec, counts);
    let given = Lent::new(rec, 0xA5);
    let mut lent = Lent::new(counts, 0xA5A5_A5A5);
    let got = library.boats(&given.all[MARGIN..MARGIN + rec.len()], lent.inside());
    compare_reply(got, expected)
        .and_then(|()| lent.compare("counts", &after))
        .and_then(|()| given.compare("record", rec))
        .map_err(|what| format!("boats, {} words, record {}: {what}", counts.len(), hex(rec)))?;
    Ok(got)
}

pub fn words(library: &dyn Library, rec: &[u8], pat: &[u8]) -> Compared {
    let expected = request::words(rec, pat).unwrap_or_else(|number| refused(number, 0));
    let given = Given::new(rec, pat, None);
    let got = library.words(&given.rec, &given.pat);
    compare_reply(got, expected)
        .and_then(|()| given.compare(rec, pat, None))
        .map_err(|what| format!("words, record {}, pattern {}: {what}", hex(rec), hex(pat)))?;
    Ok(got)
}

/// What a call only reads, copied for it. A window read beyond the options would fail question 27.
struct Given {
    rec: Vec<u8>,
    pat: Vec<u8>,
    options: Option<Lent<u32>>,
}

impl Given {
    fn new(rec: &[u8], pat: &[u8], options: Option<&[u32]>) -> Given {
        Given {
            rec: rec.to_vec(),
            pat: pat.to_vec(),
            options: options.map(|options| Lent::new(options, 0xA5A5_A5A5)),
        }
    }

    /// The options as they are given.
    fn options(&self) -> Option<&[u32]> {
        let options = self.options.as_ref()?;
        Some(&options.all[MARGIN..options.all.len() - MARGIN])
    }

    /// Is all of it as it was?
    fn compare(&self, rec: &[u8], pat: &[u8], options: Option<&[u32]>) -> Result<(), String> {
        unchanged(&self.rec, &self.pat, rec, pat)?;
        match (&self.options, options) {
            (Some(given), Some(options)) => given.compare("options", options),
            _ => Ok(()),
        }
    }
}

/// Are record and pattern as they were?
fn unchanged(rec_now: &[u8], pat_now: &[u8], rec: &[u8], pat: &[u8]) -> Result<(), String> {
    if rec_now != rec || pat_now != pat {
        return Err("the record or the pattern was written".to_string());
    }
    Ok(())
}

/// The options of a question, as text.
fn options_text(options: Option<&[u32]>) -> String {
    match options {
        None => String::new(),
        Some(options) => format!(", options {options:?}"),
    }
}

/// A call of the checker, as text.
fn check_text(ask: Ask, chain: &[u16], work_len: usize) -> String {
    format!(
        "check, record {}, pattern {}, {} to {}{}, work {work_len}, chain{}",
        hex(ask.rec),
        hex(ask.pat),
        ask.from,
        ask.to,
        options_text(ask.options),
        numbers(chain)
    )
}

pub fn check(library: &dyn Library, ask: Ask, chain: &[u16], work: &[u32]) -> Compared {
    let expected = request::check(ask, chain, work.len());
    check_against(library, ask, chain, work, &expected)
}

fn check_against(
    library: &dyn Library,
    ask: Ask,
    chain: &[u16],
    work: &[u32],
    expected: &CheckReply,
) -> Compared {
    let given = Given::new(ask.rec, ask.pat, ask.options);
    let given_chain = chain.to_vec();
    let mut lent = Lent::new(work, 0xA5A5_A5A5);
    let call = Ask {
        rec: &given.rec,
        pat: &given.pat,
        options: given.options(),
        ..ask
    };
    let got = library.check(call, &given_chain, lent.inside());
    compare_reply(got, expected.number())
        .and_then(|()| lent.compare("work area", &expected.work_after(work)))
        .and_then(|()| given.compare(ask.rec, ask.pat, ask.options))
        .and_then(|()| {
            if given_chain == chain {
                Ok(())
            } else {
                Err("the chain was written".to_string())
            }
        })
        .map_err(|what| format!("{}: {what}", check_text(ask, chain, work.len())))?;
    Ok(got)
}

pub fn find(library: &dyn Library, ask: Ask, work: &[u32], out: &[u16]) -> Compared {
    let expected = request::find(ask, work.len(), out.len());
    find_against(library, ask, work, out, &expected)
}

/// The same, the reply that is expected being known.
pub fn find_against(
    library: &dyn Library,
    ask: Ask,
    work: &[u32],
    out: &[u16],
    expected: &FindReply,
) -> Compared {
    let given = Given::new(ask.rec, ask.pat, ask.options);
    let mut lent = Lent::new(work, 0xA5A5_A5A5);
    let mut lent_out = Lent::new(out, 0xA5A5);
    let call = Ask {
        rec: &given.rec,
        pat: &given.pat,
        options: given.options(),
        ..ask
    };
    let got = library.find(call, lent.inside(), lent_out.inside());
    compare_reply(got, expected.number())
        .and_then(|()| lent_out.compare("output", &expected.out_after(out)))
        .and_then(|()| lent.compare("work area", &expected.work_after(work)))
        .and_then(|()| given.compare(ask.rec, ask.pat, ask.options))
        .map_err(|what| {
            let expected = match expected {
                FindReply::Found(chain) => format!(" (expected chain{})", numbers(chain)),
                _ => String::new(),
            };
            format!(
                "find, record {}, pattern {}, {} to {}{}, work {}, output {}: {what}{expected}",
                hex(ask.rec),
                hex(ask.pat),
                ask.from,
                ask.to,
                options_text(ask.options),
                work.len(),
                out.len()
            )
        })?;
    Ok(got)
}

// ---- lists of starts

pub fn starts(library: &dyn Library, listed: Listed, work: &[u32], lengths: &[u32]) -> Compared {
    let expected = request::starts(listed, work.len(), lengths.len());
    starts_against(library, listed, work, lengths, &expected)
}

/// The same, the reply that is expected being known.
pub fn starts_against(
    library: &dyn Library,
    listed: Listed,
    work: &[u32],
    lengths: &[u32],
    expected: &StartsReply,
) -> Compared {
    let given = Given::new(listed.rec, listed.pat, listed.options);
    let given_starts = listed.starts.to_vec();
    let mut lent = Lent::new(work, 0xA5A5_A5A5);
    let mut lent_lengths = Lent::new(lengths, 0xA5A5_A5A5);
    let call = Listed {
        rec: &given.rec,
        pat: &given.pat,
        starts: &given_starts,
        options: given.options(),
        ..listed
    };
    let got = library.starts(call, lent.inside(), lent_lengths.inside());
    compare_reply(got, expected.number())
        .and_then(|()| lent_lengths.compare("lengths", &expected.lengths_after(lengths)))
        .and_then(|()| lent.compare("work area", &expected.work_after(work)))
        .and_then(|()| given.compare(listed.rec, listed.pat, listed.options))
        .and_then(|()| {
            if given_starts == listed.starts {
                Ok(())
            } else {
                Err("the list of starts was written".to_string())
            }
        })
        .map_err(|what| {
            let (work, lengths) = (work.len(), lengths.len());
            format!(
                "{}, work {work}, lengths {lengths}: {what}",
                starts_text(listed)
            )
        })?;
    Ok(got)
}

/// The finder of the same library says of each listed place alone what stands in its entry, with an
/// output that just holds the chain. Each place is asked about once, in the list's order, and so
/// many of them at most. Gives the finder's replies.
pub fn starts_alone(
    library: &dyn Library,
    listed: Listed,
    work: &[u32],
    told: &[Option<usize>],
    most: usize,
) -> Result<Vec<u64>, String> {
    let mut asked = BTreeSet::new();
    let entries = listed.starts.iter().zip(told);
    entries
        .filter(|(start, _)| asked.insert(**start))
        .take(most)
        .map(|(&start, told)| {
            let mut work = work.to_vec();
            let mut out = vec![0xA5A5; told.unwrap_or(0)];
            let got = library.find(listed.alone(start), &mut work, &mut out);
            let expected = told.map_or(NO_CHAIN, |length| length as u64);
            compare_reply(got, expected).map_err(|what| {
                let (list, entries) = (starts_text(listed), out.len());
                format!("{list}; find from {start} alone with {entries} entries, {what}")
            })?;
            Ok(got)
        })
        .collect()
}

/// A question about a list of starts, as text.
fn starts_text(listed: Listed) -> String {
    format!(
        "starts, record {}, pattern {}, to {}{}, list{}",
        hex(listed.rec),
        hex(listed.pat),
        listed.to,
        options_text(listed.options),
        numbers(listed.starts)
    )
}

// ---- searches under way

pub fn search_words(library: &dyn Library, rec: &[u8], pat: &[u8]) -> Compared {
    let expected = search::words(rec, pat).unwrap_or_else(|number| refused(number, 0));
    let given = Given::new(rec, pat, None);
    let got = library.search_words(&given.rec, &given.pat);
    compare_reply(got, expected)
        .and_then(|()| given.compare(rec, pat, None))
        .map_err(|what| {
            let (rec, pat) = (hex(rec), hex(pat));
            format!("words of a search, record {rec}, pattern {pat}: {what}")
        })?;
    Ok(got)
}

/// A search of a library's beside this program's. Each call is lent a copy of the area as this
/// program says that it stands, so at another address.
pub struct Searching<'a> {
    library: &'a dyn Library,
    /// The record that was asked about is in front; there is room for lines.
    buf: Vec<u8>,
    len: usize,
    /// Where the pattern was.
    pat: Vec<u8>,
    /// What the finder says about the record as it was.
    first: Result<Option<Vec<u16>>, u8>,
    area: Vec<u32>,
    /// The calls so far, as text.
    told: String,
}

impl<'a> Searching<'a> {
    /// Gives the reply to begin too. After a refusal the area is the lent one, and no search.
    pub fn begin(
        library: &'a dyn Library,
        ask: Ask,
        work: &[u32],
    ) -> Result<(u64, Searching<'a>), String> {
        let (expected, after) = search::begin_values(ask, work);
        let first = request::shortest(ask, work.len());
        let mut searching = Searching {
            library,
            buf: [ask.rec, &[0xA5; 60]].concat(),
            len: ask.rec.len(),
            pat: ask.pat.to_vec(),
            first,
            area: after,
            told: format!(
                "search, record {}, pattern {}, {} to {}{}, area {}",
                hex(ask.rec),
                hex(ask.pat),
                ask.from,
                ask.to,
                options_text(ask.options),
                work.len()
            ),
        };
        let mut lent = Lent::new(work, 0xA5A5_A5A5);
        // The options are gone when the call is over, so that nothing can hang on them later.
        let given = Given::new(&[], &[], ask.options);
        let call = Ask {
            rec: &searching.buf[..searching.len],
            pat: &searching.pat,
            options: given.options(),
            ..ask
        };
        let got = library.search_begin(call, lent.inside());
        compare_reply(got, expected)
            .and_then(|()| lent.compare("area", &searching.area))
            .and_then(|()| unchanged(call.rec, call.pat, ask.rec, ask.pat))
            .and_then(|()| given.compare(&[], &[], ask.options))
            .map_err(|what| searching.difference(&format!("begin: {what}")))?;
        // From here on nothing may hang on the pattern's bytes where they were.
        searching.pat.fill(0xA5);
        Ok((got, searching))
    }

    /// The area as it stands.
    pub fn area(&self) -> &[u32] {
        &self.area
    }

    /// The first shortest chain's length, 0 where there is none.
    pub fn length(&self) -> usize {
        match &self.first {
            Ok(Some(chain)) => chain.len(),
            _ => 0,
        }
    }

    /// A difference as text, with all that was called.
    pub fn difference(&self, what: &str) -> String {
        format!("{}; {what}", self.told)
    }

    pub fn moved(&mut self, amount: usize) -> Compared {
        let (expected, after) = search::move_values(&self.area, amount);
        let mut lent = Lent::new(&self.area, 0xA5A5_A5A5);
        let got = self.library.search_move(lent.inside(), amount);
        self.told += &format!(", move {amount}");
        compare_reply(got, expected)
            .and_then(|()| lent.compare("area", &after))
            .map_err(|what| self.difference(&what))?;
        self.area = after;
        Ok(got)
    }

    /// Where a search is under way, this program has to say what its finder says.
    pub fn finish(&mut self, out: &[u16]) -> Compared {
        let expected = search::finish(&self.area, out.len());
        if is_begun(&self.area) {
            let found = fitted(self.first.clone(), out.len());
            assert_eq!(expected, found, "the two ways differ");
        }
        let mut lent = Lent::new(&self.area, 0xA5A5_A5A5);
        let mut lent_out = Lent::new(out, 0xA5A5);
        let got = self.library.search_finish(lent.inside(), lent_out.inside());
        self.told += &format!(", finish with {} entries", out.len());
        let after = expected.work_after(&self.area);
        compare_reply(got, expected.number())
            .and_then(|()| lent_out.compare("output", &expected.out_after(out)))
            .and_then(|()| lent.compare("area", &after))
            .map_err(|what| self.difference(&what))?;
        self.area = after;
        Ok(got)
    }

    /// Adds a line to the record, where it stood when the search was begun.
    pub fn add(&mut self, line: Line) -> Compared {
        let (expected, after) = values_after(record::add(&self.buf, self.len, line), &self.buf);
        let got = self.library.add(&mut self.buf, self.len, line);
        self.told += &format!(", add {line:?}");
        compare_reply(got, expected).map_err(|what| self.difference(&what))?;
        if self.buf != after {
            return Err(self.difference("the record is another"));
        }
        if got >> 32 == 0 {
            self.len = got as usize;
        }
        Ok(got)
    }

    /// Goes on in an area of another length, no shorter than begin asked for: what is there beyond
    /// the search is zeros.
    pub fn lend(&mut self, words: usize) {
        self.told += &format!(", {words} words from here on");
        self.area.resize(words, 0);
    }

    /// A move of an area that was altered: it says 26 and leaves it, or a count up to the amount.
    pub fn altered_move(&self, altered: &[u32], amount: usize) -> Compared {
        let mut lent = Lent::new(altered, 0xA5A5_A5A5);
        let got = self.library.search_move(lent.inside(), amount);
        let told = match (got >> 32, got as u32) {
            _ if got == refused(NO_SEARCH, 0) => lent.compare("altered area", altered),
            (0, taken) if is_begun(altered) && taken as usize <= amount => {
                lent.compare_margins("altered area")
            }
            _ => Err(format!("reply: {}", shown(got))),
        };
        told.map_err(|what| {
            let altered = self.altered(altered);
            self.difference(&format!("{altered}, then move {amount}: {what}"))
        })?;
        Ok(got)
    }

    /// A finish of such an area: it says 26 and leaves area and output, or one of the other
    /// replies.
    pub fn altered_finish(&self, altered: &[u32], out: &[u16]) -> Compared {
        let mut lent = Lent::new(altered, 0xA5A5_A5A5);
        let mut lent_out = Lent::new(out, 0xA5A5);
        let got = self.library.search_finish(lent.inside(), lent_out.inside());
        let fits = got == NO_CHAIN || got <= out.len() as u64;
        let told = match got >> 32 {
            _ if got == refused(NO_SEARCH, 0) => lent
                .compare("altered area", altered)
                .and_then(|()| lent_out.compare("output", out)),
            0 | 19 if is_begun(altered) && (fits || got >> 32 == 19) => lent
                .compare_margins("altered area")
                .and_then(|()| lent_out.compare_margins("output")),
            _ => Err(format!("reply: {}", shown(got))),
        };
        told.map_err(|what| {
            let (altered, entries) = (self.altered(altered), out.len());
            self.difference(&format!(
                "{altered}, then finish with {entries} entries: {what}"
            ))
        })?;
        Ok(got)
    }

    /// What was altered, as text.
    fn altered(&self, altered: &[u32]) -> String {
        let mut text = format!("altered, {} words", altered.len());
        let pairs = self.area.iter().zip(altered).enumerate();
        let changed = pairs.filter(|(_, (was, is))| was != is);
        for (at, (_, is)) in changed.clone().take(50) {
            text += &format!(", word {at} is {is}");
        }
        text + &format!(" ({} in all)", changed.count())
    }
}

/// Is the area neither empty nor one whose first word is 0?
fn is_begun(area: &[u32]) -> bool {
    area.first().is_some_and(|&word| word != 0)
}
