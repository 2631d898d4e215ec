//! This program once more behind the eighteen functions, with one fault in it.

use super::counting::counted;
use super::listing;
use super::reading::{self, fits_machine, misread, places_pass};
use super::searching;
use super::stepping;
use super::windowing;
use super::Fault::{self, *};
use crate::chains::{search, Asked};
use crate::library::{fields_of, Ask, Library, Listed};
use crate::pattern::{Pattern, MOST_COMMANDS};
use crate::record::{line_starts, width, Line, Record, LONGEST, MOST_LINES, UNREAD};
use crate::request::{refused, search_size, LARGEST, NO_CHAIN};

pub struct Faulty(pub Fault);

impl Faulty {
    fn is(&self, fault: Fault) -> bool {
        self.0 == fault
    }

    fn both(&self, rec: &[u8], pat: &[u8]) -> Result<(Record, Pattern), u8> {
        let record = reading::read_record(self.0, rec)?;
        let pattern = reading::read_pattern(self.0, pat)?;
        Ok((record, pattern))
    }

    fn size(&self, record: &Record, pattern: &Pattern, pattern_bytes: usize) -> u128 {
        let right = search_size(record, pattern);
        let power = |base: usize| (base as u128).pow(pattern.keeps as u32);
        let spots = record.places as u128 * (pattern.unfolded as u128 + 1);
        let by = |count: usize| right / (pattern.unfolded as u128 + 1) * (count as u128 + 1);
        match self.0 {
            SizeByLines => spots * power(record.lines.len() + 1),
            SizeByBytes => by(pattern_bytes),
            SizeAsWritten => by(pattern.commands),
            SizeWithoutOne => spots * power(counted(self.0, &record.lines).0),
            SizeWithoutUnread => {
                let unread = record.lines.iter().any(|line| line.boat() == UNREAD);
                spots * power(counted(self.0, &record.lines).0 + 1 - unread as usize)
            }
            SizeWraps => right as u32 as u128,
            _ => right,
        }
    }

    /// The size that 16 and 17 go by, the lines inside being known.
    fn asked_size(&self, record: &Record, inside: &[bool], pattern: &Pattern, ask: Ask) -> u128 {
        if !self.is(BoatsInside) {
            return self.size(record, pattern, ask.pat.len());
        }
        let lines = record.lines.iter().zip(inside);
        let usable = Record {
            places: record.places,
            lines: lines.filter(|(_, &is)| is).map(|(line, _)| *line).collect(),
        };
        self.size(&usable, pattern, ask.pat.len())
    }

    /// Questions 1 to 17, 22, 24, 25, 27 and 28.
    fn ask(&self, ask: Ask, work: &mut [u32]) -> Result<Asked, u8> {
        let mut record = reading::read_record(self.0, ask.rec)?;
        let later = self.is(Asks25After15);
        let reader = if later { Asks25AsWritten } else { self.0 };
        let mut pattern = reading::read_pattern(reader, ask.pat)?;
        let inside = windowing::inside(self.0, ask.options, &record.lines);
        let size = self.asked_size(&record, &inside, &pattern, ask);
        let order: &[u8] = match self.0 {
            Asks16Before15 => &[16, 15, 27, 17],
            Asks17Before15 => &[16, 17, 15, 27],
            Asks17Before16 => &[15, 27, 17, 16],
            Asks25After15 => &[15, 25, 27, 16, 17],
            Asks27Before15 => &[27, 15, 16, 17],
            Asks27After16 => &[15, 16, 27, 17],
            Asks27After17 => &[15, 16, 17, 27],
            _ => &[15, 27, 16, 17],
        };
        let fails = |question: &u8| match question {
            15 => ask.from >= record.places || ask.to >= record.places,
            25 => later && pattern.unfolded > MOST_COMMANDS,
            27 => windowing::refuses(self.0, ask.options, &record, &pattern.root),
            16 => size > LARGEST,
            _ => (work.len() as u128) < 4 * size + 8_192,
        };
        if let Some(number) = order.iter().copied().find(fails) {
            match (self.0, number) {
                (ClearsAt16, 16) | (ClearsAt17, 17) | (ClearsAt27, 27) => work.fill(0),
                (CountsInArea, 16) => {
                    for (word, line) in work.iter_mut().zip(&record.lines) {
                        *word = line.sail;
                    }
                }
                _ => {}
            }
            return Err(number);
        }
        for line in record.lines.iter_mut() {
            match self.0 {
                NoClass if line.boat() != UNREAD => line.class = 1,
                UnreadByClass if line.class == 0 => line.sail = 0,
                UnreadByNumber if line.sail == 0 => line.class = 0,
                _ => {}
            }
        }
        pattern.root = misread(self.0, pattern.root);
        Ok(Asked {
            record,
            inside,
            pattern,
            from: ask.from,
            to: ask.to,
        })
    }

    /// Yes or no, or 18.
    fn checked(&self, mut asked: Asked, chain: &[u16], dirty: bool) -> u64 {
        if self.is(CheckWithoutWindows) {
            asked.inside.fill(true);
        }
        let line = |number: &u16| {
            let number = *number as usize;
            let line = asked.record.lines.get(number).copied();
            line.filter(|_| !self.is(Outside18) || asked.inside[number])
        };
        if let Some(missing) = chain.iter().position(|number| line(number).is_none()) {
            let mut place = asked.from;
            let joins = chain[..missing].iter().filter_map(line).all(|line| {
                let joins = line.from == place;
                place = line.to;
                joins
            });
            let no = self.is(NoForMissingLine) || (self.is(NoAtBadJoin) && !joins);
            return if no { 0 } else { refused(18, 0) };
        }
        let (first, last) = (chain.first().and_then(line), chain.last().and_then(line));
        match (self.0, first, last) {
            (AnyStart, Some(first), _) => asked.from = first.from,
            (AnyEnd, _, Some(last)) => asked.to = last.to,
            (YesToEmpty, None, _) => asked.to = asked.from,
            _ => {}
        }
        let accepted = match self.0 {
            _ if !fits_machine(&asked.pattern.root) => false,
            TrustsArea if dirty => false,
            OneStateChecked => searching::one_state_checked(&asked, chain),
            fault if searching::of_tests(fault) => searching::checked(&asked, fault, chain),
            _ => asked.accepted_by_machine(chain),
        };
        accepted as u64
    }

    fn first(&self, asked: &Asked, dirty: bool) -> Option<Vec<u16>> {
        if self.is(Renumbered) {
            return search(asked).map(|chain| windowing::renumbered(chain, &asked.inside));
        }
        let no_longer = |most: usize| search(asked).filter(|chain| chain.len() <= most);
        match self.0 {
            _ if !fits_machine(&asked.pattern.root) => None,
            TrustsArea if dirty => None,
            MarksWithoutBoats => {
                searching::marked_by(asked, self.0, |(place, state)| (*place, state.spot))
            }
            MarksPlaces => searching::marked_by(asked, self.0, |(place, _)| *place),
            fault if searching::thinned_for(fault).is_some() || searching::of_tests(fault) => {
                searching::marked_by(asked, fault, |standing| *standing)
            }
            CutAtPlaces => no_longer(asked.record.places as usize),
            CutAt65535 => no_longer(65_535),
            DepthFirst => searching::depth_first(asked),
            WalkingOrder => searching::walking_order(asked),
            OneStateFollowed => searching::one_state_followed(asked),
            SilentStepsQueued => searching::silent_steps_queued(asked),
            LastChain => last_chain(asked),
            _ => search(asked),
        }
    }

    /// Found, none or 19, and the output.
    fn fitted(&self, first: Option<Vec<u16>>, out: &mut [u16]) -> u64 {
        let Some(chain) = first else {
            return NO_CHAIN;
        };
        let length = chain.len();
        if length > out.len() || (self.is(RefusesExact) && length == out.len()) {
            match self.0 {
                WritesPrefix => out.copy_from_slice(&chain[..out.len()]),
                InventsLength => return refused(19, out.len() as u64 + 1),
                NoneWhenShort => return NO_CHAIN,
                NoneWhenEmpty if out.is_empty() => return NO_CHAIN,
                _ => {}
            }
            return refused(19, length as u64);
        }
        out[..length].copy_from_slice(&chain);
        if self.is(ClearsOutput) {
            out[length..].fill(0);
        }
        length as u64
    }

    /// Clears the area after a reply that is not a refusal from 1 to 17.
    fn clear(&self, ask: Ask, work: &mut [u32], reply: u64) {
        match self.0 {
            NeverClears => {}
            LeavesArea if reply >> 32 != 0 => {}
            ClearsNeeded => {
                let needed = self.words(ask.rec, ask.pat) as usize;
                work[..needed].fill(0);
            }
            _ => work.fill(0),
        }
        if self.is(PastArea) {
            // The comparison lends a part of a longer buffer, so the word exists.
            unsafe { *work.as_mut_ptr().add(work.len()) = 0 }
        }
    }

    fn added(&self, buf: &mut [u8], len: usize, line: Line) -> Result<usize, u8> {
        if len > buf.len() {
            return Err(20);
        }
        if self.is(AddAsks1OfBuffer) && buf.len() > LONGEST {
            return Err(1);
        }
        let record = reading::read_record(self.0, &buf[..len])?;
        if self.is(AddAsks7OfBuffer) && len != buf.len() {
            return Err(7);
        }
        let bytes = self.bytes_added(line);
        let order: &[u8] = match self.0 {
            Add28Before6 => &[5, 28, 6, 21, 22, 23],
            Never28OfAdded => &[5, 6, 21, 22, 23],
            Add21Before28 => &[5, 6, 21, 28, 22, 23],
            Add22Before21 => &[5, 6, 28, 22, 21, 23],
            Add23Before22 => &[5, 6, 28, 21, 23, 22],
            _ => &[5, 6, 28, 21, 22, 23],
        };
        let wanted = match self.0 {
            TenBytesFor23 => 10,
            _ => bytes.len(),
        };
        let fails = |question: &u8| match question {
            22 => record.lines.len() >= MOST_LINES + self.is(OneLineMore) as usize,
            23 => len + wanted > buf.len(),
            _ => reading::fails(self.0, &line, record.places, *question),
        };
        let failing = order.iter().copied().find(fails);
        let mut at = len - 1;
        if let Some(number) = failing {
            if number == 23 && self.is(WritesBefore23) {
                let fits = buf.len() - at;
                buf[at..].copy_from_slice(&bytes[..fits]);
            }
            return Err(number);
        }
        if self.is(AddsAfterEnd) && len + bytes.len() < buf.len() {
            at = len;
        }
        if !self.is(OnlyReports) {
            let mut written = bytes.clone();
            if !self.is(NoEndByte) {
                written.push(0);
            }
            // All of it fits, but where 23 asked for too little.
            let fits = written.len().min(buf.len() - at);
            buf[at..at + fits].copy_from_slice(&written[..fits]);
        }
        match self.0 {
            SaysTenMore => Ok(len + 10),
            _ => Ok(len + bytes.len()),
        }
    }

    /// The bytes that are written for a line.
    fn bytes_added(&self, line: Line) -> Vec<u8> {
        let mut bytes = line.bytes();
        match self.0 {
            SailTurned => bytes.swap(5, 7),
            TimeTurned => bytes[10..].reverse(),
            AddsWithoutTime => bytes = Line { time: None, ..line }.bytes(),
            _ => {}
        }
        bytes
    }
}

/// The first shortest chain of the lines in the opposite order.
fn last_chain(asked: &Asked) -> Option<Vec<u16>> {
    let (mut lines, mut inside) = (asked.record.lines.clone(), asked.inside.clone());
    lines.reverse();
    inside.reverse();
    let last = lines.len().wrapping_sub(1) as u16;
    let turned = Asked {
        record: Record {
            places: asked.record.places,
            lines,
        },
        inside,
        pattern: asked.pattern.clone(),
        ..*asked
    };
    let chain = search(&turned)?;
    Some(chain.into_iter().map(|number| last - number).collect())
}

impl Library for Faulty {
    fn begin(&self, buf: &mut [u8], places: u16) -> u64 {
        if !places_pass(self.0, places) {
            return refused(2, 0);
        }
        if buf.len() < 4 {
            return refused(23, 0);
        }
        if self.is(BeginClears) {
            buf.fill(0);
        }
        let [mut high, mut low] = places.to_be_bytes();
        if self.is(BeginLowFirst) {
            (high, low) = (low, high);
        }
        buf[..4].copy_from_slice(&[0x01, high, low, 0x00]);
        4
    }

    fn add(&self, buf: &mut [u8], len: usize, line: Line) -> u64 {
        match self.added(buf, len, line) {
            Ok(length) => length as u64,
            Err(number) => refused(number, 0),
        }
    }

    fn read(&self, rec: &[u8], number: u16, fields: &mut [u32]) -> u64 {
        let mut asked = rec.to_vec();
        let start = line_starts(rec).get(number as usize).copied();
        let end = start.and_then(|start| Some(start + width(rec[start])?));
        if self.is(ReadsToLine) && end.is_some_and(|end| end < rec.len()) && rec.len() <= LONGEST {
            asked.truncate(end.unwrap_or(0));
            asked.push(0);
        }
        let record = match reading::read_record(self.0, &asked) {
            Ok(record) => record,
            Err(number) => return refused(number, 0),
        };
        let Some(line) = record.lines.get(number as usize) else {
            return refused(18, 0);
        };
        let mut values = fields_of(line);
        match self.0 {
            ReadsAtTen => {
                values = fields_of(&reading::line_at(self.0, rec, 3 + 10 * number as usize))
            }
            UntimedAtZero if line.time.is_none() => values.push(0),
            TimeLost => values.truncate(5),
            FiveOfSix if fields.len() == 5 => values.truncate(5),
            _ => {}
        }
        let fits = fields.len() >= values.len();
        let written = fits || (self.is(ShortFields) && fields.len() < 5);
        if !written {
            return 0;
        }
        for (field, value) in fields.iter_mut().zip(&values) {
            *field = *value;
        }
        if fits {
            values.len() as u64
        } else {
            0
        }
    }

    fn pattern(&self, pat: &[u8], counts: &mut [u32]) -> u64 {
        if self.is(RoomBeforePattern) && counts.len() < 2 {
            return 0;
        }
        let pattern = match reading::read_pattern(self.0, pat) {
            Ok(pattern) => pattern,
            Err(number) => return refused(number, 0),
        };
        if counts.len() < 2 && !self.is(ShortCounts) {
            return 0;
        }
        let mut values = [pattern.commands, pattern.keeps, pattern.unfolded].map(|n| n as u32);
        let mut written = counts.len().min(values.len());
        match self.0 {
            CountsSwapped => values.swap(0, 1),
            UnfoldedBeforeKeeps => values.swap(1, 2),
            UnfoldedAsWritten => values[2] = values[0],
            TwoCounts => written = written.min(2),
            // The comparison lends a part of a longer buffer, so the word exists.
            ThirdOfTwo if counts.len() == 2 => unsafe { *counts.as_mut_ptr().add(2) = values[2] },
            _ => {}
        }
        counts[..written].copy_from_slice(&values[..written]);
        if counts.len() < 2 {
            0
        } else {
            written as u64
        }
    }

    fn boats(&self, rec: &[u8], counts: &mut [u32]) -> u64 {
        if self.is(RoomBeforeRecord) && counts.len() < 2 {
            return 0;
        }
        let record = match reading::read_record(self.0, rec) {
            Ok(record) => record,
            Err(number) => {
                if self.is(WritesWhereRefused) {
                    counts.iter_mut().take(2).for_each(|word| *word = 0);
                }
                return refused(number, 0);
            }
        };
        let (boats, reads) = counted(self.0, &record.lines);
        let mut values = [boats as u32, reads as u32];
        match (self.0, counts.len()) {
            (OneWordForBoats, 1) => {
                counts[0] = values[0];
                return 1;
            }
            (_, 0 | 1) => return 0,
            (ReadsBeforeBoats, _) => values.swap(0, 1),
            // The comparison lends a part of a longer buffer, so the word exists.
            (ThirdPastBoats, 2) => unsafe { *counts.as_mut_ptr().add(2) = 0 },
            (ThirdBesideBoats, 3..) => counts[2] = 0,
            _ => {}
        }
        counts[..2].copy_from_slice(&values);
        2
    }

    fn words(&self, rec: &[u8], pat: &[u8]) -> u64 {
        let (record, pattern) = match self.both(rec, pat) {
            Ok(both) => both,
            Err(number) => return refused(number, 0),
        };
        match self.size(&record, &pattern, pat.len()) {
            size if size > LARGEST => refused(16, 0),
            size => 4 * size as u64 + 8_192,
        }
    }

    fn check(&self, ask: Ask, chain: &[u16], work: &mut [u32]) -> u64 {
        let dirty = work.iter().any(|&word| word != 0);
        let asked = match self.ask(ask, work) {
            Ok(asked) => asked,
            Err(17) if self.is(Asks18Before17) => {
                let lines = reading::read_record(self.0, ask.rec).map_or(0, |r| r.lines.len());
                let missing = chain.iter().any(|&number| number as usize >= lines);
                return refused(if missing { 18 } else { 17 }, 0);
            }
            Err(number) => return refused(number, 0),
        };
        let reply = self.checked(asked, chain, dirty);
        self.clear(ask, work, reply);
        reply
    }

    fn find(&self, ask: Ask, work: &mut [u32], out: &mut [u16]) -> u64 {
        let dirty = work.iter().any(|&word| word != 0);
        let mut asked = match self.ask(ask, work) {
            Ok(asked) => asked,
            Err(number) => return refused(number, 0),
        };
        if self.is(FindWithoutWindows) {
            asked.inside.fill(true);
        }
        let reply = self.fitted(self.first(&asked, dirty), out);
        self.clear(ask, work, reply);
        reply
    }

    fn search_words(&self, rec: &[u8], pat: &[u8]) -> u64 {
        stepping::words(self.0, rec, pat)
    }

    fn search_begin(&self, ask: Ask, work: &mut [u32]) -> u64 {
        stepping::begin(self.0, ask, work)
    }

    fn search_move(&self, work: &mut [u32], amount: usize) -> u64 {
        stepping::moved(self.0, work, amount)
    }

    fn search_finish(&self, work: &mut [u32], out: &mut [u16]) -> u64 {
        let first = match stepping::finished(self.0, work) {
            Ok(first) => first,
            Err(refusal) => return refusal,
        };
        let reply = self.fitted(first, out);
        if !(self.is(LeavesSearchAfter19) && reply >> 32 == 19) {
            work.fill(0);
        }
        reply
    }

    fn starts(&self, listed: Listed, work: &mut [u32], lengths: &mut [u32]) -> u64 {
        listing::starts(self.0, listed, work, lengths)
    }
}
