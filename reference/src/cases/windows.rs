//! Request Seven by hand: timed lines read, added and read back, and windows in the checker, the
//! finder, searches in steps and lists of starts.

use super::{
    ask, boats, exact, expect, held, held_areas, line, lines_of_r, list, ok, r, repeats,
    vector_list, words_of, Bench, Done, ANY, BY, E, NONE, P,
};
use crate::compare;
use crate::library::{Ask, Listed};
use crate::record::{written, Line, DAY, LONGEST, MOST_LINES};
use crate::request::{refused, NO_CHAIN};
use crate::search;
use crate::windows::{KINDS, OPTIONS};

type Case = Result<String, String>;

/// A line of kind 1, and no more.
const ONE: [u8; 2] = [0x21, 1];

/// The options of windows for some kinds, the others having the whole day.
fn windows(given: &[(u8, u32, u32)]) -> Vec<u32> {
    let mut words = [0, DAY].repeat(KINDS);
    for &(kind, open, close) in given {
        let at = 2 * (kind as usize - 1);
        words[at..at + 2].copy_from_slice(&[open, close]);
    }
    words
}

fn with<'a>(ask: Ask<'a>, options: &'a [u32]) -> Ask<'a> {
    Ask {
        options: Some(options),
        ..ask
    }
}

/// A list of starts with the options of a question.
fn listed<'a>(ask: Ask<'a>, starts: &'a [u16]) -> Listed<'a> {
    Listed {
        options: ask.options,
        ..list(ask.rec, ask.pat, starts, ask.to)
    }
}

impl Bench<'_> {
    /// The finder comes to this chain, or to none, and so do a search in steps and a list of starts.
    fn comes_to(&self, ask: Ask, chain: Option<&[u16]>) -> Done {
        match chain {
            Some(chain) => self.found(ask, chain)?,
            None => self.none(ask)?,
        }
        let length = chain.map(<[u16]>::len);
        self.finished(&mut self.begun(ask)?, length.unwrap_or(0), length)?;
        let word = length.map_or(NONE, |length| length as u32);
        self.starts(listed(ask, &[ask.from]), &[word])
    }

    /// Checker, finder, the begin of a search and a list of starts refuse with this number, so many
    /// words being lent.
    fn refused_by_all(&self, ask: Ask, work_len: usize, number: u8) -> Done {
        let refusal = refused(number, 0);
        self.check_in(ask, &[0], work_len, refusal)?;
        self.find_in(ask, work_len, 3, refusal)?;
        self.begin_in(ask, work_len, refusal)?;
        for starts in [&[ask.from][..], &[ask.from, ask.from]] {
            self.starts_in(listed(ask, starts), work_len, 1, refusal)?;
        }
        Ok(())
    }

    /// Every function that is given a record refuses it with this number.
    fn record_refused(&self, rec: &[u8], number: u8) -> Done {
        let refusal = refused(number, 0);
        self.words(rec, &[0x20], refusal)?;
        self.read(rec, 0, refusal)?;
        self.boats(rec, Err(number))?;
        self.add(rec, rec.len(), line(9, 0, 0, u32::MAX, 9), refusal)?;
        expect(
            "words of a search",
            compare::search_words(self.library, rec, &[0x20])?,
            refusal,
        )?;
        self.refused_by_all(ask(rec, &[0xFF], 9, 9), 0, number)
    }
}

// ---- records

/// The bytes of a record of one place that begins with these and ends here, or is cut.
fn one_place(bytes: &[u8]) -> Vec<u8> {
    [&[1, 0, 1], bytes].concat()
}

pub fn records(b: &Bench) -> Case {
    let good = line(0, 1, 1, 7, 0);
    let timed = |time: u32| written(1, &[good.at(time)]);
    let passes = |rec: &[u8]| b.words(rec, &[0x20], words_of(2));
    // The command, the nine operands, four bytes of time, high byte first.
    let bytes = [3, 0, 0, 1, 1, 0, 0, 7, 0, 0, 0, 1, 0x51, 0x7F];
    if timed(86_399) != one_place(&[&bytes[..], &[0]].concat()) {
        return Err("this program writes a timed line in another way".to_string());
    }
    // 3, 4 and 7: fourteen bytes, and then the next.
    for cut in 1..14 {
        b.record_refused(&one_place(&bytes[..cut]), 4)?;
    }
    b.record_refused(&one_place(&bytes), 3)?;
    passes(&timed(86_399))?;
    b.record_refused(&[timed(5), vec![0]].concat(), 7)?;
    // An end byte that would be the last of the time, and bytes of a time that look like an end.
    b.record_refused(&one_place(&[&bytes[..13], &[0]].concat()), 3)?;
    passes(&timed(0))?;
    b.record_refused(&one_place(&[&bytes[..10], &[0]].concat()), 4)?;
    for command in [4, 0x13, 0x20, 0x83] {
        b.record_refused(&one_place(&[&[command], &bytes[1..], &[0]].concat()), 3)?;
    }
    // 28: below 86,400, in all four bytes.
    for time in [1, 255, 256, 65_535, 65_536, 86_398] {
        passes(&timed(time))?;
    }
    for time in [
        DAY,
        DAY + 1,
        DAY + 65_536,
        1 << 17,
        1 << 24,
        1 << 31,
        u32::MAX,
    ] {
        b.record_refused(&timed(time), 28)?;
    }
    // 4, 5 and 6 before 28.
    b.record_refused(&written(1, &[line(0, 0, 1, 7, 0).at(DAY)]), 6)?;
    b.record_refused(&written(1, &[line(0, 16, 1, 7, 0).at(DAY)]), 6)?;
    b.record_refused(&written(1, &[line(1, 1, 1, 7, 0).at(DAY)]), 5)?;
    b.record_refused(&written(1, &[line(0, 0, 1, 7, 1).at(DAY)]), 5)?;
    b.record_refused(&timed(u32::MAX)[..16], 4)?;
    // Line by line.
    let late = good.at(DAY);
    b.record_refused(&written(1, &[late, line(1, 1, 1, 7, 0)]), 28)?;
    b.record_refused(&written(1, &[line(1, 1, 1, 7, 0), late]), 5)?;
    b.record_refused(&written(1, &[good, late, line(0, 0, 1, 7, 0)]), 28)?;
    b.record_refused(&[written(1, &[late]), vec![0]].concat(), 28)?;
    // Timed lines and others one after the other: each line begins where the one before ends.
    let mut lines = Vec::new();
    for number in 0..9 {
        let boat = line(0, 1, number as u8, 512, 0);
        lines.push(match number % 4 {
            0 | 3 => boat.at(3 * 65_536 / (number + 3)),
            _ => boat,
        });
        let rec = written(1, &lines);
        b.boats(&rec, Ok([number + 1, number * (number + 1) / 2]))?;
        b.record_refused(&rec[..rec.len() - 1], 3)?;
        b.record_refused(&rec[..rec.len() - 2], 4)?;
    }
    ok()
}

pub fn too_many_lines(b: &Bench) -> Case {
    let good = line(0, 15, 255, 0xFF_FFFF, 0);
    let late = good.at(86_399);
    for (lines, length) in [
        ([good, good], 40_964),
        ([late, late], LONGEST),
        ([good, late], 49_156),
    ] {
        let lines: Vec<Line> = lines.into_iter().cycle().take(MOST_LINES + 1).collect();
        let full = written(1, &lines[..MOST_LINES]);
        expect("length", full.len() as u64, length as u64)?;
        b.words(&full, &[0x20], words_of(2))?;
        b.boats(&full, Ok([1, 4_095]))?;
        let last = lines[MOST_LINES - 1];
        b.read(&full, 4_095, if last.time.is_some() { 6 } else { 5 })?;
        b.read(&full, 4_096, refused(18, 0))?;
        // In the place of the end: a line more is met, before 4. What else is there gets 3 or 7.
        let mut over = full.clone();
        for (command, number) in [(2, 22), (3, 22), (4, 3), (1, 3)] {
            over[length - 1] = command;
            b.record_refused(&over, number)?;
        }
        if length < LONGEST {
            b.record_refused(&[&full[..], &[0]].concat(), 7)?;
            b.record_refused(&written(1, &lines), 22)?;
            // Before 5, 6 and 28, and a line with all of it good.
            for new in [
                line(9, 0, 1, 1, 9).at(u32::MAX),
                line(0, 0, 1, 1, 0),
                line(0, 1, 1, 1, 0).at(DAY),
                good,
                late,
            ] {
                let lines = [&lines[..MOST_LINES], &[new]].concat();
                b.record_refused(&written(1, &lines), 22)?;
            }
        }
        // A fault in a line before it comes first.
        let mut early = written(1, &lines);
        early.truncate(LONGEST);
        early[6] = 0;
        b.record_refused(&early, 6)?;
    }
    // 1 before all: by the length alone.
    let all_timed = written(1, &vec![late; MOST_LINES]);
    b.record_refused(&[&all_timed[..], &[0]].concat(), 1)?;
    b.record_refused(&written(1, &vec![late; MOST_LINES + 1]), 1)?;
    b.record_refused(&vec![0; LONGEST + 1], 1)?;
    b.record_refused(&vec![0; LONGEST], 2)?;
    ok()
}

// ---- adding and reading back

pub fn adds(b: &Bench) -> Case {
    let good = line(0, 1, 7, 0x01_0203, 1).at(0x01_0203);
    let mut buf = written(2, &[]);
    buf.extend([9; 31]);
    // The bytes, over the old end byte, and a new end byte.
    let after = b.add(&buf, 4, good, 18)?;
    let expected = [
        1, 0, 2, 3, 0, 0, 1, 7, 1, 2, 3, 0, 1, 0, 1, 2, 3, 0, 9, 9, 9,
    ];
    if after[..21] != expected {
        return Err(format!("add wrote {:02x?}", &after[..21]));
    }
    // An untimed line after it, and a timed one after that: fourteen bytes, and ten.
    let two = b.add(&after, 18, line(1, 2, 3, 4, 0), 28)?;
    let mut more = two.clone();
    more.resize(60, 9);
    let three = b.add(&more, 28, line(1, 2, 3, 4, 0).at(0), 42)?;
    if three[..42] != written(2, &[good, line(1, 2, 3, 4, 0), line(1, 2, 3, 4, 0).at(0)]) {
        return Err("lines that were added are not read back".to_string());
    }
    // The order: 20, the record, 5, 6, 28, 21, 22, 23.
    let asked = |buf: &[u8], len: usize, line: Line, number: u8| {
        b.add(buf, len, line, refused(number, 0)).map(|_| ())
    };
    let late = |from: u16, kind: u8, sail: u32| line(from, kind, 0, sail, 1).at(DAY);
    asked(&buf, 36, late(9, 0, u32::MAX), 20)?;
    asked(&buf, usize::MAX, good, 20)?;
    asked(&buf, usize::MAX - 13, good, 20)?;
    asked(&buf, 3, late(9, 0, u32::MAX), 3)?;
    asked(&buf[..4], 4, late(2, 0, u32::MAX), 5)?;
    asked(&buf[..4], 4, late(0, 0, u32::MAX), 6)?;
    asked(&buf[..4], 4, late(0, 16, u32::MAX), 6)?;
    asked(&buf[..4], 4, late(0, 1, u32::MAX), 28)?;
    asked(&buf[..4], 4, late(0, 1, 16_777_216), 28)?;
    asked(&buf, 4, late(0, 1, 1), 28)?;
    asked(&buf, 4, good.at(u32::MAX), 28)?;
    asked(&buf, 4, good.at(1 << 17), 28)?;
    asked(&buf[..4], 4, line(0, 1, 0, 16_777_216, 1).at(86_399), 21)?;
    for time in [0, 1, 65_536, 86_399] {
        b.add(&buf, 4, good.at(time), 18)?;
    }
    // 23: fourteen bytes more, and the end byte is written over.
    for room in [4, 5, 13, 14, 15, 17] {
        asked(&buf[..room], 4, good, 23)?;
    }
    b.add(&buf[..18], 4, good, 18)?;
    b.add(&buf[..14], 4, Line { time: None, ..good }, 14)?;
    // A record's own fault before the new line's.
    let bad = written(2, &[late(0, 1, 1)]);
    asked(&bad, bad.len(), line(9, 9, 9, 9, 9), 28)?;
    // 22 before 23 and after 28 and 21; and the longest record there is.
    let one_left = written(2, &vec![good; MOST_LINES - 1]);
    let mut room = one_left.clone();
    room.resize(LONGEST - 1, 1);
    asked(&room, one_left.len(), good, 23)?;
    room.resize(LONGEST + 20, 1);
    let full = b.add(&room, one_left.len(), good, LONGEST as u64)?;
    b.read(&full[..LONGEST], 4_095, 6)?;
    for len in [LONGEST, LONGEST + 20] {
        asked(&full[..len], LONGEST, good, 22)?;
        asked(&full[..len], LONGEST, line(0, 1, 0, 1, 1), 22)?;
        asked(&full[..len], LONGEST, late(0, 1, u32::MAX), 28)?;
        asked(&full[..len], LONGEST, line(0, 1, 0, 1 << 24, 1).at(5), 21)?;
    }
    asked(&full, LONGEST + 1, good, 1)?;
    // A line too many is the record's fault, so it comes before the new line's.
    let over = written(2, &vec![line(0, 1, 1, 1, 1); MOST_LINES + 1]);
    asked(&over, over.len(), late(9, 0, u32::MAX), 22)?;
    ok()
}

pub fn reads(b: &Bench) -> Case {
    let lines = [
        line(0x0102, 5, 6, 0x07_0809, 0x03FF).at(0x01_0A0B),
        line(1, 2, 3, 4, 5),
        line(1, 2, 3, 4, 5).at(0),
        line(0, 15, 255, 16_777_215, 1_023).at(86_399),
        line(0, 0x03, 3, 0x03_0303, 0x0303),
    ];
    let rec = written(1_024, &lines);
    let read = |number: u16, room: usize| {
        let mut fields = vec![9; room];
        let said = b.library.read(&rec, number, &mut fields);
        (said, fields)
    };
    for (number, fields) in [
        (0, &[0x0102, 5, 6, 0x07_0809, 0x03FF, 0x01_0A0B][..]),
        (1, &[1, 2, 3, 4, 5]),
        (2, &[1, 2, 3, 4, 5, 0]),
        (3, &[0, 15, 255, 16_777_215, 1_023, 86_399]),
        (4, &[0, 3, 3, 0x03_0303, 0x0303]),
    ] {
        b.read(&rec, number, fields.len() as u64)?;
        // With room for just the fields, for more, and for one field fewer.
        let more = [fields, &[9, 9]].concat();
        for (room, expected) in [
            (fields.len(), (fields.len() as u64, fields.to_vec())),
            (fields.len() + 2, (fields.len() as u64, more)),
            (fields.len() - 1, (0, vec![9; fields.len() - 1])),
        ] {
            let got = read(number, room);
            if got != expected {
                return Err(format!("line {number} is read as {got:?}"));
            }
        }
    }
    b.read(&rec, 5, refused(18, 0))?;
    b.read(&rec, 65_535, refused(18, 0))?;
    // The questions come first, and those after the line too.
    let bad = [&lines[..], &[line(0, 1, 1, 1, 0).at(DAY)]].concat();
    for number in [0, 1, 5] {
        b.read(&written(1_024, &bad), number, refused(28, 0))?;
    }
    ok()
}

// ---- windows

pub fn edges(b: &Bench) -> Case {
    let all = windows(&[]);
    for (time, found) in [
        // The opening second, the closing one, and one before and after.
        (5, &[(5, 6), (0, 6), (5, 7), (4, 6), (5, DAY), (0, DAY)][..]),
        (0, &[(0, 1), (0, 2), (0, DAY), (0, 86_399)]),
        (86_399, &[(86_399, DAY), (0, DAY), (1, DAY)]),
        (65_536, &[(65_536, 65_537), (65_535, 65_537), (0, DAY)]),
    ] {
        let rec = written(1, &[line(0, 1, 1, 7, 0).at(time)]);
        let asked = ask(&rec, &ONE, 0, 0);
        b.comes_to(asked, Some(&[0]))?;
        b.comes_to(with(asked, &all), Some(&[0]))?;
        for &(open, close) in found {
            let options = windows(&[(1, open, close)]);
            b.comes_to(with(asked, &options), Some(&[0]))?;
        }
    }
    for (time, none) in [
        (
            5,
            &[(0, 5), (6, 7), (4, 5), (6, DAY), (0, 1), (86_399, DAY)][..],
        ),
        (0, &[(1, 2), (1, DAY), (86_399, DAY)]),
        (86_399, &[(0, 86_399), (86_398, 86_399), (0, 1)]),
        (65_536, &[(0, 65_536), (65_537, DAY), (0, 1)]),
    ] {
        let rec = written(1, &[line(0, 1, 1, 7, 0).at(time)]);
        for &(open, close) in none {
            let options = windows(&[(1, open, close)]);
            let asked = with(ask(&rec, &ONE, 0, 0), &options);
            b.comes_to(asked, None)?;
            b.check(asked, &[0], 0)?;
            b.check(asked, &[], 0)?;
        }
    }
    // A chain of no lines has none outside.
    let rec = written(1, &[line(0, 1, 1, 7, 0).at(5)]);
    let options = windows(&[(1, 0, 5)]);
    b.comes_to(with(ask(&rec, &[0x26, 0x21, 1], 0, 0), &options), Some(&[]))?;
    ok()
}

pub fn untimed(b: &Bench) -> Case {
    let rec = written(1, &[line(0, 1, 1, 7, 0)]);
    let asked = ask(&rec, &ONE, 0, 0);
    b.comes_to(asked, Some(&[0]))?;
    b.comes_to(with(asked, &windows(&[(1, 0, DAY)])), Some(&[0]))?;
    for (open, close) in [(0, 86_399), (1, DAY), (0, 1), (86_399, DAY), (1, 86_399)] {
        let options = windows(&[(1, open, close)]);
        b.comes_to(with(asked, &options), None)?;
        b.check(with(asked, &options), &[0], 0)?;
    }
    // One at 0 is inside where an untimed one is not, and the other way round with other kinds.
    let rec = written(1, &[line(0, 1, 1, 7, 0), line(0, 1, 1, 7, 0).at(0)]);
    let asked = ask(&rec, &ONE, 0, 0);
    b.comes_to(with(asked, &windows(&[(1, 0, 86_399)])), Some(&[1]))?;
    b.comes_to(with(asked, &windows(&[(1, 1, DAY)])), None)?;
    b.comes_to(with(asked, &windows(&[(2, 0, 1)])), Some(&[0]))?;
    ok()
}

pub fn kinds(b: &Bench) -> Case {
    // A line of each kind, at its own second; the window of one kind is closed then.
    let lines: Vec<Line> = (1..=15)
        .map(|kind| line(0, kind, 1, 7, 0).at(1_000 * kind as u32))
        .collect();
    let rec = written(1, &lines);
    for kind in 1..=15 {
        let second = 1_000 * kind as u32;
        for (options, inside) in [
            (windows(&[(kind, second, second + 1)]), true),
            (windows(&[(kind, 0, second)]), false),
            (windows(&[(kind, second + 1, DAY)]), false),
        ] {
            for other in 1..=15 {
                let pat = [0x21, other];
                let asked = with(ask(&rec, &pat, 0, 0), &options);
                let number = other as u16 - 1;
                let chain = [number];
                b.check(asked, &chain, (inside || other != kind) as u64)?;
                if other.abs_diff(kind) < 2 {
                    let found = inside || other != kind;
                    b.comes_to(asked, found.then_some(&chain[..]))?;
                }
            }
        }
    }
    // All windows apart, each open at its kind's second and no other's.
    let own: Vec<(u8, u32, u32)> = (1..=15)
        .map(|kind| (kind, 1_000 * kind as u32, 1_000 * kind as u32 + 1))
        .collect();
    let options = windows(&own);
    for kind in 1..=15 {
        let pat = [0x21, kind];
        let asked = with(ask(&rec, &pat, 0, 0), &options);
        b.comes_to(asked, Some(&[kind as u16 - 1]))?;
    }
    ok()
}

/// A kind without both its words has the whole day, and words after the thirtieth are not read.
pub fn lengths(b: &Bench) -> Case {
    let lines: Vec<Line> = (1..=15).map(|kind| line(0, kind, 1, 7, 0)).collect();
    let rec = written(1, &lines);
    // Every window that is there is one that no untimed line is inside of.
    let mut words = [1, 2].repeat(KINDS);
    words.extend([7, 7, 9, 3, u32::MAX]);
    for length in 0..=words.len() {
        let options = &words[..length];
        for kind in 1..=15 {
            let pat = [0x21, kind];
            let asked = with(ask(&rec, &pat, 0, 0), options);
            let outside = length >= 2 * kind as usize;
            b.check(asked, &[kind as u16 - 1], !outside as u64)?;
        }
    }
    let asked = ask(&rec, &ONE, 0, 0);
    for (length, found) in [(0, true), (1, true), (2, false), (3, false), (35, false)] {
        let chain = found.then_some(&[0][..]);
        b.comes_to(with(asked, &words[..length]), chain)?;
    }
    // A first word without its second is not asked about either.
    for word in [0, 1, DAY, u32::MAX] {
        b.comes_to(with(asked, &[word]), Some(&[0]))?;
        let three = [0, DAY, word];
        b.comes_to(with(asked, &three), Some(&[0]))?;
    }
    for length in [OPTIONS - 1, OPTIONS] {
        let options = &windows(&[(15, 5, 5)])[..length];
        let asked = with(asked, options);
        if length < OPTIONS {
            b.comes_to(asked, Some(&[0]))?;
        } else {
            b.refused_by_all(asked, exact(asked) + 45, 27)?;
        }
    }
    ok()
}

/// Windows that fail question 27.
const FAILING: [(u32, u32); 10] = [
    (0, 0),
    (5, 5),
    (6, 5),
    (DAY, DAY),
    (0, DAY + 1),
    (86_399, DAY + 1),
    (DAY, DAY + 1),
    (DAY, 0),
    (0, u32::MAX),
    (u32::MAX, DAY),
];

pub fn questions(b: &Bench) -> Case {
    let rec = written(1, &[line(0, 1, 1, 7, 0).at(5)]);
    let asked = ask(&rec, &ONE, 0, 0);
    let enough = exact(asked) + 3;
    // Of every kind, the record's and the pattern's or another.
    for kind in 1..=15 {
        for (open, close) in FAILING {
            let options = windows(&[(kind, open, close)]);
            b.refused_by_all(with(asked, &options), enough, 27)?;
        }
        for (open, close) in [(0, 1), (86_399, DAY), (0, DAY), (5, 6)] {
            let options = windows(&[(kind, open, close)]);
            let inside = kind != 1 || (open <= 5 && 5 < close);
            b.comes_to(with(asked, &options), inside.then_some(&[0][..]))?;
        }
    }
    // A record with no lines, a pattern that takes none, and a list of no places.
    let options = windows(&[(7, 3, 3)]);
    let asked = with(ask(&E, &[0x20], 0, 0), &options);
    b.refused_by_all(asked, 8_200, 27)?;
    b.check_in(asked, &[], 8_200, refused(27, 0))?;
    b.starts_in(listed(asked, &[]), 8_200, 0, refused(27, 0))?;
    ok()
}

pub fn order(b: &Bench) -> Case {
    let r = r();
    let bad = windows(&[(9, 2, 1)]);
    // The record and the pattern before 15, and 15 before 27.
    b.refused_by_all(with(ask(&[1, 0, 1], &[0xFF], 9, 9), &bad), 0, 3)?;
    let late = written(4, &[line(0, 1, 1, 7, 0).at(DAY)]);
    b.refused_by_all(with(ask(&late, &[0xFF], 9, 9), &bad), 0, 28)?;
    b.refused_by_all(with(ask(&r, &[0xFF], 9, 9), &bad), 0, 8)?;
    let many = [0x2A, 20, 20, 0x2A, 20, 20, 0x20];
    b.refused_by_all(with(ask(&r, &many, 9, 9), &bad), 0, 25)?;
    b.refused_by_all(with(ask(&r, &P, 4, 3), &bad), 8_704, 15)?;
    b.refused_by_all(with(ask(&r, &P, 0, 4), &bad), 8_704, 15)?;
    // 27 before 16, 17, 18 and 19; the area is untouched.
    let over = boats(1_024, 64);
    let mut pat = vec![0x27, 1, 0];
    pat.extend(repeats(13, &[0x21, 1]));
    let good = windows(&[(9, 1, 2)]);
    for work_len in [0, 9_000] {
        b.refused_by_all(with(ask(&over, &pat, 1_024, 0), &bad), work_len, 15)?;
        b.refused_by_all(with(ask(&over, &pat, 0, 0), &bad), work_len, 27)?;
        b.refused_by_all(with(ask(&over, &pat, 0, 0), &good), work_len, 16)?;
    }
    for work_len in [0, 8_703] {
        b.refused_by_all(with(ask(&r, &P, 0, 3), &bad), work_len, 27)?;
        b.refused_by_all(with(ask(&r, &P, 0, 3), &good), work_len, 17)?;
    }
    for work_len in [8_704, 8_725, 9_000] {
        let asked = with(ask(&r, &P, 0, 3), &bad);
        b.refused_by_all(asked, work_len, 27)?;
        b.check_in(asked, &[9_999], work_len, refused(27, 0))?;
        b.find_in(asked, work_len, 0, refused(27, 0))?;
        b.starts_in(listed(asked, &[0, 3]), work_len, 1, refused(27, 0))?;
    }
    b.check_in(
        with(ask(&r, &P, 0, 3), &good),
        &[9_999],
        8_704,
        refused(18, 0),
    )?;
    // A place that is missing anywhere in a list, before 27.
    for starts in [&[4, 0][..], &[0, 4], &[0, 0, 65_535]] {
        let asked = with(ask(&r, &P, 0, 3), &bad);
        b.starts_in(listed(asked, starts), 8_704, 3, refused(15, 0))?;
    }
    ok()
}

/// Size, boats and 18 go by the whole record, whatever is outside.
pub fn whole_record(b: &Bench) -> Case {
    let keep = [0x27, 1, 0, 0x20];
    let lines: Vec<Line> = (0..6).map(|n| line(0, 1, 1, n, 0).at(100 * n)).collect();
    let rec = written(1, &lines);
    b.boats(&rec, Ok([6, 15]))?;
    b.words(&rec, &keep, words_of(3 * 7))?;
    // Line 5 alone is inside; then none is.
    for (open, close, chain) in [(500, 501, Some(&[5][..])), (501, DAY, None)] {
        let options = windows(&[(1, open, close)]);
        let asked = with(ask(&rec, &keep, 0, 0), &options);
        b.comes_to(asked, chain)?;
        b.refused_by_all(asked, 8_192 + 4 * 21 - 1, 17)?;
        b.begin_in(asked, 8_192 + 4 * 21 + 17, refused(17, 0))?;
        // 18 of lines that do not exist, and of no others.
        for number in 0..5 {
            b.check(asked, &[number], 0)?;
        }
        b.check(asked, &[5], chain.is_some() as u64)?;
        b.check(asked, &[6], refused(18, 0))?;
        b.check(asked, &[0, 6], refused(18, 0))?;
        b.check(asked, &[6, 0], refused(18, 0))?;
        b.check(asked, &[65_535], refused(18, 0))?;
    }
    // 16 counts the boats of lines outside.
    let over = boats(1_024, 64);
    let mut pat = vec![0x27, 1, 0];
    pat.extend(repeats(13, &[0x21, 1]));
    let closed = windows(&[(1, 5, 6)]);
    b.refused_by_all(with(ask(&over, &pat, 0, 0), &closed), 4_300_000, 16)?;
    // A chain that is accepted but for one line outside, wherever it stands.
    let rec = written(1, &[line(0, 1, 1, 7, 0).at(9), line(0, 1, 1, 7, 0).at(5)]);
    let asked = ask(&rec, &[0x26, 0x21, 1], 0, 0);
    let options = windows(&[(1, 0, 9)]);
    for (chain, inside) in [
        (&[1, 1, 1][..], true),
        (&[0, 1, 1], false),
        (&[1, 0, 1], false),
        (&[1, 1, 0], false),
        (&[1; 12], true),
        (&[1, 1, 1, 1, 1, 1, 1, 1, 1, 1, 1, 0], false),
    ] {
        b.check(asked, chain, 1)?;
        b.check(with(asked, &options), chain, inside as u64)?;
    }
    ok()
}

/// A chain's lines have the numbers of the record, and the first shortest chain is that of the lines
/// inside.
pub fn numbers(b: &Bench) -> Case {
    // Three lines that would do, two of them outside in turn.
    let rec = written(
        2,
        &[
            line(0, 1, 1, 7, 1).at(10),
            line(0, 1, 1, 7, 1).at(20),
            line(0, 1, 1, 7, 1),
            line(0, 1, 1, 7, 1).at(30),
        ],
    );
    let asked = ask(&rec, &ONE, 0, 1);
    for (open, close, chain) in [
        (0, DAY, Some(&[0][..])),
        (10, 11, Some(&[0])),
        (11, 30, Some(&[1])),
        (21, 31, Some(&[3])),
        (0, 10, None),
        (31, DAY, None),
    ] {
        let options = windows(&[(1, open, close)]);
        b.comes_to(with(asked, &options), chain)?;
    }
    // The short way is closed, and then the long one: the length goes with it.
    let rec = written(
        3,
        &[
            line(0, 2, 1, 7, 2).at(50),
            line(0, 1, 1, 7, 1).at(10),
            line(1, 1, 1, 7, 2).at(60),
        ],
    );
    let pat = [0x26, 0x24, 0x21, 1, 0x21, 2];
    let asked = ask(&rec, &pat, 0, 2);
    b.comes_to(asked, Some(&[0]))?;
    b.comes_to(with(asked, &windows(&[(2, 0, 50)])), Some(&[1, 2]))?;
    b.comes_to(with(asked, &windows(&[(1, 0, 50)])), Some(&[0]))?;
    b.comes_to(with(asked, &windows(&[(1, 0, 60), (2, 0, 50)])), None)?;
    let both = windows(&[(1, 10, 61), (2, 51, DAY)]);
    b.find_in(with(asked, &both), exact(asked), 1, refused(19, 2))?;
    b.find_in(with(asked, &both), exact(asked), 0, refused(19, 2))?;
    // Lines between two places, of one boat and another: the kept one's is outside.
    let rec = written(
        3,
        &[
            line(0, 1, 1, 1, 1),
            line(1, 2, 1, 1, 2).at(90),
            line(1, 2, 1, 2, 2).at(80),
            line(1, 2, 1, 1, 2).at(80),
        ],
    );
    let options = windows(&[(2, 0, 90)]);
    for (test, all, some) in [(0x22, 1, 3), (0x23, 2, 2), (0x28, 2, 2)] {
        let pat = [0x27, 1, 0, test, 2, 0];
        let asked = ask(&rec, &pat, 0, 2);
        b.comes_to(asked, Some(&[0, all]))?;
        b.comes_to(with(asked, &options), Some(&[0, some]))?;
    }
    ok()
}

/// Windows from 0 to 86,400 for every kind are as none at all.
pub fn whole_day(b: &Bench) -> Case {
    let all = windows(&[]);
    let timed: Vec<Line> = lines_of_r()
        .into_iter()
        .enumerate()
        .map(|(number, line)| match number % 3 {
            0 => line,
            1 => line.at(0),
            _ => line.at(86_399),
        })
        .collect();
    let (r, timed) = (r(), written(4, &timed));
    for options in [&all[..], &[], &all[..13]] {
        for rec in [&r, &timed] {
            let asked = ask(rec, &P, 0, 3);
            b.comes_to(with(asked, options), Some(&[1, 2, 5]))?;
            b.check(with(asked, options), &[0, 2, 5], 0)?;
            b.check(with(asked, options), &[7], refused(18, 0))?;
            let six = listed(with(asked, options), &[0, 1, 2, 3, 0, 0]);
            b.starts(six, &[3, NONE, NONE, NONE, 3, 3])?;
        }
        for v in vector_list() {
            let asked = with(ask(&v.rec, &v.pat, 0, v.to), options);
            b.comes_to(asked, v.found.as_deref())?;
            for (chain, expected) in &v.others {
                b.check(asked, chain, *expected)?;
            }
        }
    }
    ok()
}

/// The finish closes at the time limit.
pub fn worked_day(b: &Bench) -> Case {
    // R with a time for every line, and one more finish of boat 1-150.
    let mut lines: Vec<Line> = lines_of_r()
        .into_iter()
        .zip(36_000..)
        .map(|(line, time)| line.at(time))
        .collect();
    lines.push(line(2, 4, 1, 150, 3).at(36_003));
    let rec = written(4, &lines);
    let asked = ask(&rec, &P, 0, 3);
    b.comes_to(asked, Some(&[0, 3, 7]))?;
    for (kind, open, close, chain) in [
        // Finished: both boats, one of them, the other, none.
        (4, 36_003, 36_006, Some(&[0, 3, 7][..])),
        (4, 0, 36_004, Some(&[0, 3, 7])),
        (4, 36_004, DAY, Some(&[1, 2, 5])),
        (4, 36_005, 36_006, Some(&[1, 2, 5])),
        (4, 36_006, DAY, None),
        (4, 0, 36_003, None),
        // Entered and started: the one boat and the other.
        (1, 36_001, DAY, Some(&[1, 2, 5])),
        (1, 36_000, 36_001, Some(&[0, 3, 7])),
        (1, 36_002, DAY, None),
        (2, 0, 36_003, Some(&[1, 2, 5])),
        (2, 36_003, DAY, Some(&[0, 3, 7])),
        // Rounded and retired: not on the way.
        (3, 0, 1, Some(&[0, 3, 7])),
        (5, 0, 1, Some(&[0, 3, 7])),
    ] {
        let options = windows(&[(kind, open, close)]);
        b.comes_to(with(asked, &options), chain)?;
        let yes = |wanted: &[u16]| (chain == Some(wanted)) as u64;
        if kind == 4 && open > 36_003 {
            b.check(with(asked, &options), &[0, 3, 7], yes(&[0, 3, 7]))?;
        }
    }
    // Any line that is not outside, from each place.
    let options = windows(&[(2, 0, 1), (4, 0, 36_004)]);
    let any = with(ask(&rec, &ANY, 0, 3), &options);
    b.starts(listed(any, &[0, 1, 2, 3]), &[NONE, NONE, 1, 0])?;
    ok()
}

// ---- searches and lists

#[rustfmt::skip]
pub fn areas(b: &Bench) -> Case {
    // V4 with a line before the others that is outside: its number, its boat and its places are in
    // the area, and the kind 0.
    let rec = written(2, &[line(0, 2, 1, 1, 1).at(9), line(0, 1, 1, 1, 0), line(0, 2, 1, 1, 1).at(5)]);
    let pat = [0x25, 0x21, 1, 0x21, 2];
    let options = windows(&[(2, 5, 9)]);
    let asked = with(ask(&rec, &pat, 0, 1), &options);
    const WORDS: &[(usize, u32)] = &[(7, 1), (2, 2), (1, 3)];
    const QUEUE: &[(usize, u32)] = &[(0, 7), (1, 2), (2, 1)];
    const TAGS: &[(usize, u32)] = &[(1, 2 * BY + 7), (2, BY + 2)];
    held_areas(b, asked, [2, 2, 3, 0, 5], &[1, 1, 1, 16, 1, 16 + 2], &[
        held([0, 0, 1, 0, 0, 0, 0], [&[(7, 1)], &[(0, 7)], &[], &[]]),
        held([0, 1, 2, 0, 0, 0, 0], [&[(7, 1), (2, 2)], &[(0, 7), (1, 2)], &[(1, 2 * BY + 7)], &[]]),
        held([1, 2, 3, 3, 3, 3, 3], [WORDS, QUEUE, TAGS, &[(1, 4)]]),
        held([1, 2, 3, 3, 2, 1, 3], [WORDS, QUEUE, TAGS, &[(1, 4), (2, 2)]]),
        held([1, 2, 3, 3, 1, 2, 3], [WORDS, QUEUE, TAGS, &[(1, 4), (2, 2), (7, 3)]]),
    ])?;
    // The same without windows: the line before the others leads to the goal.
    held_areas(b, ask(&rec, &pat, 0, 1), [2, 2, 3, 0, 5], &[1, 1, 1, 16 + 2, 1, 16 + 2], &[
        held([0, 0, 1, 0, 0, 0, 0], [&[(7, 1)], &[(0, 7)], &[], &[]]),
        held([0, 1, 2, 0, 0, 0, 0], [&[(7, 1), (2, 2)], &[(0, 7), (1, 2)], &[(1, 7)], &[]]),
        held([1, 2, 3, 3, 3, 3, 3], [WORDS, QUEUE, &[(1, 7), (2, BY + 2)], &[(1, 4)]]),
        held([1, 2, 3, 3, 2, 1, 3], [WORDS, QUEUE, &[(1, 7), (2, BY + 2)], &[(1, 4), (2, 2)]]),
        held([1, 2, 3, 3, 1, 0, 3], [WORDS, QUEUE, &[(1, 7), (2, BY + 2)], &[(1, 4), (2, 2), (7, 1)]]),
    ])?;
    // The boats are those of all lines: 9-9, of which the only line is outside, is number 1.
    let rec = written(1, &[line(0, 1, 9, 9, 0).at(9), line(0, 1, 1, 1, 0).at(5)]);
    let pat = [0x27, 1, 0, 0x20];
    let options = windows(&[(1, 5, 9)]);
    let asked = with(ask(&rec, &pat, 0, 0), &options);
    let loaded = [0, (9 << 24) + 9, (1 << 24) + 1, 1, 2, 0, 1];
    held_areas(b, asked, [3, 1, 2, 0, 4], &loaded, &[
        held([0, 0, 1, 0, 0, 0, 0], [&[(6, 1)], &[(0, 6)], &[], &[]]),
        held([1, 1, 2, 2, 2, 2, 2], [&[(6, 1), (0, 2)], &[(0, 6), (1, 0)], &[(1, BY + 6)], &[(0, 3)]]),
        held([1, 1, 2, 2, 1, 1, 2], [&[(6, 1), (0, 2)], &[(0, 6), (1, 0)], &[(1, BY + 6)], &[(0, 3), (6, 2)]]),
    ])?;
    // All lines outside: nothing leads to the goal.
    let options = windows(&[(1, 0, 1)]);
    let asked = with(ask(&rec, &pat, 0, 0), &options);
    held_areas(b, asked, [3, 1, 2, 0, 4], &[0, (9 << 24) + 9, (1 << 24) + 1, 1, 2, 0, 0], &[
        held([0, 0, 1, 0, 0, 0, 0], [&[(6, 1)], &[(0, 6)], &[], &[]]),
        held([2, 1, 1, 0, 0, 0, 0], [&[(6, 1)], &[(0, 6)], &[], &[]]),
    ])?;
    ok()
}

/// A search goes by the windows of its begin, and by the lines at that time.
pub fn meanwhile(b: &Bench) -> Case {
    let mut lines: Vec<Line> = lines_of_r();
    lines[5] = lines[5].at(500);
    let rec = written(4, &lines);
    let asked = ask(&rec, &P, 0, 3);
    let (open, closed) = (windows(&[(4, 500, 501)]), windows(&[(4, 0, 500)]));
    // Line 6, which is untimed, is outside either way.
    b.searched(with(asked, &open), 6, Some(&[1, 2, 5]))?;
    b.searched(with(asked, &closed), 1, None)?;
    let needed = search::words(&rec, &P).unwrap_or(0) as usize;
    for count in [0, 1, 4, 5, 8, usize::MAX] {
        for (options, length) in [(&open, Some(3)), (&closed, None)] {
            let mut search = b.begin_in(with(asked, options), needed, 0)?;
            let len = rec.len() as u64;
            let better = line(2, 4, 1, 150, 3);
            expect("add", search.add(better.at(0))?, len + 14)?;
            search.moved(count)?;
            expect("add", search.add(better)?, len + 24)?;
            expect("add", search.add(better.at(DAY))?, refused(28, 0))?;
            b.finished(&mut search, 3, length)?;
        }
    }
    // 19 at the finish, as ever.
    let mut search = b.begun(with(asked, &open))?;
    expect("finish", search.finish(&[7; 2])?, refused(19, 3))?;
    // 27 leaves the area, and no search is in it.
    let bad = windows(&[(12, 1, 1)]);
    for work_len in [0, needed - 1, needed, needed + 7] {
        b.begin_in(with(asked, &bad), work_len, refused(27, 0))?;
    }
    ok()
}

pub fn lists(b: &Bench) -> Case {
    // A straight course whose lines get later: the finish closes behind each.
    let lines: Vec<Line> = (0..5)
        .map(|n| line(n, 1, 1, 7, n + 1).at(100 * n as u32))
        .collect();
    let rec = written(6, &lines);
    let ones = [0x26, 0x21, 1];
    let asked = ask(&rec, &ones, 0, 5);
    let all = [5, 0, 4, 1, 2, 3, 0];
    b.starts(listed(asked, &all), &[0, 5, 1, 4, 3, 2, 5])?;
    for (open, close, lengths) in [
        (0, DAY, [0, 5, 1, 4, 3, 2, 5]),
        (0, 401, [0, 5, 1, 4, 3, 2, 5]),
        (1, DAY, [0, NONE, 1, 4, 3, 2, NONE]),
        (100, DAY, [0, NONE, 1, 4, 3, 2, NONE]),
        (101, DAY, [0, NONE, 1, NONE, 3, 2, NONE]),
        (400, 401, [0, NONE, 1, NONE, NONE, NONE, NONE]),
        (0, 400, [0, NONE, NONE, NONE, NONE, NONE, NONE]),
    ] {
        let options = windows(&[(1, open, close)]);
        b.starts(listed(with(asked, &options), &all), &lengths)?;
    }
    // 15, 27, 17 and 19 in their order.
    let (bad, good) = (windows(&[(3, 9, 9)]), windows(&[(3, 9, 10)]));
    let needed = exact(asked);
    let starts = |options: &[u32], starts: &[u16], words: usize, expected: u64| {
        b.starts_in(listed(with(asked, options), starts), words, 1, expected)
    };
    starts(&bad, &[0, 6], needed, refused(15, 0))?;
    starts(&bad, &[0, 1], needed, refused(27, 0))?;
    starts(&bad, &[0, 1], 0, refused(27, 0))?;
    starts(&bad, &[], needed, refused(27, 0))?;
    starts(&good, &[0, 1], needed - 1, refused(17, 0))?;
    starts(&good, &[0, 1], needed, refused(19, 2))?;
    starts(&good, &[0], needed, 1)?;
    // The finder says none of a place whose lines are outside, whatever the output.
    let closed = windows(&[(1, 0, 400)]);
    for room in [0, 5] {
        b.find_in(with(asked, &closed), needed, room, NO_CHAIN)?;
    }
    ok()
}
