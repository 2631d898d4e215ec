//! Lines with a time, and questions with windows of the day.

mod common;

use chains::lent::{self, CheckReply, FindReply, LineReply, StartsReply, WordsReply, NO_CHAIN};
use chains::{count_boats, Finder, Line, Options, Question, Record, RecordIn, Refusal};
use chains::{Search, Written, DAY};
use common::*;

/// Adds a line, with its time if it has one.
fn add(day: &mut Record, line: Line, time: Option<u32>) {
    let added = match time {
        Some(time) => day.add_timed(line, time),
        None => day.add(line),
    };
    assert_eq!(added, Ok(day.line_count() - 1));
}

/// R with line 7, line i at 100 × (i + 1).
fn r_timed() -> Record {
    let mut day = Record::begin(4).expect("four places");
    let lines = lines_of_r().into_iter().chain([line(2, 4, 1, 150, 3)]);
    for (time, line) in (100..).step_by(100).zip(lines) {
        add(&mut day, line, Some(time));
    }
    day
}

/// A line that is read back has its time, or none; the line alone is given without it.
#[test]
fn times_are_read_back() -> Result<(), Refusal> {
    let far = line(258, 15, 255, 0x00FE_DCBA, 1_023);
    let near = line(1_023, 1, 0, 1, 258);
    let times = [None, Some(0), Some(5), None, Some(86_399), Some(65_536)];
    let mut day = Record::begin(1_024)?;
    let mut written = Vec::new();
    for (number, time) in times.into_iter().enumerate() {
        let line = if number % 2 == 0 { far } else { near };
        add(&mut day, line, time);
        written.push(match time {
            Some(time) => Written::Timed(line, time),
            None => Written::Untimed(line),
        });
    }
    assert_eq!(day.bytes().len(), 4 + 2 * 10 + 4 * 14);
    assert_eq!(day.line_count(), 6);
    let mut buffer = [day.bytes(), &[0xA5; 20]].concat();
    let given = RecordIn::open(&mut buffer, day.bytes().len())?;
    assert_eq!(given.line_count(), 6);
    for (number, &expected) in (0..).zip(&written) {
        assert_eq!(day.written_line(number)?, expected);
        assert_eq!(given.written_line(number)?, expected);
        assert_eq!(expected.time(), times[usize::from(number)]);
        assert_eq!(day.line(number)?, expected.line());
        assert_eq!(given.line(number)?, expected.line());
        let reply = lent::read(day.bytes(), number);
        assert_eq!(
            reply,
            match expected {
                Written::Timed(line, time) => LineReply::Timed(line, time),
                other => LineReply::Line(other.line()),
            }
        );
        assert_eq!(day.written_lines().nth(number.into()), Some(expected));
        assert_eq!(day.lines().nth(number.into()), Some(expected.line()));
    }
    assert_eq!(day.written_lines().len(), 6);
    assert_eq!(day.written_lines().nth(6), None);
    assert!(day.written_lines().eq(written.iter().copied()));
    assert!(given.written_lines().eq(written.iter().copied()));
    assert!(day.written_lines().rev().eq(written.iter().rev().copied()));
    assert!(day.lines().eq(written.iter().map(|w| w.line())));
    let last_first = written.iter().rev().map(|w| w.line());
    assert!(given.lines().rev().eq(last_first));
    assert_eq!(day.written_line(6), Err(Refusal::LineNotThere));
    assert_eq!(Record::from_bytes(day.bytes())?, day);
    assert_eq!(
        written[0].to_string(),
        "from 258, kind 15, class 255, sail number 16702650, to 1023"
    );
    assert_eq!(
        written[1].to_string(),
        "from 1023, kind 1, class 0, sail number 1, to 258, time 0"
    );
    Ok(())
}

/// In a buffer that is given: ten bytes and fourteen, and the number of each.
#[test]
fn lines_in_a_buffer() -> Result<(), Refusal> {
    let mut buffer = [0xA5; 30];
    let mut day = RecordIn::begin(&mut buffer, 2)?;
    let l = line(0, 1, 1, 1, 1);
    assert_eq!(day.add_timed(l, 5), Ok(0));
    assert_eq!(day.add(l), Ok(1));
    assert_eq!(day.add_timed(l, 5), Err(Refusal::BufferTooSmall));
    assert_eq!(day.line_count(), 2);
    assert_eq!(day.bytes().len(), 28);
    let read: Vec<Option<u32>> = day.written_lines().map(Written::time).collect();
    assert_eq!(read, [Some(5), None]);
    assert_eq!(buffer[28..], [0xA5; 2]);
    Ok(())
}

/// As many lines as there can be, all with a time: the longest record.
#[test]
fn the_longest_record() -> Result<(), Refusal> {
    let timed = [3, 0, 0, 1, 1, 0, 0, 1, 0, 0, 0, 1, 0x51, 0x7F].repeat(4_096);
    let bytes = [&[1, 0, 1], &timed[..], &[0]].concat();
    assert_eq!(bytes.len(), 57_348);
    let day = Record::from_bytes(bytes)?;
    assert_eq!(day.line_count(), 4_096);
    assert_eq!(count_boats(day.bytes())?.reads, 4_095);
    let last = Written::Timed(line(0, 1, 1, 1, 0), DAY - 1);
    assert_eq!(day.written_line(4_095)?, last);
    assert_eq!(day.written_lines().next_back(), Some(last));
    Ok(())
}

/// Found or none, with one line from place 0 to place 1, by every way of asking.
fn one_line(day: &Record, kind: u8, options: &Options, inside: bool) -> Result<(), Refusal> {
    let pattern = [0x21, kind];
    let question = Question::about(day, &pattern, 0, 1);
    let chain = inside.then(|| vec![0]);
    let length = inside.then_some(1);
    let mut finder = Finder::new();
    assert_eq!(finder.find_with(&question, options)?, chain.as_deref());
    assert_eq!(finder.find_owned_with(&question, options)?, chain);
    assert_eq!(finder.check_with(&question, &[0], options)?, inside);
    let starts = finder.starts_with(&ask_starts(day, &pattern, 1), &[1, 0], options)?;
    assert_eq!(starts, [None, length]);
    assert_eq!(Search::begin_with(&question, options)?.finish(), chain);

    let mut buffer = day.bytes().to_vec();
    let length_of = buffer.len();
    let given = RecordIn::open(&mut buffer, length_of)?;
    assert_eq!(day.find_with(&pattern, 0, 1, options)?, chain);
    assert_eq!(given.find_with(&pattern, 0, 1, options)?, chain);
    assert_eq!(day.check_with(&pattern, 0, 1, &[0], options)?, inside);
    assert_eq!(given.check_with(&pattern, 0, 1, &[0], options)?, inside);
    assert_eq!(day.starts_with(&pattern, &[0], 1, options)?, [length]);
    assert_eq!(given.starts_with(&pattern, &[0], 1, options)?, [length]);
    assert_eq!(day.search_with(&pattern, 0, 1, options)?.finish(), chain);
    assert_eq!(given.search_with(&pattern, 0, 1, options)?.finish(), chain);
    Ok(())
}

/// The opening second is inside and the closing one is not; without a time, the whole day alone
/// will do. Times have no say where no windows are given.
#[test]
fn seconds_of_windows() -> Result<(), Refusal> {
    for (time, open, close, inside) in [
        (Some(5), 5, 6, true),
        (Some(5), 0, 5, false),
        (Some(5), 6, 7, false),
        (Some(5), 0, DAY, true),
        (Some(0), 0, 1, true),
        (Some(0), 1, DAY, false),
        (Some(DAY - 1), DAY - 1, DAY, true),
        (Some(DAY - 1), 0, DAY - 1, false),
        (None, 0, DAY, true),
        (None, 0, DAY - 1, false),
        (None, 1, DAY, false),
        (None, 0, 1, false),
    ] {
        for kind in 1..=15 {
            let mut day = Record::begin(2)?;
            add(&mut day, line(0, kind, 1, 1, 1), time);
            one_line(
                &day,
                kind,
                &Options::new().window(kind, open, close),
                inside,
            )?;
            // The windows of other kinds have no say.
            let mut others = Options::new();
            for other in (1..=15).filter(|&other| other != kind) {
                others = others.window(other, 6, 7);
            }
            one_line(&day, kind, &others, true)?;
            assert_eq!(day.find(&[0x21, kind], 0, 1)?, Some(vec![0]));
        }
    }
    Ok(())
}

/// Lines outside are in no chain, and the others keep their numbers; a chain with one of them gets
/// no, and one with a line that is not there is refused.
#[test]
fn lines_outside() -> Result<(), Refusal> {
    let day = r_timed();
    let mut finder = Finder::new();
    let question = ask(&day, &P, 0, 3);
    let (low, high) = (vec![1, 2, 5], vec![0, 3, 7]);
    assert_eq!(finder.find_owned(&question)?, Some(high.clone()));
    for (kind, open, close, first, second) in [
        (4, 0, DAY, true, true),
        (4, 0, 800, true, false),
        (4, 601, DAY, false, true),
        (4, 700, 800, false, false),
        (2, 0, 400, true, false),
        (2, 400, 401, false, true),
        (1, 200, 300, true, false),
        (3, 0, 1, true, true),
    ] {
        let options = Options::new().window(kind, open, close);
        let chain = match (first, second) {
            (_, true) => Some(&high),
            (true, false) => Some(&low),
            _ => None,
        };
        let found = finder.find_owned_with(&question, &options)?;
        assert_eq!(found.as_ref(), chain);
        assert_eq!(finder.check_with(&question, &low, &options)?, first);
        assert_eq!(finder.check_with(&question, &high, &options)?, second);
        for chain in [&[8][..], &[7, 5, 8]] {
            let missing = finder.check_with(&question, chain, &options);
            assert_eq!(missing, Err(Refusal::LineNotThere));
        }
        let starts = finder.starts_with(&ask_starts(&day, &P, 3), &[0, 1], &options)?;
        assert_eq!(starts, [chain.map(|_| 3), None]);
        // A line that is added later is not seen, whatever its time.
        let mut later = day.clone();
        let mut search = later.search_with(&P, 0, 3, &options)?;
        search.moved(2);
        later.add_timed(line(0, 1, 2, 150, 1), open)?;
        assert_eq!(search.finish().as_ref(), chain);
    }
    Ok(())
}

/// The work area goes by all lines, and is cleared or left as without windows.
#[test]
fn areas_with_windows() {
    const DIRT: u32 = 0xA5A5_A5A5;
    let day = r_timed();
    let rec = day.bytes();
    assert_eq!(lent::words(rec, &P), WordsReply::Words(8_704));
    assert_eq!(lent::search_words(rec, &P), WordsReply::Words(8_704 + 24));
    let options = Options::new().window(4, 0, 800);
    let small = Refusal::WorkAreaTooSmall;
    let (mut work, mut out) = (vec![DIRT; 8_703], [9; 4]);
    let reply = lent::find_with(rec, &P, 0, 3, &options, &mut work, &mut out);
    assert_eq!(reply, FindReply::Refused(small));
    let reply = lent::check_with(rec, &P, 0, 3, &[9], &options, &mut work);
    assert_eq!(reply, CheckReply::Refused(small));
    assert_eq!((work, out), (vec![DIRT; 8_703], [9; 4]));

    let dirty = || vec![DIRT; 8_800];
    let (mut work, mut out) = (dirty(), [9; 4]);
    let reply = lent::find_with(rec, &P, 0, 3, &options, &mut work, &mut out);
    assert_eq!(reply, FindReply::Found(3));
    assert_eq!((work, out), (vec![0; 8_800], [1, 2, 5, 9]));
    let (mut work, mut out) = (dirty(), [9; 2]);
    let reply = lent::find_with(rec, &P, 0, 3, &options, &mut work, &mut out);
    let short = Refusal::OutputTooSmall { length: 3 };
    assert_eq!(reply, FindReply::Refused(short));
    assert_eq!((work, out), (vec![0; 8_800], [9; 2]));
    for (chain, expected) in [
        ([1, 2, 5], CheckReply::Yes),
        ([0, 3, 7], CheckReply::No),
        ([0, 3, 8], CheckReply::Refused(Refusal::LineNotThere)),
    ] {
        let mut work = dirty();
        let reply = lent::check_with(rec, &P, 0, 3, &chain, &options, &mut work);
        assert_eq!((reply, work), (expected, vec![0; 8_800]));
    }
    let (mut work, mut lengths) = (dirty(), [9; 3]);
    let reply = lent::starts_with(rec, &P, &[0, 1], 3, &options, &mut work, &mut lengths);
    assert_eq!(reply, StartsReply::Lengths(2));
    assert_eq!((work, lengths), (vec![0; 8_800], [3, NO_CHAIN, 9]));

    // Sixty-four boats are too many, also where all of their lines are outside.
    let mut many = Record::begin(1_024).expect("1,024 places");
    for sail in 0..64 {
        add(&mut many, line(0, 1, 1, sail, 0), Some(5));
    }
    let options = Options::new().window(1, 6, 7);
    let found = many.find_with(&fifteen_commands(), 0, 0, &options);
    assert_eq!(found, Err(Refusal::SearchTooLarge));
    let wrong = many.find_with(&fifteen_commands(), 0, 0, &options.window(9, 5, 5));
    assert_eq!(wrong, Err(Refusal::WindowOutOfRange));
}

/// Windows of the whole day change nothing: not even a word of the area of a search.
#[test]
fn whole_days() {
    let (day, whole) = (r(), Options::default());
    let (mut plain, mut with) = (vec![7; 8_800], vec![9; 8_800]);
    let begun = lent::search_begin(day.bytes(), &P, 0, 3, &mut plain);
    let begun_with = lent::search_begin_with(day.bytes(), &P, 0, 3, &whole, &mut with);
    assert_eq!((begun, plain), (begun_with, with));
    for (from, to) in [(0, 3), (3, 0), (0, 4)] {
        let (mut work, mut out, mut out_with) = (vec![7; 8_800], [9; 3], [9; 3]);
        let found = lent::find(day.bytes(), &P, from, to, &mut work, &mut out);
        let with = lent::find_with(day.bytes(), &P, from, to, &whole, &mut work, &mut out_with);
        assert_eq!((found, out), (with, out_with));
        let checked = lent::check(day.bytes(), &P, from, to, &[1, 2, 5], &mut work);
        let with = lent::check_with(day.bytes(), &P, from, to, &[1, 2, 5], &whole, &mut work);
        assert_eq!(checked, with);
    }
}
