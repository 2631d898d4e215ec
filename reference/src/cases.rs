//! Requests with replies written down by hand: document 01's rows, the places where it can
//! be misread, request One's unread numbers, request Two's classes, request Three's rounds, request
//! Four's counts of boats, request Five's searches, request Six's lists of starts, request Seven's
//! windows (in `windows`), and the vectors that tell wrong programs apart. Each is compared with this
//! program and with the reply that stands here, so that it tests this program too.

mod windows;

use crate::compare::{self, shown, Searching};
use crate::generator::{counting_to, dirt, dirty_bytes, dirty_entries};
use crate::library::{boats_values, pattern_values, Ask, Library, Listed};
use crate::random::Random;
use crate::record::{read_record, written, Line, LONGEST, MOST_LINES};
use crate::request::{self, refused, search_size, FindReply, StartsReply, NO_CHAIN};
use crate::search::{self, NO_SEARCH};
use std::time::Instant;

/// A named group of requests.
pub struct Case {
    pub name: &'static str,
    /// Gives a note to print, or says where the two programs differ.
    pub run: fn(&Bench) -> Result<String, String>,
}

const fn case(name: &'static str, run: fn(&Bench) -> Result<String, String>) -> Case {
    Case { name, run }
}

pub const ALL: &[Case] = &[
    case("01: rows of the record", record_rows),
    case("01: rows of the pattern", pattern_rows),
    case("01: the largest size, and one boat more", size_row),
    case("01: rows of the checker", check_rows),
    case("A 1-8: the record", record_traps),
    case("A 9-14: the pattern", pattern_traps),
    case("A 15, 16, 19: sizes", sizes),
    case("A 17, 18, 20: order of 15, 16 and 17", request_order),
    case("A 21: a missing line after a bad join", missing_lines),
    case("A 22: dirty, exact, short and over-long areas", areas),
    case("A 25: empty chains", empty_chains),
    case("A 29: repeat and other", repeat_and_other),
    case("One: unread numbers", unread_numbers),
    case("One: lines between two places, some unread", unread_runs),
    case("One: unread numbers and slots", unread_slots),
    case("Two: the bytes 28 and 29", class_questions),
    case("Two: a lent sail", class_vectors),
    case("Two: every rule, every outcome", class_outcomes),
    case("Two: lines between two places, by class", class_runs),
    case("Two: classes and slots", class_slots),
    case("Two: 4,096 lines between two places", class_full_run),
    case("Three: the byte 2A, 24 and 25", round_questions),
    case("Three: unfolded counts", unfolded_counts),
    case("Three: sizes", round_sizes),
    case("Three: 24 and 25 among the questions", round_order),
    case("Three: so many rounds", round_vectors),
    case("Three: every count of rounds", round_counts),
    case("Three: rounds and boats", round_boats),
    case("Three: rounds in rounds", round_nests),
    case("A 30: begin", begin_traps),
    case("A 31-34: add and read", add_traps),
    case("001, Example 2", example_2),
    case("V1-V12: the chains, checked", vectors_checked),
    case("01: rows of the finder", find_rows),
    case("A 17-20: the finder's questions", finder_order),
    case("A 23, 24, 27: outputs", outputs),
    case("A 22: the finder's areas", finder_areas),
    case("V1-V7, V12", vectors),
    case("Four: boats and reads", boat_counts),
    case("Four: full records", boat_counts_of_full_records),
    case("Four: the questions", boat_questions),
    case("Five: words and questions", search_questions),
    case("Five: areas, word by word", search_areas),
    case("Five: empty chains, and none", search_empty),
    case("Five: V1-V7, V12, taken up", search_vectors),
    case("Five: lines in order", search_lines),
    case("Five: outputs, 19 and 26", search_outputs),
    case("Five: amounts", search_amounts),
    case("Five: lines added meanwhile", search_meanwhile),
    case("Five: altered areas", search_altered),
    case("Six: the worked day", start_rows),
    case("Six: lists", start_lists),
    case("Six: a list of 70,000 places", start_long_lists),
    case("Six: the questions", start_questions),
    case("Six: 15 of every place", start_places),
    case("Six: the order of 15, 16, 17 and 19", start_order),
    case("Six: areas and lengths", start_areas),
    case("Six: no lines, and none", start_empty),
    case("Six: first positions", start_positions),
    case("Six: boats kept", start_boats),
    case("Six: V1-V7, V12", start_vectors),
    case("Seven: timed lines in a record", windows::records),
    case("Seven: 4,097 lines", windows::too_many_lines),
    case("Seven: timed lines added", windows::adds),
    case("Seven: timed lines read back", windows::reads),
    case("Seven: a timed line at every edge", windows::edges),
    case("Seven: untimed lines", windows::untimed),
    case("Seven: a window for each kind", windows::kinds),
    case("Seven: options of every length", windows::lengths),
    case("Seven: 27", windows::questions),
    case("Seven: the order of 15, 27, 16 and 17", windows::order),
    case("Seven: the whole record counts", windows::whole_record),
    case("Seven: line numbers and lengths", windows::numbers),
    case("Seven: the whole day changes nothing", windows::whole_day),
    case("Seven: the worked day", windows::worked_day),
    case("Seven: searches, word by word", windows::areas),
    case("Seven: searches and lines added", windows::meanwhile),
    case("Seven: lists of starts", windows::lists),
    case("A 26: a chain of a million entries", million),
    case("V11: a chain of 92,400 lines", vector_11),
    case("Five: V11, and 4,096 boats", search_long),
    case("Six: V11", start_vector_11),
    case("the largest size, found and none", largest),
    case("Two: the largest size, found and none", largest_by_class),
    case("Three: the largest size, found and none", largest_of_rounds),
    case("Six: the largest size, from every place", start_largest),
    case("001, Proposition 3", proposition_3),
    case("a pattern's counts", pattern_counts),
];

/// A library, and the calls that the cases are made of.
pub struct Bench<'a> {
    pub library: &'a dyn Library,
}

type Done = Result<(), String>;

fn expect(what: &str, got: u64, expected: u64) -> Done {
    if got == expected {
        return Ok(());
    }
    Err(format!(
        "{what}: {}, but the case says {}",
        shown(got),
        shown(expected)
    ))
}

impl Bench<'_> {
    fn words(&self, rec: &[u8], pat: &[u8], expected: u64) -> Done {
        let got = compare::words(self.library, rec, pat)?;
        expect(&format!("words of {rec:02x?}, {pat:02x?}"), got, expected)
    }

    /// The counts of a pattern, or its refusal: commands and keeps, the unfolded count being that
    /// of the commands.
    fn pattern(&self, pat: &[u8], expected: Result<[u32; 2], u8>) -> Done {
        let unfolded = |[commands, keeps]: [u32; 2]| [commands, keeps, commands];
        self.counts(pat, expected.map(unfolded))
    }

    /// Commands, keeps and unfolded count of a pattern, or its refusal, with room for them, for
    /// two, for too few and for more.
    fn counts(&self, pat: &[u8], expected: Result<[u32; 3], u8>) -> Done {
        let mut random = Random::new(pat.len() as u64);
        for words in [3, 2, 1, 0, 5] {
            let lent = dirt(&mut random, words);
            let got = compare::pattern(self.library, pat, &lent)?;
            let reply = match expected {
                Err(number) => refused(number, 0),
                Ok(_) if words < 2 => 0,
                Ok(_) => words.min(3) as u64,
            };
            expect(&format!("counts of {pat:02x?}"), got, reply)?;
        }
        let (_, counts) = pattern_values(pat, &[7, 7, 7]);
        let said = expected.unwrap_or([7, 7, 7]);
        if counts != said {
            return Err(format!(
                "counts of {pat:02x?}: {counts:?}, but the case says {said:?}"
            ));
        }
        Ok(())
    }

    /// Boats and reads of a record, or its refusal, with room for them, for too few and for more.
    fn boats(&self, rec: &[u8], expected: Result<[u32; 2], u8>) -> Done {
        let mut random = Random::new(rec.len() as u64);
        for words in [2, 1, 0, 3, 5] {
            let lent = dirt(&mut random, words);
            let got = compare::boats(self.library, rec, &lent)?;
            let reply = match expected {
                Err(number) => refused(number, 0),
                Ok(_) if words < 2 => 0,
                Ok(_) => 2,
            };
            expect("boats", got, reply)?;
        }
        let (_, counts) = boats_values(rec, &[7, 7]);
        let said = expected.unwrap_or([7, 7]);
        if counts != said {
            return Err(format!(
                "boats and reads: {counts:?}, but the case says {said:?}"
            ));
        }
        Ok(())
    }

    /// The same of a record of one place that passes; and with a keep the search size goes by its
    /// boats.
    fn boats_of(&self, lines: &[Line], boats: u32, reads: u32) -> Done {
        let rec = written(1, lines);
        self.boats(&rec, Ok([boats, reads]))?;
        let keep = [0x27, 1, 0, 0x20];
        self.words(&rec, &keep, words_of(3 * (boats as u64 + 1)))
    }

    fn read(&self, rec: &[u8], number: u16, expected: u64) -> Done {
        let mut random = Random::new(rec.len() as u64);
        for fields in [5, 4, 0, 7, 6] {
            let lent = dirt(&mut random, fields as usize);
            let got = compare::read(self.library, rec, number, &lent)?;
            let short = expected >> 32 == 0 && fields < expected;
            expect("read", got, if short { 0 } else { expected })?;
        }
        Ok(())
    }

    fn begin(&self, buf: &[u8], places: u16, expected: u64) -> Done {
        let got = compare::begin(self.library, buf, places)?;
        expect("begin", got, expected)
    }

    fn add(&self, buf: &[u8], len: usize, line: Line, expected: u64) -> Result<Vec<u8>, String> {
        let (got, after) = compare::add(self.library, buf, len, line)?;
        expect(&format!("add {line:?} at {len}"), got, expected)?;
        Ok(after)
    }

    /// A check with a dirty work area that fits exactly.
    fn check(&self, ask: Ask, chain: &[u16], expected: u64) -> Done {
        self.check_in(ask, chain, exact(ask), expected)
    }

    fn check_in(&self, ask: Ask, chain: &[u16], work_len: usize, expected: u64) -> Done {
        let work = dirt(&mut Random::new(work_len as u64), work_len);
        let got = compare::check(self.library, ask, chain, &work)?;
        let length = chain.len();
        expect(
            &format!("check of {length} entries with {:02x?}", ask.pat),
            got,
            expected,
        )
    }

    fn find_in(&self, ask: Ask, work_len: usize, out_len: usize, expected: u64) -> Done {
        let mut random = Random::new(work_len as u64);
        let work = dirt(&mut random, work_len);
        let out = dirty_entries(&mut random, out_len);
        let got = compare::find(self.library, ask, &work, &out)?;
        expect(&format!("find with {:02x?}", ask.pat), got, expected)
    }

    /// This chain is found: in an exact output and in a longer one; one entry fewer is
    /// refused with its length; and the checker says yes to it.
    fn found(&self, ask: Ask, chain: &[u16]) -> Done {
        let work_len = exact(ask);
        let expected = request::find(ask, work_len, chain.len());
        if expected != FindReply::Found(chain.to_vec()) {
            return Err(format!(
                "this program says {expected:?}, but the case says {chain:?}"
            ));
        }
        let length = chain.len();
        self.find_in(ask, work_len, length, length as u64)?;
        self.find_in(ask, work_len, length + 3, length as u64)?;
        if length > 0 {
            self.find_in(ask, work_len, length - 1, refused(19, length as u64))?;
            self.find_in(ask, work_len, 0, refused(19, length as u64))?;
        }
        self.check(ask, chain, 1)
    }

    /// Begins a search in a dirty area of so many words.
    fn begin_in(&self, ask: Ask, work_len: usize, expected: u64) -> Result<Searching<'_>, String> {
        let work = dirt(&mut Random::new(work_len as u64), work_len);
        let (got, search) = Searching::begin(self.library, ask, &work)?;
        expect(&format!("search with {:02x?}", ask.pat), got, expected)?;
        Ok(search)
    }

    /// The same in an area that fits exactly.
    fn begun(&self, ask: Ask) -> Result<Searching<'_>, String> {
        let needed = search::words(ask.rec, ask.pat).unwrap_or(9_000);
        self.begin_in(ask, needed as usize, 0)
    }

    /// A search takes up so many states, whatever the amounts, and comes to this chain, or to none,
    /// from wherever it is finished. Then it is gone.
    fn searched(&self, ask: Ask, states: usize, chain: Option<&[u16]>) -> Done {
        let mut search = self.begun(ask)?;
        for _ in 0..states {
            expect("a move of 1", search.moved(1)?, 1)?;
        }
        for amount in [1, 0, usize::MAX] {
            expect("a move at the end", search.moved(amount)?, 0)?;
        }
        let length = chain.map_or(0, |chain| chain.len());
        let said = match search::finish(search.area(), length) {
            FindReply::Found(chain) => Some(chain),
            _ => None,
        };
        if said.as_deref() != chain {
            return Err(format!(
                "this program finishes with {said:?}, but the case says {chain:?}"
            ));
        }
        for count in 0..=states + 1 {
            for room in [length, length + 3, length.saturating_sub(1)] {
                let mut search = self.begun(ask)?;
                let taken = count.min(states) as u64;
                expect("a move", search.moved(count)?, taken)?;
                self.finished(&mut search, room, chain.map(<[u16]>::len))?;
            }
        }
        Ok(())
    }

    /// A search is finished with so much room, its chain having this length; and then it is gone.
    fn finished(&self, search: &mut Searching, room: usize, length: Option<usize>) -> Done {
        let out = dirty_entries(&mut Random::new(room as u64), room);
        let expected = match length {
            None => NO_CHAIN,
            Some(length) if length > room => refused(19, length as u64),
            Some(length) => length as u64,
        };
        expect("finish", search.finish(&out)?, expected)?;
        let gone = refused(NO_SEARCH, 0);
        expect("a second finish", search.finish(&out)?, gone)?;
        expect("a move after it", search.moved(room)?, gone)
    }

    /// A list of starts, with lent lists of these lengths.
    fn starts_in(&self, listed: Listed, work_len: usize, room: usize, expected: u64) -> Done {
        let mut random = Random::new((work_len + room) as u64);
        let work = dirt(&mut random, work_len);
        let lengths = dirt(&mut random, room);
        let got = compare::starts(self.library, listed, &work, &lengths)?;
        expect(&format!("starts with {:02x?}", listed.pat), got, expected)
    }

    /// The lengths from listed places are these: in a list that fits exactly and in longer ones. One
    /// entry fewer, and none at all, is refused with how many there are. The finder says the same of
    /// places alone, of so many at most.
    fn told(&self, listed: Listed, lengths: &[u32], alone: usize) -> Done {
        let (work_len, count) = (exact(listed.alone(0)), lengths.len());
        let length = |&word: &u32| (word != NONE).then_some(word as usize);
        let told: Vec<Option<usize>> = lengths.iter().map(length).collect();
        let expected = request::starts(listed, work_len, count);
        if expected != StartsReply::Lengths(told.clone()) {
            return Err(format!(
                "this program says of {} starts {expected:?}, but the case says {told:?}",
                listed.starts.len()
            ));
        }
        let mut random = Random::new(count as u64);
        let work = dirt(&mut random, work_len);
        for room in [count, count + 1, count + 7] {
            let lent = dirt(&mut random, room);
            let got = compare::starts_against(self.library, listed, &work, &lent, &expected)?;
            expect("starts", got, count as u64)?;
        }
        if count > 0 {
            self.starts_in(listed, work_len, count - 1, refused(19, count as u64))?;
            self.starts_in(listed, work_len, 0, refused(19, count as u64))?;
        }
        compare::starts_alone(self.library, listed, &work, &told, alone)?;
        Ok(())
    }

    /// The same, every place being put to the finder.
    fn starts(&self, listed: Listed, lengths: &[u32]) -> Done {
        self.told(listed, lengths, usize::MAX)
    }

    fn none(&self, ask: Ask) -> Done {
        self.find_in(ask, exact(ask), 0, NO_CHAIN)?;
        self.find_in(ask, exact(ask), 5, NO_CHAIN)
    }
}

/// The words that a request needs, or some where none are enough.
fn exact(ask: Ask) -> usize {
    request::words(ask.rec, ask.pat).unwrap_or(9_000) as usize
}

fn ask<'a>(rec: &'a [u8], pat: &'a [u8], from: u16, to: u16) -> Ask<'a> {
    Ask {
        rec,
        pat,
        from,
        to,
        options: None,
    }
}

fn list<'a>(rec: &'a [u8], pat: &'a [u8], starts: &'a [u16], to: u16) -> Listed<'a> {
    Listed {
        rec,
        pat,
        starts,
        to,
        options: None,
    }
}

/// The mark for none among lengths.
const NONE: u32 = 4_294_967_295;

pub fn line(from: u16, kind: u8, class: u8, sail: u32, to: u16) -> Line {
    Line {
        from,
        kind,
        class,
        sail,
        to,
        time: None,
    }
}

fn ok() -> Result<String, String> {
    Ok(String::new())
}

// ---- 01's records and patterns

pub fn lines_of_r() -> Vec<Line> {
    vec![
        line(0, 1, 1, 150, 1),
        line(0, 1, 2, 150, 1),
        line(1, 2, 2, 150, 2),
        line(1, 2, 1, 150, 2),
        line(2, 3, 1, 150, 2),
        line(2, 4, 2, 150, 3),
        line(2, 4, 1, 151, 3),
    ]
}

pub fn r() -> Vec<u8> {
    written(4, &lines_of_r())
}

pub fn t() -> Vec<u8> {
    written(1, &[line(0, 1, 1, 1, 0), line(0, 1, 1, 2, 0)])
}

pub const E: [u8; 4] = [1, 0, 1, 0];
pub const P: [u8; 15] = [
    0x27, 1, 0, 0x25, 0x22, 2, 0, 0x25, 0x26, 0x22, 3, 0, 0x22, 4, 0,
];
pub const S: [u8; 13] = [0x27, 1, 0, 0x25, 0x27, 1, 0, 0x23, 1, 0, 0x22, 1, 0];

/// A record of one place with this many different boats, one line each.
fn boats(places: u16, count: u32) -> Vec<u8> {
    let lines: Vec<Line> = (0..count)
        .map(|n| line(0, 1, (n % 2) as u8, n / 2, 0))
        .collect();
    written(places, &lines)
}

/// So many repeats, and then these bytes.
fn repeats(count: usize, then: &[u8]) -> Vec<u8> {
    let mut bytes = vec![0x26; count];
    bytes.extend(then);
    bytes
}

/// The words of a search size.
const fn words_of(size: u64) -> u64 {
    4 * size + 8_192
}

// ---- 01's rows

fn record_rows(b: &Bench) -> Result<String, String> {
    for (rec, number) in [(&[1, 0, 0, 0][..], 2), (&[1, 4, 1, 0], 2), (&[1, 0, 1], 3)] {
        b.words(rec, &[0x20], refused(number, 0))?;
        b.read(rec, 0, refused(number, 0))?;
    }
    b.words(&[1, 4, 0, 0], &[0x20], words_of(1_024 * 2))?;
    b.read(&[1, 4, 0, 0], 0, refused(18, 0))?;
    ok()
}

fn pattern_rows(b: &Bench) -> Result<String, String> {
    b.words(&E, &[], refused(8, 0))?;
    b.words(&E, &[0x21], refused(10, 0))?;
    b.words(&E, &[0x21, 0], refused(11, 0))?;
    b.words(&E, &[0x22, 1, 0], refused(12, 0))?;
    b.words(&E, &[0x20, 0x20], refused(14, 0))?;
    b.words(&E, &repeats(62, &[0x20]), words_of(64))?;
    b.words(&E, &repeats(63, &[0x20]), refused(9, 0))?;
    ok()
}

fn size_row(b: &Bench) -> Result<String, String> {
    let mut pat = vec![0x27, 1, 0];
    pat.extend(repeats(13, &[0x21, 1]));
    let (fits, over) = (boats(1_024, 63), boats(1_024, 64));
    b.words(&fits, &pat, 4_202_496)?;
    b.words(&over, &pat, refused(16, 0))?;
    let enough = 4_202_496;
    b.check_in(ask(&fits, &pat, 0, 0), &[0], enough, 1)?;
    b.check_in(ask(&fits, &pat, 0, 1), &[0], enough, 0)?;
    b.check_in(ask(&fits, &pat, 0, 0), &[0], enough - 1, refused(17, 0))?;
    b.check_in(ask(&over, &pat, 0, 0), &[0], enough, refused(16, 0))?;
    ok()
}

fn check_rows(b: &Bench) -> Result<String, String> {
    let (r, t) = (r(), t());
    b.words(&r, &P, 8_704)?;
    b.check(ask(&r, &P, 0, 3), &[0, 2, 5], 0)?;
    b.check(ask(&r, &P, 0, 3), &[1, 2, 5], 1)?;
    b.check(ask(&t, &S, 0, 0), &[0, 1, 0, 0], 1)?;
    b.check(ask(&t, &S, 0, 0), &[0, 1, 0, 1], 0)?;
    b.check(ask(&E, &[0x20], 0, 0), &[], 1)?;
    b.check(ask(&E, &[0x21, 3], 0, 0), &[], 0)?;
    b.check(ask(&r, &[0x26, 0x20], 0, 1), &[], 0)?;
    ok()
}

fn find_rows(b: &Bench) -> Result<String, String> {
    let (r, t) = (r(), t());
    b.found(ask(&r, &P, 0, 3), &[1, 2, 5])?;
    let mut more = lines_of_r();
    more.push(line(2, 4, 1, 150, 3));
    b.found(ask(&written(4, &more), &P, 0, 3), &[0, 3, 7])?;
    let mut fewer = lines_of_r();
    fewer.remove(5);
    b.none(ask(&written(4, &fewer), &P, 0, 3))?;
    b.found(ask(&t, &S, 0, 0), &[0, 0, 1, 0])?;
    b.found(ask(&E, &[0x20], 0, 0), &[])?;
    b.none(ask(&E, &[0x21, 3], 0, 0))?;
    b.none(ask(&r, &[0x26, 0x20], 0, 1))?;
    b.find_in(ask(&r, &P, 0, 3), 8_704, 2, refused(19, 3))?;
    ok()
}

// ---- the record

fn record_traps(b: &Bench) -> Result<String, String> {
    let asked = |rec: &[u8], number: u8| -> Done {
        b.words(rec, &[0x20], refused(number, 0))?;
        b.read(rec, 0, refused(number, 0))
    };
    // 1: in the order of the walk, not of the numbers.
    asked(&written(1, &[line(0, 0, 1, 1, 0), line(0, 1, 1, 1, 1)]), 6)?;
    asked(&written(1, &[line(0, 1, 1, 1, 1), line(0, 0, 1, 1, 0)]), 5)?;
    // 2: by length alone.
    asked(&vec![0xFF; LONGEST + 1], 1)?;
    asked(&vec![0xFF; LONGEST], 2)?;
    // 3: as many lines as there can be, and one more.
    let good = line(0, 15, 255, 0xFF_FFFF, 0);
    let full = written(1, &vec![good; MOST_LINES]);
    b.words(&full, &[0x20], words_of(2))?;
    b.read(&full, 4_095, 5)?;
    b.read(&full, 4_096, refused(18, 0))?;
    let mut over = full.clone();
    *over.last_mut().expect("not empty") = 2;
    asked(&over, 22)?;
    over.push(0);
    asked(&over, 22)?;
    // 4
    asked(&[], 2)?;
    asked(&[1], 2)?;
    asked(&[1, 0], 2)?;
    asked(&[2, 0, 1, 0], 2)?;
    asked(&[0], 2)?;
    asked(&[1, 0xFF, 0xFF, 0], 2)?;
    asked(&[1, 0, 1, 1, 0, 1, 0], 3)?;
    asked(&[1, 0, 1, 4], 3)?;
    // 5: all operands before 5, and 5 before 6.
    let one = written(1, &[line(0, 1, 1, 1, 0)]);
    asked(&one[..12], 4)?;
    asked(&one[..4], 4)?;
    asked(&one[..13], 3)?;
    let mut bad = written(1, &[line(9, 0, 1, 1, 9)]);
    asked(&bad, 5)?;
    bad.truncate(12);
    asked(&bad, 4)?;
    asked(&written(1, &[line(1, 1, 1, 1, 0)]), 5)?;
    asked(&written(1, &[line(0, 1, 1, 1, 1)]), 5)?;
    asked(&written(1, &[line(0, 16, 1, 1, 0)]), 6)?;
    asked(&written(1, &[line(0, 255, 1, 1, 0)]), 6)?;
    for kind in 1..=15 {
        b.words(&written(1, &[line(0, kind, 0, 0, 0)]), &[0x20], words_of(2))?;
    }
    // 6
    asked(&[1, 0, 1, 0, 0], 7)?;
    // 7: the whole record, past the named line too.
    let mut late = written(2, &[line(0, 1, 1, 1, 1), line(1, 1, 1, 1, 0)]);
    b.read(&late, 0, 5)?;
    b.read(&late, 1, 5)?;
    b.read(&late, 2, refused(18, 0))?;
    b.read(&late, 65_535, refused(18, 0))?;
    late.push(0);
    asked(&late, 7)?;
    // 8: the order of the operands.
    let rec = [1, 4, 0, 2, 1, 2, 5, 6, 7, 8, 9, 3, 0xFF, 0];
    let mut fields = [0; 5];
    expect("read", compare::read(b.library, &rec, 0, &fields)?, 5)?;
    b.library.read(&rec, 0, &mut fields);
    if fields != [0x0102, 5, 6, 0x07_0809, 0x03FF] {
        return Err(format!("fields {fields:?}"));
    }
    ok()
}

// ---- the pattern

fn pattern_traps(b: &Bench) -> Result<String, String> {
    let asked = |pat: &[u8], number: u8| b.words(&E, pat, refused(number, 0));
    let passes = |pat: &[u8], size: u64| b.words(&E, pat, words_of(size));
    // 9: one command is done before the next is looked at.
    asked(&[0x25, 0x22, 1, 0, 0x21, 0], 12)?;
    asked(&[0x25, 0x21, 0, 0x22, 1, 0], 11)?;
    asked(&[0x25, 0x21, 1, 0xFF], 8)?;
    asked(&[0x1F], 8)?;
    asked(&[0x2B], 8)?;
    asked(&[0x25, 0x20], 8)?;
    // 10: 8 before 9, and 9 before 10.
    asked(&repeats(63, &[]), 8)?;
    asked(&repeats(63, &[0xFF]), 8)?;
    asked(&repeats(63, &[0x20]), 9)?;
    asked(&repeats(63, &[0x21]), 9)?;
    // 11: after a complete pattern nothing is read.
    asked(&repeats(62, &[0x20, 0x20]), 14)?;
    asked(&[0x20, 0xFF], 14)?;
    passes(&repeats(62, &[0x21, 1]), 64)?;
    // 12
    asked(&[0x22, 0], 10)?;
    asked(&[0x22, 0, 5], 11)?;
    asked(&[0x22, 1, 4], 11)?;
    asked(&[0x23, 1, 255], 11)?;
    asked(&[0x27, 1], 10)?;
    asked(&[0x27, 16, 0, 0x20], 11)?;
    asked(&[0x27, 1, 4, 0x20], 11)?;
    asked(&[0x21, 16], 11)?;
    // 13: a keep around it, and not one to its left.
    asked(&[0x25, 0x27, 1, 0, 0x20, 0x22, 1, 0], 12)?;
    asked(&[0x27, 1, 0, 0x25, 0x27, 1, 1, 0x20, 0x22, 1, 1], 12)?;
    asked(&[0x23, 1, 0], 12)?;
    passes(&S, 6)?;
    // 14: nested, itself counted; by commands and not by slots.
    let three = [0x27, 1, 0, 0x27, 1, 0, 0x27, 1, 0];
    let then = |more: &[u8]| [&three[..], more].concat();
    passes(&then(&[0x20]), 5)?;
    asked(&then(&[0x27, 1, 0, 0x20]), 13)?;
    asked(&then(&[0x27, 1, 7, 0x20]), 11)?;
    asked(&then(&[0x27, 1]), 10)?;
    let keep = [0x27, 1, 0, 0x20];
    let four = [&[0x25, 0x25, 0x25][..], &keep, &keep, &keep, &keep].concat();
    passes(&four, 12)?;
    ok()
}

// ---- sizes and the order of questions

fn sizes(b: &Bench) -> Result<String, String> {
    // 15 and 16: the deepest nesting, and commands; not bytes, slots or all keeps.
    let three_boats = boats(2, 3);
    let keep = [0x27, 1, 0, 0x20];
    let beside = [&[0x25][..], &keep, &keep].concat();
    b.words(&three_boats, &beside, words_of(2 * 6 * 4))?;
    b.words(
        &three_boats,
        &[0x27, 1, 0, 0x27, 1, 0, 0x20],
        words_of(2 * 4 * 16),
    )?;
    b.words(
        &three_boats,
        &[0x27, 1, 0, 0x27, 1, 1, 0x27, 1, 2, 0x20],
        words_of(2 * 5 * 64),
    )?;
    b.words(&three_boats, &[0x21, 1], words_of(2 * 2))?;
    // 19: different boats of the whole record, 0-0 as one of them.
    let lines = [
        line(0, 1, 0, 0, 0),
        line(0, 2, 0, 0, 0),
        line(0, 1, 1, 0, 0),
        line(0, 1, 0, 1, 0),
        line(0, 1, 1, 1, 0),
        line(0, 1, 1, 1, 0),
    ];
    b.words(&written(1, &lines), &keep, words_of(3 * 5))?;
    b.words(&E, &keep, words_of(3))?;
    // The largest product there is.
    let many = boats(1_024, 4_096);
    let mut pat = vec![0x27, 1, 0, 0x27, 1, 1, 0x27, 1, 2];
    pat.extend(repeats(59, &[0x21, 1]));
    b.words(&many, &pat, refused(16, 0))?;
    let record = read_record(&many).map_err(|n| format!("record refused {n}"))?;
    let pattern = crate::pattern::read_pattern(&pat).map_err(|n| format!("pattern refused {n}"))?;
    if search_size(&record, &pattern) != 1_024 * 64 * 4_097u128.pow(3) {
        return Err("search size".to_string());
    }
    // Products that would come round to a small number in 32 bits: (255 + 1)^3 x 256.
    let mut pat = vec![0x27, 1, 0, 0x27, 1, 1, 0x27, 1, 2];
    pat.extend(repeats(11, &[0x21, 1]));
    b.words(&boats(16, 255), &pat, refused(16, 0))?;
    // One place, no keep, as many boats as lines: the size is 2.
    b.words(&boats(1, 4_096), &[0x20], words_of(2))?;
    ok()
}

fn request_order(b: &Bench) -> Result<String, String> {
    let r = r();
    let bad_rec = [1, 0, 1];
    let bad_pat = [0xFF];
    // 17: record, pattern, 15, 16, 17.
    b.check(ask(&bad_rec, &bad_pat, 9, 9), &[9], refused(3, 0))?;
    b.check(ask(&r, &bad_pat, 9, 9), &[9], refused(8, 0))?;
    let over = boats(1_024, 64);
    let mut pat = vec![0x27, 1, 0];
    pat.extend(repeats(13, &[0x21, 1]));
    b.check_in(ask(&over, &pat, 1_024, 0), &[999], 0, refused(15, 0))?;
    b.check_in(ask(&over, &pat, 0, 1_024), &[999], 0, refused(15, 0))?;
    b.check_in(ask(&over, &pat, 0, 0), &[999], 0, refused(16, 0))?;
    b.check_in(
        ask(&over, &pat, 1_023, 1_023),
        &[999],
        9_000,
        refused(16, 0),
    )?;
    b.check_in(ask(&r, &P, 0, 3), &[999], 8_703, refused(17, 0))?;
    b.check_in(ask(&r, &P, 0, 3), &[999], 8_704, refused(18, 0))?;
    b.check(ask(&r, &P, 4, 3), &[], refused(15, 0))?;
    b.check(ask(&r, &P, 3, 4), &[], refused(15, 0))?;
    b.check(ask(&r, &P, 65_535, 65_535), &[], refused(15, 0))?;
    // 20: the checker too, for an empty chain.
    b.check_in(ask(&E, &[0x20], 0, 0), &[], 8_199, refused(17, 0))?;
    b.check_in(ask(&E, &[0x20], 0, 0), &[], 8_200, 1)?;
    b.check_in(ask(&E, &[0x20], 0, 0), &[], 0, refused(17, 0))?;
    ok()
}

fn missing_lines(b: &Bench) -> Result<String, String> {
    let r = r();
    let asked = ask(&r, &P, 0, 3);
    // A bad join and then a line that isn't there; an accepted chain and then one; one
    // before all others.
    b.check(asked, &[0, 0, 9_999], refused(18, 0))?;
    b.check(asked, &[5, 0, 7], refused(18, 0))?;
    b.check(asked, &[1, 2, 5, 7], refused(18, 0))?;
    b.check(asked, &[7, 1, 2, 5], refused(18, 0))?;
    b.check(asked, &[65_535], refused(18, 0))?;
    b.check(asked, &[6], 0)?;
    b.check(asked, &[7], refused(18, 0))?;
    b.check(ask(&E, &[0x26, 0x21, 1], 0, 0), &[0], refused(18, 0))?;
    let mut long = vec![0; 3_000];
    long.push(7);
    b.check(asked, &long, refused(18, 0))?;
    ok()
}

fn areas(b: &Bench) -> Result<String, String> {
    let (r, t) = (r(), t());
    for more in [0, 1, 2, 63, 8_192, 100_000] {
        b.check_in(ask(&r, &P, 0, 3), &[1, 2, 5], 8_704 + more, 1)?;
        b.check_in(ask(&r, &P, 0, 3), &[0, 2, 5], 8_704 + more, 0)?;
        b.check_in(ask(&r, &P, 0, 3), &[0, 2, 7], 8_704 + more, refused(18, 0))?;
        b.check_in(ask(&t, &S, 0, 0), &[0, 1, 0, 0], 8_192 + 4 * 54 + more, 1)?;
    }
    for fewer in [1, 2, 512, 8_704] {
        b.check_in(ask(&r, &P, 0, 3), &[1, 2, 5], 8_704 - fewer, refused(17, 0))?;
    }
    // What is in the area before is not seen: words of one value, small and large.
    for word in [0, 1, 2, 7, 1_024, u32::MAX, 0x8000_0000] {
        let asked = ask(&t, &S, 0, 0);
        let work = vec![word; 8_192 + 4 * 54 + 5];
        let yes = compare::check(b.library, asked, &[0, 1, 0, 0], &work)?;
        let no = compare::check(b.library, asked, &[0, 1, 0, 1], &work)?;
        expect("yes", yes, 1)?;
        expect("no", no, 0)?;
    }
    ok()
}

fn empty_chains(b: &Bench) -> Result<String, String> {
    let r = r();
    b.check(ask(&r, &[0x26, 0x20], 1, 1), &[], 1)?;
    b.check(ask(&r, &[0x26, 0x20], 0, 1), &[], 0)?;
    b.check(ask(&r, &[0x26, 0x21, 1], 3, 3), &[], 1)?;
    b.check(ask(&r, &[0x21, 1], 0, 0), &[], 0)?;
    b.check(ask(&r, &[0x24, 0x21, 1, 0x20], 0, 0), &[], 1)?;
    b.check(ask(&r, &[0x24, 0x21, 1, 0x20], 0, 3), &[], 0)?;
    b.check(ask(&r, &P, 0, 0), &[], 0)?;
    // The last line's end counts.
    b.check(ask(&r, &[0x21, 1], 0, 1), &[0], 1)?;
    b.check(ask(&r, &[0x21, 1], 0, 0), &[0], 0)?;
    b.check(ask(&r, &[0x21, 1], 1, 1), &[0], 0)?;
    ok()
}

/// Long chains with a handful of states alive; the time is printed and never judged.
fn million(b: &Bench) -> Result<String, String> {
    let lines = [
        line(0, 1, 1, 1, 1),
        line(1, 2, 1, 1, 0),
        line(1, 2, 2, 1, 0),
        line(0, 1, 2, 1, 1),
    ];
    let rec = written(2, &lines);
    // Laps: a start kept, the same boat back, any number of times.
    let laps = [0x26, 0x27, 1, 0, 0x24, 0x22, 2, 0, 0x25, 0x22, 2, 0, 0x20];
    let asked = ask(&rec, &laps, 0, 0);
    let mut chain: Vec<u16> = (0..1_000_000u32)
        .map(|n| [0, 1, 3, 2][n as usize % 4])
        .collect();
    let clock = Instant::now();
    b.check(asked, &chain, 1)?;
    let compared = clock.elapsed();
    let mut work = dirt(&mut Random::new(1), exact(asked));
    let clock = Instant::now();
    let reply = b.library.check(asked, &chain, &mut work);
    let alone = clock.elapsed();
    expect("a million entries", reply, 1)?;
    // The last line's boat is wrong; its number is missing; the first line is.
    chain[999_999] = 1;
    b.check(asked, &chain, 0)?;
    chain[999_999] = 4;
    b.check(asked, &chain, refused(18, 0))?;
    chain[999_999] = 2;
    chain[0] = 1;
    b.check(asked, &chain, 0)?;
    chain[999_999] = 65_535;
    b.check(asked, &chain, refused(18, 0))?;
    Ok(format!(
        "{alone:?} for a yes, {compared:?} with the comparison"
    ))
}

fn repeat_and_other(b: &Bench) -> Result<String, String> {
    let rec = written(
        1,
        &[
            line(0, 1, 1, 1, 0),
            line(0, 2, 1, 2, 0),
            line(0, 1, 2, 1, 0),
        ],
    );
    let other = [0x27, 1, 0, 0x23, 1, 0];
    b.check(ask(&rec, &other, 0, 0), &[0, 2], 1)?;
    b.check(ask(&rec, &other, 0, 0), &[0, 0], 0)?;
    b.check(ask(&rec, &other, 0, 0), &[0, 1], 0)?;
    b.check(ask(&rec, &[0x26, 0x26, 0x20], 0, 0), &[], 1)?;
    b.check(ask(&rec, &[0x26, 0x26, 0x20], 0, 0), &[0], 0)?;
    let nullable = [0x26, 0x26, 0x24, 0x20, 0x26, 0x21, 1];
    b.check(ask(&rec, &nullable, 0, 0), &[], 1)?;
    b.check(ask(&rec, &nullable, 0, 0), &[0, 2, 0, 0], 1)?;
    b.check(ask(&rec, &nullable, 0, 0), &[0, 1, 0], 0)?;
    ok()
}

// ---- request One

/// A boat kept at kind 1, and then a line of kind 2: any, its own, another's.
const THEN_ANY: [u8; 5] = [0x27, 1, 0, 0x21, 2];
const THEN_SAME: [u8; 6] = [0x27, 1, 0, 0x22, 2, 0];
const THEN_OTHER: [u8; 6] = [0x27, 1, 0, 0x23, 2, 0];

/// Same and other fail on an unread line and for an unread slot; keep, line and the search
/// size take an unread number like every other.
fn unread_numbers(b: &Bench) -> Result<String, String> {
    // A read boat kept, and after it an unread line, its own, another's.
    let rec = written(
        3,
        &[
            line(0, 1, 1, 1, 1),
            line(1, 2, 0, 0, 2),
            line(1, 2, 1, 1, 2),
            line(1, 2, 1, 2, 2),
        ],
    );
    for (pat, yes) in [
        (&THEN_ANY[..], [1, 1, 1]),
        (&THEN_SAME, [0, 1, 0]),
        (&THEN_OTHER, [0, 0, 1]),
    ] {
        for (second, yes) in [1, 2, 3].into_iter().zip(yes) {
            b.check(ask(&rec, pat, 0, 2), &[0, second], yes)?;
        }
    }
    b.found(ask(&rec, &THEN_ANY, 0, 2), &[0, 1])?;
    b.found(ask(&rec, &THEN_SAME, 0, 2), &[0, 2])?;
    b.found(ask(&rec, &THEN_OTHER, 0, 2), &[0, 3])?;

    // An unread number kept: no test of it passes.
    let rec = written(
        2,
        &[
            line(0, 1, 0, 0, 1),
            line(1, 2, 0, 0, 1),
            line(1, 2, 1, 1, 1),
        ],
    );
    for second in [1, 2] {
        b.check(ask(&rec, &THEN_ANY, 0, 1), &[0, second], 1)?;
        b.check(ask(&rec, &THEN_SAME, 0, 1), &[0, second], 0)?;
        b.check(ask(&rec, &THEN_OTHER, 0, 1), &[0, second], 0)?;
    }
    b.found(ask(&rec, &THEN_ANY, 0, 1), &[0, 1])?;
    b.none(ask(&rec, &THEN_SAME, 0, 1))?;
    b.none(ask(&rec, &THEN_OTHER, 0, 1))?;

    // Class 0 alone, or number 0 alone, is a boat.
    for (kept, other) in [((0, 5), (0, 6)), ((3, 0), (4, 0)), ((0, 5), (3, 0))] {
        let rec = written(
            2,
            &[
                line(0, 1, kept.0, kept.1, 1),
                line(1, 2, 0, 0, 1),
                line(1, 2, other.0, other.1, 1),
                line(1, 2, kept.0, kept.1, 1),
            ],
        );
        b.found(ask(&rec, &THEN_SAME, 0, 1), &[0, 3])?;
        b.found(ask(&rec, &THEN_OTHER, 0, 1), &[0, 2])?;
        b.check(ask(&rec, &THEN_SAME, 0, 1), &[0, 2], 0)?;
        b.check(ask(&rec, &THEN_OTHER, 0, 1), &[0, 3], 0)?;
    }

    // 21 takes an unread line, alone and under repeat; so does keep.
    let rec = written(3, &[line(0, 1, 0, 0, 1), line(1, 1, 0, 0, 2)]);
    b.found(ask(&rec, &[0x21, 1], 0, 1), &[0])?;
    b.found(ask(&rec, &[0x26, 0x21, 1], 0, 2), &[0, 1])?;
    b.found(ask(&rec, &[0x27, 1, 0, 0x20], 0, 1), &[0])?;
    b.found(ask(&rec, &[0x26, 0x27, 1, 0, 0x20], 0, 2), &[0, 1])?;

    // All unread numbers count as one boat.
    let keep = [0x27, 1, 0, 0x20];
    let mut lines = vec![line(0, 1, 1, 1, 0), line(0, 1, 1, 2, 0)];
    for boats in [2, 3, 3, 3] {
        b.words(&written(1, &lines), &keep, words_of(3 * (boats + 1)))?;
        lines.push(line(0, 1, 0, 0, 0));
    }
    ok()
}

/// Lines between the same two places in every order, unread ones among them: other takes the
/// first that is read and is another boat's, same the first of its own.
fn unread_runs(b: &Bench) -> Result<String, String> {
    let boats = [(0, 0), (1, 1), (1, 2)];
    let mut runs: Vec<Vec<(u8, u32)>> = vec![vec![]];
    for _ in 0..4 {
        let longer = |run: &Vec<(u8, u32)>| boats.map(|boat| [&run[..], &[boat]].concat());
        runs = runs.iter().flat_map(longer).collect();
        for run in &runs {
            for kept in [(1, 1), (1, 3), (0, 0)] {
                // The first line of the record is unread, or another.
                one_run(b, &[0x22, 0x23], run, kept, (0, 0))?;
                one_run(b, &[0x22, 0x23], run, kept, (9, 9))?;
            }
        }
    }
    ok()
}

/// A boat kept, and then each of these tests of lines between two places: the first that passes.
fn one_run(b: &Bench, tests: &[u8], run: &[(u8, u32)], kept: (u8, u32), ahead: (u8, u32)) -> Done {
    let mut lines = vec![
        line(3, 4, ahead.0, ahead.1, 3),
        line(0, 1, kept.0, kept.1, 1),
    ];
    lines.extend(run.iter().map(|boat| line(1, 2, boat.0, boat.1, 2)));
    lines.push(line(2, 3, 0, 0, 3));
    let last = lines.len() as u16 - 1;
    let rec = written(4, &lines);
    for &test in tests {
        let second = run
            .iter()
            .position(|&boat| passed_by(kept, boat).contains(&test))
            .map(|at| 2 + at as u16);
        // The test stands last in its keep, and before a line that is inside too.
        let alone = [0x27, 1, 0, test, 2, 0];
        let before = [0x27, 1, 0, 0x25, test, 2, 0, 0x21, 3];
        let (alone, before) = (ask(&rec, &alone, 0, 2), ask(&rec, &before, 0, 3));
        match second {
            Some(second) => {
                b.found(alone, &[1, second])?;
                b.found(before, &[1, second, last])?;
            }
            None => {
                b.none(alone)?;
                b.none(before)?;
            }
        }
    }
    Ok(())
}

/// The commands that a line's boat passes, that boat being kept.
fn passed_by(kept: (u8, u32), boat: (u8, u32)) -> &'static [u8] {
    if kept == (0, 0) || boat == (0, 0) {
        &[]
    } else if kept == boat {
        &[0x22]
    } else if kept.0 == boat.0 {
        &[0x23, 0x28]
    } else {
        &[0x23, 0x29]
    }
}

/// Which slot a test looks at, an unread number being in one of them.
fn unread_slots(b: &Bench) -> Result<String, String> {
    // Two boats kept, 1-1 at kind 1 and an unread one at kind 2, and then lines of 1-1 and 1-2.
    let rec = written(
        4,
        &[
            line(0, 1, 1, 1, 1),
            line(1, 2, 0, 0, 2),
            line(2, 3, 1, 1, 3),
            line(2, 3, 1, 2, 3),
            line(2, 4, 1, 1, 2),
        ],
    );
    // In two slots: those of the first are tested as ever, those of the second never pass.
    b.found(
        ask(&rec, &[0x27, 1, 0, 0x27, 2, 1, 0x22, 3, 0], 0, 3),
        &[0, 1, 2],
    )?;
    b.found(
        ask(&rec, &[0x27, 1, 0, 0x27, 2, 1, 0x23, 3, 0], 0, 3),
        &[0, 1, 3],
    )?;
    b.none(ask(&rec, &[0x27, 1, 0, 0x27, 2, 1, 0x22, 3, 1], 0, 3))?;
    b.none(ask(&rec, &[0x27, 1, 0, 0x27, 2, 1, 0x23, 3, 1], 0, 3))?;
    // In one slot: the unread number hides the boat inside, and the boat is back after it.
    b.none(ask(&rec, &[0x27, 1, 0, 0x27, 2, 0, 0x22, 3, 0], 0, 3))?;
    b.none(ask(&rec, &[0x27, 1, 0, 0x27, 2, 0, 0x23, 3, 0], 0, 3))?;
    let back = |test: u8| [0x27, 1, 0, 0x25, 0x27, 2, 0, 0x20, test, 3, 0];
    b.found(ask(&rec, &back(0x22), 0, 3), &[0, 1, 2])?;
    b.found(ask(&rec, &back(0x23), 0, 3), &[0, 1, 3])?;
    // A test inside that fails, but need not be passed.
    let not_needed = [0x27, 1, 0, 0x25, 0x27, 2, 1, 0x26, 0x22, 4, 1, 0x22, 3, 0];
    b.found(ask(&rec, &not_needed, 0, 3), &[0, 1, 2])?;
    b.check(ask(&rec, &not_needed, 0, 3), &[0, 1, 4, 2], 0)?;

    // The other way round: an unread number outside, a read boat inside.
    let rec = written(
        4,
        &[
            line(0, 1, 0, 0, 1),
            line(1, 2, 1, 1, 2),
            line(2, 3, 1, 1, 3),
            line(2, 3, 1, 2, 3),
        ],
    );
    b.found(
        ask(&rec, &[0x27, 1, 0, 0x27, 2, 0, 0x22, 3, 0], 0, 3),
        &[0, 1, 2],
    )?;
    b.found(
        ask(&rec, &[0x27, 1, 0, 0x27, 2, 0, 0x23, 3, 0], 0, 3),
        &[0, 1, 3],
    )?;
    b.none(ask(&rec, &back(0x22), 0, 3))?;
    b.none(ask(&rec, &back(0x23), 0, 3))?;

    // Laps, each with its own kept boat: the one with an unread number is no lap.
    let laps = [0x26, 0x27, 1, 0, 0x22, 2, 0];
    let lines = [
        line(0, 1, 0, 0, 1),
        line(1, 2, 0, 0, 2),
        line(0, 1, 1, 1, 1),
        line(1, 2, 1, 1, 2),
        line(2, 1, 1, 2, 3),
        line(3, 2, 1, 2, 4),
    ];
    b.found(ask(&written(5, &lines), &laps, 0, 4), &[2, 3, 4, 5])?;
    b.none(ask(&written(5, &lines[..3]), &laps, 0, 2))?;
    ok()
}

// ---- request Two

const TESTS: [u8; 4] = [0x22, 0x23, 0x28, 0x29];

/// Questions 8 to 12 of the two commands.
fn class_questions(b: &Bench) -> Result<String, String> {
    let asked = |pat: &[u8], number: u8| {
        b.words(&E, pat, refused(number, 0))?;
        b.pattern(pat, Err(number))
    };
    let kept = |more: &[u8]| [&[0x27, 1, 0][..], more].concat();
    for test in [0x28, 0x29] {
        b.pattern(&kept(&[test, 15, 0]), Ok([2, 1]))?;
        b.words(&E, &kept(&[test, 15, 0]), words_of(3))?;
        b.pattern(&kept(&[0x27, 1, 3, test, 1, 3]), Ok([3, 2]))?;
        // 9 before 10; the widest pattern of 63 commands passes.
        asked(&repeats(63, &[test]), 9)?;
        asked(&repeats(63, &[test, 1, 0]), 9)?;
        b.pattern(&kept(&repeats(61, &[test, 1, 0])), Ok([63, 1]))?;
        asked(&kept(&repeats(62, &[test, 1, 0])), 9)?;
        // 10 before 11, and 11 before 12.
        for short in [&[test][..], &[test, 1], &[test, 0], &[test, 16]] {
            asked(short, 10)?;
            asked(&kept(short), 10)?;
        }
        for (kind, slot) in [(0, 0), (16, 0), (255, 0), (1, 4), (1, 255), (0, 4)] {
            asked(&[test, kind, slot], 11)?;
            asked(&kept(&[test, kind, slot]), 11)?;
        }
        // 12: no keep, another slot's, one to its left, one that has ended.
        asked(&[test, 1, 0], 12)?;
        asked(&[test, 1, 3], 12)?;
        for slot in 1..4 {
            asked(&kept(&[test, 1, slot]), 12)?;
        }
        asked(&[0x25, 0x27, 1, 0, 0x20, test, 1, 0], 12)?;
        asked(&kept(&[0x25, 0x27, 1, 1, 0x20, test, 1, 1]), 12)?;
        // They have no patterns after them.
        asked(&kept(&[test, 1, 0, 0x20]), 14)?;
        asked(&kept(&[0x25, test, 1, 0]), 8)?;
    }
    ok()
}

/// A boat enters, and then another one of its class starts; and a boat of another class.
fn class_vectors(b: &Bench) -> Result<String, String> {
    let rec = written(
        3,
        &[
            line(0, 1, 2, 1, 1),
            line(1, 2, 1, 7, 2),
            line(1, 2, 1, 8, 2),
            line(1, 2, 2, 1, 2),
            line(1, 2, 2, 9, 2),
            line(1, 2, 3, 1, 2),
        ],
    );
    for (test, second) in [(0x22, 3), (0x23, 1), (0x28, 4), (0x29, 1)] {
        b.found(ask(&rec, &then(test), 0, 2), &[0, second])?;
    }
    for (test, yes) in [(0x28, [0, 0, 0, 1, 0]), (0x29, [1, 1, 0, 0, 1])] {
        for (second, yes) in (1..).zip(yes) {
            b.check(ask(&rec, &then(test), 0, 2), &[0, second], yes)?;
        }
    }
    let lines = [
        line(0, 1, 1, 1, 1),
        line(1, 2, 1, 7, 2),
        line(1, 2, 1, 8, 2),
        line(1, 2, 2, 1, 2),
    ];
    let rec = written(3, &lines);
    b.found(ask(&rec, &then(0x29), 0, 2), &[0, 3])?;
    b.found(ask(&rec, &then(0x28), 0, 2), &[0, 1])?;
    b.none(ask(&written(3, &lines[..3]), &then(0x29), 0, 2))?;
    b.none(ask(&written(3, &[lines[0], lines[3]]), &then(0x28), 0, 2))?;
    ok()
}

/// A boat kept at kind 1, and then the test of a line of kind 2.
fn then(test: u8) -> [u8; 6] {
    [0x27, 1, 0, test, 2, 0]
}

/// Each command on lines that compare in each way, of the kind and of another.
fn class_outcomes(b: &Bench) -> Result<String, String> {
    let edges = [
        // The same boat, another of its class, the same number of another class, neither.
        ((2, 1), [(2, 1), (2, 9), (3, 1), (3, 9)]),
        ((0, 5), [(0, 5), (0, 6), (6, 5), (6, 6)]),
        ((3, 0), [(3, 0), (3, 1), (4, 0), (4, 1)]),
        // Bytes at their edges: classes and numbers that differ in one bit, the highest or not.
        ((1, 1), [(1, 1), (1, 65_537), (129, 1), (2, 1)]),
        (
            (1, 8_388_609),
            [(1, 8_388_609), (1, 1), (0, 8_388_609), (0, 1)],
        ),
        (
            (255, 16_777_215),
            [
                (255, 16_777_215),
                (255, 16_777_214),
                (254, 16_777_215),
                (127, 0),
            ],
        ),
    ];
    for (kept, [same, sister, foreign, stranger]) in edges {
        one_of_each(b, kept, same, &[0x22])?;
        one_of_each(b, kept, sister, &[0x23, 0x28])?;
        one_of_each(b, kept, foreign, &[0x23, 0x29])?;
        one_of_each(b, kept, stranger, &[0x23, 0x29])?;
        one_of_each(b, kept, (0, 0), &[])?;
        one_of_each(b, (0, 0), kept, &[])?;
    }
    one_of_each(b, (0, 0), (0, 0), &[])?;
    ok()
}

fn one_of_each(b: &Bench, kept: (u8, u32), boat: (u8, u32), passed: &[u8]) -> Done {
    let rec = written(
        3,
        &[
            line(0, 1, kept.0, kept.1, 1),
            line(1, 3, boat.0, boat.1, 2),
            line(1, 2, boat.0, boat.1, 2),
        ],
    );
    for test in TESTS {
        let pat = then(test);
        let asked = ask(&rec, &pat, 0, 2);
        b.check(asked, &[0, 1], 0)?;
        b.check(asked, &[0, 2], passed.contains(&test) as u64)?;
        if passed.contains(&test) {
            b.found(asked, &[0, 2])?;
        } else {
            b.none(asked)?;
        }
    }
    Ok(())
}

/// Lines between the same two places, boats of two classes and an unread number in every order:
/// each command takes the first that compares as it wants.
fn class_runs(b: &Bench) -> Result<String, String> {
    let boats = [(0, 0), (1, 1), (1, 2), (2, 1), (2, 2)];
    let mut runs: Vec<Vec<(u8, u32)>> = vec![vec![]];
    for _ in 0..4 {
        let longer = |run: &Vec<(u8, u32)>| {
            let fresh = boats.iter().filter(|boat| !run.contains(boat));
            fresh
                .map(|&boat| [&run[..], &[boat]].concat())
                .collect::<Vec<_>>()
        };
        runs = runs.iter().flat_map(longer).collect();
        for run in &runs {
            for kept in [(1, 1), (1, 3), (2, 2), (3, 1)] {
                one_run(b, &TESTS, run, kept, (9, 9))?;
            }
        }
    }
    // Boats named again before the one that is wanted.
    for run in [
        &[(1, 1), (1, 1), (1, 2)][..],
        &[(2, 1), (2, 1), (2, 2), (2, 1), (1, 1), (1, 2)],
        &[(0, 0), (1, 1), (0, 0), (2, 1), (2, 2), (2, 1), (1, 2)],
    ] {
        for kept in [(1, 1), (1, 2), (2, 1), (0, 0)] {
            one_run(b, &TESTS, run, kept, (0, 0))?;
        }
    }
    ok()
}

/// Which slot a test looks at, boats of two classes being kept.
fn class_slots(b: &Bench) -> Result<String, String> {
    // 1-1 kept at kind 1 and 2-1 at kind 2, and then lines of kind 3.
    let rec = written(
        4,
        &[
            line(0, 1, 1, 1, 1),
            line(1, 2, 2, 1, 2),
            line(2, 3, 1, 1, 3),
            line(2, 3, 2, 1, 3),
            line(2, 3, 2, 2, 3),
            line(2, 3, 1, 2, 3),
        ],
    );
    let two = |slot: u8, test: u8, of: u8| [0x27, 1, 0, 0x27, 2, slot, test, 3, of];
    let back = |test: u8| [0x27, 1, 0, 0x25, 0x27, 2, 0, 0x20, test, 3, 0];
    for (test, of_outer, of_inner) in [(0x28, 5, 4), (0x29, 3, 2)] {
        b.found(ask(&rec, &two(1, test, 0), 0, 3), &[0, 1, of_outer])?;
        b.found(ask(&rec, &two(1, test, 1), 0, 3), &[0, 1, of_inner])?;
        b.found(ask(&rec, &two(0, test, 0), 0, 3), &[0, 1, of_inner])?;
        b.found(ask(&rec, &back(test), 0, 3), &[0, 1, of_outer])?;
    }
    // Both at once: of the outer boat's class and of another class than the inner one's.
    let both = [0x27, 1, 0, 0x27, 2, 1, 0x25, 0x28, 3, 0, 0x29, 4, 1];
    let mut lines = read_record(&rec)
        .map_err(|n| format!("record refused {n}"))?
        .lines;
    lines.push(line(3, 4, 2, 5, 3));
    b.none(ask(&written(4, &lines), &both, 0, 3))?;
    lines.push(line(3, 4, 1, 1, 3));
    b.found(ask(&written(4, &lines), &both, 0, 3), &[0, 1, 5, 7])?;
    // A keep of a sister: the boat it is compared with is the inner one's from there on.
    let ladder = [
        0x27, 1, 0, 0x25, 0x28, 2, 0, 0x27, 3, 0, 0x25, 0x29, 4, 0, 0x28, 5, 0,
    ];
    let rec = written(
        1,
        &[
            line(0, 1, 1, 1, 0),
            line(0, 2, 1, 2, 0),
            line(0, 3, 2, 2, 0),
            line(0, 4, 2, 1, 0),
            line(0, 4, 1, 2, 0),
            line(0, 5, 1, 2, 0),
            line(0, 5, 2, 1, 0),
        ],
    );
    b.found(ask(&rec, &ladder, 0, 0), &[0, 1, 2, 4, 6])?;
    ok()
}

/// A full record in which the line that is wanted is the last of all.
fn class_full_run(b: &Bench) -> Result<String, String> {
    let day = |other: fn(u32) -> (u8, u32), last: (u8, u32)| {
        let mut lines = vec![line(0, 1, 7, 1, 1)];
        for n in 1..MOST_LINES as u32 - 1 {
            let boat = other(n);
            lines.push(line(1, 2, boat.0, boat.1, 2));
        }
        lines.push(line(1, 2, last.0, last.1, 2));
        written(3, &lines)
    };
    let last = MOST_LINES as u16 - 1;
    let foreigners = day(|n| ((n % 5 + 1) as u8, n), (7, 2));
    b.found(ask(&foreigners, &then(0x28), 0, 2), &[0, last])?;
    b.found(ask(&foreigners, &then(0x29), 0, 2), &[0, 1])?;
    b.none(ask(&foreigners, &then(0x22), 0, 2))?;
    let sisters = day(|n| (7, n + 1), (8, 1));
    b.found(ask(&sisters, &then(0x29), 0, 2), &[0, last])?;
    b.found(ask(&sisters, &then(0x28), 0, 2), &[0, 1])?;
    let own = day(|_| (7, 1), (7, 2));
    b.found(ask(&own, &then(0x28), 0, 2), &[0, last])?;
    b.none(ask(&own, &then(0x29), 0, 2))?;
    let unread = day(|_| (0, 0), (0, 1));
    b.found(ask(&unread, &then(0x29), 0, 2), &[0, last])?;
    b.none(ask(&unread, &then(0x28), 0, 2))?;
    ok()
}

// ---- request Three

/// So many times "twenty times", each in the one before, and then these bytes.
fn twenties(count: usize, then: &[u8]) -> Vec<u8> {
    [&[0x2A, 20, 20].repeat(count)[..], then].concat()
}

/// 2A and its two counts around a pattern.
fn rounds(lowest: u8, highest: u8, inner: &[u8]) -> Vec<u8> {
    [&[0x2A, lowest, highest], inner].concat()
}

/// Questions 8 to 13 and 24 of 2A, and 8 of the bytes after it.
fn round_questions(b: &Bench) -> Result<String, String> {
    let asked = |pat: &[u8], number: u8| {
        b.words(&E, pat, refused(number, 0))?;
        b.pattern(pat, Err(number))
    };
    // 10: both counts, before 24 looks at one; 8: one pattern after them.
    for short in [&[0x2A][..], &[0x2A, 1], &[0x2A, 21], &[0x2A, 255]] {
        asked(short, 10)?;
        asked(&repeats(62, short), 10)?;
    }
    asked(&[0x2A, 0, 0], 8)?;
    asked(&[0x2A, 2, 5], 8)?;
    asked(&[0x2A, 2, 5, 0xFF], 8)?;
    asked(&[0x2A, 0, 0, 0x2B], 8)?;
    asked(&[0x2A, 1, 2, 0x20, 0x20], 14)?;
    // 9 counts it as written, before 10 and 24.
    asked(&repeats(63, &[0x2A]), 9)?;
    asked(&repeats(63, &[0x2A, 1, 0, 0x20]), 9)?;
    asked(&repeats(62, &[0x2A, 1, 0, 0x20]), 24)?;
    asked(&repeats(62, &[0x2A, 0, 0, 0x20]), 9)?;
    asked(&repeats(62, &[0x2A, 0, 0]), 8)?;
    // 24: the lowest up to the highest, the highest up to 20; before anything inside.
    for (lowest, highest) in [
        (1, 0),
        (2, 1),
        (20, 19),
        (0, 21),
        (20, 21),
        (21, 21),
        (255, 0),
    ] {
        for inner in [&[0x20][..], &[], &[0xFF], &[0x21, 0], &[0x22, 1, 0]] {
            asked(&rounds(lowest, highest, inner), 24)?;
        }
    }
    asked(&[0x2A, 0, 255, 0x20], 24)?;
    asked(&[0x2A, 255, 255, 0x20], 24)?;
    asked(&[0x2A, 1, 1, 0x2A, 1, 0, 0x20], 24)?;
    asked(&[0x25, 0x21, 0, 0x2A, 1, 0, 0x20], 11)?;
    asked(&[0x25, 0x2A, 1, 0, 0x20, 0x21, 0], 24)?;
    // 11 asks the counts nothing: 0, 16 and 20 are no kind, 4 and 20 no slot.
    for (lowest, highest) in [
        (0, 0),
        (0, 1),
        (1, 4),
        (16, 16),
        (16, 20),
        (0, 20),
        (20, 20),
    ] {
        b.counts(
            &rounds(lowest, highest, &[0x20]),
            Ok([2, 0, 1 + highest as u32]),
        )?;
    }
    // What is inside is asked, also where no round may come.
    for highest in [0, 1, 20] {
        asked(&rounds(0, highest, &[0x21]), 10)?;
        asked(&rounds(0, highest, &[0x21, 0]), 11)?;
        asked(&rounds(0, highest, &[0x22, 1, 0]), 12)?;
        let three = [0x27, 1, 0, 0x27, 1, 1, 0x27, 1, 2];
        let inside = rounds(0, highest, &[0x27, 1, 3, 0x20]);
        asked(&[&three[..], &inside].concat(), 13)?;
        asked(
            &rounds(0, highest, &[&three[..], &[0x27, 1, 3, 0x20]].concat()),
            13,
        )?;
    }
    // 12: it keeps nothing and hides nothing; what a round keeps is kept in the round.
    let kept = rounds(0, 2, &[0x22, 1, 0]);
    b.counts(&[&[0x27, 1, 0][..], &kept].concat(), Ok([3, 1, 4]))?;
    asked(&[&[0x27, 1, 1][..], &kept].concat(), 12)?;
    let round = rounds(1, 1, &[0x27, 1, 0, 0x20]);
    asked(&[&[0x25][..], &round, &[0x22, 1, 0]].concat(), 12)?;
    // 13: it is no keep.
    let three = [
        0x27, 1, 0, 0x2A, 1, 1, 0x27, 1, 1, 0x2A, 1, 1, 0x27, 1, 2, 0x20,
    ];
    b.counts(&three, Ok([6, 3, 6]))?;
    for byte in 0x2B..=0x30 {
        asked(&[byte], 8)?;
        asked(&[byte, 1, 0], 8)?;
        asked(&[0x27, 1, 0, byte, 1, 0], 8)?;
        asked(&[0x25, 0x20, byte], 8)?;
        asked(&[0x20, byte], 14)?;
        asked(&repeats(63, &[byte]), 8)?;
    }
    ok()
}

/// The unfolded count and question 25, up to counts that no number of a machine holds.
fn unfolded_counts(b: &Bench) -> Result<String, String> {
    let asked = |pat: &[u8], number: u8| {
        b.words(&E, pat, refused(number, 0))?;
        b.counts(pat, Err(number))
    };
    b.counts(&rounds(2, 5, &P), Ok([8, 1, 36]))?;
    b.counts(&rounds(0, 0, &S), Ok([6, 2, 1]))?;
    let then = [&[0x25][..], &rounds(1, 3, &S), &P].concat();
    b.counts(&then, Ok([14, 2, 24]))?;
    let either = [
        &[0x24][..],
        &rounds(0, 2, &[0x21, 1]),
        &rounds(3, 3, &[0x20]),
    ]
    .concat();
    b.counts(&either, Ok([5, 0, 8]))?;
    b.counts(&rounds(2, 2, &rounds(3, 3, &[0x21, 1])), Ok([3, 0, 9]))?;
    // 63 and 64, before and after 14.
    let sixty_one = rounds(0, 20, &[0x24, 0x20, 0x20]);
    b.counts(&sixty_one, Ok([4, 0, 61]))?;
    b.counts(&repeats(2, &sixty_one), Ok([6, 0, 63]))?;
    asked(&repeats(3, &sixty_one), 25)?;
    asked(&[&repeats(2, &sixty_one)[..], &[0x20]].concat(), 14)?;
    asked(&[&repeats(3, &sixty_one)[..], &[0x20]].concat(), 14)?;
    asked(&rounds(0, 4, &rounds(0, 15, &[0x20])), 25)?;
    b.counts(&rounds(0, 3, &rounds(0, 19, &[0x20])), Ok([3, 0, 61]))?;
    asked(&rounds(20, 20, &rounds(20, 20, &[0x20])), 25)?;
    // 9 is about commands as written, and comes first.
    asked(&repeats(62, &rounds(0, 0, &[0x20])), 9)?;
    b.counts(&repeats(61, &rounds(0, 0, &[0x20])), Ok([63, 0, 62]))?;
    b.counts(&repeats(60, &rounds(0, 2, &[0x20])), Ok([62, 0, 63]))?;
    asked(&repeats(60, &rounds(0, 3, &[0x20])), 25)?;
    // Twenty times twenty times .. : no number of a machine holds the count, and none of it is one.
    for count in [2, 7, 8, 15, 16, 30, 40, 62] {
        asked(&twenties(count, &[0x20]), 25)?;
        asked(&twenties(count, &[0x20, 0x20]), 14)?;
    }
    asked(&twenties(63, &[0x20]), 9)?;
    for count in [1, 2, 40, 61] {
        let none = rounds(0, 0, &twenties(count, &[0x20]));
        b.counts(&none, Ok([count as u32 + 2, 0, 1]))?;
        b.counts(&[&none[..], &[0x20]].concat(), Err(14))?;
        // Twenty times one is 20, whatever is inside that one.
        if count < 61 {
            b.counts(&rounds(20, 20, &none), Ok([count as u32 + 3, 0, 21]))?;
        }
    }
    // A count that comes round to a small one in 8, 16, 32 or 64 bits.
    let mut random = Random::new(1);
    for bits in [8, 16, 32, 64] {
        for small in [1, 17, 40, 63] {
            let pat = counting_to(&mut random, (1 << bits) + small);
            asked(&pat, 25)?;
            asked(&[&pat[..], &[0x20]].concat(), 14)?;
        }
    }
    ok()
}

/// The search size goes by the unfolded count; keeps count as they are written.
fn round_sizes(b: &Bench) -> Result<String, String> {
    let three_boats = boats(2, 3);
    b.words(&three_boats, &rounds(2, 5, &[0x21, 3]), words_of(2 * 7))?;
    b.words(&three_boats, &rounds(0, 0, &[0x21, 3]), words_of(2 * 2))?;
    let keep = [0x27, 1, 0, 0x20];
    b.words(&three_boats, &rounds(2, 5, &keep), words_of(2 * 12 * 4))?;
    b.words(&three_boats, &rounds(0, 0, &keep), words_of(2 * 2 * 4))?;
    b.words(&three_boats, &rounds(0, 0, &S), words_of(2 * 2 * 16))?;
    let nested = [&[0x27, 1, 0][..], &rounds(1, 3, &keep)].concat();
    b.words(&three_boats, &nested, words_of(2 * 9 * 16))?;
    let none = rounds(0, 0, &twenties(40, &keep));
    b.words(&three_boats, &none, words_of(2 * 2 * 4))?;
    // The largest size: 1,024 places, an unfolded count of 15, one keep, 63 boats; and next to it.
    let fifteen = [
        &[0x27, 1, 0][..],
        &repeats(4, &rounds(0, 3, &[0x26, 0x26, 0x21, 1])),
    ]
    .concat();
    b.counts(&fifteen, Ok([9, 1, 15]))?;
    b.words(&boats(1_024, 63), &fifteen, 4_202_496)?;
    b.words(&boats(1_024, 64), &fifteen, refused(16, 0))?;
    b.words(&boats(1_024, 63), &repeats(1, &fifteen), refused(16, 0))?;
    let day = boats(1_024, 63);
    b.check_in(ask(&day, &fifteen, 0, 0), &[0], 4_202_496, 1)?;
    b.check_in(ask(&day, &fifteen, 0, 0), &[0], 4_202_495, refused(17, 0))?;
    // Two rounds each need the words of a round more.
    let two = rounds(2, 2, &[0x21, 1]);
    b.check_in(
        ask(&day, &two, 0, 0),
        &[0, 1],
        words_of(1_024 * 4) as usize,
        1,
    )?;
    b.check_in(
        ask(&day, &two, 0, 0),
        &[0, 1],
        words_of(1_024 * 3) as usize,
        refused(17, 0),
    )?;
    ok()
}

/// 24 and 25 after the record and before 15; the area and the output are left as they were.
fn round_order(b: &Bench) -> Result<String, String> {
    let r = r();
    let bad = rounds(1, 0, &[0x20]);
    let large = twenties(40, &[0x20]);
    for (pat, number) in [(&bad, 24), (&large, 25)] {
        for words in [0, 9_000] {
            b.check_in(ask(&r, pat, 9, 9), &[9], words, refused(number, 0))?;
            b.find_in(ask(&r, pat, 9, 9), words, 3, refused(number, 0))?;
            b.check_in(ask(&r, pat, 0, 3), &[9], words, refused(number, 0))?;
            b.find_in(ask(&r, pat, 0, 3), words, 0, refused(number, 0))?;
            b.check_in(ask(&[1, 0, 1], pat, 9, 9), &[9], words, refused(3, 0))?;
            b.find_in(ask(&[1, 0, 1], pat, 9, 9), words, 3, refused(3, 0))?;
        }
    }
    // 16 comes after 25: the places and boats would be too many for any count.
    let many = boats(1_024, 64);
    let kept = [&[0x27, 1, 0, 0x27, 1, 1, 0x27, 1, 2][..], &large].concat();
    b.words(&many, &kept, refused(25, 0))?;
    let one = [
        &[0x27, 1, 0, 0x27, 1, 1, 0x27, 1, 2][..],
        &rounds(0, 0, &large),
    ]
    .concat();
    b.words(&many, &one, refused(16, 0))?;
    ok()
}

/// A lap of one line, from a place to itself.
fn one_line() -> Vec<u8> {
    written(1, &[line(0, 3, 1, 1, 0)])
}

fn round_vectors(b: &Bench) -> Result<String, String> {
    let rec = one_line();
    let lap = [0x21, 3];
    b.found(ask(&rec, &rounds(2, 5, &lap), 0, 0), &[0, 0])?;
    b.found(ask(&rec, &rounds(0, 0, &lap), 0, 0), &[])?;
    b.found(ask(&rec, &rounds(1, 3, &[0x20]), 0, 0), &[])?;
    let beside = [&[0x25][..], &rounds(2, 5, &lap), &rounds(3, 3, &lap)].concat();
    b.found(ask(&rec, &beside, 0, 0), &[0; 5])?;
    let none = rounds(0, 0, &twenties(40, &lap));
    b.found(ask(&rec, &none, 0, 0), &[])?;
    b.check(ask(&rec, &none, 0, 0), &[0], 0)?;
    // A course of so many legs, one line each: found where so many rounds are allowed.
    let legs: Vec<Line> = (0..8).map(|i| line(i, 3, 1, 1, i + 1)).collect();
    let course = written(9, &legs);
    for length in 0..=8u16 {
        let chain: Vec<u16> = (0..length).collect();
        for (lowest, highest) in [(2, 5), (0, 3), (4, 4), (0, 0), (8, 20)] {
            let pat = rounds(lowest, highest, &lap);
            let asked = ask(&course, &pat, 0, length);
            if (lowest as u16..=highest as u16).contains(&length) {
                b.found(asked, &chain)?;
            } else {
                b.none(asked)?;
                b.check(asked, &chain, 0)?;
            }
        }
    }
    // Rounds that may be empty: fewer rounds with lines are enough, and more are too many.
    let pat = rounds(3, 5, &[0x24, 0x20, 0x21, 3]);
    for length in 0..=8u16 {
        let chain: Vec<u16> = (0..length).collect();
        let asked = ask(&course, &pat, 0, length);
        b.check(asked, &chain, (length <= 5) as u64)?;
        if length <= 5 {
            b.found(asked, &chain)?;
        } else {
            b.none(asked)?;
        }
    }
    // Rounds of several lines, and of one length or another.
    let two_or_three = [0x25, 0x24, 0x25, 0x21, 3, 0x21, 3, 0x21, 3, 0x21, 3];
    for length in 0..=8u16 {
        let chain: Vec<u16> = (0..length).collect();
        let pat = rounds(2, 2, &two_or_three);
        let asked = ask(&course, &pat, 0, length);
        b.check(asked, &chain, (4..=6).contains(&length) as u64)?;
    }
    // The lower line at the first difference, whichever round it comes from.
    let rec = written(
        1,
        &[
            line(0, 1, 1, 1, 0),
            line(0, 2, 1, 1, 0),
            line(0, 1, 1, 2, 0),
        ],
    );
    let either = [0x24, 0x21, 2, 0x21, 1];
    b.found(ask(&rec, &rounds(3, 4, &either), 0, 0), &[0, 0, 0])?;
    let second = [&[0x25, 0x21, 2][..], &rounds(1, 2, &either)].concat();
    b.found(ask(&rec, &second, 0, 0), &[1, 0])?;
    ok()
}

/// All counts up to 4 and some larger ones, of rounds of a line, of a line or nothing, of two
/// lines and of repeats, on words of all lengths up to a few more than the rounds: yes exactly
/// where the rounds can be made up of the lines.
fn round_counts(b: &Bench) -> Result<String, String> {
    let rec = one_line();
    // A round, and the least and the most lines that it takes; all between are possible.
    let bodies: [(&[u8], usize, usize); 5] = [
        (&[0x21, 3], 1, 1),
        (&[0x24, 0x20, 0x21, 3], 0, 1),
        (&[0x25, 0x21, 3, 0x24, 0x20, 0x21, 3], 1, 2),
        (&[0x26, 0x21, 3], 0, 99),
        (&[0x20], 0, 0),
    ];
    let counts = (0..=4).flat_map(|low| (low..=4).map(move |high| (low, high)));
    for (lowest, highest) in counts.chain([(0, 9), (7, 9), (9, 9)]) {
        for (body, least, most) in bodies {
            let pat = rounds(lowest, highest, body);
            let asked = ask(&rec, &pat, 0, 0);
            let (shortest, longest) = (lowest as usize * least, highest as usize * most);
            b.found(asked, &vec![0; shortest])?;
            for length in 0..=(longest + 2).min(20) {
                let yes = (shortest..=longest).contains(&length);
                b.check(asked, &vec![0; length], yes as u64)?;
            }
        }
    }
    ok()
}

/// A boat kept in a round is that round's; one kept outside is there in every round.
fn round_boats(b: &Bench) -> Result<String, String> {
    let t = t();
    let own = [0x27, 1, 0, 0x22, 1, 0];
    let pat = rounds(2, 2, &own);
    b.found(ask(&t, &pat, 0, 0), &[0, 0, 0, 0])?;
    b.check(ask(&t, &pat, 0, 0), &[0, 0, 1, 1], 1)?;
    b.check(ask(&t, &pat, 0, 0), &[0, 1, 1, 0], 0)?;
    b.check(ask(&t, &pat, 0, 0), &[0, 0, 0, 1], 0)?;
    // Entered; in each round that boat, and then any boat kept in the same slot.
    let rec = written(
        1,
        &[
            line(0, 1, 1, 1, 0),
            line(0, 2, 1, 2, 0),
            line(0, 2, 1, 1, 0),
        ],
    );
    for (lowest, highest) in [(2, 2), (1, 2), (2, 3)] {
        let round = rounds(lowest, highest, &[0x25, 0x22, 2, 0, 0x27, 2, 0, 0x20]);
        let pat = [&[0x27, 1, 0][..], &round].concat();
        let asked = ask(&rec, &pat, 0, 0);
        b.check(asked, &[0, 2, 1, 2, 1], 1)?;
        b.check(asked, &[0, 2, 1, 1, 1], 0)?;
        b.check(asked, &[0, 2, 2, 2, 2], 1)?;
    }
    let round = rounds(2, 2, &[0x25, 0x23, 2, 0, 0x27, 2, 0, 0x20]);
    let others = [&[0x27, 1, 0][..], &round].concat();
    b.found(ask(&rec, &others, 0, 0), &[0, 1, 1, 1, 1])?;
    b.check(ask(&rec, &others, 0, 0), &[0, 1, 1, 2, 1], 0)?;
    // The outer boat is back after the rounds.
    let after = [
        &[0x27, 1, 0, 0x25][..],
        &rounds(1, 2, &[0x27, 2, 0, 0x20]),
        &[0x22, 2, 0],
    ]
    .concat();
    b.found(ask(&rec, &after, 0, 0), &[0, 1, 2])?;
    b.check(ask(&rec, &after, 0, 0), &[0, 1, 1], 0)?;
    // An unread number in one round says nothing of the next.
    let rec = written(
        1,
        &[
            line(0, 1, 0, 0, 0),
            line(0, 1, 1, 1, 0),
            line(0, 2, 1, 1, 0),
        ],
    );
    let pat = rounds(2, 2, &[0x27, 1, 0, 0x24, 0x20, 0x22, 2, 0]);
    b.found(ask(&rec, &pat, 0, 0), &[0, 0])?;
    b.check(ask(&rec, &pat, 0, 0), &[0, 1, 2], 1)?;
    b.check(ask(&rec, &pat, 0, 0), &[0, 2, 1], 0)?;
    ok()
}

/// Rounds in rounds, in repeats and around repeats.
fn round_nests(b: &Bench) -> Result<String, String> {
    let rec = one_line();
    let check = |pat: &[u8], lengths: &[usize]| -> Done {
        for length in 0..=14 {
            let yes = lengths.contains(&length) as u64;
            b.check(ask(&rec, pat, 0, 0), &vec![0; length], yes)?;
        }
        b.found(ask(&rec, pat, 0, 0), &vec![0; lengths[0]])
    };
    let lap = [0x21, 3];
    check(&rounds(2, 2, &rounds(3, 3, &lap)), &[6])?;
    check(
        &rounds(2, 3, &rounds(3, 4, &lap)),
        &[6, 7, 8, 9, 10, 11, 12],
    )?;
    check(&rounds(1, 2, &rounds(4, 5, &lap)), &[4, 5, 8, 9, 10])?;
    check(&rounds(0, 2, &rounds(0, 2, &lap)), &[0, 1, 2, 3, 4])?;
    check(&rounds(2, 2, &rounds(2, 2, &rounds(2, 2, &lap))), &[8])?;
    check(&rounds(1, 1, &rounds(1, 1, &rounds(1, 1, &lap))), &[1])?;
    check(
        &[&[0x26][..], &rounds(3, 3, &lap)].concat(),
        &[0, 3, 6, 9, 12],
    )?;
    check(
        &[&[0x26][..], &rounds(4, 5, &lap)].concat(),
        &[0, 4, 5, 8, 9, 10, 12, 13, 14],
    )?;
    check(
        &rounds(2, 2, &[0x25, 0x21, 3, 0x26, 0x21, 3]),
        &(2..=14).collect::<Vec<_>>(),
    )?;
    // Deep in each other: 62 commands, one round each.
    let deep = [&[0x2A, 1, 1].repeat(62)[..], &lap].concat();
    b.counts(&deep, Ok([63, 0, 63]))?;
    check(&deep, &[1])?;
    let open = [&[0x2A, 0, 1].repeat(62)[..], &lap].concat();
    check(&open, &[0, 1])?;
    ok()
}

// ---- writing

fn begin_traps(b: &Bench) -> Result<String, String> {
    let mut random = Random::new(30);
    for room in [0, 1, 3, 4, 5, 40] {
        let buf = dirty_bytes(&mut random, room);
        b.begin(&buf, 0, refused(2, 0))?;
        b.begin(&buf, 1_025, refused(2, 0))?;
        b.begin(&buf, 65_535, refused(2, 0))?;
        for places in [1, 255, 256, 258, 1_024] {
            let expected = if room < 4 { refused(23, 0) } else { 4 };
            b.begin(&buf, places, expected)?;
        }
    }
    let mut buf = [9; 6];
    b.library.begin(&mut buf, 0x0203);
    if buf != [1, 2, 3, 0, 9, 9] {
        return Err(format!("begin wrote {buf:02x?}"));
    }
    ok()
}

fn add_traps(b: &Bench) -> Result<String, String> {
    let good = line(0, 1, 7, 0x01_0203, 1);
    let mut buf = written(2, &[]);
    buf.extend([9; 21]);
    // The bytes, over the old end byte, and a new end byte.
    let after = b.add(&buf, 4, good, 14)?;
    if after[..15] != [1, 0, 2, 2, 0, 0, 1, 7, 1, 2, 3, 0, 1, 0, 9] {
        return Err(format!("add wrote {:02x?}", &after[..15]));
    }
    // Line by line: all earlier lines stay.
    let mut grown = buf.clone();
    let mut lines = Vec::new();
    for n in 0..2 {
        let next = line(n, 3 + n as u8, 0, 16_777_215, 1 - n);
        grown = b.add(&grown, 4 + 10 * n as usize, next, 14 + 10 * n as u64)?;
        lines.push(next);
        let len = 14 + 10 * n as usize;
        if grown[..len] != written(2, &lines) {
            return Err("a line that was added is not read back".to_string());
        }
        b.read(&grown[..len], n, 5)?;
    }
    // 31: 20, the record, 5, 6, 21, 22, 23.
    b.add(&buf, 26, good, refused(20, 0))?;
    b.add(&buf, usize::MAX, good, refused(20, 0))?;
    b.add(&buf, usize::MAX - 9, good, refused(20, 0))?;
    b.add(&[], 1, line(9, 0, 0, u32::MAX, 9), refused(20, 0))?;
    b.add(&[], 0, good, refused(2, 0))?;
    b.add(&buf, 3, good, refused(3, 0))?;
    b.add(&buf, 5, good, refused(7, 0))?;
    b.add(&buf, 25, good, refused(7, 0))?;
    b.add(&buf, 4, line(2, 0, 0, u32::MAX, 0), refused(5, 0))?;
    b.add(&buf, 4, line(0, 0, 0, u32::MAX, 2), refused(5, 0))?;
    b.add(&buf, 4, line(0, 0, 0, u32::MAX, 1), refused(6, 0))?;
    b.add(&buf, 4, line(0, 16, 0, 0, 1), refused(6, 0))?;
    b.add(&buf, 4, line(0, 15, 0, 16_777_216, 1), refused(21, 0))?;
    b.add(&buf, 4, line(0, 15, 255, 16_777_215, 1), 14)?;
    b.add(&buf[..13], 4, good, refused(23, 0))?;
    b.add(&buf[..4], 4, good, refused(23, 0))?;
    b.add(&buf[..4], 4, line(0, 1, 0, u32::MAX, 1), refused(21, 0))?;
    b.add(&buf[..14], 4, good, 14)?;
    // A record's own fault before the new line's.
    let bad = written(1, &[line(0, 0, 1, 1, 0)]);
    b.add(&bad, bad.len(), line(9, 9, 9, 9, 9), refused(6, 0))?;
    // 2: the length, and not the buffer's.
    let mut large = written(2, &[]);
    large.resize(60_000, 7);
    b.add(&large, 4, good, 14)?;
    b.add(&large, 57_348, good, refused(7, 0))?;
    b.add(&large, 57_349, good, refused(1, 0))?;
    // 22 before 23, and a last line that still goes in.
    let one_left = written(2, &vec![good; MOST_LINES - 1]);
    let mut room = one_left.clone();
    room.resize(one_left.len() + 9, 1);
    b.add(&room, one_left.len(), good, refused(23, 0))?;
    room.push(1);
    let full = b.add(&room, one_left.len(), good, 40_964)?;
    b.read(&full, 4_095, 5)?;
    b.add(&full, full.len(), good, refused(22, 0))?;
    b.add(
        &full,
        full.len(),
        line(0, 1, 1, 16_777_216, 1),
        refused(21, 0),
    )?;
    let mut more = full.clone();
    more.resize(full.len() + 20, 3);
    b.add(&more, full.len(), good, refused(22, 0))?;
    ok()
}

// ---- 001's examples

/// The three languages of Example 2, against what 001 says of them in words.
fn example_2(b: &Bench) -> Result<String, String> {
    let rec = written(
        1,
        &[
            line(0, 1, 1, 1, 0),
            line(0, 1, 1, 2, 0),
            line(0, 1, 2, 1, 0),
        ],
    );
    let first_differs: &[u8] = &[0x27, 1, 0, 0x26, 0x23, 1, 0];
    let first_is_last: &[u8] = &[0x27, 1, 0, 0x25, 0x26, 0x21, 1, 0x22, 1, 0];
    let two_alike: &[u8] = &[
        0x25, 0x26, 0x21, 1, 0x25, 0x27, 1, 0, 0x25, 0x26, 0x21, 1, 0x22, 1, 0, 0x26, 0x21, 1,
    ];
    let mut words: Vec<Vec<u16>> = vec![vec![]];
    for _ in 0..5 {
        for word in &words {
            let n = word.len();
            let differs = n > 0 && word[1..].iter().all(|boat| *boat != word[0]);
            let ends = n > 1 && word[0] == word[n - 1];
            let alike = (0..n).any(|i| word[i + 1..].contains(&word[i]));
            b.check(ask(&rec, first_differs, 0, 0), word, differs as u64)?;
            b.check(ask(&rec, first_is_last, 0, 0), word, ends as u64)?;
            b.check(ask(&rec, two_alike, 0, 0), word, alike as u64)?;
        }
        let mut longer = Vec::new();
        for word in &words {
            for boat in 0..3 {
                longer.push([&word[..], &[boat]].concat());
            }
        }
        words = longer;
    }
    ok()
}

/// A graph of Proposition 3 with n lines to go up and n to come down.
/// Kinds: 1 and 2 are the ends' own, 3 goes up, 4 comes down.
pub fn proposition_3_day(n: u16) -> Vec<u8> {
    let mut lines = vec![line(0, 1, 0, 0, 1), line(1, 1, 0, 0, 0)];
    for i in 1..=n {
        lines.push(line(i, 3, 1, i as u32, i + 1));
        lines.push(line(i + 1, 4, 2, i as u32, i));
    }
    lines.push(line(n + 1, 2, 0, 0, n + 2));
    lines.push(line(n + 2, 2, 0, 0, n + 1));
    written(n + 3, &lines)
}

/// The pattern of Proposition 3 with so many nested keeps; all in one slot, or each in
/// its own.
pub fn proposition_3_pattern(keeps: u8, one_slot: bool) -> Vec<u8> {
    fn inner(level: u8, up: bool, one_slot: bool) -> Vec<u8> {
        let (kind, end) = if up { (3, 1) } else { (4, 2) };
        if level == 0 {
            return vec![0x21, kind];
        }
        let slot = if one_slot { 0 } else { level };
        let mut bytes = vec![0x27, kind, slot, 0x25, 0x26];
        bytes.extend(inner(level - 1, !up, one_slot));
        bytes.extend([0x25, 0x21, end, 0x25, 0x21, end, 0x25, 0x26, 0x21, kind]);
        bytes.extend([0x22, kind, slot]);
        bytes
    }
    let mut bytes = vec![0x25, 0x21, 1, 0x25, 0x26];
    bytes.extend(inner(keeps, true, one_slot));
    bytes.extend([0x21, 2]);
    bytes
}

/// How long the chain is, by the steps of the proof.
pub fn proposition_3_length(n: u64, keeps: u8) -> u64 {
    fn up(i: u64, n: u64, level: u8) -> u64 {
        if level == 0 {
            return 1;
        }
        let back: u64 = (1..=i).map(|l| down(l, n, level - 1)).sum();
        1 + back + 2 + (i - 1) + 1
    }
    fn down(i: u64, n: u64, level: u8) -> u64 {
        if level == 0 {
            return 1;
        }
        let back: u64 = (i..=n).map(|l| up(l, n, level - 1)).sum();
        1 + back + 2 + (n - i) + 1
    }
    2 + (1..=n).map(|i| up(i, n, keeps)).sum::<u64>()
}

fn proposition_3(b: &Bench) -> Result<String, String> {
    let mut note = String::new();
    for (keeps, most) in [(1, 12), (2, 8), (3, 6)] {
        for n in [1, 2, 3, most] {
            for one_slot in [true, false] {
                let rec = proposition_3_day(n);
                let pat = proposition_3_pattern(keeps, one_slot);
                let asked = ask(&rec, &pat, 0, n + 2);
                let length = proposition_3_length(n as u64, keeps);
                b.find_in(asked, exact(asked), length as usize, length)?;
                b.find_in(asked, exact(asked), 3, refused(19, length))?;
                if n == most && one_slot {
                    let comma = if note.is_empty() { "" } else { ", " };
                    note += &format!("{comma}nested {keeps} deep: {length} lines");
                }
                // Backwards there is nothing.
                b.find_in(ask(&rec, &pat, n + 2, 0), exact(asked), 3, NO_CHAIN)?;
            }
        }
    }
    Ok(note)
}

// ---- vectors

struct Vector {
    rec: Vec<u8>,
    pat: Vec<u8>,
    to: u16,
    found: Option<Vec<u16>>,
    /// Chains that are accepted too, but are not the first shortest, or are not accepted.
    others: Vec<(Vec<u16>, u64)>,
}

fn vector_list() -> Vec<Vector> {
    let one = |lines: &[Line]| written(1, lines);
    vec![
        // V1: the second part of either has the lower line.
        Vector {
            rec: one(&[line(0, 1, 2, 2, 0), line(0, 2, 1, 2, 0)]),
            pat: vec![0x24, 0x21, 2, 0x21, 1],
            to: 0,
            found: Some(vec![0]),
            others: vec![(vec![1], 1), (vec![0, 1], 0)],
        },
        // V2: two states stand behind the first line.
        Vector {
            rec: one(&[line(0, 1, 1, 1, 0), line(0, 2, 1, 1, 0)]),
            pat: vec![0x24, 0x25, 0x21, 1, 0x21, 2, 0x25, 0x21, 1, 0x21, 1],
            to: 0,
            found: Some(vec![0, 0]),
            others: vec![(vec![0, 1], 1), (vec![1, 0], 0)],
        },
        // V1 and V2 with the parts of either exchanged, for programs that take them the other
        // way round.
        Vector {
            rec: one(&[line(0, 1, 2, 2, 0), line(0, 2, 1, 2, 0)]),
            pat: vec![0x24, 0x21, 1, 0x21, 2],
            to: 0,
            found: Some(vec![0]),
            others: vec![(vec![1], 1), (vec![0, 1], 0)],
        },
        Vector {
            rec: one(&[line(0, 1, 1, 1, 0), line(0, 2, 1, 1, 0)]),
            pat: vec![0x24, 0x25, 0x21, 1, 0x21, 1, 0x25, 0x21, 1, 0x21, 2],
            to: 0,
            found: Some(vec![0, 0]),
            others: vec![(vec![0, 1], 1), (vec![1, 0], 0)],
        },
        // V3: more lines than places.
        Vector {
            rec: one(&[line(0, 1, 1, 1, 0)]),
            pat: vec![0x25, 0x21, 1, 0x25, 0x21, 1, 0x21, 1],
            to: 0,
            found: Some(vec![0, 0, 0]),
            others: vec![(vec![0, 0], 0), (vec![0, 0, 0, 0], 0)],
        },
        // V4: a place passed twice.
        Vector {
            rec: written(2, &[line(0, 1, 1, 1, 0), line(0, 2, 1, 1, 1)]),
            pat: vec![0x25, 0x21, 1, 0x21, 2],
            to: 1,
            found: Some(vec![0, 1]),
            others: vec![(vec![1], 0), (vec![0, 0, 1], 0)],
        },
        // V7: rounds of nothing.
        Vector {
            rec: written(2, &[line(0, 1, 1, 1, 1)]),
            pat: vec![0x26, 0x26, 0x20],
            to: 0,
            found: Some(vec![]),
            others: vec![(vec![0], 0)],
        },
        Vector {
            rec: written(2, &[line(0, 1, 1, 1, 1)]),
            pat: vec![0x26, 0x26, 0x20],
            to: 1,
            found: None,
            others: vec![(vec![], 0), (vec![0], 0)],
        },
        // V12: two steps that take no line against one that takes one.
        Vector {
            rec: one(&[line(0, 2, 1, 1, 0)]),
            pat: vec![0x24, 0x25, 0x20, 0x20, 0x21, 2],
            to: 0,
            found: Some(vec![]),
            others: vec![(vec![0], 1), (vec![0, 0], 0)],
        },
    ]
}

fn vectors_checked(b: &Bench) -> Result<String, String> {
    for v in vector_list() {
        let asked = ask(&v.rec, &v.pat, 0, v.to);
        if let Some(chain) = &v.found {
            b.check(asked, chain, 1)?;
        }
        for (chain, expected) in &v.others {
            b.check(asked, chain, *expected)?;
        }
    }
    let (rec, pat) = vector_11_day();
    let asked = ask(&rec, &pat, 0, 100);
    let chain = vector_11_chain();
    b.check(asked, &chain, 1)?;
    b.check(asked, &chain[..924 * 50], 0)?;
    b.check(ask(&rec, &pat, 0, 50), &chain[..924 * 50], 1)?;
    ok()
}

fn vectors(b: &Bench) -> Result<String, String> {
    for v in vector_list() {
        let asked = ask(&v.rec, &v.pat, 0, v.to);
        match &v.found {
            Some(chain) => b.found(asked, chain)?,
            None => b.none(asked)?,
        }
    }
    ok()
}

/// A hundred boats, each of which goes down the same long course and back to the next one.
pub fn vector_11_day() -> (Vec<u8>, Vec<u8>) {
    let mut lines = Vec::new();
    for i in 0..100 {
        lines.push(line(i, 1, 1, i as u32 + 1, 101));
    }
    for j in 0..922 {
        lines.push(line(101 + j, 2, 9, 9, 102 + j));
    }
    for i in 0..100 {
        lines.push(line(1_023, 3, 1, i as u32 + 1, i + 1));
    }
    let pat = vec![0x26, 0x27, 1, 0, 0x25, 0x26, 0x21, 2, 0x22, 3, 0];
    (written(1_024, &lines), pat)
}

fn vector_11_chain() -> Vec<u16> {
    let mut chain = Vec::new();
    for i in 0..100 {
        chain.push(i);
        chain.extend(100..1_022);
        chain.push(1_022 + i);
    }
    chain
}

fn vector_11(b: &Bench) -> Result<String, String> {
    let (rec, pat) = vector_11_day();
    let asked = ask(&rec, &pat, 0, 100);
    b.words(&rec, &pat, words_of(731_136))?;
    let chain = vector_11_chain();
    expect("V11's length", chain.len() as u64, 92_400)?;
    let work_len = exact(asked);
    let expected = request::find(asked, work_len, 92_400);
    if expected != FindReply::Found(chain) {
        return Err("this program finds another chain for V11".to_string());
    }
    b.find_in(asked, work_len, 92_400, 92_400)?;
    b.find_in(asked, work_len, 92_399, refused(19, 92_400))?;
    b.find_in(asked, work_len, 2_048, refused(19, 92_400))?;
    ok()
}

// ---- the finder's questions, areas and outputs

fn finder_order(b: &Bench) -> Result<String, String> {
    let r = r();
    b.find_in(ask(&[1, 0, 1], &[0xFF], 9, 9), 0, 0, refused(3, 0))?;
    b.find_in(ask(&r, &[0xFF], 9, 9), 0, 0, refused(8, 0))?;
    let over = boats(1_024, 64);
    let mut pat = vec![0x27, 1, 0];
    pat.extend(repeats(13, &[0x21, 1]));
    b.find_in(ask(&over, &pat, 1_024, 0), 10, 4, refused(15, 0))?;
    b.find_in(ask(&over, &pat, 0, 1_024), 10, 4, refused(15, 0))?;
    b.find_in(ask(&over, &pat, 0, 0), 10, 4, refused(16, 0))?;
    b.find_in(ask(&over, &pat, 0, 0), 4_300_000, 4, refused(16, 0))?;
    b.find_in(ask(&r, &P, 0, 3), 8_703, 4, refused(17, 0))?;
    b.find_in(ask(&r, &P, 0, 3), 0, 0, refused(17, 0))?;
    ok()
}

fn finder_areas(b: &Bench) -> Result<String, String> {
    let (r, t) = (r(), t());
    for more in [0, 1, 63, 100_000] {
        b.find_in(ask(&r, &P, 0, 3), 8_704 + more, 3, 3)?;
        b.find_in(ask(&r, &P, 3, 0), 8_704 + more, 3, NO_CHAIN)?;
        b.find_in(ask(&r, &P, 0, 3), 8_704 + more, 2, refused(19, 3))?;
    }
    for word in [0, 1, 2, 7, 1_024, u32::MAX, 0x8000_0000] {
        let asked = ask(&t, &S, 0, 0);
        let work = vec![word; 8_192 + 4 * 54 + 5];
        let out = vec![word as u16; 6];
        expect("found", compare::find(b.library, asked, &work, &out)?, 4)?;
    }
    ok()
}

fn outputs(b: &Bench) -> Result<String, String> {
    let r = r();
    // 23: exact, one short, and no room for a chain of no lines.
    b.find_in(ask(&r, &P, 0, 3), 8_704, 3, 3)?;
    b.find_in(ask(&r, &P, 0, 3), 8_704, 2, refused(19, 3))?;
    b.find_in(ask(&r, &P, 0, 3), 8_704, 0, refused(19, 3))?;
    b.find_in(ask(&r, &P, 0, 3), 8_704, 70_000, 3)?;
    b.find_in(ask(&E, &[0x20], 0, 0), 8_200, 0, 0)?;
    // 27: none, whatever the output.
    b.find_in(ask(&r, &P, 1, 3), 8_704, 0, NO_CHAIN)?;
    b.find_in(ask(&r, &P, 1, 3), 8_704, 2_000, NO_CHAIN)?;
    ok()
}

/// Two rings of 512 places that don't meet, with 63 boats: each line of kind 1 comes twice, with
/// different boats, and one of kind 2 leads from place 300 to 301.
fn two_rings() -> Vec<u8> {
    let mut lines = Vec::new();
    for i in 0..1_024 {
        let half = i / 512 * 512;
        for shift in [0, 7] {
            let to = half + (i + 1) % 512;
            lines.push(line(i, 1, 1, (i as u32 + shift) % 63, to));
        }
    }
    lines.push(line(300, 2, 1, 0, 301));
    written(1_024, &lines)
}

/// Requests of the largest search size that really search.
fn largest(b: &Bench) -> Result<String, String> {
    let clock = Instant::now();
    let rec = two_rings();
    // A boat kept, others after it, and that boat once more.
    let core = [0x27, 1, 0, 0x25, 0x26, 0x23, 1, 0, 0x22, 2, 0];
    let pat = repeats(10, &core);
    b.words(&rec, &pat, 4_202_496)?;
    b.find_in(ask(&rec, &pat, 0, 301), 4_202_496, 301, 301)?;
    b.find_in(ask(&rec, &pat, 0, 301), 4_202_496, 300, refused(19, 301))?;
    b.find_in(ask(&rec, &pat, 0, 600), 4_202_496, 300, NO_CHAIN)?;

    // Four places, two keeps inside each other.
    let mut lines: Vec<Line> = (0..63)
        .map(|n| line(n % 3, 1, 1, n as u32, (n + 1) % 3))
        .collect();
    lines.push(line(1, 2, 1, 0, 2));
    let none = written(4, &lines);
    lines.push(line(2, 2, 1, 10, 3));
    let found = written(4, &lines);
    let core = [
        0x27, 1, 0, 0x25, 0x26, 0x23, 1, 0, 0x27, 1, 1, 0x25, 0x26, 0x23, 1, 1, 0x25, 0x22, 2, 0,
        0x22, 2, 1,
    ];
    let pat = repeats(52, &core);
    b.words(&found, &pat, 4_202_496)?;
    b.found(ask(&found, &pat, 0, 3), &[0, 10, 2, 0, 63, 64])?;
    b.none(ask(&none, &pat, 0, 3))?;
    Ok(format!("{:?} with the comparison", clock.elapsed()))
}

/// Requests of the largest search size with 63 boats in three classes.
fn largest_by_class(b: &Bench) -> Result<String, String> {
    let clock = Instant::now();
    // Two rings that don't meet; from each place two lines of class 1, one of 2 and one of 3.
    let mut lines = Vec::new();
    for i in 0..1_000u16 {
        let to = i / 500 * 500 + (i + 1) % 500;
        for (class, shift) in [(1, 0), (1, 7), (2, 0), (3, 0)] {
            lines.push(line(i, 1, class, (i as u32 + shift) % 21, to));
        }
    }
    lines.push(line(300, 2, 1, 0, 301));
    let rec = written(1_024, &lines);
    for test in [0x28, 0x29] {
        let pat = repeats(10, &[0x27, 1, 0, 0x25, 0x26, test, 1, 0, 0x22, 2, 0]);
        b.words(&rec, &pat, 4_202_496)?;
        b.find_in(ask(&rec, &pat, 0, 301), 4_202_496, 301, 301)?;
        b.find_in(ask(&rec, &pat, 0, 301), 4_202_496, 300, refused(19, 301))?;
        b.find_in(ask(&rec, &pat, 0, 600), 4_202_496, 300, NO_CHAIN)?;
    }

    // Four places, two keeps inside each other: sisters of the first, other classes than the
    // second's.
    let boat = |n: u16| ((n / 21 + 1) as u8, n as u32);
    let mut lines: Vec<Line> = (0..63)
        .map(|n| line(n % 3, 1, boat(n).0, boat(n).1, (n + 1) % 3))
        .collect();
    lines.push(line(1, 2, 1, 0, 2));
    let none = written(4, &lines);
    lines.push(line(2, 2, 1, 10, 3));
    let found = written(4, &lines);
    let core = [
        0x27, 1, 0, 0x25, 0x26, 0x28, 1, 0, 0x27, 1, 1, 0x25, 0x26, 0x29, 1, 1, 0x25, 0x22, 2, 0,
        0x22, 2, 1,
    ];
    let pat = repeats(52, &core);
    b.words(&found, &pat, 4_202_496)?;
    b.found(ask(&found, &pat, 0, 3), &[0, 10, 23, 21, 63, 64])?;
    b.none(ask(&none, &pat, 0, 3))?;
    Ok(format!("{:?} with the comparison", clock.elapsed()))
}

/// Requests of the largest search size with rounds: 16 positions, 63 boats, one keep.
fn largest_of_rounds(b: &Bench) -> Result<String, String> {
    let clock = Instant::now();
    let rec = two_rings();
    // A boat kept; so many rounds of any number of others; and that boat once more.
    for (lowest, highest, rest) in [(0, 4, 3), (4, 4, 3), (2, 2, 7), (1, 5, 1)] {
        let round = rounds(lowest, highest, &[0x26, 0x23, 1, 0]);
        let pat = [
            &repeats(rest, &[0x27, 1, 0, 0x25])[..],
            &round,
            &[0x22, 2, 0],
        ]
        .concat();
        b.words(&rec, &pat, 4_202_496)?;
        b.find_in(ask(&rec, &pat, 0, 301), 4_202_496, 301, 301)?;
        b.find_in(ask(&rec, &pat, 0, 301), 4_202_496, 300, refused(19, 301))?;
        b.find_in(ask(&rec, &pat, 0, 600), 4_202_496, 300, NO_CHAIN)?;
    }
    // Twelve lines and then the one of kind 2: from the place twelve lines before it alone.
    let pat = [&[0x25][..], &rounds(12, 12, &[0x21, 1]), &[0x21, 2]].concat();
    b.find_in(
        ask(&rec, &pat, 288, 301),
        exact(ask(&rec, &pat, 0, 0)),
        13,
        13,
    )?;
    b.find_in(
        ask(&rec, &pat, 287, 301),
        exact(ask(&rec, &pat, 0, 0)),
        13,
        NO_CHAIN,
    )?;
    Ok(format!("{:?} with the comparison", clock.elapsed()))
}

/// Commands, and the deepest nesting of keeps; refusals as they come before the room.
fn pattern_counts(b: &Bench) -> Result<String, String> {
    let keep = [0x27, 1, 0];
    let three = [keep, keep, keep].concat();
    let beside = [&[0x25][..], &keep, &[0x20], &keep, &[0x20]].concat();
    b.pattern(&[0x20], Ok([1, 0]))?;
    b.pattern(&P, Ok([7, 1]))?;
    b.pattern(&S, Ok([5, 2]))?;
    b.pattern(&repeats(62, &[0x20]), Ok([63, 0]))?;
    b.pattern(&[&three[..], &[0x20]].concat(), Ok([4, 3]))?;
    b.pattern(&beside, Ok([5, 1]))?;
    b.pattern(&[], Err(8))?;
    b.pattern(&[0x2B], Err(8))?;
    b.pattern(&repeats(63, &[0x20]), Err(9))?;
    b.pattern(&[0x21], Err(10))?;
    b.pattern(&[0x21, 0], Err(11))?;
    b.pattern(&[0x22, 1, 0], Err(12))?;
    b.pattern(&[&three[..], &keep, &[0x20]].concat(), Err(13))?;
    b.pattern(&[0x20, 0x20], Err(14))?;
    ok()
}

// ---- boats counted

/// A line of each of these boats, in this order: class and sail number.
fn lines_of_boats(boats: &[(u8, u32)]) -> Vec<Line> {
    boats.iter().map(|b| line(0, 1, b.0, b.1, 0)).collect()
}

fn boat_counts(b: &Bench) -> Result<String, String> {
    // 1-7, 1-8, and 2-7, which has the first one's number; and one that nobody could read.
    let (a, d, c, u) = ((1, 7), (1, 8), (2, 7), (0, 0));
    for (boats, different, reads) in [
        (&[][..], 0, 0),
        (&[a], 1, 0),
        (&[a, a, d, a], 2, 4),
        (&[a, d, c], 3, 3),
        // The line met is read too, and none after it.
        (&[a, d, d, d], 2, 5),
        (&[a, d, a, d], 2, 4),
        (&[a, d, c, c, d, a], 3, 3 + 3 + 2 + 1),
        // Earlier lines are read, not boats met so far.
        (&[a, a, a, c, c], 2, 9),
        (&[a, a, a, a, d, d], 2, 3 + 4 + 5),
        // One number in two classes, and two numbers in one.
        (&[a, c, a, c], 2, 4),
        (&[a, c, d], 3, 3),
        // Unread numbers are one boat; class 0 alone and number 0 alone are others.
        (&[u], 1, 0),
        (&[u, u, u], 1, 2),
        (&[u, a, u, u], 2, 3),
        (&[a, u, a, u], 2, 4),
        (&[(0, 5), (5, 0), u, (0, 5), (5, 0), u], 3, 3 + 1 + 2 + 3),
        (&[a; 9], 1, 8),
        // Numbers that differ in one byte, at both ends of what there is.
        (&[(1, 1), (1, 256), (1, 65_536), (1, 257), (1, 1)], 4, 7),
        (
            &[(255, 16_777_215), (254, 16_777_215), (255, 16_777_214)],
            3,
            3,
        ),
        (&[(0, 1), (1, 0), (0, 16_777_215), (1, 0), (0, 1)], 3, 6),
    ] {
        b.boats_of(&lines_of_boats(boats), different, reads)?;
    }
    // A line's places and kind say nothing of its boat.
    b.boats(&r(), Ok([3, 13]))?;
    b.boats(&t(), Ok([2, 1]))?;
    b.boats(&E, Ok([0, 0]))?;
    b.boats(&[1, 4, 0, 0], Ok([0, 0]))?;
    ok()
}

fn boat_counts_of_full_records(b: &Bench) -> Result<String, String> {
    let full = MOST_LINES as u32;
    let of = |boat: fn(u32) -> (u8, u32)| -> Vec<Line> {
        lines_of_boats(&(0..full).map(boat).collect::<Vec<_>>())
    };
    b.boats_of(&of(|_| (1, 7)), 1, 4_095)?;
    b.boats_of(&of(|_| (0, 0)), 1, 4_095)?;
    b.boats_of(&of(|n| (1, n)), full, 8_386_560)?;
    b.boats_of(&of(|n| (n as u8, n / 256)), full, 8_386_560)?;
    // In turns: of the first sixteen lines all earlier ones, of the others one to sixteen.
    b.boats_of(&of(|n| (1, n % 16)), 16, 120 + 255 * 136)?;
    // Half of the boats twice, the second time in the opposite order.
    let there = 2_048 * 2_047 / 2;
    b.boats_of(
        &of(|n| (1, n.min(4_095 - n))),
        2_048,
        there + 2_048 * 2_049 / 2,
    )?;
    // One boat and then another in the last line; the other in the first line.
    b.boats_of(&of(|n| (1, n / 4_095)), 2, 4_094 + 4_095)?;
    b.boats_of(&of(|n| (1, n.min(1))), 2, 1 + 2 * 4_094)?;
    ok()
}

/// Questions 1 to 7, before the words are looked at.
fn boat_questions(b: &Bench) -> Result<String, String> {
    let lines = lines_of_boats(&[(1, 7), (1, 7)]);
    let day = written(1, &lines);
    for (rec, number) in [
        (vec![0; LONGEST + 1], 1),
        (vec![], 2),
        (vec![1, 0], 2),
        (vec![0, 0, 1, 0], 2),
        (vec![1, 0, 0, 0], 2),
        (vec![1, 4, 1, 0], 2),
        (vec![1, 0, 1], 3),
        (vec![1, 0, 1, 1], 3),
        (day[..day.len() - 1].to_vec(), 3),
        (day[..day.len() - 2].to_vec(), 4),
        (written(1, &[lines[0], line(1, 1, 1, 7, 0)]), 5),
        (written(1, &[lines[0], line(0, 1, 1, 7, 1)]), 5),
        (written(1, &[line(0, 0, 1, 7, 0), lines[0]]), 6),
        (written(1, &[line(0, 16, 1, 7, 0), line(1, 1, 1, 7, 0)]), 6),
        ([&day[..], &[0]].concat(), 7),
    ] {
        b.boats(&rec, Err(number))?;
    }
    // A full record, and one byte more.
    let full = written(1, &vec![lines[0]; MOST_LINES]);
    b.boats(&full, Ok([1, 4_095]))?;
    b.boats(&[&full[..], &[0]].concat(), Err(7))?;
    ok()
}

// ---- Five: searches under way

fn search_questions(b: &Bench) -> Result<String, String> {
    let (r, t) = (r(), t());
    let words = |rec: &[u8], pat: &[u8], expected: u64| -> Done {
        let got = compare::search_words(b.library, rec, pat)?;
        expect(&format!("words of a search with {pat:02x?}"), got, expected)
    };
    // Three words more for each line.
    words(&E, &[0x20], 8_200)?;
    words(&r, &P, 8_704 + 21)?;
    words(&t, &S, words_of(54) + 6)?;
    let full = written(1, &vec![line(0, 1, 1, 1, 0); MOST_LINES]);
    words(&full, &[0x20], 8_200 + 3 * 4_096)?;
    words(&[1, 0, 1], &[0xFF], refused(3, 0))?;
    words(&r, &[0xFF], refused(8, 0))?;
    let over = boats(1_024, 64);
    let mut pat = vec![0x27, 1, 0];
    pat.extend(repeats(13, &[0x21, 1]));
    words(&over, &pat, refused(16, 0))?;
    // The finder's questions, in its order.
    for (ask, work_len, number) in [
        (ask(&[1, 0, 1], &[0xFF], 9, 9), 0, 3),
        (ask(&r, &[0xFF], 9, 9), 0, 8),
        (ask(&r, &[0x2A, 2, 1, 0xFF], 9, 9), 0, 24),
        (ask(&r, &[0x2A, 20, 20, 0x2A, 20, 20, 0x20], 9, 9), 0, 25),
        (ask(&over, &pat, 1_024, 0), 10, 15),
        (ask(&over, &pat, 0, 1_024), 10, 15),
        (ask(&over, &pat, 0, 0), 10, 16),
        (ask(&over, &pat, 0, 0), 4_300_000, 16),
        (ask(&r, &P, 0, 3), 0, 17),
        (ask(&r, &P, 0, 3), 8_703, 17),
        (ask(&r, &P, 0, 3), 8_704, 17),
        (ask(&r, &P, 0, 3), 8_724, 17),
        (ask(&full, &[0x21, 1], 0, 0), 8_200 + 3 * 4_096 - 1, 17),
    ] {
        b.begin_in(ask, work_len, refused(number, 0))?;
    }
    // Dirty areas, of every length from what is needed on.
    for more in [0, 1, 63, 100_000] {
        let mut search = b.begin_in(ask(&r, &P, 0, 3), 8_725 + more, 0)?;
        b.finished(&mut search, 3, Some(3))?;
    }
    for word in [0, 1, 2, 7, 1_024, u32::MAX, 0x8000_0000] {
        let work = vec![word; 8_414 + 5];
        let (begun, mut search) = Searching::begin(b.library, ask(&t, &S, 0, 0), &work)?;
        expect("begin", begun, 0)?;
        b.finished(&mut search, 4, Some(4))?;
    }
    ok()
}

/// What an area holds at one count: the phase, the states expanded and found, far, rest, chosen and
/// noted; then the distances, the queue, how each state was reached and the marks, as pairs of a
/// place in the table and a word.
struct Held {
    numbers: [u32; 7],
    tables: [&'static [(usize, u32)]; 4],
}

const fn held(numbers: [u32; 7], tables: [&'static [(usize, u32)]; 4]) -> Held {
    Held { numbers, tables }
}

/// The areas of a search, from its begin to its end by moves of 1. `front` has the first word, then
/// places, lines, from and the pattern's length; `loaded` what comes before the tables.
fn held_areas(b: &Bench, ask: Ask, front: [u32; 5], loaded: &[u32], all: &[Held]) -> Done {
    let size = (request::words(ask.rec, ask.pat).unwrap_or(0) as usize - 8_192) / 4;
    let mut search = b.begun(ask)?;
    for (count, held) in all.iter().enumerate() {
        if count > 0 {
            expect("a move of 1", search.moved(1)?, 1)?;
        }
        let mut area = vec![0; search.area().len()];
        area[..5].copy_from_slice(&front);
        area[5..12].copy_from_slice(&held.numbers);
        for (word, byte) in area[17..].iter_mut().zip(ask.pat) {
            *word = *byte as u32;
        }
        area[209..209 + loaded.len()].copy_from_slice(loaded);
        for (number, table) in held.tables.iter().enumerate() {
            for (at, word) in *table {
                area[209 + loaded.len() + number * size + at] = *word;
            }
        }
        if let Some(at) = (0..area.len()).find(|&at| area[at] != search.area()[at]) {
            return Err(format!(
                "at count {count} word {at} is {}, but the case says {}",
                search.area()[at],
                area[at]
            ));
        }
    }
    expect("a move at the end", search.moved(1)?, 0)
}

/// A line's number in how a state was reached.
const BY: u32 = 1_048_576;

#[rustfmt::skip]
fn search_areas(b: &Bench) -> Result<String, String> {
    // V4. Position 1 takes kind 1, position 2 takes kind 2, 3 is the end; a state is 4 x place and
    // the position. No boat is kept: both lines have the number 1, and the boats have no words.
    let rec = written(2, &[line(0, 1, 1, 1, 0), line(0, 2, 1, 1, 1)]);
    let pat = [0x25, 0x21, 1, 0x21, 2];
    held_areas(b, ask(&rec, &pat, 0, 1), [2, 2, 2, 0, 5], &[1, 1, 1, 16 + 2], &[
        held([0, 0, 1, 0, 0, 0, 0], [&[(7, 1)], &[(0, 7)], &[], &[]]),
        held([0, 1, 2, 0, 0, 0, 0], [&[(7, 1), (2, 2)], &[(0, 7), (1, 2)], &[(1, BY + 7)], &[]]),
        // State 1, a first state, is found, and nothing nearer waits.
        held([1, 2, 3, 3, 3, 2, 2], [&[(7, 1), (2, 2), (1, 3)], &[(0, 7), (1, 2), (2, 1)],
            &[(1, BY + 7), (2, 2)], &[(1, 3)]]),
        held([1, 2, 3, 3, 2, 0, 2], [&[(7, 1), (2, 2), (1, 3)], &[(0, 7), (1, 2), (2, 1)],
            &[(1, BY + 7), (2, 2)], &[(1, 3), (2, 1)]]),
        held([1, 2, 3, 3, 1, 1, 2], [&[(7, 1), (2, 2), (1, 3)], &[(0, 7), (1, 2), (2, 1)],
            &[(1, BY + 7), (2, 2)], &[(1, 3), (2, 1), (7, 2)]]),
    ])?;
    // A boat kept at position 0 and met again at 1; 2 is the end. A state is 3 x position and the
    // boat's number: 1 for 1-1, 2 for 1-2.
    let rec = written(1, &[line(0, 1, 1, 1, 0), line(0, 1, 1, 2, 0)]);
    let pat = [0x27, 1, 0, 0x22, 1, 0];
    let loaded = [0, (1 << 24) + 1, (1 << 24) + 2, 1, 2, 1, 1];
    const WORDS: &[(usize, u32)] = &[(6, 1), (4, 2), (5, 2), (0, 3)];
    const QUEUE: &[(usize, u32)] = &[(0, 6), (1, 4), (2, 5), (3, 0)];
    const TAGS: &[(usize, u32)] = &[(1, 6), (2, BY + 6), (3, 4)];
    held_areas(b, ask(&rec, &pat, 0, 0), [3, 1, 2, 0, 6], &loaded, &[
        held([0, 0, 1, 0, 0, 0, 0], [&[(6, 1)], &[(0, 6)], &[], &[]]),
        held([0, 1, 3, 0, 0, 0, 0], [&[(6, 1), (4, 2), (5, 2)], &[(0, 6), (1, 4), (2, 5)],
            &[(1, 6), (2, BY + 6)], &[]]),
        // The first state is found, but one of the level waits.
        held([0, 2, 4, 0, 0, 0, 0], [WORDS, QUEUE, TAGS, &[]]),
        held([1, 3, 4, 3, 4, 2, 2], [WORDS, QUEUE, TAGS, &[(0, 3)]]),
        held([1, 3, 4, 3, 3, 0, 2], [WORDS, QUEUE, TAGS, &[(0, 3), (4, 1)]]),
        held([1, 3, 4, 3, 2, 0, 2], [WORDS, QUEUE, TAGS, &[(0, 3), (4, 1)]]),
        held([1, 3, 4, 3, 1, 0, 2], [WORDS, QUEUE, TAGS, &[(0, 3), (4, 1), (6, 1)]]),
    ])?;
    // A boat that is forgotten can be any, or none at all: positions 0 and 1 as before, 1 takes all.
    let pat = [0x27, 1, 0, 0x21, 2];
    let rec = written(1, &[line(0, 2, 7, 7, 0)]);
    let loaded = [0, (7 << 24) + 7, 1, 2];
    held_areas(b, ask(&rec, &pat, 0, 0), [2, 1, 1, 0, 5], &loaded, &[
        held([0, 0, 1, 0, 0, 0, 0], [&[(4, 1)], &[(0, 4)], &[], &[]]),
        held([0, 1, 3, 0, 0, 0, 0], [&[(4, 1), (2, 2), (3, 2)], &[(0, 4), (1, 2), (2, 3)], &[(1, 4), (2, 4)], &[]]),
        held([0, 2, 3, 0, 0, 0, 0], [&[(4, 1), (2, 2), (3, 2)], &[(0, 4), (1, 2), (2, 3)], &[(1, 4), (2, 4)], &[]]),
        // Nothing waits, and there is no chain.
        held([2, 3, 3, 0, 0, 0, 0], [&[(4, 1), (2, 2), (3, 2)], &[(0, 4), (1, 2), (2, 3)], &[(1, 4), (2, 4)], &[]]),
    ])?;
    ok()
}

fn search_empty(b: &Bench) -> Result<String, String> {
    let r = r();
    // The empty chain is there before anything is taken up.
    b.searched(ask(&E, &[0x20], 0, 0), 0, Some(&[]))?;
    b.searched(ask(&r, &[0x26, 0x21, 1], 2, 2), 0, Some(&[]))?;
    b.searched(ask(&r, &[0x26, 0x20], 3, 3), 0, Some(&[]))?;
    // It leads to no other place.
    b.searched(ask(&r, &[0x26, 0x20], 0, 1), 1, None)?;
    b.searched(ask(&E, &[0x21, 3], 0, 0), 1, None)?;
    // None: all that leads to the goal is expanded, as with R without its line 5.
    let mut fewer = lines_of_r();
    fewer.remove(5);
    b.searched(ask(&written(4, &fewer), &P, 0, 3), 2, None)?;
    b.searched(ask(&r, &P, 1, 3), 5, None)?;
    ok()
}

fn search_vectors(b: &Bench) -> Result<String, String> {
    let states = [3, 7, 3, 7, 6, 4, 0, 1, 0];
    let vectors = vector_list();
    expect("vectors", vectors.len() as u64, states.len() as u64)?;
    for (v, states) in vectors.iter().zip(states) {
        b.searched(ask(&v.rec, &v.pat, 0, v.to), states, v.found.as_deref())?;
    }
    ok()
}

fn search_lines(b: &Bench) -> Result<String, String> {
    let (r, t) = (r(), t());
    b.searched(ask(&r, &P, 0, 3), 8, Some(&[1, 2, 5]))?;
    b.searched(ask(&t, &S, 0, 0), 18, Some(&[0, 0, 1, 0]))?;
    // What line 1 leads to is marked before line 0 is met, and would go on by line 2.
    let four: Vec<Line> = (1..=4).map(|kind| line(0, kind, 1, 1, 0)).collect();
    let pat = [0x24, 0x25, 0x21, 1, 0x21, 4, 0x25, 0x21, 2, 0x21, 3];
    b.searched(ask(&written(1, &four), &pat, 0, 0), 7, Some(&[0, 3]))?;
    // The same line from two states of a level, one of which goes on by a lower one.
    let three: Vec<Line> = [1, 3, 2].map(|kind| line(0, kind, 1, 1, 0)).to_vec();
    let pat = [0x24, 0x25, 0x21, 1, 0x21, 3, 0x25, 0x21, 1, 0x21, 2];
    b.searched(ask(&written(1, &three), &pat, 0, 0), 7, Some(&[0, 1]))?;
    // Lines between two places, twice each, and a self-loop.
    let lines = [(0, 0), (0, 1), (0, 1), (1, 2), (1, 2), (2, 0)];
    let lines = lines.map(|(from, to)| line(from, 1, 1, 1, to));
    b.searched(
        ask(&written(3, &lines), &[0x26, 0x21, 1], 0, 2),
        4,
        Some(&[1, 3]),
    )?;
    // Rounds, each with positions of its own: two, three, and one too many.
    let one = written(1, &[line(0, 1, 1, 1, 0)]);
    let then_2 = written(1, &[line(0, 1, 1, 1, 0), line(0, 2, 1, 1, 0)]);
    b.searched(ask(&one, &[0x2A, 2, 3, 0x21, 1], 0, 0), 6, Some(&[0, 0]))?;
    let pat = [
        0x25, 0x2A, 0, 2, 0x21, 1, 0x25, 0x21, 2, 0x2A, 1, 1, 0x21, 1,
    ];
    b.searched(ask(&then_2, &pat, 0, 0), 4, Some(&[1, 0]))?;
    // An unread number is kept, and met by nothing.
    let unread = written(1, &[line(0, 1, 0, 0, 0), line(0, 2, 0, 0, 0)]);
    b.searched(ask(&unread, &[0x27, 1, 0, 0x23, 2, 0], 0, 0), 1, None)?;
    b.searched(ask(&unread, &[0x27, 1, 0, 0x21, 2], 0, 0), 6, Some(&[0, 1]))?;
    ok()
}

fn search_outputs(b: &Bench) -> Result<String, String> {
    let (r, gone) = (r(), refused(NO_SEARCH, 0));
    for (room, expected) in [
        (3, 3),
        (70_000, 3),
        (2, refused(19, 3)),
        (0, refused(19, 3)),
    ] {
        for count in [0, 3, 6, 8] {
            let mut search = b.begun(ask(&r, &P, 0, 3))?;
            search.moved(count)?;
            let out = dirty_entries(&mut Random::new(5), room);
            expect("finish", search.finish(&out)?, expected)?;
            // 26 comes before everything, with whatever output and amount.
            for room in [0, 2, 3, 70_000] {
                expect("finish again", search.finish(&vec![7; room])?, gone)?;
            }
            for amount in [0, 1, usize::MAX] {
                expect("move", search.moved(amount)?, gone)?;
            }
        }
    }
    // No room for no chain, and for a chain of no lines.
    b.finished(&mut b.begun(ask(&r, &P, 1, 3))?, 0, None)?;
    b.finished(&mut b.begun(ask(&E, &[0x20], 0, 0))?, 0, Some(0))?;
    // Areas in which no search was begun: empty, or with a first word of 0.
    let search = b.begun(ask(&r, &P, 0, 3))?;
    let dirty = dirt(&mut Random::new(6), 9_000);
    for area in [vec![], vec![0], vec![0; 9_000], [&[0], &dirty[..]].concat()] {
        for room in [0, 3] {
            expect(
                "finish",
                search.altered_finish(&area, &vec![7; room])?,
                gone,
            )?;
        }
        for amount in [0, 1, usize::MAX] {
            expect("move", search.altered_move(&area, amount)?, gone)?;
        }
    }
    ok()
}

fn search_amounts(b: &Bench) -> Result<String, String> {
    let (r, t) = (r(), t());
    // Eighteen states are to be taken up: four levels backward, and forward again.
    for amounts in [
        &[18][..],
        &[17, 1],
        &[1, 17],
        &[9, 9],
        &[8, 2, 8],
        &[0, 10, 0, 5, 3],
        &[3, 3, 3, 3, 3, 3],
    ] {
        let mut search = b.begun(ask(&t, &S, 0, 0))?;
        for &amount in amounts {
            expect("a move", search.moved(amount)?, amount as u64)?;
        }
        expect("the end", search.moved(1)?, 0)?;
        b.finished(&mut search, 4, Some(4))?;
    }
    // More than is left, and more than 32 bits hold.
    for amount in [
        19,
        20,
        1 << 32,
        (1 << 32) + 1,
        (1 << 33) + 5,
        usize::MAX - 1,
        usize::MAX,
    ] {
        let mut search = b.begun(ask(&t, &S, 0, 0))?;
        expect("a move", search.moved(amount)?, 18)?;
        let mut search = b.begun(ask(&t, &S, 0, 0))?;
        expect("a move of 11", search.moved(11)?, 11)?;
        expect("a move", search.moved(amount)?, 7)?;
        expect("a move", search.moved(amount)?, 0)?;
        b.finished(&mut search, 3, Some(4))?;
    }
    // The area may be longer from one call to the next, or shorter, if what begin asked for is there.
    let mut search = b.begin_in(ask(&r, &P, 0, 3), 8_725 + 9, 0)?;
    for words in [8_725, 8_800, 8_726, 20_000] {
        expect("a move of 1", search.moved(1)?, 1)?;
        search.lend(words);
    }
    b.finished(&mut search, 3, Some(3))?;
    ok()
}

/// The reply is that for the record at the beginning.
fn search_meanwhile(b: &Bench) -> Result<String, String> {
    let r = r();
    let better = line(2, 4, 1, 150, 3);
    let mut more = lines_of_r();
    more.push(better);
    let longer = written(4, &more);
    b.found(ask(&longer, &P, 0, 3), &[0, 3, 7])?;
    for count in [0, 1, 4, 5, 8, usize::MAX] {
        let mut search = b.begun(ask(&r, &P, 0, 3))?;
        let length = r.len() as u64 + 10;
        expect("add", search.add(better)?, length)?;
        search.moved(count)?;
        expect("add", search.add(line(0, 4, 2, 150, 3))?, length + 10)?;
        let said = search::finish(search.area(), 3);
        if said != FindReply::Found(vec![1, 2, 5]) {
            return Err(format!("this program finishes with {said:?}"));
        }
        b.finished(&mut search, 3, Some(3))?;
    }
    b.searched(ask(&longer, &P, 0, 3), 14, Some(&[0, 3, 7]))?;
    ok()
}

/// Every word of an area altered, and the area cut at every word: the calls return, and write to
/// what was lent only.
fn search_altered(b: &Bench) -> Result<String, String> {
    let v4 = written(2, &[line(0, 1, 1, 1, 0), line(0, 2, 1, 1, 1)]);
    let kept = written(1, &[line(0, 1, 1, 1, 0), line(0, 1, 1, 2, 0)]);
    let v4 = ask(&v4, &[0x25, 0x21, 1, 0x21, 2], 0, 1);
    let kept = ask(&kept, &[0x27, 1, 0, 0x22, 1, 0], 0, 0);
    // The words in use, and a few after them.
    for (ask, used) in [(v4, 213 + 4 * 8 + 3), (kept, 216 + 4 * 9 + 3)] {
        for count in [0, 2, 4, 6] {
            let mut search = b.begun(ask)?;
            search.moved(count)?;
            let area = search.area().to_vec();
            for at in 0..used {
                let word = area[at];
                for other in [0, 1, word ^ 1, word.wrapping_sub(1), 4_097, BY, u32::MAX] {
                    let mut altered = area.clone();
                    altered[at] = other;
                    search.altered_move(&altered, at % 3)?;
                    search.altered_finish(&altered, &vec![7; at % 4])?;
                }
                search.altered_move(&area[..at], 2)?;
                search.altered_finish(&area[..at], &[7; 2])?;
            }
            search.altered_move(&area[..area.len() - 1], usize::MAX)?;
            search.altered_finish(&area[..area.len() - 1], &[7; 2])?;
        }
    }
    ok()
}

/// The longest chain that there is a vector of, and tags with the last line.
fn search_long(b: &Bench) -> Result<String, String> {
    let clock = Instant::now();
    let (rec, pat) = vector_11_day();
    let asked = ask(&rec, &pat, 0, 100);
    let mut search = b.begun(asked)?;
    for amount in [0, 1, 1_000, 120_000] {
        expect("a move", search.moved(amount)?, amount as u64)?;
    }
    b.finished(&mut search, 92_399, Some(92_400))?;
    let mut search = b.begun(asked)?;
    search.moved(usize::MAX)?;
    expect("a move at the end", search.moved(1)?, 0)?;
    let said = search::finish(search.area(), 92_400);
    if said != FindReply::Found(vector_11_chain()) {
        return Err("this program's search finds another chain for V11".to_string());
    }
    b.finished(&mut search, 92_400, Some(92_400))?;

    // Each boat has a line; the last one alone is seen twice.
    let mut lines: Vec<Line> = (0..4_095).map(|n| line(0, 1, 1, n, 0)).collect();
    lines.push(line(0, 2, 1, 4_094, 0));
    let rec = written(1, &lines);
    let pat = [0x27, 1, 0, 0x22, 2, 0];
    let mut search = b.begun(ask(&rec, &pat, 0, 0))?;
    for _ in 0..4 {
        expect("a move of 1", search.moved(1)?, 1)?;
    }
    expect("a move at the end", search.moved(1)?, 0)?;
    let said = search::finish(search.area(), 2);
    if said != FindReply::Found(vec![4_094, 4_095]) {
        return Err(format!("this program finishes with {said:?}"));
    }
    b.finished(&mut search, 2, Some(2))?;
    Ok(format!("{:?} with the comparison", clock.elapsed()))
}

// ---- Six: lists of starts

/// Any number of lines of the worked day's kinds.
const ANY: [u8; 12] = [0x26, 0x24, 0x21, 1, 0x24, 0x21, 2, 0x24, 0x21, 3, 0x21, 4];

fn start_rows(b: &Bench) -> Result<String, String> {
    let (r, t) = (r(), t());
    b.starts(list(&r, &P, &[0, 1, 2, 3, 0], 3), &[3, NONE, NONE, NONE, 3])?;
    b.starts(list(&r, &P, &[0, 1, 2, 3], 2), &[NONE; 4])?;
    let mut fewer = lines_of_r();
    fewer.remove(5);
    b.starts(
        list(&written(4, &fewer), &P, &[0, 1, 2, 3, 0], 3),
        &[NONE; 5],
    )?;
    b.starts(list(&t, &S, &[0, 0], 0), &[4, 4])?;
    // To each place from every place, by whatever lines.
    let all = [0, 1, 2, 3];
    b.starts(list(&r, &ANY, &all, 3), &[3, 2, 1, 0])?;
    b.starts(list(&r, &ANY, &all, 2), &[2, 1, 0, NONE])?;
    b.starts(list(&r, &ANY, &all, 1), &[1, 0, NONE, NONE])?;
    b.starts(list(&r, &ANY, &all, 0), &[0, NONE, NONE, NONE])?;
    ok()
}

/// Four lines of kind 1 from place 0 on to place 4, each to the next; none at place 5.
fn straight() -> Vec<u8> {
    let lines: Vec<Line> = (0..4).map(|n| line(n, 1, 1, 1, n + 1)).collect();
    written(6, &lines)
}

const ONES: [u8; 3] = [0x26, 0x21, 1];

fn start_lists(b: &Bench) -> Result<String, String> {
    let rec = straight();
    let lengths = [4, 3, 2, 1, 0, NONE];
    for starts in [
        // No place.
        &[][..],
        // One.
        &[0],
        &[3],
        &[4],
        &[5],
        // All, upward, downward and in another order.
        &[0, 1, 2, 3, 4, 5],
        &[5, 4, 3, 2, 1, 0],
        &[2, 5, 0, 4, 1, 3],
        // The nearest one first, last and between; one with no chain before and after others.
        &[3, 0],
        &[0, 3],
        &[2, 3, 1],
        &[4, 0],
        &[0, 4],
        &[5, 0],
        &[0, 5],
        // The same places again.
        &[2, 2],
        &[4, 4, 4],
        &[5, 5],
        &[3, 1, 3],
        &[0, 5, 0, 5, 0],
        &[1, 1, 0, 0, 5, 5, 4, 4, 1],
        &[0, 0, 0, 0, 0, 0, 0, 0, 0],
    ] {
        let told: Vec<u32> = starts.iter().map(|&n| lengths[n as usize]).collect();
        b.starts(list(&rec, &ONES, starts, 4), &told)?;
    }
    // The same with each length written out, and to another place.
    b.starts(list(&rec, &ONES, &[3, 5, 0, 3, 4], 4), &[1, NONE, 4, 1, 0])?;
    b.starts(list(&rec, &ONES, &[2, 1, 0], 2), &[0, 1, 2])?;
    ok()
}

/// As many places as 16 bits count, and more; each comes again and again.
fn start_long_lists(b: &Bench) -> Result<String, String> {
    let rec = straight();
    let lengths = [4, 3, 2, 1, 0, NONE];
    let work_len = exact(ask(&rec, &ONES, 0, 4));
    for count in [65_535, 65_536, 65_537, 70_000] {
        let starts: Vec<u16> = (0..count).map(|n| (5 * n / 3 % 6) as u16).collect();
        let told: Vec<u32> = starts.iter().map(|&n| lengths[n as usize]).collect();
        let listed = list(&rec, &ONES, &starts, 4);
        b.starts(listed, &told)?;
        for room in [1, 4_464, 65_534] {
            b.starts_in(listed, work_len, room, refused(19, count as u64))?;
        }
        b.starts_in(listed, work_len - 1, 70_000, refused(17, 0))?;
        // 15 of the last place alone.
        let mut late = starts.clone();
        late.push(6);
        b.starts_in(
            list(&rec, &ONES, &late, 4),
            work_len,
            70_001,
            refused(15, 0),
        )?;
    }
    ok()
}

/// Questions 1 to 14, 24 and 25, before the places and what is lent.
fn start_questions(b: &Bench) -> Result<String, String> {
    let day = straight();
    for (rec, number) in [
        (vec![0; LONGEST + 1], 1),
        (vec![], 2),
        (vec![1, 0, 0, 0], 2),
        (vec![1, 0, 1], 3),
        (day[..day.len() - 2].to_vec(), 4),
        (written(6, &[line(6, 1, 1, 1, 0)]), 5),
        (written(6, &[line(0, 16, 1, 1, 0)]), 6),
        ([&day[..], &[0]].concat(), 7),
    ] {
        for starts in [&[][..], &[0], &[9, 0]] {
            let listed = list(&rec, &[0xFF], starts, 9);
            b.starts_in(listed, 0, 0, refused(number, 0))?;
            let listed = list(&rec, &ONES, starts, 0);
            b.starts_in(listed, 9_000, 3, refused(number, 0))?;
        }
    }
    for (pat, number) in [
        (vec![0xFF], 8),
        (repeats(63, &[0x20]), 9),
        (vec![0x21], 10),
        (vec![0x21, 0], 11),
        (vec![0x2A, 2, 1, 0x20], 24),
        (vec![0x22, 1, 0], 12),
        ([0x27, 1, 0].repeat(4), 13),
        (vec![0x20, 0x20], 14),
        (twenties(1, &[0x26, 0x26, 0x26, 0x20]), 25),
    ] {
        for starts in [&[][..], &[0], &[9, 0]] {
            let listed = list(&day, &pat, starts, 9);
            b.starts_in(listed, 0, 0, refused(number, 0))?;
            let listed = list(&day, &pat, starts, 0);
            b.starts_in(listed, 9_000, 3, refused(number, 0))?;
        }
    }
    ok()
}

fn start_places(b: &Bench) -> Result<String, String> {
    let rec = straight();
    let needed = exact(ask(&rec, &ONES, 0, 0));
    let asked = |starts: &[u16], to: u16, expected: u64| {
        b.starts_in(list(&rec, &ONES, starts, to), needed, 5, expected)
    };
    // Any of the listed places, wherever it stands, and whatever comes again.
    for missing in [6, 7, 1_024, 65_535] {
        asked(&[missing], 4, refused(15, 0))?;
        asked(&[missing, 0, 1], 4, refused(15, 0))?;
        asked(&[0, missing, 1], 4, refused(15, 0))?;
        asked(&[0, 1, missing], 4, refused(15, 0))?;
        asked(&[0, 0, missing, missing], 4, refused(15, 0))?;
        asked(&[missing, missing], missing, refused(15, 0))?;
        // The finishing place alone: with one place, with several, with none.
        asked(&[0], missing, refused(15, 0))?;
        asked(&[0, 1, 5], missing, refused(15, 0))?;
        asked(&[], missing, refused(15, 0))?;
    }
    asked(&[5], 5, 1)?;
    asked(&[5, 0, 5], 4, 3)?;
    asked(&[], 5, 0)?;
    asked(&[], 0, 0)?;
    // The lowest and the highest place of the longest list of places.
    let rec = [1, 4, 0, 0];
    b.starts(
        list(&rec, &[0x20], &[1_023, 0, 1_023], 1_023),
        &[0, NONE, 0],
    )?;
    b.starts_in(
        list(&rec, &[0x20], &[1_023, 1_024], 0),
        exact(ask(&rec, &[0x20], 0, 0)),
        2,
        refused(15, 0),
    )?;
    ok()
}

fn start_order(b: &Bench) -> Result<String, String> {
    // Record, pattern, 15, 16, 17, 19.
    let r = r();
    b.starts_in(list(&[1, 0, 1], &[0xFF], &[9], 9), 0, 0, refused(3, 0))?;
    b.starts_in(list(&r, &[0xFF], &[9], 9), 0, 0, refused(8, 0))?;
    let over = boats(1_024, 64);
    let mut pat = vec![0x27, 1, 0];
    pat.extend(repeats(13, &[0x21, 1]));
    for (work_len, room) in [(0, 0), (9_000, 0), (9_000, 4)] {
        for starts in [&[1_024, 0][..], &[0, 1_024], &[0, 0, 1_024]] {
            b.starts_in(list(&over, &pat, starts, 0), work_len, room, refused(15, 0))?;
        }
        for starts in [&[][..], &[0], &[1_023, 0]] {
            b.starts_in(
                list(&over, &pat, starts, 1_024),
                work_len,
                room,
                refused(15, 0),
            )?;
            b.starts_in(
                list(&over, &pat, starts, 1_023),
                work_len,
                room,
                refused(16, 0),
            )?;
        }
    }
    let listed = list(&over, &pat, &[0, 0], 0);
    b.starts_in(listed, 4_300_000, 1, refused(16, 0))?;
    for room in [0, 1, 2, 3] {
        let listed = list(&r, &P, &[0, 3], 3);
        for short in [0, 1, 8_192, 8_703] {
            b.starts_in(listed, short, room, refused(17, 0))?;
            b.starts_in(list(&r, &P, &[], 3), short, room, refused(17, 0))?;
            b.starts_in(list(&r, &P, &[0, 4], 3), short, room, refused(15, 0))?;
        }
        let expected = if room < 2 { refused(19, 2) } else { 2 };
        b.starts_in(listed, 8_704, room, expected)?;
        b.starts_in(list(&r, &P, &[], 3), 8_704, room, 0)?;
    }
    // A place with no chain wants an entry like the others, and so does one whose chain has no lines.
    b.starts_in(list(&r, &P, &[1, 1, 1], 3), 8_704, 2, refused(19, 3))?;
    b.starts_in(list(&r, &P, &[3, 3], 3), 8_704, 1, refused(19, 2))?;
    b.starts_in(
        list(&r, &ANY, &[3], 3),
        exact(ask(&r, &ANY, 0, 0)),
        0,
        refused(19, 1),
    )?;
    ok()
}

fn start_areas(b: &Bench) -> Result<String, String> {
    let (r, t) = (r(), t());
    let starts = [0, 1, 0, 3];
    for more in [0, 1, 2, 63, 8_192, 100_000] {
        for (room, expected) in [
            (4, 4),
            (5, 4),
            (9, 4),
            (70_000, 4),
            (3, refused(19, 4)),
            (2, refused(19, 4)),
            (0, refused(19, 4)),
        ] {
            b.starts_in(list(&r, &P, &starts, 3), 8_704 + more, room, expected)?;
        }
        for room in [0, 1, 5] {
            b.starts_in(list(&r, &P, &[], 3), 8_704 + more, room, 0)?;
        }
        b.starts_in(list(&t, &S, &[0, 0], 0), 8_192 + 4 * 54 + more, 2, 2)?;
    }
    for fewer in [1, 2, 512, 8_704] {
        b.starts_in(list(&r, &P, &starts, 3), 8_704 - fewer, 4, refused(17, 0))?;
        b.starts_in(list(&r, &P, &starts, 3), 8_704 - fewer, 3, refused(17, 0))?;
    }
    // What was there before is not seen: words of one value, small and large.
    for word in [0, 1, 2, 7, 1_024, u32::MAX, 0x8000_0000] {
        let listed = list(&r, &P, &starts, 3);
        let work = vec![word; 8_704 + 5];
        for room in [4, 6] {
            let got = compare::starts(b.library, listed, &work, &vec![word; room])?;
            expect("lengths", got, 4)?;
        }
        let got = compare::starts(b.library, listed, &work, &[word; 3])?;
        expect("too few entries", got, refused(19, 4))?;
    }
    ok()
}

fn start_empty(b: &Bench) -> Result<String, String> {
    let r = r();
    b.starts(list(&E, &[0x20], &[0, 0], 0), &[0, 0])?;
    b.starts(list(&E, &[0x21, 3], &[0, 0], 0), &[NONE, NONE])?;
    // The chain with no lines is there at the finishing place and nowhere else.
    let all = [0, 1, 2, 3];
    b.starts(list(&r, &[0x20], &all, 1), &[NONE, 0, NONE, NONE])?;
    b.starts(list(&r, &[0x26, 0x20], &all, 3), &[NONE, NONE, NONE, 0])?;
    b.starts(list(&r, &ONES, &all, 1), &[1, 0, NONE, NONE])?;
    b.starts(
        list(&r, &[0x24, 0x21, 1, 0x20], &all, 1),
        &[1, 0, NONE, NONE],
    )?;
    b.starts(list(&r, &[0x21, 1], &all, 1), &[1, NONE, NONE, NONE])?;
    // The finishing place by a line to itself, by two, by none, and by way of another place.
    let rec = written(
        3,
        &[
            line(0, 1, 1, 1, 0),
            line(1, 2, 1, 1, 2),
            line(2, 3, 1, 1, 1),
        ],
    );
    let all = [0, 1, 2];
    b.starts(list(&rec, &[0x21, 1], &all, 0), &[1, NONE, NONE])?;
    b.starts(
        list(&rec, &[0x2A, 2, 2, 0x21, 1], &all, 0),
        &[2, NONE, NONE],
    )?;
    b.starts(
        list(&rec, &[0x2A, 0, 0, 0x21, 1], &all, 0),
        &[0, NONE, NONE],
    )?;
    b.starts(
        list(&rec, &[0x25, 0x21, 2, 0x21, 3], &all, 1),
        &[NONE, 2, NONE],
    )?;
    b.starts(list(&rec, &[0x25, 0x21, 3, 0x21, 2], &all, 1), &[NONE; 3])?;
    b.starts(
        list(&rec, &[0x25, 0x26, 0x21, 2, 0x21, 3], &all, 1),
        &[NONE, 2, 1],
    )?;
    // More lines than places.
    let three = [0x2A, 3, 3, 0x25, 0x21, 2, 0x21, 3];
    b.starts(list(&rec, &three, &all, 1), &[NONE, 6, NONE])?;
    ok()
}

/// The pattern can start at several positions, and the nearest of those that a place has counts.
fn start_positions(b: &Bench) -> Result<String, String> {
    // By kind 1 from place 0 in three lines, from 1 in one; by kind 2 from 0 in two, from 1 in three.
    let lines = [
        (0, 1, 4),
        (4, 1, 5),
        (5, 1, 9),
        (1, 1, 9),
        (0, 2, 6),
        (6, 2, 9),
        (1, 2, 7),
        (7, 2, 8),
        (8, 2, 9),
        (2, 2, 1),
        (3, 1, 0),
    ];
    let lines = lines.map(|(from, kind, to)| line(from, kind, 1, 1, to));
    let rec = written(10, &lines);
    let starts = [0, 1, 2, 3, 4, 5, 6, 7, 8, 9];
    let either = |one: u8, two: u8| {
        let part = |kind: u8| [0x25, 0x21, kind, 0x26, 0x21, kind];
        [&[0x24][..], &part(one), &part(two)].concat()
    };
    for pat in [either(1, 2), either(2, 1)] {
        let lengths = [2, 1, 4, 4, 2, 1, 1, 2, 1, NONE];
        b.starts(list(&rec, &pat, &starts, 9), &lengths)?;
    }
    // The same without the rounds after the first line: the first line leads there, or nothing does.
    for pat in [[0x24, 0x21, 1, 0x21, 2], [0x24, 0x21, 2, 0x21, 1]] {
        let mut lengths = [NONE; 10];
        for place in [1, 5, 6, 8] {
            lengths[place] = 1;
        }
        b.starts(list(&rec, &pat, &starts, 9), &lengths)?;
    }
    // A first position that is reached on the way too: any lines of kind 1, then some of kind 2.
    let pat = [0x25, 0x26, 0x21, 1, 0x26, 0x21, 2];
    b.starts(
        list(&rec, &pat, &starts, 9),
        &[2, 1, 4, 3, 2, 1, 1, 2, 1, 0],
    )?;
    // A part that may take nothing, before and after one that may not.
    let some = written(
        4,
        &[(0, 1, 1), (1, 2, 2), (0, 2, 3), (3, 1, 2)]
            .map(|(from, kind, to)| line(from, kind, 1, 1, to)),
    );
    let pat = [0x25, 0x24, 0x20, 0x21, 1, 0x21, 2];
    b.starts(list(&some, &pat, &[0, 1, 2, 3], 2), &[2, 1, NONE, NONE])?;
    b.starts(list(&some, &pat, &[0, 1, 2, 3], 3), &[1, NONE, NONE, NONE])?;
    let pat = [0x25, 0x21, 2, 0x24, 0x21, 1, 0x20];
    b.starts(list(&some, &pat, &[0, 1, 2, 3], 2), &[2, 1, NONE, NONE])?;
    // Rounds have a position each; up to two may be left out before a line of kind 2.
    let lines = [(0, 1, 1), (1, 1, 2), (2, 2, 3), (4, 1, 0)];
    let rec = written(5, &lines.map(|(from, kind, to)| line(from, kind, 1, 1, to)));
    let up_to_two = [0x25, 0x2A, 0, 2, 0x21, 1, 0x21, 2];
    let starts = [0, 1, 2, 3, 4];
    b.starts(list(&rec, &up_to_two, &starts, 3), &[3, 2, 1, NONE, NONE])?;
    let two = [0x25, 0x2A, 2, 2, 0x21, 1, 0x21, 2];
    b.starts(list(&rec, &two, &starts, 3), &[3, NONE, NONE, NONE, NONE])?;
    let or_nothing = [&[0x24, 0x20][..], &two].concat();
    b.starts(
        list(&rec, &or_nothing, &starts, 3),
        &[3, NONE, NONE, 0, NONE],
    )?;
    ok()
}

/// No boat is kept at a start: what is kept comes from the first line on.
fn start_boats(b: &Bench) -> Result<String, String> {
    // Two starts, each with a boat of its own, and one of the two boats after them.
    let rec = written(
        4,
        &[
            line(0, 1, 1, 7, 2),
            line(1, 1, 1, 8, 2),
            line(2, 2, 1, 7, 3),
        ],
    );
    let all = [0, 1, 2, 3];
    b.starts(list(&rec, &THEN_ANY, &all, 3), &[2, 2, NONE, NONE])?;
    b.starts(list(&rec, &THEN_SAME, &all, 3), &[2, NONE, NONE, NONE])?;
    b.starts(list(&rec, &THEN_OTHER, &all, 3), &[NONE, 2, NONE, NONE])?;
    b.starts(list(&rec, &then(0x28), &all, 3), &[NONE, 2, NONE, NONE])?;
    b.starts(list(&rec, &then(0x29), &all, 3), &[NONE; 4])?;
    // Laps: in the middle of one no chain starts, though one that goes on passes there.
    let laps = [0x26, 0x27, 1, 0, 0x22, 2, 0];
    let lines = [
        line(0, 1, 1, 7, 1),
        line(1, 2, 1, 7, 2),
        line(2, 1, 1, 8, 3),
        line(3, 2, 1, 8, 4),
    ];
    b.starts(
        list(&written(5, &lines), &laps, &[0, 1, 2, 3, 4], 4),
        &[4, NONE, 2, NONE, 0],
    )?;
    // One boat in two lines or three, another in three, and both by the same places.
    let rec = written(
        9,
        &[
            line(0, 1, 1, 7, 1),
            line(1, 3, 1, 7, 2),
            line(2, 2, 1, 7, 3),
            line(4, 1, 1, 7, 2),
            line(5, 1, 1, 8, 2),
            line(6, 1, 1, 8, 1),
            line(2, 3, 1, 8, 7),
            line(7, 2, 1, 8, 3),
            line(8, 1, 0, 0, 2),
        ],
    );
    let own = [0x27, 1, 0, 0x25, 0x26, 0x22, 3, 0, 0x22, 2, 0];
    b.starts(
        list(&rec, &own, &[0, 4, 5, 6, 8, 1, 2, 3, 7, 4], 3),
        &[3, 2, 3, NONE, NONE, NONE, NONE, NONE, NONE, 2],
    )?;
    // Two keeps, one in the other: the first line's boat comes last, the second line's before it.
    let nested = [0x27, 1, 0, 0x25, 0x27, 1, 1, 0x22, 2, 1, 0x22, 3, 0];
    let rec = written(
        5,
        &[
            line(0, 1, 1, 1, 1),
            line(1, 1, 1, 2, 2),
            line(2, 2, 1, 2, 3),
            line(3, 3, 1, 1, 4),
            line(4, 1, 1, 2, 1),
        ],
    );
    b.starts(
        list(&rec, &nested, &[4, 3, 2, 1, 0], 4),
        &[NONE, NONE, NONE, NONE, 4],
    )?;
    ok()
}

fn start_vectors(b: &Bench) -> Result<String, String> {
    for v in vector_list() {
        let length = v.found.map_or(NONE, |chain| chain.len() as u32);
        b.starts(list(&v.rec, &v.pat, &[0], v.to), &[length])?;
        b.starts(list(&v.rec, &v.pat, &[0, 0, 0], v.to), &[length; 3])?;
    }
    ok()
}

/// Lengths that 16 bits do not hold: from each boat's place the rest of the boats, 924 lines each.
fn start_vector_11(b: &Bench) -> Result<String, String> {
    let (rec, pat) = vector_11_day();
    let starts = [0, 99, 100, 50, 0, 1_023, 101, 29];
    let lengths = [92_400, 924, 0, 46_200, 92_400, NONE, NONE, 65_604];
    b.told(list(&rec, &pat, &starts, 100), &lengths, 4)?;
    ok()
}

/// The largest search size, with some places listed and with all of them.
fn start_largest(b: &Bench) -> Result<String, String> {
    let clock = Instant::now();
    let rings = two_rings();
    // A boat kept, others after it, and that boat once more, which has its line from place 300.
    let core = [0x27, 1, 0, 0x25, 0x26, 0x23, 1, 0, 0x22, 2, 0];
    let pat = repeats(10, &core);
    b.words(&rings, &pat, 4_202_496)?;
    b.starts(
        list(&rings, &pat, &[0, 252, 301, 315, 1, 512, 1_023, 0], 301),
        &[301, 49, 0, 498, NONE, NONE, NONE, 301],
    )?;
    b.starts(list(&rings, &pat, &[], 301), &[])?;

    // Every place has two lines to the one with half its number, of boats p and p + 7 by 63; from
    // place 1 every third boat goes on by a line of kind 2 to place 0.
    let mut lines = Vec::new();
    for p in 1..1_024 {
        for shift in [0, 7] {
            lines.push(line(p, 1, 1, (p as u32 + shift) % 63, p / 2));
        }
    }
    lines.extend((0..21).map(|n| line(1, 2, 1, 3 * n, 0)));
    let halves = written(1_024, &lines);
    b.words(&halves, &pat, 4_202_496)?;
    // p or p + 7 has to be such a boat, and there must be a line before that of kind 2.
    let length = |&p: &u16| match p {
        0 => 0,
        _ if p % 3 == 1 => NONE,
        _ => p.ilog2() + 1,
    };
    let mut starts: Vec<u16> = (0..1_024).collect();
    for alone in [2, 0] {
        let lengths: Vec<u32> = starts.iter().map(length).collect();
        let listed = list(&halves, &pat, &starts, 0);
        b.told(listed, &lengths, alone)?;
        b.starts_in(listed, 4_202_495, 1_024, refused(17, 0))?;
        starts.reverse();
    }
    Ok(format!("{:?} with the comparison", clock.elapsed()))
}
