//! Every refusal number that each function can give, and the lent buffers afterwards.

mod common;

use chains::lent::{self, BeginReply, BoatsReply, CheckReply, FindReply, LineReply};
use chains::lent::{MoveReply, PatternReply, StartsReply, WordsReply, WriteReply, NO_CHAIN};
use chains::{count_boats, read_pattern, Finder, Question, Record, RecordIn, Refusal, Search};
use chains::{Options, StartsQuestion, DAY};
use common::*;

/// Bytes of records that the questions about a record refuse.
fn refused_records() -> Vec<(u32, Vec<u8>)> {
    let altered = |bytes: &[u8], at: usize, byte: u8| {
        let mut bytes = bytes.to_vec();
        bytes[at] = byte;
        bytes
    };
    let one = record(1, &[line(0, 1, 1, 1, 0)]).into_bytes();
    let with = |at: usize, byte: u8| altered(&one, at, byte);
    let timed = lines_by_bytes(0, 1);
    let late = altered(&timed, 13, 1);
    let full = lines_by_bytes(4_000, 96);
    vec![
        (1, vec![1; 57_349]),
        (3, with(3, 4)),
        (4, timed[..13].to_vec()),
        (4, timed[..16].to_vec()),
        (3, timed[..17].to_vec()),
        (28, late.clone()),
        (28, [&late[..], &[0]].concat()),
        (28, lines_at(&[86_400])),
        (28, lines_at(&[86_399, u32::MAX])),
        (6, altered(&late, 6, 0)),
        (5, altered(&altered(&late, 6, 0), 5, 1)),
        (22, lines_by_bytes(4_097, 0)),
        (22, lines_by_bytes(4, 4_093)),
        (22, altered(&full, full.len() - 1, 2)),
        (22, altered(&full, full.len() - 1, 3)),
        (3, altered(&full, full.len() - 1, 4)),
        (7, [&full[..], &[0]].concat()),
        (2, vec![]),
        (2, vec![1, 0, 0, 0]),
        (3, vec![1, 0, 1]),
        (3, with(3, 7)),
        (4, one[..12].to_vec()),
        (5, with(5, 1)),
        (5, with(12, 1)),
        (6, with(6, 0)),
        (6, with(6, 16)),
        (7, [&one[..], &[0]].concat()),
    ]
}

/// The bytes of a record of one place with so many lines without a time, and so many with one.
fn lines_by_bytes(untimed: usize, timed: usize) -> Vec<u8> {
    let line = [2, 0, 0, 1, 1, 0, 0, 1, 0, 0].repeat(untimed);
    let timed = [3, 0, 0, 1, 1, 0, 0, 1, 0, 0, 0, 0, 0, 5].repeat(timed);
    [&[1, 0, 1], &line[..], &timed[..], &[0]].concat()
}

/// The same with a line at each of these times.
fn lines_at(times: &[u32]) -> Vec<u8> {
    let mut bytes = vec![1, 0, 1];
    for time in times {
        bytes.extend([3, 0, 0, 1, 1, 0, 0, 1, 0, 0]);
        bytes.extend(time.to_be_bytes());
    }
    bytes.push(0);
    bytes
}

/// Patterns that questions 8 to 14, 24 and 25 refuse.
fn refused_patterns() -> Vec<(u32, Vec<u8>)> {
    vec![
        (8, vec![]),
        (8, vec![0x2B]),
        (8, vec![0x2A, 0, 0]),
        (9, repeats(63, &[0x20])),
        (10, vec![0x21]),
        (10, vec![0x2A, 1]),
        (11, vec![0x21, 0]),
        (11, vec![0x27, 1, 4, 0x20]),
        (12, vec![0x22, 1, 0]),
        (12, vec![0x28, 1, 0]),
        (12, vec![0x29, 1, 0]),
        (
            13,
            vec![0x27, 1, 0, 0x27, 1, 1, 0x27, 1, 2, 0x27, 1, 3, 0x20],
        ),
        (14, vec![0x20, 0x20]),
        (14, twenties(40, &[0x20, 0x20])),
        (24, vec![0x2A, 1, 0]),
        (24, vec![0x2A, 0, 21, 0x20]),
        (25, repeats(3, &rounds(0, 20, &[0x24, 0x20, 0x20]))),
        (25, twenties(40, &[0x20])),
    ]
}

/// Every request that the questions about record and pattern, 15 and 16 refuse, whatever is lent.
fn refused_requests() -> Vec<(u32, Vec<u8>, Vec<u8>, u16)> {
    let mut requests = Vec::new();
    for (number, bytes) in refused_records() {
        requests.push((number, bytes, NOTHING.to_vec(), 0));
    }
    for (number, pattern) in refused_patterns() {
        requests.push((number, e().into_bytes(), pattern, 0));
    }
    requests.push((15, r().into_bytes(), P.to_vec(), 4));
    requests.push((16, boats(64).into_bytes(), fifteen_commands(), 0));
    requests
}

const DIRT: u32 = 0xA5A5_A5A5;
const OUT_DIRT: u16 = 0xA5A5;

#[test]
fn of_begin() {
    let begin = |length: usize, places: u16| {
        let mut buf = vec![9; length];
        let reply = lent::begin(&mut buf, places);
        if matches!(reply, WriteReply::Refused(_)) {
            assert_eq!(buf, vec![9; length]);
        }
        reply
    };
    let refused = WriteReply::Refused;
    assert_eq!(begin(9, 0), refused(Refusal::PlacesOutOfRange));
    assert_eq!(begin(0, 1_025), refused(Refusal::PlacesOutOfRange));
    assert_eq!(begin(3, 1), refused(Refusal::BufferTooSmall));
    assert_eq!(begin(0, 1), refused(Refusal::BufferTooSmall));
    assert_eq!(begin(4, 1_024), WriteReply::Length(4));
    assert_eq!(Record::begin(0), Err(Refusal::PlacesOutOfRange));
    let short = RecordIn::begin(&mut [0; 3], 1).map(|_| ());
    assert_eq!(short, Err(Refusal::BufferTooSmall));
}

#[test]
fn of_add() {
    let good = line(0, 1, 1, 1, 0);
    for (number, bytes) in refused_records() {
        let mut buf = [&bytes[..], &[9; 20]].concat();
        let before = buf.clone();
        let WriteReply::Refused(refusal) = lent::add(&mut buf, bytes.len(), good) else {
            panic!("{number} passes");
        };
        assert_eq!(refusal.number(), number);
        let timed = lent::add_timed(&mut buf, bytes.len(), line(9, 0, 1, u32::MAX, 9), u32::MAX);
        assert_eq!(timed, WriteReply::Refused(refusal));
        assert_eq!(buf, before);
        let opened = RecordIn::open(&mut buf, bytes.len()).map(|_| ());
        assert_eq!(opened, Err(refusal));
    }
    let mut buf = [1, 0, 1, 0, 9, 9, 9, 9, 9, 9, 9, 9, 9, 9, 9];
    let before = buf;
    let beyond = Refusal::LengthBeyondBuffer;
    assert_eq!(lent::add(&mut buf, 16, good), WriteReply::Refused(beyond));
    assert_eq!(
        lent::add(&mut buf, usize::MAX, good),
        WriteReply::Refused(beyond)
    );
    assert_eq!(RecordIn::open(&mut buf, 16).map(|_| ()), Err(beyond));
    assert_eq!(
        lent::add(&mut buf[..13], 4, good),
        WriteReply::Refused(Refusal::BufferTooSmall)
    );
    assert_eq!(buf, before);
    assert_eq!(lent::add(&mut buf, 4, good), WriteReply::Length(14));
    assert_eq!(buf, [1, 0, 1, 2, 0, 0, 1, 1, 0, 0, 1, 0, 0, 0, 9]);

    let mut day = e();
    let before = day.clone();
    let place = Refusal::LinePlaceNotThere;
    assert_eq!(day.add(line(1, 1, 1, 1, 0)), Err(place));
    assert_eq!(day.add(line(0, 1, 1, 1, 1)), Err(place));
    let kind = Refusal::LineKindOutOfRange;
    assert_eq!(day.add(line(0, 0, 1, 1, 0)), Err(kind));
    assert_eq!(day.add(line(0, 16, 1, 1, 0)), Err(kind));
    let sail = Refusal::SailNumberTooLarge;
    assert_eq!(day.add(line(0, 1, 1, 16_777_216, 0)), Err(sail));
    assert_eq!(day, before);
    // A full record, built by its bytes: adding asks about the whole record each time.
    for timed in [0, 1_000, 4_096] {
        let bytes = lines_by_bytes(4_096 - timed, timed);
        assert_eq!(bytes.len(), 3 + 10 * 4_096 + 4 * timed + 1);
        let mut full = Record::from_bytes(bytes).expect("4,096 lines");
        assert_eq!(full.line_count(), 4_096);
        let before = full.clone();
        assert_eq!(full.add(good), Err(Refusal::RecordFull));
        assert_eq!(full.add_timed(good, 5), Err(Refusal::RecordFull));
        assert_eq!(full, before);
    }
}

/// 5, 6, 28, 21 and 23 of a line with a time; what is refused with one is wrong in the later ones too.
#[test]
fn of_add_timed() {
    let good = line(0, 1, 1, 1, 0);
    let mut buf = [1, 0, 1, 0, 9, 9, 9, 9, 9, 9, 9, 9, 9, 9, 9, 9, 9, 9, 9];
    let before = buf;
    let sail = 16_777_216;
    for (refusal, len, line, time) in [
        (Refusal::LengthBeyondBuffer, 18, line(1, 0, 1, sail, 1), DAY),
        (Refusal::LinePlaceNotThere, 4, line(1, 0, 1, sail, 0), DAY),
        (Refusal::LinePlaceNotThere, 4, line(0, 0, 1, sail, 1), DAY),
        (Refusal::LineKindOutOfRange, 4, line(0, 0, 1, sail, 0), DAY),
        (Refusal::LineTimeOutOfRange, 4, line(0, 1, 1, sail, 0), DAY),
        (Refusal::LineTimeOutOfRange, 4, good, u32::MAX),
        (Refusal::SailNumberTooLarge, 4, line(0, 1, 1, sail, 0), 5),
        (Refusal::BufferTooSmall, 4, good, DAY - 1),
    ] {
        let reply = lent::add_timed(&mut buf[..17], len, line, time);
        assert_eq!(reply, WriteReply::Refused(refusal));
        assert_eq!(buf, before);
        if len == 4 {
            let mut given = RecordIn::open(&mut buf[..17], 4).map_err(Refusal::number);
            let given = given.as_mut().expect("a record without lines");
            assert_eq!(given.add_timed(line, time), Err(refusal));
            assert_eq!(given.line_count(), 0);
            let mut day = e();
            if refusal == Refusal::BufferTooSmall {
                assert_eq!(day.add_timed(line, time), Ok(0));
            } else {
                assert_eq!(day.add_timed(line, time), Err(refusal));
                assert_eq!(day, e());
            }
        }
    }
    let reply = lent::add_timed(&mut buf[..18], 4, good, DAY - 1);
    assert_eq!(reply, WriteReply::Length(18));
    let added = [
        1, 0, 1, 3, 0, 0, 1, 1, 0, 0, 1, 0, 0, 0, 1, 0x51, 0x7F, 0, 9,
    ];
    assert_eq!(buf, added);
    assert_eq!(lent::read(&buf[..18], 0), LineReply::Timed(good, DAY - 1));
}

#[test]
fn of_read() {
    for (number, bytes) in refused_records() {
        let LineReply::Refused(refusal) = lent::read(&bytes, 0) else {
            panic!("{number} passes");
        };
        assert_eq!(refusal.number(), number);
        assert_eq!(Record::from_bytes(bytes), Err(refusal));
    }
    for number in [7, 4_096, u16::MAX] {
        assert_eq!(r().line(number), Err(Refusal::LineNotThere));
    }
}

#[test]
fn of_pattern() {
    for (number, pattern) in refused_patterns() {
        let PatternReply::Refused(refusal) = lent::pattern(&pattern) else {
            panic!("{number} passes");
        };
        assert_eq!(refusal.number(), number);
        assert_eq!(read_pattern(&pattern), Err(refusal));
    }
}

#[test]
fn of_boats() {
    for (number, bytes) in refused_records() {
        let BoatsReply::Refused(refusal) = lent::boats(&bytes) else {
            panic!("{number} passes");
        };
        assert_eq!(refusal.number(), number);
        assert_eq!(count_boats(&bytes), Err(refusal));
    }
}

#[test]
fn of_words() {
    for (number, rec, pat, to) in refused_requests() {
        let reply = lent::words(&rec, &pat);
        let in_steps = lent::search_words(&rec, &pat);
        if to != 0 {
            // The two places are not given to it.
            assert_eq!(reply, WordsReply::Words(8_704));
            assert_eq!(in_steps, WordsReply::Words(8_704 + 3 * 7));
            continue;
        }
        let WordsReply::Refused(refusal) = reply else {
            panic!("{number} passes");
        };
        assert_eq!(refusal.number(), number);
        assert_eq!(in_steps, reply);
    }
}

#[test]
fn of_check_and_find() {
    let mut finder = Finder::new();
    for (number, rec, pat, to) in refused_requests() {
        let mut work = vec![DIRT; 9_000];
        let mut out = vec![OUT_DIRT; 5];
        let CheckReply::Refused(checked) = lent::check(&rec, &pat, 0, to, &[0], &mut work) else {
            panic!("{number} passes");
        };
        let FindReply::Refused(found) = lent::find(&rec, &pat, 0, to, &mut work, &mut out) else {
            panic!("{number} passes");
        };
        assert_eq!((checked.number(), found.number()), (number, number));
        // 27 comes after 15, and before 16.
        for options in [Options::new(), Options::new().window(15, 5, 5)] {
            let wrong = number == 16 && options != Options::new();
            let refusal = if wrong {
                Refusal::WindowOutOfRange
            } else {
                checked
            };
            let reply = lent::check_with(&rec, &pat, 0, to, &[0], &options, &mut work);
            assert_eq!(reply, CheckReply::Refused(refusal));
            let reply = lent::find_with(&rec, &pat, 0, to, &options, &mut work, &mut out);
            assert_eq!(reply, FindReply::Refused(refusal));
        }
        assert_eq!(work, vec![DIRT; 9_000]);
        assert_eq!(out, vec![OUT_DIRT; 5]);
        let question = Question::about(&rec, &pat, 0, to);
        assert_eq!(finder.check(&question, &[]), Err(checked));
        assert_eq!(finder.find(&question), Err(found));
        assert_eq!(finder.find_owned(&question), Err(found));
        // A record that passes can be asked directly.
        if let Ok(day) = Record::from_bytes(rec) {
            assert_eq!(day.check(&pat, 0, to, &[]), Err(checked));
            assert_eq!(day.find(&pat, 0, to), Err(found));
        }
    }
}

/// 17 leaves the area, 18 and 19 clear it, and none of them writes to the output.
#[test]
fn of_areas_and_outputs() {
    let day = r();
    let rec = day.bytes();
    assert_eq!(lent::words(rec, &P), WordsReply::Words(8_704));
    let small = Refusal::WorkAreaTooSmall;
    for words in [0, 8_703] {
        let mut work = vec![DIRT; words];
        let mut out = [OUT_DIRT; 3];
        let reply = lent::check(rec, &P, 0, 3, &[9_999], &mut work);
        assert_eq!(reply, CheckReply::Refused(small));
        let reply = lent::find(rec, &P, 0, 3, &mut work, &mut out);
        assert_eq!(reply, FindReply::Refused(small));
        assert_eq!(work, vec![DIRT; words]);
        assert_eq!(out, [OUT_DIRT; 3]);
    }
    let dirty = || vec![DIRT; 8_800];

    let mut work = dirty();
    let reply = lent::check(rec, &P, 0, 3, &[5, 0, 7], &mut work);
    assert_eq!(reply, CheckReply::Refused(Refusal::LineNotThere));
    assert_eq!(work, vec![0; 8_800]);
    let missing = Finder::new().check(&ask(&day, &P, 0, 3), &[7]);
    assert_eq!(missing, Err(Refusal::LineNotThere));

    for entries in [0, 2] {
        let (mut work, mut out) = (dirty(), vec![OUT_DIRT; entries]);
        let reply = lent::find(rec, &P, 0, 3, &mut work, &mut out);
        let short = Refusal::OutputTooSmall { length: 3 };
        assert_eq!(reply, FindReply::Refused(short));
        assert_eq!(short.number(), 19);
        assert_eq!(work, vec![0; 8_800]);
        assert_eq!(out, vec![OUT_DIRT; entries]);
    }

    let (mut work, mut out) = (dirty(), [OUT_DIRT; 4]);
    let reply = lent::find(rec, &P, 0, 3, &mut work, &mut out);
    assert_eq!(reply, FindReply::Found(3));
    assert_eq!(out, [1, 2, 5, OUT_DIRT]);
    assert_eq!(work, vec![0; 8_800]);

    let (mut work, mut out) = (dirty(), [OUT_DIRT; 4]);
    let reply = lent::find(rec, &P, 3, 0, &mut work, &mut out);
    assert_eq!(reply, FindReply::NoChain);
    assert_eq!(out, [OUT_DIRT; 4]);
    assert_eq!(work, vec![0; 8_800]);

    for (chain, expected) in [([1, 2, 5], CheckReply::Yes), ([0, 2, 5], CheckReply::No)] {
        let mut work = dirty();
        assert_eq!(lent::check(rec, &P, 0, 3, &chain, &mut work), expected);
        assert_eq!(work, vec![0; 8_800]);
    }
}

/// Every one of the list and the last place are asked about; every buffer is left as it was.
#[test]
fn of_starts() {
    let mut finder = Finder::new();
    for (number, rec, pat, to) in refused_requests() {
        for places in [&[][..], &[0], &[0, 0, 9_999]] {
            // A place that is not there is told before the size, and after everything else.
            let not_there = number == 16 && places.len() == 3;
            let number = if not_there { 15 } else { number };
            for (words, entries) in [(0, 0), (9_000, 0), (0, 5), (9_000, 5)] {
                let (mut work, mut lengths) = (vec![DIRT; words], vec![DIRT; entries]);
                let reply = lent::starts(&rec, &pat, places, to, &mut work, &mut lengths);
                let StartsReply::Refused(refusal) = reply else {
                    panic!("{number} passes");
                };
                assert_eq!(refusal.number(), number);
                assert_eq!(work, vec![DIRT; words]);
                assert_eq!(lengths, vec![DIRT; entries]);
                let question = StartsQuestion::about(&rec, &pat, to);
                assert_eq!(finder.starts(&question, places), Err(refusal));
                // A record that passes can be asked directly.
                if let Ok(day) = Record::from_bytes(&rec[..]) {
                    assert_eq!(day.starts(&pat, places, to), Err(refusal));
                }
            }
        }
    }
    let day = r();
    for (places, to) in [
        (&[4][..], 3),
        (&[4, 0], 3),
        (&[0, 4], 3),
        (&[0], 4),
        (&[], 4),
    ] {
        let refused = Err(Refusal::AskedPlaceNotThere);
        assert_eq!(finder.starts(&ask_starts(&day, &P, to), places), refused);
    }
}

/// 17 leaves the area, 19 clears it, and neither writes to the lengths; 17 comes first.
#[test]
fn of_areas_and_lengths() {
    let day = r();
    let places = [0, 1, 2, 3, 0];
    for (words, entries, listed) in [(0, 0, 0), (8_703, 5, 5), (8_703, 4, 5), (8_703, 0, 0)] {
        let (mut work, mut lengths) = (vec![DIRT; words], vec![DIRT; entries]);
        let places = &places[..listed];
        let reply = lent::starts(day.bytes(), &P, places, 3, &mut work, &mut lengths);
        assert_eq!(reply, StartsReply::Refused(Refusal::WorkAreaTooSmall));
        assert_eq!(work, vec![DIRT; words]);
        assert_eq!(lengths, vec![DIRT; entries]);
    }
    for (words, entries) in [(8_704, 4), (8_800, 0)] {
        let (mut work, mut lengths) = (vec![DIRT; words], vec![DIRT; entries]);
        let reply = lent::starts(day.bytes(), &P, &places, 3, &mut work, &mut lengths);
        let short = Refusal::OutputTooSmall { length: 5 };
        assert_eq!(reply, StartsReply::Refused(short));
        assert_eq!(work, vec![0; words]);
        assert_eq!(lengths, vec![DIRT; entries]);
    }
    let expected = [3, NO_CHAIN, NO_CHAIN, NO_CHAIN, 3];
    for (words, entries, listed) in [(8_704, 5, 5), (8_800, 9, 5), (8_704, 3, 2), (8_800, 4, 0)] {
        let (mut work, mut lengths) = (vec![DIRT; words], vec![DIRT; entries]);
        let places = &places[..listed];
        let reply = lent::starts(day.bytes(), &P, places, 3, &mut work, &mut lengths);
        assert_eq!(reply, StartsReply::Lengths(listed));
        assert_eq!(work, vec![0; words]);
        assert_eq!(lengths[..listed], expected[..listed]);
        assert_eq!(lengths[listed..], vec![DIRT; entries - listed]);
    }
}

/// 27, whichever kind it is of and whatever is lent; every buffer is left as it was.
#[test]
fn of_windows() {
    let refusal = Refusal::WindowOutOfRange;
    assert_eq!(refusal.number(), 27);
    let day = r();
    let rec = day.bytes();
    let question = ask(&day, &P, 0, 3);
    let mut finder = Finder::new();
    for (kind, (open, close)) in (1..=15).cycle().zip([
        (0, 0),
        (5, 5),
        (6, 5),
        (DAY, DAY),
        (DAY, DAY + 1),
        (0, DAY + 1),
        (0, u32::MAX),
        (u32::MAX, u32::MAX),
        (u32::MAX, 0),
        (1, 1),
        (9, 8),
        (DAY - 1, DAY - 1),
        (2, 0),
        (DAY - 1, DAY + 1),
        (7, 7),
    ]) {
        let options = Options::new().window(kind, open, close);
        for words in [0, 8_703, 9_000] {
            let (mut work, mut out) = (vec![DIRT; words], [OUT_DIRT; 3]);
            let mut lengths = [DIRT; 1];
            let reply = lent::check_with(rec, &P, 0, 3, &[9_999], &options, &mut work);
            assert_eq!(reply, CheckReply::Refused(refusal));
            let reply = lent::find_with(rec, &P, 0, 3, &options, &mut work, &mut out);
            assert_eq!(reply, FindReply::Refused(refusal));
            let reply = lent::starts_with(rec, &P, &[0, 3], 3, &options, &mut work, &mut lengths);
            assert_eq!(reply, StartsReply::Refused(refusal));
            let reply = lent::search_begin_with(rec, &P, 0, 3, &options, &mut work);
            assert_eq!(reply, BeginReply::Refused(refusal));
            assert_eq!(work, vec![DIRT; words]);
            assert_eq!((out, lengths), ([OUT_DIRT; 3], [DIRT]));
        }
        assert_eq!(finder.find_with(&question, &options), Err(refusal));
        assert_eq!(finder.find_owned_with(&question, &options), Err(refusal));
        assert_eq!(finder.check_with(&question, &[9], &options), Err(refusal));
        let starts = finder.starts_with(&ask_starts(&day, &P, 3), &[], &options);
        assert_eq!(starts, Err(refusal));
        let begun = Search::begin_with(&question, &options).map(Search::finish);
        assert_eq!(begun, Err(refusal));
        // 15 comes first.
        let nowhere = finder.find_with(&ask(&day, &P, 0, 4), &options);
        assert_eq!(nowhere, Err(Refusal::AskedPlaceNotThere));
    }
}

#[test]
fn of_search_begin() {
    for (number, rec, pat, to) in refused_requests() {
        let mut work = vec![DIRT; 9_000];
        let reply = lent::search_begin(&rec, &pat, 0, to, &mut work);
        let BeginReply::Refused(refusal) = reply else {
            panic!("{number} passes");
        };
        assert_eq!(refusal.number(), number);
        assert_eq!(work, vec![DIRT; 9_000]);
        let question = Question::about(&rec, &pat, 0, to);
        assert_eq!(Search::begin(&question).map(Search::finish), Err(refusal));
        // A record that passes can be asked directly.
        if let Ok(day) = Record::from_bytes(rec) {
            let searched = day.search(&pat, 0, to).map(Search::finish);
            assert_eq!(searched, Err(refusal));
        }
    }
    // 17 asks for three words more for each of the seven lines than with a find.
    let day = r();
    for words in [0, 8_704, 8_724] {
        let mut work = vec![DIRT; words];
        let reply = lent::search_begin(day.bytes(), &P, 0, 3, &mut work);
        assert_eq!(reply, BeginReply::Refused(Refusal::WorkAreaTooSmall));
        assert_eq!(work, vec![DIRT; words]);
    }
    let reply = lent::search_begin(day.bytes(), &P, 0, 3, &mut vec![DIRT; 8_725]);
    assert_eq!(reply, BeginReply::Begun);
}

/// 26 for an area without a search, and everything as it was.
fn no_search_in(work: &[u32]) {
    for (amount, entries) in [(0, 0), (1, 3), (usize::MAX, 9)] {
        let (mut after, mut out) = (work.to_vec(), vec![OUT_DIRT; entries]);
        let moved = lent::search_move(&mut after, amount);
        assert_eq!(moved, MoveReply::Refused(Refusal::NoSearch));
        let finished = lent::search_finish(&mut after, &mut out);
        assert_eq!(finished, FindReply::Refused(Refusal::NoSearch));
        assert_eq!(after, work);
        assert_eq!(out, vec![OUT_DIRT; entries]);
    }
}

/// Areas that hold no search; and found, none and 19 end one, with an area of zeros.
#[test]
fn of_searches() {
    assert_eq!(Refusal::NoSearch.number(), 26);
    no_search_in(&[]);
    for words in [1, 8_725, 9_000] {
        no_search_in(&vec![0; words]);
        let mut dirty = vec![DIRT; words];
        dirty[0] = 0;
        no_search_in(&dirty);
    }

    let day = r();
    let short = FindReply::Refused(Refusal::OutputTooSmall { length: 3 });
    for (from, to, entries, expected, written) in [
        (0, 3, 3, FindReply::Found(3), &[1, 2, 5][..]),
        (0, 3, 5, FindReply::Found(3), &[1, 2, 5, OUT_DIRT, OUT_DIRT]),
        (0, 3, 2, short, &[OUT_DIRT; 2]),
        (0, 3, 0, short, &[]),
        (3, 0, 1, FindReply::NoChain, &[OUT_DIRT]),
    ] {
        for moves in [0, 1, 5, 100] {
            let (mut work, mut out) = (vec![DIRT; 8_800], vec![OUT_DIRT; entries]);
            let begun = lent::search_begin(day.bytes(), &P, from, to, &mut work);
            assert_eq!(begun, BeginReply::Begun);
            assert_ne!(work[0], 0);
            for _ in 0..moves {
                let MoveReply::Moved(0 | 1) = lent::search_move(&mut work, 1) else {
                    panic!("a move of 1 is none or one");
                };
            }
            assert_eq!(lent::search_finish(&mut work, &mut out), expected);
            assert_eq!(out, written);
            assert_eq!(work, vec![0; 8_800]);
            no_search_in(&work);
        }
    }
}

/// An area with a word altered, or cut short: the calls return, and 26 leaves it as it was.
#[test]
fn of_altered_searches() {
    let day = r();
    let mut work = vec![0; 8_725];
    let begun = lent::search_begin(day.bytes(), &P, 0, 3, &mut work);
    assert_eq!(begun, BeginReply::Begun);
    assert_eq!(lent::search_move(&mut work, 5), MoveReply::Moved(5));
    let harmless = |area: Vec<u32>| {
        let (mut after, mut out) = (area.clone(), [OUT_DIRT; 2]);
        match lent::search_move(&mut after, 3) {
            MoveReply::Moved(count) => assert!(count <= 3),
            reply => {
                assert_eq!(reply, MoveReply::Refused(Refusal::NoSearch));
                assert_eq!(after, area);
            }
        }
        let mut after = area.clone();
        match lent::search_finish(&mut after, &mut out) {
            FindReply::Found(length) => assert!(length <= 2),
            FindReply::NoChain | FindReply::Refused(Refusal::OutputTooSmall { .. }) => {}
            reply => {
                assert_eq!(reply, FindReply::Refused(Refusal::NoSearch));
                assert_eq!((after, out), (area, [OUT_DIRT; 2]));
            }
        }
    };
    for at in (0..1_000).chain((1_000..8_725).step_by(97)) {
        for word in [0, 1, work[at].wrapping_add(1), DIRT, u32::MAX] {
            let mut altered = work.clone();
            altered[at] = word;
            harmless(altered);
        }
    }
    for length in (0..8_725).step_by(31) {
        harmless(work[..length].to_vec());
    }
}
