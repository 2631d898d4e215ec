//! The worked rows, by way of `Record` and `Finder`.

mod common;

use chains::{count_boats, read_pattern, version, Finder, Line, Question};
use chains::{Record, RecordIn, Refusal, Search, StartsQuestion};
use common::*;

/// One finder for all rows, so that its buffers come dirty and of other sizes to each.
#[test]
fn rows_of_the_finder() -> Result<(), Refusal> {
    let mut finder = Finder::new();
    let (r, t, e) = (r(), t(), e());
    let mut more = r.clone();
    assert_eq!(more.add(line(2, 4, 1, 150, 3)), Ok(7));
    let mut fewer = lines_of_r();
    fewer.remove(5);
    let fewer = record(4, &fewer);
    for _ in 0..2 {
        assert_eq!(finder.find(&ask(&r, &P, 0, 3))?, Some(&[1, 2, 5][..]));
        assert_eq!(finder.find(&ask(&more, &P, 0, 3))?, Some(&[0, 3, 7][..]));
        assert_eq!(finder.find(&ask(&fewer, &P, 0, 3))?, None);
        assert_eq!(finder.find(&ask(&t, &S, 0, 0))?, Some(&[0, 0, 1, 0][..]));
        assert_eq!(finder.find(&ask(&e, &NOTHING, 0, 0))?, Some(&[][..]));
        assert_eq!(finder.find(&ask(&e, &[0x21, 3], 0, 0))?, None);
        assert_eq!(finder.find(&ask(&r, &[0x26, 0x20], 0, 1))?, None);
    }
    Ok(())
}

#[test]
fn rows_of_the_checker() -> Result<(), Refusal> {
    let mut finder = Finder::new();
    let (r, t, e) = (r(), t(), e());
    for _ in 0..2 {
        assert!(!finder.check(&ask(&r, &P, 0, 3), &[0, 2, 5])?);
        assert!(finder.check(&ask(&r, &P, 0, 3), &[1, 2, 5])?);
        assert!(finder.check(&ask(&t, &S, 0, 0), &[0, 1, 0, 0])?);
        assert!(!finder.check(&ask(&t, &S, 0, 0), &[0, 1, 0, 1])?);
        assert!(finder.check(&ask(&e, &NOTHING, 0, 0), &[])?);
        assert!(!finder.check(&ask(&r, &NOTHING, 0, 1), &[])?);
    }
    Ok(())
}

/// The finder's lengths from every place at once, in whatever order and however often they are
/// listed; no other place of the list changes any of them.
#[test]
fn rows_of_starts() -> Result<(), Refusal> {
    let mut finder = Finder::new();
    let (r, t, e) = (r(), t(), e());
    let mut more = r.clone();
    assert_eq!(more.add(line(2, 4, 1, 150, 3)), Ok(7));
    let mut fewer = lines_of_r();
    fewer.remove(5);
    let fewer = record(4, &fewer);
    // Any number of lines.
    let lines = [0x26, 0x24, 0x24, 0x21, 1, 0x21, 2, 0x24, 0x21, 3, 0x21, 4];
    let (none, three) = (None, Some(3));
    for _ in 0..2 {
        for (question, places, lengths) in [
            (
                ask_starts(&r, &P, 3),
                &[0, 1, 2, 3, 0][..],
                &[three, none, none, none, three][..],
            ),
            (ask_starts(&r, &P, 3), &[], &[]),
            (ask_starts(&r, &P, 3), &[0], &[three]),
            (ask_starts(&r, &P, 3), &[3, 0], &[none, three]),
            (ask_starts(&more, &P, 3), &[0, 1], &[three, none]),
            (ask_starts(&fewer, &P, 3), &[0, 3], &[none, none]),
            (ask_starts(&t, &S, 0), &[0, 0], &[Some(4), Some(4)]),
            (ask_starts(&e, &NOTHING, 0), &[0], &[Some(0)]),
            (ask_starts(&e, &[0x21, 3], 0), &[0], &[none]),
            (
                ask_starts(&r, &[0x26, 0x20], 1),
                &[0, 1, 2, 3],
                &[none, Some(0), none, none],
            ),
            (
                ask_starts(&r, &lines, 3),
                &[3, 2, 1, 0, 3],
                &[Some(0), Some(1), Some(2), three, Some(0)],
            ),
            (
                ask_starts(&r, &lines, 2),
                &[0, 1, 2, 3],
                &[Some(2), Some(1), Some(0), none],
            ),
        ] {
            assert_eq!(finder.starts(&question, places)?, lengths);
            let StartsQuestion {
                record,
                pattern,
                to,
            } = question;
            for (&from, &length) in places.iter().zip(lengths) {
                let found = finder.find(&Question::about(record, pattern, from, to))?;
                assert_eq!(found.map(|chain| chain.len() as u32), length);
            }
        }
    }

    // More places than 16 bits can count, and few after many.
    let many: Vec<u16> = (0..70_000u32).map(|i| (i / 7 % 4) as u16).collect();
    let expected: Vec<Option<u32>> = many.iter().map(|&at| Some(3 - u32::from(at))).collect();
    let question = ask_starts(&r, &lines, 3);
    assert_eq!(finder.starts(&question, &many)?, expected);
    assert_eq!(finder.starts(&question, &many[..9])?, expected[..9]);
    Ok(())
}

/// A hundred boats, each with the same way of 922 lines between its own two: 924 lines for each.
#[test]
fn starts_are_far_away() -> Result<(), Refusal> {
    let mut lines: Vec<Line> = (101..1_023).map(|at| line(at, 2, 9, 9, at + 1)).collect();
    for boat in 0..100 {
        lines.push(line(boat, 1, 1, u32::from(boat) + 1, 101));
        lines.push(line(1_023, 3, 1, u32::from(boat) + 1, boat + 1));
    }
    let relay = [0x26, 0x27, 1, 0, 0x25, 0x26, 0x21, 2, 0x22, 3, 0];
    let starts = record(1_024, &lines).starts(&relay, &[0, 99, 29, 101, 100, 1_023], 100)?;
    let far = Some(92_400);
    assert_eq!(
        starts,
        [far, Some(924), Some(71 * 924), None, Some(0), None]
    );
    Ok(())
}

/// The same rows in steps: by whatever amounts, so many states are taken up and no more, and the
/// chain is the finder's wherever the search is finished. States are those gone through backward,
/// and with a chain all that were found but the goal.
#[test]
fn rows_of_searches() -> Result<(), Refusal> {
    let (r, t, e) = (r(), t(), e());
    let mut more = r.clone();
    assert_eq!(more.add(line(2, 4, 1, 150, 3)), Ok(7));
    let mut fewer = lines_of_r();
    fewer.remove(5);
    let fewer = record(4, &fewer);
    for (question, states, chain) in [
        (ask(&r, &P, 0, 3), 4 + 4, Some(vec![1, 2, 5])),
        (ask(&more, &P, 0, 3), 7 + 7, Some(vec![0, 3, 7])),
        (ask(&fewer, &P, 0, 3), 2, None),
        (ask(&t, &S, 0, 0), 9 + 9, Some(vec![0, 0, 1, 0])),
        (ask(&e, &NOTHING, 0, 0), 0, Some(vec![])),
        (ask(&e, &[0x21, 3], 0, 0), 1, None),
        (ask(&r, &[0x26, 0x20], 0, 1), 1, None),
    ] {
        assert_eq!(Finder::new().find_owned(&question)?, chain);
        for amount in [1, 2, 3, 7, usize::MAX] {
            let mut search = Search::begin(&question)?;
            let mut left = states;
            while left > 0 {
                assert_eq!(search.moved(0), 0);
                assert_eq!(search.moved(amount), amount.min(left));
                left -= amount.min(left);
            }
            assert_eq!((search.moved(1), search.moved(usize::MAX)), (0, 0));
            assert_eq!(search.finish(), chain);
        }
        for count in 0..=states {
            let mut search = Search::begin(&question)?;
            assert_eq!(search.moved(count), count);
            let mut again = search.clone();
            assert_eq!(search.finish(), chain);
            assert_eq!(again.moved(usize::MAX), states - count);
            assert_eq!(again.finish(), chain);
        }
    }
    Ok(())
}

/// Lines are added while a search is under way, here or in a buffer of the caller's; the record may
/// be no more, and the search with another thread, when it is finished.
#[test]
fn lines_are_added_meanwhile() -> Result<(), Refusal> {
    for count in 0..=8 {
        let mut day = r();
        let mut search = day.search(&P, 0, 3)?;
        assert_eq!(search.moved(count), count);
        day.add(line(2, 4, 1, 150, 3))?;
        assert_eq!(day.find(&P, 0, 3)?, Some(vec![0, 3, 7]));
        let (old, new) = (search.clone(), day.search(&P, 0, 3)?);
        assert_eq!(search.finish(), Some(vec![1, 2, 5]));

        let mut buffer = [r().bytes(), &[0; 10]].concat();
        let mut given = RecordIn::open(&mut buffer, 74)?;
        let search = given.search(&P, 0, 3)?;
        given.add(line(2, 4, 1, 150, 3))?;
        assert_eq!(search.finish(), Some(vec![1, 2, 5]));
        assert_eq!(given.search(&P, 0, 3)?.finish(), Some(vec![0, 3, 7]));

        drop((day, buffer));
        let finish = |search: Search| std::thread::spawn(|| search.finish()).join();
        assert_eq!(finish(old).expect("no panic"), Some(vec![1, 2, 5]));
        assert_eq!(finish(new).expect("no panic"), Some(vec![0, 3, 7]));
    }
    Ok(())
}

/// Same and other fail on an unread line and where the slot holds an unread number; keep and line
/// take one. Class 0 alone and number 0 alone are boats.
#[test]
fn unread_numbers() -> Result<(), Refusal> {
    let mut finder = Finder::new();
    let (any, same) = ([0x27, 1, 0, 0x21, 2], [0x27, 1, 0, 0x22, 2, 0]);
    let other = [0x27, 1, 0, 0x23, 2, 0];
    for (kept, another) in [((1, 1), (1, 2)), ((0, 5), (0, 6)), ((3, 0), (4, 0))] {
        let day = record(
            3,
            &[
                line(0, 1, kept.0, kept.1, 1),
                line(1, 2, 0, 0, 2),
                line(1, 2, another.0, another.1, 2),
                line(1, 2, kept.0, kept.1, 2),
            ],
        );
        assert_eq!(finder.find(&ask(&day, &any, 0, 2))?, Some(&[0, 1][..]));
        assert_eq!(finder.find(&ask(&day, &same, 0, 2))?, Some(&[0, 3][..]));
        assert_eq!(finder.find(&ask(&day, &other, 0, 2))?, Some(&[0, 2][..]));
        assert!(finder.check(&ask(&day, &any, 0, 2), &[0, 1])?);
        assert!(!finder.check(&ask(&day, &same, 0, 2), &[0, 1])?);
        assert!(!finder.check(&ask(&day, &other, 0, 2), &[0, 1])?);
    }
    let day = record(
        2,
        &[
            line(0, 1, 0, 0, 1),
            line(1, 2, 0, 0, 1),
            line(1, 2, 1, 1, 1),
        ],
    );
    assert_eq!(finder.find(&ask(&day, &any, 0, 1))?, Some(&[0, 1][..]));
    assert_eq!(finder.find(&ask(&day, &same, 0, 1))?, None);
    assert_eq!(finder.find(&ask(&day, &other, 0, 1))?, None);
    for second in [1, 2] {
        assert!(finder.check(&ask(&day, &any, 0, 1), &[0, second])?);
        assert!(!finder.check(&ask(&day, &same, 0, 1), &[0, second])?);
        assert!(!finder.check(&ask(&day, &other, 0, 1), &[0, second])?);
    }
    assert_eq!(day.find(&[0x27, 1, 0, 0x20], 0, 1)?, Some(vec![0]));
    assert_eq!(day.find(&[0x21, 2], 1, 1)?, Some(vec![1]));
    Ok(())
}

/// Sister takes another boat of the kept one's class, foreign one of another class; neither takes an
/// unread number, nor any line where the slot holds one.
#[test]
fn classes() -> Result<(), Refusal> {
    let mut finder = Finder::new();
    let then = |test| [0x27, 1, 0, test, 2, 0];
    let after = |kept: (u8, u32), boats: &[(u8, u32)]| {
        let mut lines = vec![line(0, 1, kept.0, kept.1, 1)];
        lines.extend(boats.iter().map(|boat| line(1, 2, boat.0, boat.1, 2)));
        record(3, &lines)
    };
    let day = after((2, 1), &[(1, 7), (1, 8), (2, 1), (2, 9), (3, 1)]);
    for (test, second, passed) in [
        (0x22, 3, [false, false, true, false, false]),
        (0x23, 1, [true, true, false, true, true]),
        (0x28, 4, [false, false, false, true, false]),
        (0x29, 1, [true, true, false, false, true]),
    ] {
        let pattern = then(test);
        let ask = ask(&day, &pattern, 0, 2);
        assert_eq!(finder.find(&ask)?, Some(&[0, second][..]));
        for (number, passed) in (1..).zip(passed) {
            assert_eq!(finder.check(&ask, &[0, number])?, passed);
        }
    }
    let foreign_last = after((1, 1), &[(1, 7), (1, 8), (2, 1)]);
    assert_eq!(foreign_last.find(&then(0x29), 0, 2)?, Some(vec![0, 3]));
    for test in [0x28, 0x29] {
        assert_eq!(
            after((0, 0), &[(0, 5), (1, 1)]).find(&then(test), 0, 2)?,
            None
        );
        assert_eq!(
            after((0, 5), &[(0, 0), (0, 5)]).find(&then(test), 0, 2)?,
            None
        );
    }
    Ok(())
}

/// From the lowest to the highest count of rounds, both allowed; a round may be empty, and has its
/// own boats.
#[test]
fn rounds_are_counted() -> Result<(), Refusal> {
    let mut finder = Finder::new();
    let day = record(1, &[line(0, 3, 1, 1, 0)]);
    let lap = [0x21, 3];
    let beside = [&[0x25][..], &rounds(2, 5, &lap), &rounds(3, 3, &lap)].concat();
    for (pattern, least, most) in [
        (rounds(2, 5, &lap), 2, 5),
        (rounds(0, 0, &lap), 0, 0),
        (rounds(1, 3, &NOTHING), 0, 0),
        (rounds(1, 3, &[0x24, 0x20, 0x21, 3]), 0, 3),
        (beside, 5, 8),
    ] {
        let question = ask(&day, &pattern, 0, 0);
        assert_eq!(finder.find(&question)?, Some(&vec![0; least][..]));
        for laps in 0..10 {
            let yes = (least..=most).contains(&laps);
            assert_eq!(finder.check(&question, &vec![0; laps])?, yes);
        }
    }
    let pattern = rounds(2, 2, &[0x27, 1, 0, 0x22, 1, 0]);
    assert!(t().check(&pattern, 0, 0, &[0, 0, 1, 1])?);
    assert!(!t().check(&pattern, 0, 0, &[0, 0, 0, 1])?);
    Ok(())
}

#[test]
fn rows_of_questions() {
    let mut finder = Finder::new();
    let number = |bytes: &[u8]| Record::from_bytes(bytes).map_err(Refusal::number);
    assert_eq!(number(&[1, 0, 0, 0]), Err(2));
    assert_eq!(number(&[1, 4, 1, 0]), Err(2));
    assert!(number(&[1, 4, 0, 0]).is_ok());
    assert_eq!(number(&[1, 0, 1]), Err(3));
    let e = e();
    let mut refused = |pattern: &[u8]| {
        finder
            .find(&ask(&e, pattern, 0, 0))
            .map(|found| found.map(<[u16]>::len))
            .map_err(Refusal::number)
    };
    assert_eq!(refused(&[]), Err(8));
    assert_eq!(refused(&[0x21]), Err(10));
    assert_eq!(refused(&[0x21, 0]), Err(11));
    assert_eq!(refused(&[0x22, 1, 0]), Err(12));
    for test in [0x28, 0x29] {
        assert_eq!(refused(&[test, 1]), Err(10));
        assert_eq!(refused(&[test, 1, 4]), Err(11));
        assert_eq!(refused(&[test, 1, 0]), Err(12));
        assert_eq!(refused(&[0x27, 1, 0, test, 1, 0]), Ok(None));
    }
    for byte in 0x2B..=0x2F {
        assert_eq!(refused(&[byte]), Err(8));
    }
    assert_eq!(refused(&[0x2A]), Err(10));
    assert_eq!(refused(&[0x2A, 1]), Err(10));
    assert_eq!(refused(&[0x2A, 0, 0]), Err(8));
    assert_eq!(refused(&[0x2A, 1, 0]), Err(24));
    assert_eq!(refused(&[0x2A, 0, 21]), Err(24));
    assert_eq!(refused(&twenties(40, &[0x20])), Err(25));
    assert_eq!(refused(&rounds(0, 0, &twenties(40, &[0x20]))), Ok(Some(0)));
    assert_eq!(refused(&[0x20, 0x20]), Err(14));
    assert_eq!(refused(&repeats(62, &[0x20])), Ok(Some(0)));
    assert_eq!(refused(&repeats(63, &[0x20])), Err(9));
}

#[test]
fn rows_of_the_largest_size() -> Result<(), Refusal> {
    let mut finder = Finder::new();
    let pattern = fifteen_commands();
    let (fits, over) = (boats(63), boats(64));
    assert_eq!(finder.find(&ask(&fits, &pattern, 0, 0))?, Some(&[0][..]));
    assert_eq!(finder.find(&ask(&fits, &pattern, 0, 1))?, None);
    assert_eq!(fits.search(&pattern, 0, 0)?.finish(), Some(vec![0]));
    assert_eq!(fits.search(&pattern, 0, 1)?.finish(), None);
    let starts = finder.starts(&ask_starts(&fits, &pattern, 0), &[1_023, 0])?;
    assert_eq!(starts, [None, Some(1)]);
    let question = ask(&over, &pattern, 0, 0);
    assert_eq!(finder.find(&question), Err(Refusal::SearchTooLarge));
    assert_eq!(finder.check(&question, &[0]), Err(Refusal::SearchTooLarge));
    let question = ask_starts(&over, &pattern, 0);
    for places in [&[][..], &[0, 1_023]] {
        let starts = finder.starts(&question, places);
        assert_eq!(starts, Err(Refusal::SearchTooLarge));
    }
    // A place that is not there is asked about before the size.
    let starts = finder.starts(&question, &[0, 1_024]);
    assert_eq!(starts, Err(Refusal::AskedPlaceNotThere));
    let question = ask(&over, &pattern, 0, 1_024);
    assert_eq!(finder.find(&question), Err(Refusal::AskedPlaceNotThere));
    Ok(())
}

/// A chain that is longer than any output so far: the library is asked twice, and the reply is
/// the chain all the same.
#[test]
fn outputs_grow() -> Result<(), Refusal> {
    let mut finder = Finder::new();
    let lap = record(1, &[line(0, 1, 1, 1, 0)]);
    for laps in [3, 31, 7, 16] {
        let mut pattern = [0x25, 0x21, 1].repeat(laps - 1);
        pattern.extend([0x21, 1]);
        let found = finder.find(&ask(&lap, &pattern, 0, 0))?;
        assert_eq!(found, Some(&vec![0; laps][..]));
        let search = lap.search(&pattern, 0, 0)?;
        assert_eq!(search.finish(), Some(vec![0; laps]));
    }
    Ok(())
}

/// The chain that was found goes to the same finder's check, and so do its neighbours.
#[test]
fn chains_go_back_to_the_finder() -> Result<(), Refusal> {
    let mut finder = Finder::new();
    let day = r();
    let question = Question::about(&day, &P, 0, 3);
    let chain = finder.find_owned(&question)?.expect("1 2 5");
    assert_eq!(finder.find(&question)?, Some(&chain[..]));
    assert!(finder.check(&question, &chain)?);
    assert!(!finder.check(&question, &chain[1..])?);
    let none = Question::about(&day, &P, 3, 0);
    assert_eq!(finder.find_owned(&none)?, None);
    assert!(!finder.check(&none, &chain)?);
    Ok(())
}

/// A record is asked directly, whichever it is, and its bytes are.
#[test]
fn records_are_asked() -> Result<(), Refusal> {
    let day = r();
    let mut buffer = day.bytes().to_vec();
    let length = buffer.len();
    let bytes = buffer.clone();
    let given = RecordIn::open(&mut buffer, length)?;
    let chain = vec![1, 2, 5];
    assert_eq!(day.find(&P, 0, 3)?, Some(chain.clone()));
    assert_eq!(given.find(&P, 0, 3)?, Some(chain.clone()));
    assert_eq!((day.find(&P, 3, 0)?, given.find(&P, 3, 0)?), (None, None));
    assert!(day.check(&P, 0, 3, &chain)? && given.check(&P, 0, 3, &chain)?);
    assert!(!day.check(&P, 0, 3, &[0, 2, 5])? && !given.check(&P, 0, 3, &[])?);
    let missing = Err(Refusal::LineNotThere);
    assert_eq!(day.check(&P, 0, 3, &[7]), missing);
    assert_eq!(given.check(&P, 0, 3, &[7]), missing);
    assert_eq!(day.starts(&P, &[3, 0], 3)?, [None, Some(3)]);
    assert_eq!(given.starts(&P, &[3, 0], 3)?, [None, Some(3)]);
    let nowhere = Err(Refusal::AskedPlaceNotThere);
    assert_eq!(day.starts(&P, &[0, 4], 3), nowhere);
    assert_eq!(given.starts(&P, &[], 4), nowhere);

    let question = ask(&day, &P, 0, 3);
    assert_eq!(Question::about(&day, &P, 0, 3), question);
    assert_eq!(Question::about(&given, &P, 0, 3), question);
    assert_eq!(Question::about(&bytes, &P, 0, 3), question);
    assert_eq!(Question::about(&bytes[..], &P, 0, 3), question);
    let question = ask_starts(&day, &P, 3);
    assert_eq!(StartsQuestion::about(&day, &P, 3), question);
    assert_eq!(StartsQuestion::about(&given, &P, 3), question);
    assert_eq!(StartsQuestion::about(&bytes, &P, 3), question);
    assert_eq!(StartsQuestion::about(&bytes[..], &P, 3), question);
    Ok(())
}

#[test]
fn patterns_are_counted() -> Result<(), Refusal> {
    let counts = |pattern: &[u8]| read_pattern(pattern).map(|c| (c.commands, c.keeps, c.unfolded));
    assert_eq!(counts(&P)?, (7, 1, 7));
    assert_eq!(counts(&S)?, (5, 2, 5));
    assert_eq!(counts(&NOTHING)?, (1, 0, 1));
    assert_eq!(counts(&repeats(62, &NOTHING))?, (63, 0, 63));
    assert_eq!(counts(&fifteen_commands())?, (15, 1, 15));
    assert_eq!(counts(&rounds(2, 5, &P))?, (8, 1, 36));
    assert_eq!(counts(&rounds(0, 0, &S))?, (6, 2, 1));
    let most = repeats(2, &rounds(0, 20, &[0x24, 0x20, 0x20]));
    assert_eq!(counts(&most)?, (6, 0, 63));
    let none = rounds(0, 0, &twenties(40, &NOTHING));
    assert_eq!(counts(&none)?, (42, 0, 1));
    Ok(())
}

/// Boats and reads: each line is held against the earlier ones, from line 0 on.
#[test]
fn boats_are_counted() -> Result<(), Refusal> {
    let counts = |record: &[u8]| count_boats(record).map(|count| (count.boats, count.reads));
    let of = |boats: &[(u8, u32)]| {
        let lines: Vec<Line> = boats.iter().map(|b| line(0, 1, b.0, b.1, 0)).collect();
        record(1, &lines).into_bytes()
    };
    let (a, b, c, unread) = ((1, 7), (1, 8), (2, 7), (0, 0));
    assert_eq!(counts(&of(&[]))?, (0, 0));
    assert_eq!(counts(&of(&[a]))?, (1, 0));
    assert_eq!(counts(&of(&[a, a, b, a]))?, (2, 4));
    assert_eq!(counts(&of(&[a, b, c]))?, (3, 3));
    assert_eq!(counts(&of(&[a, b, b, b]))?, (2, 5));
    assert_eq!(counts(&of(&[a, b, a, b]))?, (2, 4));
    assert_eq!(counts(&of(&[a, a, a, c, c]))?, (2, 9));
    assert_eq!(counts(&of(&[a, c, a, c]))?, (2, 4));
    assert_eq!(counts(&of(&[unread, a, unread, unread]))?, (2, 3));
    assert_eq!(counts(&of(&[a; 9]))?, (1, 8));
    assert_eq!(counts(r().bytes())?, (3, 13));
    assert_eq!(counts(e().bytes())?, (0, 0));

    // As many lines as there can be: of one boat, and each of a boat of its own.
    assert_eq!(counts(&of(&[a; 4_096]))?, (1, 4_095));
    let different: Vec<(u8, u32)> = (0..4_096).map(|sail| (1, sail)).collect();
    let different = of(&different);
    assert_eq!(counts(&different)?, (4_096, 8_386_560));

    // A record in a buffer of the caller's is counted in the same way.
    let mut buffer = different;
    buffer.extend([7; 9]);
    let length = buffer.len() - 9;
    let given = RecordIn::open(&mut buffer, length)?;
    assert_eq!(counts(given.bytes())?, (4_096, 8_386_560));
    Ok(())
}

/// The library that is linked is of this crate's version.
#[test]
fn versions_agree() {
    let number = |text: &str| text.parse::<u64>().expect("a number");
    let crate_version = number(env!("CARGO_PKG_VERSION_MAJOR")) * 1_000_000
        + number(env!("CARGO_PKG_VERSION_MINOR")) * 1_000
        + number(env!("CARGO_PKG_VERSION_PATCH"));
    assert_eq!(version(), crate_version);
}

/// Going over a record's lines gives what the library gives for each number.
#[test]
fn lines_are_the_librarys() -> Result<(), Refusal> {
    // Every field with bytes that differ, so that none can stand for another.
    let far = line(258, 15, 255, 0x00FE_DCBA, 1_023);
    let near = line(1_023, 1, 0, 1, 258);
    let mut many = Vec::new();
    for number in 0..200 {
        many.push(line(
            number,
            1 + (number % 15) as u8,
            number as u8,
            u32::from(number) << 13,
            1_023 - number,
        ));
    }
    for day in [
        r(),
        t(),
        e(),
        record(1_024, &[far, near]),
        record(1_024, &many),
    ] {
        let read: Result<Vec<Line>, Refusal> = (0..day.line_count()).map(|n| day.line(n)).collect();
        let read = read?;
        assert_eq!(day.lines().len(), read.len());
        assert_eq!(day.lines().collect::<Vec<Line>>(), read);
        let last_first: Vec<Line> = day.lines().rev().collect();
        assert!(last_first.iter().eq(read.iter().rev()));
        for (number, line) in read.iter().enumerate() {
            assert_eq!(day.lines().nth(number), Some(*line));
        }
        assert_eq!(day.lines().nth(read.len()), None);
        // The same record in a longer buffer.
        let mut buffer = [day.bytes(), &[0xA5; 20]].concat();
        let given = RecordIn::open(&mut buffer, day.bytes().len())?;
        assert_eq!(given.lines().collect::<Vec<Line>>(), read);
    }
    Ok(())
}

#[test]
fn records_are_read_back() -> Result<(), Refusal> {
    let r = r();
    assert_eq!(r.line_count(), 7);
    assert_eq!(r.lines().collect::<Vec<Line>>(), lines_of_r());
    assert_eq!(Record::from_bytes(r.bytes())?, r);

    let mut buffer = [0xA5; 80];
    let mut given = RecordIn::begin(&mut buffer, 4)?;
    for line in lines_of_r() {
        given.add(line)?;
    }
    assert_eq!(given.bytes(), r.bytes());
    assert_eq!(given.line_count(), 7);
    assert_eq!(given.line(5)?, lines_of_r()[5]);
    assert_eq!(given.add(line(0, 1, 1, 1, 1)), Err(Refusal::BufferTooSmall));
    assert_eq!(given.bytes(), r.bytes());
    assert_eq!(buffer[74..], [0xA5; 6]);
    let given = RecordIn::open(&mut buffer, 74)?;
    assert_eq!(given.line_count(), 7);
    Ok(())
}

/// The files of the worked day are record R, places 0 and 3, and pattern P.
#[test]
fn files_of_the_worked_day() {
    let day = include_bytes!("../../examples/day/day.rec");
    let ask = include_bytes!("../../examples/day/ask.pat");
    assert_eq!(&day[..], r().bytes());
    assert_eq!(ask[..4], [0, 0, 0, 3]);
    assert_eq!(ask[4..], P);
}
