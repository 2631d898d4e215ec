//! Windows of the day: the reply is that for the record with only the lines inside, numbered as in
//! the whole record; windows of the whole day change nothing; and every line is read back as it was
//! added.

use reference::chains::Asked;
use reference::generator::{new_line, request, request_of_several, Request};
use reference::library::{fields_of, Library, Own};
use reference::random::Random;
use reference::record::{add, read_line, read_record, written, Line, Record, DAY, MOST_LINES};
use reference::request::{ask, check, find, starts, Ask, CheckReply, FindReply, LARGEST};
use reference::search::begin;
use reference::windows::{Window, Windows, KINDS, WHOLE_DAY};

const ENOUGH: usize = 4 * LARGEST as usize + 8_192;

fn requests(seed: u64, count: usize) -> impl Iterator<Item = Request> {
    let mut random = Random::new(seed);
    (0..count).map(move |number| match number % 2 {
        0 => request(&mut random),
        _ => request_of_several(&mut random),
    })
}

/// The numbers of the lines inside.
fn inside(asked: &Asked) -> Vec<u16> {
    let numbers = 0..asked.record.lines.len() as u16;
    numbers.filter(|&n| asked.inside[n as usize]).collect()
}

/// The record with only those lines.
fn thinned(asked: &Asked) -> Record {
    let lines = inside(asked).into_iter();
    Record {
        places: asked.record.places,
        lines: lines.map(|n| asked.record.lines[n as usize]).collect(),
    }
}

#[test]
fn the_finder_goes_by_the_lines_inside() {
    let (mut found, mut none, mut moved) = (0, 0, 0);
    for r in requests(41, 12_000) {
        let Ok(asked) = ask(r.ask(), ENOUGH) else {
            continue;
        };
        let (numbers, fewer) = (inside(&asked), thinned(&asked));
        if numbers.len() == asked.inside.len() {
            continue;
        }
        let rec = written(fewer.places, &fewer.lines);
        let plain = Ask {
            rec: &rec,
            options: None,
            ..r.ask()
        };
        let told = find(r.ask(), ENOUGH, usize::MAX);
        match find(plain, ENOUGH, usize::MAX) {
            FindReply::Found(chain) => {
                let chain: Vec<u16> = chain.iter().map(|&n| numbers[n as usize]).collect();
                moved += chain.iter().any(|&n| numbers[0] != 0 && n > 0) as usize;
                assert_eq!(told, FindReply::Found(chain));
                found += 1;
            }
            other => {
                assert_eq!(told, other);
                none += 1;
            }
        }
    }
    println!("{found} found, {none} none, {moved} with other numbers");
    assert!(found > 1_500 && none > 1_000 && moved > 300);
}

#[test]
fn the_checker_goes_by_the_lines_inside() {
    let (mut yes, mut no, mut by_window) = (0, 0, 0);
    for r in requests(42, 20_000) {
        let Ok(asked) = ask(r.ask(), ENOUGH) else {
            continue;
        };
        let lines = asked.record.lines.len();
        let told = check(r.ask(), &r.chain, ENOUGH);
        if r.chain.iter().any(|&n| n as usize >= lines) {
            assert_eq!(told, CheckReply::Refused(18));
            continue;
        }
        let plain = Ask {
            options: None,
            ..r.ask()
        };
        let without = check(plain, &r.chain, ENOUGH);
        let expected = match asked.is_inside(&r.chain) {
            true => without.clone(),
            false => CheckReply::No,
        };
        assert_eq!(told, expected);
        by_window += (told != without) as usize;
        match told {
            CheckReply::Yes => yes += 1,
            _ => no += 1,
        }
    }
    println!("{yes} yes, {no} no, {by_window} no by a window");
    assert!(yes > 4_000 && no > 4_000 && by_window > 300);
}

#[test]
fn whole_days_change_nothing() {
    let whole = [0, DAY].repeat(KINDS);
    let mut answered = 0;
    for r in requests(43, 4_000) {
        let plain = Ask {
            options: None,
            ..r.ask()
        };
        for options in [&whole[..], &[], &[0], &whole[..7]] {
            let given = Ask {
                options: Some(options),
                ..plain
            };
            assert_eq!(
                find(given, r.work_len, usize::MAX),
                find(plain, r.work_len, usize::MAX)
            );
            assert_eq!(
                check(given, &r.chain, r.work_len),
                check(plain, &r.chain, r.work_len)
            );
            if r.work_len < 60_000 {
                assert_eq!(begin(given, r.work_len), begin(plain, r.work_len));
            }
            let list = |options| {
                let list = [r.from, r.to];
                let listed = reference::library::Listed {
                    options,
                    ..r.listed(&list)
                };
                starts(listed, r.work_len, 2)
            };
            assert_eq!(list(Some(options)), list(None));
        }
        answered += ask(plain, r.work_len).is_ok() as usize;
    }
    assert!(answered > 2_000, "{answered}");
}

/// Inside is from the opening second to the one before the closing one, for every time and window
/// near an edge.
#[test]
fn windows_second_by_second() {
    let seconds: Vec<u32> = (0..5).chain(86_396..86_404).chain([u32::MAX]).collect();
    let mut passed = 0;
    for &open in &seconds {
        for &close in &seconds {
            let window = Window { open, close };
            let second = |time: u32| (open..close).contains(&time);
            assert_eq!(
                window.passes(),
                (open..close).next().is_some() && (open..close).end <= DAY
            );
            if !window.passes() {
                continue;
            }
            passed += 1;
            for &time in seconds.iter().filter(|&&time| time < DAY) {
                assert_eq!(window.has(Some(time)), second(time));
            }
            assert_eq!(window.has(None), window == WHOLE_DAY);
            let all_inside = second(0) && second(DAY - 1);
            assert_eq!(window.has(None), all_inside);
        }
    }
    assert!(passed > 30, "{passed}");
}

/// Options of every length: the words of a kind are at twice its number, from kind 1 on.
#[test]
fn options_are_read_in_pairs() {
    let words: Vec<u32> = (0..40).collect();
    for length in 0..=words.len() {
        let windows = Windows::of(Some(&words[..length]));
        for kind in 1..=15u8 {
            let at = 2 * (kind as usize - 1);
            let expected = match words[..length].get(at..at + 2) {
                Some(two) => Window {
                    open: two[0],
                    close: two[1],
                },
                None => WHOLE_DAY,
            };
            assert_eq!(windows.of_kind(kind), expected);
        }
    }
    assert_eq!(Windows::of(None), Windows::of(Some(&[])));
}

/// What is added is read back: lines, times and none; and the record is the one that has been
/// written, whatever was there before.
#[test]
fn lines_are_read_back() {
    let mut random = Random::new(44);
    let (mut timed, mut untimed, mut refused) = (0, 0, 0);
    for _ in 0..400 {
        let mut lines: Vec<Line> = Vec::new();
        let mut buf = written(3, &[]);
        let mut len = buf.len();
        buf.resize(600, 0xA5);
        for _ in 0..30 {
            let new = new_line(&mut random, 3);
            match add(&buf, len, new) {
                Ok((longer, after)) => {
                    assert_eq!(longer, len + new.bytes().len());
                    assert_eq!(after[longer..], buf[longer..]);
                    (buf, len) = (after, longer);
                    lines.push(new);
                }
                Err(number) => {
                    assert!([5, 6, 21, 23, 28].contains(&number));
                    refused += 1;
                }
            }
        }
        let record = read_record(&buf[..len]).expect("it passes");
        assert_eq!(record.lines, lines);
        assert_eq!(buf[..len], written(3, &lines));
        for (number, line) in lines.iter().enumerate() {
            assert_eq!(read_line(&buf[..len], number as u16), Ok(*line));
            let mut fields = [9; 7];
            let said = Own.read(&buf[..len], number as u16, &mut fields) as usize;
            assert_eq!(fields[..said], fields_of(line));
            assert!(fields[said..].iter().all(|&field| field == 9));
            match line.time {
                Some(_) => timed += 1,
                None => untimed += 1,
            }
        }
    }
    println!("{timed} timed, {untimed} untimed, {refused} refused");
    assert!(timed > 2_000 && untimed > 2_000 && refused > 1_000);
}

/// As many lines as there can be, whatever their widths, and one more.
#[test]
fn records_of_every_width() {
    let line = request_line();
    for timed in [0, 1, 2, 2_048, 4_095, 4_096] {
        let mut lines = vec![line; MOST_LINES];
        lines[..timed].fill(line.at(5));
        let full = written(1, &lines);
        assert_eq!(full.len(), 40_964 + 4 * timed);
        assert_eq!(read_record(&full).map(|record| record.lines), Ok(lines));
        for command in [2, 3] {
            let mut over = full.clone();
            over[40_963 + 4 * timed] = command;
            assert_eq!(read_record(&over), Err(22));
        }
    }
}

fn request_line() -> Line {
    Line {
        from: 0,
        kind: 1,
        class: 1,
        sail: 7,
        to: 0,
        time: None,
    }
}
