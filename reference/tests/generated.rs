//! The random requests meet every question and every reply, and are what they are meant to be.

use reference::chains::search;
use reference::generator::{counted_day, request, Room};
use reference::library::{Ask, Library, Listed, Own};
use reference::membership::compared;
use reference::pattern::{Node, Rule};
use reference::random::Random;
use reference::record::{count_boats, read_record, written, Boat, Line, DAY, UNREAD};
use reference::request::{ask, shortest, NO_CHAIN};
use reference::rounds::{self, Round};
use reference::windows::{Window, Windows, WHOLE_DAY};
use std::cell::RefCell;
use std::collections::{BTreeMap, BTreeSet};

fn tally(round: Round, seed: u64, count: usize) -> BTreeMap<u64, usize> {
    let mut random = Random::new(seed);
    let mut seen = BTreeMap::new();
    for _ in 0..count {
        for reply in round(&Own, &mut random).expect("compared with itself") {
            *seen.entry(reply >> 32).or_insert(0) += 1;
        }
    }
    seen
}

fn all_met(seen: &BTreeMap<u64, usize>, questions: impl IntoIterator<Item = u64>) {
    for question in questions {
        assert!(seen.contains_key(&question), "{question} missing: {seen:?}");
    }
}

#[test]
fn every_question_is_met() {
    let of_both = (0..=14).chain([16, 18, 22, 24, 25, 28]);
    all_met(&tally(rounds::bytes, 1, 15_000), of_both);
    all_met(
        &tally(rounds::writes, 2, 8_000),
        [0, 1, 2, 3, 4, 5, 6, 7, 18, 20, 21, 22, 23, 28],
    );
    let of_check = (2..=18).chain([0, 22, 24, 25, 27, 28]);
    all_met(&tally(rounds::check, 3, 20_000), of_check);
    let of_find = (2..=17).chain([0, 19, 22, 24, 25, 27, 28]);
    all_met(&tally(rounds::find, 4, 20_000), of_find);
    all_met(&tally(rounds::boats, 5, 4_000), (0..=7).chain([22, 28]));
    let of_search = (2..=17).chain([0, 19, 22, 24, 25, 26, 27, 28]);
    all_met(&tally(rounds::search, 6, 10_000), of_search);
    let of_starts = (2..=17).chain([0, 19, 22, 24, 25, 27, 28]);
    all_met(&tally(rounds::starts, 7, 15_000), of_starts);
}

#[test]
fn replies_are_mixed() {
    let mut random = Random::new(5);
    let (mut yes, mut no, mut found, mut none) = (0, 0, 0, 0);
    for _ in 0..4_000 {
        match rounds::check(&Own, &mut random).expect("same")[0] {
            1 => yes += 1,
            0 => no += 1,
            _ => {}
        }
        match rounds::find(&Own, &mut random).expect("same")[0] {
            NO_CHAIN => none += 1,
            reply if reply < NO_CHAIN => found += 1,
            _ => {}
        }
    }
    println!("{yes} yes, {no} no, {found} found, {none} none");
    assert!(yes > 800 && no > 800 && found > 800 && none > 200);
}

#[test]
fn chains_are_long_and_outputs_tight() {
    let mut random = Random::new(6);
    let (mut beyond_places, mut exact, mut short, mut again) = (0, 0, 0, 0);
    for _ in 0..6_000 {
        let r = request(&mut random);
        let Ok(Some(chain)) = shortest(r.ask(), r.work_len) else {
            continue;
        };
        let record = read_record(&r.rec).expect("it passed");
        beyond_places += (chain.len() > record.places as usize) as usize;
        let mut once = chain.clone();
        once.sort_unstable();
        once.dedup();
        again += (once.len() < chain.len()) as usize;
        exact += matches!(r.room, Room::Exact) as usize;
        short += (matches!(r.room, Room::OneShort) && !chain.is_empty()) as usize;
    }
    println!("{beyond_places} longer than places, {again} with a line again, {exact} exact, {short} short");
    assert!(beyond_places > 300 && again > 100 && exact > 500 && short > 200);
}

/// Days with unread numbers and without; in those with some, about a third of the lines; class 0
/// and number 0 alone; and many replies that another boat in their place would change.
#[test]
fn unread_numbers_are_met() {
    let mut random = Random::new(8);
    let (mut with, mut without, mut lines, mut unread) = (0, 0, 0, 0);
    let (mut class_0, mut number_0, mut changed) = (0, 0, 0);
    for _ in 0..12_000 {
        let r = request(&mut random);
        let Ok(mut record) = read_record(&r.rec) else {
            continue;
        };
        let boats = record.lines.iter().map(|line| line.boat());
        class_0 += boats.clone().any(|b| b.class == 0 && b.sail != 0) as usize;
        number_0 += boats.clone().any(|b| b.class != 0 && b.sail == 0) as usize;
        let count = boats.filter(|boat| *boat == UNREAD).count();
        if count == 0 {
            without += !record.lines.is_empty() as usize;
            continue;
        }
        with += 1;
        lines += record.lines.len();
        unread += count;
        for line in record.lines.iter_mut().filter(|l| l.boat() == UNREAD) {
            (line.class, line.sail) = (9, 9);
        }
        let renamed = written(record.places, &record.lines);
        let first = |rec: &[u8]| shortest(Ask { rec, ..r.ask() }, r.work_len);
        changed += (first(&r.rec) != first(&renamed)) as usize;
    }
    println!("{with} days with {unread} unread of {lines} lines, {without} without; {class_0} with class 0, {number_0} with number 0; {changed} replies changed");
    assert!(with > 2_500 && without > 3_300);
    assert!(4 * unread > lines && 2 * unread < lines);
    assert!(class_0 > 1_000 && number_0 > 1_000 && changed > 150);
}

/// Days whose boats are counted: with none, one, few and many of them, with boats that come again,
/// unread ones, one number in several classes, and reads beyond 16 bits.
#[test]
fn boats_to_count_are_met() {
    let mut random = Random::new(10);
    let (mut none, mut one, mut few, mut many, mut again) = (0, 0, 0, 0, 0);
    let (mut unread, mut classes, mut refused, mut far) = (0, 0, 0, 0);
    for _ in 0..4_000 {
        let Ok(day) = read_record(&counted_day(&mut random)) else {
            refused += 1;
            continue;
        };
        let count = count_boats(&day.lines);
        let different: BTreeSet<Boat> = day.lines.iter().map(Line::boat).collect();
        assert_eq!(count.boats, different.len());
        let sails: BTreeSet<u32> = different.iter().map(|boat| boat.sail).collect();
        none += (count.boats == 0) as usize;
        one += (count.boats == 1) as usize;
        few += (2..=5).contains(&count.boats) as usize;
        many += (count.boats > 20) as usize;
        again += (count.boats < day.lines.len()) as usize;
        unread += different.contains(&UNREAD) as usize;
        classes += (sails.len() < different.len()) as usize;
        far += (count.reads > 65_535) as usize;
    }
    println!("{none} days with no boat, {one} with one, {few} with few, {many} with many, {again} with one again, {unread} with unread ones, {classes} with a number in several classes, {far} with many reads; {refused} refused");
    assert!(none > 150 && one > 400 && few > 800 && many > 100 && again > 1_200);
    assert!(unread > 1_000 && classes > 800 && refused > 400 && far > 20);
}

/// This program, and how often it was asked what about searches and lists of starts.
#[derive(Default)]
struct Watched(RefCell<BTreeMap<String, usize>>);

impl Watched {
    fn met(&self, what: String) {
        *self.0.borrow_mut().entry(what).or_insert(0) += 1;
    }

    fn count(&self, what: &str) -> usize {
        self.0.borrow().get(what).copied().unwrap_or(0)
    }
}

#[rustfmt::skip]
impl Library for Watched {
    fn begin(&self, buf: &mut [u8], places: u16) -> u64 { Own.begin(buf, places) }
    fn add(&self, buf: &mut [u8], len: usize, line: Line) -> u64 {
        self.met("a line added".to_string());
        Own.add(buf, len, line)
    }
    fn read(&self, rec: &[u8], number: u16, fields: &mut [u32]) -> u64 { Own.read(rec, number, fields) }
    fn pattern(&self, pat: &[u8], counts: &mut [u32]) -> u64 { Own.pattern(pat, counts) }
    fn boats(&self, rec: &[u8], counts: &mut [u32]) -> u64 { Own.boats(rec, counts) }
    fn words(&self, rec: &[u8], pat: &[u8]) -> u64 { Own.words(rec, pat) }
    fn check(&self, ask: Ask, chain: &[u16], work: &mut [u32]) -> u64 { Own.check(ask, chain, work) }
    fn find(&self, ask: Ask, work: &mut [u32], out: &mut [u16]) -> u64 { Own.find(ask, work, out) }
    fn search_words(&self, rec: &[u8], pat: &[u8]) -> u64 { Own.search_words(rec, pat) }
    fn search_begin(&self, ask: Ask, work: &mut [u32]) -> u64 {
        let needed = Own.search_words(ask.rec, ask.pat);
        let reply = Own.search_begin(ask, work);
        if reply == 0 {
            let exact = work.len() as u64 == needed;
            self.met(format!("begun, {}", if exact { "exact" } else { "longer" }));
        } else if work.len() as u64 + 1 == needed {
            self.met("one word short".to_string());
        }
        reply
    }
    fn search_move(&self, work: &mut [u32], amount: usize) -> u64 {
        let phase = work.get(5).copied().unwrap_or(0);
        let reply = Own.search_move(work, amount);
        match reply {
            _ if reply >> 32 != 0 => self.met("26 for a move".to_string()),
            0 if amount == 0 => self.met("no amount".to_string()),
            0 => self.met("at the end".to_string()),
            taken if taken < amount as u64 => self.met(format!("phase {phase}, all that was left")),
            _ => self.met(format!("phase {phase}, the amount")),
        }
        if (21..1 << 32).contains(&reply) {
            self.met("many states".to_string());
        }
        reply
    }
    fn search_finish(&self, work: &mut [u32], out: &mut [u16]) -> u64 {
        let phase = work.get(5).copied().unwrap_or(0);
        let reply = Own.search_finish(work, out);
        match (reply, reply >> 32) {
            (NO_CHAIN, _) => self.met(format!("phase {phase}, none")),
            (_, 0) if reply == out.len() as u64 => self.met(format!("phase {phase}, exact")),
            (_, 0) => self.met(format!("phase {phase}, longer")),
            (_, number) => self.met(format!("{number} for a finish")),
        }
        reply
    }
    fn starts(&self, listed: Listed, work: &mut [u32], lengths: &mut [u32]) -> u64 {
        let reply = Own.starts(listed, work, lengths);
        let count = listed.starts.len();
        match reply >> 32 {
            0 => self.told(listed, lengths),
            15 => self.missing(listed),
            17 if lengths.len() < count => self.met("17 and too few entries".to_string()),
            19 if lengths.len() + 1 == count => self.met("one entry short".to_string()),
            _ => {}
        }
        reply
    }
}

impl Watched {
    /// What the answered lists were, and their lengths.
    fn told(&self, listed: Listed, lengths: &[u32]) {
        let (starts, count) = (listed.starts, listed.starts.len());
        let places = read_record(listed.rec).expect("it passed").places;
        let different: BTreeSet<u16> = starts.iter().copied().collect();
        let told: BTreeSet<u32> = lengths[..count].iter().copied().collect();
        let found: BTreeSet<u32> = told.iter().copied().filter(|&n| n != u32::MAX).collect();
        for (what, met) in [
            ("no place", count == 0),
            ("one place", count == 1),
            (
                "all of several places",
                different.len() > 1 && different.len() == places as usize,
            ),
            ("a place again", different.len() < count),
            (
                "downward",
                count > 1 && starts.windows(2).all(|two| two[0] > two[1]),
            ),
            (
                "neither upward nor downward",
                !starts.is_sorted() && !starts.iter().rev().is_sorted(),
            ),
            ("more than 16 bits count", count > 65_535),
            ("entries that fit", lengths.len() == count),
            ("more entries", lengths.len() > count),
            ("several lengths", found.len() > 1),
            (
                "a length and none",
                !found.is_empty() && told.contains(&u32::MAX),
            ),
            ("no lines", found.contains(&0)),
            (
                "more lines than places",
                found.iter().any(|&n| n > places as u32),
            ),
            (
                "a line at the finish",
                starts
                    .iter()
                    .zip(lengths)
                    .any(|(&start, &n)| start == listed.to && n != 0 && n != u32::MAX),
            ),
        ] {
            if met {
                self.met(what.to_string());
            }
        }
    }

    /// Which places of a list were not there.
    fn missing(&self, listed: Listed) {
        let places = read_record(listed.rec).expect("it passed").places;
        let finish = listed.to >= places;
        let at = listed.starts.iter().position(|&start| start >= places);
        let what = match at {
            None if listed.starts.is_empty() => "the finish of no place is missing",
            None => "the finish alone is missing",
            Some(_) if finish => return,
            Some(0) => "the first is missing",
            Some(at) if at + 1 == listed.starts.len() => "the last alone is missing",
            Some(_) => "one between is missing",
        };
        self.met(what.to_string());
    }
}

/// Searches begin in areas that fit and that are longer, are moved on and finished in every phase,
/// by amounts that are taken up whole and such that are not, and lines are added meanwhile.
#[test]
fn searches_are_met() {
    let watched = Watched::default();
    let mut random = Random::new(11);
    for _ in 0..8_000 {
        rounds::search(&watched, &mut random).expect("same");
    }
    println!("{:?}", watched.0.borrow());
    for (what, least) in [
        ("begun, exact", 2_000),
        ("begun, longer", 1_000),
        ("one word short", 300),
        ("a line added", 1_000),
        ("no amount", 500),
        ("at the end", 3_000),
        ("phase 0, the amount", 3_000),
        ("phase 0, all that was left", 500),
        ("phase 1, the amount", 2_000),
        ("phase 1, all that was left", 100),
        ("many states", 100),
        ("26 for a move", 4_000),
        ("26 for a finish", 4_000),
        ("19 for a finish", 500),
        ("phase 0, exact", 150),
        ("phase 0, longer", 150),
        ("phase 0, none", 100),
        ("phase 1, exact", 1_000),
        ("phase 1, longer", 500),
        ("phase 2, none", 300),
    ] {
        assert!(
            watched.count(what) > least,
            "{what}: {}",
            watched.count(what)
        );
    }
}

/// Lists are empty, of one place, of all and with repeats, in every order; places are missing at
/// either end and at the finish; and lengths differ, are none, and are 0.
#[test]
fn lists_are_met() {
    let watched = Watched::default();
    let mut random = Random::new(12);
    for _ in 0..8_000 {
        rounds::starts(&watched, &mut random).expect("same");
    }
    println!("{:?}", watched.0.borrow());
    for (what, least) in [
        ("no place", 300),
        ("one place", 400),
        ("all of several places", 600),
        ("a place again", 600),
        ("downward", 200),
        ("neither upward nor downward", 600),
        ("more than 16 bits count", 5),
        ("the first is missing", 150),
        ("the last alone is missing", 120),
        ("one between is missing", 40),
        ("the finish alone is missing", 40),
        ("the finish of no place is missing", 5),
        ("17 and too few entries", 120),
        ("one entry short", 600),
        ("entries that fit", 1_000),
        ("more entries", 700),
        ("several lengths", 250),
        ("a length and none", 600),
        ("no lines", 400),
        ("more lines than places", 90),
        ("a line at the finish", 400),
    ] {
        assert!(
            watched.count(what) > least,
            "{what}: {}",
            watched.count(what)
        );
    }
}

/// Days have timed lines, others, and both; questions have options of every length and none; times
/// are at every edge of their windows, and both edges decide replies; windows fail that are used and
/// that are not; and untimed lines are inside and outside.
#[test]
fn windows_are_met() {
    let mut random = Random::new(13);
    let mut seen: BTreeMap<&str, usize> = BTreeMap::new();
    let mut lengths = BTreeSet::new();
    for _ in 0..12_000 {
        let r = request(&mut random);
        lengths.extend(r.options.as_ref().map(Vec::len));
        let mut met = |what: &'static str, is: bool| *seen.entry(what).or_insert(0) += is as usize;
        met("no options", r.options.is_none());
        let windows = Windows::of(r.options.as_deref());
        let Ok(record) = read_record(&r.rec) else {
            continue;
        };
        let times = || record.lines.iter().map(|line| line.time);
        met("all timed", times().all(|time| time.is_some()));
        met("none timed", times().all(|time| time.is_none()));
        met(
            "some timed",
            times().any(|t| t.is_some()) && times().any(|t| t.is_none()),
        );
        if !windows.pass() {
            let fails = |line: &Line| !windows.of_kind(line.kind).passes();
            let used = record.lines.iter().any(fails);
            met("27 of a kind of the record", used);
            met("27 of another kind", !used);
            continue;
        }
        for line in record.lines.iter().take(60) {
            let Window { open, close } = windows.of_kind(line.kind);
            let whole = windows.of_kind(line.kind) == WHOLE_DAY;
            let Some(time) = line.time else {
                met("untimed, inside", whole);
                met("untimed, outside", !whole);
                continue;
            };
            met("one before it opens", time + 1 == open);
            met("as it opens", time == open && open > 0);
            met("one before it closes", time + 1 == close && close < DAY);
            met("as it closes", time == close);
            met("at 0", time == 0);
            met("at the end of the day", time == DAY - 1);
        }
        let Ok(mut asked) = ask(r.ask(), r.work_len) else {
            continue;
        };
        let first = search(&asked);
        let outside = asked.inside.iter().filter(|&&inside| !inside).count();
        met("lines outside", outside > 0);
        met("found beside lines outside", outside > 0 && first.is_some());
        let moved = |open: u32, close: u32| -> Vec<bool> {
            let lines = record.lines.iter();
            lines
                .map(|line| {
                    let window = windows.of_kind(line.kind);
                    let other = Window {
                        open: window.open + open,
                        close: window.close + close,
                    };
                    match line.time {
                        Some(_) => other.has(line.time),
                        None => window.has(None),
                    }
                })
                .collect()
        };
        let mut decides = |what: &'static str, inside: Vec<bool>| {
            asked.inside = inside;
            met(what, search(&asked) != first);
        };
        decides("the windows decide", vec![true; record.lines.len()]);
        decides("the opening second decides", moved(1, 0));
        decides("the closing second decides", moved(0, 1));
    }
    println!("{seen:?}");
    assert_eq!(lengths, (0..=34).collect());
    for (what, least) in [
        ("no options", 2_000),
        ("all timed", 1_000),
        ("none timed", 2_000),
        ("some timed", 4_000),
        ("27 of a kind of the record", 150),
        ("27 of another kind", 100),
        ("untimed, inside", 10_000),
        ("untimed, outside", 10_000),
        ("one before it opens", 500),
        ("as it opens", 1_000),
        ("one before it closes", 1_000),
        ("as it closes", 500),
        ("at 0", 3_000),
        ("at the end of the day", 3_000),
        ("lines outside", 2_500),
        ("found beside lines outside", 1_500),
        ("the windows decide", 800),
        ("the opening second decides", 300),
        ("the closing second decides", 120),
    ] {
        assert!(seen[what] > least, "{what}: {}", seen[what]);
    }
}

/// The pattern with one of its tests in place of another.
fn retested(node: &Node, from: Rule, to: Rule) -> Node {
    let inside = |node: &Node| Box::new(retested(node, from, to));
    match node {
        Node::Test { rule, kind, slot } if *rule == from => Node::Test {
            rule: to,
            kind: *kind,
            slot: *slot,
        },
        Node::Either(one, two) => Node::Either(inside(one), inside(two)),
        Node::Then(first, second) => Node::Then(inside(first), inside(second)),
        Node::Repeat(body) => Node::Repeat(inside(body)),
        Node::Keep { kind, slot, inner } => Node::Keep {
            kind: *kind,
            slot: *slot,
            inner: inside(inner),
        },
        Node::Counted {
            lowest,
            highest,
            inner,
        } => Node::Counted {
            lowest: *lowest,
            highest: *highest,
            inner: inside(inner),
        },
        leaf => leaf.clone(),
    }
}

/// Lines that follow each other compare in all four ways, and each test decides many replies: they
/// change with any other in its place.
#[test]
fn outcomes_are_met() {
    use Rule::*;
    let mut random = Random::new(9);
    let mut outcomes = BTreeMap::new();
    let mut tests = BTreeMap::new();
    let mut changed = BTreeMap::new();
    for _ in 0..25_000 {
        let r = request(&mut random);
        let Ok(mut asked) = ask(r.ask(), r.work_len) else {
            continue;
        };
        // Full days have more such lines than all others together.
        let lines = &asked.record.lines[..asked.record.lines.len().min(60)];
        for line in lines {
            for next in lines.iter().filter(|next| next.from == line.to) {
                *outcomes
                    .entry(compared(line.boat(), next.boat()))
                    .or_insert(0) += 1;
            }
        }
        let root = asked.pattern.root.clone();
        let first = search(&asked);
        for test in [Same, Other, Sister, Foreign] {
            let others = [Same, Other, Sister, Foreign].into_iter();
            for other in others.filter(|other| *other != test) {
                asked.pattern.root = retested(&root, test, other);
                if asked.pattern.root == root {
                    continue;
                }
                *tests.entry(format!("{test:?}")).or_insert(0) += 1;
                if search(&asked) != first {
                    *changed.entry(format!("{test:?} as {other:?}")).or_insert(0) += 1;
                }
            }
        }
    }
    println!("{outcomes:?}, {tests:?}, {changed:?}");
    let pairs: usize = outcomes.values().sum();
    assert!(outcomes.len() == 4 && outcomes.values().all(|&count| 8 * count > pairs));
    assert!(tests.len() == 4 && tests.values().all(|&count| count > 3 * 1_500));
    assert!(changed.len() == 12 && changed.values().all(|&count| count > 60));
}

/// The pattern with other counts in each 2A.
fn recounted(node: &Node, counts: fn(u8, u8) -> (u8, u8)) -> Node {
    let inside = |node: &Node| Box::new(recounted(node, counts));
    match node {
        Node::Either(one, two) => Node::Either(inside(one), inside(two)),
        Node::Then(first, second) => Node::Then(inside(first), inside(second)),
        Node::Repeat(body) => Node::Repeat(inside(body)),
        Node::Keep { kind, slot, inner } => Node::Keep {
            kind: *kind,
            slot: *slot,
            inner: inside(inner),
        },
        Node::Counted {
            lowest,
            highest,
            inner,
        } => {
            let (lowest, highest) = counts(*lowest, *highest);
            Node::Counted {
                lowest,
                highest,
                inner: inside(inner),
            }
        }
        leaf => leaf.clone(),
    }
}

/// How deep 2A stands in 2A, and whether one has a keep in it.
fn rounds_in(node: &Node) -> (usize, bool) {
    match node {
        Node::Either(one, two) | Node::Then(one, two) => {
            let (one, two) = (rounds_in(one), rounds_in(two));
            (one.0.max(two.0), one.1 || two.1)
        }
        Node::Repeat(inner) | Node::Keep { inner, .. } => rounds_in(inner),
        Node::Counted { inner, .. } => {
            let (deep, kept) = rounds_in(inner);
            (deep + 1, kept || keeps(inner))
        }
        _ => (0, false),
    }
}

fn keeps(node: &Node) -> bool {
    match node {
        Node::Either(one, two) | Node::Then(one, two) => keeps(one) || keeps(two),
        Node::Repeat(inner) | Node::Counted { inner, .. } => keeps(inner),
        Node::Keep { .. } => true,
        _ => false,
    }
}

/// Rounds are counted in many requests that are answered, also in each other and with keeps in
/// them; both counts decide many replies; and 24 and 25 are given often.
#[test]
fn rounds_are_met() {
    type Change = (&'static str, fn(u8, u8) -> (u8, u8));
    const CHANGES: [Change; 4] = [
        ("lowest as 0", |_, highest| (0, highest)),
        ("lowest and one", |lowest, highest| {
            (highest.min(lowest + 1), highest)
        }),
        ("highest and one", |lowest, highest| (lowest, highest + 1)),
        ("highest as lowest", |lowest, _| (lowest, lowest)),
    ];
    let mut random = Random::new(10);
    let (mut found, mut none, mut nested, mut kept) = (0, 0, 0, 0);
    let mut refused = BTreeMap::new();
    let mut changed = BTreeMap::new();
    for _ in 0..10_000 {
        let r = request(&mut random);
        let mut asked = match ask(r.ask(), r.work_len) {
            Ok(asked) => asked,
            Err(number) => {
                *refused.entry(number).or_insert(0) += 1;
                continue;
            }
        };
        let root = asked.pattern.root.clone();
        let (deep, has_keep) = rounds_in(&root);
        if deep == 0 {
            continue;
        }
        nested += (deep > 1) as usize;
        kept += has_keep as usize;
        let first = search(&asked);
        match first {
            Some(_) => found += 1,
            None => none += 1,
        }
        for (name, counts) in CHANGES {
            asked.pattern.root = recounted(&root, counts);
            if asked.pattern.root.unfolded() <= 63 && search(&asked) != first {
                *changed.entry(name).or_insert(0) += 1;
            }
        }
    }
    println!(
        "{found} found, {none} none, {nested} nested, {kept} with keeps; {changed:?}; {refused:?}"
    );
    assert!(found > 1_500 && none > 500 && nested > 500 && kept > 500);
    assert!(changed.len() == CHANGES.len() && changed.values().all(|&count| count > 25));
    assert!(refused[&24] > 50 && refused[&25] > 50);
}

#[test]
fn a_seed_gives_the_same_requests() {
    let (mut one, mut two) = (Random::new(7), Random::new(7));
    for _ in 0..50 {
        let (a, b) = (request(&mut one), request(&mut two));
        assert_eq!(
            (a.rec, a.pat, a.chain, a.work_len, a.options),
            (b.rec, b.pat, b.chain, b.work_len, b.options)
        );
    }
}
