//! Requests made at random, leaning towards what goes wrong: laps and self-loops, so that
//! chains get longer than the list of places; nested keeps that use a slot again; one
//! sail number in two classes, and several numbers in one; days with many unread numbers;
//! patterns that accept the empty word under repeat; rounds that are counted, in each other,
//! with keeps in them, empty, and a round more or less than allowed; several starts, near and
//! far, listed in any order and again; timed lines among untimed ones, at the edges of windows and
//! of the day; options of every length; every question at its edge; damaged bytes; areas and
//! outputs that fit exactly or just don't.

use crate::membership::{compared, takes, Letter, Valuation};
use crate::pattern::{read_pattern, Node, Rule};
use crate::random::Random;
use crate::record::{line_starts, written, Boat, Line, DAY, LONGEST, MOST_LINES, UNREAD};
use crate::request::{words, Ask, Listed};
use crate::windows::{Window, Windows, KINDS, OPTIONS, WHOLE_DAY};
use std::collections::BTreeSet;

/// A request to the checker or the finder.
pub struct Request {
    pub rec: Vec<u8>,
    pub pat: Vec<u8>,
    pub from: u16,
    pub to: u16,
    /// The words that say the windows, where the question has any.
    pub options: Option<Vec<u32>>,
    /// For the checker.
    pub chain: Vec<u16>,
    pub work_len: usize,
    /// For the finder.
    pub room: Room,
}

impl Request {
    pub fn ask(&self) -> Ask<'_> {
        Ask {
            rec: &self.rec,
            pat: &self.pat,
            from: self.from,
            to: self.to,
            options: self.options.as_deref(),
        }
    }

    /// The same question about a list of starts.
    pub fn listed<'a>(&'a self, starts: &'a [u16]) -> Listed<'a> {
        Listed {
            rec: &self.rec,
            pat: &self.pat,
            starts,
            to: self.to,
            options: self.options.as_deref(),
        }
    }
}

/// How long the output is.
#[derive(Clone, Copy, Debug)]
pub enum Room {
    Exact,
    OneShort,
    More(usize),
    Just(usize),
}

impl Room {
    /// The output's length, the shortest chain having so many lines.
    pub fn entries(self, length: usize) -> usize {
        match self {
            Room::Exact => length,
            Room::OneShort => length.saturating_sub(1),
            Room::More(more) => length + more,
            Room::Just(entries) => entries,
        }
    }
}

/// What lines and patterns of one request draw from.
struct Pool {
    kinds: Vec<u8>,
    /// Boats that were read.
    boats: Vec<Boat>,
    /// Are there unread numbers too?
    unread: bool,
}

const fn boat(class: u8, sail: u32) -> Boat {
    Boat { class, sail }
}

fn pool(random: &mut Random) -> Pool {
    let mut kinds = vec![1, 2, 3, 15];
    let most = random.pick(&[1, 2, 2, 3, 3, 4]);
    kinds.truncate(most);
    // Few classes with several numbers each, numbers shared by two of them, class 0 and number 0,
    // which alone are not unread, and bytes at their edges. Half of the days have two classes.
    let mut boats = vec![
        boat(1, 150),
        boat(1, 151),
        boat(1, 0),
        boat(1, 256 + 150),
        boat(2, 150),
        boat(2, 151),
        boat(2, 0),
        boat(0, 150),
        boat(0, 5),
        boat(255, 16_777_215),
    ];
    if random.once_in(2) {
        boats.retain(|boat| boat.class < 2);
    }
    random.shuffle(&mut boats);
    let most = random.between(1, 6);
    boats.truncate(most);
    Pool {
        kinds,
        boats,
        unread: random.once_in(2),
    }
}

/// The boat of a line: in a day with unread numbers, a third of them.
fn any_boat(random: &mut Random, pool: &Pool) -> Boat {
    if pool.unread && random.once_in(3) {
        UNREAD
    } else {
        random.pick(&pool.boats)
    }
}

// ---- patterns

/// The bytes of a pattern whose unfolded count is at most so much, but for rounds that are made
/// too large on purpose.
fn grown(random: &mut Random, pool: &Pool, most: usize) -> Vec<u8> {
    let mut bytes = Vec::new();
    grow(random, pool, most, &mut Vec::new(), &mut bytes);
    bytes
}

fn grow(random: &mut Random, pool: &Pool, most: usize, around: &mut Vec<u8>, bytes: &mut Vec<u8>) {
    let choice = if most == 1 { 0 } else { random.below(25) };
    match choice {
        0..=2 => grow_leaf(random, pool, around, bytes),
        3..=11 if most >= 3 => {
            bytes.push(if choice < 9 { 0x25 } else { 0x24 });
            let first = random.between(1, most - 2);
            grow(random, pool, first, around, bytes);
            grow(random, pool, most - 1 - first, around, bytes);
        }
        12..=19 if choice >= 15 && around.len() < 3 => {
            let slot = if !around.is_empty() && random.once_in(2) {
                random.pick(around)
            } else {
                random.below(4) as u8
            };
            bytes.extend([0x27, random.pick(&pool.kinds), slot]);
            around.push(slot);
            grow(random, pool, most - 1, around, bytes);
            around.pop();
        }
        20..=24 => {
            let highest = highest(random, most - 1);
            bytes.extend([0x2A, lowest(random, highest), highest]);
            let inside = if random.once_in(12) {
                most - 1
            } else {
                (most - 1) / highest.max(1) as usize
            };
            grow(random, pool, inside, around, bytes);
        }
        _ => {
            bytes.push(0x26);
            grow(random, pool, most - 1, around, bytes);
        }
    }
}

/// A highest count of rounds that leaves one of `most` commands for each round.
fn highest(random: &mut Random, most: usize) -> u8 {
    let any = random.between(1, most.min(20));
    let small = random.pick(&[0, 1, 1, 2, 2, 2, 3, 3, 4, 5]);
    random.pick(&[any, small, small, small]).min(most) as u8
}

/// A lowest count that goes with it: both ends, and what is between.
fn lowest(random: &mut Random, highest: u8) -> u8 {
    let any = random.between(0, highest as usize) as u8;
    random.pick(&[0, any, any, highest])
}

fn grow_leaf(random: &mut Random, pool: &Pool, around: &[u8], bytes: &mut Vec<u8>) {
    let kind = random.pick(&pool.kinds);
    let choice = random.below(10);
    if !around.is_empty() && choice < 7 {
        let slot = random.pick(around);
        bytes.extend([any_test(random), kind, slot]);
    } else if choice == 9 || (around.is_empty() && choice == 8) {
        bytes.push(0x20);
    } else {
        bytes.extend([0x21, kind]);
    }
}

/// A command that compares boats.
fn any_test(random: &mut Random) -> u8 {
    random.pick(&[0x22, 0x22, 0x22, 0x23, 0x23, 0x28, 0x28, 0x28, 0x29, 0x29])
}

/// A pattern with this unfolded count whose keeps nest so deep, for sizes at their edge.
fn padded(random: &mut Random, unfolded: usize, keeps: usize) -> Vec<u8> {
    let mut bytes = Vec::new();
    for _ in 0..keeps {
        bytes.extend([0x27, 1, random.below(4) as u8]);
    }
    let left = unfolded - keeps;
    if random.once_in(2) {
        bytes.extend(vec![0x26; left - 1]);
        bytes.extend([0x21, 1]);
    } else {
        bytes.extend(counting_to(random, left as u128));
    }
    bytes
}

/// A pattern with this unfolded count: a line in repeats and rounds. A large count is taken apart
/// with few repeats, so that nearly every one up to 2^64 and somewhat more has 63 commands at most.
pub fn counting_to(random: &mut Random, unfolded: u128) -> Vec<u8> {
    let mut bytes = Vec::new();
    let mut left = unfolded;
    while left > 1 {
        let inside = left - 1;
        let wanted = if left > 64 {
            // The one that divides it with the fewest repeats before.
            (13..=20).rev().min_by_key(|highest| inside % highest)
        } else {
            Some(random.between(1, 6) as u128)
        };
        match wanted {
            Some(highest) if highest > 1 && inside.is_multiple_of(highest) => {
                let highest = highest as u8;
                bytes.extend([0x2A, lowest(random, highest), highest]);
                left = inside / highest as u128;
            }
            _ => {
                bytes.push(0x26);
                left = inside;
            }
        }
    }
    bytes.extend([0x21, 1]);
    bytes
}

/// Patterns at the edges of questions 24 and 25.
fn edge_of_rounds(random: &mut Random) -> Vec<u8> {
    let nests = |count: usize| [0x2A, 20, 20].repeat(count);
    let small = random.between(1, 63) as u128;
    let highest = highest(random, 20);
    let slot = random.below(4) as u8;
    match random.below(20) {
        // Operands that are not there, and nothing inside.
        0 => vec![0x2A, 0, 0][..random.between(1, 3)].to_vec(),
        // Counts at their edges; what is inside is read after them.
        1 => {
            let lowest = random.pick(&[0, 19, 20, 21]);
            let highest = random.pick(&[20, 21, 21, 255]);
            [
                &[0x2A, lowest, highest][..],
                random.pick(&[&[0x20][..], &[], &[0xFF]]),
            ]
            .concat()
        }
        2 => vec![
            0x2A,
            highest,
            highest.saturating_sub(1),
            random.pick(&[0x20, 0xFF]),
        ],
        3 => vec![0x2A, highest, highest, 0x21, 1],
        4 => vec![0x26; 61]
            .into_iter()
            .chain([0x2A, 0, 1, 0x20])
            .collect(),
        5 => vec![0x26; 62]
            .into_iter()
            .chain([0x2A, 0, 1, 0x20])
            .collect(),
        6 => vec![0x26; 63].into_iter().chain([0x2A, 0]).collect(),
        // Unfolded counts at the edge, and a byte after the pattern.
        7..=9 => {
            let count = random.pick(&[62, 63, 63, 64, 64, 65, 70, 100]);
            counting_to(random, count)
        }
        10 => {
            let count = random.pick(&[63, 64, 65]);
            [counting_to(random, count), vec![0x20]].concat()
        }
        // Counts that come round to a small number.
        11 => {
            let times = random.between(1, 5) as u128;
            counting_to(random, (times << 8) + small)
        }
        12 => counting_to(random, (1 << 32) + small),
        13 => counting_to(random, (1 << 64) + small),
        // Rounds in each other, in none, and with a byte after them.
        14 => {
            let count = random.between(1, 62);
            [nests(count), vec![0x20]].concat()
        }
        15 | 16 => {
            let nests = nests(random.between(1, 62));
            let end = random.pick(&[&[0x20][..], &[0x20], &[0x20, 0x20], &[0x21, 0]]);
            [&[0x2A, 0, 0][..], &nests, end].concat()
        }
        // Keeps around rounds and in them, none of which may come.
        17 => vec![0x27, 1, 0, 0x27, 1, 1, 0x2A, 0, 0, 0x27, 1, 2, 0x20],
        18 => vec![
            0x27, 1, 0, 0x27, 1, 1, 0x2A, 0, highest, 0x27, 1, 2, 0x27, 1, slot, 0x20,
        ],
        // A keep in a round, and a test after it.
        _ => vec![
            0x25, 0x2A, 1, 2, 0x27, 1, slot, 0x22, 1, slot, 0x22, 1, slot,
        ],
    }
}

/// Patterns at the edges of the questions 8 to 14, 24 and 25.
fn edge_pattern(random: &mut Random) -> Vec<u8> {
    if random.once_in(2) {
        return edge_of_rounds(random);
    }
    let repeats = |count: usize, then: &[u8]| {
        let mut bytes = vec![0x26; count];
        bytes.extend(then);
        bytes
    };
    let slot = random.below(4) as u8;
    let test = random.pick(&[0x22, 0x23, 0x28, 0x29]);
    match random.below(20) {
        0 => repeats(62, &[0x20]),
        1 => repeats(63, &[0x20]),
        2 => repeats(63, &[]),
        3 => repeats(63, &[0xFF]),
        4 => repeats(63, &[0x21]),
        5 => repeats(62, &[0x20, 0x20]),
        6 => repeats(62, &[0x21, 1]),
        7 => repeats(62, &[0x21, 0]),
        8 => vec![0x27, 1, 0, 0x27, 1, 1, 0x27, 1, 2, test, 1, slot],
        9 => vec![0x27, 1, 0, 0x27, 1, 1, 0x27, 1, 2, 0x27, 1, slot, 0x20],
        10 => vec![0x27, 1, 0, 0x27, 1, 0, 0x27, 1, 0, 0x27, 1, 7, 0x20],
        11 => vec![0x25, 0x27, 1, 0, 0x20, test, 1, 0],
        12 => vec![0x27, 1, 0, 0x25, 0x27, 1, slot, 0x20, test, 1, slot],
        13 => vec![test, 0],
        14 => vec![test, 0, 5],
        15 => vec![test, 15, slot],
        16 => vec![],
        // The bytes after the last command, as one of a kept slot.
        17 | 18 => vec![0x27, 1, slot, random.between(0x28, 0x2F) as u8, 1, slot],
        _ => {
            // Thirty-one pairs and one more: 63 commands of the widest kind.
            let mut bytes = vec![0x27, 1, slot];
            for _ in 0..30 {
                bytes.extend([0x25, test, 1, slot]);
            }
            bytes.extend([0x26, any_test(random), 1, slot]);
            bytes
        }
    }
}

/// Patterns that are known to be hard to get right.
fn known_pattern(random: &mut Random) -> Vec<u8> {
    let known: [&[u8]; 24] = [
        &[
            0x27, 1, 0, 0x25, 0x22, 2, 0, 0x25, 0x26, 0x22, 3, 0, 0x22, 15, 0,
        ],
        &[0x27, 1, 0, 0x25, 0x27, 1, 0, 0x23, 1, 0, 0x22, 1, 0],
        &[0x26, 0x26, 0x20],
        &[0x26, 0x24, 0x20, 0x26, 0x21, 1],
        &[0x24, 0x25, 0x21, 1, 0x21, 2, 0x25, 0x21, 1, 0x21, 1],
        &[0x24, 0x25, 0x20, 0x20, 0x21, 2],
        &[0x26, 0x27, 1, 0, 0x25, 0x26, 0x21, 2, 0x22, 3, 0],
        &[0x27, 1, 0, 0x26, 0x23, 1, 0],
        &[0x27, 1, 0, 0x28, 2, 0],
        &[0x27, 1, 0, 0x29, 2, 0],
        &[0x27, 1, 0, 0x25, 0x26, 0x29, 1, 0, 0x28, 2, 0],
        &[
            0x27, 1, 0, 0x25, 0x28, 2, 0, 0x25, 0x26, 0x24, 0x28, 3, 0, 0x29, 3, 0, 0x22, 1, 0,
        ],
        &[
            0x25, 0x26, 0x21, 1, 0x25, 0x27, 1, 0, 0x25, 0x26, 0x21, 1, 0x22, 1, 0, 0x26, 0x21, 1,
        ],
        &[
            0x27, 1, 2, 0x27, 1, 2, 0x25, 0x26, 0x27, 1, 2, 0x23, 1, 2, 0x22, 1, 2,
        ],
        // So many laps; rounds that may be empty; rounds of rounds, and beside rounds.
        &[
            0x27, 1, 0, 0x25, 0x22, 2, 0, 0x25, 0x2A, 2, 3, 0x22, 3, 0, 0x22, 15, 0,
        ],
        &[0x2A, 1, 3, 0x24, 0x20, 0x25, 0x21, 1, 0x21, 2],
        &[0x2A, 2, 4, 0x26, 0x21, 1],
        &[0x25, 0x2A, 2, 4, 0x24, 0x20, 0x21, 1, 0x21, 2],
        &[0x2A, 2, 2, 0x2A, 1, 3, 0x21, 1],
        &[0x26, 0x2A, 2, 2, 0x21, 1],
        &[
            0x25, 0x2A, 0, 2, 0x21, 1, 0x2A, 1, 2, 0x24, 0x21, 1, 0x21, 2,
        ],
        // A boat kept in each round; one kept outside, which each round has again.
        &[0x2A, 2, 3, 0x27, 1, 0, 0x25, 0x26, 0x21, 2, 0x22, 1, 0],
        &[0x27, 1, 0, 0x2A, 1, 2, 0x25, 0x22, 1, 0, 0x27, 1, 0, 0x20],
        &[
            0x27, 1, 0, 0x2A, 2, 2, 0x25, 0x23, 1, 0, 0x27, 1, 0, 0x24, 0x20, 0x22, 2, 0,
        ],
    ];
    random.pick(&known).to_vec()
}

// ---- words and days

/// A word of the pattern's language, or one that a boat keeps out of it; where a slot holds an
/// unread number, there is no line that passes its tests, and the word has one that looks as if it
/// did.
fn sampled(
    random: &mut Random,
    pool: &Pool,
    node: &Node,
    v: Valuation,
    rounds: usize,
) -> Vec<Letter> {
    match node {
        Node::Nothing => vec![],
        Node::Line { kind } => vec![Letter {
            kind: *kind,
            boat: any_boat(random, pool),
        }],
        Node::Test { rule, kind, slot } => {
            let kept = v[*slot as usize].expect("kept");
            let boat = taken(random, pool, *rule, kept);
            vec![Letter { kind: *kind, boat }]
        }
        Node::Either(one, two) => {
            let chosen = if random.once_in(2) { one } else { two };
            sampled(random, pool, chosen, v, rounds)
        }
        Node::Then(first, second) => {
            let mut word = sampled(random, pool, first, v, rounds);
            word.extend(sampled(random, pool, second, v, rounds));
            word
        }
        Node::Repeat(body) => {
            let mut word = Vec::new();
            for _ in 0..random.below(rounds + 1) {
                word.extend(sampled(random, pool, body, v, rounds / 2));
            }
            word
        }
        Node::Counted {
            lowest,
            highest,
            inner,
        } => {
            let mut word = Vec::new();
            for _ in 0..times(random, *lowest, *highest, inner) {
                word.extend(sampled(random, pool, inner, v, rounds / 2));
            }
            word
        }
        Node::Keep { kind, slot, inner } => {
            let boat = any_boat(random, pool);
            let mut inside = v;
            inside[*slot as usize] = Some(boat);
            let mut word = vec![Letter { kind: *kind, boat }];
            word.extend(sampled(random, pool, inner, inside, rounds));
            word
        }
    }
}

/// How many rounds: both ends and what is between; but one in five is a round too many or too
/// few, unless a round is rounds itself, or is far too long where none may come.
fn times(random: &mut Random, lowest: u8, highest: u8, inner: &Node) -> usize {
    let (lowest, highest) = (lowest as usize, highest as usize);
    let short = !matches!(inner, Node::Counted { .. }) && inner.unfolded() <= 63;
    if short && random.once_in(5) {
        return random.pick(&[highest + 1, highest + 1, lowest.saturating_sub(1)]);
    }
    let any = random.between(lowest, highest);
    random.pick(&[lowest, any, any, highest])
}

/// A boat that the rule takes, this one being kept, of the pool if it has any; but one in eight is
/// any boat of the pool, one with the kept boat's class, or unread in a day with such numbers.
fn taken(random: &mut Random, pool: &Pool, rule: Rule, kept: Boat) -> Boat {
    if random.once_in(8) {
        let any = random.pick(&pool.boats);
        let unread = if pool.unread { UNREAD } else { any };
        return random.pick(&[any, boat(kept.class, any.sail), unread]);
    }
    let boats = pool.boats.iter().copied();
    let taken: Vec<Boat> = boats
        .filter(|&boat| takes(rule, compared(kept, boat)))
        .collect();
    match rule {
        _ if !taken.is_empty() => random.pick(&taken),
        Rule::Same => kept,
        Rule::Sister => boat(kept.class, kept.sail ^ 2),
        // The same number in another class.
        Rule::Other | Rule::Foreign => boat(kept.class ^ 4, kept.sail),
    }
}

struct Day {
    places: u16,
    lines: Vec<Line>,
    from: u16,
    to: u16,
    chain: Vec<u16>,
}

fn any_line(random: &mut Random, pool: &Pool, places: u16) -> Line {
    let boat = any_boat(random, pool);
    let from = random.below(places as usize) as u16;
    Line {
        from,
        kind: random.pick(&pool.kinds),
        class: boat.class,
        sail: boat.sail,
        to: next_place(random, from, places),
        time: None,
    }
}

/// The same place, the next one round the course, or any.
fn next_place(random: &mut Random, place: u16, places: u16) -> u16 {
    match random.below(3) {
        0 => place,
        1 => (place + 1) % places,
        _ => random.below(places as usize) as u16,
    }
}

/// A day in which a chain has this word, among lines that look alike. On a straight course each
/// line of it leads on to the next place, so that no shorter chain gets there.
fn laid_out(random: &mut Random, pool: &Pool, word: &[Letter]) -> Day {
    let straight = word.len() < 40 && random.once_in(4);
    let (from, places) = if straight {
        (0, word.len() as u16 + 1)
    } else {
        let places = random.pick(&[1, 1, 2, 2, 3, 4, 5, 9]);
        (random.below(places as usize) as u16, places)
    };
    let mut lines: Vec<Line> = Vec::new();
    let mut chain = Vec::new();
    let mut place = from;
    for letter in word {
        let usable: Vec<usize> = (0..lines.len())
            .filter(|&n| {
                let line = lines[n];
                line.from == place && line.kind == letter.kind && line.boat() == letter.boat
            })
            .collect();
        let number = if !usable.is_empty() && !random.once_in(4) {
            random.pick(&usable)
        } else {
            lines.push(Line {
                from: place,
                kind: letter.kind,
                class: letter.boat.class,
                sail: letter.boat.sail,
                to: if straight {
                    place + 1
                } else {
                    next_place(random, place, places)
                },
                time: None,
            });
            lines.len() - 1
        };
        chain.push(number as u16);
        place = lines[number].to;
    }
    let day = Day {
        places,
        lines,
        from,
        to: place,
        chain,
    };
    disguised(random, pool, day)
}

/// The day with further lines among the planned ones, most of them like one of those, and all in
/// another order.
fn disguised(random: &mut Random, pool: &Pool, day: Day) -> Day {
    let mut lines = day.lines;
    let planted = lines.len();
    for _ in 0..random.pick(&[0, 2, 4, 8, 12]) {
        let mut line = any_line(random, pool, day.places);
        if planted > 0 && !random.once_in(3) {
            let like = lines[random.below(planted)];
            line = match random.below(9) {
                0 => like,
                1 => Line {
                    kind: line.kind,
                    ..like
                },
                2 => Line {
                    from: line.from,
                    ..like
                },
                3 => Line {
                    to: line.to,
                    ..like
                },
                4..=6 => Line {
                    class: line.class,
                    sail: line.sail,
                    ..like
                },
                // In the class of a boat that may be kept.
                _ => Line {
                    class: lines[random.below(planted)].class,
                    sail: line.sail,
                    ..like
                },
            };
        }
        lines.push(line);
    }
    // The order of lines is what ties are decided by, so it is mixed.
    let mut order: Vec<usize> = (0..lines.len()).collect();
    random.shuffle(&mut order);
    let mut place_of = vec![0u16; lines.len()];
    for (new, &old) in order.iter().enumerate() {
        place_of[old] = new as u16;
    }
    Day {
        lines: order.iter().map(|&old| lines[old]).collect(),
        chain: day
            .chain
            .iter()
            .map(|&old| place_of[old as usize])
            .collect(),
        ..day
    }
}

/// A day in which a chain of each of these words leads to one place, each from a place of its own,
/// the first ones of the day; by way of any places, or of such that are on no other's way.
fn led_to_one(random: &mut Random, pool: &Pool, words: &[Vec<Letter>]) -> Day {
    let between: usize = words.iter().map(|word| word.len().saturating_sub(1)).sum();
    let apart = between < 60 && random.once_in(2);
    let few = words.len() + random.pick(&[1, 1, 2, 4]);
    let places = if apart { few + between } else { few };
    let to = random.below(few) as u16;
    let mut lines = Vec::new();
    let mut unused = few as u16;
    for (start, word) in words.iter().enumerate() {
        let mut place = start as u16;
        for (left, letter) in (0..word.len()).rev().zip(word) {
            let next = match left {
                0 => to,
                _ if apart => unused,
                _ => random.below(few) as u16,
            };
            unused += (next == unused) as u16;
            lines.push(Line {
                from: place,
                kind: letter.kind,
                class: letter.boat.class,
                sail: letter.boat.sail,
                to: next,
                time: None,
            });
            place = next;
        }
    }
    let day = Day {
        places: places as u16,
        from: 0,
        to,
        chain: (0..words[0].len() as u16).collect(),
        lines,
    };
    disguised(random, pool, day)
}

/// A day of lines that nobody planned, and a walk along them.
fn unplanned(random: &mut Random, pool: &Pool) -> Day {
    let places = random.pick(&[1, 1, 2, 2, 3, 4, 6, 12]);
    let count = random.pick(&[0, 1, 2, 3, 5, 8, 13, 30, 60]);
    let lines: Vec<Line> = (0..count).map(|_| any_line(random, pool, places)).collect();
    let from = random.below(places as usize) as u16;
    let mut to = from;
    let mut chain = Vec::new();
    for _ in 0..random.pick(&[0, 1, 2, 3, 4, 6, 9, 14]) {
        let out: Vec<u16> = (0..count)
            .filter(|&n| lines[n].from == to)
            .map(|n| n as u16)
            .collect();
        if out.is_empty() {
            break;
        }
        let number = random.pick(&out);
        chain.push(number);
        to = lines[number as usize].to;
    }
    if random.once_in(3) {
        to = random.below(places as usize) as u16;
    }
    Day {
        places,
        lines,
        from,
        to,
        chain,
    }
}

/// A day and a pattern whose search size is the largest one, or next to it.
fn at_the_limit(random: &mut Random) -> (Day, Vec<u8>) {
    let exact: [(u16, usize, usize, usize); 10] = [
        (1_024, 15, 1, 63),
        (1_024, 63, 1, 15),
        (1_024, 63, 2, 3),
        (256, 63, 2, 7),
        (64, 15, 2, 31),
        (4, 63, 2, 63),
        (2, 15, 3, 31),
        (1, 31, 3, 31),
        (256, 7, 3, 7),
        (512, 31, 3, 3),
    ];
    let (mut places, mut commands, keeps, mut boats) = random.pick(&exact);
    match random.below(6) {
        0 => boats += 1,
        1 if commands < 63 => commands += 1,
        2 if places < 1_024 => places += 1,
        3 => boats -= 1,
        _ => {}
    }
    let mut lines: Vec<Line> = (0..boats)
        .map(|n| {
            let from = random.below(places as usize) as u16;
            Line {
                from,
                kind: 1,
                class: (n % 2) as u8,
                sail: (n / 2) as u32,
                to: next_place(random, from, places),
                time: None,
            }
        })
        .collect();
    // Lines that name a boat again don't count.
    for _ in 0..random.below(4) {
        let like = random.pick(&lines);
        lines.push(like);
    }
    let from = random.below(places as usize) as u16;
    let day = Day {
        places,
        lines,
        from,
        to: from,
        chain: vec![],
    };
    (day, padded(random, commands, keeps))
}

/// A day with as many lines as there can be, or one fewer.
fn full_day(random: &mut Random, pool: &Pool) -> Day {
    let places = random.pick(&[1, 3, 9]);
    let count = MOST_LINES - random.below(2);
    let lines: Vec<Line> = (0..count).map(|_| any_line(random, pool, places)).collect();
    let number = random.below(count);
    Day {
        places,
        from: lines[number].from,
        to: lines[number].to,
        chain: vec![number as u16],
        lines,
    }
}

// ---- damage

/// One of these places, or that of a first line where there are none.
fn any_start(random: &mut Random, starts: &[usize]) -> usize {
    match starts {
        [] => 3,
        _ => random.pick(starts),
    }
}

/// Damages a record's bytes, most often where a question is about to be asked.
pub fn damage_record(random: &mut Random, bytes: &mut Vec<u8>) {
    let line = any_start(random, &line_starts(bytes));
    let count = if bytes.len() >= 3 {
        [bytes[1], bytes[2]]
    } else {
        [0, 0]
    };
    let below_count = u16::from_be_bytes(count).wrapping_sub(1).to_be_bytes();
    match random.below(17) {
        0 => bytes.truncate(random.below(bytes.len() + 1)),
        1 => bytes.extend([random.pick(&[0, 0, 1, 2, 3, 0xFF])]),
        2 => set(bytes, random.below(44), &[random.byte()]),
        3 => set(
            bytes,
            1,
            &random
                .pick(&[0u16, 1, 2, 1_023, 1_024, 1_025, 65_535])
                .to_be_bytes(),
        ),
        4 => set(bytes, line + 1, &random.pick(&[count, below_count])),
        5 => set(bytes, line + 8, &random.pick(&[count, below_count])),
        6 | 7 => set(bytes, line + 3, &[random.pick(&[0, 1, 15, 16, 255])]),
        8 => set(bytes, line, &[random.pick(&[0, 1, 2, 3, 4, 0x20, 0xFF])]),
        9 => {
            bytes.pop();
        }
        10 => set(bytes, 0, &[random.pick(&[0, 2, 3, 0xFF])]),
        11 => {
            let at = line.min(bytes.len());
            let rest = bytes.split_off(at);
            bytes.extend([1, 0, 1]);
            bytes.extend(rest);
        }
        12 => {
            let at = random.below(bytes.len() + 1);
            bytes.insert(at, random.byte());
        }
        _ => damage_timed_line(random, bytes, count),
    }
}

/// Damages a timed line, one that is put there where the record has none: it is cut, or its time is
/// at the end of the day or beyond, alone or with its kind or a place that is not there.
fn damage_timed_line(random: &mut Random, bytes: &mut Vec<u8>, count: [u8; 2]) {
    let starts = line_starts(bytes);
    let timed: Vec<usize> = starts
        .iter()
        .copied()
        .filter(|&at| bytes[at] == 3)
        .collect();
    let line = match timed[..] {
        [] => {
            let at = any_start(random, &starts).min(bytes.len());
            let new = [3, 0, 0, 1, 1, 0, 0, 7, 0, 0, 0, 0, 0, 5];
            bytes.splice(at..at, new);
            at
        }
        _ => random.pick(&timed),
    };
    if random.once_in(3) {
        bytes.truncate(line + random.between(1, 14));
        return;
    }
    let time = late_time(random);
    set(bytes, line + 10, &time.to_be_bytes());
    match random.below(6) {
        0 => set(bytes, line + 3, &[random.pick(&[0, 16])]),
        1 => set(bytes, line + random.pick(&[1, 8]), &count),
        2 => bytes.truncate(line + random.between(10, 13)),
        _ => {}
    }
}

/// A time at the end of the day, most often after it; some come round to one of the day in 16 bits,
/// or with the low byte first.
fn late_time(random: &mut Random) -> u32 {
    let any = random.draw() as u32;
    random.pick(&[
        DAY - 1,
        DAY,
        DAY,
        DAY + 1,
        DAY + 256,
        131_072,
        1 << 24,
        1 << 31,
        u32::MAX,
        any,
    ])
}

/// Puts so many lines more before the end that there is one too many. That one is whole, good or
/// bad, or it is cut; where all lines are timed, only its first byte leaves a record that is not too
/// long.
fn overfill(random: &mut Random, bytes: &mut Vec<u8>, lines: usize) {
    bytes.pop();
    for _ in lines..MOST_LINES {
        bytes.extend([2, 0, 0, 1, 1, 0, 0, 7, 0, 0]);
    }
    let bad = random.pick(&[0, 1, 16]);
    let new = [3, 0, 0, bad, 1, 0, 0, 7, 0, 0, 0xFF, 0, 0, 0];
    match random.below(4) {
        0 => bytes.extend([2, 0, 0, 1, 1, 0, 0, 7, 0, 0, 0]),
        1 => bytes.extend([&new[..], &[0]].concat()),
        2 => bytes.extend(&new[..random.between(1, 14)]),
        _ => bytes.push(random.pick(&[2, 3])),
    }
}

/// A record whose boats are to be counted: no lines to as many as there can be; one boat, few, or as
/// many as lines; each after the other, in turns or in any order; the same numbers in several
/// classes; unread numbers among them or not; none of them timed, all, or some. One in four is
/// damaged, and some are too long or have a line too many.
pub fn counted_day(random: &mut Random) -> Vec<u8> {
    let count = match random.below(100) {
        0 => MOST_LINES - random.below(2),
        1..=4 => random.between(300, 700),
        _ => random.pick(&[0, 1, 2, 3, 4, 5, 6, 8, 13, 30, 60]),
    };
    let boats = random.pick(&[1, 2, 3, 4, 10, count.max(1), count.max(1)]);
    let (first_class, classes) = (random.pick(&[0, 1, 252]), random.pick(&[1, 2, 3]));
    let apart = random.pick(&[1, 1, 256, 4_096]);
    let (order, unread) = (random.below(3), random.once_in(2));
    let timed = random.pick(&[0, 0, 1, 3, 4, 4]);
    let places = random.pick(&[1, 1, 2, 4]);
    let lines: Vec<Line> = (0..count)
        .map(|number| {
            let which = match order {
                0 => number % boats,
                1 => number * boats / count,
                _ => random.below(boats),
            };
            let mut boat = boat(
                (first_class + which % classes) as u8,
                (which / classes * apart) as u32,
            );
            if unread && random.once_in(4) {
                boat = UNREAD;
            }
            Line {
                from: random.below(places) as u16,
                kind: random.between(1, 15) as u8,
                class: boat.class,
                sail: boat.sail,
                to: random.below(places) as u16,
                time: (random.below(4) < timed).then(|| any_time(random)),
            }
        })
        .collect();
    let mut bytes = written(places as u16, &lines);
    if count + 1 >= MOST_LINES && random.once_in(2) {
        overfill(random, &mut bytes, count);
    } else if random.once_in(4) {
        for _ in 0..random.between(1, 3) {
            damage_record(random, &mut bytes);
        }
    }
    if random.once_in(200) {
        bytes.resize(around_the_longest(random), 0);
    }
    bytes
}

/// A length next to that of the longest record, or of the longest without times.
fn around_the_longest(random: &mut Random) -> usize {
    random.pick(&[LONGEST, LONGEST, LONGEST_UNTIMED]) + random.below(3) - 1
}

/// The length of a full record with no timed line.
const LONGEST_UNTIMED: usize = 4 + 10 * MOST_LINES;

/// Damages a pattern's bytes.
pub fn damage_pattern(random: &mut Random, bytes: &mut Vec<u8>) {
    let at = random.below(bytes.len() + 1);
    match random.below(8) {
        0 => bytes.truncate(at),
        1 => bytes.push(random.pick(&[0x20, 0x21, 0x26, 0x2A, 0xFF, 0])),
        2 => set(bytes, at, &[random.byte()]),
        3 => {
            let byte = random.between(0x27, 0x30) as u8;
            set(bytes, at, &[random.pick(&[0x1F, 0x20, byte, byte, 0xFF])])
        }
        4 => set(
            bytes,
            at,
            &[random.pick(&[0, 1, 3, 4, 15, 16, 20, 21, 255])],
        ),
        5 => {
            let test = any_test(random);
            let command = random.pick(&[0x20, 0x21, test, 0x25, 0x26, 0x27, 0x2A]);
            bytes.insert(at, command);
            if command == 0x2A {
                bytes.splice(
                    at + 1..at + 1,
                    [random.pick(&[0, 1, 2, 3]), random.pick(&[1, 2, 3, 20])],
                );
            }
        }
        6 => {
            if at < bytes.len() {
                bytes.remove(at);
            }
        }
        _ => *bytes = edge_pattern(random),
    }
}

/// Writes bytes over others, as far as there are any.
fn set(bytes: &mut [u8], at: usize, new: &[u8]) {
    for (n, &byte) in new.iter().enumerate() {
        if let Some(old) = bytes.get_mut(at + n) {
            *old = byte;
        }
    }
}

/// Any bytes, or a record and a pattern that were damaged once or more.
pub fn any_bytes(random: &mut Random) -> (Vec<u8>, Vec<u8>) {
    let request = request(random);
    let (mut rec, mut pat) = (request.rec, request.pat);
    match random.below(4) {
        0 => {
            let command = random.pick(&[0, 1, 1, 1]);
            rec = vec![command, 0, random.pick(&[0, 1, 2])];
            for _ in 0..random.below(40) {
                let byte = random.byte();
                rec.push(random.pick(&[0, 1, 2, 3, byte]));
            }
        }
        1 => {
            for _ in 0..random.between(1, 3) {
                damage_record(random, &mut rec);
            }
        }
        2 if random.once_in(50) => {
            rec.resize(around_the_longest(random), 0);
        }
        _ => {}
    }
    match random.below(4) {
        0 => {
            pat.clear();
            for _ in 0..random.below(12) {
                let byte = random.byte();
                let (command, near) = (0x20 + byte % 11, 0x20 + (byte & 15));
                pat.push(random.pick(&[command, command, near, byte & 15, byte & 3, byte]));
            }
        }
        1 => {
            for _ in 0..random.between(1, 3) {
                damage_pattern(random, &mut pat);
            }
        }
        2 => pat = edge_pattern(random),
        _ => {}
    }
    (rec, pat)
}

// ---- requests

/// A pattern, most often one that passes its questions.
fn any_pattern(random: &mut Random, pool: &Pool) -> Vec<u8> {
    match random.below(20) {
        0..=3 => known_pattern(random),
        4 => edge_pattern(random),
        5..=13 => {
            let most = random.between(1, 9);
            grown(random, pool, most)
        }
        14..=18 => {
            let most = random.between(6, 20);
            grown(random, pool, most)
        }
        _ => {
            let most = random.between(20, 63);
            grown(random, pool, most)
        }
    }
}

/// A whole request.
pub fn request(random: &mut Random) -> Request {
    let pool = pool(random);
    let mut pat = any_pattern(random, &pool);
    let tree = read_pattern(&pat);
    let mut day = match (&tree, random.below(10)) {
        (_, 0..=2) => unplanned(random, &pool),
        (Ok(tree), _) => {
            let rounds = random.pick(&[0, 1, 2, 3, 5, 8]);
            let mut word = sampled(random, &pool, &tree.root, [None; 4], rounds);
            if word.len() > 150 {
                word = sampled(random, &pool, &tree.root, [None; 4], 0);
            }
            laid_out(random, &pool, &word)
        }
        _ => unplanned(random, &pool),
    };
    if random.once_in(40) {
        (day, pat) = at_the_limit(random);
    } else if random.once_in(400) {
        day = full_day(random, &pool);
    }
    asked_about(random, day, pat)
}

/// The same, but of a day in which several places have a chain to the finishing one.
pub fn request_of_several(random: &mut Random) -> Request {
    let pool = pool(random);
    let pat = any_pattern(random, &pool);
    let Ok(tree) = read_pattern(&pat) else {
        let day = unplanned(random, &pool);
        return asked_about(random, day, pat);
    };
    let count = random.between(2, 5);
    let words: Vec<Vec<Letter>> = (0..count)
        .map(|_| {
            let rounds = random.pick(&[0, 1, 1, 2, 3]);
            let word = sampled(random, &pool, &tree.root, [None; 4], rounds);
            match word.len() {
                ..=40 => word,
                _ => sampled(random, &pool, &tree.root, [None; 4], 0),
            }
        })
        .collect();
    let day = led_to_one(random, &pool, &words);
    asked_about(random, day, pat)
}

/// A request about a day and a pattern; some are damaged, or ask about places that are not there.
fn asked_about(random: &mut Random, mut day: Day, mut pat: Vec<u8>) -> Request {
    let options = any_options(random, &day);
    give_times(random, &mut day, &Windows::of(options.as_deref()));
    let chain = checked_chain(random, &mut day);
    let (mut from, mut to) = (day.from, day.to);
    if random.once_in(12) {
        to = random.below(day.places as usize) as u16;
    }
    if random.once_in(12) {
        let count = day.places;
        let edge = random.pick(&[count, count - 1, 0, 65_535]);
        match random.below(3) {
            0 => from = edge,
            1 => to = edge,
            _ => (from, to) = (to, from),
        }
    }
    let mut rec = written(day.places, &day.lines);
    let needed = words(&rec, &pat);
    if day.lines.len() + 1 >= MOST_LINES && random.once_in(2) {
        overfill(random, &mut rec, day.lines.len());
    } else if random.once_in(14) {
        damage_record(random, &mut rec);
    }
    if random.once_in(14) {
        damage_pattern(random, &mut pat);
    }
    Request {
        work_len: work_len(random, needed.ok()),
        room: room(random),
        rec,
        pat,
        from,
        to,
        options,
        chain,
    }
}

// ---- windows and times

/// The options of a question about a day: none; or a window for each kind, one of which may fail,
/// of a kind that the day has or of any. The list may end early, or go on.
fn any_options(random: &mut Random, day: &Day) -> Option<Vec<u32>> {
    if random.once_in(4) {
        return None;
    }
    let whole = random.once_in(6);
    let mut windows: Vec<Window> = (0..KINDS)
        .map(|_| if whole { WHOLE_DAY } else { any_window(random) })
        .collect();
    if random.once_in(10) {
        let any = random.between(1, KINDS) as u8;
        let used = match day.lines[..] {
            [] => any,
            _ => random.pick(&day.lines).kind,
        };
        let kind = random.pick(&[any, used]);
        windows[kind as usize - 1] = bad_window(random);
    }
    let mut words: Vec<u32> = windows.iter().flat_map(|w| [w.open, w.close]).collect();
    match random.below(6) {
        0 => words.truncate(random.below(OPTIONS + 1)),
        1 => words.truncate(random.pick(&[0, 1, 2, 3, 4, 5, 28, 29])),
        2 => {
            let more = random.between(1, 4);
            words.extend(dirt(random, more));
        }
        _ => {}
    }
    Some(words)
}

/// A window that passes: the whole day, nearly the whole, a second, a few, or any.
fn any_window(random: &mut Random) -> Window {
    let day = DAY as usize;
    let (open, close) = match random.below(8) {
        0 => (0, day),
        1 => random.pick(&[(0, day - 1), (1, day)]),
        2 | 3 => {
            let close = random.between(1, day - 1);
            random.pick(&[(0, close), (close, day)])
        }
        4 => {
            let any = random.below(day);
            let open = random.pick(&[0, 5, day - 1, any]);
            (open, open + 1)
        }
        5 => {
            let open = random.below(6);
            (open, open + random.between(1, 5))
        }
        _ => {
            let open = random.below(day);
            (open, random.between(open + 1, day))
        }
    };
    Window {
        open: open as u32,
        close: close as u32,
    }
}

/// A window that fails: it closes when it opens or before, or after the day.
fn bad_window(random: &mut Random) -> Window {
    let any = random.below(DAY as usize) as u32;
    let (open, close) = random.pick(&[
        (any, any),
        (any + 1, any),
        (0, 0),
        (DAY, DAY),
        (0, DAY + 1),
        (0, DAY + 1),
        (any, DAY + 1),
        (0, u32::MAX),
        (DAY, DAY + 1),
        (u32::MAX, DAY),
        (DAY, 0),
    ]);
    Window { open, close }
}

/// Any time of the day, its edges more often.
fn any_time(random: &mut Random) -> u32 {
    let any = random.below(DAY as usize) as u32;
    random.pick(&[0, 1, DAY - 1, 65_535, 65_536, any, any, any])
}

/// A time at the edge of a window or near it, at that of the day, or any.
fn time_near(random: &mut Random, window: Window) -> u32 {
    let Window { open, close } = window;
    let any = any_time(random);
    let time = random.pick(&[
        open.saturating_sub(1),
        open,
        open,
        close.saturating_sub(1),
        close.saturating_sub(1),
        close,
        0,
        DAY - 1,
        any,
    ]);
    time.min(DAY - 1)
}

/// A time inside a window, its first and last second more often; one that fails has none.
fn time_inside(random: &mut Random, window: Window) -> u32 {
    let Window { open, close } = window;
    if !window.passes() {
        return any_time(random);
    }
    let any = random.between(open as usize, close as usize - 1) as u32;
    random.pick(&[open, close - 1, any, any])
}

/// Gives times to none of a day's lines, to all, or to some. Most often the planned chain's lines are
/// inside their windows, and now and then nearly all lines are, or all but one, which is just
/// outside.
fn give_times(random: &mut Random, day: &mut Day, windows: &Windows) {
    let timed = random.pick(&[0, 0, 1, 2, 3, 4]);
    let (planned_inside, most_inside) = (!random.once_in(4), random.once_in(5));
    let planned: BTreeSet<u16> = day.chain.iter().copied().collect();
    for (number, line) in day.lines.iter_mut().enumerate() {
        let window = windows.of_kind(line.kind);
        if random.below(4) < timed {
            line.time = Some(time_near(random, window));
        }
        let wanted = (planned_inside && planned.contains(&(number as u16)))
            || (most_inside && !random.once_in(8));
        if wanted && !window.has(line.time) {
            line.time = Some(time_inside(random, window));
        }
    }
    if !day.chain.is_empty() && random.once_in(5) {
        let missed = random.pick(&day.chain) as usize;
        just_outside(random, &mut day.lines[missed], windows);
    }
}

/// Puts a line at the closing second of its window, or one before the opening one, if the day has
/// such a second.
fn just_outside(random: &mut Random, line: &mut Line, windows: &Windows) {
    let Window { open, close } = windows.of_kind(line.kind);
    let time = random.pick(&[close, close, open.wrapping_sub(1)]);
    if time < DAY {
        line.time = Some(time);
    }
}

/// The planned chain, or one that differs a little, or one that shouldn't pass.
fn checked_chain(random: &mut Random, day: &mut Day) -> Vec<u16> {
    let mut chain = day.chain.clone();
    let lines = day.lines.len();
    let any = |random: &mut Random| random.below(lines.max(1)) as u16;
    for _ in 0..random.pick(&[0, 0, 0, 0, 1, 1, 1, 2]) {
        let at = random.below(chain.len() + 1);
        match random.below(8) {
            0 if at < chain.len() => chain[at] = any(random),
            1 | 2 if at < chain.len() && lines > 0 => {
                // Another line between the same places.
                let line = day.lines[chain[at] as usize % lines];
                let alike: Vec<u16> = (0..lines)
                    .filter(|&n| day.lines[n].from == line.from && day.lines[n].to == line.to)
                    .map(|n| n as u16)
                    .collect();
                chain[at] = random.pick(&alike);
            }
            3 if at < chain.len() => {
                chain.remove(at);
            }
            4 => chain.insert(at, any(random)),
            5 => {
                // A stretch of it once more.
                let end = random.between(at, chain.len());
                let again = chain[at..end].to_vec();
                for _ in 0..random.between(1, 3) {
                    chain.splice(at..at, again.iter().copied());
                }
            }
            6 => chain.truncate(at),
            _ => chain = (0..random.below(8)).map(|_| any(random)).collect(),
        }
    }
    if random.once_in(12) {
        // A line that doesn't exist, anywhere, often after a join that fails.
        let at = random.below(chain.len() + 1);
        chain.insert(at, random.pick(&[lines as u16, lines as u16 + 1, 65_535]));
        if random.once_in(2) {
            chain.insert(0, any(random));
        }
    }
    if random.once_in(30) {
        chain.clear();
    }
    chain
}

/// A list of starts in a day with so many places: none; one, most often the planned one; some; all,
/// upward, downward or in any order; a few again and again; and now and then more than 16 bits
/// count. The day's first places come more often. In one of ten a place stands somewhere that the
/// day does not have.
pub fn list_of_starts(random: &mut Random, places: u16, planned: u16) -> Vec<u16> {
    let any = |random: &mut Random| {
        let front = places.min(random.pick(&[5, places]));
        random.below(front as usize) as u16
    };
    let some = |random: &mut Random, count: usize| (0..count).map(|_| any(random)).collect();
    let mut list: Vec<u16> = match random.below(20) {
        0 | 1 => vec![],
        2..=4 => vec![planned],
        5 => vec![any(random)],
        6..=9 => {
            let count = random.between(2, 6);
            let mut list: Vec<u16> = some(random, count);
            list[random.below(count)] = planned;
            list
        }
        10 => (0..places).collect(),
        11 | 12 => (0..places).rev().collect(),
        13..=15 => {
            let mut list: Vec<u16> = (0..places).collect();
            random.shuffle(&mut list);
            list
        }
        16..=18 => {
            let few = [planned, any(random), any(random)];
            let count = random.between(2, 20);
            (0..count).map(|_| random.pick(&few)).collect()
        }
        _ => {
            let long = random.once_in(20);
            let count = if long { 65_536 } else { 20 } + random.below(100);
            some(random, count)
        }
    };
    if !list.is_empty() && random.once_in(10) {
        let last = list.len() - 1;
        let anywhere = random.below(list.len());
        let at = random.pick(&[0, last, last, anywhere]);
        list[at] = random.pick(&[places, places, places + 1, 65_535]);
    }
    list
}

/// Exactly enough, one too few, more than enough, or far too few. Areas of millions of
/// words are rare, to keep the comparison quick.
fn work_len(random: &mut Random, needed: Option<u64>) -> usize {
    match needed {
        Some(needed) if needed < 400_000 || random.once_in(60) => {
            let needed = needed as usize;
            match random.below(24) {
                0 => needed - 1,
                1 => random.below(needed),
                2 => 0,
                3..=9 => needed + random.between(1, 70),
                _ => needed,
            }
        }
        _ => random.below(12_000),
    }
}

/// The same for a search, of which no area is large; and as many words as the finder needs.
pub fn search_len(random: &mut Random, needed: u64, finders: u64) -> usize {
    let (needed, finders) = (needed as usize, finders as usize);
    if needed >= 60_000 {
        return random.below(60_000);
    }
    match random.below(24) {
        0 | 1 => needed - 1,
        2 => random.between(finders, needed) - 1,
        3 => random.below(needed),
        4 => 0,
        5..=10 => needed + random.between(1, 70),
        _ => needed,
    }
}

/// How many states a search of this size is moved on by.
pub fn amount(random: &mut Random, size: usize) -> usize {
    match random.below(16) {
        0 => 0,
        1..=5 => 1,
        6..=9 => random.between(2, 6),
        10..=13 => random.between(1, size),
        14 => random.pick(&[1 << 32, (1 << 32) + 1, usize::MAX - 1]),
        _ => random.pick(&[2 * size + 2, usize::MAX]),
    }
}

/// An area in which a search stands, or did: some words are others, or it is cut short, or both.
pub fn altered(random: &mut Random, area: &[u32]) -> Vec<u32> {
    let mut altered = area.to_vec();
    // Words beyond the last that is not 0 are slack, or tables that are still empty.
    let used = area
        .iter()
        .rposition(|&word| word != 0)
        .map_or(0, |at| at + 1);
    for _ in 0..random.pick(&[1, 1, 1, 2, 4]) {
        if altered.is_empty() {
            break;
        }
        let last = altered.len() - 1;
        let in_front = random.below(17).min(last);
        let in_pattern = random.between(17, 208).min(last);
        let in_use = random.below(used + 8).min(last);
        let anywhere = random.below(last + 1);
        let at = random.pick(&[
            in_front, in_front, in_front, in_pattern, in_use, in_use, anywhere,
        ]);
        altered[at] = other_word(random, &altered, at);
        match random.below(12) {
            0 => altered.truncate(random.below(last + 1)),
            1 => altered.truncate(random.below(used + 8)),
            2 => altered.swap(at, in_use),
            3 => altered[at..].fill(0),
            _ => {}
        }
    }
    altered
}

/// A word at the edges of what can stand there, one like those that do, or any.
fn other_word(random: &mut Random, area: &[u32], at: usize) -> u32 {
    let word = area[at];
    let like = area[random.below(area.len())];
    let any = random.draw() as u32;
    let edge = random.pick(&[
        0,
        1,
        2,
        3,
        63,
        1_024,
        1_025,
        4_096,
        4_097,
        4_098,
        1 << 20,
        1 << 31,
    ]);
    let near = random.pick(&[word.wrapping_add(1), word.wrapping_sub(1)]);
    random.pick(&[near, near, edge, edge, like, any, u32::MAX, 0x28])
}

fn room(random: &mut Random) -> Room {
    match random.below(8) {
        0 | 1 => Room::OneShort,
        2 | 3 => Room::More(random.between(1, 9)),
        4 => Room::Just(random.pick(&[0, 0, 1, 2, 40])),
        _ => Room::Exact,
    }
}

/// What lent words hold before a call: anything.
pub fn dirt(random: &mut Random, words: usize) -> Vec<u32> {
    let mut dirty = Vec::with_capacity(words + 1);
    while dirty.len() < words {
        let two = random.draw();
        dirty.push(two as u32);
        dirty.push((two >> 32) as u32);
    }
    dirty.truncate(words);
    dirty
}

pub fn dirty_bytes(random: &mut Random, bytes: usize) -> Vec<u8> {
    (0..bytes).map(|_| random.byte()).collect()
}

pub fn dirty_entries(random: &mut Random, entries: usize) -> Vec<u16> {
    (0..entries).map(|_| random.draw() as u16).collect()
}

/// A line to be added, timed or not: most often a good one, and some are bad in two ways.
pub fn new_line(random: &mut Random, places: u16) -> Line {
    let pool = pool(random);
    let mut line = any_line(random, &pool, places.max(1));
    if random.once_in(2) {
        line.time = Some(any_time(random));
    }
    for _ in 0..random.pick(&[0, 0, 1, 1, 1, 2]) {
        match random.below(9) {
            0 => line.from = random.pick(&[places, places.wrapping_sub(1), 65_535]),
            1 => line.to = random.pick(&[places, places.wrapping_sub(1), 65_535]),
            2 => line.kind = random.pick(&[0, 1, 15, 16, 255]),
            3 => line.sail = random.pick(&[16_777_215, 16_777_216, u32::MAX, 0, 0x01_0203]),
            4 => line.class = random.byte(),
            5 | 6 => line.time = Some(late_time(random)),
            _ => {}
        }
    }
    line
}
