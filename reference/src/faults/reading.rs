//! Records and patterns read as this program reads them, but for the planted fault.

use super::Fault::{self, *};
use crate::pattern::{Node, Pattern, Rule, DEEPEST, MOST_COMMANDS, MOST_ROUNDS};
use crate::record::{Line, Record, DAY, LONGEST, MOST_LINES, MOST_PLACES, SAIL_LIMIT};
use std::collections::BTreeSet;

// ---- records

/// Question 2, of a count.
pub fn places_pass(fault: Fault, places: u16) -> bool {
    match places {
        0 => fault == NoPlacesPass,
        1_025 => fault == MorePlacesPass,
        _ => places <= MOST_PLACES,
    }
}

/// Does a line fail question 5, 6, 28 or else 21?
pub fn fails(fault: Fault, line: &Line, places: u16, question: u8) -> bool {
    let day = match fault {
        DayPasses => DAY + 1,
        LastSecondRefused => DAY - 1,
        _ => DAY,
    };
    match question {
        5 => line.from >= places || (line.to >= places && fault != AsksFromOnly),
        6 => !(1..=15).contains(&line.kind),
        28 => line.time.is_some_and(|time| time >= day),
        _ => line.sail >= SAIL_LIMIT,
    }
}

/// The questions of a line of a record, in order.
fn asked_of_line(fault: Fault, line: &Line, places: u16) -> Result<(), u8> {
    let order: &[u8] = match fault {
        QuestionByQuestion => &[],
        Asks28Before6 => &[5, 28, 6],
        Never28OfRecord => &[5, 6],
        _ => &[5, 6, 28],
    };
    let failing = order.iter().find(|q| fails(fault, line, places, **q));
    failing.map_or(Ok(()), |number| Err(*number))
}

pub fn read_record(fault: Fault, bytes: &[u8]) -> Result<Record, u8> {
    let longest = match fault {
        LimitAsBefore => 4 + 10 * MOST_LINES,
        _ => LONGEST,
    };
    if bytes.len() > longest {
        return Err(1);
    }
    let &[0x01, high, low, ..] = bytes else {
        return Err(2);
    };
    let places = u16::from_be_bytes([high, low]);
    if !places_pass(fault, places) {
        return Err(2);
    }
    let mut lines: Vec<Line> = Vec::new();
    let mut at = 3;
    loop {
        let timed = match bytes.get(at) {
            Some(0x02) => false,
            Some(0x03) if fault != TimedRefused => true,
            Some(0x00) if at + 1 == bytes.len() => break,
            Some(0x00) => return Err(7),
            _ => return Err(3),
        };
        let wanted = if timed && fault != TenBytesFor4 {
            14
        } else {
            10
        };
        let cut = bytes.len() - at < wanted;
        if cut && fault == Asks22After4 {
            return Err(4);
        }
        if is_full(fault, &lines, timed) {
            return Err(22);
        }
        if cut {
            return Err(4);
        }
        let line = line_at(fault, bytes, at);
        asked_of_line(fault, &line, places)?;
        lines.push(line);
        at += if timed && fault != OffsetByTen {
            14
        } else {
            10
        };
    }
    if fault == QuestionByQuestion {
        for question in [5, 6, 28] {
            if lines
                .iter()
                .any(|line| fails(fault, line, places, question))
            {
                return Err(question);
            }
        }
    }
    Ok(Record { places, lines })
}

/// Has a record of these lines no room for one more, timed or not?
fn is_full(fault: Fault, lines: &[Line], timed: bool) -> bool {
    let alike = lines.iter().filter(|line| line.time.is_some() == timed);
    match fault {
        Never22OfRecord => false,
        TimedCountedApart if lines.len() >= MOST_LINES => alike.count() == MOST_LINES,
        _ => lines.len() >= MOST_LINES,
    }
}

/// The line that stands at a place of a record; bytes that are not there are 0.
pub fn line_at(fault: Fault, bytes: &[u8], at: usize) -> Line {
    let byte = |more: usize| bytes.get(at + more).copied().unwrap_or(0);
    let time = [byte(10), byte(11), byte(12), byte(13)];
    let time = match fault {
        TimeLowFirst => u32::from_le_bytes(time),
        TimeIn16Bits => u32::from_be_bytes(time) & 0xFFFF,
        _ => u32::from_be_bytes(time),
    };
    Line {
        from: u16::from_be_bytes([byte(1), byte(2)]),
        kind: byte(3),
        class: byte(4),
        sail: u32::from_be_bytes([0, byte(5), byte(6), byte(7)]),
        to: u16::from_be_bytes([byte(8), byte(9)]),
        time: (byte(0) == 0x03).then_some(time),
    }
}

// ---- patterns

pub fn read_pattern(fault: Fault, bytes: &[u8]) -> Result<Pattern, u8> {
    let mut reader = Reader {
        fault,
        bytes,
        at: 0,
        commands: 0,
        kept: Vec::new(),
        deepest: 0,
    };
    let root = reader.node(&[])?;
    let more = bytes.len() - reader.at;
    if fault == NineAfterTheEnd && reader.commands + more > MOST_COMMANDS {
        return Err(9);
    }
    let unfolded = unfolded(fault, &root);
    let most = most_commands(fault) as u128;
    match fault {
        Asks9Unfolded if unfolded > most => return Err(9),
        Asks25Before14 if unfolded > most => return Err(25),
        _ => {}
    }
    if more > 0 && fault != NeverAsks14 {
        return Err(14);
    }
    if unfolded > most && fault != Asks25AsWritten {
        return Err(25);
    }
    let keeps = match fault {
        SizeByAllKeeps => reader.kept.len(),
        SizeBySlots => different(&reader.kept),
        SizeByKeepsOfRounds => keeps_of_rounds(&root),
        _ => reader.deepest,
    };
    Ok(Pattern {
        root,
        commands: reader.commands,
        // A count that should have been refused may be any number.
        unfolded: unfolded.min(u32::MAX as u128) as usize,
        keeps,
    })
}

/// The limit of questions 9 and 25.
fn most_commands(fault: Fault) -> usize {
    MOST_COMMANDS + (fault == SixtyFourPass) as usize
}

/// The unfolded count, by what the fault takes it for.
fn unfolded(fault: Fault, node: &Node) -> u128 {
    let inside = match node {
        Node::Either(one, two) | Node::Then(one, two) => {
            unfolded(fault, one).saturating_add(unfolded(fault, two))
        }
        Node::Repeat(inner) | Node::Keep { inner, .. } => unfolded(fault, inner),
        Node::Counted { highest, inner, .. } => {
            let times = (*highest).max((fault == CountsNoRounds) as u8);
            unfolded(fault, inner).saturating_mul(times as u128)
        }
        _ => 0,
    };
    let count = inside.saturating_add(1);
    match fault {
        CountIn8Bits => count as u8 as u128,
        CountIn32Bits => count as u32 as u128,
        CountIn64Bits => count as u64 as u128,
        _ => count,
    }
}

/// The nesting of keeps, each round's being nested in those of the round before.
fn keeps_of_rounds(node: &Node) -> usize {
    match node {
        Node::Either(one, two) | Node::Then(one, two) => {
            keeps_of_rounds(one).max(keeps_of_rounds(two))
        }
        Node::Repeat(inner) => keeps_of_rounds(inner),
        Node::Keep { inner, .. } => 1 + keeps_of_rounds(inner),
        Node::Counted { highest, inner, .. } => {
            let once = keeps_of_rounds(inner);
            // More are as wrong as these.
            (once * (*highest).max(1) as usize).min(DEEPEST)
        }
        _ => 0,
    }
}

fn different(slots: &[u8]) -> usize {
    slots.iter().collect::<BTreeSet<_>>().len()
}

struct Reader<'a> {
    fault: Fault,
    bytes: &'a [u8],
    at: usize,
    commands: usize,
    /// The slots of all keeps so far.
    kept: Vec<u8>,
    deepest: usize,
}

impl Reader<'_> {
    fn node(&mut self, around: &[u8]) -> Result<Node, u8> {
        let most = most_commands(self.fault);
        if self.fault == Asks9Before8 && self.commands >= most {
            return Err(9);
        }
        let command = match self.bytes.get(self.at) {
            Some(&command @ 0x20..=0x2A) => command,
            Some(&command @ 0x2B..=0x2F) if self.fault == SixteenCommands => command,
            _ => return Err(8),
        };
        self.commands += 1;
        if self.commands > most {
            return Err(9);
        }
        let width = match command {
            0x21 => 1,
            0x22 | 0x23 | 0x27..=0x2A => 2,
            _ => 0,
        };
        if command == 0x2A {
            if self.fault == CountsAsOperands {
                self.operands(width)?;
            }
            return self.counted(around);
        }
        let (kind, slot) = self.operands(width)?;
        self.at += 1 + width;
        let boxed = |node: Node| Box::new(node);
        if let Some(rule) = Rule::of(command) {
            if !self.kept_passes(rule, slot, around) {
                return Err(12);
            }
            return Ok(Node::Test { rule, kind, slot });
        }
        Ok(match command {
            0x21 => Node::Line { kind },
            0x24 => Node::Either(boxed(self.node(around)?), boxed(self.node(around)?)),
            0x25 => Node::Then(boxed(self.node(around)?), boxed(self.node(around)?)),
            0x26 => Node::Repeat(boxed(self.node(around)?)),
            0x27 => {
                self.kept.push(slot);
                let inside = [around, &[slot]].concat();
                let deep = match self.fault {
                    CountsAllKeeps => self.kept.len(),
                    CountsSlots => different(&inside),
                    _ => inside.len(),
                };
                if deep > DEEPEST {
                    return Err(13);
                }
                self.deepest = self.deepest.max(inside.len());
                let inner = boxed(self.node(&inside)?);
                Node::Keep { kind, slot, inner }
            }
            _ => Node::Nothing,
        })
    }

    /// Questions 10 and 24 of a counted pattern, and what stands inside.
    fn counted(&mut self, around: &[u8]) -> Result<Node, u8> {
        let Some(&[lowest, highest]) = self.bytes.get(self.at + 1..self.at + 3) else {
            return Err(10);
        };
        let most = MOST_ROUNDS + (self.fault == TwentyOneRounds) as u8;
        let allowed = match self.fault {
            EqualCountsRefused => lowest < highest,
            LowestAbove => true,
            _ => lowest <= highest,
        };
        let refused = !allowed || highest > most;
        if refused && self.fault != Asks24Inside {
            return Err(24);
        }
        self.at += 3;
        let deepest = self.deepest;
        let inner = Box::new(self.node(around)?);
        if refused {
            return Err(24);
        }
        if highest == 0 && self.fault == KeepsOfNoRounds {
            self.deepest = deepest;
        }
        Ok(Node::Counted {
            lowest,
            highest,
            inner,
        })
    }

    /// Question 12.
    fn kept_passes(&self, rule: Rule, slot: u8, around: &[u8]) -> bool {
        match (self.fault, rule) {
            (Never12OfSister, Rule::Sister) | (Never12OfForeign, Rule::Foreign) => true,
            (KeptEarlier, _) => self.kept.contains(&slot),
            _ => around.contains(&slot),
        }
    }

    /// Questions 10 and 11: kind and slot, 0 where the command has none.
    fn operands(&self, width: usize) -> Result<(u8, u8), u8> {
        let given = &self.bytes[self.at + 1..];
        let kind_passes = |kind: &u8| (1..=15).contains(kind);
        if self.fault == AsksByOperand
            && width > 0
            && given.first().is_some_and(|k| !kind_passes(k))
        {
            return Err(11);
        }
        let Some(operands) = given.get(..width) else {
            return Err(10);
        };
        if operands.first().is_some_and(|kind| !kind_passes(kind)) {
            return Err(11);
        }
        if operands.get(1).is_some_and(|&slot| slot > 3) {
            return Err(if self.fault == SlotByKeptOnly { 12 } else { 11 });
        }
        let operand = |at: usize| operands.get(at).copied().unwrap_or(0);
        Ok((operand(0), operand(1)))
    }
}

// ---- wrong languages, as other patterns

/// The pattern whose language the fault takes for this one's. One that would be too large for
/// the machine is left as it is: the fault shows with smaller ones.
pub fn misread(fault: Fault, root: Node) -> Node {
    let other = rewritten(fault, root.clone());
    if fits_machine(&other) {
        other
    } else {
        root
    }
}

/// Is the pattern small enough for the machine? What passes the questions is.
pub fn fits_machine(node: &Node) -> bool {
    nesting(node) <= DEEPEST && node.unfolded() <= MOST_COMMANDS as u128
}

/// A pattern that accepts no word: no line is of this kind.
const NEVER: Node = Node::Line { kind: 0 };

fn rewritten(fault: Fault, node: Node) -> Node {
    let inside = |node: Box<Node>| Box::new(rewritten(fault, *node));
    match node {
        // A repeat inside a repeat stays as it is, since every copy of it would be copied.
        Node::Repeat(body) if fault == RepeatOnce && !repeats(&body) => {
            let body = inside(body);
            Node::Then(body.clone(), Box::new(Node::Repeat(body)))
        }
        Node::Test {
            rule: Rule::Other,
            slot,
            ..
        } if fault == OtherAnyKind => {
            let rule = Rule::Other;
            (2..=15).fold(
                Node::Test {
                    rule,
                    kind: 1,
                    slot,
                },
                |any, kind| Node::Either(Box::new(any), Box::new(Node::Test { rule, kind, slot })),
            )
        }
        // What follows a keep is read as if it stood inside.
        Node::Then(first, second) => match (inside(first), inside(second)) {
            (first, second) if fault == InnerBoatStays => match *first {
                Node::Keep { kind, slot, inner } => Node::Keep {
                    kind,
                    slot,
                    inner: Box::new(rewritten(fault, Node::Then(inner, second))),
                },
                first => Node::Then(Box::new(first), second),
            },
            (first, second) => Node::Then(first, second),
        },
        Node::Either(one, two) => Node::Either(inside(one), inside(two)),
        Node::Repeat(body) => Node::Repeat(inside(body)),
        Node::Keep { kind, slot, inner } => Node::Keep {
            kind,
            slot,
            inner: inside(inner),
        },
        Node::Counted {
            lowest,
            highest,
            inner,
        } => rounds(fault, lowest, highest, inside(inner)),
        leaf => leaf,
    }
}

/// What the fault takes so many rounds for. Where rounds stand in rounds, those faults that write
/// a round more than once leave the outer ones as they are.
fn rounds(fault: Fault, lowest: u8, highest: u8, inner: Box<Node>) -> Node {
    let counted = |lowest: u8, highest: u8, inner: &Node| Node::Counted {
        lowest,
        highest,
        inner: Box::new(inner.clone()),
    };
    let innermost = !has_rounds(&inner);
    match fault {
        LowestNotWanted => counted(0, highest, &inner),
        HighestExcluded if lowest == highest => NEVER,
        HighestExcluded => counted(lowest, highest - 1, &inner),
        OneRoundMore => counted(lowest, highest + 1, &inner),
        HighestLeftOut if innermost => Node::Then(
            Box::new(counted(lowest, lowest, &inner)),
            Box::new(Node::Repeat(inner)),
        ),
        EndsOnly if innermost => Node::Either(
            Box::new(counted(lowest, lowest, &inner)),
            Box::new(counted(highest, highest, &inner)),
        ),
        EmptyRoundsLeftOut if innermost => match with_lines(&inner) {
            Some(inner) => counted(lowest, highest, &inner),
            None if lowest == 0 => Node::Nothing,
            None => NEVER,
        },
        // More rounds nest deeper than the machine goes.
        RoundBoatStays if innermost && highest <= DEEPEST as u8 => {
            in_a_row(lowest, highest, &inner)
        }
        _ => counted(lowest, highest, &inner),
    }
}

/// The words of a pattern without rounds that are not empty, where there are any.
fn with_lines(node: &Node) -> Option<Node> {
    let either = |one: Option<Node>, two: Option<Node>| match (one, two) {
        (Some(one), Some(two)) => Some(Node::Either(Box::new(one), Box::new(two))),
        (one, two) => one.or(two),
    };
    let then = |first: Option<Node>, second: &Node| {
        first.map(|first| Node::Then(Box::new(first), Box::new(second.clone())))
    };
    match node {
        Node::Nothing => None,
        Node::Either(one, two) => either(with_lines(one), with_lines(two)),
        Node::Then(first, second) => either(
            then(with_lines(first), second),
            with_lines(second).filter(|_| takes_none(first)),
        ),
        Node::Repeat(body) => then(with_lines(body), node),
        other => Some(other.clone()),
    }
}

/// Does a pattern without rounds accept the empty word?
fn takes_none(node: &Node) -> bool {
    match node {
        Node::Nothing | Node::Repeat(_) => true,
        Node::Either(one, two) => takes_none(one) || takes_none(two),
        Node::Then(first, second) => takes_none(first) && takes_none(second),
        _ => false,
    }
}

/// Rounds one after the other, each read as if it stood inside the keeps of the one before.
fn in_a_row(lowest: u8, highest: u8, inner: &Node) -> Node {
    if highest == 0 {
        return Node::Nothing;
    }
    let more = in_a_row(lowest.saturating_sub(1), highest - 1, inner);
    let row = kept_on(inner.clone(), more);
    if lowest == 0 {
        Node::Either(Box::new(Node::Nothing), Box::new(row))
    } else {
        row
    }
}

/// The first and then the second, which stands inside the keep that the first ends with.
fn kept_on(first: Node, second: Node) -> Node {
    match first {
        Node::Keep { kind, slot, inner } => Node::Keep {
            kind,
            slot,
            inner: Box::new(kept_on(*inner, second)),
        },
        Node::Then(one, two) => Node::Then(one, Box::new(kept_on(*two, second))),
        Node::Either(one, two) => Node::Either(
            Box::new(kept_on(*one, second.clone())),
            Box::new(kept_on(*two, second)),
        ),
        first => Node::Then(Box::new(first), Box::new(second)),
    }
}

/// How deep keeps are nested.
fn nesting(node: &Node) -> usize {
    match node {
        Node::Either(one, two) | Node::Then(one, two) => nesting(one).max(nesting(two)),
        Node::Repeat(inner) | Node::Counted { inner, .. } => nesting(inner),
        Node::Keep { inner, .. } => 1 + nesting(inner),
        _ => 0,
    }
}

/// Is there such a command in it?
fn has(node: &Node, is: fn(&Node) -> bool) -> bool {
    is(node)
        || match node {
            Node::Either(one, two) | Node::Then(one, two) => has(one, is) || has(two, is),
            Node::Repeat(inner) | Node::Keep { inner, .. } | Node::Counted { inner, .. } => {
                has(inner, is)
            }
            _ => false,
        }
}

fn repeats(node: &Node) -> bool {
    has(node, |node| matches!(node, Node::Repeat(_)))
}

fn has_rounds(node: &Node) -> bool {
    has(node, |node| matches!(node, Node::Counted { .. }))
}
