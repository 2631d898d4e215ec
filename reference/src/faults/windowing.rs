//! Windows read, asked about and applied as this program does it, but for the planted fault.

use super::Fault::{self, *};
use crate::pattern::Node;
use crate::record::{Line, Record, DAY};
use crate::windows::{Window, KINDS, OPTIONS, WHOLE_DAY};
use std::array;
use std::collections::BTreeSet;

/// The windows of kinds 1 to 15, by a question's options.
fn windows(fault: Fault, options: Option<&[u32]>) -> [Window; KINDS] {
    let words = options.unwrap_or(&[]);
    let window = |number: usize| {
        let (open, close) = match fault {
            OpensThenCloses => (number, KINDS + number),
            ClosesBeforeOpens => (2 * number + 1, 2 * number),
            _ => (2 * number, 2 * number + 1),
        };
        match (words.get(open).copied(), words.get(close).copied()) {
            (Some(open), Some(close)) => Window { open, close },
            (Some(open), None) if fault == OneWordOpens => Window { open, close: DAY },
            (open, close) if fault == MissingWordsZero && options.is_some() => Window {
                open: open.unwrap_or(0),
                close: close.unwrap_or(0),
            },
            _ => WHOLE_DAY,
        }
    };
    array::from_fn(window)
}

/// Does question 27 refuse the options? Where there are none, nothing is asked.
pub fn refuses(fault: Fault, options: Option<&[u32]>, record: &Record, root: &Node) -> bool {
    let Some(words) = options else {
        return false;
    };
    let mut asked = BTreeSet::new();
    match fault {
        Asks27OfRecord => asked.extend(record.lines.iter().map(|line| line.kind)),
        Asks27OfPattern => kinds(root, &mut asked),
        Never27 => {}
        _ => asked.extend(1..=KINDS as u8),
    }
    let windows = windows(fault, options);
    let failing = asked
        .iter()
        .filter(|&&kind| !passes(fault, windows[kind as usize - 1]));
    let further = words.get(OPTIONS..).unwrap_or(&[]).chunks_exact(2);
    let mut failing_further = further.filter(|two| two[0] >= two[1] || two[1] > DAY);
    failing.count() > 0 || (fault == FurtherWordsAsked && failing_further.next().is_some())
}

/// Question 27 of one window.
fn passes(fault: Fault, window: Window) -> bool {
    let Window { open, close } = window;
    match fault {
        EmptyWindowPasses => open <= close && close <= DAY,
        LateClosePasses => open < close && close <= DAY + 1,
        WholeDayRefused => open < close && close < DAY,
        _ => open < close && close <= DAY,
    }
}

/// The kinds that a pattern names.
fn kinds(node: &Node, into: &mut BTreeSet<u8>) {
    match node {
        Node::Nothing => {}
        Node::Line { kind } | Node::Test { kind, .. } => {
            into.insert(*kind);
        }
        Node::Either(one, two) | Node::Then(one, two) => {
            kinds(one, into);
            kinds(two, into);
        }
        Node::Repeat(inner) | Node::Counted { inner, .. } => kinds(inner, into),
        Node::Keep { kind, inner, .. } => {
            into.insert(*kind);
            kinds(inner, into);
        }
    }
}

/// For each line: is it inside its window, by what the fault takes for that?
pub fn inside(fault: Fault, options: Option<&[u32]>, lines: &[Line]) -> Vec<bool> {
    let windows = windows(fault, options);
    let of_kind = |kind: u8| {
        let number = match fault {
            KindAbove => kind as usize,
            KindBelow => (kind as usize).wrapping_sub(2),
            _ => (kind as usize).wrapping_sub(1),
        };
        windows.get(number).copied().unwrap_or(WHOLE_DAY)
    };
    let inside = |line: &Line| {
        let window = of_kind(line.kind);
        match line.time {
            Some(time) => has(fault, window, time),
            None => has_untimed(fault, window, options.is_some()),
        }
    };
    lines.iter().map(inside).collect()
}

fn has(fault: Fault, window: Window, time: u32) -> bool {
    let opened = match fault {
        OpeningLeftOut => window.open < time,
        _ => window.open <= time,
    };
    let closed = match fault {
        ClosingIncluded => window.close < time,
        _ => window.close <= time,
    };
    opened && !closed
}

fn has_untimed(fault: Fault, window: Window, given: bool) -> bool {
    match fault {
        UntimedInside => true,
        UntimedFromZero => window.open == 0,
        UntimedToTheEnd => window.close == DAY,
        UntimedOutside if given => false,
        _ => window == WHOLE_DAY,
    }
}

/// The chain, its lines numbered among those inside.
pub fn renumbered(chain: Vec<u16>, inside: &[bool]) -> Vec<u16> {
    let before = |number: u16| inside[..number as usize].iter().filter(|&&is| is).count();
    chain
        .into_iter()
        .map(|number| before(number) as u16)
        .collect()
}
