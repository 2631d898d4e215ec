//! The positions of a pattern: its commands in the order of their bytes, those of a counted pattern
//! once for each round that may come, and the end after them. A search under way (request Five)
//! stands at positions, since the words of its area do; the machine counts rounds instead.

use crate::pattern::{Node, Pattern, Rule};
use std::collections::BTreeSet;

/// Which lines a position takes.
#[derive(Clone, Copy, PartialEq, Eq, Debug)]
pub struct Take {
    pub kind: u8,
    /// The rule that the line's boat has to meet, and the level of the boat that it is compared
    /// with: how many keeps stand around the one that kept it.
    pub test: Option<(Rule, usize)>,
    /// Is the line's boat kept?
    pub keeps: bool,
}

#[derive(Clone, PartialEq, Eq, Debug)]
pub struct Position {
    /// `None` where no line is taken: the end, and every command that only says where to go on.
    pub take: Option<Take>,
    /// How many keeps stand around it.
    pub depth: usize,
    /// The positions that may come after its line: those that take a line themselves, and the end.
    pub next: BTreeSet<usize>,
}

#[derive(Clone, PartialEq, Eq, Debug)]
pub struct Positions {
    /// The last one is the end.
    pub all: Vec<Position>,
    /// Those that may come first.
    pub first: BTreeSet<usize>,
}

impl Positions {
    pub fn of(pattern: &Pattern) -> Positions {
        let end = pattern.unfolded;
        let mut steps = Vec::new();
        unfold(&mut steps, &pattern.root, &[], &[end]);
        assert_eq!(
            steps.len(),
            end,
            "the unfolded count is that of the positions"
        );
        steps.push(Step {
            take: None,
            depth: 0,
            onward: Vec::new(),
        });
        let position = |step: &Step| Position {
            take: step.take,
            depth: step.depth,
            next: match step.take {
                Some(_) => standing(&steps, &step.onward),
                None => BTreeSet::new(),
            },
        };
        Positions {
            all: steps.iter().map(position).collect(),
            first: standing(&steps, &[0]),
        }
    }

    pub fn end(&self) -> usize {
        self.all.len() - 1
    }
}

/// A command: what it takes, if it takes a line, and the positions before which one stands then.
struct Step {
    take: Option<Take>,
    depth: usize,
    onward: Vec<usize>,
}

/// Adds the commands of a pattern inside keeps of the slots `around`, the outermost first; after it
/// one stands before one of the positions `next`.
fn unfold(steps: &mut Vec<Step>, node: &Node, around: &[u8], next: &[usize]) {
    let here = steps.len();
    let depth = around.len();
    let silent = |onward: Vec<usize>| Step {
        take: None,
        depth,
        onward,
    };
    let taking = |kind, test, keeps, onward: &[usize]| Step {
        take: Some(Take { kind, test, keeps }),
        depth,
        onward: onward.to_vec(),
    };
    // The position after a pattern that begins right after this command.
    let past = |node: &Node| here + 1 + node.unfolded() as usize;
    match node {
        Node::Nothing => steps.push(silent(next.to_vec())),
        Node::Line { kind } => steps.push(taking(*kind, None, false, next)),
        Node::Test { rule, kind, slot } => {
            let level = around.iter().rposition(|kept| kept == slot);
            let level = level.expect("question 12 was asked");
            steps.push(taking(*kind, Some((*rule, level)), false, next));
        }
        Node::Either(one, two) => {
            steps.push(silent(vec![here + 1, past(one)]));
            unfold(steps, one, around, next);
            unfold(steps, two, around, next);
        }
        Node::Then(first, second) => {
            steps.push(silent(vec![here + 1]));
            unfold(steps, first, around, &[past(first)]);
            unfold(steps, second, around, next);
        }
        Node::Repeat(body) => {
            steps.push(silent([&[here + 1], next].concat()));
            unfold(steps, body, around, &[here]);
        }
        Node::Keep { kind, slot, inner } => {
            steps.push(taking(*kind, None, true, &[here + 1]));
            unfold(steps, inner, &[around, &[*slot]].concat(), next);
        }
        Node::Counted {
            lowest,
            highest,
            inner,
        } => {
            // Where one stands when so many rounds are done: before one more, and after all.
            let done = |rounds: u8| {
                let more = (rounds < *highest)
                    .then(|| here + 1 + rounds as usize * inner.unfolded() as usize);
                let enough = next.iter().copied().filter(|_| rounds >= *lowest);
                more.into_iter().chain(enough).collect::<Vec<usize>>()
            };
            steps.push(silent(done(0)));
            for rounds in 1..=*highest {
                unfold(steps, inner, around, &done(rounds));
            }
        }
    }
}

/// The positions at which one can stand for a line, or at the end, from before these positions.
fn standing(steps: &[Step], before: &[usize]) -> BTreeSet<usize> {
    let end = steps.len() - 1;
    let mut met = BTreeSet::new();
    let mut waiting = before.to_vec();
    while let Some(at) = waiting.pop() {
        if met.insert(at) && steps[at].take.is_none() {
            waiting.extend(&steps[at].onward);
        }
    }
    met.retain(|&at| at == end || steps[at].take.is_some());
    met
}
