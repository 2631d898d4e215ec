//! Is a word in a pattern's language? Straight from the clauses of source 001, section 3, with
//! what requests One and Two say about comparing boats in those of the tests, and source 000's
//! clause of the counted path for request Three, a union of powers:
//! `accepts(r, v, from, to)` says whether the letters `from..to` are a word of L(r, v).

use crate::pattern::{Node, Rule};
use crate::record::{Boat, UNREAD};
use std::collections::HashMap;

/// One letter: the kind and the boat of a line.
#[derive(Clone, Copy, PartialEq, Eq, Debug)]
pub struct Letter {
    pub kind: u8,
    pub boat: Boat,
}

/// The boat of each slot, where it has one.
pub type Valuation = [Option<Boat>; 4];

/// Is the whole word in the language of a closed pattern?
pub fn is_member(root: &Node, word: &[Letter]) -> bool {
    let mut asked = Membership {
        word,
        known: HashMap::new(),
    };
    asked.accepts(root, [None; 4], 0, word.len())
}

/// What comparing a slot's boat with a line's tells.
#[derive(Clone, Copy, PartialEq, Eq, PartialOrd, Ord, Debug)]
pub enum Outcome {
    /// One of the two numbers was not read, or both: nothing is known.
    Unread,
    SameBoat,
    /// The same class, and another number.
    SameClass,
    OtherClass,
}

pub fn compared(kept: Boat, boat: Boat) -> Outcome {
    if kept == UNREAD || boat == UNREAD {
        Outcome::Unread
    } else if kept == boat {
        Outcome::SameBoat
    } else if kept.class == boat.class {
        Outcome::SameClass
    } else {
        Outcome::OtherClass
    }
}

/// Does the rule take a line whose boat compares so?
pub fn takes(rule: Rule, outcome: Outcome) -> bool {
    match rule {
        Rule::Same => outcome == Outcome::SameBoat,
        Rule::Other => outcome == Outcome::SameClass || outcome == Outcome::OtherClass,
        Rule::Sister => outcome == Outcome::SameClass,
        Rule::Foreign => outcome == Outcome::OtherClass,
    }
}

struct Membership<'a> {
    word: &'a [Letter],
    /// Answers already found.
    known: HashMap<Stretch, bool>,
}

/// What an answer is about: the node by its address, how many rounds of it, the boats, and the
/// letters from and to.
type Stretch = (*const Node, u8, Valuation, usize, usize);

impl Membership<'_> {
    fn accepts(&mut self, r: &Node, v: Valuation, from: usize, to: usize) -> bool {
        // One letter or none is settled at once; only splits are worth remembering.
        match r {
            Node::Nothing => from == to,
            Node::Line { kind } => self.one(from, to).is_some_and(|l| l.kind == *kind),
            Node::Test { rule, kind, slot } => self.one(from, to).is_some_and(|l| {
                l.kind == *kind
                    && v[*slot as usize].is_some_and(|kept| takes(*rule, compared(kept, l.boat)))
            }),
            Node::Either(one, two) => {
                self.accepts(one, v, from, to) || self.accepts(two, v, from, to)
            }
            Node::Keep { kind, slot, inner } => {
                if from == to || self.word[from].kind != *kind {
                    return false;
                }
                let mut inside = v;
                inside[*slot as usize] = Some(self.word[from].boat);
                self.accepts(inner, inside, from + 1, to)
            }
            Node::Then(first, second) => self.remembered((r, 1, v, from, to), |asked| {
                (from..=to).any(|cut| {
                    asked.accepts(first, v, from, cut) && asked.accepts(second, v, cut, to)
                })
            }),
            // None in a row, or a first round and then more of them. A round of no
            // letters adds nothing, so the first round may be taken to have some.
            Node::Repeat(body) => {
                from == to
                    || self.remembered((r, 1, v, from, to), |asked| {
                        (from + 1..=to).any(|cut| {
                            asked.accepts(body, v, from, cut) && asked.accepts(r, v, cut, to)
                        })
                    })
            }
            Node::Counted {
                lowest,
                highest,
                inner,
            } => (*lowest..=*highest).any(|rounds| self.power(inner, rounds, v, from, to)),
        }
    }

    /// Exactly so many rounds in a row, each of which may be empty.
    fn power(&mut self, body: &Node, rounds: u8, v: Valuation, from: usize, to: usize) -> bool {
        if rounds == 0 {
            return from == to;
        }
        self.remembered((body, rounds, v, from, to), |asked| {
            (from..=to).any(|cut| {
                asked.accepts(body, v, from, cut) && asked.power(body, rounds - 1, v, cut, to)
            })
        })
    }

    /// The letter, when the stretch is one letter long.
    fn one(&self, from: usize, to: usize) -> Option<Letter> {
        if from + 1 == to {
            Some(self.word[from])
        } else {
            None
        }
    }

    fn remembered(&mut self, stretch: Stretch, find_out: impl FnOnce(&mut Self) -> bool) -> bool {
        if let Some(&answer) = self.known.get(&stretch) {
            return answer;
        }
        let answer = find_out(self);
        self.known.insert(stretch, answer);
        answer
    }
}
