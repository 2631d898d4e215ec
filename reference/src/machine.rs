//! The pattern as a machine with steps that take a line and steps that take none.
//!
//! A state of the machine is a spot, the stack of boats kept so far, each with its slot, and how
//! many rounds are done of each counted pattern around the spot. Going into a keep pushes a boat,
//! coming out of it pops one: an outer keep's boat of the same slot is then on top again. A counted
//! pattern is built once, and its rounds are counted.

use crate::pattern::{Node, Rule, DEEPEST};
use crate::record::{Line, Record};

/// A boat as one word: the class is its high byte, the sail number the three others.
pub type Word = u32;

/// The word of an unread number.
pub const NOT_READ: Word = 0;

/// The sail number of a boat's word.
pub(crate) fn sail(boat: Word) -> Word {
    boat & 0x00FF_FFFF
}

/// Are two boats of one class?
pub(crate) fn of_one_class(one: Word, two: Word) -> bool {
    one >> 24 == two >> 24
}

/// What a spot does.
#[derive(Clone, Copy, Debug)]
pub(crate) enum Spot {
    /// Takes one line that passes the test.
    Take { test: Test, next: usize },
    /// Goes on to either of two spots, taking no line.
    Fork { one: usize, two: usize },
    /// Comes out of a keep, taking no line.
    Leave { next: usize },
    /// Stands before the first round of a counted pattern.
    First { rounds: Rounds, next: usize },
    /// Stands after each round of it.
    Again { rounds: Rounds, next: usize },
    /// The whole pattern is done.
    Done,
}

/// How many rounds are wanted, and where one starts.
#[derive(Clone, Copy, Debug)]
pub(crate) struct Rounds {
    lowest: u8,
    highest: u8,
    body: usize,
}

#[derive(Clone, Copy, Debug)]
pub(crate) enum Test {
    Kind(u8),
    Boat(Rule, u8, u8),
    /// Passes on the kind, and pushes the line's boat under this slot.
    Keep(u8, u8),
}

impl Test {
    /// The stack after a line that passes.
    pub(crate) fn passed(self, stack: Stack, line: &Line, boat: Word) -> Option<Stack> {
        match self {
            Test::Kind(kind) => (line.kind == kind).then_some(stack),
            Test::Boat(rule, kind, slot) => {
                (line.kind == kind && meets(rule, stack.boat_of(slot)?, boat)).then_some(stack)
            }
            Test::Keep(kind, slot) => (line.kind == kind).then(|| stack.pushed(slot, boat)),
        }
    }
}

/// Does a line's boat pass the rule, that boat being kept? With an unread number it passes none.
pub(crate) fn meets(rule: Rule, kept: Word, boat: Word) -> bool {
    kept != NOT_READ && boat != NOT_READ && agrees(rule, kept, boat)
}

/// The same of boats that were read.
pub(crate) fn agrees(rule: Rule, kept: Word, boat: Word) -> bool {
    match rule {
        Rule::Same => kept == boat,
        Rule::Other => kept != boat,
        Rule::Sister => of_one_class(kept, boat) && kept != boat,
        Rule::Foreign => !of_one_class(kept, boat),
    }
}

/// One boat on the stack, with its slot.
#[derive(Clone, Copy, PartialEq, Eq, PartialOrd, Ord, Hash, Debug, Default)]
struct Kept {
    slot: u8,
    boat: Word,
}

/// The boats kept, the outermost keep's first.
#[derive(Clone, Copy, PartialEq, Eq, PartialOrd, Ord, Hash, Debug, Default)]
pub struct Stack {
    depth: u8,
    kept: [Kept; DEEPEST],
}

impl Stack {
    fn pushed(mut self, slot: u8, boat: Word) -> Stack {
        self.kept[self.depth as usize] = Kept { slot, boat };
        self.depth += 1;
        self
    }

    fn popped(mut self) -> Stack {
        self.depth -= 1;
        self.kept[self.depth as usize] = Kept::default();
        self
    }

    /// The boat of the innermost keep of this slot.
    pub(crate) fn boat_of(&self, slot: u8) -> Option<Word> {
        self.kept[..self.depth as usize]
            .iter()
            .rev()
            .find(|kept| kept.slot == slot)
            .map(|kept| kept.boat)
    }
}

/// A state; between two lines it is at a spot that takes a line, or done.
#[derive(Clone, Copy, PartialEq, Eq, PartialOrd, Ord, Hash, Debug)]
pub struct State {
    pub(crate) spot: u8,
    /// The rounds done of the counted patterns around the spot, the innermost one's the lowest
    /// digit, each digit below the pattern's highest count. The product of these counts is below
    /// the unfolded count, so it is a number below 63.
    pub(crate) rounds: u8,
    pub(crate) stack: Stack,
}

impl State {
    pub(crate) fn at(self, spot: usize) -> State {
        State {
            spot: spot as u8,
            ..self
        }
    }

    fn counted(self, rounds: u8) -> State {
        State { rounds, ..self }
    }

    fn popped(self) -> State {
        State {
            stack: self.stack.popped(),
            ..self
        }
    }
}

pub struct Machine {
    pub(crate) spots: Vec<Spot>,
    start: usize,
    done: usize,
}

impl Machine {
    pub fn new(root: &Node) -> Machine {
        let mut spots = vec![Spot::Done];
        let start = build(&mut spots, root, 0);
        Machine {
            spots,
            start,
            done: 0,
        }
    }

    /// The state before everything.
    pub(crate) fn start(&self) -> State {
        State {
            spot: self.start as u8,
            rounds: 0,
            stack: Stack::default(),
        }
    }

    /// The states before the first line.
    pub fn begin(&self) -> Vec<State> {
        let mut states = Vec::new();
        self.settle(self.start(), &mut states);
        states
    }

    /// Adds the states after a line of this kind and boat, taken in a state.
    pub fn take(&self, state: State, line: &Line, boat: Word, after: &mut Vec<State>) {
        let Spot::Take { test, next } = self.spots[state.spot as usize] else {
            return;
        };
        if let Some(stack) = test.passed(state.stack, line, boat) {
            self.settle(State { stack, ..state }.at(next), after);
        }
    }

    pub fn is_done(&self, state: State) -> bool {
        state.spot as usize == self.done
    }

    /// Where a state goes on to without a line, or `None` where it stays for one or is done.
    pub(crate) fn silent(&self, state: State) -> Option<[Option<State>; 2]> {
        Some(match self.spots[state.spot as usize] {
            Spot::Take { .. } | Spot::Done => return None,
            Spot::Fork { one, two } => [Some(state.at(one)), Some(state.at(two))],
            Spot::Leave { next } => [Some(state.popped().at(next)), None],
            Spot::First { rounds, next } => {
                let first = state.counted(state.rounds * rounds.highest);
                let none = (rounds.lowest == 0).then_some(state.at(next));
                [Some(first.at(rounds.body)), none]
            }
            Spot::Again { rounds, next } => {
                let done = state.rounds % rounds.highest + 1;
                let more = state.counted(state.rounds + 1).at(rounds.body);
                let out = state.counted(state.rounds / rounds.highest).at(next);
                [
                    (done < rounds.highest).then_some(more),
                    (done >= rounds.lowest).then_some(out),
                ]
            }
        })
    }

    /// Follows the steps that take no line. From one state, a spot can be met with one
    /// stack only, since leaving a keep is all that such steps do to it; so each spot is
    /// looked at once with each count of rounds.
    pub(crate) fn settle(&self, state: State, into: &mut Vec<State>) {
        let mut met = [0u64; 128];
        let mut waiting = vec![state];
        while let Some(state) = waiting.pop() {
            let (met, count) = (&mut met[state.spot as usize], 1 << state.rounds);
            if *met & count != 0 {
                continue;
            }
            *met |= count;
            match self.silent(state) {
                None => into.push(state),
                Some(next) => waiting.extend(next.into_iter().flatten()),
            }
        }
    }

    /// Is the word of these lines accepted? Lines are given with their boats.
    pub fn accepts<'a>(&self, word: impl Iterator<Item = (&'a Line, Word)>) -> bool {
        let mut states = self.begin();
        let mut after = Vec::new();
        for (line, boat) in word {
            after.clear();
            for &state in &states {
                self.take(state, line, boat, &mut after);
            }
            after.sort_unstable();
            after.dedup();
            std::mem::swap(&mut states, &mut after);
            if states.is_empty() {
                return false;
            }
        }
        states.iter().any(|&state| self.is_done(state))
    }
}

/// Adds the spots of a pattern that goes on to `next`, and says where it starts.
fn build(spots: &mut Vec<Spot>, node: &Node, next: usize) -> usize {
    let added = match node {
        Node::Nothing => return next,
        Node::Line { kind } => Spot::Take {
            test: Test::Kind(*kind),
            next,
        },
        Node::Test { rule, kind, slot } => Spot::Take {
            test: Test::Boat(*rule, *kind, *slot),
            next,
        },
        Node::Either(one, two) => Spot::Fork {
            one: build(spots, one, next),
            two: build(spots, two, next),
        },
        Node::Then(first, second) => {
            let middle = build(spots, second, next);
            return build(spots, first, middle);
        }
        Node::Repeat(body) => {
            // The fork stands before the body, and the body goes back to it.
            let fork = spots.len();
            spots.push(Spot::Fork {
                one: next,
                two: next,
            });
            let round = build(spots, body, fork);
            spots[fork] = Spot::Fork {
                one: round,
                two: next,
            };
            return fork;
        }
        Node::Counted { highest: 0, .. } => return next,
        Node::Counted {
            lowest,
            highest,
            inner,
        } => {
            // What stands after a round is there before the body, which goes on to it.
            let again = spots.len();
            spots.push(Spot::Leave { next });
            let rounds = Rounds {
                lowest: *lowest,
                highest: *highest,
                body: build(spots, inner, again),
            };
            spots[again] = Spot::Again { rounds, next };
            Spot::First { rounds, next }
        }
        Node::Keep { kind, slot, inner } => {
            spots.push(Spot::Leave { next });
            let leave = spots.len() - 1;
            Spot::Take {
                test: Test::Keep(*kind, *slot),
                next: build(spots, inner, leave),
            }
        }
    };
    spots.push(added);
    spots.len() - 1
}

/// Each line's boat.
pub fn boat_words(record: &Record) -> Vec<Word> {
    let lines = record.lines.iter();
    lines
        .map(|line| (line.class as Word) << 24 | line.sail)
        .collect()
}
