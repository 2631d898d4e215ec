//! Chains: when one leads from a place to a place, when it is accepted, and the first
//! shortest accepted one, found in two ways that share nothing but the record.

use crate::machine::{boat_words, Machine, State};
use crate::membership::{is_member, Letter};
use crate::pattern::Pattern;
use crate::record::Record;
use std::collections::HashSet;
use std::hash::{BuildHasherDefault, Hasher};

/// A request that has passed the questions before the search.
pub struct Asked {
    pub record: Record,
    /// For each line: is it inside its kind's window? Others are in no accepted chain, but they
    /// keep their numbers.
    pub inside: Vec<bool>,
    pub pattern: Pattern,
    pub from: u16,
    pub to: u16,
}

impl Asked {
    /// Does the chain lead from the first asked place to the second? All its lines exist.
    pub fn leads(&self, chain: &[u16]) -> bool {
        let mut place = self.from;
        for &number in chain {
            let line = &self.record.lines[number as usize];
            if line.from != place {
                return false;
            }
            place = line.to;
        }
        place == self.to
    }

    /// The kind and boat of each line of a chain, in order.
    pub fn word(&self, chain: &[u16]) -> Vec<Letter> {
        let letter = |&number: &u16| {
            let line = &self.record.lines[number as usize];
            Letter {
                kind: line.kind,
                boat: line.boat(),
            }
        };
        chain.iter().map(letter).collect()
    }

    /// Are all lines of a chain inside their windows?
    pub fn is_inside(&self, chain: &[u16]) -> bool {
        chain.iter().all(|&number| self.inside[number as usize])
    }

    /// Is the chain accepted, by the language's clauses?
    pub fn accepted_by_clauses(&self, chain: &[u16]) -> bool {
        self.leads(chain)
            && self.is_inside(chain)
            && is_member(&self.pattern.root, &self.word(chain))
    }

    /// Is the chain accepted, by the machine?
    pub fn accepted_by_machine(&self, chain: &[u16]) -> bool {
        let boats = boat_words(&self.record);
        let lines = chain.iter().map(|&number| {
            let number = number as usize;
            (&self.record.lines[number], boats[number])
        });
        self.leads(chain)
            && self.is_inside(chain)
            && Machine::new(&self.pattern.root).accepts(lines)
    }

    /// The numbers of the lines from each place, in order, those outside among them.
    fn lines_from(&self) -> Vec<Vec<u16>> {
        let mut from = vec![Vec::new(); self.record.places as usize];
        for (number, line) in self.record.lines.iter().enumerate() {
            from[line.from as usize].push(number as u16);
        }
        from
    }

    /// The same without those outside.
    pub(crate) fn usable_from(&self) -> Vec<Vec<u16>> {
        let mut from = self.lines_from();
        for lines in from.iter_mut() {
            lines.retain(|&number| self.inside[number as usize]);
        }
        from
    }
}

/// What trying all chains in order came to.
#[derive(Clone, PartialEq, Eq, Debug)]
pub enum Tried {
    /// The first accepted chain in the order of length, then line numbers.
    First(Vec<u16>),
    /// No chain from the first place is accepted, and there are no others.
    NoChain,
    /// No chain below this length is accepted; too many are left.
    NoneBelow(usize),
}

/// Tries every chain from the first place, shorter ones first and those of one length by
/// line numbers, as long as no more than `most` have to be looked at and none is longer
/// than `longest`: the clauses take long for long words.
pub fn try_all(asked: &Asked, most: usize, longest: usize) -> Tried {
    let lines_from = asked.lines_from();
    let mut chains: Vec<(Vec<u16>, u16)> = vec![(Vec::new(), asked.from)];
    let mut looked_at = 0;
    let mut length = 0;
    loop {
        looked_at += chains.len();
        if looked_at > most || length > longest {
            return Tried::NoneBelow(length);
        }
        if chains.is_empty() {
            return Tried::NoChain;
        }
        for (chain, _) in &chains {
            if asked.accepted_by_clauses(chain) {
                return Tried::First(chain.clone());
            }
        }
        // In order, each made longer by the lines in order: in order again.
        let mut longer = Vec::new();
        for (chain, end) in &chains {
            for &number in &lines_from[*end as usize] {
                let mut next = chain.clone();
                next.push(number);
                longer.push((next, asked.record.lines[number as usize].to));
            }
            if longer.len() > most {
                return Tried::NoneBelow(length + 1);
            }
        }
        chains = longer;
        length += 1;
    }
}

/// A place and a state of the machine.
#[derive(Clone, Copy, PartialEq, Eq, Hash, Debug)]
struct Standing {
    place: u16,
    state: State,
}

/// States that one and the same chain leads to.
struct Group {
    /// Where this chain stands in the list of all of them.
    chain: usize,
    standings: Vec<Standing>,
}

/// The first shortest accepted chain, by a search forward from the first place.
///
/// Layer n has every state that a chain of n lines leads to and no shorter one does. It is
/// cut into groups by the first such chain, and the groups stand in the order of these
/// chains. The first chain to a state of the next layer goes through a state of this one,
/// and through its first chain: so going through the groups in order, and through the
/// lines of each group in order, meets every state of the next layer by its first chain.
/// The accepting state is met in the same way.
pub fn search(asked: &Asked) -> Option<Vec<u16>> {
    let machine = Machine::new(&asked.pattern.root);
    let boats = boat_words(&asked.record);
    let lines_from = asked.usable_from();
    let accepting = |s: &Standing| s.place == asked.to && machine.is_done(s.state);

    // Each chain as the chain without its last line, and that line; the empty one first.
    let mut chains: Vec<(usize, u16)> = vec![(0, 0)];
    let mut met: HashSet<Standing, BuildHasherDefault<Mixer>> = HashSet::default();
    let begin: Vec<Standing> = machine
        .begin()
        .into_iter()
        .map(|state| Standing {
            place: asked.from,
            state,
        })
        .collect();
    if begin.iter().any(accepting) {
        return Some(Vec::new());
    }
    met.extend(begin.iter().copied());
    let mut layer = vec![Group {
        chain: 0,
        standings: begin,
    }];
    let mut after = Vec::new();
    while !layer.is_empty() {
        let mut next_layer: Vec<Group> = Vec::new();
        for group in &layer {
            let mut steps: Vec<(u16, Standing)> = Vec::new();
            for standing in &group.standings {
                for &number in &lines_from[standing.place as usize] {
                    let line = &asked.record.lines[number as usize];
                    after.clear();
                    machine.take(standing.state, line, boats[number as usize], &mut after);
                    steps.extend(after.iter().map(|&state| {
                        let place = line.to;
                        (number, Standing { place, state })
                    }));
                }
            }
            steps.sort_by_key(|step| step.0);
            let mut last = None;
            for (number, standing) in steps {
                if !met.insert(standing) {
                    continue;
                }
                if last != Some(number) {
                    last = Some(number);
                    chains.push((group.chain, number));
                    next_layer.push(Group {
                        chain: chains.len() - 1,
                        standings: Vec::new(),
                    });
                }
                if accepting(&standing) {
                    return Some(written_out(&chains, chains.len() - 1));
                }
                let group = next_layer.last_mut().expect("just pushed");
                group.standings.push(standing);
            }
        }
        layer = next_layer;
    }
    None
}

/// The line numbers of a chain in the list.
fn written_out(chains: &[(usize, u16)], mut at: usize) -> Vec<u16> {
    let mut numbers = Vec::new();
    while at != 0 {
        let (before, number) = chains[at];
        numbers.push(number);
        at = before;
    }
    numbers.reverse();
    numbers
}

/// Mixes the few small numbers of a standing; the standard mixer is slower and no better
/// for keys that nobody attacks.
#[derive(Default)]
pub struct Mixer(u64);

impl Hasher for Mixer {
    fn finish(&self) -> u64 {
        self.0 ^ (self.0 >> 29)
    }
    fn write(&mut self, bytes: &[u8]) {
        for &byte in bytes {
            self.write_u64(byte as u64);
        }
    }
    fn write_u8(&mut self, n: u8) {
        self.write_u64(n as u64);
    }
    fn write_u16(&mut self, n: u16) {
        self.write_u64(n as u64);
    }
    fn write_u32(&mut self, n: u32) {
        self.write_u64(n as u64);
    }
    fn write_u64(&mut self, n: u64) {
        self.0 = (self.0.rotate_left(7) ^ n).wrapping_mul(0x9E37_79B9_7F4A_7C15);
    }
    fn write_usize(&mut self, n: usize) {
        self.write_u64(n as u64);
    }
}
