//! Wrong ways to search, the wrong way to check, and wrong tests.

use super::Fault::{self, *};
use crate::chains::Asked;
use crate::machine::{
    agrees, boat_words, meets, of_one_class, sail, Machine, Spot, Stack, State, Test, Word,
    NOT_READ,
};
use crate::pattern::Rule;
use std::collections::hash_map::Entry;
use std::collections::{HashMap, HashSet, VecDeque};
use std::hash::Hash;

/// A place and a state of the machine.
pub type Standing = (u16, State);

/// What a search walks over.
struct Course<'a> {
    asked: &'a Asked,
    fault: Fault,
    machine: Machine,
    boats: Vec<Word>,
    lines_from: Vec<Vec<u16>>,
    /// Which lines the rule sees that the fault thins the lines for.
    seen: Vec<bool>,
}

impl Course<'_> {
    fn of(asked: &Asked) -> Course<'_> {
        Course::with(asked, NoFault)
    }

    fn with(asked: &Asked, fault: Fault) -> Course<'_> {
        let boats = boat_words(&asked.record);
        Course {
            asked,
            fault,
            machine: Machine::new(&asked.pattern.root),
            seen: seen_of_runs(asked, fault, &boats),
            boats,
            lines_from: asked.usable_from(),
        }
    }

    fn begin(&self) -> Vec<Standing> {
        let states = self.machine.begin().into_iter();
        states.map(|state| (self.asked.from, state)).collect()
    }

    fn lines_at(&self, place: u16) -> &[u16] {
        &self.lines_from[place as usize]
    }

    /// The standings after a line.
    fn after(&self, standing: Standing, number: u16) -> Vec<Standing> {
        let (_, state) = standing;
        let Spot::Take { test, next } = self.machine.spots[state.spot as usize] else {
            return Vec::new();
        };
        let Some(stack) = self.passed(test, state.stack, number) else {
            return Vec::new();
        };
        let mut states = Vec::new();
        self.machine
            .settle(State { stack, ..state }.at(next), &mut states);
        let line = &self.asked.record.lines[number as usize];
        states.into_iter().map(|state| (line.to, state)).collect()
    }

    /// The stack after a line that passes, by what the fault takes the test for.
    fn passed(&self, test: Test, stack: Stack, number: u16) -> Option<Stack> {
        let line = &self.asked.record.lines[number as usize];
        let boat = self.boats[number as usize];
        let right = test.passed(stack, line, boat);
        let (rule, kind, slot) = match test {
            Test::Boat(rule, kind, slot) => (rule, kind, slot),
            Test::Keep(..) if self.fault == KeepRefusesUnread && boat == NOT_READ => return None,
            Test::Kind(_) if self.fault == LineRefusesUnread && boat == NOT_READ => return None,
            _ => return right,
        };
        let kept = stack.boat_of(slot)?;
        let passes = if thinned_for(self.fault) == Some(rule) {
            right.is_some() && self.seen[number as usize]
        } else {
            passes(self.fault, rule, kept, boat)
        };
        (line.kind == kind && passes).then_some(stack)
    }

    fn accepting(&self, standing: &Standing) -> bool {
        standing.0 == self.asked.to && self.machine.is_done(standing.1)
    }
}

/// Does a line's boat pass what the fault takes the rule for, that boat being kept?
fn passes(fault: Fault, rule: Rule, kept: Word, boat: Word) -> bool {
    let (kept_read, boat_read) = (kept != NOT_READ, boat != NOT_READ);
    let another_number = sail(kept) != sail(boat);
    let meets = |rule| meets(rule, kept, boat);
    match (fault, rule) {
        (UnreadCompared, _) => agrees(rule, kept, boat),
        (OtherIsNotSame, Rule::Other) => !kept_read || kept != boat,
        (LineAlone, _)
        | (SisterOfUnreadSlot, Rule::Sister)
        | (ForeignOfUnreadSlot, Rule::Foreign) => boat_read && agrees(rule, kept, boat),
        (SlotAlone, _)
        | (SisterOfUnreadLine, Rule::Sister)
        | (ForeignOfUnreadLine, Rule::Foreign) => kept_read && agrees(rule, kept, boat),
        (SisterTakesSame, Rule::Sister) => meets(Rule::Sister) || meets(Rule::Same),
        (SisterOfAnyClass, Rule::Sister) => kept_read && boat_read && another_number,
        (ForeignAsOther, Rule::Foreign) => meets(Rule::Other),
        (ForeignOtherNumber, Rule::Foreign) => meets(Rule::Foreign) && another_number,
        (SisterAndForeign, Rule::Sister) => meets(Rule::Foreign),
        (SisterAndForeign, Rule::Foreign) => meets(Rule::Sister),
        _ => meets(rule),
    }
}

/// Is it a fault of the tests, which checker and finder have in common? The copy without a fault
/// goes the same way, so that it is compared too.
pub fn of_tests(fault: Fault) -> bool {
    matches!(
        fault,
        NoFault
            | UnreadCompared
            | OtherIsNotSame
            | LineAlone
            | SlotAlone
            | KeepRefusesUnread
            | LineRefusesUnread
            | SisterTakesSame
            | SisterOfAnyClass
            | SisterOfUnreadLine
            | SisterOfUnreadSlot
            | ForeignAsOther
            | ForeignOtherNumber
            | ForeignOfUnreadLine
            | ForeignOfUnreadSlot
            | SisterAndForeign
    )
}

/// The rule for which the fault looks at some lines only of those of one kind between two places.
pub fn thinned_for(fault: Fault) -> Option<Rule> {
    match fault {
        TwoOfARun => Some(Rule::Other),
        SisterOfThinRuns | SisterOfFirstBoat => Some(Rule::Sister),
        ForeignOfThinRuns | ForeignOfFirstLine => Some(Rule::Foreign),
        _ => None,
    }
}

/// The lines that are seen of each run: of the lines of one kind between two places.
fn seen_of_runs(asked: &Asked, fault: Fault, boats: &[Word]) -> Vec<bool> {
    let mut runs: HashMap<(u16, u8, u16), Vec<Word>> = HashMap::new();
    let lines = asked.record.lines.iter().zip(boats);
    lines
        .map(|(line, &boat)| {
            let run = runs.entry((line.from, line.kind, line.to)).or_default();
            let seen = is_seen(fault, run, boat);
            if !run.contains(&boat) {
                run.push(boat);
            }
            seen
        })
        .collect()
}

/// Is a line with this boat seen, the run having these boats before it, in order?
fn is_seen(fault: Fault, before: &[Word], boat: Word) -> bool {
    let fresh = !before.contains(&boat);
    let mut read = before.iter().filter(|&&boat| boat != NOT_READ);
    match fault {
        // The first, and the first with another boat's number: enough for other as long as every
        // number was read.
        TwoOfARun => fresh && before.len() < 2,
        // The first, and those of the first two different boats that were read: enough for other.
        SisterOfThinRuns | ForeignOfThinRuns => {
            before.is_empty() || (boat != NOT_READ && fresh && read.count() < 2)
        }
        ForeignOfFirstLine => boat != NOT_READ && read.next().is_none(),
        SisterOfFirstBoat => boat != NOT_READ && !read.any(|&other| of_one_class(other, boat)),
        _ => true,
    }
}

/// Chains, each as the chain without its last line, and that line; the empty one first.
struct Chains(Vec<(usize, u16)>);

impl Chains {
    fn new() -> Chains {
        Chains(vec![(0, 0)])
    }

    fn longer(&mut self, chain: usize, number: u16) -> usize {
        self.0.push((chain, number));
        self.0.len() - 1
    }

    fn written_out(&self, mut chain: usize) -> Vec<u16> {
        let mut numbers = Vec::new();
        while chain != 0 {
            let (before, number) = self.0[chain];
            numbers.push(number);
            chain = before;
        }
        numbers.reverse();
        numbers
    }
}

/// Layer by layer and chain by chain, as the right search does, but a standing counts as met
/// when one with the same mark was, and a line passes by what the fault takes the tests for.
pub fn marked_by<M: Eq + Hash>(
    asked: &Asked,
    fault: Fault,
    mark: fn(&Standing) -> M,
) -> Option<Vec<u16>> {
    let course = Course::with(asked, fault);
    let begin = course.begin();
    if begin.iter().any(|standing| course.accepting(standing)) {
        return Some(Vec::new());
    }
    let mut met: HashSet<M> = begin.iter().map(mark).collect();
    let mut chains = Chains::new();
    let mut layer = vec![(0, asked.from, begin)];
    while !layer.is_empty() {
        let mut next_layer = Vec::new();
        for (chain, place, standings) in &layer {
            for &number in course.lines_at(*place) {
                let mut fresh = Vec::new();
                for &standing in standings {
                    for after in course.after(standing, number) {
                        if met.insert(mark(&after)) {
                            fresh.push(after);
                        }
                    }
                }
                if fresh.is_empty() {
                    continue;
                }
                let longer = chains.longer(*chain, number);
                if fresh.iter().any(|standing| course.accepting(standing)) {
                    return Some(chains.written_out(longer));
                }
                next_layer.push((longer, fresh[0].0, fresh));
            }
        }
        layer = next_layer;
    }
    None
}

/// One queue of standings: a shortest chain, but not the first of them.
pub fn walking_order(asked: &Asked) -> Option<Vec<u16>> {
    let course = Course::of(asked);
    let mut chains = Chains::new();
    let mut met: HashSet<Standing> = HashSet::new();
    let mut waiting: VecDeque<(usize, Standing)> =
        course.begin().into_iter().map(|begin| (0, begin)).collect();
    while let Some((chain, standing)) = waiting.pop_front() {
        if !met.insert(standing) {
            continue;
        }
        if course.accepting(&standing) {
            return Some(chains.written_out(chain));
        }
        for &number in course.lines_at(standing.0) {
            for after in course.after(standing, number) {
                waiting.push_back((chains.longer(chain, number), after));
            }
        }
    }
    None
}

/// A stack in place of the queue, the lowest line on top.
pub fn depth_first(asked: &Asked) -> Option<Vec<u16>> {
    let course = Course::of(asked);
    let mut chains = Chains::new();
    let mut met: HashSet<Standing> = HashSet::new();
    let mut waiting: Vec<(usize, Standing)> =
        course.begin().into_iter().map(|begin| (0, begin)).collect();
    while let Some((chain, standing)) = waiting.pop() {
        if !met.insert(standing) {
            continue;
        }
        if course.accepting(&standing) {
            return Some(chains.written_out(chain));
        }
        for &number in course.lines_at(standing.0).iter().rev() {
            for after in course.after(standing, number) {
                waiting.push((chains.longer(chain, number), after));
            }
        }
    }
    None
}

/// One queue in which a step that takes no line waits as long as one that takes a line.
pub fn silent_steps_queued(asked: &Asked) -> Option<Vec<u16>> {
    let course = Course::of(asked);
    let mut chains = Chains::new();
    let mut met: HashSet<Standing> = HashSet::new();
    let mut waiting = VecDeque::from([(0, (asked.from, course.machine.start()))]);
    while let Some((chain, standing)) = waiting.pop_front() {
        if !met.insert(standing) {
            continue;
        }
        let (place, state) = standing;
        if let Some(next) = course.machine.silent(state) {
            let next = next.into_iter().flatten();
            waiting.extend(next.map(|state| (chain, (place, state))));
            continue;
        }
        if course.accepting(&standing) {
            return Some(chains.written_out(chain));
        }
        let Spot::Take { test, next } = course.machine.spots[state.spot as usize] else {
            continue;
        };
        for &number in course.lines_at(place) {
            let line = &asked.record.lines[number as usize];
            let boat = course.boats[number as usize];
            if let Some(stack) = test.passed(state.stack, line, boat) {
                let longer = chains.longer(chain, number);
                let after = State { stack, ..state }.at(next);
                waiting.push_back((longer, (line.to, after)));
            }
        }
    }
    None
}

/// The distance to acceptance of each standing that can be met from these.
fn distances(course: &Course, begin: &[Standing]) -> HashMap<Standing, usize> {
    // Every standing that can be met, and the standings before it.
    let mut before: HashMap<Standing, Vec<Standing>> = HashMap::new();
    let mut met: HashSet<Standing> = begin.iter().copied().collect();
    let mut waiting = begin.to_vec();
    while let Some(standing) = waiting.pop() {
        for &number in course.lines_at(standing.0) {
            for after in course.after(standing, number) {
                before.entry(after).or_default().push(standing);
                if met.insert(after) {
                    waiting.push(after);
                }
            }
        }
    }
    let mut distance: HashMap<Standing, usize> = HashMap::new();
    let mut waiting: VecDeque<Standing> = VecDeque::new();
    for standing in met
        .into_iter()
        .filter(|standing| course.accepting(standing))
    {
        distance.insert(standing, 0);
        waiting.push_back(standing);
    }
    while let Some(standing) = waiting.pop_front() {
        let next = distance[&standing] + 1;
        for &earlier in before.get(&standing).into_iter().flatten() {
            if let Entry::Vacant(unknown) = distance.entry(earlier) {
                unknown.insert(next);
                waiting.push_back(earlier);
            }
        }
    }
    distance
}

/// The right distances, and then the lowest line of each step, but from one state only.
pub fn one_state_followed(asked: &Asked) -> Option<Vec<u16>> {
    let course = Course::of(asked);
    let begin = course.begin();
    let distance = distances(&course, &begin);
    let nearest = begin.into_iter().filter(|s| distance.contains_key(s));
    let mut standing = nearest.min_by_key(|standing| distance[standing])?;
    let mut chain = Vec::new();
    while distance[&standing] > 0 {
        let left = distance[&standing] - 1;
        let step = course.lines_at(standing.0).iter().find_map(|&number| {
            let next = course.after(standing, number).into_iter();
            let mut nearer = next.filter(|after| distance.get(after) == Some(&left));
            nearer.next().map(|after| (number, after))
        });
        let (number, after) = step.expect("a step leads nearer");
        chain.push(number);
        standing = after;
    }
    Some(chain)
}

/// The distance from the first of the states before the first line, the others being left out.
pub fn one_first_position(asked: &Asked) -> Option<usize> {
    let course = Course::of(asked);
    let begin = &course.begin()[..1];
    distances(&course, begin).get(&begin[0]).copied()
}

/// The distance of the nearest standing at the first place, whatever its state: one that a chain
/// from some place comes to will do.
pub fn any_state(asked: &Asked) -> Option<usize> {
    let course = Course::of(asked);
    let states = course.machine.begin();
    let at = |place: u16| states.iter().map(move |&state| (place, state));
    let begin: Vec<Standing> = (0..asked.record.places).flat_map(at).collect();
    let distance = distances(&course, &begin).into_iter();
    let here = distance.filter(|((place, _), _)| *place == asked.from);
    here.map(|(_, distance)| distance).min()
}

/// Is the chain accepted, by what the fault takes the tests for?
pub fn checked(asked: &Asked, fault: Fault, chain: &[u16]) -> bool {
    if !asked.leads(chain) || !asked.is_inside(chain) {
        return false;
    }
    let course = Course::with(asked, fault);
    let mut standings: HashSet<Standing> = course.begin().into_iter().collect();
    for &number in chain {
        let after = standings.iter().map(|&s| course.after(s, number));
        standings = after.flatten().collect();
    }
    standings.iter().any(|standing| course.accepting(standing))
}

/// Is the chain accepted by the first state after each line?
pub fn one_state_checked(asked: &Asked, chain: &[u16]) -> bool {
    let course = Course::of(asked);
    let mut standing = course.begin().first().copied();
    for &number in chain {
        standing = standing.and_then(|standing| course.after(standing, number).first().copied());
    }
    asked.leads(chain)
        && asked.is_inside(chain)
        && standing.is_some_and(|standing| course.accepting(&standing))
}
