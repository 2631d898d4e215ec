//! A search under way (request Five): begun, moved on by so many states, and finished. Between the
//! calls all of it stands in the words of the lent area, and a move or a finish is given no more.
//!
//! A state is a place, a position in the pattern and the boats kept at its levels. First the states
//! found are expanded, in the order found, from the goal backward; a state taken up so finds those
//! from which a line leads to it. As soon as a first state is as near as what waits, the states
//! found are taken up once more, the last one first: a state in front looks for the least line that
//! leads nearer, and the marks that this leaves say the chain. What is taken up in either way counts.
//!
//! A line outside its kind's window stands in the area with the kind 0, which no pattern takes: its
//! number, its places and its boat are there as if it were inside.

use crate::chains::Asked;
use crate::machine::{boat_words, meets, Word};
use crate::pattern::read_pattern;
use crate::positions::{Position, Positions};
use crate::record::{read_record, MOST_LINES, MOST_PLACES};
use crate::request::{self, fitted, refused, Ask, FindReply, LARGEST};

/// The number of a move or a finish where no search is under way.
pub const NO_SEARCH: u8 = 26;
/// How many states there can be: a tag is a line's number times this, and a state's.
const STATES: u32 = LARGEST as u32;
/// The area has a word, then so many numbers, then so many words for the pattern's bytes.
const NUMBERS: usize = 16;
const PATTERN: usize = 192;
/// Where the boats begin, or the lines where no boat is kept.
pub(crate) const LOADED: usize = 1 + NUMBERS + PATTERN;
/// The kind of a line outside its window.
pub(crate) const OUTSIDE: u8 = 0;

// ---- states

/// A place, a position and the boats kept, the outermost keep's as the lowest digit.
#[derive(Clone, Copy, PartialEq, Eq, Debug)]
pub(crate) struct State {
    pub place: usize,
    pub position: usize,
    pub stack: usize,
}

/// A line as the area has it: its boat is a number.
#[derive(Clone, Copy, PartialEq, Eq, Debug)]
pub(crate) struct Way {
    pub from: usize,
    pub to: usize,
    pub kind: u8,
    pub boat: usize,
}

/// What a search goes by. It does not change from its begin to its end.
#[derive(Clone, PartialEq, Eq, Debug)]
pub(crate) struct Course {
    pub places: usize,
    pub from: usize,
    /// The pattern's bytes.
    pub pattern: Vec<u8>,
    /// One more than the different boats: the numbers that a level can have, 0 for no boat.
    pub radix: usize,
    /// The boat of each number, where the pattern keeps any.
    pub boats: Vec<Word>,
    pub lines: Vec<Way>,
    pub positions: Positions,
    /// How deep the pattern's keeps nest.
    keeps: usize,
    /// The lines into each place and those from it, in order.
    into: Vec<Vec<usize>>,
    out_of: Vec<Vec<usize>>,
}

impl Course {
    /// `None` where the pattern's bytes are none, or there would be too many states.
    fn new(
        places: usize,
        from: usize,
        pattern: Vec<u8>,
        radix: usize,
        boats: Vec<Word>,
        lines: Vec<Way>,
    ) -> Option<Course> {
        let read = read_pattern(&pattern).ok()?;
        let at = |place: fn(&Way) -> usize| -> Vec<Vec<usize>> {
            let mut at = vec![Vec::new(); places];
            for (number, line) in lines.iter().enumerate() {
                at[place(line)].push(number);
            }
            at
        };
        let course = Course {
            into: at(|line| line.to),
            out_of: at(|line| line.from),
            positions: Positions::of(&read),
            keeps: read.keeps,
            places,
            from,
            pattern,
            radix,
            boats,
            lines,
        };
        (course.size() as u128 <= LARGEST).then_some(course)
    }

    /// Of a request that passed the questions, its pattern in bytes.
    pub fn of(asked: &Asked, pattern: &[u8]) -> Course {
        let record = &asked.record;
        let words = boat_words(record);
        // In the order in which they first appear; the number 0 has none.
        let mut boats: Vec<Word> = vec![0];
        for &boat in &words {
            if !boats[1..].contains(&boat) {
                boats.push(boat);
            }
        }
        let number = |boat| 1 + boats[1..].iter().position(|b| *b == boat).expect("noted");
        let lines = record.lines.iter().zip(&words).zip(&asked.inside);
        let ways = lines.map(|((line, &boat), &inside)| Way {
            from: line.from as usize,
            to: line.to as usize,
            kind: if inside { line.kind } else { OUTSIDE },
            boat: number(boat),
        });
        let (ways, radix) = (ways.collect(), boats.len());
        if asked.pattern.keeps == 0 {
            boats.clear();
        }
        let (places, from) = (record.places as usize, asked.from as usize);
        Course::new(places, from, pattern.to_vec(), radix, boats, ways).expect("16 was asked")
    }

    pub fn size(&self) -> usize {
        self.places * self.positions.all.len() * self.stacks(self.keeps)
    }

    /// How many stacks of this depth there are.
    fn stacks(&self, depth: usize) -> usize {
        self.radix.pow(depth as u32)
    }

    pub fn number(&self, state: State) -> usize {
        (state.place * self.positions.all.len() + state.position) * self.stacks(self.keeps)
            + state.stack
    }

    pub fn state(&self, number: usize) -> State {
        let (spot, stacks) = (number / self.stacks(self.keeps), self.stacks(self.keeps));
        State {
            place: spot / self.positions.all.len(),
            position: spot % self.positions.all.len(),
            stack: number % stacks,
        }
    }

    /// The states before the first line.
    pub fn firsts(&self) -> Vec<usize> {
        let first = |&position: &usize| {
            self.number(State {
                place: self.from,
                position,
                stack: 0,
            })
        };
        self.positions.first.iter().map(first).collect()
    }

    /// The number of the boat that is kept at a level.
    fn kept(&self, state: State, level: usize) -> usize {
        state.stack / self.stacks(level) % self.radix
    }

    /// The states after a line that is taken in a state. At each position after it the boats of the
    /// keeps that were left are forgotten.
    pub fn after(&self, state: State, number: usize) -> Vec<State> {
        let line = self.lines[number];
        let position = &self.positions.all[state.position];
        let Some(take) = position.take else {
            return Vec::new();
        };
        let passes = take.test.is_none_or(|(rule, level)| {
            let kept = self.boats[self.kept(state, level)];
            meets(rule, kept, self.boats[line.boat])
        });
        if line.from != state.place || line.kind != take.kind || !passes {
            return Vec::new();
        }
        let kept = if take.keeps { line.boat } else { 0 };
        let stack = state.stack + kept * self.stacks(position.depth);
        let next = |&position: &usize| State {
            place: line.to,
            position,
            stack: stack % self.stacks(self.positions.all[position].depth),
        };
        position.next.iter().map(next).collect()
    }

    /// The states from which a line leads to the state, each with the line: by position, then by
    /// line, then by stack.
    pub fn before(&self, state: State) -> Vec<(usize, State)> {
        let mut before = Vec::new();
        for (position, at) in self.positions.all.iter().enumerate() {
            let kind = at.take.map(|take| take.kind);
            if !at.next.contains(&state.position) {
                continue;
            }
            let lines = self.into[state.place].iter();
            for &line in lines.filter(|&&line| Some(self.lines[line].kind) == kind) {
                for stack in self.stacks_before(at, state) {
                    let place = self.lines[line].from;
                    let earlier = State {
                        place,
                        position,
                        stack,
                    };
                    if self.after(earlier, line).contains(&state) {
                        before.push((line, earlier));
                    }
                }
            }
        }
        before
    }

    /// The stacks at a position that a line can turn into the state's: they have its boats at the
    /// levels that both have, and any at others.
    fn stacks_before(&self, position: &Position, after: State) -> impl Iterator<Item = usize> {
        let both = position.depth.min(self.positions.all[after.position].depth);
        let (low, step) = (after.stack % self.stacks(both), self.stacks(both));
        (0..self.stacks(position.depth - both)).map(move |others| others * step + low)
    }

    /// Is a boat kept at every level that the state's position has?
    pub fn has_boats(&self, state: State) -> bool {
        let mut levels = 0..self.positions.all[state.position].depth;
        levels.all(|level| self.kept(state, level) > 0)
    }

    /// The least line that leads from a state to such a one, and those to which it leads.
    pub fn least(
        &self,
        state: State,
        wanted: impl Fn(usize) -> bool,
    ) -> Option<(usize, Vec<usize>)> {
        self.out_of[state.place].iter().find_map(|&line| {
            let led = self.after(state, line).into_iter();
            let led: Vec<usize> = led.map(|s| self.number(s)).filter(|&s| wanted(s)).collect();
            (!led.is_empty()).then_some((line, led))
        })
    }
}

// ---- the search

/// Where a search stands.
#[derive(Clone, Copy, PartialEq, Eq, Debug)]
pub(crate) enum Phase {
    /// States are expanded.
    Backward,
    /// Those found are taken up once more.
    Forward,
    /// There is no chain.
    Nowhere,
}

const PHASES: [Phase; 3] = [Phase::Backward, Phase::Forward, Phase::Nowhere];

#[derive(Clone, PartialEq, Eq, Debug)]
pub(crate) struct Search {
    pub course: Course,
    /// For each state 0, or one more than its distance from the goal: its word.
    pub words: Vec<u32>,
    /// The states found, in the order found.
    pub queue: Vec<u32>,
    /// How each of these was reached: the line, and the state that was expanded.
    pub reached: Vec<u32>,
    /// For each state 0, or one more than the line that led to it when it was marked last.
    pub marks: Vec<u32>,
    pub phase: Phase,
    pub expanded: usize,
    /// The word of the nearest first state.
    pub far: u32,
    /// How many states of the queue are left to the second passage, the goal among them.
    pub rest: usize,
    /// The line that leads into the level of the last of these, and the least met so far that leads
    /// on from it; the count of lines where there is none.
    pub chosen: u32,
    pub noted: u32,
}

impl Search {
    /// The goal is found, and nothing is taken up.
    pub fn new(course: Course, to: u16) -> Search {
        let goal = course.number(State {
            place: to as usize,
            position: course.positions.end(),
            stack: 0,
        });
        let mut search = Search {
            words: vec![0; course.size()],
            marks: vec![0; course.size()],
            course,
            queue: vec![goal as u32],
            reached: vec![0],
            phase: Phase::Backward,
            expanded: 0,
            far: 0,
            rest: 0,
            chosen: 0,
            noted: 0,
        };
        search.words[goal] = 1;
        search
    }

    pub fn lines(&self) -> u32 {
        self.course.lines.len() as u32
    }

    /// The word of a state of the queue.
    pub fn word_at(&self, at: usize) -> u32 {
        self.words[self.queue[at] as usize]
    }

    /// The word of the nearest first state that was found.
    pub fn nearest(&self) -> Option<u32> {
        let firsts = self.course.firsts().into_iter();
        firsts
            .map(|state| self.words[state])
            .filter(|&w| w > 0)
            .min()
    }

    /// Are states to be expanded still? One has to wait; and where a level begins, no first state
    /// may be as near as it.
    fn goes_on(&self) -> bool {
        if self.expanded == self.queue.len() {
            return false;
        }
        let word = self.word_at(self.expanded);
        let begins = self.expanded == 0 || self.word_at(self.expanded - 1) != word;
        !begins || self.nearest().is_none_or(|near| near > word)
    }

    /// Ends the first passage where it is over: asked after begin and after each expansion.
    pub fn settle(&mut self) {
        if self.goes_on() {
            return;
        }
        match self.nearest() {
            None => self.phase = Phase::Nowhere,
            Some(near) => self.turn(near),
        }
    }

    /// Begins the second passage: the nearest first states are in front.
    pub fn turn(&mut self, near: u32) {
        self.phase = Phase::Forward;
        self.far = near;
        self.rest = self.queue.len();
        self.chosen = self.lines();
        self.noted = self.lines();
        for state in self.course.firsts() {
            if self.words[state] == near {
                self.marks[state] = self.lines() + 1;
            }
        }
    }

    /// Takes up one state, if any is left.
    fn take_up(&mut self) -> bool {
        match self.phase {
            Phase::Backward => {
                self.expand();
                self.settle();
            }
            Phase::Forward if self.rest > 1 => self.sweep(),
            _ => return false,
        }
        true
    }

    /// Finds the states from which a line leads to the next one that waits.
    fn expand(&mut self) {
        let number = self.queue[self.expanded] as usize;
        let word = self.words[number] + 1;
        for (line, before) in self.course.before(self.course.state(number)) {
            self.find(before, tag(line, number), word);
        }
        self.expanded += 1;
    }

    /// Adds a state to those found, if it is not there yet.
    pub fn find(&mut self, state: State, tag: u32, word: u32) {
        let number = self.course.number(state);
        if self.words[number] == 0 {
            self.words[number] = word;
            self.queue.push(number as u32);
            self.reached.push(tag);
        }
    }

    /// Takes up the last state that is left.
    fn sweep(&mut self) {
        self.rest -= 1;
        let (state, word) = (self.queue[self.rest] as usize, self.word_at(self.rest));
        if self.marks[state] == self.chosen + 1 {
            self.lead(state, word - 1);
        }
        if self.word_at(self.rest - 1) != word {
            self.chosen = self.noted;
            self.noted = self.lines();
        }
    }

    /// A state in front: its least line is noted, and where it leads is marked, if none of the
    /// level has led on by a lower one.
    fn lead(&mut self, state: usize, word: u32) {
        let state = self.course.state(state);
        let Some((line, led)) = self.course.least(state, |s| self.words[s] == word) else {
            return;
        };
        if line as u32 <= self.noted {
            self.noted = line as u32;
            for state in led {
                self.marks[state] = line as u32 + 1;
            }
        }
    }

    /// The chain, when nothing is left: for each level after the first states' the least mark.
    /// `None` where a level has none, which an altered area can come to.
    pub fn chain(&self) -> Option<Vec<u16>> {
        let mut least: Vec<Option<u32>> = vec![None; self.far as usize];
        for &state in &self.queue {
            let (word, mark) = (self.words[state as usize], self.marks[state as usize]);
            if word < self.far && mark > 0 {
                let least = &mut least[word as usize];
                *least = Some(least.map_or(mark, |least| least.min(mark)));
            }
        }
        let levels = least.into_iter().skip(1).rev();
        levels
            .map(|mark| mark.map(|mark| mark as u16 - 1))
            .collect()
    }
}

/// How a state was reached: by this line, the other state being expanded.
pub(crate) fn tag(line: usize, expanded: usize) -> u32 {
    line as u32 * STATES + expanded as u32
}

// ---- the area

/// Reads an area from its first word on.
struct Reader<'a>(&'a [u32]);

impl<'a> Reader<'a> {
    fn words(&mut self, count: usize) -> Option<&'a [u32]> {
        let (words, rest) = self.0.split_at_checked(count)?;
        self.0 = rest;
        Some(words)
    }
}

/// The number of a word that is not above the highest.
fn up_to(word: u32, highest: usize) -> Option<usize> {
    Some(word as usize).filter(|&number| number <= highest)
}

impl Search {
    /// The words of the area, of which there are so many.
    pub fn put_back(&self, count: usize) -> Vec<u32> {
        let course = &self.course;
        let mut area = vec![course.radix as u32];
        let numbers = [
            course.places,
            course.lines.len(),
            course.from,
            course.pattern.len(),
            self.phase as usize,
            self.expanded,
            self.queue.len(),
            self.far as usize,
            self.rest,
            self.chosen as usize,
            self.noted as usize,
        ];
        extend(&mut area, numbers.map(|number| number as u32), NUMBERS);
        extend(&mut area, course.pattern.iter().map(|&b| b as u32), PATTERN);
        area.extend(&course.boats);
        area.extend(course.lines.iter().map(|line| line.boat as u32));
        let word = |line: &Way| line.from * 16_384 + line.to * 16 + line.kind as usize;
        area.extend(course.lines.iter().map(|line| word(line) as u32));
        for table in [&self.words, &self.queue, &self.reached, &self.marks] {
            extend(&mut area, table.iter().copied(), course.size());
        }
        area.resize(count, 0);
        area
    }

    /// The search that stands in an area; `None` where it cannot be one.
    pub fn taken_out(area: &[u32]) -> Option<Search> {
        let mut reader = Reader(area);
        let radix = up_to(reader.words(1)?[0], MOST_LINES + 1)?;
        let numbers = reader.words(NUMBERS)?;
        let places = up_to(numbers[0], MOST_PLACES as usize)?;
        let lines = up_to(numbers[1], MOST_LINES)?;
        let from = up_to(numbers[2], places.checked_sub(1)?)?;
        let length = up_to(numbers[3], PATTERN)?;
        let bytes = reader.words(PATTERN)?[..length].iter();
        let pattern: Option<Vec<u8>> = bytes.map(|&word| u8::try_from(word).ok()).collect();
        let pattern = pattern?;
        // There are boats where the pattern keeps any.
        let kept = if read_pattern(&pattern).ok()?.keeps > 0 {
            radix
        } else {
            0
        };
        let boats = reader.words(kept)?.to_vec();
        let ways = ways(&mut reader, lines, places, radix)?;
        let course = Course::new(places, from, pattern, radix, boats, ways)?;
        let size = course.size();
        let found = up_to(numbers[6], size)?;
        let mut table = |filled: usize| Some(reader.words(size)?[..filled].to_vec());
        let search = Search {
            course,
            words: table(size)?,
            queue: table(found)?,
            reached: table(found)?,
            marks: table(size)?,
            phase: *PHASES.get(numbers[4] as usize)?,
            expanded: numbers[5] as usize,
            far: numbers[7],
            rest: numbers[8] as usize,
            chosen: numbers[9],
            noted: numbers[10],
        };
        (search.can_stand() && search.put_back(area.len()) == area).then_some(search)
    }

    /// Can it be taken up without harm? Every area that begin and moves left can.
    fn can_stand(&self) -> bool {
        let (found, lines) = (self.queue.len(), self.lines());
        let known = self.words.iter().filter(|&&word| word > 0).count();
        let mut met = vec![false; self.words.len()];
        let mut last = 0;
        let in_order = self.queue.iter().all(|&state| {
            let Some(&word) = self.words.get(state as usize) else {
                return false;
            };
            let follows = word == last || word == last + 1;
            last = word;
            word > 0 && follows && !std::mem::replace(&mut met[state as usize], true)
        });
        let phase = match self.phase {
            Phase::Backward => self.expanded < found,
            Phase::Forward => self.rest >= 1 && self.far >= 1,
            Phase::Nowhere => true,
        };
        let numbers = self.expanded <= found && self.rest <= found && self.far <= last;
        let marks = self.marks.iter().all(|&mark| mark <= lines + 1);
        known == found
            && in_order
            && phase
            && numbers
            && marks
            && self.chosen <= lines
            && self.noted <= lines
    }
}

/// Adds so many words: these, and then zeros.
fn extend(area: &mut Vec<u32>, words: impl IntoIterator<Item = u32>, count: usize) {
    let end = area.len() + count;
    area.extend(words);
    area.resize(end, 0);
}

/// The lines: their boats' numbers, and then their words.
fn ways(reader: &mut Reader, lines: usize, places: usize, radix: usize) -> Option<Vec<Way>> {
    let numbers = reader.words(lines)?;
    let words = reader.words(lines)?;
    let way = |(&number, &word): (&u32, &u32)| {
        let way = Way {
            from: word as usize / 16_384,
            to: word as usize / 16 % 1_024,
            kind: (word % 16) as u8,
            boat: number as usize,
        };
        (way.from < places && way.to < places && way.boat < radix).then_some(way)
    };
    numbers.iter().zip(words).map(way).collect()
}

// ---- the calls

/// The words that a search of a record with a pattern needs: three for each line beside the finder's.
pub fn words(record: &[u8], pattern: &[u8]) -> Result<u64, u8> {
    let words = request::words(record, pattern)?;
    Ok(words + 3 * read_record(record)?.lines.len() as u64)
}

/// The area after begin, of which there are so many words; or the number of the refused question.
/// The questions are the finder's, but 17 asks for more.
pub fn begin(ask: Ask, work_len: usize) -> Result<Vec<u32>, u8> {
    let asked = request::ask(ask, usize::MAX)?;
    if (work_len as u64) < words(ask.rec, ask.pat)? {
        return Err(17);
    }
    let mut search = Search::new(Course::of(&asked, ask.pat), ask.to);
    search.settle();
    Ok(search.put_back(work_len))
}

/// The search in an area, if one is under way: not in an empty area, nor where the first word is 0.
/// The same is said where the area was altered so that no search can stand in it.
pub(crate) fn under_way(work: &[u32]) -> Result<Search, u8> {
    match work.first() {
        None | Some(0) => Err(NO_SEARCH),
        Some(_) => Search::taken_out(work).ok_or(NO_SEARCH),
    }
}

/// How many states a move takes up, and the area after it.
pub fn moved(work: &[u32], amount: usize) -> Result<(usize, Vec<u32>), u8> {
    let mut search = under_way(work)?;
    let mut taken = 0;
    while taken < amount && search.take_up() {
        taken += 1;
    }
    Ok((taken, search.put_back(work.len())))
}

/// What finishing replies: it takes up the rest first. The area is cleared as the finder's is.
pub fn finish(work: &[u32], out_len: usize) -> FindReply {
    let mut search = match under_way(work) {
        Ok(search) => search,
        Err(number) => return FindReply::Refused(number, 0),
    };
    while search.take_up() {}
    let chain = match search.phase {
        Phase::Nowhere => Ok(None),
        _ => search.chain().map(Some).ok_or(NO_SEARCH),
    };
    fitted(chain, out_len)
}

/// The reply of a move, and the area after it.
pub fn move_values(work: &[u32], amount: usize) -> (u64, Vec<u32>) {
    match moved(work, amount) {
        Ok((taken, after)) => (taken as u64, after),
        Err(number) => (refused(number, 0), work.to_vec()),
    }
}

/// The reply of begin, and the area after it.
pub fn begin_values(ask: Ask, work: &[u32]) -> (u64, Vec<u32>) {
    match begin(ask, work.len()) {
        Ok(after) => (0, after),
        Err(number) => (refused(number, 0), work.to_vec()),
    }
}
