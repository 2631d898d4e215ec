//! Searches begun, moved on and finished as this program does it, but for the planted fault. What
//! begin asks, and which chains are accepted, is right here: such faults are in the finder's calls.

use super::Fault::{self, *};
use crate::chains::Asked;
use crate::library::Ask;
use crate::pattern::read_pattern;
use crate::request::{self, refused};
use crate::search::{self, tag, under_way, Course, Phase, Search, LOADED, NO_SEARCH};
use crate::windows::Windows;

/// A search, and what is wrong with the way in which it is taken up.
struct Stepper {
    fault: Fault,
    search: Search,
}

impl Stepper {
    fn is(&self, fault: Fault) -> bool {
        self.fault == fault
    }

    /// Are states to be expanded still?
    fn goes_on(&self) -> bool {
        let (search, at) = (&self.search, self.search.expanded);
        if at == search.queue.len() {
            return false;
        }
        let word = search.word_at(at);
        search.nearest().is_none_or(|near| match self.fault {
            StopsAtFirst => false,
            StopsLate => near >= word,
            _ => near > word,
        })
    }

    fn settle(&mut self) {
        if self.goes_on() {
            return;
        }
        match self.search.nearest() {
            None => self.search.phase = Phase::Nowhere,
            Some(near) => self.search.turn(near),
        }
    }

    fn take_up(&mut self) -> bool {
        match self.search.phase {
            Phase::Backward => {
                self.expand();
                self.settle();
            }
            Phase::Forward if self.search.rest > 1 => self.sweep(),
            _ => return false,
        }
        true
    }

    fn expand(&mut self) {
        let number = self.search.queue[self.search.expanded] as usize;
        let course = &self.search.course;
        let state = course.state(number);
        let mut before = course.before(state);
        match self.fault {
            LinesDownward => before.sort_by_key(|(line, s)| (s.position, usize::MAX - line)),
            PositionsDownward => before.sort_by_key(|(_, s)| usize::MAX - s.position),
            NoBoatLeftOut => before.retain(|(_, s)| course.has_boats(*s)),
            _ => {}
        }
        let word = self.search.words[number] + 1;
        for (line, earlier) in before {
            let tag = match self.fault {
                TagsFromOne => tag(line + 1, number),
                TagsWithItself => tag(line, self.search.course.number(earlier)),
                _ => tag(line, number),
            };
            self.search.find(earlier, tag, word);
        }
        self.search.expanded += 1;
    }

    fn sweep(&mut self) {
        let last = self.search.rest - 1;
        self.search.rest = last;
        let (state, word) = (self.search.queue[last] as usize, self.search.word_at(last));
        let mark = self.search.marks[state];
        let in_front = match self.fault {
            UndercutMarks => mark > 0,
            _ => mark == self.search.chosen + 1,
        };
        if in_front {
            self.lead(state, word - 1);
        }
        if self.search.word_at(last - 1) != word {
            self.search.chosen = self.search.noted;
            if !self.is(NotedStays) {
                self.search.noted = self.search.lines();
            }
        }
    }

    fn lead(&mut self, state: usize, word: u32) {
        let (course, words) = (&self.search.course, &self.search.words);
        let Some((line, led)) = course.least(course.state(state), |s| words[s] == word) else {
            return;
        };
        let (line, noted) = (line as u32, self.search.noted);
        if line < noted || (line == noted && !self.is(LeastBelow)) {
            self.search.noted = line;
            for state in led {
                self.search.marks[state] = line + 1;
            }
        }
    }
}

// ---- the calls

pub fn words(fault: Fault, rec: &[u8], pat: &[u8]) -> u64 {
    let words = match fault {
        SearchWordsAsFind => request::words(rec, pat),
        _ => search::words(rec, pat),
    };
    words.unwrap_or_else(|number| refused(number, 0))
}

/// The questions of begin but 17, and what is searched by the fault.
fn asked(fault: Fault, ask: Ask) -> Result<Asked, u8> {
    let questions = match fault {
        Begin27NotAsked => Ask {
            options: None,
            ..ask
        },
        _ => ask,
    };
    let mut asked = request::ask(questions, usize::MAX)?;
    let windows = match fault {
        BeginWithoutWindows => Windows::of(None),
        _ => Windows::of(ask.options),
    };
    asked.inside = windows.inside(&asked.record.lines);
    if fault == LoadsInsideOnly {
        let mut inside = asked.inside.iter();
        asked.record.lines.retain(|_| inside.next() == Some(&true));
        asked.inside = vec![true; asked.record.lines.len()];
    }
    Ok(asked)
}

/// The words that begin asks for.
fn needed(fault: Fault, ask: Ask, asked: &Asked) -> u64 {
    let outside = asked.inside.iter().filter(|&&inside| !inside).count() as u64;
    let words = match fault {
        SearchAsks17AsFind => request::words(ask.rec, ask.pat),
        _ => search::words(ask.rec, ask.pat),
    };
    let words = words.unwrap_or(0);
    match fault {
        Begin17ByInside => words - 3 * outside,
        _ => words,
    }
}

pub fn begin(fault: Fault, ask: Ask, work: &mut [u32]) -> u64 {
    let asked = match asked(fault, ask) {
        Ok(asked) => asked,
        Err(number) => return refused(number, 0),
    };
    if (work.len() as u64) < needed(fault, ask, &asked) {
        return refused(17, 0);
    }
    let search = Search::new(Course::of(&asked, ask.pat), ask.to);
    let mut stepper = Stepper { fault, search };
    stepper.settle();
    if fault == BeginSearches {
        stepper.take_up();
    }
    let mut after = stepper.search.put_back(work.len());
    let course = &stepper.search.course;
    let lines = course.lines.len();
    // The boats' numbers of all lines, and then a word for each line.
    let (numbers, words) = (
        LOADED + course.boats.len(),
        LOADED + course.boats.len() + lines,
    );
    let outside = (0..lines).filter(|&line| !asked.inside[line]);
    match fault {
        NumbersWhereKept if course.boats.is_empty() => after[LOADED..LOADED + lines].fill(0),
        OutsideWordZero => outside.for_each(|line| after[words + line] = 0),
        OutsideBoatZero => outside.for_each(|line| after[numbers + line] = 0),
        BeginLeavesRest => {
            let used = words + lines + 4 * course.size();
            after[used..].copy_from_slice(&work[used..]);
        }
        _ => {}
    }
    work.copy_from_slice(&after);
    0
}

pub fn moved(fault: Fault, work: &mut [u32], amount: usize) -> u64 {
    if fault == Only26OfEmpty && work.first() == Some(&0) {
        return 0;
    }
    let search = match under_way(work) {
        Ok(search) => search,
        Err(number) => return altered(fault, work).unwrap_or(refused(number, 0)),
    };
    let amount = match fault {
        AmountIn32Bits => amount as u32 as usize,
        _ => amount,
    };
    let most = match fault {
        OneTooMany => amount.saturating_add(1),
        _ => amount,
    };
    let mut stepper = Stepper { fault, search };
    let mut taken = 0;
    while taken < most && !stepper.is_left() && stepper.take_up() {
        taken += 1;
    }
    work.copy_from_slice(&stepper.search.put_back(work.len()));
    match fault {
        SaysAmount => amount as u32 as u64,
        _ => taken.min(amount) as u64,
    }
}

impl Stepper {
    /// Is what remains left to the finish?
    fn is_left(&self) -> bool {
        self.is(SweepUncounted) && self.search.phase == Phase::Forward
    }
}

/// The first shortest chain, or the refusal.
pub fn finished(fault: Fault, work: &mut [u32]) -> Result<Option<Vec<u16>>, u64> {
    if fault == Only26OfEmpty && work.first() == Some(&0) {
        return Ok(None);
    }
    let search = match under_way(work) {
        Ok(search) => search,
        Err(number) => {
            altered(fault, work);
            return Err(refused(number, 0));
        }
    };
    let mut stepper = Stepper { fault, search };
    if fault == FinishSweepsAgain && stepper.search.phase == Phase::Forward {
        stepper.search.rest = stepper.search.queue.len();
    }
    while stepper.take_up() {}
    match stepper.search.phase {
        Phase::Nowhere => Ok(None),
        // An altered area can come to no chain at all.
        _ => match stepper.search.chain() {
            None if fault == NoFault => Err(refused(NO_SEARCH, 0)),
            chain => Ok(chain),
        },
    }
}

/// What is done to an area in which no search can stand, though its first word is not 0, and what is
/// said of it in place of 26.
fn altered(fault: Fault, work: &mut [u32]) -> Option<u64> {
    let meant = words_meant(work);
    match fault {
        _ if work.first().is_none_or(|&word| word == 0) => {}
        ClearsAltered => work.fill(0),
        PastCutArea if meant.is_some_and(|meant| meant > work.len() as u128) => {
            // The comparison lends a part of a longer buffer, so the word exists.
            unsafe { *work.as_mut_ptr().add(work.len()) = 0 }
        }
        CountsAltered => return work.get(6).map(|&expanded| expanded as u64),
        _ => {}
    }
    None
}

/// How many words the search would take, by the numbers in front and the pattern.
fn words_meant(work: &[u32]) -> Option<u128> {
    let numbers = work.get(..5)?;
    let [radix, places, lines] = [numbers[0], numbers[1], numbers[2]].map(|n| n as u128);
    let words = work.get(17..)?.get(..numbers[4] as usize)?;
    let bytes: Vec<u8> = words.iter().map(|&word| word as u8).collect();
    let pattern = read_pattern(&bytes).ok()?;
    let stacks = radix.pow(pattern.keeps as u32);
    let size = (places * (pattern.unfolded as u128 + 1)).saturating_mul(stacks);
    Some((size.saturating_mul(4)).saturating_add(LOADED as u128 + 2 * lines))
}
