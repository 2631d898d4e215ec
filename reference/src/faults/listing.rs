//! The lengths from a list of places as this program tells them, but for the planted fault. What is
//! asked of record and pattern, and which chains are accepted, is right here: such faults are in the
//! finder's calls.

use super::searching;
use super::Fault::{self, *};
use crate::chains::{search, Asked};
use crate::library::Listed;
use crate::pattern::read_pattern;
use crate::record::read_record;
use crate::request::{refused, search_size, LARGEST, NO_CHAIN};
use crate::windows::Windows;
use std::collections::{BTreeMap, BTreeSet};

/// The mark for none.
const NONE: u32 = NO_CHAIN as u32;

pub fn starts(fault: Fault, listed: Listed, work: &mut [u32], lengths: &mut [u32]) -> u64 {
    let asked = match ask(fault, listed, work.len(), lengths.len()) {
        Ok(asked) => asked,
        Err(number) => {
            if fault == ListClearsAt17 && number == 17 {
                work.fill(0);
            }
            let second = if number == 19 { listed.starts.len() } else { 0 };
            return refused(number, second as u64);
        }
    };
    let needed = 4 * search_size(&asked.record, &asked.pattern) as usize + 8_192;
    let dirty = work.iter().any(|&word| word != 0);
    let reply = match too_short(fault, listed.starts, lengths.len()) {
        Some(count) => {
            if fault == List19WritesWhatFits {
                let told = told(fault, asked, listed.starts, false);
                lengths.copy_from_slice(&told[..lengths.len()]);
            }
            refused(19, count)
        }
        None => {
            let told = told(fault, asked, listed.starts, dirty);
            put(fault, &told, lengths)
        }
    };
    match fault {
        List19LeavesArea if reply >> 32 != 0 => {}
        ListLeavesArea if reply >> 32 == 0 => {}
        EmptyLeavesArea if listed.starts.is_empty() => {}
        ListClearsNeeded => work[..needed].fill(0),
        _ => work.fill(0),
    }
    if fault == ListPastArea {
        // The comparison lends a part of a longer buffer, so the word exists.
        unsafe { *work.as_mut_ptr().add(work.len()) = 0 }
    }
    reply
}

// ---- questions

/// The questions up to 17, and 19 among them where the fault asks it earlier and one of them would
/// be refused too.
fn ask(fault: Fault, listed: Listed, work_len: usize, lengths_len: usize) -> Result<Asked, u8> {
    let record = read_record(listed.rec)?;
    let pattern = read_pattern(listed.pat)?;
    let size = search_size(&record, &pattern);
    let (starts, count) = (listed.starts, listed.starts.len());
    let starts_asked = match fault {
        FirstStartAsked => &starts[..count.min(1)],
        LastStartNotAsked => &starts[..count.saturating_sub(1)],
        _ => starts,
    };
    let finish_asked = match fault {
        FinishNotAsked => false,
        EmptyAsksNoFinish => !starts.is_empty(),
        _ => true,
    };
    let windows = Windows::of(listed.options);
    let missing = |place: &u16| *place >= record.places;
    let fails = |question: &u8| match question {
        15 => starts_asked.iter().any(missing) || (finish_asked && missing(&listed.to)),
        27 => !windows.pass(),
        16 => size > LARGEST,
        17 => (work_len as u128) < 4 * size + 8_192,
        _ => count > lengths_len,
    };
    let order: &[u8] = match fault {
        List16Before15 => &[16, 15, 27, 17],
        List17Before16 => &[15, 27, 17, 16],
        List19Before15 => &[19, 15, 27, 16, 17],
        List19Before17 => &[15, 27, 16, 19, 17],
        List27Before15 => &[27, 15, 16, 17],
        List27NotAsked => &[15, 16, 17],
        _ => &[15, 27, 16, 17],
    };
    let failing: Vec<u8> = order.iter().copied().filter(fails).collect();
    if !matches!(failing[..], [] | [19]) {
        return Err(failing[0]);
    }
    let windows = match fault {
        ListWithoutWindows => Windows::of(None),
        _ => windows,
    };
    Ok(Asked {
        inside: windows.inside(&record.lines),
        record,
        pattern,
        from: listed.to,
        to: listed.to,
    })
}

/// Do the lengths not fit? Then 19 is given with this number.
fn too_short(fault: Fault, starts: &[u16], room: usize) -> Option<u64> {
    let count = match fault {
        List19OfDifferent => starts.iter().collect::<BTreeSet<_>>().len(),
        ListIn16Bits => starts.len() as u16 as usize,
        _ => starts.len(),
    };
    let fits = match fault {
        List19RefusesExact => count < room,
        _ => count <= room,
    };
    let second = match fault {
        List19WithNothing => 0,
        List19Invents => room + 1,
        _ => count,
    };
    (!fits).then_some(second as u64)
}

// ---- lengths

/// What the fault tells of the listed places.
fn told(fault: Fault, mut asked: Asked, starts: &[u16], dirty: bool) -> Vec<u32> {
    let mut list = starts.to_vec();
    let mut listed = BTreeSet::new();
    match fault {
        LengthsByPlace => list.sort_unstable(),
        AnsweredOnce => list.retain(|start| listed.insert(*start)),
        ListIn16Bits => list.truncate(list.len() as u16 as usize),
        _ => {}
    }
    let mut known: BTreeMap<u16, Option<usize>> = BTreeMap::new();
    let mut length = |&start: &u16| {
        *known
            .entry(start)
            .or_insert_with(|| length(fault, &mut asked, start))
    };
    let lengths: Vec<Option<usize>> = list.iter().map(&mut length).collect();
    let nearest = lengths.iter().flatten().min().copied();
    let word = |(start, length): (&u16, &Option<usize>)| match (fault, *length) {
        (ListTrustsArea, _) if dirty => NONE,
        (NoneWhenListedAgain, _) if !listed.insert(*start) => NONE,
        (NearestStartOnly, length) if length != nearest => NONE,
        (ZeroForNone, None) => 0,
        (_, None) => NONE,
        (LengthAndOne, Some(length)) => length as u32 + 1,
        (LengthsIn16Bits, Some(length)) => length as u16 as u32,
        (_, Some(length)) => length as u32,
    };
    list.iter().zip(&lengths).map(word).collect()
}

/// The length that the fault takes for the shortest from a place.
fn length(fault: Fault, asked: &mut Asked, start: u16) -> Option<usize> {
    let (places, finish) = (asked.record.places, asked.to);
    // A place that should have been asked about has no lines.
    if start >= places || finish >= places {
        return None;
    }
    asked.from = start;
    if fault == FromTheFinish {
        (asked.from, asked.to) = (finish, start);
    }
    let right = search(asked).map(|chain| chain.len());
    asked.to = finish;
    match fault {
        OneFirstPosition => searching::one_first_position(asked),
        AnyPositionAndBoats => searching::any_state(asked),
        LengthsCutAtPlaces => right.filter(|length| *length <= places as usize),
        NoneForEmpty => right.filter(|length| *length > 0),
        ZeroAtTheFinish if start == finish => Some(0),
        _ => right,
    }
}

/// Writes the lengths as far as there is room, and gives the value.
fn put(fault: Fault, told: &[u32], lengths: &mut [u32]) -> u64 {
    let kept = match fault {
        LastLengthLost => told.len().saturating_sub(1),
        _ => told.len().min(lengths.len()),
    };
    lengths[..kept].copy_from_slice(&told[..kept]);
    match fault {
        ClearsLengths => lengths[kept..].fill(0),
        // The comparison lends a part of a longer buffer, so the word exists.
        PastLengths => unsafe { *lengths.as_mut_ptr().add(told.len()) = NONE },
        _ => {}
    }
    match fault {
        SaysHowManyChains => told.iter().filter(|&&word| word != NONE).count() as u64,
        _ => told.len() as u64,
    }
}
