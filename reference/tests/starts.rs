//! A list of starts: each entry says what the finder says for the place alone, and what one search
//! backward from the finish says; the list's order and repeats are those of the entries; a list is
//! refused where one of its places is; and the lent lists are written as promised.

use reference::cases::{r, P};
use reference::chains::Asked;
use reference::generator::{list_of_starts, request, request_of_several, Request};
use reference::library::{Library, Listed, Own};
use reference::machine::{boat_words, Machine, State};
use reference::random::Random;
use reference::record::read_record;
use reference::request::{
    ask, find, refused, search_size, starts, FindReply, StartsReply, LARGEST,
};
use std::collections::hash_map::Entry;
use std::collections::{HashMap, HashSet, VecDeque};

const ENOUGH: usize = 4 * LARGEST as usize + 8_192;
const NONE: u32 = 4_294_967_295;

/// Requests, each with a list of starts.
fn requests(seed: u64, count: usize) -> impl Iterator<Item = (Request, Vec<u16>)> {
    let mut random = Random::new(seed);
    (0..count).map(move |number| {
        let r = match number % 2 {
            0 => request(&mut random),
            _ => request_of_several(&mut random),
        };
        let places = read_record(&r.rec).map_or(4, |record| record.places);
        let list = list_of_starts(&mut random, places, r.from);
        (r, list)
    })
}

fn lengths(r: &Request, list: &[u16]) -> Option<Vec<Option<usize>>> {
    match starts(r.listed(list), ENOUGH, list.len()) {
        StartsReply::Lengths(lengths) => Some(lengths),
        StartsReply::Refused(..) => None,
    }
}

/// What the finder says of one place, with an output long enough.
fn alone(r: &Request, place: u16) -> FindReply {
    find(r.listed(&[]).alone(place), ENOUGH, usize::MAX)
}

#[test]
fn entries_are_the_finders() {
    let (mut found, mut none, mut empty, mut apart) = (0, 0, 0, 0);
    for (r, list) in requests(31, 3_000) {
        let Some(lengths) = lengths(&r, &list) else {
            continue;
        };
        assert_eq!(lengths.len(), list.len());
        for (&place, length) in list.iter().zip(&lengths).take(60) {
            match (alone(&r, place), length) {
                (FindReply::Found(chain), Some(length)) => {
                    assert_eq!(chain.len(), *length);
                    found += 1;
                    empty += (*length == 0) as usize;
                }
                (FindReply::NoChain, None) => none += 1,
                (alone, entry) => panic!("{alone:?} alone, but {entry:?} in the list"),
            }
        }
        let different: HashSet<usize> = lengths.into_iter().flatten().collect();
        apart += (different.len() > 1) as usize;
    }
    println!(
        "{found} found, {empty} with no lines, {none} none, {apart} lists with several lengths"
    );
    assert!(found > 3_000 && empty > 500 && none > 3_000 && apart > 200);
}

/// The shortest length from every place, by one search backward from the finish.
fn backward(asked: &Asked) -> Vec<Option<usize>> {
    type Standing = (u16, State);
    let machine = Machine::new(&asked.pattern.root);
    let boats = boat_words(&asked.record);
    let places = asked.record.places;
    let begin: Vec<Standing> = (0..places)
        .flat_map(|place| machine.begin().into_iter().map(move |state| (place, state)))
        .collect();
    // All that a chain from any place leads to, and what each was led to from.
    let mut before: HashMap<Standing, Vec<Standing>> = HashMap::new();
    let mut met: HashSet<Standing> = begin.iter().copied().collect();
    let mut waiting = begin.clone();
    while let Some((place, state)) = waiting.pop() {
        let lines = asked.record.lines.iter().zip(&boats).zip(&asked.inside);
        for ((line, &boat), &inside) in lines {
            let mut after = Vec::new();
            if line.from == place && inside {
                machine.take(state, line, boat, &mut after);
            }
            for next in after.into_iter().map(|after| (line.to, after)) {
                before.entry(next).or_default().push((place, state));
                if met.insert(next) {
                    waiting.push(next);
                }
            }
        }
    }
    let goal = |s: &&Standing| s.0 == asked.to && machine.is_done(s.1);
    let mut waiting: VecDeque<Standing> = met.iter().filter(goal).copied().collect();
    let mut distance: HashMap<Standing, usize> = waiting.iter().map(|s| (*s, 0)).collect();
    while let Some(standing) = waiting.pop_front() {
        let next = distance[&standing] + 1;
        for &earlier in before.get(&standing).into_iter().flatten() {
            if let Entry::Vacant(unknown) = distance.entry(earlier) {
                unknown.insert(next);
                waiting.push_back(earlier);
            }
        }
    }
    let nearest = |place: u16| {
        let here = begin.iter().filter(|standing| standing.0 == place);
        here.filter_map(|standing| distance.get(standing))
            .min()
            .copied()
    };
    (0..places).map(nearest).collect()
}

#[test]
fn one_search_backward_says_the_same() {
    let (mut found, mut none, mut longest) = (0, 0, 0);
    for (r, _) in requests(32, 6_000) {
        let Ok(asked) = ask(r.listed(&[]).alone(r.to), ENOUGH) else {
            continue;
        };
        if search_size(&asked.record, &asked.pattern) > 40_000 {
            continue;
        }
        let all: Vec<u16> = (0..asked.record.places).collect();
        let lengths = lengths(&r, &all).expect("it passes");
        assert_eq!(lengths, backward(&asked));
        found += lengths.iter().flatten().count();
        none += lengths.iter().filter(|length| length.is_none()).count();
        longest = longest.max(lengths.into_iter().flatten().max().unwrap_or(0));
    }
    println!("{found} found, {none} none, the longest {longest}");
    assert!(found > 8_000 && none > 8_000 && longest > 15);
}

#[test]
fn entries_follow_the_list() {
    let (mut random, mut lists) = (Random::new(33), 0);
    for (r, list) in requests(33, 1_500) {
        let Some(told) = lengths(&r, &list) else {
            continue;
        };
        let turned: Vec<u16> = list.iter().rev().copied().collect();
        let twice = [&list[..], &list].concat();
        let cut = random.below(list.len() + 1);
        let told_turned: Vec<Option<usize>> = told.iter().rev().copied().collect();
        assert_eq!(lengths(&r, &turned), Some(told_turned));
        assert_eq!(lengths(&r, &twice), Some([&told[..], &told].concat()));
        assert_eq!(lengths(&r, &list[..cut]), Some(told[..cut].to_vec()));
        lists += (list.len() > 1) as usize;
    }
    assert!(lists > 500, "{lists}");
}

/// Up to 17 a list is refused like the places of it alone: by 15 if one of them is, the finishing
/// place among them. Then 19 goes by the lengths.
#[test]
fn a_list_is_refused_like_its_places() {
    let (mut by_one, mut by_finish, mut others, mut short, mut passed) = (0, 0, 0, 0, 0);
    let mut random = Random::new(34);
    for (r, list) in requests(34, 12_000) {
        let room = r.room.entries(list.len());
        let reply = starts(r.listed(&list), r.work_len, room);
        let alone = |place: u16| r.listed(&[]).alone(place);
        let refusal = |&place: &u16| match find(alone(place), r.work_len, usize::MAX) {
            FindReply::Refused(number, _) => Some(number),
            _ => None,
        };
        // One that is not there, if any, and a few of the others.
        let some: Vec<u16> = (0..5.min(list.len())).map(|_| random.pick(&list)).collect();
        let highest = list.iter().copied().max();
        let refusals: Vec<u8> = some
            .iter()
            .chain(&highest)
            .chain(&[r.to])
            .filter_map(refusal)
            .collect();
        match reply {
            StartsReply::Refused(15, second) => {
                assert!(second == 0 && refusals.contains(&15));
                let finish = refusal(&r.to) == Some(15);
                by_finish += (finish && list.is_empty()) as usize;
                by_one += !finish as usize;
            }
            StartsReply::Refused(19, second) => {
                assert!(refusals.is_empty() && second == list.len() && room < list.len());
                short += 1;
            }
            StartsReply::Refused(number, second) => {
                assert!(second == 0 && !refusals.is_empty());
                assert!(refusals.iter().all(|refusal| *refusal == number));
                others += 1;
            }
            StartsReply::Lengths(lengths) => {
                assert!(refusals.is_empty() && lengths.len() == list.len());
                assert!(room >= list.len());
                passed += 1;
            }
        }
    }
    println!("{by_one} by a listed place, {by_finish} with no place listed, {others} others, {short} short, {passed} passed");
    assert!(by_one > 150 && by_finish > 5 && others > 1_000 && short > 500 && passed > 2_000);
}

/// The worked day, with every word of both lent lists.
#[test]
fn lent_lists() {
    let rec = r();
    let told = |list: &[u16], to: u16, words: usize, room: usize| {
        let listed = Listed {
            rec: &rec,
            pat: &P,
            starts: list,
            to,
            options: None,
        };
        let (mut work, mut lengths) = (vec![7; words], vec![9; room]);
        let reply = Own.starts(listed, &mut work, &mut lengths);
        (reply, work, lengths)
    };
    let zeros = |words: usize| vec![0; words];
    let list = [0, 1, 2, 3, 0];
    let five = [3, NONE, NONE, NONE, 3];
    assert_eq!(told(&list, 3, 8_704, 5), (5, zeros(8_704), five.to_vec()));
    let longer = [&five[..], &[9, 9]].concat();
    assert_eq!(told(&list, 3, 8_710, 7), (5, zeros(8_710), longer));
    assert_eq!(told(&[], 3, 8_704, 2), (0, zeros(8_704), vec![9; 2]));
    let nineteen = refused(19, 5);
    assert_eq!(nineteen, 19 * (1 << 32) + 5);
    assert_eq!(
        told(&list, 3, 8_709, 4),
        (nineteen, zeros(8_709), vec![9; 4])
    );
    for (list, to, words, room, number) in [
        (&list[..], 3, 8_703, 5, 17),
        (&list, 3, 8_703, 4, 17),
        (&[0, 4], 3, 8_704, 1, 15),
        (&[4, 0], 3, 8_704, 2, 15),
        (&[], 4, 8_704, 0, 15),
    ] {
        let untouched = (refused(number, 0), vec![7; words], vec![9; room]);
        assert_eq!(told(list, to, words, room), untouched);
    }
}

/// A list of more places than 32 bits count is not made here, but its reply is.
#[test]
fn counts_beyond_32_bits() {
    for (count, told) in [
        (70_000, 70_000),
        (4_294_967_294, 4_294_967_294),
        (4_294_967_295, 4_294_967_295),
        (4_294_967_296, 4_294_967_295),
        (usize::MAX, 4_294_967_295),
    ] {
        let reply = StartsReply::Refused(19, count);
        assert_eq!(reply.number(), 19 * (1 << 32) + told);
    }
}
