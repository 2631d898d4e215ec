//! A search under way: at every count its finish says what the finder says, moves add up, and the
//! end comes in time; what stands in the area is what was found, and how; and an altered area does
//! no harm.

use reference::generator::{altered, request, Request};
use reference::random::Random;
use reference::request::{ask, fitted, search_size, shortest, FindReply, LARGEST};
use reference::search::{begin, finish, moved, words, NO_SEARCH};

const ENOUGH: usize = 4 * LARGEST as usize + 8_192 + 3 * 4_096;

/// Requests that pass the questions, of a search size up to so much.
fn requests(seed: u64, count: usize, largest: usize) -> impl Iterator<Item = Request> {
    let mut random = Random::new(seed);
    let requests = (0..count).map(move |_| request(&mut random));
    requests.filter(move |r| size(r).is_some_and(|size| size <= largest))
}

fn size(r: &Request) -> Option<usize> {
    let asked = ask(r.ask(), ENOUGH).ok()?;
    Some(search_size(&asked.record, &asked.pattern) as usize)
}

/// The area that begin leaves, with just the words that it needs.
fn begun(r: &Request) -> Vec<u32> {
    let needed = words(&r.rec, &r.pat).expect("it passes") as usize;
    begin(r.ask(), needed).expect("it passes")
}

/// Every area from begin to the end, by moves of 1.
fn areas(r: &Request) -> Vec<Vec<u32>> {
    let mut areas = vec![begun(r)];
    loop {
        let (taken, after) = moved(areas.last().expect("begun"), 1).expect("under way");
        if taken == 0 {
            assert_eq!(Some(&after), areas.last());
            return areas;
        }
        assert_eq!(taken, 1);
        areas.push(after);
    }
}

#[test]
fn finish_says_what_find_says() {
    let (mut found, mut none, mut counts) = (0, 0, 0);
    for r in requests(21, 6_000, 300) {
        let first = shortest(r.ask(), ENOUGH);
        let length = match &first {
            Ok(Some(chain)) => chain.len(),
            _ => 0,
        };
        for area in areas(&r) {
            counts += 1;
            for room in [length, length + 2, length.saturating_sub(1)] {
                assert_eq!(finish(&area, room), fitted(first.clone(), room));
            }
        }
        match first {
            Ok(Some(_)) => found += 1,
            _ => none += 1,
        }
    }
    println!("{found} found, {none} none, {counts} areas");
    assert!(found > 2_500 && none > 500 && counts > 20_000);
}

#[test]
fn larger_searches_too() {
    let mut long = 0;
    for r in requests(22, 4_000, 40_000) {
        let first = shortest(r.ask(), ENOUGH);
        let area = begun(&r);
        let (taken, half) = moved(&area, 40).expect("under way");
        let (_, end) = moved(&half, usize::MAX).expect("under way");
        long += (taken == 40) as usize;
        for area in [area, half, end] {
            assert_eq!(finish(&area, 4_000), fitted(first.clone(), 4_000));
        }
    }
    assert!(long > 150, "{long}");
}

#[test]
fn amounts_add_up() {
    let mut random = Random::new(23);
    let mut sums = 0;
    for r in requests(23, 4_000, 300) {
        let areas = areas(&r);
        let end = areas.len() - 1;
        // From the begin, and in two moves, the second one perhaps beyond the end.
        for _ in 0..6 {
            let (one, two) = (random.below(end + 2), random.below(end + 3));
            let (taken, after) = moved(&areas[0], one).expect("under way");
            assert_eq!((taken, &after), (one.min(end), &areas[one.min(end)]));
            let (more, after) = moved(&after, two).expect("under way");
            assert_eq!(taken + more, (one + two).min(end));
            assert_eq!(after, areas[taken + more]);
            sums += 1;
        }
        assert_eq!(moved(&areas[0], usize::MAX), Ok((end, areas[end].clone())));
        for area in areas {
            assert_eq!(moved(&area, 0), Ok((0, area)));
        }
    }
    assert!(sums > 8_000, "{sums}");
}

#[test]
fn the_end_comes_in_time() {
    let (mut most, mut at_once) = (0.0f64, 0);
    for r in requests(24, 6_000, 400) {
        let size = size(&r).expect("it passes");
        let moves = areas(&r).len() - 1;
        assert!(moves < 2 * size, "{moves} moves of 1, size {size}");
        most = most.max(moves as f64 / size as f64);
        at_once += (moves == 0) as usize;
    }
    println!("at most {most:.2} times the size, {at_once} at once");
    assert!(most > 1.5 && at_once > 100);
}

/// Beside every state of the queue but the goal stands how it was reached: by a line from its place
/// to that of a state that was expanded before, and is one nearer.
#[test]
fn states_were_reached() {
    let mut states = 0;
    for r in requests(25, 6_000, 400) {
        let size = size(&r).expect("it passes");
        for area in areas(&r) {
            let [places, lines, expanded, found] = [1, 2, 6, 7].map(|at| area[at] as usize);
            let boats = if keeps(&r) { area[0] as usize } else { 0 };
            let base = 209 + boats + 2 * lines;
            let table = |number: usize| &area[base + number * size..base + (number + 1) * size];
            let (words, queue, reached) = (table(0), &table(1)[..found], &table(2)[..found]);
            let place = |state: u32| state as usize / (size / places);
            assert_eq!((words[queue[0] as usize], reached[0]), (1, 0));
            for (at, &state) in queue.iter().enumerate().skip(1) {
                let (line, from) = (reached[at] >> 20, reached[at] % (1 << 20));
                let before = queue.iter().position(|&state| state == from);
                assert!(before.is_some_and(|before| before < expanded && before < at));
                assert_eq!(words[state as usize], words[from as usize] + 1);
                let word = area[base - lines + line as usize] as usize;
                assert_eq!(
                    (word / 16_384, word / 16 % 1_024),
                    (place(state), place(from))
                );
                states += 1;
            }
            let rest = &area[base + 4 * size..];
            assert!(rest.iter().all(|&word| word == 0));
        }
    }
    assert!(states > 100_000, "{states}");
}

fn keeps(r: &Request) -> bool {
    ask(r.ask(), ENOUGH).is_ok_and(|asked| asked.pattern.keeps > 0)
}

/// An altered area is left with 26, or moved on by no more than the amount.
#[test]
fn altered_areas_do_no_harm() {
    let mut random = Random::new(26);
    let (mut refused, mut taken_up, mut told) = (0, 0, 0);
    for r in requests(26, 3_000, 400) {
        let areas = areas(&r);
        for _ in 0..10 {
            let area = &areas[random.below(areas.len())];
            let area = altered(&mut random, area);
            let amount = random.below(9);
            match moved(&area, amount) {
                Ok((taken, after)) => {
                    taken_up += 1;
                    assert!(taken <= amount && after.len() == area.len());
                }
                Err(number) => {
                    refused += 1;
                    assert_eq!(number, NO_SEARCH);
                }
            }
            told += (finish(&area, 5) != FindReply::Refused(NO_SEARCH, 0)) as usize;
        }
    }
    println!("{refused} refused, {taken_up} taken up, {told} finished");
    assert!(refused > 10_000 && taken_up > 300 && told > 300);
}
