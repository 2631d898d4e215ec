//! The two ways to check a chain agree, and so do the two ways to find the first one.

use reference::chains::{search, try_all, Tried};
use reference::generator::{request, Request};
use reference::random::Random;
use reference::request::{ask, LARGEST};

const ENOUGH: usize = 4 * LARGEST as usize + 8_192;

fn requests(seed: u64, count: usize) -> impl Iterator<Item = Request> {
    let mut random = Random::new(seed);
    (0..count).map(move |_| request(&mut random))
}

#[test]
fn clauses_and_machine() {
    let (mut yes, mut no) = (0, 0);
    for r in requests(11, 20_000) {
        let Ok(asked) = ask(r.ask(), ENOUGH) else {
            continue;
        };
        let lines = asked.record.lines.len();
        let chain: Vec<u16> = r
            .chain
            .into_iter()
            .filter(|&number| (number as usize) < lines)
            .take(24)
            .collect();
        let by_clauses = asked.accepted_by_clauses(&chain);
        assert_eq!(by_clauses, asked.accepted_by_machine(&chain));
        if by_clauses {
            yes += 1;
        } else {
            no += 1;
        }
    }
    assert!(yes > 5_000 && no > 5_000, "{yes} yes, {no} no");
}

/// Every chain of a small record up to some length, both ways.
#[test]
fn clauses_and_machine_on_all_chains() {
    let mut compared = 0;
    for r in requests(12, 1_500) {
        let Ok(asked) = ask(r.ask(), ENOUGH) else {
            continue;
        };
        let lines = asked.record.lines.len() as u16;
        if lines > 4 {
            continue;
        }
        let mut chains: Vec<Vec<u16>> = vec![vec![]];
        for _ in 0..4 {
            let mut longer = Vec::new();
            for chain in &chains {
                assert_eq!(
                    asked.accepted_by_clauses(chain),
                    asked.accepted_by_machine(chain)
                );
                compared += 1;
                longer.extend((0..lines).map(|number| [&chain[..], &[number]].concat()));
            }
            chains = longer;
        }
    }
    assert!(compared > 5_000, "{compared}");
}

#[test]
fn trying_all_and_search() {
    let (mut first, mut none, mut open, mut longest) = (0, 0, 0, 0);
    for r in requests(13, 8_000) {
        let Ok(asked) = ask(r.ask(), ENOUGH) else {
            continue;
        };
        let searched = search(&asked);
        match try_all(&asked, 400, 9) {
            Tried::First(chain) => {
                longest = longest.max(chain.len());
                first += 1;
                assert_eq!(searched, Some(chain));
            }
            Tried::NoChain => {
                none += 1;
                assert_eq!(searched, None);
            }
            Tried::NoneBelow(length) => {
                open += 1;
                assert!(searched.is_none_or(|chain| chain.len() >= length));
            }
        }
    }
    println!("{first} first, {none} none, {open} open, the longest {longest}");
    assert!(first > 3_000 && none > 300, "{first} first, {none} none");
}

/// What the search finds is accepted by the clauses, and it is shorter than the search size.
#[test]
fn found_is_accepted() {
    for r in requests(14, 4_000) {
        let Ok(asked) = ask(r.ask(), ENOUGH) else {
            continue;
        };
        if let Some(chain) = search(&asked) {
            assert!(asked.accepted_by_machine(&chain));
            if chain.len() <= 24 {
                assert!(asked.accepted_by_clauses(&chain));
            }
            let size = reference::request::search_size(&asked.record, &asked.pattern);
            assert!((chain.len() as u128) < size);
        }
    }
}
