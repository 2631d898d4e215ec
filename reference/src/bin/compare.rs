//! Compares the static library with this program: first the cases written by hand, then
//! rounds made at random from three fixed seeds and a fresh one, which is printed.
//!
//! `compare BYTES WRITES CHECKS FINDS BOATS SEARCHES STARTS [SEED]`: how many rounds of each sort,
//! shared equally by the four seeds, and a seed in place of the fresh one. It ends with status 1
//! at the first difference, which is printed with the whole request.

use reference::cases::{Bench, ALL};
use reference::compare::shown;
use reference::library::Library;
use reference::linked::Linked;
use reference::random::Random;
use reference::request::NO_CHAIN;
use reference::rounds::{Round, SORTS};
use std::collections::BTreeMap;
use std::process::exit;
use std::time::{Instant, SystemTime, UNIX_EPOCH};

const FIXED_SEEDS: [u64; 3] = [1, 2, 3];

fn main() {
    let arguments: Option<Vec<u64>> = std::env::args().skip(1).map(|a| a.parse().ok()).collect();
    let (counts, fresh) = match arguments.as_deref() {
        Some(&[b, w, c, f, n, s, l]) => ([b, w, c, f, n, s, l], fresh_seed()),
        Some(&[b, w, c, f, n, s, l, seed]) => ([b, w, c, f, n, s, l], seed),
        _ => {
            eprintln!("compare BYTES WRITES CHECKS FINDS BOATS SEARCHES STARTS [SEED]");
            exit(2);
        }
    };
    let library = Linked;
    run_cases(&library);
    println!("seeds: fixed {FIXED_SEEDS:?}, fresh {fresh}");
    let mut compared = 0;
    for ((sort, round), count) in SORTS.into_iter().zip(counts) {
        compared += run_rounds(&library, sort, round, count, fresh);
    }
    println!("compared: {compared} random rounds and all cases, no difference");
}

fn fresh_seed() -> u64 {
    let now = SystemTime::now().duration_since(UNIX_EPOCH);
    now.map_or(4, |now| now.as_nanos() as u64)
}

fn run_cases(library: &dyn Library) {
    let bench = Bench { library };
    for case in ALL {
        match (case.run)(&bench) {
            Ok(note) if note.is_empty() => println!("{}: as expected", case.name),
            Ok(note) => println!("{}: as expected ({note})", case.name),
            Err(difference) => {
                println!("{}: DIFFERENT\n{difference}", case.name);
                exit(1);
            }
        }
    }
}

/// Runs the rounds of one sort, prints how many there were of each reply, and gives their
/// number.
fn run_rounds(library: &dyn Library, sort: &str, round: Round, count: u64, fresh: u64) -> u64 {
    let clock = Instant::now();
    let mut seen: BTreeMap<String, u64> = BTreeMap::new();
    let each = count.div_ceil(4);
    for seed in FIXED_SEEDS.into_iter().chain([fresh]) {
        let mut random = Random::new(seed);
        for number in 0..each {
            match round(library, &mut random) {
                Ok(replies) => {
                    for reply in replies {
                        *seen.entry(sort_of(sort, reply)).or_insert(0) += 1;
                    }
                }
                Err(difference) => {
                    println!("{sort}, seed {seed}, round {number}: DIFFERENT\n{difference}");
                    exit(1);
                }
            }
        }
    }
    let per_second = (4 * each) as f64 / clock.elapsed().as_secs_f64();
    let replies: Vec<String> = seen.iter().map(|(r, n)| format!("{r} {n}")).collect();
    println!(
        "{sort}: {} rounds, {per_second:.0} a second; {}",
        4 * each,
        replies.join(", ")
    );
    4 * each
}

/// What a reply is counted as.
fn sort_of(sort: &str, reply: u64) -> String {
    match (sort, reply) {
        _ if reply >> 32 != 0 => format!("q{:02}", reply >> 32),
        ("checks", 1) => "yes".to_string(),
        ("checks", 0) => "no".to_string(),
        ("checks", _) => shown(reply),
        ("finds" | "searches" | "starts", NO_CHAIN) => "none".to_string(),
        ("finds", _) => "found".to_string(),
        _ => "done".to_string(),
    }
}
