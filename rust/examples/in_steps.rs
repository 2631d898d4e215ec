//! A line is written while a search is under way: the question of README's worked day, in steps.
//!
//!     cargo run --example in_steps -- ../examples/day/day.rec

use chains::{Line, Record};
use std::io::{stdout, Write};
use std::{env, error::Error, fs, process::ExitCode};

fn ask() -> Result<(), Box<dyn Error>> {
    let file = env::args_os().nth(1).ok_or("name a file with a record")?;
    let mut day = Record::from_bytes(fs::read(file)?)?;
    // A boat entered; then that boat started, rounded any number of times, finished.
    let pattern = [
        0x27, 1, 0, 0x25, 0x22, 2, 0, 0x25, 0x26, 0x22, 3, 0, 0x22, 4, 0,
    ];
    let mut search = day.search(&pattern, 0, 3)?; // holds what it needs of the day
    let states = search.moved(3);
    let finished = Line {
        from: 2,
        kind: 4,
        class: 1,
        sail: 150,
        to: 3,
    };
    let number = day.add(finished)?;
    writeln!(stdout(), "after {states} states line {number}: {finished}")?;
    while search.moved(3) == 3 {} // there is time for other work after each three states
    writeln!(stdout(), "as it was: {}", said(search.finish()))?;
    writeln!(stdout(), "as it is: {}", said(day.find(&pattern, 0, 3)?))?;
    Ok(())
}

fn said(chain: Option<Vec<u16>>) -> String {
    match chain {
        Some(chain) => format!("found {}: {chain:?}", chain.len()),
        None => "none".to_string(),
    }
}

fn main() -> ExitCode {
    match ask() {
        Ok(()) => ExitCode::SUCCESS,
        Err(error) => {
            eprintln!("in_steps: {error}"); // of a refusal its sentence
            ExitCode::FAILURE
        }
    }
}
