//! README's examples: what the folders expect, by way of this crate.

mod common;

use chains::{Finder, Question, Record, Refusal};
use common::line;
use std::fs;
use std::path::PathBuf;

fn examples() -> PathBuf {
    PathBuf::from(env!("CARGO_MANIFEST_DIR")).join("../examples")
}

fn read(folder: &str, name: &str) -> Vec<u8> {
    fs::read(examples().join(folder).join(name)).expect("a stored file")
}

/// The line that the program prints for a folder.
fn said(folder: &str) -> Result<String, Refusal> {
    let day = Record::from_bytes(read(folder, "day.rec"))?;
    let ask = read(folder, "ask.pat");
    let place = |at: usize| u16::from_be_bytes([ask[at], ask[at + 1]]);
    let question = Question::about(&day, &ask[4..], place(0), place(2));
    let mut finder = Finder::new();
    let Some(chain) = finder.find_owned(&question)? else {
        return Ok("none\n".to_string());
    };
    assert!(finder.check(&question, &chain)?);
    let numbers: String = chain.iter().map(|number| format!(" {number}")).collect();
    Ok(format!("found {}:{numbers}\n", chain.len()))
}

#[test]
fn folders() -> Result<(), Refusal> {
    for folder in [
        "one_boat",
        "own_record",
        "laps",
        "laps_one_place",
        "laps_counted",
        "time_limit",
    ] {
        assert_eq!(said(folder)?.as_bytes(), read(folder, "expected.txt"));
    }
    Ok(())
}

/// The record of a boat's own lines, made from the day's: what is found there are lines of the day.
#[test]
fn own_record() -> Result<(), Refusal> {
    let day = Record::from_bytes(read("one_boat", "day.rec"))?;
    let mut own = Record::begin(7)?;
    let mut numbers = Vec::new();
    for (number, line) in (0u16..).zip(day.lines()) {
        if (line.class, line.sail) == (2, 150) {
            own.add(line)?;
            numbers.push(number);
        }
    }
    assert_eq!(own.bytes(), read("own_record", "day.rec"));
    let chain = own.find(&read("own_record", "ask.pat")[4..], 1, 6)?;
    let chain: Option<Vec<u16>> =
        chain.map(|chain| chain.iter().map(|&i| numbers[usize::from(i)]).collect());
    assert_eq!(chain, Some(vec![1, 3, 6, 8]));
    assert_eq!(day.line(8)?, line(5, 4, 2, 150, 6));
    Ok(())
}

/// README's program is the one that is compiled, below its first comment.
#[test]
fn program_in_readme() {
    let program = include_str!("../examples/one_boat.rs");
    let code = program
        .split_once("\n\n")
        .expect("a comment, a blank line")
        .1;
    assert!(include_str!("../../README.md").contains(code));
}
