//! README's day with a slip for each boat: asks about every boat in turn, with one finder.
//!
//!     cargo run --example one_boat -- ../examples/one_boat/day.rec

use chains::{Finder, Question, Record};
use std::io::{stdout, Write};
use std::{env, error::Error, fs, process::ExitCode};

fn ask() -> Result<(), Box<dyn Error>> {
    let file = env::args_os().nth(1).ok_or("name a file with a record")?;
    let day = Record::from_bytes(fs::read(file)?)?;
    // A boat entered; then that boat started, rounded, finished.
    let pattern = [0x27, 1, 0, 0x25, 0x22, 2, 0, 0x25, 0x22, 3, 0, 0x22, 4, 0];
    let mut finder = Finder::new(); // keeps its work area and output between requests
    for slip in 0..3 {
        let question = Question::about(&day, &pattern, slip, 6);
        match finder.find_owned(&question)? {
            Some(chain) => {
                assert!(finder.check(&question, &chain)?);
                writeln!(stdout(), "slip {slip}: found {}: {chain:?}", chain.len())?;
            }
            None => writeln!(stdout(), "slip {slip}: none")?,
        }
    }
    Ok(())
}

fn main() -> ExitCode {
    match ask() {
        Ok(()) => ExitCode::SUCCESS,
        Err(error) => {
            eprintln!("one_boat: {error}"); // of a refusal its sentence
            ExitCode::FAILURE
        }
    }
}
