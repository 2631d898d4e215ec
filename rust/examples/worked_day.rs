//! The grounds for a place in the results: reads a folder's `day.rec` (the record) and
//! `ask.pat` (from and to, two bytes each, then the pattern), finds the first shortest chain
//! and prints it, and then each of its lines.
//!
//!     cargo run --example worked_day -- ../examples/day

use chains::{Finder, Question, Record, Refusal};
use std::io::{self, ErrorKind, Write};
use std::path::Path;
use std::process::ExitCode;
use std::{env, fs};

// Exit statuses, as those of the program chains.
const CALLED_WRONGLY: u8 = 2;
const UNREADABLE: u8 = 4;
const UNWRITTEN: u8 = 5;

/// The bytes of a file; a missing file counts as empty.
fn read(folder: &Path, name: &str) -> io::Result<Vec<u8>> {
    match fs::read(folder.join(name)) {
        Err(error) if error.kind() == ErrorKind::NotFound => Ok(Vec::new()),
        Err(error) => Err(io::Error::new(
            error.kind(),
            format!("{name} cannot be read: {error}"),
        )),
        bytes => bytes,
    }
}

/// The answer, as the lines to print.
fn answer(day: Vec<u8>, question: &[u8]) -> Result<String, Refusal> {
    let &[from_high, from_low, to_high, to_low, ref pattern @ ..] = question else {
        return Ok("no question\n".to_string());
    };
    let day = Record::from_bytes(day)?;
    let mut finder = Finder::new();
    let found = finder.find(&Question {
        record: day.bytes(),
        pattern,
        from: u16::from_be_bytes([from_high, from_low]),
        to: u16::from_be_bytes([to_high, to_low]),
    })?;
    let Some(chain) = found else {
        return Ok("none\n".to_string());
    };
    let numbers: String = chain.iter().map(|number| format!(" {number}")).collect();
    let mut text = format!("found {}:{numbers}\n", chain.len());
    for &number in chain {
        text += &format!("line {number}: {}\n", day.written_line(number)?);
    }
    Ok(text)
}

fn print(text: &str) -> io::Result<()> {
    let mut out = io::stdout().lock();
    out.write_all(text.as_bytes())?;
    out.flush()
}

fn fail(status: u8, sentence: &str) -> ExitCode {
    eprintln!("worked_day: {sentence}");
    ExitCode::from(status)
}

fn main() -> ExitCode {
    let Some(folder) = env::args_os().nth(1) else {
        return fail(CALLED_WRONGLY, "name a folder with day.rec and ask.pat");
    };
    let folder = Path::new(&folder);
    let (day, question) = match (read(folder, "day.rec"), read(folder, "ask.pat")) {
        (Ok(day), Ok(question)) => (day, question),
        (Err(error), _) | (_, Err(error)) => return fail(UNREADABLE, &error.to_string()),
    };
    let text = match answer(day, &question) {
        Ok(text) => text,
        Err(refusal) => {
            eprintln!("worked_day: {refusal}");
            format!("refused {}\n", refusal.number())
        }
    };
    match print(&text) {
        Ok(()) => ExitCode::SUCCESS,
        Err(error) => fail(
            UNWRITTEN,
            &format!("standard output cannot be written to: {error}"),
        ),
    }
}
