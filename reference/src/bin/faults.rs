//! Prints the table of planted faults: what each is, what finds it, and after how many
//! requests. It ends with status 1 if the cases, or rounds that should, miss one.

use reference::faults::{findings, is_found, row, PLANTED};
use std::process::ExitCode;

fn main() -> ExitCode {
    println!("| Fault | Found by | After how many requests |\n|---|---|---|");
    let mut missed = 0;
    for planted in PLANTED {
        let found = findings(planted);
        println!("{}", row(planted, &found));
        missed += !is_found(planted, &found) as usize;
    }
    if missed > 0 {
        eprintln!("{missed} faults were missed by the cases or by rounds that meet them");
        return ExitCode::FAILURE;
    }
    ExitCode::SUCCESS
}
