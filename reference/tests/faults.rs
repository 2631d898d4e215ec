//! The comparison finds every planted fault, by the cases and by every sort of rounds that meets
//! it, and finds none in the copy without a fault. docs/TESTING.md has the table of what was found.

use reference::faults::{findings, found_by_cases, found_by_rounds, is_found, row, Fault, PLANTED};
use reference::rounds::SORTS;
use std::collections::BTreeSet;

const PAGE: &str = include_str!("../../docs/TESTING.md");

#[test]
#[cfg_attr(debug_assertions, ignore = "long: run with --release")]
fn faults_are_found() {
    for planted in PLANTED {
        let found = findings(planted);
        let row = row(planted, &found);
        println!("{row}");
        assert!(is_found(planted, &found), "{:?}: {row}", planted.fault);
        assert!(
            PAGE.lines().any(|line| line == row),
            "docs/TESTING.md lacks {row}: make its table again with the program `faults`"
        );
    }
}

/// What is found is the fault, and not the copy.
#[test]
#[cfg_attr(debug_assertions, ignore = "long: run with --release")]
fn the_copy_is_right() {
    for (sort, round) in SORTS {
        assert!(found_by_rounds(Fault::NoFault, sort, round).is_none());
    }
    assert!(found_by_cases(Fault::NoFault).is_none());
}

#[test]
fn faults_are_different() {
    let words: BTreeSet<&str> = PLANTED.iter().map(|planted| planted.wrong).collect();
    assert_eq!(words.len(), PLANTED.len());
    assert!(PLANTED
        .iter()
        .all(|planted| planted.fault != Fault::NoFault));
}
