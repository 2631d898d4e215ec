//! Every case of the comparison, put to this program itself: what the cases say by hand
//! is what it answers.

use reference::cases::{Bench, ALL};
use reference::library::Own;

/// Long searches are left to the release build.
const LONG: [&str; 7] = [
    "V11: a chain of 92,400 lines",
    "Five: V11, and 4,096 boats",
    "Six: V11",
    "the largest size, found and none",
    "Two: the largest size, found and none",
    "Three: the largest size, found and none",
    "Six: the largest size, from every place",
];

fn run(wanted: impl Fn(&str) -> bool) {
    let bench = Bench { library: &Own };
    for case in ALL.iter().filter(|case| wanted(case.name)) {
        if let Err(difference) = (case.run)(&bench) {
            panic!("{}: {difference}", case.name);
        }
    }
}

#[test]
fn cases() {
    run(|name| !LONG.contains(&name));
}

#[test]
#[cfg_attr(debug_assertions, ignore = "long: run with --release")]
fn long_cases() {
    run(|name| LONG.contains(&name));
}
