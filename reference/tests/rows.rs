//! The rows made at random of the test program `rows`: every sort is there, and the file fits.

use reference::rows::{rows, LONGEST_FILE};

#[test]
fn every_sort_of_reply() {
    let made = rows(1);
    assert!(made.file.len() < LONGEST_FILE, "{} bytes", made.file.len());
    for number in (2..=17).chain([19, 24, 25, 28]) {
        let name = format!("refused {number}");
        assert!(made.counts.get(&name) > Some(&0), "no {name}");
    }
    for (name, least) in [
        ("found", 50),
        ("found, empty", 10),
        ("found, long", 100),
        ("none", 50),
    ] {
        assert!(made.counts.get(name) >= Some(&least), "too few: {name}");
    }
    let total: usize = made.counts.values().sum();
    assert_eq!(made.written.lines().count(), total);
}
