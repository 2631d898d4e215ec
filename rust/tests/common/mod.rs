//! The worked rows' records and patterns.

#![allow(dead_code)]

use chains::{Line, Question, Record, StartsQuestion};

pub const P: [u8; 15] = [
    0x27, 1, 0, 0x25, 0x22, 2, 0, 0x25, 0x26, 0x22, 3, 0, 0x22, 4, 0,
];
pub const S: [u8; 13] = [0x27, 1, 0, 0x25, 0x27, 1, 0, 0x23, 1, 0, 0x22, 1, 0];
/// Accepts the empty word.
pub const NOTHING: [u8; 1] = [0x20];

pub fn line(from: u16, kind: u8, class: u8, sail: u32, to: u16) -> Line {
    Line {
        from,
        kind,
        class,
        sail,
        to,
    }
}

pub fn lines_of_r() -> Vec<Line> {
    vec![
        line(0, 1, 1, 150, 1),
        line(0, 1, 2, 150, 1),
        line(1, 2, 2, 150, 2),
        line(1, 2, 1, 150, 2),
        line(2, 3, 1, 150, 2),
        line(2, 4, 2, 150, 3),
        line(2, 4, 1, 151, 3),
    ]
}

pub fn record(places: u16, lines: &[Line]) -> Record {
    let mut record = Record::begin(places).expect("1 to 1,024 places");
    for (number, line) in lines.iter().enumerate() {
        assert_eq!(record.add(*line), Ok(number as u16));
    }
    record
}

pub fn r() -> Record {
    record(4, &lines_of_r())
}

pub fn t() -> Record {
    record(1, &[line(0, 1, 1, 1, 0), line(0, 1, 1, 2, 0)])
}

pub fn e() -> Record {
    record(1, &[])
}

pub fn ask<'a>(record: &'a Record, pattern: &'a [u8], from: u16, to: u16) -> Question<'a> {
    Question {
        record: record.bytes(),
        pattern,
        from,
        to,
    }
}

pub fn ask_starts<'a>(record: &'a Record, pattern: &'a [u8], to: u16) -> StartsQuestion<'a> {
    StartsQuestion {
        record: record.bytes(),
        pattern,
        to,
    }
}

/// So many repeats, and then these bytes.
pub fn repeats(count: usize, then: &[u8]) -> Vec<u8> {
    let mut bytes = vec![0x26; count];
    bytes.extend(then);
    bytes
}

/// From `lowest` to `highest` rounds of a pattern.
pub fn rounds(lowest: u8, highest: u8, inner: &[u8]) -> Vec<u8> {
    [&[0x2A, lowest, highest], inner].concat()
}

/// So many times "twenty times", each in the one before, and then these bytes.
pub fn twenties(count: usize, then: &[u8]) -> Vec<u8> {
    [&[0x2A, 20, 20].repeat(count)[..], then].concat()
}

/// 1,024 places and so many boats, to be asked about with [`fifteen_commands`].
pub fn boats(count: u32) -> Record {
    let lines: Vec<Line> = (0..count)
        .map(|n| line(0, 1, (n % 2) as u8, n / 2, 0))
        .collect();
    record(1_024, &lines)
}

/// Fifteen commands, one of them a keep.
pub fn fifteen_commands() -> Vec<u8> {
    [&[0x27, 1, 0][..], &repeats(13, &[0x21, 1])].concat()
}
