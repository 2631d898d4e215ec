//! Boats counted as this program counts them, but for the planted fault.

use super::Fault::{self, *};
use crate::record::{Boat, Line, UNREAD};

/// How many different boats the lines have, and how many earlier lines were read to tell.
pub fn counted(fault: Fault, lines: &[Line]) -> (usize, usize) {
    let all: Vec<Boat> = lines.iter().map(Line::boat).collect();
    let mut met: Vec<Boat> = Vec::new();
    let mut reads = 0;
    for (number, boat) in all.iter().enumerate() {
        let same = |other: &Boat| match fault {
            CountsBySail => other.sail == boat.sail,
            UnreadApart => other == boat && *boat != UNREAD,
            _ => other == boat,
        };
        let read = match fault {
            ReadsFromLine1 => &all[number.min(1)..number],
            ReadsTheLineItself => &all[..=number],
            ReadsBoats => &met[..],
            _ => &all[..number],
        };
        let at = match fault {
            ReadsDownward => read.iter().rev().position(same),
            _ => read.iter().position(same),
        };
        reads += match at {
            Some(at) if fault == MatchNotRead => at,
            Some(at) if fault != ReadsOn => at + 1,
            _ => read.len(),
        };
        let is_itself = fault == ReadsTheLineItself && at == Some(number);
        if at.is_none() || is_itself {
            met.push(*boat);
        }
    }
    let left_out = fault == UnreadNotCounted && met.contains(&UNREAD);
    let boats = met.len() - left_out as usize;
    match fault {
        ReadsIn16Bits => (boats, reads as u16 as usize),
        _ => (boats, reads),
    }
}
