//! Why the library refuses.

use std::error::Error;
use std::fmt;

/// The question that was answered no. Its `Display` is a sentence for whoever wrote the
/// record or the pattern; [`Refusal::number`] is the number in README's table.
///
/// A later library may ask more questions, so a `match` needs an arm for the rest:
///
/// ```
/// use chains::{Record, Refusal};
///
/// match Record::begin(0) {
///     Err(Refusal::PlacesOutOfRange) => println!("how many places are there?"),
///     Err(refusal) => println!("refused {}: {refusal}", refusal.number()),
///     Ok(day) => println!("{} bytes", day.bytes().len()),
/// }
/// ```
#[derive(Clone, Copy, PartialEq, Eq, Hash, Debug)]
#[non_exhaustive]
pub enum Refusal {
    /// 1: the record has more than 57,348 bytes.
    RecordTooLong,
    /// 2: the record does not begin with a count of 1 to 1,024 places.
    PlacesOutOfRange,
    /// 3: where a line or the end must stand, there is another byte or none.
    EntryNotKnown,
    /// 4: a line has fewer than its ten bytes, or its fourteen with a time.
    LineCutShort,
    /// 5: a line's place is not below the count of places.
    LinePlaceNotThere,
    /// 6: a line's kind is not 1 to 15.
    LineKindOutOfRange,
    /// 7: there are bytes after the record's end byte.
    BytesAfterEnd,
    /// 8: where a command must stand in the pattern, there is another byte or none.
    CommandNotKnown,
    /// 9: the pattern has more than 63 commands.
    TooManyCommands,
    /// 10: a command's kind, slot or counts are not there.
    OperandsMissing,
    /// 11: a command's kind is not 1 to 15, or its slot is not 0 to 3.
    OperandOutOfRange,
    /// 12: same, other, sister or foreign names a slot that no keep around it keeps.
    SlotNotKept,
    /// 13: keeps are nested more than three deep.
    KeepsTooDeep,
    /// 14: there are bytes after the complete pattern.
    BytesAfterPattern,
    /// 15: an asked place, one of a list too, is not below the count of places.
    AskedPlaceNotThere,
    /// 16: the search size is above 1,048,576.
    SearchTooLarge,
    /// 17: the work area has too few words.
    WorkAreaTooSmall,
    /// 18: a named line is not in the record.
    LineNotThere,
    /// 19: the output has too few entries.
    OutputTooSmall {
        /// The length of the shortest chain, or how many lengths there are: so many entries are
        /// enough.
        length: usize,
    },
    /// 20: the record's length is more than the buffer's.
    LengthBeyondBuffer,
    /// 21: the sail number is not below 16,777,216.
    SailNumberTooLarge,
    /// 22: the record has more than 4,096 lines, or has that many where one is added.
    RecordFull,
    /// 23: the buffer does not hold the record after the act.
    BufferTooSmall,
    /// 24: a lowest count of rounds is above the highest, or that is above 20.
    RoundsOutOfRange,
    /// 25: the pattern's unfolded count is above 63.
    UnfoldedTooLong,
    /// 26: the work area holds no search, or not one as a begin and its moves left it.
    NoSearch,
    /// 27: a window does not open before it closes, or closes after 86,400.
    WindowOutOfRange,
    /// 28: a line's time is not below 86,400.
    LineTimeOutOfRange,
    /// A number that this crate has no name for: a question of another version of the library.
    #[non_exhaustive]
    Other {
        /// The question's number.
        number: u32,
        /// The second number that came with it.
        second: u32,
    },
}

impl Refusal {
    /// The number of the question: 1 to 28, and that of [`Refusal::Other`].
    pub fn number(self) -> u32 {
        match self {
            Refusal::RecordTooLong => 1,
            Refusal::PlacesOutOfRange => 2,
            Refusal::EntryNotKnown => 3,
            Refusal::LineCutShort => 4,
            Refusal::LinePlaceNotThere => 5,
            Refusal::LineKindOutOfRange => 6,
            Refusal::BytesAfterEnd => 7,
            Refusal::CommandNotKnown => 8,
            Refusal::TooManyCommands => 9,
            Refusal::OperandsMissing => 10,
            Refusal::OperandOutOfRange => 11,
            Refusal::SlotNotKept => 12,
            Refusal::KeepsTooDeep => 13,
            Refusal::BytesAfterPattern => 14,
            Refusal::AskedPlaceNotThere => 15,
            Refusal::SearchTooLarge => 16,
            Refusal::WorkAreaTooSmall => 17,
            Refusal::LineNotThere => 18,
            Refusal::OutputTooSmall { .. } => 19,
            Refusal::LengthBeyondBuffer => 20,
            Refusal::SailNumberTooLarge => 21,
            Refusal::RecordFull => 22,
            Refusal::BufferTooSmall => 23,
            Refusal::RoundsOutOfRange => 24,
            Refusal::UnfoldedTooLong => 25,
            Refusal::NoSearch => 26,
            Refusal::WindowOutOfRange => 27,
            Refusal::LineTimeOutOfRange => 28,
            Refusal::Other { number, .. } => number,
        }
    }

    /// The refusal of a question's number, with the second number that came with it.
    pub(crate) fn of(number: u32, second: u32) -> Refusal {
        match number {
            1 => Refusal::RecordTooLong,
            2 => Refusal::PlacesOutOfRange,
            3 => Refusal::EntryNotKnown,
            4 => Refusal::LineCutShort,
            5 => Refusal::LinePlaceNotThere,
            6 => Refusal::LineKindOutOfRange,
            7 => Refusal::BytesAfterEnd,
            8 => Refusal::CommandNotKnown,
            9 => Refusal::TooManyCommands,
            10 => Refusal::OperandsMissing,
            11 => Refusal::OperandOutOfRange,
            12 => Refusal::SlotNotKept,
            13 => Refusal::KeepsTooDeep,
            14 => Refusal::BytesAfterPattern,
            15 => Refusal::AskedPlaceNotThere,
            16 => Refusal::SearchTooLarge,
            17 => Refusal::WorkAreaTooSmall,
            18 => Refusal::LineNotThere,
            19 => Refusal::OutputTooSmall {
                length: second as usize,
            },
            20 => Refusal::LengthBeyondBuffer,
            21 => Refusal::SailNumberTooLarge,
            22 => Refusal::RecordFull,
            23 => Refusal::BufferTooSmall,
            24 => Refusal::RoundsOutOfRange,
            25 => Refusal::UnfoldedTooLong,
            26 => Refusal::NoSearch,
            27 => Refusal::WindowOutOfRange,
            28 => Refusal::LineTimeOutOfRange,
            _ => Refusal::Other { number, second },
        }
    }
}

impl fmt::Display for Refusal {
    fn fmt(&self, f: &mut fmt::Formatter<'_>) -> fmt::Result {
        let text = match self {
            Refusal::RecordTooLong => "the day's record is longer than 57,348 bytes",
            Refusal::PlacesOutOfRange => {
                "the day's record must begin with its count of places, 1 to 1,024"
            }
            Refusal::EntryNotKnown => {
                "the day's record breaks off, or has something in it that is neither a line nor \
                 the end"
            }
            Refusal::LineCutShort => "the last line of the day's record is cut short",
            Refusal::LinePlaceNotThere => {
                "a line is from or to a place that the day's record does not have"
            }
            Refusal::LineKindOutOfRange => "a line's kind is not 1 to 15",
            Refusal::BytesAfterEnd => "the day's record goes on after its end",
            Refusal::CommandNotKnown => {
                "the pattern breaks off, or has something in it that is not a command"
            }
            Refusal::TooManyCommands => "the pattern has more than 63 commands",
            Refusal::OperandsMissing => {
                "the pattern breaks off before a command's kind, slot or counts"
            }
            Refusal::OperandOutOfRange => {
                "the pattern has a kind that is not 1 to 15, or a slot that is not 0 to 3"
            }
            Refusal::SlotNotKept => {
                "the pattern compares a boat with that of a slot, but no keep around it keeps a \
                 boat there"
            }
            Refusal::KeepsTooDeep => "the pattern has more than three keeps inside each other",
            Refusal::BytesAfterPattern => "the pattern goes on after it is complete",
            Refusal::AskedPlaceNotThere => "a place that is asked about is not in the day's record",
            Refusal::SearchTooLarge => {
                "the search would be too large: the day has too many places and boats for so \
                 long a pattern with so many keeps inside each other"
            }
            Refusal::WorkAreaTooSmall => "the work area is too small for this day and pattern",
            Refusal::LineNotThere => "a line is named that the day's record does not have",
            Refusal::OutputTooSmall { length } => {
                return write!(
                    f,
                    "the output is too short: for the chain that there is, or for the lengths \
                     asked for (entries needed: {length})"
                );
            }
            Refusal::LengthBeyondBuffer => "the day's record is said to be longer than its buffer",
            Refusal::SailNumberTooLarge => "the sail number is not below 16,777,216",
            Refusal::RecordFull => {
                "the day's record has more than 4,096 lines, or is full with that many"
            }
            Refusal::BufferTooSmall => "the buffer has no room for the day's record after this",
            Refusal::RoundsOutOfRange => {
                "the pattern has a count of rounds whose lowest is above its highest, or whose \
                 highest is above 20"
            }
            Refusal::UnfoldedTooLong => {
                "the pattern is too long: with its rounds written out it has more than 63 commands"
            }
            Refusal::NoSearch => {
                "the work area holds no search, or not one as a begin and its moves left it"
            }
            Refusal::WindowOutOfRange => {
                "a window does not open before it closes, or closes after 86,400, the end of the \
                 day"
            }
            Refusal::LineTimeOutOfRange => {
                "a line's time is not below 86,400, the seconds of a day"
            }
            Refusal::Other { number, .. } => {
                return write!(
                    f,
                    "question {number} failed, which this crate does not know"
                );
            }
        };
        f.write_str(text)
    }
}

impl Error for Refusal {}

#[cfg(test)]
mod tests {
    use super::*;

    /// Number, tab, sentence: the list that C and the program use too.
    const SENTENCES: &str = include_str!("../../include/refusals.txt");

    #[test]
    fn sentences_are_those_of_the_list() {
        assert_eq!(SENTENCES.lines().count(), 28);
        for (number, row) in (1..).zip(SENTENCES.lines()) {
            let refusal = Refusal::of(number, 92_400);
            assert_eq!(refusal.number(), number);
            // The list has no length to name.
            let said = refusal.to_string();
            let said = said.replace(" (entries needed: 92400)", "");
            assert_eq!(format!("{number}\t{said}"), row);
        }
        assert_eq!(
            Refusal::of(19, 92_400).to_string(),
            "the output is too short: for the chain that there is, or for the lengths asked for \
             (entries needed: 92400)"
        );
    }

    #[test]
    fn unknown_numbers_do_not_panic() {
        for number in [29, 32, 255, u32::MAX] {
            let refusal = Refusal::of(number, 7);
            assert_eq!(refusal, Refusal::Other { number, second: 7 });
            assert_eq!(refusal.number(), number);
            assert!(refusal.to_string().contains(&number.to_string()));
        }
    }
}
