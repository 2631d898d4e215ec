//! A later version may add cases: a caller's `match` that names all of them still needs an arm
//! for the rest. That arm would be unreachable, and this file would not compile, if one of the
//! enums were not `#[non_exhaustive]`.
#![deny(unreachable_patterns)]

use chains::lent::{self, BeginReply, BoatsReply, CheckReply, FindReply, LineReply};
use chains::lent::{MoveReply, PatternReply, StartsReply, WordsReply, WriteReply};
use chains::{Line, Record, Refusal, Written};

fn known(refusal: Refusal) -> bool {
    use Refusal::*;
    match refusal {
        RecordTooLong | PlacesOutOfRange | EntryNotKnown | LineCutShort | LinePlaceNotThere => true,
        LineKindOutOfRange | BytesAfterEnd | CommandNotKnown | TooManyCommands => true,
        OperandsMissing | OperandOutOfRange | SlotNotKept | KeepsTooDeep => true,
        BytesAfterPattern | AskedPlaceNotThere | SearchTooLarge | WorkAreaTooSmall => true,
        LineNotThere | LengthBeyondBuffer | SailNumberTooLarge | RecordFull => true,
        BufferTooSmall | OutputTooSmall { length: _ } => true,
        RoundsOutOfRange | UnfoldedTooLong | NoSearch => true,
        WindowOutOfRange | LineTimeOutOfRange => true,
        Other {
            number: _,
            second: _,
            ..
        } => false,
        _ => false,
    }
}

#[test]
fn matches_have_an_arm_for_the_rest() {
    let day = [1, 0, 1, 0];
    let pattern = [0x21, 1];
    let (mut work, mut out) = (vec![0; 8_204], []);
    assert!(match lent::begin(&mut [0; 4], 0) {
        WriteReply::Length(_) => false,
        WriteReply::Refused(refusal) => known(refusal),
        _ => false,
    });
    assert!(match lent::read(&day, 0) {
        LineReply::Line(_) | LineReply::Timed(_, _) => false,
        LineReply::Refused(refusal) => known(refusal),
        _ => false,
    });
    let mut timed = Record::begin(1).expect("one place");
    let line = Line {
        from: 0,
        kind: 1,
        class: 1,
        sail: 1,
        to: 0,
    };
    timed.add_timed(line, 5).expect("a good line");
    assert!(match timed.written_line(0).expect("line 0") {
        Written::Untimed(_) => false,
        Written::Timed(read, time) => (read, time) == (line, 5),
        _ => false,
    });
    assert!(match lent::pattern(&pattern) {
        PatternReply::Counts(counts) => counts.commands == 1,
        PatternReply::Refused(_) => false,
        _ => false,
    });
    assert!(match lent::boats(&day) {
        BoatsReply::Count(count) => count.boats == 0,
        BoatsReply::Refused(_) => false,
        _ => false,
    });
    assert!(match lent::words(&day, &pattern) {
        WordsReply::Words(words) => words <= work.len(),
        WordsReply::Refused(_) => false,
        _ => false,
    });
    assert!(match lent::check(&day, &pattern, 0, 0, &[], &mut work) {
        CheckReply::Yes => false,
        CheckReply::No => true,
        CheckReply::Refused(_) => false,
        _ => false,
    });
    assert!(
        match lent::find(&day, &pattern, 0, 0, &mut work, &mut out) {
            FindReply::Found(_) => false,
            FindReply::NoChain => true,
            FindReply::Refused(_) => false,
            _ => false,
        }
    );
    assert!(
        match lent::starts(&day, &pattern, &[0], 0, &mut work, &mut []) {
            StartsReply::Lengths(_) => false,
            StartsReply::Refused(refusal) => known(refusal),
            _ => false,
        }
    );
    assert!(match lent::search_begin(&day, &pattern, 0, 0, &mut work) {
        BeginReply::Begun => true,
        BeginReply::Refused(_) => false,
        _ => false,
    });
    assert!(match lent::search_move(&mut work, 9) {
        MoveReply::Moved(count) => count == 1,
        MoveReply::Refused(_) => false,
        _ => false,
    });
    assert!(match lent::search_finish(&mut [], &mut out) {
        FindReply::Found(_) | FindReply::NoChain => false,
        FindReply::Refused(refusal) => known(refusal),
        _ => false,
    });
}
