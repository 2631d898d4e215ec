//! Planted faults: copies of this program, each wrong in one way that a reader of document 01
//! or of requests One to Seven could fall into. The comparison must tell every one of them from
//! this program, so that its silence about the library says something.

mod counting;
mod faulty;
mod listing;
mod reading;
mod searching;
mod stepping;
mod windowing;

use crate::cases::{Bench, ALL};
use crate::library::{Ask, Library, Listed};
use crate::random::Random;
use crate::record::Line;
use crate::rounds::{Round, SORTS};
use faulty::Faulty;
use std::cell::Cell;
use Fault::*;

/// The seed of the rounds that faults are looked for with.
pub const SEED: u64 = 1;
/// So many rounds of a sort at most.
pub const MOST_ROUNDS: usize = 20_000;

#[derive(Clone, Copy, Debug, PartialEq, Eq)]
pub enum Fault {
    /// None: the copy itself, which the comparison must not find.
    NoFault,
    // Reading records.
    QuestionByQuestion,
    NoPlacesPass,
    MorePlacesPass,
    AsksFromOnly,
    // Reading timed lines.
    TimedRefused,
    LimitAsBefore,
    Never22OfRecord,
    Asks22After4,
    TimedCountedApart,
    TenBytesFor4,
    OffsetByTen,
    Never28OfRecord,
    Asks28Before6,
    LastSecondRefused,
    DayPasses,
    TimeLowFirst,
    TimeIn16Bits,
    // Reading patterns.
    Asks9Before8,
    SixtyFourPass,
    NeverAsks14,
    NineAfterTheEnd,
    AsksByOperand,
    SlotByKeptOnly,
    KeptEarlier,
    CountsAllKeeps,
    CountsSlots,
    SixteenCommands,
    Never12OfSister,
    Never12OfForeign,
    // Reading counted patterns.
    CountsAsOperands,
    Asks24Inside,
    TwentyOneRounds,
    EqualCountsRefused,
    LowestAbove,
    Asks9Unfolded,
    Asks25AsWritten,
    Asks25Before14,
    Asks25After15,
    CountsNoRounds,
    CountIn8Bits,
    CountIn32Bits,
    CountIn64Bits,
    // Sizes.
    SizeByAllKeeps,
    SizeBySlots,
    SizeByLines,
    SizeByBytes,
    SizeWithoutOne,
    SizeWithoutUnread,
    SizeWraps,
    SizeAsWritten,
    KeepsOfNoRounds,
    SizeByKeepsOfRounds,
    // The order of questions.
    Asks16Before15,
    Asks17Before15,
    Asks17Before16,
    Asks18Before17,
    // The language.
    NoClass,
    InnerBoatStays,
    RepeatOnce,
    OtherAnyKind,
    // Unread numbers.
    UnreadCompared,
    OtherIsNotSame,
    LineAlone,
    SlotAlone,
    UnreadByClass,
    UnreadByNumber,
    KeepRefusesUnread,
    LineRefusesUnread,
    // Another boat of the class, and another class.
    SisterTakesSame,
    SisterOfAnyClass,
    SisterOfUnreadLine,
    SisterOfUnreadSlot,
    ForeignAsOther,
    ForeignOtherNumber,
    ForeignOfUnreadLine,
    ForeignOfUnreadSlot,
    SisterAndForeign,
    // So many rounds.
    HighestLeftOut,
    HighestExcluded,
    OneRoundMore,
    LowestNotWanted,
    EndsOnly,
    EmptyRoundsLeftOut,
    RoundBoatStays,
    // The checker.
    AnyStart,
    AnyEnd,
    NoForMissingLine,
    NoAtBadJoin,
    YesToEmpty,
    OneStateChecked,
    // The search.
    MarksWithoutBoats,
    MarksPlaces,
    CutAtPlaces,
    CutAt65535,
    DepthFirst,
    WalkingOrder,
    OneStateFollowed,
    SilentStepsQueued,
    LastChain,
    TwoOfARun,
    SisterOfThinRuns,
    ForeignOfThinRuns,
    ForeignOfFirstLine,
    SisterOfFirstBoat,
    // The work area.
    TrustsArea,
    NeverClears,
    ClearsNeeded,
    LeavesArea,
    ClearsAt16,
    ClearsAt17,
    CountsInArea,
    PastArea,
    // The output.
    ClearsOutput,
    WritesPrefix,
    InventsLength,
    RefusesExact,
    NoneWhenShort,
    NoneWhenEmpty,
    // Writing and reading back.
    BeginLowFirst,
    BeginClears,
    AddAsks1OfBuffer,
    AddAsks7OfBuffer,
    AddsAfterEnd,
    NoEndByte,
    SailTurned,
    OnlyReports,
    WritesBefore23,
    OneLineMore,
    ReadsToLine,
    ShortFields,
    // Timed lines written and read back.
    Add28Before6,
    Never28OfAdded,
    Add21Before28,
    Add22Before21,
    Add23Before22,
    TenBytesFor23,
    TimeTurned,
    AddsWithoutTime,
    SaysTenMore,
    ReadsAtTen,
    UntimedAtZero,
    TimeLost,
    FiveOfSix,
    // A pattern's counts.
    CountsSwapped,
    ShortCounts,
    RoomBeforePattern,
    UnfoldedBeforeKeeps,
    UnfoldedAsWritten,
    TwoCounts,
    ThirdOfTwo,
    // The count of boats.
    MatchNotRead,
    ReadsOn,
    ReadsFromLine1,
    ReadsDownward,
    ReadsBoats,
    ReadsTheLineItself,
    ReadsIn16Bits,
    CountsBySail,
    UnreadApart,
    UnreadNotCounted,
    ReadsBeforeBoats,
    OneWordForBoats,
    ThirdBesideBoats,
    ThirdPastBoats,
    RoomBeforeRecord,
    WritesWhereRefused,
    // A search under way: its begin.
    SearchWordsAsFind,
    SearchAsks17AsFind,
    BeginSearches,
    BeginLeavesRest,
    NumbersWhereKept,
    // States expanded.
    PositionsDownward,
    LinesDownward,
    NoBoatLeftOut,
    TagsFromOne,
    TagsWithItself,
    StopsLate,
    StopsAtFirst,
    // States taken up once more.
    LeastBelow,
    UndercutMarks,
    NotedStays,
    // Its moves.
    SweepUncounted,
    OneTooMany,
    SaysAmount,
    AmountIn32Bits,
    // Its finish.
    FinishSweepsAgain,
    LeavesSearchAfter19,
    Only26OfEmpty,
    // An area that was altered.
    ClearsAltered,
    PastCutArea,
    CountsAltered,
    // A list of starts: its questions.
    FinishNotAsked,
    FirstStartAsked,
    LastStartNotAsked,
    EmptyAsksNoFinish,
    List16Before15,
    List17Before16,
    List19Before15,
    List19Before17,
    List19OfDifferent,
    List19RefusesExact,
    List19WithNothing,
    List19Invents,
    List19WritesWhatFits,
    List19LeavesArea,
    ListIn16Bits,
    // Its lengths.
    ZeroForNone,
    LengthAndOne,
    LengthsIn16Bits,
    LengthsCutAtPlaces,
    NearestStartOnly,
    OneFirstPosition,
    AnyPositionAndBoats,
    FromTheFinish,
    NoneForEmpty,
    ZeroAtTheFinish,
    LengthsByPlace,
    AnsweredOnce,
    NoneWhenListedAgain,
    ClearsLengths,
    PastLengths,
    LastLengthLost,
    SaysHowManyChains,
    // Its area.
    ListLeavesArea,
    EmptyLeavesArea,
    ListClearsNeeded,
    ListClearsAt17,
    ListTrustsArea,
    ListPastArea,
    // Windows: how options are read.
    OpensThenCloses,
    ClosesBeforeOpens,
    OneWordOpens,
    MissingWordsZero,
    FurtherWordsAsked,
    KindAbove,
    KindBelow,
    // Question 27.
    Never27,
    Asks27OfRecord,
    Asks27OfPattern,
    EmptyWindowPasses,
    LateClosePasses,
    WholeDayRefused,
    Asks27Before15,
    Asks27After16,
    Asks27After17,
    ClearsAt27,
    // Lines inside and outside.
    ClosingIncluded,
    OpeningLeftOut,
    UntimedInside,
    UntimedFromZero,
    UntimedToTheEnd,
    UntimedOutside,
    BoatsInside,
    Outside18,
    Renumbered,
    CheckWithoutWindows,
    FindWithoutWindows,
    // The same in searches and lists.
    BeginWithoutWindows,
    Begin27NotAsked,
    Begin17ByInside,
    LoadsInsideOnly,
    OutsideWordZero,
    OutsideBoatZero,
    ListWithoutWindows,
    List27NotAsked,
    List27Before15,
}

/// A fault, in words, and the sorts of rounds that meet it.
pub struct Planted {
    pub fault: Fault,
    pub wrong: &'static str,
    /// Names of `SORTS`; none where only the cases written by hand meet it.
    pub sorts: &'static [&'static str],
}

const fn planted(fault: Fault, sorts: &'static [&'static str], wrong: &'static str) -> Planted {
    Planted {
        fault,
        wrong,
        sorts,
    }
}

const B: &[&str] = &["bytes"];
const W: &[&str] = &["writes"];
const C: &[&str] = &["checks"];
const F: &[&str] = &["finds"];
const N: &[&str] = &["boats"];
const S: &[&str] = &["searches"];
const L: &[&str] = &["starts"];
const BW: &[&str] = &["bytes", "writes"];
const BN: &[&str] = &["bytes", "boats"];
const BWN: &[&str] = &["bytes", "writes", "boats"];
const BCF: &[&str] = &["bytes", "checks", "finds"];
const BCFN: &[&str] = &["bytes", "checks", "finds", "boats"];
const CF: &[&str] = &["checks", "finds"];
const FS: &[&str] = &["finds", "searches"];

/// Every fault.
#[rustfmt::skip]
pub const PLANTED: &[Planted] = &[
    planted(QuestionByQuestion, BN, "asks a record 5 of all lines before 6 of any"),
    planted(NoPlacesPass, BWN, "lets a count of 0 places pass"),
    planted(MorePlacesPass, BWN, "lets a count of 1,025 places pass"),
    planted(AsksFromOnly, BWN, "asks 5 only of the place that a line is from"),
    planted(TimedRefused, BWN, "takes 03 for no line"),
    planted(LimitAsBefore, BWN, "asks 1 with 40,964 bytes, the longest record without times"),
    planted(Never22OfRecord, BWN, "does not ask 22 of a record"),
    planted(Asks22After4, BN, "asks 22 after 4"),
    planted(TimedCountedApart, BWN, "counts timed lines and others apart for 22"),
    planted(TenBytesFor4, BN, "asks 4 for ten bytes of a timed line"),
    planted(OffsetByTen, BWN, "goes on ten bytes after the start of a timed line"),
    planted(Never28OfRecord, BCFN, "does not ask 28 of a record"),
    planted(Asks28Before6, BN, "asks a record 28 before 6"),
    planted(LastSecondRefused, BWN, "refuses the time 86,399"),
    planted(DayPasses, BWN, "lets the time 86,400 pass"),
    planted(TimeLowFirst, BWN, "reads a time's low byte first"),
    planted(TimeIn16Bits, BWN, "takes a time in 16 bits"),
    planted(Asks9Before8, B, "asks 9 before 8"),
    planted(SixtyFourPass, BCF, "lets 64 commands pass"),
    planted(NeverAsks14, BCF, "does not ask 14"),
    planted(NineAfterTheEnd, B, "counts bytes after a complete pattern as commands"),
    planted(AsksByOperand, B, "asks 10 and 11 of each operand in turn"),
    planted(SlotByKeptOnly, B, "gives 12 for a slot above 3"),
    planted(KeptEarlier, BCF, "12 by a keep of the slot anywhere before"),
    planted(CountsAllKeeps, BCF, "13 by the count of all keeps so far"),
    planted(CountsSlots, BCF, "13 by the different slots around"),
    planted(SixteenCommands, BCF, "8 by the range from 20 to 2F"),
    planted(Never12OfSister, BCF, "does not ask 12 of 28"),
    planted(Never12OfForeign, BCF, "does not ask 12 of 29"),
    planted(CountsAsOperands, BCF, "asks 11 of the two counts of 2A as of a kind and a slot"),
    planted(Asks24Inside, B, "asks 24 after what stands inside was read"),
    planted(TwentyOneRounds, BCF, "lets a highest count of 21 pass"),
    planted(EqualCountsRefused, BCF, "refuses a 2A whose two counts are equal"),
    planted(LowestAbove, BCF, "lets a lowest count above the highest pass"),
    planted(Asks9Unfolded, BCF, "gives 9 where the unfolded count is above 63"),
    planted(Asks25AsWritten, BCF, "asks 25 of the commands as written"),
    planted(Asks25Before14, B, "asks 25 before 14"),
    planted(Asks25After15, CF, "asks 25 after 15"),
    planted(CountsNoRounds, BCF, "counts what stands in 2A 00 00 once"),
    planted(CountIn8Bits, BCF, "counts unfolded commands in 8 bits"),
    planted(CountIn32Bits, BCF, "counts unfolded commands in 32 bits"),
    planted(CountIn64Bits, BCF, "counts unfolded commands in 64 bits"),
    planted(SizeByAllKeeps, BCF, "takes all keeps of the pattern for the power in the search size"),
    planted(SizeBySlots, BCF, "takes the different slots for the power in the search size"),
    planted(SizeByLines, BCFN, "counts lines, not boats, in the search size"),
    planted(SizeByBytes, BCFN, "counts bytes of the pattern, not commands, in the search size"),
    planted(SizeWithoutOne, BCFN, "leaves out the one in boats + 1"),
    planted(SizeWithoutUnread, BCFN, "leaves unread numbers out of the count of boats"),
    planted(SizeWraps, &[], "multiplies the search size in 32 bits"),
    planted(SizeAsWritten, BCF, "takes the commands as written for the search size"),
    planted(KeepsOfNoRounds, BCF, "leaves keeps in 2A 00 00 out of the power in the search size"),
    planted(SizeByKeepsOfRounds, BCF, "takes a keep once for each round for the power in the search size"),
    planted(Asks16Before15, CF, "asks 16 before 15"),
    planted(Asks17Before15, CF, "asks 17 before 15"),
    planted(Asks17Before16, CF, "asks 17 before 16"),
    planted(Asks18Before17, C, "asks 18 before 17"),
    planted(NoClass, CF, "compares sail numbers without the class"),
    planted(InnerBoatStays, CF, "an inner keep's boat stays in its slot; the outer keep's is lost"),
    planted(RepeatOnce, CF, "wants at least one round of a repeat"),
    planted(OtherAnyKind, CF, "other takes a line of any kind"),
    planted(UnreadCompared, CF, "compares an unread number like every other"),
    planted(OtherIsNotSame, CF, "other passes wherever same of the kind fails"),
    planted(LineAlone, CF, "looks whether the line's number was read, and not the slot's"),
    planted(SlotAlone, CF, "looks whether the slot's number was read, and not the line's"),
    planted(UnreadByClass, CF, "takes every number of class 0 for unread"),
    planted(UnreadByNumber, CF, "takes number 0 of every class for unread"),
    planted(KeepRefusesUnread, CF, "keeps no unread number"),
    planted(LineRefusesUnread, CF, "21 takes no line with an unread number"),
    planted(SisterTakesSame, CF, "28 takes the slot's boat too"),
    planted(SisterOfAnyClass, CF, "28 takes another number of whatever class"),
    planted(SisterOfUnreadLine, CF, "28 compares an unread line's class and number"),
    planted(SisterOfUnreadSlot, CF, "28 compares an unread slot's class and number"),
    planted(ForeignAsOther, CF, "29 as 23"),
    planted(ForeignOtherNumber, CF, "29 wants another number too"),
    planted(ForeignOfUnreadLine, CF, "29 compares an unread line's class"),
    planted(ForeignOfUnreadSlot, CF, "29 compares an unread slot's class"),
    planted(SisterAndForeign, CF, "28 and 29 taken for each other"),
    planted(HighestLeftOut, CF, "lets any more rounds pass than the highest count"),
    planted(HighestExcluded, CF, "takes the highest count for the first that is too many"),
    planted(OneRoundMore, CF, "lets one round more pass than the highest count"),
    planted(LowestNotWanted, CF, "does not want the lowest count of rounds"),
    planted(EndsOnly, CF, "wants the lowest count of rounds or the highest, and none between"),
    planted(EmptyRoundsLeftOut, CF, "counts no round that takes no line"),
    planted(RoundBoatStays, CF, "a boat kept in a round is seen in the next"),
    planted(AnyStart, C, "says yes wherever the chain begins"),
    planted(AnyEnd, C, "says yes wherever the chain ends"),
    planted(NoForMissingLine, C, "says no where a line does not exist"),
    planted(NoAtBadJoin, C, "stops asking 18 at the first line that does not join"),
    planted(YesToEmpty, C, "says yes to an empty chain between two places"),
    planted(OneStateChecked, C, "the checker follows one state only"),
    planted(MarksWithoutBoats, F, "marks place and position without the kept boats"),
    planted(MarksPlaces, F, "marks places only"),
    planted(CutAtPlaces, F, "finds no chain with more lines than places"),
    planted(CutAt65535, &[], "finds no chain of more than 65,535 lines"),
    planted(DepthFirst, F, "the first chain met going deep first, in line order"),
    planted(WalkingOrder, F, "the first shortest chain in the walking order of the states"),
    planted(OneStateFollowed, F, "the lowest line of each step, following one state only"),
    planted(SilentStepsQueued, F, "steps that take no line wait in the queue like the others"),
    planted(LastChain, F, "of shortest chains, the one with the higher line numbers"),
    planted(TwoOfARun, F, "of lines between two places, other sees the first and the first with another number"),
    planted(SisterOfThinRuns, F, "of lines between two places, 28 sees the first and those of the first two read boats"),
    planted(ForeignOfThinRuns, F, "of lines between two places, 29 sees the first and those of the first two read boats"),
    planted(ForeignOfFirstLine, F, "of lines between two places, 29 sees the first read one"),
    planted(SisterOfFirstBoat, F, "of lines between two places, 28 sees the first boat of each class"),
    planted(TrustsArea, CF, "takes what the area held before for its own marks"),
    planted(NeverClears, CF, "does not clear the area"),
    planted(ClearsNeeded, CF, "clears only the words that are needed"),
    planted(LeavesArea, CF, "leaves the area after 18 and 19"),
    planted(ClearsAt16, CF, "clears the area at 16"),
    planted(ClearsAt17, CF, "clears the area at 17"),
    planted(CountsInArea, CF, "counts boats in the area and then refuses with 16"),
    planted(PastArea, CF, "writes one word past the area"),
    planted(ClearsOutput, FS, "clears the rest of the output"),
    planted(WritesPrefix, FS, "writes what fits and then refuses with 19"),
    planted(InventsLength, FS, "19 with the output's length and one"),
    planted(RefusesExact, FS, "refuses an output that fits exactly"),
    planted(NoneWhenShort, FS, "says none when the output is too short"),
    planted(NoneWhenEmpty, FS, "says none when the output is empty"),
    planted(BeginLowFirst, W, "begin writes the count's low byte first"),
    planted(BeginClears, W, "begin clears the whole buffer"),
    planted(AddAsks1OfBuffer, W, "add asks 1 of the buffer's length"),
    planted(AddAsks7OfBuffer, W, "add wants the end byte to be the buffer's last"),
    planted(AddsAfterEnd, W, "adds the line after the end byte"),
    planted(NoEndByte, W, "add writes no new end byte"),
    planted(SailTurned, W, "add writes the sail number's low byte first"),
    planted(OnlyReports, W, "add reports a longer record and writes nothing"),
    planted(WritesBefore23, W, "add writes what fits and then refuses with 23"),
    planted(OneLineMore, W, "lets a 4,097th line pass 22"),
    planted(ReadsToLine, B, "reads a line back without asking about those after it"),
    planted(ShortFields, BW, "writes fields where fewer than five words are lent"),
    planted(Add28Before6, W, "add asks 28 before 6"),
    planted(Never28OfAdded, W, "add does not ask 28 of the new line"),
    planted(Add21Before28, W, "add asks 21 before 28"),
    planted(Add22Before21, W, "add asks 22 before 21"),
    planted(Add23Before22, W, "add asks 23 before 22"),
    planted(TenBytesFor23, W, "add asks 23 for ten bytes of a timed line"),
    planted(TimeTurned, W, "add writes the time's low byte first"),
    planted(AddsWithoutTime, W, "adds a timed line without its time"),
    planted(SaysTenMore, W, "add says ten bytes more for a timed line"),
    planted(ReadsAtTen, BW, "reads line n back at byte 3 + 10 × n"),
    planted(UntimedAtZero, BW, "reads an untimed line back as one timed at 0"),
    planted(TimeLost, BW, "reads a timed line back without its time"),
    planted(FiveOfSix, BW, "gives five fields of a timed line where five words are lent"),
    planted(CountsSwapped, B, "gives keeps before commands"),
    planted(ShortCounts, B, "writes commands where one word is lent for both counts"),
    planted(RoomBeforePattern, B, "says 0 for too few words before it asks about the pattern"),
    planted(UnfoldedBeforeKeeps, B, "gives the unfolded count before the keeps"),
    planted(UnfoldedAsWritten, B, "gives the commands as written for the unfolded count"),
    planted(TwoCounts, B, "gives two counts where three words are lent"),
    planted(ThirdOfTwo, B, "writes a third count where two words are lent"),
    planted(MatchNotRead, N, "does not count the line with the same boat among those read"),
    planted(ReadsOn, N, "reads all earlier lines, with no stop at the first with the same boat"),
    planted(ReadsFromLine1, N, "reads earlier lines from line 1 on"),
    planted(ReadsDownward, N, "reads earlier lines from the last one down"),
    planted(ReadsBoats, N, "reads the boats met so far instead of earlier lines"),
    planted(ReadsTheLineItself, N, "reads the line itself after the earlier ones"),
    planted(ReadsIn16Bits, N, "counts the lines read in 16 bits"),
    planted(CountsBySail, N, "counts boats by their sail numbers alone"),
    planted(UnreadApart, N, "counts each unread number as a boat of its own"),
    planted(UnreadNotCounted, N, "counts no boat where the number was not read"),
    planted(ReadsBeforeBoats, N, "gives the lines read before the boats"),
    planted(OneWordForBoats, N, "writes the boats where one word is lent for both numbers"),
    planted(ThirdBesideBoats, N, "writes a third word after boats and reads"),
    planted(ThirdPastBoats, N, "writes a third word after boats and reads where two are lent"),
    planted(RoomBeforeRecord, N, "says 0 for too few words before it asks about the record"),
    planted(WritesWhereRefused, N, "writes zeros for boats and reads where the record is refused"),
    planted(SearchWordsAsFind, S, "says of a search that it needs the finder's words"),
    planted(SearchAsks17AsFind, S, "begins a search with the finder's words"),
    planted(BeginSearches, S, "begin takes up the goal"),
    planted(BeginLeavesRest, S, "begin leaves the words of the area that a search does not use"),
    planted(NumbersWhereKept, S, "takes boat numbers into the area only where a boat is kept"),
    planted(PositionsDownward, S, "expands a state by the positions from the last one down"),
    planted(LinesDownward, S, "expands a state by the lines from the last one down"),
    planted(NoBoatLeftOut, S, "finds no state that has no boat at a level"),
    planted(TagsFromOne, S, "counts lines from 1 in how a state was reached"),
    planted(TagsWithItself, S, "says the state itself in how it was reached"),
    planted(StopsLate, S, "expands the first states' level too"),
    planted(StopsAtFirst, S, "stops as soon as a first state is found"),
    planted(LeastBelow, S, "marks where a line leads only from the first state that has it"),
    planted(UndercutMarks, S, "takes every marked state for one in front"),
    planted(NotedStays, S, "keeps the least line of one level for the next"),
    planted(SweepUncounted, S, "leaves the states that are taken up once more to the finish"),
    planted(OneTooMany, S, "takes up a state more than the amount"),
    planted(SaysAmount, S, "says the amount where less is left"),
    planted(AmountIn32Bits, S, "takes an amount in 32 bits"),
    planted(FinishSweepsAgain, S, "finish takes up again what moves took up forward"),
    planted(LeavesSearchAfter19, S, "leaves the search in the area after 19"),
    planted(Only26OfEmpty, S, "gives 26 only where the area is empty"),
    planted(ClearsAltered, S, "clears an altered area and says 26"),
    planted(PastCutArea, S, "writes past an area that was cut short"),
    planted(CountsAltered, S, "says of an altered area how many states it has expanded"),
    planted(FinishNotAsked, L, "does not ask 15 of the finishing place of a list"),
    planted(FirstStartAsked, L, "asks 15 of the first listed place only"),
    planted(LastStartNotAsked, L, "asks 15 of every listed place but the last"),
    planted(EmptyAsksNoFinish, L, "does not ask 15 of the finishing place where the list is empty"),
    planted(List16Before15, L, "asks 16 before 15 of the listed places"),
    planted(List17Before16, L, "asks 17 before 16 where places are listed"),
    planted(List19Before15, L, "asks 19 before 15 of the listed places"),
    planted(List19Before17, L, "asks 19 before 17 where places are listed"),
    planted(List19OfDifferent, L, "asks 19 of the different places of a list"),
    planted(List19RefusesExact, L, "refuses lengths that fit exactly"),
    planted(List19WithNothing, L, "19 with 0 where the lengths do not fit"),
    planted(List19Invents, L, "19 with the lent entries and one where the lengths do not fit"),
    planted(List19WritesWhatFits, L, "writes the lengths that fit and then refuses with 19"),
    planted(List19LeavesArea, L, "leaves the area after 19 where the lengths do not fit"),
    planted(ListIn16Bits, L, "counts the places of a list in 16 bits"),
    planted(ZeroForNone, L, "gives 0 for none among the lengths"),
    planted(LengthAndOne, L, "gives every length and one"),
    planted(LengthsIn16Bits, &[], "gives lengths in 16 bits"),
    planted(LengthsCutAtPlaces, L, "gives none for a length above the count of places"),
    planted(NearestStartOnly, L, "stops at the nearest start: farther ones get none"),
    planted(OneFirstPosition, L, "looks at one only of the positions that the pattern can start with"),
    planted(AnyPositionAndBoats, L, "gives the nearest state's length at a place, whatever its position and boats"),
    planted(FromTheFinish, L, "gives the lengths from the finishing place to the listed ones"),
    planted(NoneForEmpty, L, "gives none for a chain with no lines"),
    planted(ZeroAtTheFinish, L, "gives 0 for the finishing place, whatever the pattern"),
    planted(LengthsByPlace, L, "gives the lengths in the order of the places"),
    planted(AnsweredOnce, L, "answers a place once that is listed twice"),
    planted(NoneWhenListedAgain, L, "gives none for a place that is listed again"),
    planted(ClearsLengths, L, "clears the rest of the lengths"),
    planted(PastLengths, L, "writes one length more than places are listed"),
    planted(LastLengthLost, L, "writes no length for the last listed place"),
    planted(SaysHowManyChains, L, "says how many of the listed places have a chain"),
    planted(ListLeavesArea, L, "leaves the area after the lengths"),
    planted(EmptyLeavesArea, L, "leaves the area where the list is empty"),
    planted(ListClearsNeeded, L, "clears only the words that the lengths need"),
    planted(ListClearsAt17, L, "clears the area at 17 where places are listed"),
    planted(ListTrustsArea, L, "takes what the area held before for marks of the lengths' search"),
    planted(ListPastArea, L, "writes one word past the area with the lengths"),
    planted(OpensThenCloses, CF, "reads fifteen opening seconds and then fifteen closing ones"),
    planted(ClosesBeforeOpens, CF, "reads the closing second of each kind before the opening one"),
    planted(OneWordOpens, CF, "opens a window by its first word where the second is not there"),
    planted(MissingWordsZero, CF, "takes words of the options that are not there for 0"),
    planted(FurtherWordsAsked, CF, "asks 27 of the words after the thirtieth too"),
    planted(KindAbove, CF, "goes by the window of the next kind"),
    planted(KindBelow, CF, "goes by the window of the kind before"),
    planted(Never27, CF, "does not ask 27"),
    planted(Asks27OfRecord, CF, "asks 27 only of the kinds that the record has"),
    planted(Asks27OfPattern, CF, "asks 27 only of the kinds that the pattern has"),
    planted(EmptyWindowPasses, CF, "lets a window pass that closes when it opens"),
    planted(LateClosePasses, CF, "lets a window close at 86,401"),
    planted(WholeDayRefused, CF, "refuses a window that closes at 86,400"),
    planted(Asks27Before15, CF, "asks 27 before 15"),
    planted(Asks27After16, CF, "asks 27 after 16"),
    planted(Asks27After17, CF, "asks 27 after 17"),
    planted(ClearsAt27, CF, "clears the area at 27"),
    planted(ClosingIncluded, CF, "takes the closing second for inside"),
    planted(OpeningLeftOut, CF, "takes the opening second for outside"),
    planted(UntimedInside, CF, "takes an untimed line for inside every window"),
    planted(UntimedFromZero, CF, "takes an untimed line for inside a window that opens at 0"),
    planted(UntimedToTheEnd, CF, "takes an untimed line for inside a window that closes at 86,400"),
    planted(UntimedOutside, CF, "takes an untimed line for outside wherever windows are given"),
    planted(BoatsInside, CF, "counts the boats of lines inside only in the search size"),
    planted(Outside18, C, "gives 18 for a line outside"),
    planted(Renumbered, F, "numbers a chain's lines among those inside"),
    planted(CheckWithoutWindows, C, "checks a chain without the windows"),
    planted(FindWithoutWindows, F, "finds a chain without the windows"),
    planted(BeginWithoutWindows, S, "begins a search without the windows"),
    planted(Begin27NotAsked, S, "begins a search and does not ask 27"),
    planted(Begin17ByInside, S, "asks 17 of a search by the lines inside"),
    planted(LoadsInsideOnly, S, "takes only lines inside into a search's area"),
    planted(OutsideWordZero, S, "takes no places of a line outside into a search's area"),
    planted(OutsideBoatZero, S, "takes no boat of a line outside into a search's area"),
    planted(ListWithoutWindows, L, "gives the lengths without the windows"),
    planted(List27NotAsked, L, "does not ask 27 where places are listed"),
    planted(List27Before15, L, "asks 27 before 15 of the listed places"),
];

/// What found a fault, and after how many requests.
pub struct Finding {
    pub by: String,
    pub after: usize,
}

/// The request of each sort of rounds that finds a fault, and that of the cases by hand.
pub fn findings(planted: &Planted) -> Vec<Finding> {
    let sorts = SORTS.into_iter();
    sorts
        .filter(|(sort, _)| planted.sorts.contains(sort))
        .filter_map(|(sort, round)| found_by_rounds(planted.fault, sort, round))
        .chain(found_by_cases(planted.fault))
        .collect()
}

/// Was it found by the cases, and by every sort of rounds that meets it?
pub fn is_found(planted: &Planted, findings: &[Finding]) -> bool {
    let expected = planted.sorts.iter().chain(&["cases"]);
    findings.iter().map(|finding| &finding.by).eq(expected)
}

/// The first difference in rounds of one sort.
pub fn found_by_rounds(fault: Fault, sort: &str, round: Round) -> Option<Finding> {
    let library = Counted::new(fault);
    let mut random = Random::new(SEED);
    (0..MOST_ROUNDS).find(|_| round(&library, &mut random).is_err())?;
    Some(Finding {
        by: sort.to_string(),
        after: library.requests.get(),
    })
}

/// The first difference in the cases by hand.
pub fn found_by_cases(fault: Fault) -> Option<Finding> {
    let library = Counted::new(fault);
    let bench = Bench { library: &library };
    ALL.iter().find(|case| (case.run)(&bench).is_err())?;
    Some(Finding {
        by: "cases".to_string(),
        after: library.requests.get(),
    })
}

/// One row of the table: fault, found by, after how many requests.
pub fn row(planted: &Planted, findings: &[Finding]) -> String {
    let joined = |show: fn(&Finding) -> String| {
        let shown: Vec<String> = findings.iter().map(show).collect();
        shown.join(", ")
    };
    format!(
        "| {} | {} | {} |",
        planted.wrong,
        joined(|finding| finding.by.clone()),
        joined(|finding| finding.after.to_string())
    )
}

/// A faulty program, and how many requests it was given.
struct Counted {
    faulty: Faulty,
    requests: Cell<usize>,
}

impl Counted {
    fn new(fault: Fault) -> Counted {
        Counted {
            faulty: Faulty(fault),
            requests: Cell::new(0),
        }
    }

    fn asked(&self) -> &Faulty {
        self.requests.set(self.requests.get() + 1);
        &self.faulty
    }
}

impl Library for Counted {
    fn begin(&self, buf: &mut [u8], places: u16) -> u64 {
        self.asked().begin(buf, places)
    }
    fn add(&self, buf: &mut [u8], len: usize, line: Line) -> u64 {
        self.asked().add(buf, len, line)
    }
    fn read(&self, rec: &[u8], number: u16, fields: &mut [u32]) -> u64 {
        self.asked().read(rec, number, fields)
    }
    fn pattern(&self, pat: &[u8], counts: &mut [u32]) -> u64 {
        self.asked().pattern(pat, counts)
    }
    fn boats(&self, rec: &[u8], counts: &mut [u32]) -> u64 {
        self.asked().boats(rec, counts)
    }
    fn words(&self, rec: &[u8], pat: &[u8]) -> u64 {
        self.asked().words(rec, pat)
    }
    fn check(&self, ask: Ask, chain: &[u16], work: &mut [u32]) -> u64 {
        self.asked().check(ask, chain, work)
    }
    fn find(&self, ask: Ask, work: &mut [u32], out: &mut [u16]) -> u64 {
        self.asked().find(ask, work, out)
    }
    fn search_words(&self, rec: &[u8], pat: &[u8]) -> u64 {
        self.asked().search_words(rec, pat)
    }
    fn search_begin(&self, ask: Ask, work: &mut [u32]) -> u64 {
        self.asked().search_begin(ask, work)
    }
    fn search_move(&self, work: &mut [u32], amount: usize) -> u64 {
        self.asked().search_move(work, amount)
    }
    fn search_finish(&self, work: &mut [u32], out: &mut [u16]) -> u64 {
        self.asked().search_finish(work, out)
    }
    fn starts(&self, listed: Listed, work: &mut [u32], lengths: &mut [u32]) -> u64 {
        self.asked().starts(listed, work, lengths)
    }
}
