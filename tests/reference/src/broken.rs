//! Broken copies of the engine: each is the engine with one deviation, which the comparison must find.
//!
//! A deviation stands in the engine where it belongs, behind `broken(..)`. Without the feature `broken` this
//! is always false, and the deviations compile away.

use crate::cause::Refusal;

macro_rules! deviations {
    ($($name:ident: $words:literal;)*) => {
        /// A deviation.
        #[derive(Clone, Copy, Debug, PartialEq, Eq)]
        pub enum Broken {
            $(#[doc = $words] $name,)*
        }

        /// Every deviation.
        pub const ALL: &[Broken] = &[$(Broken::$name,)*];

        impl Broken {
            /// The deviation in words.
            pub fn words(self) -> &'static str {
                match self {
                    $(Broken::$name => $words,)*
                }
            }
        }
    };
}

deviations! {
    // The rule.
    InnerPreRackByRack: "the inner pre is tested rack by rack";
    InsidesNotCompared: "taken places are occupied, insides are not compared";
    FreshRackFilled: "a rack of a net that pre lacks arrives with tokens no sync made";
    LeavesWithTokens: "a rack of a net that post lacks leaves with tokens in it";
    LeavesOnlyEmpty: "a rack of a net that post lacks has to be empty before its move";
    EqualTakenAsOne: "equal taken lines are looked for as one";
    InnerPreNotTested: "the inner pre is not tested";
    InnerPreNotUsedUp: "the inner pre is not used up";
    InnerTotalsOnly: "inner projections are compared by their totals";
    SyncOnce: "a sync count above 1 counts as 1";
    IdlingAnywhere: "idling takes and gives at any place";
    AloneOnTwo: "alone fires on two racks of its net";
    AloneOfAnyNet: "alone fires on a rack of another net";
    AloneOfBlackToken: "alone fires on a black token";
    AloneAtFirstPlace: "alone fires at its net's first place only";
    AloneGivesElsewhere: "alone gives at another place of its net";
    AloneGiveAtTake: "8 for what alone gives stands beside the take line";
    AloneOnLikes: "alone fires on likes of one line";
    GivenBeforeTaken: "the outer projection of the given is tested first";
    PreAndPostNetByNet: "9 and 10 are judged net by net";
    GreatestNet: "9 and 10 stand beside the greatest net";
    RoomNotFreed: "12 does not count the room that the take frees";
    RoomBeforeMarking: "12 is judged before 11";
    RoomByLines: "12 counts token lines";
    RoomByRacks: "12 counts racks";
    LikesNotFreed: "12 adds the given likes before the taken ones are away";
    LikesNotTested: "a step gives more than 65,535 alike";
    LikesBeforeMarking: "12 for too many alike is judged before 11";
    NotInMarkingByLines: "11 counts lines, whatever their *n";
    NotInMarkingAtFirst: "11 stands beside the first of the like lines";
    LineOnceInOuter: "a line counts once in the outer projection, whatever its *n";
    LineOnceInInner: "a line counts once in the inner projection, whatever its *n";
    LikesIn16Bits: "likes are cut to 16 bits in the outer projection";
    InnerIn32Bits: "the inner projection is kept in 32 bits";
    StepUnsorted: "given racks are appended, not sorted in";
    OldRacksKept: "the room behind the racks is not cleared after a step";
    UsedIsTheText: "a step uses the whole text";
    UsedWhenRefused: "a refused step says how many bytes it has";
    RefusedStepMoves: "a step refused by 11 has taken the racks all the same";
    // Idle engines.
    StepsAllRefused: "every step is refused";
    StepsAllFired: "every step is answered as fired";
    FiredMovesNothing: "a step that fires moves no rack";
    FirstStepOnly: "the first step is true, later ones are only nodded at";
    StopLinesOfTheTrace: "lines of a run's stop are counted from the trace's first";
    StopBehindTheHeader: "the byte of a run's stop is counted from behind the header";
    RunUndone: "a run that stops has moved no rack";
    WeightsAllPass: "all weights pass";
    WeightsAllRefused: "all weights are refused";
    ModelsAllRight: "every held model is taken as right";
    ModelsAllWrong: "every held model is taken as wrong";
    // Weights.
    OuterWeightsOnly: "only the outer weights are balanced";
    IdlingNotBalanced: "idling events are not balanced";
    AloneNotBalanced: "alone events are not balanced";
    AloneRackWeighed: "the outer weight of the rack that alone gives counts";
    AloneHallsAlike: "alone asks for places of its net that weigh alike";
    GreatestEvent: "7 stands beside the greatest event";
    SumIn16Bits: "the sum is kept in 16 bits";
    SumIn32Bits: "the sum is kept in 32 bits";
    SumWithoutSign: "the sum loses its sign";
    SumInvented: "the sum is the number of unlike net-tokens";
    SumOfUnlike: "the sum counts likes once";
    CoverInvented: "cover is 1 whenever weights pass";
    CoverNever: "cover is 0";
    CoverByGreatestOuter: "the sum is divided by the greatest outer weight";
    CoverRoundsUp: "bounds of the sum are rounded up";
    CoverOfLikes: "cover lets each of 256 net-tokens be there 65,535 times";
    ZeroBeforeBytesAfter: "6 is judged before bytes after the last line";
    CoverWithoutInner: "inner bounds do not count for cover";
    // Reading.
    StagesAbove16Lost: "stages above 16 are lost";
    EqualTokensOnce: "of equal token lines only the first is held";
    MarkingUnsorted: "a held marking keeps the order of its lines";
    RangeBeforeLength: "3 is judged before 2";
    PlaceOutOfRangeIsSyntax: "a token's place out of range is 2";
    OtherHeaderOutOfRange: "a header with another number is 3";
    LeadingZeros: "leading zeros are read";
    MinusZero: "a weight of -0 is read";
    NumbersWrap: "numbers wrap at 32 bits";
    CarriageReturn: "a CR before the LF is read";
    UnendedLine: "an unended line is read";
    BytesAfterTheLastLine: "bytes after the last line are let pass";
    MissingLineIsTheLast: "a missing line counts as the last line";
    LinesFromZero: "lines of a step are counted from 0";
    PlacesOneFewer: "32 places are too many";
    EventsOneFewer: "64 events are too many";
    TokensOneFewer: "256 token lines are too many";
    CountsOneFewer: "a count of 65,535 is too large";
    TimesOneFewer: "*65535 is too large";
    TimesOneRead: "*1 is read";
    TimesZeroRead: "*0 is read";
    TimesBeforeCounts: "3 is judged of *n before the counts";
    StartByRacks: "a start of more than 256 racks is 12";
    BlockLikesTested: "too many alike in a take or a give are 12, as in a start";
    StartLikesNotTested: "a start has more than 65,535 alike";
    StartLikesAfterAll: "12 in a start is judged after its last line";
    StartLikesLineAfter: "12 in a start stands beside the line after";
    StartLikesBeforeRange: "12 in a start is judged before its line's 3";
    SliceOneShorter: "1,048,576 bytes are too many";
    SliceOneLonger: "1,048,577 bytes are read";
    LeavingMovesAreFour: "a move that gives none of a net that it takes is 4";
    IdlingAtBlackPlaces: "idling at a type 0 place is read";
    IdlingWithAnotherNet: "idling engages another net";
    IdlingWithoutTransitions: "idling with all counts 0 is read";
    HeaderThreeRead: "eos=3 is read";
    IdleUnderTwo: "idle is read under eos=2";
    AloneUnderOne: "alone is read under eos=1";
    AloneCountsPlaces: "alone's number is one of places";
    AloneNeedsAPlace: "alone of a net that types no place is 5";
    RefusedReadingGivesNothing: "a refused reading leaves the model that stood there";
    // Columns.
    ColumnsFromZero: "columns are counted from 0";
    ColumnsOfTheText: "columns are counted from the text's first byte";
    ColumnsIn16Bits: "columns are kept in 16 bits";
    ColumnOfTheLineEnd: "the column is that of the line's end";
    ColumnOfIdling: "5 has a column";
    MissingLineAtZero: "a missing line has column 0";
    BytesAfterAtZero: "bytes after the last line have column 0";
    UnendedAtItsLast: "an early end has the column of the last byte";
    WrongKeyAtItsFirst: "a wrong key has the column of its first byte";
    SecondKeyNotTried: "a key that is no event is not tried as idle or alone";
    HeaderAtItsNumber: "a header with another number has the column of its number";
    ExtraNumberAfterComma: "a list that is too long has the column of the number after its comma";
    ShortListAtItsNumber: "a list that is too short has the column of its last number";
    UnknownPlaceIsBlack: "the list of an unknown place is tested as that of a black one";
    UnknownPlaceOnce: "no *n can stand behind an unknown place";
    TimesOneAtItself: "*1 has the column of its 1";
    TimesZeroBehindIt: "*0 has the column behind its 0";
    StartLikesColumn: "12 in a start has a column";
    LeadingZeroAtItself: "a leading zero has its own column";
    MinusZeroAtItsSign: "-0 has the column of its sign";
    RangeBeforeSyntax: "3 is judged before the rest of a list is read";
    RangeBeforeEnd: "3 is judged before a line's end";
    LastOutOfRange: "3 has the column of the last number out of range";
    KeyNotCounted: "the column of a 3 is counted from behind the key";
    RangeAtItsLastDigit: "3 has the column of the number's last digit";
    RangeAtThePlace: "a token's count out of range has the column of its place";
    SignNotCounted: "a weight out of range has the column behind its sign";
    RunWithoutColumn: "a run's stop has no column";
    // Held models and markings.
    LeavingMovesNotHeld: "a held model with a move that gives none of a net that it takes is 14";
    HeaderThreeHeld: "a held model with header 3 is taken as one with header 2";
    KindsOfEitherHeader: "a held model's kinds of events do not depend on its header";
    UnusedRoomOfModel: "unused room of a held model is not tested";
    UnusedRoomOfMarking: "unused room of a held marking is not tested";
    InsideRoomNotTested: "counts past the net's inner places are not tested";
    OrderNotTested: "the order of a held marking is not tested";
    EqualNeighboursHeld: "equal net-tokens may stand side by side in a held marking";
    TimesInOrder: "equal net-tokens may stand side by side in a held marking, ascending by their counts";
    TimesBeforeInside: "the net-tokens of a place are held in the order of their counts";
    TimesZeroHeld: "a held net-token may be there 0 times";
    UnusedTimesNotTested: "counts in the unused room of a held marking are not tested";
    HeldBeforeSlice: "14 is judged before 1";
    // Converting.
    PlaceMissedReplaced: "idle events that miss a place of their net are replaced";
    RepeatedIdleCounts: "the same idle event twice counts for two places";
    RepeatedIdleKept: "the same idle event twice becomes two alone events";
    LikeWhateverCounts: "idle events of a net are like whatever they count";
    GreatestIdle: "21 stands beside the greatest event";
    AloneAtTheLast: "alone stands where the last of the like events stood";
    AloneMerged: "like alone events are merged";
    NumberOneOff: "the last event's new number is one too large";
    NumbersNotMovedUp: "new numbers do not move up";
    HeaderKept: "a model without idle events keeps its header";
    RefusedConverted: "a refused model is given back as it was";
    // Writing.
    RoomAfterTextCleared: "bytes past a written text are cleared";
    WrittenInPart: "a text that does not fit is written in part";
    NeededOneFewer: "13 stands beside one byte too few";
    TimesOneWritten: "*1 is written";
    LikesInTwoLines: "likes are written in two lines";
    RacksWritten: "a written start and held count racks";
    // Spread and listing.
    SpreadInvented: "the spread is a product";
    SpreadIn32Bits: "the spread is kept in 32 bits";
    SpreadRacksFirst: "the spread refuses racks before tokens";
    SpreadColumn: "the spread's 3 has a column";
    ListingWithoutColumns: "the listing prints no columns";
    FiredInvented: "fired counts the trace's steps";
    HeldInvented: "held is the start's";
    ListingGoesOn: "the listing goes on after refused weights";
    FilesAsLongAsSlices: "a file of 65,537 bytes is read";
    FilesOneShorter: "a file of 65,536 bytes is too long";
}

#[cfg(feature = "broken")]
mod switch {
    use super::Broken;
    use std::cell::Cell;

    thread_local! {
        static ACTIVE: Cell<Option<Broken>> = const { Cell::new(None) };
        static FIRED_ONCE: Cell<bool> = const { Cell::new(false) };
    }

    /// Whether the engine runs with this deviation.
    pub fn broken(deviation: Broken) -> bool {
        ACTIVE.get() == Some(deviation)
    }

    /// Runs a call of the engine with a deviation, or with none.
    pub fn with_deviation<T>(deviation: Option<Broken>, call: impl FnOnce() -> T) -> T {
        ACTIVE.set(deviation);
        let answer = call();
        ACTIVE.set(None);
        answer
    }

    /// A step was fired, or with `false` a model was read.
    pub fn set_fired_once(fired: bool) {
        FIRED_ONCE.set(fired);
    }

    pub fn fired_once() -> bool {
        FIRED_ONCE.get()
    }
}

#[cfg(not(feature = "broken"))]
mod switch {
    use super::Broken;

    #[inline(always)]
    pub fn broken(_: Broken) -> bool {
        false
    }

    pub fn with_deviation<T>(_: Option<Broken>, call: impl FnOnce() -> T) -> T {
        call()
    }

    #[inline(always)]
    pub fn set_fired_once(_: bool) {}

    #[inline(always)]
    pub fn fired_once() -> bool {
        false
    }
}

pub use switch::{broken, with_deviation};

/// Whether the deviations are part of this build.
pub const BUILT_IN: bool = cfg!(feature = "broken");

/// What an idle engine answers to a step that it has read, before any test.
#[inline(always)]
pub fn idle_answer() -> Option<Result<(), Refusal>> {
    if broken(Broken::StepsAllRefused) {
        return Some(Err(Refusal::new(crate::cause::OUTER, 2)));
    }
    let nods = broken(Broken::FirstStepOnly) && switch::fired_once();
    (nods || broken(Broken::StepsAllFired)).then_some(Ok(()))
}

/// Notes that a step fired.
#[inline(always)]
pub fn note_fired() {
    if broken(Broken::FirstStepOnly) {
        switch::set_fired_once(true);
    }
}

/// Notes that a model was read.
#[inline(always)]
pub fn note_read() {
    switch::set_fired_once(false);
}
