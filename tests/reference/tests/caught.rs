//! Deviations that are caught without a made-up plant, so whichever seed is drawn.
#![cfg(feature = "broken")]

use reference::broken::Broken;
use reference::comparer::{fixed, Compared, Comparer};
use reference::engine::Reference;

const ALONE: &[Broken] = &[
    Broken::AloneOnTwo,
    Broken::AloneOfAnyNet,
    Broken::AloneOfBlackToken,
    Broken::AloneAtFirstPlace,
    Broken::AloneGivesElsewhere,
    Broken::AloneGiveAtTake,
    Broken::AloneOnLikes,
    Broken::AloneNotBalanced,
    Broken::AloneRackWeighed,
    Broken::AloneHallsAlike,
    Broken::HeaderThreeRead,
    Broken::IdleUnderTwo,
    Broken::AloneUnderOne,
    Broken::AloneCountsPlaces,
    Broken::AloneNeedsAPlace,
    Broken::SecondKeyNotTried,
    Broken::HeaderThreeHeld,
    Broken::KindsOfEitherHeader,
    Broken::PlaceMissedReplaced,
    Broken::RepeatedIdleCounts,
    Broken::RepeatedIdleKept,
    Broken::LikeWhateverCounts,
    Broken::GreatestIdle,
    Broken::AloneAtTheLast,
    Broken::AloneMerged,
    Broken::NumberOneOff,
    Broken::NumbersNotMovedUp,
    Broken::HeaderKept,
    Broken::RefusedConverted,
];

const LIKES: &[Broken] = &[
    Broken::RoomNotFreed,
    Broken::RoomBeforeMarking,
    Broken::RoomByLines,
    Broken::RoomByRacks,
    Broken::LikesNotFreed,
    Broken::LikesNotTested,
    Broken::LikesBeforeMarking,
    Broken::EqualTakenAsOne,
    Broken::NotInMarkingByLines,
    Broken::NotInMarkingAtFirst,
    Broken::LineOnceInOuter,
    Broken::LineOnceInInner,
    Broken::LikesIn16Bits,
    Broken::InnerIn32Bits,
    Broken::SumOfUnlike,
    Broken::CoverOfLikes,
    Broken::EqualTokensOnce,
    Broken::TokensOneFewer,
    Broken::TimesOneFewer,
    Broken::TimesOneRead,
    Broken::TimesZeroRead,
    Broken::TimesBeforeCounts,
    Broken::StartByRacks,
    Broken::BlockLikesTested,
    Broken::StartLikesNotTested,
    Broken::StartLikesAfterAll,
    Broken::StartLikesLineAfter,
    Broken::StartLikesBeforeRange,
    Broken::StartLikesColumn,
    Broken::UnknownPlaceOnce,
    Broken::TimesOneAtItself,
    Broken::TimesZeroBehindIt,
    Broken::EqualNeighboursHeld,
    Broken::TimesInOrder,
    Broken::TimesBeforeInside,
    Broken::TimesZeroHeld,
    Broken::UnusedTimesNotTested,
    Broken::TimesOneWritten,
    Broken::LikesInTwoLines,
    Broken::RacksWritten,
];

/// Whether these calls catch each of these deviations.
fn catches(calls: impl Fn(&mut Comparer) -> Compared, deviations: &[Broken]) {
    let reference = Reference::new();
    assert!(calls(&mut Comparer::new(&reference, &reference)).is_ok());
    for &deviation in deviations {
        let copy = Reference::broken(deviation);
        let caught = calls(&mut Comparer::new(&reference, &copy));
        assert!(caught.is_err(), "{}", deviation.words());
    }
}

#[test]
fn deviations_of_alone() {
    catches(fixed::alone, ALONE);
}

#[test]
fn deviations_of_likes() {
    catches(fixed::likes, LIKES);
}
