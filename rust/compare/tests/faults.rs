//! The comparison finds what it is there to find: each of a list of faults in
//! one side, and a call that leaves what no call may leave on both sides.
#![forbid(unsafe_code)]

mod common;

use common::{Fault, Faulty, FAULTS};
use compare::duo::Duo;
use compare::random::Random;
use compare::scenarios;
use compare::side::Twin;

const SEED: u64 = 1;
const CALLS: u64 = 300_000;

#[test]
fn no_fault_no_difference() {
    let mut duo = Duo::new(Box::new(Twin), Box::new(Twin));
    scenarios::compare(&mut duo, SEED, CALLS);
    assert_eq!(duo.fault(), None);
    assert!(duo.tally.calls >= CALLS);
    assert_eq!(duo.tally.unreached(), Vec::<String>::new());
}

/// Nor by runs that are made of takes, as those with a fault of runs are.
#[test]
fn takes_are_no_difference() {
    let mut duo = Duo::new(Box::new(Faulty(Fault::OnlyTakes)), Box::new(Twin));
    scenarios::compare(&mut duo, SEED, CALLS);
    assert_eq!(duo.fault(), None);
}

/// What chance alone gives reaches every answer of every call.
#[test]
fn chance_reaches_every_answer() {
    let mut duo = Duo::new(Box::new(Twin), Box::new(Twin));
    let mut random = Random::new(SEED);
    while duo.tally.calls < CALLS {
        scenarios::by_chance(&mut duo, &mut random);
    }
    assert_eq!(duo.tally.unreached(), Vec::<String>::new());
}

/// With the fixed part, as the program runs.
#[test]
fn every_fault_is_found() {
    for &fault in FAULTS {
        let mut duo = Duo::new(Box::new(Faulty(fault)), Box::new(Twin));
        scenarios::compare(&mut duo, SEED, CALLS);
        assert!(duo.fault().is_some(), "{fault:?} was not found");
    }
}

/// Without the fixed part: what chance alone gives is enough too.
#[test]
fn every_fault_is_found_by_chance() {
    for &fault in FAULTS {
        let mut duo = Duo::new(Box::new(Faulty(fault)), Box::new(Twin));
        let mut random = Random::new(SEED);
        while duo.tally.calls < CALLS && duo.fault().is_none() {
            scenarios::by_chance(&mut duo, &mut random);
        }
        assert!(duo.fault().is_some(), "{fault:?} was not found");
    }
}

/// The same on either side.
#[test]
fn every_fault_is_found_on_the_other_side() {
    for &fault in FAULTS {
        let mut duo = Duo::new(Box::new(Twin), Box::new(Faulty(fault)));
        scenarios::compare(&mut duo, SEED, CALLS);
        assert!(duo.fault().is_some(), "{fault:?} was not found");
    }
}

/// Those of the faults that the header rules out whatever the rules are: a refused
/// call that changes something, a call that changes what it must not, bytes lacking
/// that cannot be, a look and a take that do not tell the same, a length of a recording
/// that cannot be.
const RULED_OUT: &[Fault] = &[
    Fault::ValueZeroed,
    Fault::UnitZeroed,
    Fault::LayoutZeroed,
    Fault::ValuesZeroed,
    Fault::RawWordsZeroed,
    Fault::WrittenZeroed,
    Fault::PatchWrittenZeroed,
    Fault::MergedZeroed,
    Fault::LackingZeroedByRefusal,
    Fault::LackingZeroedByUnit,
    Fault::LackingNone,
    Fault::LackingPastTheRoom,
    Fault::RunLacksNone,
    Fault::LimitRunLacksOne,
    Fault::DrawNormalisedByRefusal,
    Fault::DrawNormalisedByWrite,
    Fault::DrawNormalisedByFeed,
    Fault::DrawNormalisedByEmptyRun,
    Fault::FeedStoresReadPointer,
    Fault::FeedMovesWhenRefused,
    Fault::VertexCopiedByWaiting,
    Fault::ShortOutputPartly,
    Fault::ShortPatchPartly,
    Fault::TailCleared,
    Fault::MergeOfFirstWithin,
    Fault::OldMetricsToWriteGives6,
    Fault::LookTakes,
    Fault::LookMovesThePointer,
    Fault::LookStoresXfWords,
    Fault::LookCopiesVertex,
    Fault::LookClearsStaleDraw,
    Fault::LookShowsNoOperation,
    Fault::LookTellsAnotherLength,
    Fault::LookWithoutAddress,
    Fault::LookPastTheDraw,
    Fault::LookWithout2,
    Fault::LookWithout3,
    Fault::LookWithout4And5,
    Fault::LookGives4Before2,
    Fault::LookAwaitsTheUnit,
    Fault::LookLacksOne,
    Fault::LookUnitZeroed,
    Fault::LookLackingZeroed,
    Fault::TakeNamesAnother,
    Fault::OldSizeOfLooks,
    Fault::OldSizeOfTakes,
    Fault::PendingModuloOfLooks,
    Fault::PendingModuloOfTakes,
    Fault::ReadingTailPassed,
    Fault::ReadingLeavesTheDraw,
    Fault::ReadingLeavesStaleWords,
    Fault::ReadingFreshWindow,
    Fault::ReadingFreshControl,
    Fault::ReadingMasksControl,
    Fault::ReadingTellsPlace0,
    Fault::ReadingTellsTheFile,
    Fault::ReadingZeroesStream,
    Fault::ReadingOnePass,
    Fault::ReadingStoresRegisters,
    Fault::ReadingHeadFirst,
    Fault::HeadTestsTheRest,
    Fault::HeadOfJustItsBytes,
    Fault::HeadLeavesTheDraw,
    Fault::HeadMasksControl,
    Fault::HeadZeroesLength,
    Fault::RestTestsTheCount,
    Fault::FindingTheLength,
    Fault::WritingTailCleared,
    Fault::WritingHeadBefore16,
    Fault::WritingZeroesOutput,
    Fault::WritingZeroesWritten,
    Fault::WritingClosesTheDraw,
    Fault::WritingMasksTheState,
    Fault::WritingClearsXfWords,
    Fault::HeadWritingTellsTheFile,
    Fault::ReadingOneLonger,
    Fault::ReadingTellsLengthModulo,
    Fault::WritingOneLonger,
];

/// They are found where both sides have the same.
#[test]
fn a_fault_of_both_sides() {
    for &fault in RULED_OUT {
        let mut duo = Duo::new(Box::new(Faulty(fault)), Box::new(Faulty(fault)));
        scenarios::compare(&mut duo, SEED, CALLS);
        assert!(duo.fault().is_some(), "{fault:?} was not found");
    }
}

/// A difference tells the call, its arguments, what differs and both values;
/// nothing is called after it.
#[test]
fn a_difference_is_told() {
    let mut duo = Duo::new(Box::new(Faulty(Fault::ValueZeroed)), Box::new(Twin));
    scenarios::compare(&mut duo, SEED, CALLS);
    let told = duo.fault().expect("a difference").to_string();
    let calls = duo.tally.calls;
    assert!(told.starts_with(&format!(
        "call {calls}, in \"every refusal\", read_register:"
    )));
    for part in [
        "offset [",
        "state ",
        "differs first: value, place 0",
        "faulty: 0",
    ] {
        assert!(told.contains(part), "{part} in {told}");
    }
    duo.take();
    assert_eq!(duo.tally.calls, calls);
    assert_eq!(duo.fault(), Some(&told[..]));
}

/// So is a take that does not tell what a look right before it told, on both
/// sides alike.
#[test]
fn a_take_unlike_its_look_is_told() {
    let faulty = || Box::new(Faulty(Fault::LookTellsAnotherLength));
    let mut duo = Duo::new(faulty(), faulty());
    scenarios::compare(&mut duo, SEED, CALLS);
    let told = duo.fault().expect("a difference");
    for part in [
        "\", take:",
        "differs first: nothing, but a look right before told unit, place 5, as 6",
        "faulty: 5",
    ] {
        assert!(told.contains(part), "{part} in {told}");
    }
}

/// So is what a recording leaves or tells that cannot be, on both sides alike.
#[test]
fn a_recording_that_is_read_wrongly_is_told() {
    let cases = [
        (
            Fault::ReadingFreshControl,
            "differs first: nothing, but a recording that is read leaves ",
            " in state, place 6\n    faulty: 10",
        ),
        (
            Fault::ReadingTellsPlace0,
            "differs first: nothing, but both told a length that cannot be",
            "\n    faulty: 0",
        ),
        (
            Fault::ReadingStoresRegisters,
            "differs first: nothing, but both changed state, place ",
            "\n  answers 2",
        ),
    ];
    for (fault, what, values) in cases {
        let mut duo = Duo::new(Box::new(Faulty(fault)), Box::new(Faulty(fault)));
        scenarios::compare(&mut duo, SEED, CALLS);
        let told = duo.fault().expect("a difference");
        for part in ["\", read_recording:", "\n    file ", what, values] {
            assert!(told.contains(part), "{part} in {told}");
        }
    }
}

#[test]
fn a_seed_gives_the_same_calls() {
    let fault = |seed| {
        let mut duo = Duo::new(Box::new(Faulty(Fault::DrawLeftStale)), Box::new(Twin));
        let mut random = Random::new(seed);
        while duo.fault().is_none() {
            scenarios::by_chance(&mut duo, &mut random);
        }
        duo.fault().map(str::to_string)
    };
    assert_eq!(fault(5), fault(5));
    assert_ne!(fault(5), fault(6));
}
