//! The model against itself: the differential runs are quiet, keep the demands,
//! bring everything up, and see each fault that is put in by hand.

use outside::coverage::Notes;
use outside::explore::{Explorer, Runs};
use outside::model::rules::{
    AnswersUnmeasured, ClashWithoutParity, CpdFrom1960, CycleFromCheck, Described, NinetyOneDays,
    NoCycleWrap, NoLeapYear, NoLeftJustify, PivotOneOff, ReservedLast, RestingForgotten, RoomFirst,
    TrimmedFirst, UnfitFirst, WideSlotUntold,
};
use outside::model::Rules;
use outside::random::Random;
use outside::subject::Model;

const GOOD: Model<Described> = Model::new();

fn is_quiet_and_brings_everything_up(mut runs: impl Runs, most: u64) {
    if let Err(finding) = runs.explore(1, |cases| cases >= most) {
        panic!("{}\n{}", finding.what, finding.line);
    }
    assert_eq!(runs.notes().missing(), [""; 0]);
}

#[test]
fn a_quiet_run_of_files_brings_everything_up() {
    is_quiet_and_brings_everything_up(Explorer::of_files(&GOOD, &GOOD), 100_000);
}

#[test]
fn a_quiet_run_of_texts_brings_everything_up() {
    is_quiet_and_brings_everything_up(Explorer::of_texts(&GOOD, &GOOD), 40_000);
}

/// Whether the runs see the fault in time.
fn is_seen(mut runs: impl Runs) -> bool {
    let mut seeds = Random::new(1);
    let mut seen = false;
    while !seen && runs.calls() < 20_000 {
        seen = runs.run(seeds.bits()).is_err();
    }
    seen
}

fn is_seen_in_files<R: Rules>() -> bool {
    is_seen(Explorer::of_files(&Model::<R>::new(), &GOOD))
}

fn is_seen_in_texts<R: Rules>() -> bool {
    is_seen(Explorer::of_texts(&Model::<R>::new(), &GOOD))
}

#[test]
fn every_fault_is_seen() {
    assert!(is_seen_in_files::<NinetyOneDays>());
    assert!(is_seen_in_files::<ClashWithoutParity>());
    assert!(is_seen_in_files::<NoLeftJustify>());
    assert!(is_seen_in_files::<NoLeapYear>());
    assert!(is_seen_in_files::<NoCycleWrap>());
    assert!(is_seen_in_files::<PivotOneOff>());
    assert!(is_seen_in_files::<RestingForgotten>());
    assert!(is_seen_in_files::<CycleFromCheck>());
    assert!(is_seen_in_files::<AnswersUnmeasured>());
    assert!(is_seen_in_files::<ReservedLast>());
    assert!(is_seen_in_files::<RoomFirst>());
    assert!(is_seen_in_files::<WideSlotUntold>());
    assert!(is_seen_in_texts::<UnfitFirst>());
    assert!(is_seen_in_texts::<TrimmedFirst>());
    assert!(is_seen_in_texts::<CpdFrom1960>());
}

/// What is seen where both sides have the fault, so that they never differ.
fn seen_in_itself<R: Rules>() -> String {
    let faulty = Model::<R>::new();
    let mut runs = Explorer::of_files(&faulty, &faulty);
    let found = runs.explore(1, |cases| cases >= 20_000);
    found.err().map_or(String::new(), |finding| finding.what)
}

#[test]
fn a_check_that_does_not_foretell_is_seen_in_itself() {
    let words = "the check does not foretell the apply: \
                 (refusal place position n done undone last) expected ";
    assert_eq!(
        seen_in_itself::<CycleFromCheck>(),
        format!("{words}[0, 0, 0, 0, 0, 0, 0], got [0, 0, 0, 0, 0, 0, 1]")
    );
    assert_eq!(
        seen_in_itself::<AnswersUnmeasured>(),
        format!("{words}[4, 0, 0, 0, 0, 0, 1], got [0, 0, 0, 1, 0, 0, 1]")
    );
}
