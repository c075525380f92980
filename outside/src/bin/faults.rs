//! `faults [--seed S] [--cases N] [--full]`: fifteen faults put into the model by
//! hand. The differential runs against the library must see each of them; `--full`
//! prints the call that showed it, made small.

use outside::arguments::Arguments;
use outside::explore::{Explorer, Finding, Runs};
use outside::face::Library;
use outside::model::rules::{
    AnswersUnmeasured, ClashWithoutParity, CpdFrom1960, CycleFromCheck, NinetyOneDays, NoCycleWrap,
    NoLeapYear, NoLeftJustify, PivotOneOff, ReservedLast, RestingForgotten, RoomFirst,
    TrimmedFirst, UnfitFirst, WideSlotUntold,
};
use outside::model::Rules;
use outside::random::Random;
use outside::subject::Model;
use std::process::ExitCode;

/// Calls after which a fault counts as not found.
const CASES: u64 = 1_000_000;

/// The difference that a faulty model shows, and the calls it took.
type Found = (u64, Option<Finding>);

fn search(arguments: &Arguments, mut runs: impl Runs) -> Found {
    let most = arguments.cases.unwrap_or(CASES);
    let mut found = None;
    let mut seeds = Random::new(arguments.seed);
    while found.is_none() && runs.calls() < most {
        found = runs.run(seeds.bits()).err();
    }
    (runs.calls(), found)
}

/// A fault that files show.
fn in_files<R: Rules>(arguments: &Arguments) -> Found {
    search(arguments, Explorer::of_files(&Model::<R>::new(), &Library))
}

/// A fault that tagged texts show.
fn in_texts<R: Rules>(arguments: &Arguments) -> Found {
    search(arguments, Explorer::of_texts(&Model::<R>::new(), &Library))
}

/// The faults, by their names.
type Search = fn(&Arguments) -> Found;
const FAULTS: [(&str, Search); 15] = [
    ("91 days instead of 90", in_files::<NinetyOneDays>),
    ("clash without parity", in_files::<ClashWithoutParity>),
    ("no left-justify rule", in_files::<NoLeftJustify>),
    ("no leap year", in_files::<NoLeapYear>),
    ("no cycle wrap", in_files::<NoCycleWrap>),
    ("71 instead of 70 for 19YY", in_files::<PivotOneOff>),
    (
        "conversion without resting slots",
        in_files::<RestingForgotten>,
    ),
    (
        "a check returns the header's cycle",
        in_files::<CycleFromCheck>,
    ),
    (
        "a check without the answers' length",
        in_files::<AnswersUnmeasured>,
    ),
    ("widened with Reserved last", in_files::<ReservedLast>),
    ("25 tried before 27", in_files::<RoomFirst>),
    ("27 without its slot", in_files::<WideSlotUntold>),
    ("36 tried before 35", in_texts::<UnfitFirst>),
    (
        "values trimmed before they are too long",
        in_texts::<TrimmedFirst>,
    ),
    ("CPD of 1960 to 2059", in_texts::<CpdFrom1960>),
];

fn main() -> ExitCode {
    let arguments = Arguments::read();
    println!("seed {}", arguments.seed);
    let mut missed = 0;
    for (name, search) in FAULTS {
        match search(&arguments) {
            (calls, Some(finding)) => {
                println!("{name}: found at call {calls}: {}", finding.what);
                if arguments.full {
                    println!("{}", finding.line);
                }
            }
            (calls, None) => {
                missed += 1;
                println!("{name}: not found in {calls} calls");
            }
        }
    }
    println!("{} passed, {missed} failed", FAULTS.len() - missed);
    ExitCode::from(u8::from(missed > 0))
}
