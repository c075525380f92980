//! What the programs that compare the library with the model share.

use crate::arguments::Arguments;
use crate::coverage::Notes;
use crate::explore::Runs;
use std::process::ExitCode;
use std::time::{Duration, Instant};

/// Explores for as long as is asked for, and prints what came up, a difference if
/// there is one, and how much passed.
pub fn differ(runs: &mut impl Runs, arguments: &Arguments) -> ExitCode {
    println!("seed {}", arguments.seed);
    let start = Instant::now();
    let most = Duration::from_secs(arguments.seconds);
    let found = runs.explore(arguments.seed, |cases| match arguments.cases {
        Some(wanted) => cases >= wanted,
        None => start.elapsed() >= most,
    });
    let lines = runs.notes().lines();
    lines.iter().for_each(|line| println!("{line}"));
    let mut failed = 0;
    if let Err(finding) = found {
        failed = 1;
        println!("difference: {}\n{}", finding.what, finding.line);
    }
    let missing = runs.notes().missing();
    missing
        .iter()
        .for_each(|what| println!("never came up: {what}"));
    println!("{} passed, {failed} failed", runs.calls() - failed);
    let short = arguments.full && !missing.is_empty();
    ExitCode::from(u8::from(failed > 0 || short))
}
