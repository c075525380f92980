//! Taking a file is two calls: one checks it and changes nothing, the other
//! checks it again and applies it.

use super::apply::{data_record, guide_row, DONE};
use super::file::{examine, File, Kind};
use super::form::{record_fault, row_fault};
use super::layout::{MOST_RECORDS, ROW};
use super::results::Taken;
use super::rules::Rules;
use super::versions::{widen, Version};

fn data_file<R: Rules>(version: Version) -> Kind {
    Kind {
        version,
        size: version.record(),
        fault: match version {
            Version::One => |whole| record_fault::<R>(Version::One, whole),
            Version::Two => |whole| record_fault::<R>(Version::Two, whole),
        },
    }
}

fn guide_file<R: Rules>() -> Kind {
    Kind {
        version: Version::Two,
        size: ROW,
        fault: row_fault::<R>,
    }
}

/// Checks a data file.
pub fn check_data<R: Rules>(
    version: Version,
    register: &[u8],
    guide: &[u8],
    file: &[u8],
    answers: &[u8],
    last: u32,
) -> Taken {
    let kind = data_file::<R>(version);
    check::<R>(&kind, register, guide, file, answers.len(), last)
}

/// Checks a guide file.
pub fn check_guide<R: Rules>(
    register: &[u8],
    guide: &[u8],
    file: &[u8],
    answers: &[u8],
    last: u32,
) -> Taken {
    let kind = guide_file::<R>();
    check::<R>(&kind, register, guide, file, answers.len(), last)
}

/// "One tests all that refusals 1 to 9 test and changes nothing. A good check
/// returns n": nothing is done by it, so the last cycle is as given.
fn check<R: Rules>(
    kind: &Kind,
    register: &[u8],
    guide: &[u8],
    file: &[u8],
    answers: usize,
    last: u32,
) -> Taken {
    let answers = if R::CHECK_MEASURES_ANSWERS {
        answers
    } else {
        MOST_RECORDS
    };
    match examine::<R>(kind, register, guide, file, answers, last) {
        Err(refusal) => refusal,
        Ok(file) => Taken {
            records: file.count as u32,
            last: if R::CHECK_KEEPS_LAST {
                last
            } else {
                file.cycle
            },
            ..Taken::default()
        },
    }
}

/// Applies a data file: "by widening each record to Version 2".
pub fn apply_data<R: Rules>(
    version: Version,
    register: &mut [u8],
    guide: &[u8],
    file: &[u8],
    answers: &mut [u8],
    last: u32,
) -> Taken {
    let kind = data_file::<R>(version);
    match examine::<R>(&kind, register, guide, file, answers.len(), last) {
        Err(refusal) => refusal,
        Ok(file) => apply(&file, kind.size, answers, |whole| match version {
            Version::One => data_record::<R>(register, guide, file.date, &widen::<R>(whole)),
            Version::Two => data_record::<R>(register, guide, file.date, whole),
        }),
    }
}

/// Applies a guide file.
pub fn apply_guide<R: Rules>(
    register: &[u8],
    guide: &mut [u8],
    file: &[u8],
    answers: &mut [u8],
    last: u32,
) -> Taken {
    let kind = guide_file::<R>();
    match examine::<R>(&kind, register, guide, file, answers.len(), last) {
        Err(refusal) => refusal,
        Ok(file) => apply(&file, kind.size, answers, |whole| {
            guide_row::<R>(register, guide, whole)
        }),
    }
}

/// "Each record is applied in turn to what the earlier ones left; answer byte i
/// is written, bytes past n stay."
fn apply(file: &File, size: usize, answers: &mut [u8], mut one: impl FnMut(&[u8]) -> u8) -> Taken {
    let mut done = 0;
    for (answer, whole) in answers.iter_mut().zip(file.records.chunks_exact(size)) {
        *answer = one(whole);
        done += u32::from(*answer == DONE);
    }
    let records = file.count as u32;
    Taken {
        records,
        done,
        undone: records - done,
        last: file.cycle,
        ..Taken::default()
    }
}
