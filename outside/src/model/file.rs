//! What a check tests, and an apply before its records: refusals 1 to 9.

use super::date::{day, follows, Day};
use super::form::{header_cycle, trailer_count};
use super::layout::{header, trailer, MOST_RECORDS};
use super::results::Taken;
use super::rules::Rules;
use super::store::{guide_sound, register_sound};
use super::versions::Version;

/// A file that is not refused.
pub struct File<'a> {
    /// The header's date.
    pub date: Day,
    /// The header's cycle, the new last one.
    pub cycle: u32,
    /// The records, with nothing between.
    pub records: &'a [u8],
    /// How many.
    pub count: usize,
}

/// What data files of either version and guide files differ in.
pub struct Kind {
    /// Whose header and trailer it has: a guide file has those of Version 2.
    pub version: Version,
    /// Bytes of a record.
    pub size: usize,
    /// Where a record breaks a field rule.
    pub fault: fn(&[u8]) -> Option<usize>,
}

/// "A refusal returns number, record place and position, counts of 0 and the
/// last cycle as given."
fn refused(refusal: u32, last: u32) -> Taken {
    Taken {
        refusal,
        last,
        ..Taken::default()
    }
}

/// n, if the length is that of a file of n records.
fn records_in(length: usize, kind: &Kind) -> Option<usize> {
    let records = length.checked_sub(kind.version.file(0))?;
    let count = records / kind.size;
    (records % kind.size == 0 && count <= MOST_RECORDS).then_some(count)
}

/// "They are tried in this order, and the first decides."
pub fn examine<'a, R: Rules>(
    kind: &Kind,
    register: &[u8],
    guide: &[u8],
    file: &'a [u8],
    answers: usize,
    last: u32,
) -> Result<File<'a>, Taken> {
    if !register_sound::<R>(register) {
        return Err(refused(1, last));
    }
    if !guide_sound::<R>(guide) {
        return Err(refused(2, last));
    }
    let count = records_in(file.len(), kind).ok_or(refused(3, last))?;
    if answers < count {
        return Err(refused(4, last));
    }
    let file = framed::<R>(kind, file, count, last)?;
    for (before, record) in file.records.chunks_exact(kind.size).enumerate() {
        if let Some(position) = (kind.fault)(record) {
            return Err(Taken {
                place: before as u32 + 1,
                position: position as u32,
                ..refused(9, last)
            });
        }
    }
    Ok(file)
}

/// A file of so many records with a good header and trailer: refusals 5 to 8.
fn framed<'a, R: Rules>(
    kind: &Kind,
    file: &'a [u8],
    count: usize,
    last: u32,
) -> Result<File<'a>, Taken> {
    let edge = kind.version.edge();
    let (head, rest) = file.split_at(edge);
    let (records, tail) = rest.split_at(rest.len() - edge);
    let cycle = header_cycle::<R>(kind.version, head).ok_or(refused(5, last))?;
    let date = day::<R>(header::DATE.of(head)).ok_or(refused(5, last))?;
    if !follows::<R>(cycle, last) {
        return Err(refused(6, last));
    }
    let counted = trailer_count::<R>(kind.version, tail).ok_or(refused(7, last))?;
    if trailer::DATE.of(tail) != header::DATE.of(head)
        || trailer::NAME.of(tail) != header::NAME.of(head)
    {
        return Err(refused(7, last));
    }
    if counted.0 as usize != count {
        return Err(refused(8, last));
    }
    Ok(File {
        date,
        cycle: cycle.0,
        records,
        count,
    })
}
