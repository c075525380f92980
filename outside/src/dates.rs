//! Dates seen through the calls. None of them reads a date alone, but a load file
//! is refused for what is no date, and an insert leaves the day in its slot.

use crate::gen::{file_of, records_of, NAME};
use crate::model::date::Day;
use crate::model::layout::{narrow, record, RECORD, REGISTER_SLOT};
use crate::model::store::slot_day;
use crate::model::Version;
use crate::subject::Subject;
use crate::town;

/// The last date: no record is filed too early under it.
const LAST_DATE: &[u8; 6] = b"123169";

/// The days that a subject stores for records of these dates: distinct numbers,
/// inserted by one file of a version into an empty register of as many slots.
pub fn days_stored(subject: &impl Subject, version: Version, dates: &[[u8; 6]]) -> Vec<Day> {
    let one = |(index, date): (usize, &[u8; 6])| town::record_at(b'I', index, 1, b"ABC", date);
    let records: Vec<[u8; RECORD]> = dates.iter().enumerate().map(one).collect();
    let records = records_of(version, &records);
    let file = file_of(version, LAST_DATE, 1, &records, dates.len());
    let mut register = vec![0; dates.len() * REGISTER_SLOT];
    let (guide, mut answers) = (town::guide(1), vec![0xee; dates.len()]);
    let taken = subject.apply_data(version, &mut register, &guide, &file, &mut answers, 0);
    assert_eq!((taken.refusal, taken.done as usize), (0, dates.len()));
    register.chunks_exact(REGISTER_SLOT).map(slot_day).collect()
}

/// The day that a subject reads from a date, None if it takes it for no date;
/// an error if its calls of either version do not agree on that.
pub fn day_read(subject: &impl Subject, date: &[u8]) -> Result<Option<Day>, String> {
    let [one, two] = Version::BOTH.map(|version| day_read_in(subject, version, date));
    let (one, two) = (one?, two?);
    if one == two {
        Ok(one)
    } else {
        Err(format!("{one:?} in Version 1, but {two:?} in Version 2"))
    }
}

fn day_read_in(
    subject: &impl Subject,
    version: Version,
    date: &[u8],
) -> Result<Option<Day>, String> {
    let mut out = vec![0; version.file(0)];
    let loaded = subject.write_load(version, &[0; REGISTER_SLOT], date, NAME, 1, &mut out);
    let is_date = match loaded.refusal {
        0 => true,
        26 => false,
        _ => return Err(format!("{loaded:?}")),
    };
    let day = match <&[u8; 6]>::try_from(date) {
        Ok(date) => day_inserted(subject, version, date)?,
        Err(_) => None,
    };
    if day.is_some() == is_date {
        Ok(day)
    } else {
        Err(format!("{loaded:?}, but {day:?} from an insert"))
    }
}

/// The day that one insert of this date stores.
fn day_inserted(
    subject: &impl Subject,
    version: Version,
    date: &[u8; 6],
) -> Result<Option<Day>, String> {
    let whole = town::record_at(b'I', 0, 1, b"ABC", date);
    let file = file_of(version, LAST_DATE, 1, &records_of(version, &[whole]), 1);
    let (mut register, mut answers) = ([0; REGISTER_SLOT], [0xee]);
    let guide = town::guide(1);
    let taken = subject.apply_data(version, &mut register, &guide, &file, &mut answers, 0);
    let position = match version {
        Version::One => narrow::record::DATE.first,
        Version::Two => record::DATE.first,
    };
    if (taken.refusal, taken.done) == (0, 1) {
        Ok(Some(slot_day(&register)))
    } else if (taken.refusal, taken.place, taken.position) == (9, 1, position as u32) {
        Ok(None)
    } else {
        Err(format!("{taken:?}"))
    }
}
