//! Every date against a calendar that is walked day by day, by the full rule for
//! leap years and without a formula: the model's reader, and the library's by
//! what its calls store and refuse. And every CPD of a tagged text.

use outside::dates::{day_read, days_stored};
use outside::face::Library;
use outside::model::date::{day, Day};
use outside::model::layout::{record, MOST_SLOTS, RECORD};
use outside::model::{Described, Version};
use outside::subject::{Model, Subject};
use std::collections::HashMap;

const DAYS: usize = 36525;

fn mmddyy(month: u32, of_month: u32, year: u32) -> [u8; 6] {
    let text = format!("{month:02}{of_month:02}{:02}", year % 100);
    text.into_bytes().try_into().expect("six digits")
}

fn month_length(year: u32, month: u32) -> u32 {
    let every = |years| year.is_multiple_of(years);
    let leap = every(4) && (!every(100) || every(400));
    match month {
        2 if leap => 29,
        2 => 28,
        4 | 6 | 9 | 11 => 30,
        _ => 31,
    }
}

/// Year, month and day of 1970 to 2069, one day after the other.
fn days() -> Vec<(u32, u32, u32)> {
    let mut days = Vec::new();
    let (mut year, mut month, mut of_month) = (1970, 1, 1);
    while year < 2070 {
        days.push((year, month, of_month));
        of_month += 1;
        if of_month > month_length(year, month) {
            (month, of_month) = (month + 1, 1);
        }
        if month > 12 {
            (year, month) = (year + 1, 1);
        }
    }
    days
}

/// Their dates.
fn walk() -> Vec<[u8; 6]> {
    let date = |(year, month, of_month)| mmddyy(month, of_month, year);
    days().into_iter().map(date).collect()
}

/// Months 00 to 13, days 00 to 32, years 00 to 99: all dates and much that is none.
fn grid() -> impl Iterator<Item = [u8; 6]> {
    (0..=13).flat_map(|month| {
        (0..=32).flat_map(move |of_month| (0..100).map(move |year| mmddyy(month, of_month, year)))
    })
}

/// The walk's days by their dates.
fn calendar() -> HashMap<[u8; 6], Day> {
    walk().into_iter().zip((0..).map(Day)).collect()
}

#[test]
fn the_walk_has_a_date_for_each_day() {
    let dates = walk();
    assert_eq!(dates.len(), DAYS);
    assert_eq!(calendar().len(), DAYS, "no date comes twice");
    assert_eq!([dates[0], dates[DAYS - 1]], [*b"010170", *b"123169"]);
    assert_eq!([dates[10956], dates[10957]], [*b"123199", *b"010100"]);
}

#[test]
fn the_model_reads_every_date_as_the_calendar_does() {
    let calendar = calendar();
    let mut read = Vec::new();
    for date in grid() {
        let number = day::<Described>(&date);
        assert_eq!(number, calendar.get(&date).copied());
        read.extend(number.map(|Day(number)| number as usize));
    }
    assert_eq!(read.iter().sum::<usize>(), 667_019_550);
    read.sort_unstable();
    assert!(read.into_iter().eq(0..DAYS), "each number once");
}

#[test]
fn the_library_stores_every_date_as_the_calendar_does() {
    let dates = walk();
    for version in Version::BOTH {
        let stored: Vec<Day> = dates
            .chunks(MOST_SLOTS)
            .flat_map(|dates| days_stored(&Library, version, dates))
            .collect();
        assert_eq!(stored.len(), DAYS);
        let wrong = stored.iter().zip(0..).position(|(day, at)| day.0 != at);
        let wrong = wrong.map(|at| (String::from_utf8_lossy(&dates[at]), stored[at]));
        assert_eq!(wrong, None, "{version:?}");
    }
}

#[test]
fn the_library_takes_nothing_else_for_a_date() {
    let calendar = calendar();
    let (mut dates, mut others) = (0, 0);
    for date in grid() {
        let expected = calendar.get(&date).copied();
        let read = day_read(&Library, &date);
        assert_eq!(read, Ok(expected), "{}", String::from_utf8_lossy(&date));
        match expected {
            Some(_) => dates += 1,
            None => others += 1,
        }
    }
    assert_eq!((dates, others), (DAYS, 14 * 33 * 100 - DAYS));
}

/// A text with this completion date.
fn completed(date: &str) -> String {
    format!("DAT|FOCD|CPN5035550100|CPD{date}|CPFA\n")
}

/// Every CPD of 1970 to 2069 is read as its MMDDYY and written back, and no other
/// year has a form in Version 2.
fn words_every_date(subject: &impl Subject) {
    let (mut whole, mut out) = ([0; RECORD], [0; 90]);
    for (year, month, of_month) in days() {
        let text = completed(&format!("{year}-{month:02}-{of_month:02}"));
        let read = subject.read_tagged(text.as_bytes(), &mut whole);
        assert_eq!(read.refusal, 0, "{text}");
        assert_eq!(record::DATE.of(&whole), mmddyy(month, of_month, year));
        let written = subject.write_tagged(&whole, &mut out);
        assert_eq!(&out[..written.bytes as usize], text.as_bytes());
    }
    for year in 0..=9999 {
        let text = completed(&format!("{year:04}-06-15"));
        let refusal = subject.read_tagged(text.as_bytes(), &mut whole).refusal;
        let expected = if (1970..2070).contains(&year) { 0 } else { 36 };
        assert_eq!(refusal, expected, "{text}");
    }
}

#[test]
fn the_model_words_every_date() {
    words_every_date(&Model::<Described>::new());
}

#[test]
fn the_library_words_every_date() {
    words_every_date(&Library);
}
