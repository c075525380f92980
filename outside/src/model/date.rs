//! Dates and the counters that are kept apart.

use super::rules::Rules;

/// A day number; "day 0 is 010170".
#[derive(Clone, Copy, Debug, PartialEq, Eq, PartialOrd, Ord)]
pub struct Day(pub u32);

/// How the two digits of a year are read, and from which day on days count.
#[derive(Clone, Copy, Debug, PartialEq, Eq)]
pub enum Reading {
    /// "YY 70 to 99 means 19YY and 00 to 69 means 20YY, and day 0 is 010170."
    Present,
    /// As it was before, and as old registers are written: "year 20YY. The day
    /// number counts from 010100 as 0."
    Former,
}

impl Reading {
    /// The year that begins with day 0.
    const fn first_year(self) -> u32 {
        match self {
            Reading::Present => 1970,
            Reading::Former => 2000,
        }
    }
}

/// A file's cycle number.
#[derive(Clone, Copy, Debug, PartialEq, Eq)]
pub struct Cycle(pub u32);

/// A trailer's record count.
#[derive(Clone, Copy, Debug, PartialEq, Eq)]
pub struct Count(pub u32);

/// 123169; by the former reading 123199. Both are of a hundred years.
pub const LAST_DAY: Day = Day(36524);
/// The highest cycle.
pub const LAST_CYCLE: u32 = 999_999;

/// "The lengths of the twelve months stand in a constant table."
const MONTHS: [u32; 12] = [31, 28, 31, 30, 31, 30, 31, 31, 30, 31, 30, 31];
const FEBRUARY: u32 = 2;

/// Days of a common year before each month.
const BEFORE: [u32; 12] = {
    let mut before = [0; 12];
    let mut month = 1;
    while month < 12 {
        before[month] = before[month - 1] + MONTHS[month - 1];
        month += 1;
    }
    before
};

/// The day number of MMDDYY, "real calendar days".
#[inline]
pub fn day<R: Rules>(date: &[u8]) -> Option<Day> {
    let &[m1, m2, d1, d2, y1, y2] = date else {
        return None;
    };
    let month = two_digits(m1, m2)?;
    let of_month = two_digits(d1, d2)?;
    let year = full_year::<R>(two_digits(y1, y2)?);
    let index = month.checked_sub(1)? as usize;
    let leap = R::LEAP_YEARS && is_leap(year);
    let length = MONTHS.get(index)? + u32::from(leap && month == FEBRUARY);
    if of_month == 0 || of_month > length {
        return None;
    }
    let first = R::READING.first_year();
    let leap_days = if R::LEAP_YEARS {
        leap_years_before(year) - leap_years_before(first) + u32::from(leap && month > FEBRUARY)
    } else {
        0
    };
    let before_month = (year - first) * 365 + leap_days + BEFORE[index];
    Some(Day(before_month + of_month - 1))
}

/// The year that two digits mean.
#[inline]
fn full_year<R: Rules>(two: u32) -> u32 {
    match R::READING {
        Reading::Present if two >= R::FIRST_OF_19 => 1900 + two,
        _ => 2000 + two,
    }
}

/// Every fourth year of 1970 to 2099 is a leap year, 2000 too.
const fn is_leap(year: u32) -> bool {
    year.is_multiple_of(4)
}

/// How many years before this one are a multiple of four; only the difference of
/// two such numbers means anything.
const fn leap_years_before(year: u32) -> u32 {
    year.div_ceil(4)
}

#[inline]
fn two_digits(tens: u8, ones: u8) -> Option<u32> {
    let (tens, ones) = (tens.wrapping_sub(b'0'), ones.wrapping_sub(b'0'));
    (tens < 10 && ones < 10).then_some(u32::from(tens) * 10 + u32::from(ones))
}

/// MMDDYY of a day number up to 36524, by this reading.
pub fn date_of(reading: Reading, day: Day) -> [u8; 6] {
    let mut rest = day.0;
    let mut year = reading.first_year();
    loop {
        let length = 365 + u32::from(is_leap(year));
        if rest < length {
            break;
        }
        rest -= length;
        year += 1;
    }
    let mut month = 0;
    loop {
        let leap = is_leap(year) && month + 1 == FEBRUARY as usize;
        let length = MONTHS[month] + u32::from(leap);
        if rest < length {
            break;
        }
        rest -= length;
        month += 1;
    }
    let mut date = [b'0'; 6];
    let numbers = [month as u32 + 1, rest + 1, year % 100];
    for (at, value) in numbers.into_iter().enumerate() {
        date[2 * at] += (value / 10) as u8;
        date[2 * at + 1] += (value % 10) as u8;
    }
    date
}

/// "Cycle isn't the next: last + 1, after 999999 is 1; last is 0 if none yet;
/// last above 999999."
pub fn follows<R: Rules>(cycle: Cycle, last: u32) -> bool {
    if last > LAST_CYCLE {
        false
    } else if last == LAST_CYCLE && R::CYCLE_WRAPS {
        cycle == Cycle(1)
    } else {
        cycle == Cycle(last + 1)
    }
}
