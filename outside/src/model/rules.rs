//! The rules that a fault can be put into by hand, and the reading of dates.
//!
//! They are associated constants, so the described rules cost nothing.

use super::date::Reading;
use std::marker::PhantomData;

/// What the description decides at the fifteen places, and how dates are read.
pub trait Rules {
    /// Days after which another number may have a resting slot.
    const RESTING_DAYS: u32 = 90;
    /// Whether two rows clash only on a house number that both parities allow.
    const CLASH_BY_PARITY: bool = true;
    /// "A field is left-justified: if not blank, its first byte is no space."
    const LEFT_JUSTIFIED: bool = true;
    /// Whether every fourth year has 29 February.
    const LEAP_YEARS: bool = true;
    /// "After 999999 is 1."
    const CYCLE_WRAPS: bool = true;
    /// "YY 70 to 99 means 19YY."
    const FIRST_OF_19: u32 = 70;
    /// Whether the conversion is of "each used slot", the resting ones too.
    const RESTING_CONVERTED: bool = true;
    /// Of a tagged text: "35 label twice; 36 value too long".
    const TWICE_FIRST: bool = true;
    /// Whether the spaces at a value's end count for "value too long".
    const TRAILING_SPACES_COUNT: bool = true;
    /// "CPD as Date, MMDDYY, only where the year is 1970 to 2069."
    const FIRST_CPD_YEAR: u32 = 1970;
    /// Whether a good check leaves the last cycle as given.
    const CHECK_KEEPS_LAST: bool = true;
    /// Whether a check is refused by 4 too.
    const CHECK_MEASURES_ANSWERS: bool = true;
    /// Of a Version 1 record widened: "the 13 Reserved bytes first".
    const RESERVED_FIRST: bool = true;
    /// Of a load file: 27 "after 26 and before 25".
    const WIDE_FIRST: bool = true;
    /// 27 "with the lowest such entry's slot".
    const WIDE_SLOT_TOLD: bool = true;
    /// How dates are read.
    const READING: Reading = Reading::Present;
}

/// The rules as described.
pub struct Described;
impl Rules for Described {}

/// These rules, but dates are read as they were before: "the old reading".
pub struct Former<R>(PhantomData<R>);
impl<R: Rules> Rules for Former<R> {
    const RESTING_DAYS: u32 = R::RESTING_DAYS;
    const CLASH_BY_PARITY: bool = R::CLASH_BY_PARITY;
    const LEFT_JUSTIFIED: bool = R::LEFT_JUSTIFIED;
    const LEAP_YEARS: bool = R::LEAP_YEARS;
    const CYCLE_WRAPS: bool = R::CYCLE_WRAPS;
    const FIRST_OF_19: u32 = R::FIRST_OF_19;
    const RESTING_CONVERTED: bool = R::RESTING_CONVERTED;
    const TWICE_FIRST: bool = R::TWICE_FIRST;
    const TRAILING_SPACES_COUNT: bool = R::TRAILING_SPACES_COUNT;
    const FIRST_CPD_YEAR: u32 = R::FIRST_CPD_YEAR;
    const CHECK_KEEPS_LAST: bool = R::CHECK_KEEPS_LAST;
    const CHECK_MEASURES_ANSWERS: bool = R::CHECK_MEASURES_ANSWERS;
    const RESERVED_FIRST: bool = R::RESERVED_FIRST;
    const WIDE_FIRST: bool = R::WIDE_FIRST;
    const WIDE_SLOT_TOLD: bool = R::WIDE_SLOT_TOLD;
    const READING: Reading = Reading::Former;
}

/// Fault: a resting slot waits a day longer.
pub struct NinetyOneDays;
impl Rules for NinetyOneDays {
    const RESTING_DAYS: u32 = 91;
}

/// Fault: rows clash by their ends alone.
pub struct ClashWithoutParity;
impl Rules for ClashWithoutParity {
    const CLASH_BY_PARITY: bool = false;
}

/// Fault: a text field may begin with spaces.
pub struct NoLeftJustify;
impl Rules for NoLeftJustify {
    const LEFT_JUSTIFIED: bool = false;
}

/// Fault: February always has 28 days.
pub struct NoLeapYear;
impl Rules for NoLeapYear {
    const LEAP_YEARS: bool = false;
}

/// Fault: 1000000 follows 999999, so no file does.
pub struct NoCycleWrap;
impl Rules for NoCycleWrap {
    const CYCLE_WRAPS: bool = false;
}

/// Fault: 70 means 2070.
pub struct PivotOneOff;
impl Rules for PivotOneOff {
    const FIRST_OF_19: u32 = 71;
}

/// Fault: the conversion sees held and open slots alone.
pub struct RestingForgotten;
impl Rules for RestingForgotten {
    const RESTING_CONVERTED: bool = false;
}

/// Fault: a value that is too long is told before a label that stands twice.
pub struct UnfitFirst;
impl Rules for UnfitFirst {
    const TWICE_FIRST: bool = false;
}

/// Fault: a value loses its trailing spaces before its length is tested.
pub struct TrimmedFirst;
impl Rules for TrimmedFirst {
    const TRAILING_SPACES_COUNT: bool = false;
}

/// Fault: a CPD is of 1960 to 2059, read and written alike.
pub struct CpdFrom1960;
impl Rules for CpdFrom1960 {
    const FIRST_CPD_YEAR: u32 = 1960;
}

/// Fault: a check returns the header's cycle, as if the file had been applied.
pub struct CycleFromCheck;
impl Rules for CycleFromCheck {
    const CHECK_KEEPS_LAST: bool = false;
}

/// Fault: a check passes a file whose answers have no room.
pub struct AnswersUnmeasured;
impl Rules for AnswersUnmeasured {
    const CHECK_MEASURES_ANSWERS: bool = false;
}

/// Fault: a record is widened with its Reserved bytes last.
pub struct ReservedLast;
impl Rules for ReservedLast {
    const RESERVED_FIRST: bool = false;
}

/// Fault: a load file's room is told before an entry without a Version 1 form.
pub struct RoomFirst;
impl Rules for RoomFirst {
    const WIDE_FIRST: bool = false;
}

/// Fault: no slot is told with 27.
pub struct WideSlotUntold;
impl Rules for WideSlotUntold {
    const WIDE_SLOT_TOLD: bool = false;
}
