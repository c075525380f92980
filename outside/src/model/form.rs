//! Field rules: the first fault of a record, row, header or trailer.

use super::date::{day, Count, Cycle};
use super::layout::{
    header, narrow, record, row, trailer, Blank, Field, Form, Test, EDGE, NARROW_EDGE,
    NARROW_RECORD, RECORD, ROW,
};
use super::rules::Rules;
use super::versions::Version;
use std::marker::PhantomData;

/// As many spaces as the longest field has bytes.
const SPACES: [u8; 156] = [b' '; 156];

/// "Every byte is 20 to 7E hex." Written without a branch, so that it runs over
/// many bytes at a time.
#[inline]
pub fn printable(bytes: &[u8]) -> bool {
    bytes.iter().fold(true, |good, byte| {
        good & (byte.wrapping_sub(b' ') <= b'~' - b' ')
    })
}

/// Whether every byte is a space.
#[inline]
pub fn blank(bytes: &[u8]) -> bool {
    bytes == &SPACES[..bytes.len()]
}

/// The number in a field of digits then spaces, without a look at the spaces.
#[inline]
pub fn number(field: &[u8]) -> u32 {
    field
        .iter()
        .take_while(|byte| byte.is_ascii_digit())
        .fold(0, |value, byte| value * 10 + u32::from(byte - b'0'))
}

/// The field's number if it has one to `most` digits and then only spaces.
#[inline]
fn digits(field: &[u8], most: usize) -> Option<u32> {
    let length = field
        .iter()
        .position(|byte| !byte.is_ascii_digit())
        .unwrap_or(field.len());
    (1..=most)
        .contains(&length)
        .then(|| blank(&field[length..]))?
        .then(|| number(field))
}

/// "Right-justified, leading spaces, no leading zero, zero is one `0`."
fn count(field: &[u8]) -> Option<Count> {
    let spaces = field.iter().take_while(|&&byte| byte == b' ').count();
    let figures = &field[spaces..];
    let plain = match figures {
        [] => false,
        [b'0', rest @ ..] => rest.is_empty(),
        _ => figures.iter().all(u8::is_ascii_digit),
    };
    plain.then(|| Count(number(figures)))
}

/// "Company ID not blank, capitals and digits": then only spaces.
fn company_id(field: &[u8]) -> bool {
    let length = field
        .iter()
        .position(|byte| !(byte.is_ascii_uppercase() || byte.is_ascii_digit()))
        .unwrap_or(field.len());
    length > 0 && blank(&field[length..])
}

/// "Directionals are blank or N S E W NE NW SE SW."
fn directional(field: &[u8]) -> bool {
    matches!(
        field,
        b"N " | b"S " | b"E " | b"W " | b"NE" | b"NW" | b"SE" | b"SW"
    )
}

/// Whether printable bytes keep a field's rule; `lax` in a record of D or U.
#[inline(always)]
fn keeps<R: Rules>(field: Field, bytes: &[u8], lax: bool) -> bool {
    if matches!(field.form, Form::Free) {
        return true;
    }
    // No other form begins with a space, but for a count and a blank field.
    if bytes[0] == b' ' && !matches!(field.form, Form::Count) {
        let may = match field.blank {
            Blank::May => true,
            Blank::OnlyInDAndU => lax,
            Blank::Never => false,
        };
        return if blank(bytes) {
            may
        } else {
            matches!(field.form, Form::Text) && !R::LEFT_JUSTIFIED
        };
    }
    match field.form {
        Form::Free | Form::Text => true,
        Form::Mark(mark) => bytes == mark,
        Form::OneOf(letters) => letters.contains(&bytes[0]),
        Form::DigitTo(most) => (b'0'..=most).contains(&bytes[0]),
        Form::AllDigits => bytes.iter().all(u8::is_ascii_digit),
        Form::Digits(most) => digits(bytes, most).is_some(),
        Form::Directional => directional(bytes),
        Form::Capitals => bytes.iter().all(u8::is_ascii_uppercase),
        Form::CompanyId => company_id(bytes),
        Form::Date => day::<R>(bytes).is_some(),
        Form::Count => count(bytes).is_some(),
    }
}

/// Field rules put to a whole record, row, header or trailer.
struct FieldRules<'a, R, const N: usize> {
    whole: &'a [u8; N],
    /// No byte is bad: one look over all of them spares one into each field.
    clean: bool,
    /// In a record of D or U.
    lax: bool,
    rules: PhantomData<R>,
}

impl<'a, R: Rules, const N: usize> FieldRules<'a, R, N> {
    #[inline(always)]
    fn new(whole: &'a [u8], lax: bool) -> Self {
        FieldRules {
            whole: whole.try_into().expect("a whole of its length"),
            clean: printable(whole),
            lax,
            rules: PhantomData,
        }
    }
}

impl<R: Rules, const N: usize> Test for FieldRules<'_, R, N> {
    #[inline(always)]
    fn passes(&self, field: Field) -> bool {
        let bytes = field.of(self.whole);
        (self.clean || printable(bytes)) && keeps::<R>(field, bytes, self.lax)
    }
}

/// A row's fields have two more rules: "Low at most High (fault at 79); for `O`
/// both ends are odd, for `E` both even (fault at 123)".
struct RowRules<'a, R>(FieldRules<'a, R, ROW>);

impl<R: Rules> Test for RowRules<'_, R> {
    #[inline(always)]
    fn passes(&self, field: Field) -> bool {
        const HIGH: usize = row::HIGH.first;
        const PARITY: usize = row::PARITY.first;
        let end = |field: Field| number(field.of(self.0.whole));
        self.0.passes(field)
            && match field.first {
                HIGH => end(row::LOW) <= end(row::HIGH),
                PARITY => {
                    let parity = row::PARITY.of(self.0.whole)[0];
                    parity_allows(parity, end(row::LOW)) && parity_allows(parity, end(row::HIGH))
                }
                _ => true,
            }
    }
}

/// Where a data record breaks a field rule, "positions being Version 1's" in one
/// of Version 1.
#[inline]
pub fn record_fault<R: Rules>(version: Version, whole: &[u8]) -> Option<usize> {
    let lax = matches!(whole[0], b'D' | b'U');
    match version {
        Version::One => {
            narrow::record::first_fault(&FieldRules::<R, NARROW_RECORD>::new(whole, lax))
        }
        Version::Two => record::first_fault(&FieldRules::<R, RECORD>::new(whole, lax)),
    }
}

/// Where a guide row breaks a field rule.
pub fn row_fault<R: Rules>(whole: &[u8]) -> Option<usize> {
    row::first_fault(&RowRules(FieldRules::<R, ROW>::new(whole, false)))
}

/// Whether a row of this parity covers this house number.
#[inline]
pub fn parity_allows(parity: u8, house: u32) -> bool {
    match parity {
        b'O' => house % 2 == 1,
        b'E' => house.is_multiple_of(2),
        _ => true,
    }
}

/// The cycle of a header of good form: "value 1 to 999999".
pub fn header_cycle<R: Rules>(version: Version, whole: &[u8]) -> Option<Cycle> {
    let fault = match version {
        Version::One => {
            narrow::header::first_fault(&FieldRules::<R, NARROW_EDGE>::new(whole, false))
        }
        Version::Two => header::first_fault(&FieldRules::<R, EDGE>::new(whole, false)),
    };
    let cycle = number(header::CYCLE.of(whole));
    (fault.is_none() && cycle > 0).then_some(Cycle(cycle))
}

/// The record count of a trailer of good form.
pub fn trailer_count<R: Rules>(version: Version, whole: &[u8]) -> Option<Count> {
    let fault = match version {
        Version::One => {
            narrow::trailer::first_fault(&FieldRules::<R, NARROW_EDGE>::new(whole, false))
        }
        Version::Two => trailer::first_fault(&FieldRules::<R, EDGE>::new(whole, false)),
    };
    match fault {
        None => count(trailer::COUNT.of(whole)),
        Some(_) => None,
    }
}
