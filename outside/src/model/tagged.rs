//! The tagged record of Version 3.1 (Exhibit 10): "`DAT`, then for each field `|`,
//! label and value (written without trailing spaces), then one newline byte".

use super::form::{blank, record_fault};
use super::layout::{record, Field, RECORD};
use super::results::Tagged;
use super::rules::Rules;
use super::versions::Version;
use Wording::{CalendarDate, Plain, Postal, TenDigits};

/// What every text begins with.
const DAT: &[u8; 3] = b"DAT";
/// Before each label.
const BAR: u8 = b'|';
/// What every text ends with.
const NEWLINE: u8 = b'\n';
/// Bytes of a label.
const LABEL: usize = 3;
/// Bytes of CCYY-MM-DD.
const CALENDAR_DATE: usize = 10;
/// Enough for any text: every label, and every value of its greatest length.
const LONGEST: usize = 452;

/// How a value stands for the bytes of a Version 2 record.
#[derive(Clone, Copy, Debug, PartialEq, Eq)]
pub enum Wording {
    /// As they are, without trailing spaces.
    Plain,
    /// "CPN and MTN as ten digits."
    TenDigits,
    /// CCYY-MM-DD for MMDDYY.
    CalendarDate,
    /// NNNNN or NNNNN-NNNN for Zip with Zip+4.
    Postal,
}

/// A label and what it stands for.
#[derive(Debug)]
pub struct Tag {
    /// Its three capitals or digits.
    pub label: [u8; LABEL],
    /// The Version 2 field.
    pub field: Field,
    /// The last one, where two fields next to each other have one label.
    pub to: Field,
    /// How its value is worded.
    pub wording: Wording,
}

impl Tag {
    const fn plain(label: &[u8; LABEL], field: Field) -> Self {
        Tag::new(label, field, field, Plain)
    }

    const fn new(label: &[u8; LABEL], field: Field, to: Field, wording: Wording) -> Self {
        Tag {
            label: *label,
            field,
            to,
            wording,
        }
    }

    /// The bytes of its field or fields in a whole record.
    pub fn of<'a>(&self, whole: &'a [u8]) -> &'a [u8] {
        &whole[self.field.first - 1..self.to.last]
    }

    /// The same, to be written.
    pub fn of_mut<'a>(&self, whole: &'a mut [u8]) -> &'a mut [u8] {
        &mut whole[self.field.first - 1..self.to.last]
    }
}

/// How many labels are taken.
pub const LABELS: usize = 28;

/// "The labels whose field 01 has", "in the exhibit's order".
pub static TAGS: [Tag; LABELS] = [
    Tag::plain(b"FOC", record::FUNCTION),
    Tag::new(b"CPN", record::NPA, record::CALLING_NUMBER, TenDigits),
    Tag::plain(b"HNO", record::HOUSE),
    Tag::plain(b"HNS", record::HOUSE_SUFFIX),
    Tag::plain(b"PRD", record::PREFIX),
    Tag::plain(b"STN", record::STREET),
    Tag::plain(b"STS", record::SUFFIX),
    Tag::plain(b"POD", record::POST),
    Tag::plain(b"MCN", record::COMMUNITY),
    Tag::plain(b"STA", record::STATE),
    Tag::plain(b"LOC", record::LOCATION),
    Tag::plain(b"NAM", record::CUSTOMER_NAME),
    Tag::plain(b"CLS", record::CLASS),
    Tag::plain(b"TYS", record::TYPE),
    Tag::plain(b"EXC", record::EXCHANGE),
    Tag::plain(b"ESN", record::ESN),
    Tag::new(b"MTN", record::MAIN_NPA, record::MAIN_NUMBER, TenDigits),
    Tag::plain(b"ORD", record::ORDER),
    Tag::new(b"CPD", record::DATE, record::DATE, CalendarDate),
    Tag::plain(b"COI", record::COUNTY),
    Tag::plain(b"CPF", record::COMPANY_ID),
    Tag::new(b"ZIP", record::ZIP, record::ZIP4, Postal),
    Tag::plain(b"CUS", record::CUSTOMER_CODE),
    Tag::plain(b"CMT", record::COMMENTS),
    Tag::plain(b"TAR", record::TAR),
    Tag::plain(b"GU1", record::GENERAL_USE),
    Tag::plain(b"CEL", record::CELL),
    Tag::plain(b"SEC", record::SECTOR),
];

/// "A field without a label (`*` apart)."
pub const UNLABELLED: [Field; 5] = [
    record::SOURCE,
    record::X,
    record::Y,
    record::Z,
    record::RESERVED,
];

fn refused(refusal: u32) -> Tagged {
    Tagged {
        refusal,
        ..Tagged::default()
    }
}

/// Where a record breaks a field rule: 9.
fn faulty(position: usize) -> Tagged {
    Tagged {
        position: position as u32,
        ..refused(9)
    }
}

/// Reads a text into a record of Version 2.
pub fn read_tagged<R: Rules>(text: &[u8], out: &mut [u8]) -> Tagged {
    let whole = match record_in::<R>(text) {
        Ok(whole) => whole,
        Err(refusal) => return refused(refusal),
    };
    if let Some(position) = record_fault::<R>(Version::Two, &whole) {
        return faulty(position);
    }
    let Some(out) = out.get_mut(..RECORD) else {
        return refused(25);
    };
    out.copy_from_slice(&whole);
    Tagged {
        bytes: RECORD as u32,
        ..Tagged::default()
    }
}

/// The record in a text, or what refuses it by its text alone: "33 no `DAT` or
/// newline; 34 label not taken or cut short; 35 label twice; 36 value too long or
/// with no Version 2 form". 34 goes before what stands before it in the text, so
/// 35 and 36 wait for the end.
fn record_in<R: Rules>(text: &[u8]) -> Result<[u8; RECORD], u32> {
    let mut whole = [b' '; RECORD];
    record::STAR.of_mut(&mut whole)[0] = b'*';
    let (mut seen, mut twice, mut unfit) = ([false; LABELS], false, false);
    for pair in pairs(text).ok_or(33_u32)? {
        let (label, value) = pair.split_first_chunk().ok_or(34_u32)?;
        let known = TAGS.iter().position(|tag| tag.label == *label);
        let at = known.ok_or(34_u32)?;
        twice |= seen[at];
        seen[at] = true;
        unfit |= !put_value::<R>(&TAGS[at], value, &mut whole);
    }
    match (twice, unfit) {
        (true, true) if !R::TWICE_FIRST => Err(36),
        (true, _) => Err(35),
        (_, true) => Err(36),
        _ => Ok(whole),
    }
}

/// What stands behind each `|`, if the text is `DAT`, such pairs and a newline.
fn pairs(text: &[u8]) -> Option<impl Iterator<Item = &[u8]>> {
    let mut parts = text.strip_suffix(&[NEWLINE])?.split(|&byte| byte == BAR);
    (parts.next()? == DAT).then_some(parts)
}

/// Puts a value into its field; false if it is too long or has no Version 2 form.
fn put_value<R: Rules>(tag: &Tag, value: &[u8], whole: &mut [u8]) -> bool {
    let field = tag.of_mut(whole);
    match tag.wording {
        Plain => put_plain::<R>(value, field),
        TenDigits => put_digits(value, field),
        CalendarDate => put_date::<R>(value, field),
        Postal => put_postal(value, field),
    }
}

/// Trailing spaces count for a value's length.
fn put_plain<R: Rules>(value: &[u8], field: &mut [u8]) -> bool {
    let value = if R::TRAILING_SPACES_COUNT {
        value
    } else {
        trimmed(value)
    };
    match field.get_mut(..value.len()) {
        Some(left) => {
            left.copy_from_slice(value);
            true
        }
        None => false,
    }
}

fn all_digits(bytes: &[u8]) -> bool {
    bytes.iter().all(u8::is_ascii_digit)
}

/// As many digits as the field has bytes.
fn put_digits(value: &[u8], field: &mut [u8]) -> bool {
    let good = value.len() == field.len() && all_digits(value);
    if good {
        field.copy_from_slice(value);
    }
    good
}

/// "CPD as Date, MMDDYY, only where the year is 1970 to 2069." Whether there is
/// such a day is a rule of Version 2.
fn put_date<R: Rules>(value: &[u8], field: &mut [u8]) -> bool {
    let &[c1, c2, y1, y2, b'-', m1, m2, b'-', d1, d2] = value else {
        return false;
    };
    let good = all_digits(&[c1, c2, y1, y2, m1, m2, d1, d2]) && [c1, c2] == century::<R>(y1, y2);
    if good {
        field.copy_from_slice(&[m1, m2, d1, d2, y1, y2]);
    }
    good
}

/// The first two digits of the one year of 1970 to 2069 that ends in these two.
fn century<R: Rules>(tens: u8, ones: u8) -> [u8; 2] {
    let two = u32::from(tens - b'0') * 10 + u32::from(ones - b'0');
    if 1900 + two >= R::FIRST_CPD_YEAR {
        *b"19"
    } else {
        *b"20"
    }
}

fn put_postal(value: &[u8], field: &mut [u8]) -> bool {
    let (zip, zip4) = field.split_at_mut(record::ZIP.length());
    match value.split_at_checked(zip.len()) {
        Some((five, rest)) if all_digits(five) => {
            zip.copy_from_slice(five);
            match rest {
                [] => true,
                [b'-', four @ ..] => put_digits(four, zip4),
                _ => false,
            }
        }
        _ => false,
    }
}

/// Writes the tagged form of a record of Version 2: "We write labels in the
/// exhibit's order and omit blank fields." Refused: 9, then 37, then 25.
pub fn write_tagged<R: Rules>(whole: &[u8], out: &mut [u8]) -> Tagged {
    if whole.len() != RECORD {
        return refused(9);
    }
    if let Some(position) = record_fault::<R>(Version::Two, whole) {
        return faulty(position);
    }
    if !has_tagged_form(whole) {
        return refused(37);
    }
    let text = Text::of::<R>(whole);
    let text = &text.bytes[..text.length];
    let Some(out) = out.get_mut(..text.len()) else {
        return refused(25);
    };
    out.copy_from_slice(text);
    Tagged {
        bytes: text.len() as u32,
        ..Tagged::default()
    }
}

/// 37 "if a value contains `|`, a field without a label (`*` apart) isn't blank,
/// Zip with Zip+4 isn't blank, five digits or five and four, or the main number
/// isn't blank or ten digits".
fn has_tagged_form(whole: &[u8]) -> bool {
    let digits_or_blank = |bytes: &[u8]| blank(bytes) || all_digits(bytes);
    let (zip, zip4) = (record::ZIP.of(whole), record::ZIP4.of(whole));
    let main = &whole[record::MAIN_NPA.first - 1..record::MAIN_NUMBER.last];
    !whole.contains(&BAR)
        && UNLABELLED.iter().all(|field| blank(field.of(whole)))
        && (all_digits(zip) && digits_or_blank(zip4) || blank(zip) && blank(zip4))
        && digits_or_blank(main)
}

/// A text on its way.
struct Text {
    bytes: [u8; LONGEST],
    length: usize,
}

impl Text {
    fn of<R: Rules>(whole: &[u8]) -> Self {
        let mut text = Text {
            bytes: [0; LONGEST],
            length: 0,
        };
        text.push(DAT);
        for tag in &TAGS {
            let field = tag.of(whole);
            if !blank(field) {
                text.push(&[BAR]);
                text.push(&tag.label);
                text.push_value::<R>(tag.wording, field);
            }
        }
        text.push(&[NEWLINE]);
        text
    }

    fn push(&mut self, bytes: &[u8]) {
        let end = self.length + bytes.len();
        self.bytes[self.length..end].copy_from_slice(bytes);
        self.length = end;
    }

    fn push_value<R: Rules>(&mut self, wording: Wording, field: &[u8]) {
        match wording {
            Plain => self.push(trimmed(field)),
            TenDigits => self.push(field),
            CalendarDate => self.push(&calendar_date::<R>(field)),
            Postal => {
                let (zip, zip4) = field.split_at(record::ZIP.length());
                self.push(zip);
                if !blank(zip4) {
                    self.push(b"-");
                    self.push(zip4);
                }
            }
        }
    }
}

/// CCYY-MM-DD of MMDDYY.
fn calendar_date<R: Rules>(date: &[u8]) -> [u8; CALENDAR_DATE] {
    let [c1, c2] = century::<R>(date[4], date[5]);
    [
        c1, c2, date[4], date[5], b'-', date[0], date[1], b'-', date[2], date[3],
    ]
}

/// Without the spaces at its end.
fn trimmed(bytes: &[u8]) -> &[u8] {
    let last = bytes.iter().rposition(|&byte| byte != b' ');
    &bytes[..last.map_or(0, |last| last + 1)]
}
