//! The cases of the request on tagged texts, read and written, and the exhibit's
//! example.

use super::form::record_fault;
use super::layout::{record, Field, RECORD};
use super::rules::Described;
use super::tagged::{Tag, LABELS, TAGS, UNLABELLED};
use super::{read_tagged, write_tagged, Tagged, Version};
use crate::gen::put;

/// The text that most cases change.
const GOOD: &str = "DAT|FOCI|CPN5035550100|HNO100|STNMAIN|STSST|MCNSALEM|STAOR|CLS1|TYS0|\
                    CPD2000-01-01|CPFABC\n";

/// Every label.
const FULL: &str = "DAT|FOCI|CPN5035550100|HNO12345678|HNS1/2|PRDNW|STNMAIN|STSST|PODSE|MCNSALEM|\
                    STAOR|LOCAPT 718|NAMDOE, JOHN|CLS1|TYS0|EXCSALM|ESN083|MTN5035550199|ORDA1|\
                    CPD1999-12-31|COI047|CPFABC|ZIP97301-1234|CUSABC|CMTgate 4|TART1|GU1  x|CEL77|\
                    SEC2\n";

/// The exhibit's example, its values filled in, and no `|` before the newline.
const EXAMPLE: &str = "DAT|FOCI|CPN5035550100|HNO120|PRDN|STNMAIN|STSST|MCNSALEM|STAOR|LOCAPT 718|\
                       NAMDOE, JOHN|CLS1|TYS0|MTN5035550199|CPD2026-11-15|CPFALPHA\n";

/// The record of `GOOD`.
const GOOD_FIELDS: [(Field, &str); 13] = [
    (record::FUNCTION, "I"),
    (record::NPA, "503"),
    (record::CALLING_NUMBER, "5550100"),
    (record::HOUSE, "100"),
    (record::STREET, "MAIN"),
    (record::SUFFIX, "ST"),
    (record::COMMUNITY, "SALEM"),
    (record::STATE, "OR"),
    (record::CLASS, "1"),
    (record::TYPE, "0"),
    (record::DATE, "010100"),
    (record::COMPANY_ID, "ABC"),
    (record::STAR, "*"),
];

/// What `FULL` has beside it, or otherwise.
const FULL_FIELDS: [(Field, &str); 21] = [
    (record::HOUSE, "12345678"),
    (record::HOUSE_SUFFIX, "1/2"),
    (record::PREFIX, "NW"),
    (record::POST, "SE"),
    (record::LOCATION, "APT 718"),
    (record::CUSTOMER_NAME, "DOE, JOHN"),
    (record::EXCHANGE, "SALM"),
    (record::ESN, "083"),
    (record::MAIN_NPA, "503"),
    (record::MAIN_NUMBER, "5550199"),
    (record::ORDER, "A1"),
    (record::DATE, "123199"),
    (record::COUNTY, "047"),
    (record::ZIP, "97301"),
    (record::ZIP4, "1234"),
    (record::CUSTOMER_CODE, "ABC"),
    (record::COMMENTS, "gate 4"),
    (record::TAR, "T1"),
    (record::GENERAL_USE, "  x"),
    (record::CELL, "77"),
    (record::SECTOR, "2"),
];

/// The record of `GOOD`, with other fields.
fn a_record(changes: &[(Field, &str)]) -> [u8; RECORD] {
    let mut whole = [b' '; RECORD];
    for (field, text) in GOOD_FIELDS.iter().chain(changes) {
        put(&mut whole, *field, text.as_bytes());
    }
    whole
}

/// `GOOD` with `old` replaced.
fn but(old: &str, new: &str) -> String {
    assert!(GOOD.contains(old));
    GOOD.replace(old, new)
}

/// `GOOD` with more before its newline.
fn and(more: &str) -> String {
    but("\n", &format!("{more}\n"))
}

/// The text is read as this record, and a byte behind it stays.
fn is_read(text: &str, expected: [u8; RECORD]) {
    let mut out = [0xee; RECORD + 1];
    let read = read_tagged::<Described>(text.as_bytes(), &mut out);
    let bytes = RECORD as u32;
    assert_eq!((read.refusal, read.position, read.bytes), (0, 0, bytes));
    assert_eq!(out[..RECORD], expected, "{text}");
    assert_eq!(out[RECORD], 0xee);
}

/// The reading into so much room is refused, and writes nothing.
fn is_refused_into(room: usize, text: &[u8], refusal: u32, position: u32) {
    let mut out = vec![0xee; room];
    let read = read_tagged::<Described>(text, &mut out);
    let expected = Tagged {
        refusal,
        position,
        bytes: 0,
    };
    assert_eq!(read, expected, "{}", String::from_utf8_lossy(text));
    assert_eq!(out, vec![0xee; room]);
}

fn all_refused(texts: &[&str], refusal: u32) {
    for text in texts {
        is_refused_into(RECORD, text.as_bytes(), refusal, 0);
    }
}

/// The record is written as this text, and a byte behind it stays; and it is read
/// back.
fn is_written(whole: [u8; RECORD], text: &str) {
    let mut out = vec![0xee; text.len() + 1];
    let written = write_tagged::<Described>(&whole, &mut out);
    let bytes = text.len() as u32;
    assert_eq!(
        (written.refusal, written.position, written.bytes),
        (0, 0, bytes)
    );
    assert_eq!(out, [text.as_bytes(), &[0xee]].concat());
    is_read(text, whole);
}

/// The writing is refused, and writes nothing.
fn is_not_written(rec: &[u8], room: usize, refusal: u32, position: u32) {
    let mut out = vec![0xee; room];
    let written = write_tagged::<Described>(rec, &mut out);
    let expected = Tagged {
        refusal,
        position,
        bytes: 0,
    };
    assert_eq!((written, out), (expected, vec![0xee; room]));
}

fn has_no_tagged_form(changes: &[(Field, &str)]) {
    is_not_written(&a_record(changes), 452, 37, 0);
}

#[test]
fn the_28_labels_and_what_has_none_tile_the_record() {
    let ends = |tag: &Tag| (tag.field.first, tag.to.last);
    let others = UNLABELLED.iter().chain([&record::STAR]);
    let mut all: Vec<(usize, usize)> = TAGS
        .iter()
        .map(ends)
        .chain(others.map(|field| (field.first, field.last)))
        .collect();
    all.sort_unstable();
    let mut next = 1;
    for (first, last) in all {
        assert_eq!(first, next);
        next = last + 1;
    }
    assert_eq!(next, RECORD + 1);
    let mut labels: Vec<&[u8; 3]> = TAGS.iter().map(|tag| &tag.label).collect();
    labels.sort_unstable();
    labels.dedup();
    assert_eq!(labels.len(), LABELS);
}

#[test]
fn texts_that_are_read() {
    assert_eq!(GOOD.len(), 90);
    is_read(GOOD, a_record(&[]));
    let mut pairs: Vec<&str> = GOOD[4..89].split('|').collect();
    pairs.reverse();
    is_read(&format!("DAT|{}\n", pairs.join("|")), a_record(&[]));
    let zip = (record::ZIP, "97301");
    is_read(&and("|ZIP97301"), a_record(&[zip]));
    let both = a_record(&[zip, (record::ZIP4, "1234")]);
    is_read(&and("|ZIP97301-1234"), both);
    is_read(&but("STSST", "STS"), a_record(&[(record::SUFFIX, "")]));
    is_read(&but("STSST", "STSST  "), a_record(&[]));
}

#[test]
fn texts_without_dat_or_newline() {
    let no_newline = &GOOD[..89];
    let returned = but("DAT", "RTN");
    let texts = ["", "DAT", "\n", "DATX|FOCI\n", no_newline, &returned];
    all_refused(&texts, 33);
}

#[test]
fn labels_that_are_not_taken() {
    all_refused(&["DAT|\n", "DAT|FOCII|ZZZ1\n"], 34);
    for more in ["|", "|ST", "|CPSABC", "|cmtx"] {
        all_refused(&[&and(more)], 34);
    }
}

#[test]
fn labels_that_stand_twice() {
    let twice = format!("{}{}", &GOOD[..89], &GOOD[3..]);
    let texts = ["DAT|FOCII|FOCI\n", &twice, &and("|FOC")];
    all_refused(&texts, 35);
    // The first newline is a byte of CPF's value, and `DAT` of its.
    all_refused(&[&format!("{GOOD}{GOOD}")], 35);
}

#[test]
fn values_that_do_not_fit() {
    all_refused(&["DAT|FOC?|CPN5\n"], 36);
    for number in ["503555010", "5035550100 "] {
        all_refused(&[&but("5035550100", number)], 36);
    }
    for more in ["|MTN", "|COI12345", "|ZIP973011234", "|ZIPK1A0B1", "|ZIP"] {
        all_refused(&[&and(more)], 36);
    }
    all_refused(&[&but("STSST", "STSST   ")], 36);
}

#[test]
fn completion_dates() {
    let dated = |date: &str| but("2000-01-01", date);
    for date in ["1969-12-31", "2070-01-01", "010100"] {
        all_refused(&[&dated(date)], 36);
    }
    is_read(&dated("1970-01-01"), a_record(&[(record::DATE, "010170")]));
    is_read(&dated("2069-12-31"), a_record(&[(record::DATE, "123169")]));
    is_refused_into(RECORD, dated("2001-02-29").as_bytes(), 9, 251);
}

#[test]
fn records_that_break_a_field_rule() {
    let cases = [
        ("DAT\n".to_string(), 1),
        (format!("{GOOD}\n"), 261),
        (but("SALEM", "SA\nEM"), 94),
        (but("FOCI", "FOCE"), 1),
        (but("TYS0", "TYS8"), 221),
        (but("CLS1", "CLSV"), 220),
        (but("HNO100", "HNO123456789"), 12),
        (but("HNO100", "HNO 100"), 12),
        (but("MAIN", "MA\x7fN"), 28),
        (but("|CPFABC", ""), 261),
    ];
    for (text, position) in cases {
        is_refused_into(RECORD, text.as_bytes(), 9, position);
    }
}

#[test]
fn outputs_that_are_too_short_for_a_record() {
    is_refused_into(511, GOOD.as_bytes(), 25, 0);
    is_refused_into(0, GOOD.as_bytes(), 25, 0);
    is_refused_into(0, b"DAT\n", 9, 1);
}

#[test]
fn records_that_are_written() {
    is_written(a_record(&[]), GOOD);
    let bare = a_record(&[
        (record::FUNCTION, "D"),
        (record::HOUSE, ""),
        (record::STREET, ""),
        (record::SUFFIX, ""),
        (record::COMMUNITY, ""),
        (record::STATE, ""),
        (record::CLASS, ""),
        (record::TYPE, ""),
    ]);
    let text = "DAT|FOCD|CPN5035550100|CPD2000-01-01|CPFABC\n";
    assert_eq!(text.len(), 44);
    is_written(bare, text);
    for (date, calendar) in [("123169", "2069-12-31"), ("010170", "1970-01-01")] {
        let whole = a_record(&[(record::DATE, date)]);
        is_written(whole, &but("2000-01-01", calendar));
    }
}

#[test]
fn a_record_of_every_label() {
    assert_eq!(FULL.len(), 235);
    is_written(a_record(&FULL_FIELDS), FULL);
}

#[test]
fn a_record_of_full_fields_is_the_longest_text() {
    let mut whole = a_record(&FULL_FIELDS);
    for tag in &TAGS {
        let bytes = tag.of_mut(&mut whole);
        let full = bytes.len();
        let filled: &[u8] = match &tag.label {
            b"FOC" | b"CLS" | b"TYS" | b"PRD" | b"POD" | b"STA" => continue,
            b"HNO" | b"CPD" | b"ESN" | b"CPN" | b"MTN" | b"ZIP" => b"1",
            _ => b"X",
        };
        let length = if tag.label == *b"HNO" { 8 } else { full };
        bytes[..length].fill(filled[0]);
    }
    assert_eq!(record_fault::<Described>(Version::Two, &whole), None);
    let mut out = [0; 450];
    assert_eq!(write_tagged::<Described>(&whole, &mut out).bytes, 450);
    is_not_written(&whole, 449, 25, 0);
}

#[test]
fn records_without_a_tagged_form() {
    has_no_tagged_form(&[(record::SOURCE, "C")]);
    has_no_tagged_form(&[(record::X, "1")]);
    has_no_tagged_form(&[(record::Y, "1")]);
    has_no_tagged_form(&[(record::Z, "1")]);
    has_no_tagged_form(&[(record::RESERVED, "r")]);
    has_no_tagged_form(&[(record::LOCATION, "A|B")]);
    has_no_tagged_form(&[(record::ZIP4, "1234")]);
    has_no_tagged_form(&[(record::ZIP, "9730")]);
    has_no_tagged_form(&[(record::ZIP, "97301"), (record::ZIP4, "12")]);
    has_no_tagged_form(&[(record::MAIN_NUMBER, "5550199")]);
    has_no_tagged_form(&[(record::MAIN_NPA, "503")]);
}

#[test]
fn which_refusal_of_a_writing_comes_first() {
    let no_company = a_record(&[(record::SOURCE, "C"), (record::COMPANY_ID, "")]);
    is_not_written(&no_company, 452, 9, 261);
    is_not_written(&a_record(&[(record::SOURCE, "C")]), 0, 37, 0);
    is_not_written(&a_record(&[]), 89, 25, 0);
    is_not_written(&a_record(&[])[..511], 452, 9, 0);
    let longer = [a_record(&[]).as_slice(), b" "].concat();
    is_not_written(&longer, 452, 9, 0);
}

#[test]
fn the_example_of_the_exhibit() {
    let mut whole = [0; RECORD];
    let read = read_tagged::<Described>(EXAMPLE.as_bytes(), &mut whole);
    assert_eq!(read.refusal, 0);
    let expected = a_record(&[
        (record::HOUSE, "120"),
        (record::PREFIX, "N"),
        (record::LOCATION, "APT 718"),
        (record::CUSTOMER_NAME, "DOE, JOHN"),
        (record::MAIN_NPA, "503"),
        (record::MAIN_NUMBER, "5550199"),
        (record::DATE, "111526"),
        (record::COMPANY_ID, "ALPHA"),
    ]);
    assert_eq!(whole, expected);
    is_written(whole, EXAMPLE);
}
