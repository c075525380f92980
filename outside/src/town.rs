//! Full stores and files of a size, the same every time, for the benchmark.

use crate::gen::{file, file_of, put, records_of};
use crate::model::layout::{record, row, Field, GUIDE_SLOT, RECORD, REGISTER_SLOT, ROW, SLOT_HEAD};
use crate::model::{apply_data, apply_guide, Described, Former, Rules, Version};

/// Rows of one street.
const ROWS_A_STREET: usize = 64;
/// House numbers between the Lows of neighbouring rows of a street.
const STEP: usize = 100;
/// A prime, to go through numbers and rows out of order.
const STRIDE: usize = 7919;

fn put_street(whole: &mut [u8], index: usize, row_fields: bool) {
    let street = format!("STREET {}", index / ROWS_A_STREET);
    let fields = if row_fields {
        [row::STREET, row::SUFFIX, row::COMMUNITY, row::STATE]
    } else {
        [
            record::STREET,
            record::SUFFIX,
            record::COMMUNITY,
            record::STATE,
        ]
    };
    for (field, text) in fields
        .into_iter()
        .zip([street.as_str(), "ST", "SALEM", "OR"])
    {
        put(whole, field, text.as_bytes());
    }
}

/// Row number `index`: odd and even sides by turns.
fn row_at(index: usize) -> [u8; ROW] {
    let mut whole = [b' '; ROW];
    put_street(&mut whole, index, true);
    let odd = index % 2;
    let low = index % ROWS_A_STREET * STEP + odd;
    put(&mut whole, row::LOW, low.to_string().as_bytes());
    put(
        &mut whole,
        row::HIGH,
        (low + STEP - 2).to_string().as_bytes(),
    );
    put(&mut whole, row::PARITY, if odd == 1 { b"O" } else { b"E" });
    put(
        &mut whole,
        row::ESN,
        (100 + index % 900).to_string().as_bytes(),
    );
    put(&mut whole, row::FUNCTION, b"I");
    put(&mut whole, row::STAR, b"*");
    whole
}

/// A record of this code for number `index`, at a house of one of `rows`.
pub fn record_at(code: u8, index: usize, rows: usize, company: &[u8], date: &[u8]) -> [u8; RECORD] {
    let mut whole = [b' '; RECORD];
    let at = index * STRIDE % rows;
    put(&mut whole, record::FUNCTION, &[code]);
    put(&mut whole, record::NPA, b"503");
    put(
        &mut whole,
        record::CALLING_NUMBER,
        format!("{index:07}").as_bytes(),
    );
    put_street(&mut whole, at, false);
    let house = at % ROWS_A_STREET * STEP + at % 2 + 10;
    put(&mut whole, record::HOUSE, house.to_string().as_bytes());
    put(&mut whole, record::CUSTOMER_NAME, b"A SUBSCRIBER");
    put(&mut whole, record::CLASS, b"1");
    put(&mut whole, record::TYPE, b"0");
    put(&mut whole, record::DATE, date);
    put(&mut whole, record::COMPANY_ID, company);
    put(&mut whole, record::STAR, b"*");
    whole
}

/// That record with every field that has a label.
pub fn full_record_at(index: usize, rows: usize) -> [u8; RECORD] {
    let mut whole = record_at(b'I', index, rows, b"ABC", b"010124");
    let texts: [(Field, &[u8]); 18] = [
        (record::HOUSE_SUFFIX, b"1/2"),
        (record::PREFIX, b"NW"),
        (record::POST, b"SE"),
        (record::LOCATION, b"APT 718"),
        (record::EXCHANGE, b"SALM"),
        (record::ESN, b"083"),
        (record::MAIN_NPA, b"503"),
        (record::MAIN_NUMBER, b"5550199"),
        (record::ORDER, b"A1"),
        (record::COUNTY, b"047"),
        (record::ZIP, b"97301"),
        (record::ZIP4, b"1234"),
        (record::GENERAL_USE, b"  x"),
        (record::CUSTOMER_CODE, b"ABC"),
        (record::COMMENTS, b"gate 4"),
        (record::TAR, b"T1"),
        (record::CELL, b"77"),
        (record::SECTOR, b"2"),
    ];
    for (field, text) in texts {
        put(&mut whole, field, text);
    }
    whole
}

/// The number of slot `index` of a full register.
pub fn number_at(index: usize) -> Vec<u8> {
    format!("503{index:07}").into_bytes()
}

/// A guide file of rows that do not clash.
pub fn guide_file(rows: usize) -> Vec<u8> {
    let all: Vec<u8> = (0..rows).flat_map(row_at).collect();
    file(b"010124", 1, &all, rows)
}

/// A full guide.
pub fn guide(rows: usize) -> Vec<u8> {
    let mut guide = vec![0; rows * GUIDE_SLOT];
    let mut answers = vec![0; rows];
    let register = [0; REGISTER_SLOT];
    let taken = apply_guide::<Described>(&register, &mut guide, &guide_file(rows), &mut answers, 0);
    assert_eq!(taken.done as usize, rows);
    guide
}

/// A full register under that guide.
pub fn register(slots: usize, guide: &[u8]) -> Vec<u8> {
    filled::<Described>(slots, guide)
}

/// The same as it was written by the former reading.
pub fn old_register(slots: usize, guide: &[u8]) -> Vec<u8> {
    filled::<Former<Described>>(slots, guide)
}

/// A register that one file fills.
fn filled<R: Rules>(slots: usize, guide: &[u8]) -> Vec<u8> {
    let rows = guide.len() / GUIDE_SLOT;
    let all = (0..slots).flat_map(|index| record_at(b'I', index, rows, b"ABC", b"010124"));
    let all = file(b"010124", 1, &all.collect::<Vec<u8>>(), slots);
    let mut register = vec![0; slots * REGISTER_SLOT];
    let mut answers = vec![0; slots];
    let taken = apply_data::<R>(Version::Two, &mut register, guide, &all, &mut answers, 0);
    assert_eq!(taken.done as usize, slots);
    assert!(register[(slots - 1) * REGISTER_SLOT + SLOT_HEAD] == b'I');
    register
}

/// Changes, unlocks, migrates, deletes and inserts over a full register, in
/// Version 1 no unlocks and migrates; some are not done.
pub fn mixed_file(version: Version, records: usize, slots: usize, rows: usize) -> Vec<u8> {
    let codes = match version {
        Version::One => b"CCCDIDICCC",
        Version::Two => b"CCCUMDICCC",
    };
    let one = |place: usize| {
        // Three records in turn meet the same number.
        let index = place / 3 * STRIDE % slots;
        let company: &[u8] = if place % 10 == 9 { b"XYZ" } else { b"ABC" };
        record_at(codes[place % 10], index, rows, company, b"010224")
    };
    let all: Vec<[u8; RECORD]> = (0..records).map(one).collect();
    file_of(version, b"010224", 1, &records_of(version, &all), records)
}
