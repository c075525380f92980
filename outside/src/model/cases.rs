//! The document's cases on both sides, P1 to P10 among them, and the readings.

use super::date::{date_of, day, follows, Cycle, Day, Reading};
use super::desk::desk;
use super::form::{record_fault, row_fault};
use super::guide::clash;
use super::layout::{record, row, Field, GUIDE_SLOT, RECORD, REGISTER_SLOT, ROW, SLOT_HEAD};
use super::rules::{Described, Former};
use super::store::{register_sound, slot_day};
use super::{
    apply_data, apply_guide, convert_register, lookup, write_load, Converted, Found, Loaded, Taken,
    Version,
};
use crate::gen::{file, put, NAME};

fn day_of(date: &[u8; 6]) -> Option<u32> {
    day::<Described>(date).map(|Day(number)| number)
}

fn former_day_of(date: &[u8; 6]) -> Option<u32> {
    day::<Former<Described>>(date).map(|Day(number)| number)
}

fn a_row(parity: &str, low: &str, high: &str) -> [u8; ROW] {
    let mut whole = [b' '; ROW];
    let texts = [
        (row::STREET, "MAIN"),
        (row::SUFFIX, "ST"),
        (row::LOW, low),
        (row::HIGH, high),
        (row::COMMUNITY, "SALEM"),
        (row::STATE, "OR"),
        (row::PARITY, parity),
        (row::ESN, "83"),
        (row::FUNCTION, "I"),
        (row::STAR, "*"),
    ];
    for (field, text) in texts {
        put(&mut whole, field, text.as_bytes());
    }
    whole
}

fn a_record(changes: &[(Field, &str)]) -> [u8; RECORD] {
    let mut whole = [b' '; RECORD];
    let texts = [
        (record::FUNCTION, "I"),
        (record::NPA, "503"),
        (record::CALLING_NUMBER, "5550100"),
        (record::HOUSE, "100"),
        (record::STREET, "MAIN"),
        (record::SUFFIX, "ST"),
        (record::COMMUNITY, "SALEM"),
        (record::STATE, "OR"),
        (record::CLASS, "1"),
        (record::TYPE, "0"),
        (record::DATE, "010100"),
        (record::COMPANY_ID, "ABC"),
        (record::STAR, "*"),
    ];
    for (field, text) in texts.iter().chain(changes) {
        put(&mut whole, *field, text.as_bytes());
    }
    whole
}

fn a_guide() -> Vec<u8> {
    let mut guide = vec![0; GUIDE_SLOT];
    guide[0] = 1;
    guide[SLOT_HEAD..].copy_from_slice(&a_row("B", "0", "999"));
    guide
}

/// Takes the records as one file of this date; the answers.
fn answers(register: &mut [u8], date: &[u8; 6], records: &[[u8; RECORD]]) -> Vec<u8> {
    let mut answers = vec![0xee; records.len()];
    let all = file(date, 1, &records.concat(), records.len());
    let guide = a_guide();
    let taken = apply_data::<Described>(Version::Two, register, &guide, &all, &mut answers, 0);
    assert_eq!(taken.refusal, 0);
    answers
}

/// The answer to one record on an empty register of one slot.
fn fault(changes: &[(Field, &str)]) -> Option<usize> {
    record_fault::<Described>(Version::Two, &a_record(changes))
}

#[test]
fn dates_p1_to_p4() {
    assert_eq!(day_of(b"010100"), Some(10957));
    assert_eq!(day_of(b"022900"), Some(11016));
    assert_eq!(day_of(b"022901"), None);
    assert_eq!(day_of(b"123199"), Some(10956));
    assert_eq!(day_of(b"010170"), Some(0));
    assert_eq!(day_of(b"123169"), Some(36524));
}

#[test]
fn dates_p1_to_p4_by_the_former_reading() {
    assert_eq!(former_day_of(b"010100"), Some(0));
    assert_eq!(former_day_of(b"022900"), Some(59));
    assert_eq!(former_day_of(b"022901"), None);
    assert_eq!(former_day_of(b"123199"), Some(36524));
    assert_eq!(former_day_of(b"123169"), Some(25567));
    assert_eq!(former_day_of(b"010170"), Some(25568));
}

#[test]
fn dates_of_the_request() {
    let days = [
        (b"010170", 0),
        (b"123170", 364),
        (b"022972", 789),
        (b"030172", 790),
        (b"123199", 10956),
        (b"010100", 10957),
        (b"022900", 11016),
        (b"010101", 11323),
        (b"111526", 20772),
        (b"123168", 36159),
        (b"123169", 36524),
    ];
    for (date, number) in days {
        assert_eq!(day_of(date), Some(number));
    }
    for date in [b"022970", b"022901", b"130101", b"003100"] {
        assert_eq!(day_of(date), None);
    }
}

#[test]
fn every_day_has_one_date() {
    for number in 0..=36524 {
        let present = date_of(Reading::Present, Day(number));
        assert_eq!(day_of(&present), Some(number));
        let former = date_of(Reading::Former, Day(number));
        assert_eq!(former_day_of(&former), Some(number));
    }
}

#[test]
fn clashes_p5_to_p7() {
    let meet = |one: [u8; ROW], other: [u8; ROW]| {
        let both = clash::<Described>(&one, &other);
        assert_eq!(both, clash::<Described>(&other, &one));
        both
    };
    assert!(!meet(a_row("B", "300", "300"), a_row("O", "201", "399")));
    assert!(meet(a_row("B", "100", "200"), a_row("O", "51", "101")));
    assert!(!meet(a_row("E", "100", "198"), a_row("O", "101", "199")));
}

#[test]
fn clash_is_what_house_by_house_says() {
    let rows: Vec<[u8; ROW]> = (0..6)
        .flat_map(|low| (low..6).map(move |high| (low, high)))
        .flat_map(|(low, high)| ["O", "E", "B"].map(|parity| (parity, low, high)))
        .map(|(parity, low, high)| a_row(parity, &low.to_string(), &high.to_string()))
        .filter(|whole| row_fault::<Described>(whole).is_none())
        .collect();
    let has = |whole: &[u8; ROW], house: u32| {
        let address = a_record(&[(record::HOUSE, &house.to_string())]);
        super::guide::Address::of(&address).is_under(whole)
    };
    for one in &rows {
        for other in &rows {
            let shared = (0..8).any(|house| has(one, house) && has(other, house));
            assert_eq!(clash::<Described>(one, other), shared);
        }
    }
}

#[test]
fn a_resting_slot_is_free_for_others_after_90_days_p8_p9() {
    let mut resting = vec![0; REGISTER_SLOT];
    // Day 100 is 041170, day 189 is 070970, day 190 is 071070.
    assert_eq!(day_of(b"041170"), Some(100));
    let insert = a_record(&[(record::DATE, "010170")]);
    let delete = a_record(&[(record::FUNCTION, "D"), (record::DATE, "041170")]);
    assert_eq!(answers(&mut resting, b"041170", &[insert, delete]), [0, 0]);
    let other = a_record(&[
        (record::CALLING_NUMBER, "5550199"),
        (record::DATE, "010170"),
    ]);
    assert_eq!(day_of(b"071070"), Some(190));
    assert_eq!(answers(&mut resting.clone(), b"071070", &[other]), [0]);
    assert_eq!(answers(&mut resting, b"070970", &[other]), [20]);
}

#[test]
fn cycles_p10() {
    assert!(follows::<Described>(Cycle(1), 999_999));
    assert!(follows::<Described>(Cycle(1), 0));
    assert!(!follows::<Described>(Cycle(1), 1_000_000));
    assert!(!follows::<Described>(Cycle(1), u32::MAX));
}

#[test]
fn house_numbers_and_esns() {
    assert_eq!(fault(&[(record::HOUSE, "12345678")]), None);
    assert_eq!(fault(&[(record::HOUSE, "123456789")]), Some(12));
    assert_eq!(fault(&[(record::HOUSE, "1 1")]), Some(12));
    assert_eq!(fault(&[(record::COMPANY_ID, "A B")]), Some(261));
    assert_eq!(fault(&[(record::MAIN_NUMBER, "ABC")]), None);
    assert_eq!(fault(&[(record::NPA, "50\x7f")]), Some(2));
    let mut register = vec![0; REGISTER_SLOT];
    let esn = |text| a_record(&[(record::ESN, text)]);
    assert_eq!(
        answers(&mut register, b"010100", &[esn("083"), esn("83")]),
        [19, 0]
    );
}

#[test]
fn rows_of_bad_form() {
    let fault = |parity, low, high| row_fault::<Described>(&a_row(parity, low, high));
    assert_eq!(fault("B", "", "9"), Some(69));
    assert_eq!(fault("B", "9", "8"), Some(79));
    assert_eq!(fault("B", "9", "x"), Some(79));
    assert_eq!(fault("O", "9", "10"), Some(123));
    assert_eq!(fault("E", "9", "10"), Some(123));
    assert_eq!(fault("B", "009", "9"), None);
}

#[test]
fn the_incident_an_old_company_changes_a_passed_number() {
    let with = |code, company| a_record(&[(record::FUNCTION, code), (record::COMPANY_ID, company)]);
    let run = [
        with("I", "OLD"),
        with("U", "OLD"),
        with("M", "NEW"),
        with("C", "OLD"),
    ];
    let mut register = vec![0; REGISTER_SLOT];
    assert_eq!(answers(&mut register, b"010100", &run), [0, 0, 0, 16]);
    assert_eq!(record::COMPANY_ID.of(&register[SLOT_HEAD..]), b"NEW  ");
}

#[test]
fn a_row_that_only_an_open_number_uses_stays() {
    let mut register = vec![0; REGISTER_SLOT];
    let unlock = a_record(&[(record::FUNCTION, "U")]);
    assert_eq!(
        answers(&mut register, b"010100", &[a_record(&[]), unlock]),
        [0, 0]
    );
    let mut delete = a_row("B", "0", "999");
    put(&mut delete, row::FUNCTION, b"D");
    let (mut guide, mut answers) = (a_guide(), [0xee; 2]);
    let all = file(b"010100", 1, &delete, 1);
    let taken = apply_guide::<Described>(&register, &mut guide, &all, &mut answers, 0);
    assert_eq!((taken.done, taken.undone, taken.last), (0, 1, 1));
    assert_eq!((answers, guide), ([24, 0xee], a_guide()));
}

#[test]
fn a_fault_in_the_last_record_leaves_everything() {
    let records = [a_record(&[]), a_record(&[(record::STAR, " ")])].concat();
    let (mut register, mut answers) = (vec![0; REGISTER_SLOT], [0xee; 2]);
    let all = file(b"010100", 1, &records, 2);
    let (version, guide) = (Version::Two, a_guide());
    let taken = apply_data::<Described>(version, &mut register, &guide, &all, &mut answers, 0);
    let expected = Taken {
        refusal: 9,
        place: 2,
        position: 512,
        ..Taken::default()
    };
    assert_eq!((taken, answers), (expected, [0xee; 2]));
    assert_eq!(register, vec![0; REGISTER_SLOT]);
}

#[test]
fn lookup_and_load_file() {
    let mut register = vec![0; 2 * REGISTER_SLOT];
    assert_eq!(answers(&mut register, b"010100", &[a_record(&[])]), [0]);
    let found = |refusal, state, slot, looked| Found {
        refusal,
        state,
        slot,
        looked,
    };
    assert_eq!(lookup(&register, b"5035550100"), found(0, 1, 0, 1));
    assert_eq!(lookup(&register, b"5035550199"), found(0, 0, 0, 2));
    assert_eq!(lookup(&register, b"503555010"), found(10, 0, 0, 0));
    assert_eq!(lookup(&register[1..], b"5035550100"), found(1, 0, 0, 0));
    let mut out = [0xee; 913];
    let loaded = write_load::<Described>(Version::Two, &register, b"010100", NAME, 7, &mut out);
    let (bytes, entries) = (912, 1);
    assert_eq!(
        loaded,
        Loaded {
            bytes,
            entries,
            ..Loaded::default()
        }
    );
    let filed = a_record(&[(record::SOURCE, "C"), (record::ESN, "83")]);
    assert_eq!(out[..912], file(b"010100", 7, &filed, 1));
    assert_eq!(out[912], 0xee);
    let refusal = |cycle, room: usize| {
        let out = &mut [0; 912][..room];
        write_load::<Described>(Version::Two, &register, b"010100", NAME, cycle, out).refusal
    };
    assert_eq!([refusal(1, 911), refusal(0, 911)], [25, 26]);
}

/// A slot as the cases name it: state, day and its record's date.
fn a_slot(state: u8, number: u32, date: &str) -> Vec<u8> {
    let mut slot = vec![0; SLOT_HEAD];
    slot[0] = state;
    slot[1..5].copy_from_slice(&number.to_be_bytes());
    slot.extend(a_record(&[(record::DATE, date), (record::ESN, "83")]));
    slot
}

fn a_free_slot() -> Vec<u8> {
    vec![0; REGISTER_SLOT]
}

/// Converts a register of these slots: the answer, and the register afterwards.
fn conversion(slots: &[Vec<u8>]) -> (Converted, Vec<u8>) {
    let mut register = slots.concat();
    let converted = convert_register::<Described>(&mut register);
    (converted, register)
}

/// Such a conversion is done, and leaves these slots.
fn converts(before: &[Vec<u8>], after: &[Vec<u8>]) {
    assert_eq!(conversion(before), (Converted::default(), after.concat()));
}

/// Such a conversion is refused and changes nothing.
fn is_refused(slots: &[Vec<u8>], refusal: u32, slot: u32) {
    let expected = Converted { refusal, slot };
    assert_eq!(conversion(slots), (expected, slots.concat()));
}

#[test]
fn conversions_that_are_done() {
    converts(&[a_slot(1, 0, "010100")], &[a_slot(1, 10957, "010100")]);
    converts(
        &[
            a_slot(1, 59, "022900"),
            a_free_slot(),
            a_slot(2, 100, "010100"),
            a_slot(3, 190, "022900"),
        ],
        &[
            a_slot(1, 11016, "022900"),
            a_free_slot(),
            a_slot(2, 11057, "010100"),
            a_slot(3, 11147, "022900"),
        ],
    );
    converts(&[a_slot(3, 25567, "010100")], &[a_slot(3, 36524, "010100")]);
    converts(&[a_free_slot()], &[a_free_slot()]);
    // Nothing tells that an open slot was converted before: it moves again.
    converts(&[a_slot(2, 10957, "010100")], &[a_slot(2, 21914, "010100")]);
}

#[test]
fn conversions_with_a_late_slot() {
    let (sound, late) = (a_slot(1, 0, "010100"), a_slot(3, 25568, "010100"));
    is_refused(std::slice::from_ref(&late), 28, 0);
    is_refused(&[a_slot(1, 25568, "010170")], 28, 0);
    is_refused(&[a_slot(2, 30000, "010170")], 28, 0);
    is_refused(&[sound, late.clone(), late], 28, 1);
}

#[test]
fn conversions_of_unsound_registers() {
    // 1 first, though the late slot is the lower one.
    is_refused(&[a_slot(3, 25568, "010100"), a_slot(4, 0, "010100")], 1, 0);
    // Held, and converted before.
    is_refused(&[a_slot(1, 10957, "010100")], 1, 0);
    is_refused(&[a_slot(3, 36525, "010100")], 1, 0);
    let mut fifth_byte = a_slot(1, 0, "010100");
    fifth_byte[5] = 1;
    is_refused(&[fifth_byte], 1, 0);
    is_refused(&[], 1, 0);
    is_refused(&[vec![0; 519]], 1, 0);
    is_refused(&[vec![0; 521]], 1, 0);
    is_refused(&vec![a_free_slot(); 4097], 1, 0);
}

#[test]
fn an_old_register_that_is_not_converted() {
    let sound = |slot: &[u8]| {
        let former = register_sound::<Former<Described>>(slot);
        (former, register_sound::<Described>(slot))
    };
    assert_eq!(sound(&a_slot(1, 0, "010100")), (true, false));
    assert_eq!(sound(&a_slot(1, 25568, "010170")), (true, false));
    // Nothing tells of this one that it is old.
    assert_eq!(sound(&a_slot(2, 25568, "010170")), (true, true));
}

/// Inserts a record of this date by a file of that one: the answer, and the day
/// of the slot.
fn inserted(dated: &str, file_date: &[u8; 6]) -> (u8, u32) {
    let mut register = a_free_slot();
    let answers = answers(
        &mut register,
        file_date,
        &[a_record(&[(record::DATE, dated)])],
    );
    (answers[0], slot_day(&register).0)
}

#[test]
fn inserts_across_the_century() {
    assert_eq!(inserted("050193", b"111526"), (0, 8521));
    assert_eq!(inserted("123199", b"111526"), (0, 10956));
    assert_eq!(inserted("010170", b"111526"), (0, 0));
    assert_eq!(inserted("123169", b"111526"), (11, 0));
    assert_eq!(inserted("010100", b"123199"), (11, 0));
    assert_eq!(inserted("123199", b"010100"), (0, 10956));
    assert_eq!(inserted("010170", b"123169"), (0, 0));
}

#[test]
fn load_files_across_the_century() {
    let register = a_slot(1, 10957, "010100");
    let refusal = |date: &[u8; 6]| {
        let mut out = [0xee; 912];
        write_load::<Described>(Version::Two, &register, date, NAME, 1, &mut out).refusal
    };
    let dates = [b"123199", b"010100", b"010101"];
    assert_eq!(dates.map(refusal), [26, 0, 0]);
}

#[test]
fn the_desk_example() {
    let printed = desk(b"02\n0435303335353530313030\n");
    assert_eq!(printed, b"a20300000000\na3000040\n");
}
