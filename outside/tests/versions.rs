//! Files of Version 1 beside those of Version 2: the cases of the request on
//! private switches, by the model and by the library.

use outside::call::{Call, Op, Outcome};
use outside::face::Library;
use outside::gen::{file_of, put, NAME};
use outside::model::date::day;
use outside::model::layout::{
    header, narrow, record, row, Field, GUIDE_SLOT, NARROW_RECORD, RECORD, REGISTER_SLOT, ROW,
    SLOT_HEAD,
};
use outside::model::store::{HELD, OPEN, RESTING};
use outside::model::{Described, Version};
use outside::subject::{Model, Subject};
use Version::{One, Two};

const MODEL: Model<Described> = Model::new();
const DATE: &[u8; 6] = b"010100";
/// What a byte holds that nobody wrote.
const UNWRITTEN: u8 = 0x77;

/// Texts put into fields of a whole that is blank elsewhere.
fn whole<const N: usize>(texts: &[(Field, &str)]) -> [u8; N] {
    let mut whole = [b' '; N];
    for (field, text) in texts {
        put(&mut whole, *field, text.as_bytes());
    }
    whole
}

/// A good record of Version 1, changed so.
fn one(changes: &[(Field, &str)]) -> [u8; NARROW_RECORD] {
    let good = [
        (narrow::record::FUNCTION, "I"),
        (narrow::record::NPA, "503"),
        (narrow::record::CALLING_NUMBER, "5550100"),
        (narrow::record::HOUSE, "100"),
        (narrow::record::STREET, "MAIN"),
        (narrow::record::SUFFIX, "ST"),
        (narrow::record::COMMUNITY, "SALEM"),
        (narrow::record::STATE, "OR"),
        (narrow::record::CLASS, "1"),
        (narrow::record::TYPE, "0"),
        (narrow::record::DATE, "010100"),
        (narrow::record::COMPANY_ID, "ABC"),
        (narrow::record::STAR, "*"),
    ];
    whole(&[&good[..], changes].concat())
}

/// The same of Version 2.
fn two(changes: &[(Field, &str)]) -> [u8; RECORD] {
    let good = [
        (record::FUNCTION, "I"),
        (record::NPA, "503"),
        (record::CALLING_NUMBER, "5550100"),
        (record::HOUSE, "100"),
        (record::STREET, "MAIN"),
        (record::SUFFIX, "ST"),
        (record::COMMUNITY, "SALEM"),
        (record::STATE, "OR"),
        (record::CLASS, "1"),
        (record::TYPE, "0"),
        (record::DATE, "010100"),
        (record::COMPANY_ID, "ABC"),
        (record::STAR, "*"),
    ];
    whole(&[&good[..], changes].concat())
}

/// Row MAIN ST B 0 to 999, ESN 83, or of another street.
fn guide(street: &str) -> Vec<u8> {
    let row: [u8; ROW] = whole(&[
        (row::STREET, street),
        (row::SUFFIX, "ST"),
        (row::LOW, "0"),
        (row::HIGH, "999"),
        (row::COMMUNITY, "SALEM"),
        (row::STATE, "OR"),
        (row::PARITY, "B"),
        (row::ESN, "83"),
        (row::FUNCTION, "I"),
        (row::STAR, "*"),
    ]);
    let mut guide = vec![0; SLOT_HEAD];
    guide[0] = 1;
    guide.extend(row);
    assert_eq!(guide.len(), GUIDE_SLOT);
    guide
}

/// The apply of a file to one free slot under the row.
fn data(version: Version, file: Vec<u8>, answers: usize) -> Call {
    let (register, answers) = (vec![0; REGISTER_SLOT], vec![UNWRITTEN; answers]);
    Call {
        op: Op::ApplyData,
        version,
        given: 0,
        lent: vec![register, guide("MAIN"), file, answers],
    }
}

/// A file of Version 1 of cycle 1 with these records.
fn file_one(records: &[[u8; NARROW_RECORD]]) -> Vec<u8> {
    file_of(One, DATE, 1, &records.concat(), records.len())
}

/// What a call comes to; an apply has a check before it that foretells it.
fn run(subject: &impl Subject, call: &Call) -> Outcome {
    let outcome = call.run(subject, 0);
    assert!(outcome.intact);
    if let Some(check) = call.check() {
        assert!(check.foretells(&check.run(subject, 0), &outcome));
    }
    if outcome.refusal() != 0 {
        assert_eq!(outcome.lent, call.lent, "a refusal changes nothing");
    }
    outcome
}

/// Refusal, place and position of an apply.
fn refusal(subject: &impl Subject, call: &Call) -> [u32; 3] {
    let returned = run(subject, call).returned;
    [returned[0], returned[1], returned[2]]
}

/// The answers to these records of Version 1 on one free slot.
fn answers(subject: &impl Subject, records: &[[u8; NARROW_RECORD]]) -> Vec<u8> {
    let outcome = run(subject, &data(One, file_one(records), records.len()));
    assert_eq!(outcome.refusal(), 0);
    outcome.lent[3].clone()
}

fn lengths_and_headers(subject: &impl Subject) {
    let good = file_one(&[one(&[])]);
    let done = run(subject, &data(One, good.clone(), 1));
    assert_eq!(done.returned, [0, 0, 0, 1, 1, 0, 1]);
    assert_eq!((done.lent[0][0], done.lent[3][0]), (HELD, 0));
    assert_eq!(refusal(subject, &data(Two, good, 1)), [3, 0, 0]);
    // 2960 bytes are five records of Version 2, or eleven of Version 1.
    let five = file_of(Two, DATE, 1, &two(&[]).repeat(5), 5);
    assert_eq!(refusal(subject, &data(One, five.clone(), 20)), [5, 0, 0]);
    assert_eq!(refusal(subject, &data(One, five, 9)), [4, 0, 0]);
    let empty = file_one(&[]);
    assert_eq!(empty.len(), 320);
    let taken = run(subject, &data(One, empty.clone(), 0));
    assert_eq!(taken.returned, [0, 0, 0, 0, 0, 0, 1]);
    let cut = empty[..319].to_vec();
    assert_eq!(refusal(subject, &data(One, cut, 0)), [3, 0, 0]);
    let many = file_one(&vec![one(&[]); 10_000]);
    assert_eq!(refusal(subject, &data(One, many, 10_000)), [3, 0, 0]);
    let with_cycle = |text: &[u8]| {
        let mut file = file_one(&[one(&[])]);
        put(&mut file, header::CYCLE, text);
        data(One, file, 1)
    };
    assert_eq!(refusal(subject, &with_cycle(b"     1")), [5, 0, 0]);
    assert_eq!(run(subject, &with_cycle(b"000001")).lent[3], [0]);
}

fn faults(subject: &impl Subject) {
    let faults: [(&[(Field, &str)], u32); 11] = [
        (&[(narrow::record::CLASS, "A")], 160),
        (&[(narrow::record::FUNCTION, "U")], 1),
        (&[(narrow::record::FUNCTION, "M")], 1),
        (&[(narrow::record::STREET, " MAIN")], 28),
        (
            &[(narrow::record::STATE, "or"), (narrow::record::CLASS, "A")],
            106,
        ),
        (&[(narrow::record::HOUSE, "123456789")], 12),
        (&[(narrow::record::RESERVED, "\x7f")], 227),
        (&[(narrow::record::STAR, " ")], 240),
        (&[(narrow::record::COMPANY_ID, "")], 201),
        (&[(narrow::record::DATE, "022901")], 191),
        (&[(narrow::record::ESN, "8 3")], 166),
    ];
    for (changes, position) in faults {
        let bad = one(changes);
        let call = data(One, file_one(&[bad]), 1);
        assert_eq!(refusal(subject, &call), [9, 1, position]);
        let second = data(One, file_one(&[one(&[]), bad]), 2);
        assert_eq!(refusal(subject, &second), [9, 2, position]);
    }
    let general = one(&[(narrow::record::GENERAL_USE, " G")]);
    assert_eq!(answers(subject, &[general]), [0]);
}

/// Files of both versions, one after the other, on one slot.
fn one_sequence_of_cycles(subject: &impl Subject) {
    let insert = file_one(&[one(&[])]);
    let change = two(&[(record::FUNCTION, "C"), (record::COMMENTS, "x")]);
    let delete = one(&[
        (narrow::record::FUNCTION, "D"),
        (narrow::record::DATE, "010200"),
    ]);
    let files = [
        (One, insert),
        (Two, file_of(Two, DATE, 2, &change, 1)),
        (One, file_of(One, b"010200", 3, &delete, 1)),
    ];
    let mut register = vec![0; REGISTER_SLOT];
    for ((version, file), last) in files.into_iter().zip(0..) {
        let mut call = data(version, file, 1);
        (call.given, call.lent[0]) = (last, register);
        let outcome = run(subject, &call);
        assert_eq!(outcome.returned, [0, 0, 0, 1, 1, 0, last + 1]);
        register = outcome.lent[0].clone();
    }
    assert_eq!(register[0], RESTING);
    // A D keeps what Version 2 filed.
    assert_eq!(record::COMMENTS.of(&register[SLOT_HEAD..])[0], b'x');
    let blank = one(&[
        (narrow::record::FUNCTION, "D"),
        (narrow::record::STREET, ""),
        (narrow::record::COMMUNITY, ""),
        (narrow::record::STATE, ""),
        (narrow::record::CLASS, ""),
        (narrow::record::TYPE, ""),
    ]);
    assert_eq!(answers(subject, &[one(&[]), blank]), [0, 0]);
}

fn what_is_stored(subject: &impl Subject) {
    let full = one(&[
        (narrow::record::LOCATION, &"L".repeat(20)),
        (narrow::record::RESERVED, &"R".repeat(13)),
    ]);
    let outcome = run(subject, &data(One, file_one(&[full]), 1));
    let expected = two(&[
        (record::LOCATION, &"L".repeat(20)),
        (record::RESERVED, &"R".repeat(13)),
        (record::ESN, "83"),
    ]);
    let stored = &outcome.lent[0][SLOT_HEAD..];
    assert_eq!(stored, expected);
    assert_eq!(stored[355..368], [b'R'; 13]);
    assert_eq!(stored[368..511], [b' '; 143]);
    assert_eq!(
        (&stored[127..147], &stored[147..187]),
        (&[b'L'; 20][..], &[b' '; 40][..])
    );
}

/// A slot in this state since the date, with this record stored.
fn slot(state: u8, changes: &[(Field, &str)]) -> Vec<u8> {
    let mut slot = vec![0; SLOT_HEAD];
    let filed = day::<Described>(DATE).expect("a date");
    slot[0] = state;
    slot[1..5].copy_from_slice(&filed.0.to_be_bytes());
    slot.extend(two(&[&[(record::ESN, "83")], changes].concat()));
    slot
}

fn good_slot() -> Vec<u8> {
    slot(HELD, &[])
}

fn wide_slot(state: u8) -> Vec<u8> {
    let other = (record::CALLING_NUMBER, "5550101");
    slot(state, &[other, (record::COMMENTS, "x")])
}

/// The load file of cycle 7 from these slots.
fn load(version: Version, slots: &[Vec<u8>], date: &[u8], room: usize) -> Call {
    let out = vec![UNWRITTEN; room];
    Call {
        op: Op::WriteLoad,
        version,
        given: 7,
        lent: vec![slots.concat(), date.to_vec(), NAME.to_vec(), out],
    }
}

/// What a load file of the date returns.
fn loaded(subject: &impl Subject, version: Version, slots: &[Vec<u8>], room: usize) -> Vec<u32> {
    run(subject, &load(version, slots, DATE, room)).returned
}

fn load_files(subject: &impl Subject) {
    let loaded = |version, slots: &[Vec<u8>], room| loaded(subject, version, slots, room);
    let free = || vec![0; REGISTER_SLOT];
    assert_eq!(loaded(One, &[good_slot()], 560), [0, 560, 1, 0]);
    assert_eq!(loaded(One, &[good_slot()], 559), [25, 0, 0, 0]);
    assert_eq!(loaded(One, &[free()], 320), [0, 320, 0, 0]);
    assert_eq!(loaded(One, &[free()], 319), [25, 0, 0, 0]);
    let both = [good_slot(), wide_slot(HELD)];
    assert_eq!(loaded(One, &both, 800), [27, 0, 0, 1]);
    assert_eq!(loaded(One, &both, 0), [27, 0, 0, 1]);
    let no_date = load(One, &both, b"022901", 800);
    assert_eq!(run(subject, &no_date).returned, [26, 0, 0, 0]);
    assert_eq!(loaded(Two, &both, 1424), [0, 1424, 2, 0]);
    let open = [good_slot(), wide_slot(OPEN)];
    assert_eq!(loaded(One, &open, 800), [27, 0, 0, 1]);
    let resting = [good_slot(), wide_slot(RESTING)];
    assert_eq!(loaded(One, &resting, 800), [0, 560, 1, 0]);
    let two_wide = [free(), wide_slot(HELD), wide_slot(HELD)];
    assert_eq!(loaded(One, &two_wide, 800), [27, 0, 0, 1]);
}

/// Fields that are longer in Version 2, with as many bytes as Version 1 has, and
/// one more; and each field that it has not.
fn what_has_a_form_in_version_1(subject: &impl Subject) {
    let refusal = |field: Field, bytes: usize| {
        let text = "e".repeat(bytes);
        loaded(subject, One, &[slot(HELD, &[(field, &text)])], 560)[0]
    };
    let longer = [
        (record::STREET, 40),
        (record::LOCATION, 20),
        (record::RESERVED, 13),
    ];
    for (field, most) in longer {
        assert_eq!([refusal(field, most), refusal(field, most + 1)], [0, 27]);
    }
    let only_in_two = [
        record::CUSTOMER_CODE,
        record::COMMENTS,
        record::X,
        record::Y,
        record::Z,
        record::CELL,
        record::SECTOR,
        record::TAR,
    ];
    for field in only_in_two {
        assert_eq!(refusal(field, 1), 27, "{}", field.name);
    }
}

fn a_load_file_comes_back(subject: &impl Subject) {
    let migrated = slot(HELD, &[(record::FUNCTION, "M")]);
    let written = run(subject, &load(One, &[migrated], DATE, 561));
    assert_eq!(written.returned, [0, 560, 1, 0]);
    let file = written.lent[3][..560].to_vec();
    let entry = one(&[(narrow::record::ESN, "83"), (narrow::record::SOURCE, "C")]);
    assert_eq!(file, file_of(One, DATE, 7, &entry, 1));
    assert_eq!(written.lent[3][560], UNWRITTEN);
    let mut call = data(One, file, 1);
    call.given = 6;
    let back = run(subject, &call);
    assert_eq!(back.returned, [0, 0, 0, 1, 1, 0, 7]);
    assert_eq!(back.lent[0], slot(HELD, &[(record::SOURCE, "C")]));
}

/// A street that only Version 2 has room for is another one once it is cut.
fn a_street_that_is_cut(subject: &impl Subject) {
    let (forty, more) = ("S".repeat(40), "S".repeat(41));
    let street = |street: &str| {
        let record = one(&[(narrow::record::STREET, &forty)]);
        let mut call = data(One, file_one(&[record]), 1);
        call.lent[1] = guide(street);
        run(subject, &call).lent[3][0]
    };
    assert_eq!([street(&forty), street(&more)], [0, 18]);
}

fn keeps_the_cases(subject: &impl Subject) {
    lengths_and_headers(subject);
    faults(subject);
    one_sequence_of_cycles(subject);
    what_is_stored(subject);
    load_files(subject);
    what_has_a_form_in_version_1(subject);
    a_load_file_comes_back(subject);
    a_street_that_is_cut(subject);
}

#[test]
fn the_model_keeps_the_cases_of_versions() {
    keeps_the_cases(&MODEL);
}

#[test]
fn the_library_keeps_the_cases_of_versions() {
    keeps_the_cases(&Library);
}
