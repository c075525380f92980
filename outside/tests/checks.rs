//! What a check says, and the apply of the same bytes after it: the cases of the
//! request on checks, by the model and by the library.

use outside::call::{Call, Op, Outcome};
use outside::face::Library;
use outside::gen::{file, put};
use outside::model::layout::{header, trailer, EDGE, GUIDE_SLOT, RECORD, REGISTER_SLOT};
use outside::model::{Described, Version};
use outside::subject::{Model, Subject};
use outside::town;

const MODEL: Model<Described> = Model::new();
const DATE: &[u8; 6] = b"010100";
/// What an answer holds that nobody wrote.
const UNWRITTEN: u8 = 0x77;

fn insert(number: usize, date: &[u8; 6]) -> [u8; RECORD] {
    town::record_at(b'I', number, 1, b"ABC", date)
}

/// A file of this cycle with one good insert.
fn one_insert(cycle: u32) -> Vec<u8> {
    file(DATE, cycle, &insert(0, DATE), 1)
}

/// A file of cycle 1 whose second record is dated after it.
fn two_inserts() -> Vec<u8> {
    let records = [insert(0, DATE), insert(1, b"010200")].concat();
    file(DATE, 1, &records, 2)
}

/// The apply of a data file to one free slot under one row.
fn data(file: Vec<u8>, answers: usize, last: u32) -> Call {
    let register = vec![0; REGISTER_SLOT];
    let answers = vec![UNWRITTEN; answers];
    Call {
        op: Op::ApplyData,
        version: Version::Two,
        given: last,
        lent: vec![register, town::guide(1), file, answers],
    }
}

/// The apply of a file of two rows to a guide of one slot.
fn rows() -> Call {
    let mut call = data(town::guide_file(2), 2, 0);
    call.op = Op::ApplyGuide;
    call.lent[1].fill(0);
    call
}

fn check(subject: &impl Subject, apply: &Call) -> Outcome {
    apply.check().expect("an apply").run(subject, 0)
}

/// What both calls return, what the apply answers, and that the check writes
/// nothing.
fn says(subject: &impl Subject, call: &Call, checked: [u32; 7], applied: [u32; 7], answers: &[u8]) {
    let (check, apply) = (check(subject, call), call.run(subject, 0));
    assert_eq!(
        (check.returned, check.lent),
        (checked.to_vec(), call.lent.clone())
    );
    assert_eq!(
        (apply.returned, &apply.lent[3][..]),
        (applied.to_vec(), answers)
    );
    assert!(check.intact && apply.intact);
}

fn good_checks_return_n(subject: &impl Subject) {
    let two = [0, 0, 0, 2, 0, 0, 0];
    let half_done = [0, 0, 0, 2, 1, 1, 1];
    says(
        subject,
        &data(two_inserts(), 2, 0),
        two,
        half_done,
        &[0, 11],
    );
    let spare = [0, 11, UNWRITTEN, UNWRITTEN];
    says(subject, &data(two_inserts(), 4, 0), two, half_done, &spare);
    says(subject, &rows(), two, half_done, &[0, 22]);
    let empty = data(file(DATE, 1, b"", 0), 0, 0);
    says(subject, &empty, [0; 7], [0, 0, 0, 0, 0, 0, 1], b"");
    let (one, done) = ([0, 0, 0, 1, 0, 0, 1], [0, 0, 0, 1, 1, 0, 2]);
    says(subject, &data(one_insert(2), 1, 1), one, done, &[0]);
    // A check says nothing of answers.
    let mut uncovered = data(one_insert(1), 1, 0);
    uncovered.lent[1] = vec![0; GUIDE_SLOT];
    let (one, undone) = ([0, 0, 0, 1, 0, 0, 0], [0, 0, 0, 1, 0, 1, 1]);
    says(subject, &uncovered, one, undone, &[18]);
}

/// That call with a change to one of its buffers.
fn changed(mut call: Call, place: usize, change: impl Fn(&mut Vec<u8>)) -> Call {
    change(&mut call.lent[place]);
    call
}

/// Calls that are refused, each with refusal, place and position; many have a
/// second fault that a later refusal would tell.
fn refused() -> [(Call, [u32; 3]); 12] {
    let one = |answers, last| data(one_insert(1), answers, last);
    let cut = |bytes: &mut Vec<u8>| bytes.truncate(bytes.len() - 1);
    let tail = |field, text: &'static [u8]| {
        move |file: &mut Vec<u8>| {
            let at = file.len() - EDGE;
            put(&mut file[at..], field, text);
        }
    };
    let bad_code = |file: &mut Vec<u8>| file[EDGE + RECORD] = b'X';
    let bad_header = |file: &mut Vec<u8>| put(file, header::STAR, b"?");
    [
        (changed(one(0, 9), 0, |register| register[0] = 4), [1, 0, 0]),
        (
            changed(changed(one(1, 9), 1, cut), 2, bad_header),
            [2, 0, 0],
        ),
        (changed(one(0, 0), 2, cut), [3, 0, 0]),
        (data(two_inserts(), 1, 0), [4, 0, 0]),
        (changed(one(1, 9), 2, bad_header), [5, 0, 0]),
        (data(one_insert(2), 1, 0), [6, 0, 0]),
        (one(1, 1_000_000), [6, 0, 0]),
        (changed(one(1, 0), 2, tail(trailer::STAR, b"?")), [7, 0, 0]),
        (
            changed(one(1, 0), 2, tail(trailer::COUNT, b"        3")),
            [8, 0, 0],
        ),
        (changed(data(two_inserts(), 2, 0), 2, bad_code), [9, 2, 1]),
        (changed(rows(), 3, cut), [4, 0, 0]),
        (
            changed(rows(), 2, tail(trailer::COUNT, b"        3")),
            [8, 0, 0],
        ),
    ]
}

fn both_refuse_alike(subject: &impl Subject) {
    for (call, [refusal, place, position]) in refused() {
        let returned = [refusal, place, position, 0, 0, 0, call.given];
        says(subject, &call, returned, returned, &call.lent[3]);
        assert_eq!(call.run(subject, 0).lent, call.lent);
    }
}

fn a_good_check_is_no_promise_for_the_morning(subject: &impl Subject) {
    let evening = data(one_insert(1), 1, 0);
    assert_eq!(check(subject, &evening).returned, [0, 0, 0, 1, 0, 0, 0]);
    // Tonight's second file is checked behind the first one's cycle.
    let second = data(one_insert(2), 1, 1);
    assert_eq!(check(subject, &second).returned, [0, 0, 0, 1, 0, 0, 1]);
    let other = data(file(DATE, 1, &insert(7, DATE), 1), 1, 0).run(subject, 0);
    assert_eq!(other.returned, [0, 0, 0, 1, 1, 0, 1]);
    let mut morning = evening;
    (morning.lent[0], morning.given) = (other.lent[0].clone(), other.returned[6]);
    let refused = [6, 0, 0, 0, 0, 0, 1];
    says(subject, &morning, refused, refused, &[UNWRITTEN]);
    assert_eq!(morning.run(subject, 0).lent, morning.lent);
}

fn keeps_the_cases(subject: &impl Subject) {
    good_checks_return_n(subject);
    both_refuse_alike(subject);
    a_good_check_is_no_promise_for_the_morning(subject);
}

#[test]
fn the_model_keeps_the_cases_of_checks() {
    keeps_the_cases(&MODEL);
}

#[test]
fn the_library_keeps_the_cases_of_checks() {
    keeps_the_cases(&Library);
}
