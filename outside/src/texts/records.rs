//! Records that are to be written, damaged.

use crate::damage::{texts, BYTES};
use crate::gen::put;
use crate::model::layout::{record, Form, RECORD};
use crate::model::tagged::UNLABELLED;
use crate::random::Random;

/// Zip with Zip+4, and what is neither blank nor five digits nor five and four.
pub const ZIP_FORMS: [&[u8; 9]; 10] = [
    b"         ",
    b"97301    ",
    b"973011234",
    b"    1234 ",
    b"     1234",
    b"9730     ",
    b"9730 1234",
    b"9730112  ",
    b"97301A234",
    b"K1A0B1   ",
];
/// The main number, and what is neither blank nor ten digits.
pub const MAIN_FORMS: [&[u8; 10]; 8] = [
    b"          ",
    b"5035550199",
    b"   5550199",
    b"503       ",
    b"50 5550199",
    b"503555019 ",
    b"503555O199",
    b"5035550 99",
];

/// Writes Zip and Zip+4 of a record.
pub fn put_zip(whole: &mut [u8], form: &[u8; 9]) {
    whole[record::ZIP.first - 1..record::ZIP4.last].copy_from_slice(form);
}

/// Writes Main NPA and Main Number of a record.
pub fn put_main(whole: &mut [u8], form: &[u8; 10]) {
    whole[record::MAIN_NPA.first - 1..record::MAIN_NUMBER.last].copy_from_slice(form);
}

/// Damages a record that is to be written: a field by its rules, a field without a
/// label, `|` in any field, Zip, main number or the length.
pub fn damage_record(random: &mut Random, whole: &mut Vec<u8>) {
    match random.below(8) {
        0 => {
            let field = random.pick(&UNLABELLED);
            put(whole, field, random.pick(&[b"C", b"1", b"r", b" "]));
        }
        1 => {
            let field = random.pick(&record::FIELDS);
            field.of_mut(whole)[random.below(field.length())] = b'|';
        }
        2 => put_zip(whole, random.pick(&ZIP_FORMS)),
        3 => put_main(whole, random.pick(&MAIN_FORMS)),
        4 => whole[random.below(RECORD)] = random.pick(BYTES),
        5 if random.chance(20) => {
            let length = random.pick(&[0, 1, 511, 513, 1024]);
            whole.resize(length, b' ');
        }
        _ => {
            let field = random.pick(&record::FIELDS);
            let text = random.pick(texts(field.form));
            put(whole, field, &text[..text.len().min(field.length())]);
        }
    }
}

/// Whether a field of this form may hold `|` in a record of good form.
pub fn may_hold_a_bar(form: Form) -> bool {
    matches!(form, Form::Text | Form::Free)
}
