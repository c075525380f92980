//! Damage to tagged texts, part by part and byte by byte.

use super::parts::{longest_value, Parts};
use crate::damage::{texts, BYTES};
use crate::model::tagged::{Tag, Wording, TAGS};
use crate::random::Random;

/// Labels of the exhibit that are not taken.
pub const NOT_TAKEN: [&[u8; 3]; 21] = [
    b"STI", b"PCN", b"LMK", b"ARA", b"CBN", b"PNI", b"CPS", b"ALT", b"RCN", b"SAI", b"CLI", b"GU2",
    b"GU3", b"GU4", b"GU5", b"GU6", b"GU7", b"GU8", b"LON", b"LAT", b"ELV",
];
/// What may stand before the first `|`; only the first is right.
pub const HEADS: [&[u8]; 9] = [
    b"DAT", b"RTN", b"DATX", b"dat", b"DA", b"", b"DAT ", b"XDAT", b"DAT\n",
];
/// What may stand at the end; only the first is right.
pub const ENDS: [&[u8]; 7] = [b"\n", b"", b"\n\n", b"\r\n", b"\n ", b" \n", b"|\n"];
/// Completion dates in their form and in others, years at both edges, and days
/// that do not exist.
const DATES: [&[u8]; 26] = [
    b"1970-01-01",
    b"2069-12-31",
    b"1969-12-31",
    b"2070-01-01",
    b"1999-12-31",
    b"2000-01-01",
    b"2000-02-29",
    b"1970-02-29",
    b"2001-02-29",
    b"2024-13-01",
    b"2024-00-10",
    b"2024-04-31",
    b"1870-01-01",
    b"2170-01-01",
    b"2099-01-01",
    b"1900-01-01",
    b"1959-06-01",
    b"010100",
    b"2000/01/01",
    b"01-01-2000",
    b"2000-01-1",
    b"2000-01-01 ",
    b"20000101",
    b"2O00-01-01",
    b"2000-01-0:",
    b"",
];
/// Numbers of nine, ten and eleven digits, and with other bytes.
const NUMBERS: [&[u8]; 10] = [
    b"503555010",
    b"5035550100",
    b"50355501000",
    b"5035550100 ",
    b" 5035550100",
    b"503555 100",
    b"503-555-01",
    b"50355501O0",
    b"          ",
    b"",
];
/// Zip codes and what is none.
const ZIPS: [&[u8]; 15] = [
    b"97301",
    b"97301-1234",
    b"973011234",
    b"K1A0B1",
    b"9730",
    b"97301-",
    b"97301-123",
    b"97301-12345",
    b"97301 1234",
    b"97301-123A",
    b"9730A-1234",
    b"     -1234",
    b"97301    ",
    b" 97301",
    b"",
];

/// Values that a label may or may not have.
pub fn values(tag: &Tag) -> &'static [&'static [u8]] {
    match tag.wording {
        Wording::Plain => texts(tag.field.form),
        Wording::TenDigits => &NUMBERS,
        Wording::CalendarDate => &DATES,
        Wording::Postal => &ZIPS,
    }
}

/// A label with a value.
pub fn pair(label: &[u8], value: &[u8]) -> Vec<u8> {
    [label, value].concat()
}

/// Damages a text, often at more than one place: that shows the order of the tests.
pub fn damaged(random: &mut Random, mut parts: Parts) -> Vec<u8> {
    for _ in 0..random.pick(&[1, 1, 1, 2, 2, 3]) {
        damage_parts(random, &mut parts);
    }
    let mut text = parts.text();
    if random.chance(15) {
        damage_bytes(random, &mut text);
    }
    text
}

/// Changes labels, values, the head or the end.
fn damage_parts(random: &mut Random, parts: &mut Parts) {
    match random.below(20) {
        0 => parts.head = random.pick(&HEADS).to_vec(),
        1 => parts.end = random.pick(&ENDS).to_vec(),
        2 if !parts.pairs.is_empty() => {
            parts.pairs.remove(random.below(parts.pairs.len()));
        }
        3..=5 => damage_label(random, parts),
        6 | 7 => damage_value(random, parts),
        8 | 9 => put_twice(random, parts),
        _ => put_value(random, parts),
    }
}

/// Any of the 28.
fn some_tag(random: &mut Random) -> &'static Tag {
    &TAGS[random.below(TAGS.len())]
}

fn insert(random: &mut Random, parts: &mut Parts, new: Vec<u8>) {
    parts.pairs.insert(random.below(parts.pairs.len() + 1), new);
}

/// A pair once more, as it stands or without its value.
fn put_twice(random: &mut Random, parts: &mut Parts) {
    if let Some(at) = some_pair(random, parts) {
        let mut again = parts.pairs[at].clone();
        if random.chance(30) {
            again.truncate(3);
        }
        insert(random, parts, again);
    }
}

/// Gives a label a value that it may or may not have; seldom it stands twice then.
fn put_value(random: &mut Random, parts: &mut Parts) {
    let tag = some_tag(random);
    let value = if random.chance(20) {
        of_length(random, tag)
    } else {
        random.pick(values(tag)).to_vec()
    };
    if random.chance(90) {
        parts.pairs.retain(|old| !old.starts_with(&tag.label));
    }
    insert(random, parts, pair(&tag.label, &value));
}

fn some_pair(random: &mut Random, parts: &Parts) -> Option<usize> {
    (!parts.pairs.is_empty()).then(|| random.below(parts.pairs.len()))
}

/// A value that is as long as it may be, or longer by one: of letters, or of
/// spaces at its end.
fn of_length(random: &mut Random, tag: &Tag) -> Vec<u8> {
    let length = longest_value(tag) + random.below(2);
    let letter = random.pick(b"A1");
    let letters = random.pick(&[length, 1, length - 1]);
    let mut value = vec![letter; letters];
    value.resize(length, b' ');
    value
}

/// Another label, the same in small letters, with another byte or cut short.
fn damage_label(random: &mut Random, parts: &mut Parts) {
    let Some(at) = some_pair(random, parts) else {
        return;
    };
    let old = &mut parts.pairs[at];
    match random.below(5) {
        0 => old.truncate(random.below(4)),
        1 => old.make_ascii_lowercase(),
        2 if !old.is_empty() => {
            let byte = random.below(old.len().min(3));
            old[byte] = random.pick(BYTES);
        }
        3 => parts.pairs.push(random.pick(&NOT_TAKEN).to_vec()),
        _ => {
            let label = random.pick(&NOT_TAKEN);
            *old = pair(label, old.get(3..).unwrap_or_default());
        }
    }
}

/// Spaces at a value's end, no value, or another byte in it, `|` and a newline
/// among them.
fn damage_value(random: &mut Random, parts: &mut Parts) {
    let Some(at) = some_pair(random, parts) else {
        return;
    };
    let old = &mut parts.pairs[at];
    match random.below(6) {
        0 => old.truncate(3),
        1 | 2 => old.resize(old.len() + 1 + random.below(3), b' '),
        _ if old.len() > 3 => {
            let byte = 3 + random.below(old.len() - 3);
            old[byte] = some_byte(random);
        }
        _ => {}
    }
}

fn some_byte(random: &mut Random) -> u8 {
    match random.below(4) {
        0 => random.bits() as u8,
        1 => random.pick(b"|\n"),
        _ => random.pick(BYTES),
    }
}

/// Cuts a text at any byte, changes, adds or leaves out one, or doubles the text.
fn damage_bytes(random: &mut Random, text: &mut Vec<u8>) {
    if text.is_empty() {
        return;
    }
    let at = random.below(text.len());
    match random.below(6) {
        0 | 1 => text.truncate(at),
        2 => text[at] = some_byte(random),
        3 => text.insert(at, some_byte(random)),
        4 => drop(text.remove(at)),
        _ => text.extend_from_within(..),
    }
}

/// Any bytes, or pairs of nothing but labels and odd values.
pub fn random_text(random: &mut Random) -> Vec<u8> {
    if random.chance(50) {
        let length = random.below(40);
        return (0..length).map(|_| random.bits() as u8).collect();
    }
    let pairs = (0..random.below(30)).map(|_| {
        let tag = some_tag(random);
        pair(&tag.label, random.pick(values(tag)))
    });
    Parts {
        pairs: pairs.collect(),
        head: b"DAT".to_vec(),
        end: b"\n".to_vec(),
    }
    .text()
}
