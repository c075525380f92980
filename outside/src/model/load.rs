//! Writing a load file.

use super::date::{day, LAST_CYCLE};
use super::form::{blank, printable};
use super::layout::{header, narrow, record, trailer, Field};
use super::results::Loaded;
use super::rules::Rules;
use super::store::{is_live, register_sound, slot_day, slot_record, slots};
use super::versions::{self, is_wide, Version};

/// The entries of a register: held and open slots.
fn live(register: &[u8]) -> impl Iterator<Item = &[u8]> {
    slots(register).filter(|slot| is_live(slot))
}

/// "Header, then each held and open record in slot order with Function `I` and
/// Source `C`, then trailer", of either version.
pub fn write_load<R: Rules>(
    version: Version,
    register: &[u8],
    date: &[u8],
    name: &[u8],
    cycle: u32,
    out: &mut [u8],
) -> Loaded {
    let refused = refusal::<R>(version, register, date, name, cycle, out.len());
    if refused.refusal != 0 {
        return refused;
    }
    let entries = live(register).count();
    let out = &mut out[..version.file(entries)];
    let bytes = out.len() as u32;
    let (head, rest) = out.split_at_mut(version.edge());
    let (records, tail) = rest.split_at_mut(entries * version.record());
    write_edge(head, header::MARK, date, name);
    write_left(header::CYCLE.of_mut(head), cycle);
    let written = records.chunks_exact_mut(version.record());
    for (written, slot) in written.zip(live(register)) {
        write_entry(version, written, slot_record(slot));
    }
    write_edge(tail, trailer::MARK, date, name);
    write_right(trailer::COUNT.of_mut(tail), entries as u32);
    Loaded {
        bytes,
        entries: entries as u32,
        ..Loaded::default()
    }
}

/// "Refused in this order": 1, then 26, then 27 "after 26 and before 25, with the
/// lowest such entry's slot", then 25; 0 if none hits.
fn refusal<R: Rules>(
    version: Version,
    register: &[u8],
    date: &[u8],
    name: &[u8],
    cycle: u32,
    room: usize,
) -> Loaded {
    let refused = |refusal, slot| Loaded {
        refusal,
        slot,
        ..Loaded::default()
    };
    if !register_sound::<R>(register) {
        return refused(1, 0);
    }
    if !header_keeps::<R>(register, date, name, cycle) {
        return refused(26, 0);
    }
    let fits = version.file(live(register).count()) <= room;
    match wide_slot(version, register) {
        Some(slot) if R::WIDE_FIRST || fits => {
            refused(27, if R::WIDE_SLOT_TOLD { slot as u32 } else { 0 })
        }
        _ if !fits => refused(25, 0),
        _ => refused(0, 0),
    }
}

/// Not so is 26: "if date, name or cycle breaks the header's rules or the date is
/// before an entry's day".
fn header_keeps<R: Rules>(register: &[u8], date: &[u8], name: &[u8], cycle: u32) -> bool {
    let is_past = |today| live(register).all(|slot| slot_day(slot) <= today);
    day::<R>(date).is_some_and(is_past)
        && name_keeps::<R>(name)
        && (1..=LAST_CYCLE).contains(&cycle)
}

/// The lowest entry's slot that has no form in the version.
fn wide_slot(version: Version, register: &[u8]) -> Option<usize> {
    match version {
        Version::One => {
            slots(register).position(|slot| is_live(slot) && is_wide(slot_record(slot)))
        }
        Version::Two => None,
    }
}

/// An entry in a load file.
fn write_entry(version: Version, written: &mut [u8], stored: &[u8]) {
    let (function, source) = match version {
        Version::One => {
            written.copy_from_slice(&versions::narrow(stored));
            (narrow::record::FUNCTION, narrow::record::SOURCE)
        }
        Version::Two => {
            written.copy_from_slice(stored);
            (record::FUNCTION, record::SOURCE)
        }
    };
    function.of_mut(written)[0] = b'I';
    source.of_mut(written)[0] = b'C';
}

/// "The company name is not blank", and it is a field of 50 bytes.
fn name_keeps<R: Rules>(name: &[u8]) -> bool {
    name.len() == header::NAME.length()
        && printable(name)
        && !blank(name)
        && (name[0] != b' ' || !R::LEFT_JUSTIFIED)
}

/// Header and trailer but for cycle and count; "free parts are spaces", up to the
/// `*` that is the last byte.
fn write_edge(edge: &mut [u8], mark: Field, date: &[u8], name: &[u8]) {
    use super::layout::Form;
    let (last, before) = edge.split_last_mut().expect("a whole header or trailer");
    *last = b'*';
    before.fill(b' ');
    if let Form::Mark(letters) = mark.form {
        mark.of_mut(edge).copy_from_slice(letters);
    }
    header::DATE.of_mut(edge).copy_from_slice(date);
    header::NAME.of_mut(edge).copy_from_slice(name);
}

/// The number at the field's left, no leading zero.
fn write_left(field: &mut [u8], value: u32) {
    let figures = value.to_string();
    field[..figures.len()].copy_from_slice(figures.as_bytes());
}

/// The number at the field's right, no leading zero.
fn write_right(field: &mut [u8], value: u32) {
    let figures = value.to_string();
    let start = field.len() - figures.len();
    field[start..].copy_from_slice(figures.as_bytes());
}
