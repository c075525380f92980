//! One data record and one guide row: its answer, and what it does on 0.

use super::date::{day, Day};
use super::form::blank;
use super::guide::{clash, lowest_cover, same_row, same_street, Address};
use super::layout::{record, row, GUIDE_SLOT, REGISTER_SLOT, SLOT_HEAD};
use super::rules::Rules;
use super::store::{
    is_live, rows, slot_day, slot_number, slot_record, slots, FREE, HELD, OPEN, PRESENT, RESTING,
};

/// The answer byte of what is done.
pub const DONE: u8 = 0;

/// "The lowest slot not free with this number."
#[inline]
fn slot_of(register: &[u8], number: &[u8; 10]) -> Option<usize> {
    // The number is tested first: it alone nearly always decides.
    slots(register).position(|slot| slot_number(slot) == number && slot[0] != FREE)
}

/// "I on an absent number takes the lowest free slot, else the lowest such
/// resting slot": at least 90 days before the header's date.
fn room<R: Rules>(register: &[u8], today: Day) -> Option<usize> {
    let free = slots(register).position(|slot| slot[0] == FREE);
    free.or_else(|| {
        slots(register)
            .position(|slot| slot[0] == RESTING && slot_day(slot).0 + R::RESTING_DAYS <= today.0)
    })
}

/// The answer to a record that meets a slot, up to 17; "first hit decides".
fn standing(code: u8, whole: &[u8], date: Day, slot: Option<&[u8]>) -> u8 {
    let Some(slot) = slot else {
        return if code == b'I' { DONE } else { 13 };
    };
    let since = slot_day(slot);
    match (code, slot[0]) {
        (b'I', HELD | OPEN) => 12,
        (b'I', _) if date <= since => 17,
        (b'I', _) => DONE,
        (_, RESTING) => 13,
        (b'M', HELD) => 14,
        (b'C' | b'D' | b'U', OPEN) => 15,
        (b'C' | b'D' | b'U', _)
            if record::COMPANY_ID.of(whole) != record::COMPANY_ID.of(slot_record(slot)) =>
        {
            16
        }
        _ if date < since => 17,
        _ => DONE,
    }
}

/// Applies a record of good form to what the earlier ones left.
pub fn data_record<R: Rules>(register: &mut [u8], guide: &[u8], today: Day, whole: &[u8]) -> u8 {
    let date = day::<R>(record::DATE.of(whole)).expect("a record of good form");
    if date > today {
        return 11;
    }
    let number = whole[record::NPA.first - 1..record::CALLING_NUMBER.last]
        .try_into()
        .expect("2 to 11");
    let code = whole[0];
    let own = slot_of(register, number);
    let slot = own.map(|index| &register[index * REGISTER_SLOT..][..REGISTER_SLOT]);
    let answer = standing(code, whole, date, slot);
    if answer != DONE {
        return answer;
    }
    if matches!(code, b'U' | b'D') {
        let slot = own.expect("present by now");
        let state = if code == b'U' { OPEN } else { RESTING };
        write_head(register_slot(register, slot), state, date);
        return DONE;
    }
    let Some(cover) = lowest_cover(guide, &Address::of(whole)) else {
        return 18;
    };
    let esn = record::ESN.of(whole);
    if !blank(esn) && esn != row::ESN.of(cover) {
        return 19;
    }
    let Some(index) = own.or_else(|| room::<R>(register, today)) else {
        return 20;
    };
    let slot = register_slot(register, index);
    write_head(slot, HELD, date);
    slot[SLOT_HEAD..].copy_from_slice(whole);
    // Equal to the row's by now, or blank.
    record::ESN
        .of_mut(&mut slot[SLOT_HEAD..])
        .copy_from_slice(row::ESN.of(cover));
    DONE
}

fn register_slot(register: &mut [u8], index: usize) -> &mut [u8] {
    &mut register[index * REGISTER_SLOT..][..REGISTER_SLOT]
}

/// Writes a used slot's state and day.
fn write_head(slot: &mut [u8], state: u8, date: Day) {
    slot[0] = state;
    slot[1..5].copy_from_slice(&date.0.to_be_bytes());
    slot[5..SLOT_HEAD].fill(0);
}

/// Applies a row of good form to what the earlier ones left.
pub fn guide_row<R: Rules>(register: &[u8], guide: &mut [u8], whole: &[u8]) -> u8 {
    if row::FUNCTION.of(whole) == b"I" {
        insert_row::<R>(guide, whole)
    } else {
        delete_row(register, guide, whole)
    }
}

/// The index of the lowest present row that the test picks.
fn row_where(guide: &[u8], test: impl Fn(&[u8]) -> bool) -> Option<usize> {
    rows(guide).position(|slot| slot[0] == PRESENT && test(&slot[SLOT_HEAD..]))
}

/// "21 if some house number is covered by it and by a present row of the same
/// street fields; 22 if no free slot; else stored in the lowest."
fn insert_row<R: Rules>(guide: &mut [u8], whole: &[u8]) -> u8 {
    if row_where(guide, |other| {
        same_street(whole, other) && clash::<R>(whole, other)
    })
    .is_some()
    {
        return 21;
    }
    let Some(slot) = guide
        .chunks_exact_mut(GUIDE_SLOT)
        .find(|slot| slot[0] == FREE)
    else {
        return 22;
    };
    slot[0] = PRESENT;
    slot[SLOT_HEAD..].copy_from_slice(whole);
    DONE
}

/// "23 if no row has the same street fields, Low and High as numbers, parity and
/// ESN bytes; 24 if a held or open entry is covered by the lowest such row; else
/// that slot becomes all zero."
fn delete_row(register: &[u8], guide: &mut [u8], whole: &[u8]) -> u8 {
    let Some(index) = row_where(guide, |other| same_row(whole, other)) else {
        return 23;
    };
    let slot = &mut guide[index * GUIDE_SLOT..][..GUIDE_SLOT];
    let lies_under = |entry: &[u8]| {
        is_live(entry) && Address::of(slot_record(entry)).is_under(&slot[SLOT_HEAD..])
    };
    if slots(register).any(lies_under) {
        return 24;
    }
    slot.fill(0);
    DONE
}
