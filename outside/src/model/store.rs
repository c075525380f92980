//! Register and guide: lengths, slots and their soundness.

use super::date::{day, Day, LAST_DAY};
use super::form::{blank, record_fault, row_fault};
use super::layout::{record, row, GUIDE_SLOT, MOST_SLOTS, REGISTER_SLOT, SLOT_HEAD};
use super::rules::Rules;
use super::versions::Version;

/// A slot's state byte.
pub const FREE: u8 = 0;
/// The number is in service.
pub const HELD: u8 = 1;
/// The number is unlocked.
pub const OPEN: u8 = 2;
/// The number is deleted and waits.
pub const RESTING: u8 = 3;
/// The state byte of a present guide row.
pub const PRESENT: u8 = 1;

/// NPA and Calling Number in a slot.
const NUMBER_AT: usize = SLOT_HEAD + record::NPA.first - 1;
/// Where the number ends in a slot.
const NUMBER_END: usize = SLOT_HEAD + record::CALLING_NUMBER.last;

/// "1 to 4096 slots".
fn fits(store: &[u8], slot: usize) -> bool {
    let slots = store.len() / slot;
    store.len().is_multiple_of(slot) && (1..=MOST_SLOTS).contains(&slots)
}

/// Whether the length is that of a register.
pub fn register_fits(register: &[u8]) -> bool {
    fits(register, REGISTER_SLOT)
}

/// The slots of a register.
pub fn slots(register: &[u8]) -> std::slice::ChunksExact<'_, u8> {
    register.chunks_exact(REGISTER_SLOT)
}

/// The slots of a guide.
pub fn rows(guide: &[u8]) -> std::slice::ChunksExact<'_, u8> {
    guide.chunks_exact(GUIDE_SLOT)
}

/// "Byte 1-4 day number, high byte first."
#[inline]
pub fn slot_day(slot: &[u8]) -> Day {
    Day(u32::from_be_bytes([slot[1], slot[2], slot[3], slot[4]]))
}

/// The ten digits of a slot's number.
#[inline(always)]
pub fn slot_number(slot: &[u8]) -> &[u8] {
    &slot[NUMBER_AT..NUMBER_END]
}

/// The record of a slot.
#[inline(always)]
pub fn slot_record(slot: &[u8]) -> &[u8] {
    &slot[SLOT_HEAD..]
}

/// Whether a slot is held or open.
pub fn is_live(slot: &[u8]) -> bool {
    matches!(slot[0], HELD | OPEN)
}

/// Whether no byte is other than zero; without a branch, as `printable`.
fn all_zero(bytes: &[u8]) -> bool {
    bytes.iter().fold(0, |all, byte| all | byte) == 0
}

/// Whether a register's length and every slot are sound.
pub fn register_sound<R: Rules>(register: &[u8]) -> bool {
    register_fits(register) && slots(register).all(slot_sound::<R>)
}

/// "A free slot is all zero. A sound used slot holds a record of good form with
/// code I, C or M, ESN not blank; its day equals the record's date if held and
/// is no earlier if open or resting, at most 36524."
fn slot_sound<R: Rules>(slot: &[u8]) -> bool {
    if slot[0] == FREE {
        return all_zero(slot);
    }
    let whole = slot_record(slot);
    slot[0] <= RESTING
        && slot[5..SLOT_HEAD] == [0, 0, 0]
        && matches!(whole[0], b'I' | b'C' | b'M')
        && record_fault::<R>(Version::Two, whole).is_none()
        && !blank(record::ESN.of(whole))
        && day::<R>(record::DATE.of(whole)).is_some_and(|filed| {
            let since = slot_day(slot);
            if slot[0] == HELD {
                since == filed
            } else {
                since >= filed && since <= LAST_DAY
            }
        })
}

/// Whether a guide's length and every slot are sound.
pub fn guide_sound<R: Rules>(guide: &[u8]) -> bool {
    fits(guide, GUIDE_SLOT) && rows(guide).all(row_sound::<R>)
}

/// "Byte 0 is 0 or 1; 1-7 zero; 8-207 the row, of good form with code I. A free
/// one is all zero."
fn row_sound<R: Rules>(slot: &[u8]) -> bool {
    match slot[0] {
        FREE => all_zero(slot),
        PRESENT => {
            let whole = &slot[SLOT_HEAD..];
            all_zero(&slot[1..SLOT_HEAD])
                && row::FUNCTION.of(whole) == b"I"
                && row_fault::<R>(whole).is_none()
        }
        _ => false,
    }
}
