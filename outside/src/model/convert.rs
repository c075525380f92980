//! The conversion of a register that was written by the former reading of dates.

use super::date::Day;
use super::layout::REGISTER_SLOT;
use super::results::Converted;
use super::rules::{Former, Rules};
use super::store::{is_live, register_sound, slot_day, slots, FREE};

/// The day of 010100: so many days lie before the day that was 0.
pub const MOVED: u32 = 10957;
/// "A stored day above 25567 has no reading now": 123169 as it was.
pub const LAST_FORMER_DAY: Day = Day(25567);

/// "Converted once, by adding 10957 to each used slot's day; a stored day above
/// 25567 has no reading now and is reported by its slot": 28, "after 1 by the old
/// reading, nothing changed".
pub fn convert_register<R: Rules>(register: &mut [u8]) -> Converted {
    if !register_sound::<Former<R>>(register) {
        return Converted {
            refusal: 1,
            slot: 0,
        };
    }
    // The whole register is looked over before a byte is written.
    if let Some(slot) = slots(register).position(is_late::<R>) {
        return Converted {
            refusal: 28,
            slot: slot as u32,
        };
    }
    for slot in register.chunks_exact_mut(REGISTER_SLOT) {
        if is_moved::<R>(slot) {
            let Day(day) = slot_day(slot);
            slot[1..5].copy_from_slice(&(day + MOVED).to_be_bytes());
        }
    }
    Converted::default()
}

/// "Each used slot": held, open or resting.
fn is_moved<R: Rules>(slot: &[u8]) -> bool {
    if R::RESTING_CONVERTED {
        slot[0] != FREE
    } else {
        is_live(slot)
    }
}

/// Whether a used slot's day "has no reading now".
fn is_late<R: Rules>(slot: &[u8]) -> bool {
    is_moved::<R>(slot) && slot_day(slot) > LAST_FORMER_DAY
}
