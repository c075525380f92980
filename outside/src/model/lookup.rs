//! Lookup by number.

use super::results::Found;
use super::store::{register_fits, slot_number, slots, FREE, RESTING};

/// "Lookup tests only the register's length (1), then that ten digits are given
/// (10). The slot shown is the lowest used one with that number; a state byte
/// above 3 is skipped."
pub fn lookup(register: &[u8], number: &[u8]) -> Found {
    let refused = |refusal| Found {
        refusal,
        ..Found::default()
    };
    if !register_fits(register) {
        return refused(1);
    }
    let Ok(number) = <&[u8; 10]>::try_from(number) else {
        return refused(10);
    };
    if !number.iter().all(u8::is_ascii_digit) {
        return refused(10);
    }
    let mut all = slots(register);
    let every = all.len() as u32;
    let shown =
        |slot: &[u8]| slot_number(slot) == number && (FREE + 1..=RESTING).contains(&slot[0]);
    match all.position(shown) {
        None => Found {
            looked: every,
            ..Found::default()
        },
        Some(slot) => Found {
            refusal: 0,
            state: u32::from(slots(register).nth(slot).map_or(FREE, |slot| slot[0])),
            slot: slot as u32,
            looked: slot as u32 + 1,
        },
    }
}
