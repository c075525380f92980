//! Registers as they were written before, by the former reading of dates.

use super::{put, World};
use crate::call::Call;
use crate::model::convert::{convert_register, LAST_FORMER_DAY, MOVED};
use crate::model::date::{date_of, Day, Reading, LAST_DAY};
use crate::model::form::blank;
use crate::model::layout::{record, MOST_SLOTS, RECORD, REGISTER_SLOT, SLOT_HEAD};
use crate::model::store::{FREE, HELD, OPEN, RESTING};
use crate::model::Described;

/// Days at the edges: of both readings, of what has a reading now, of soundness.
const DAYS: [u32; 10] = [0, 1, 59, 10956, 10957, 25566, 25567, 25568, 36523, 36524];
/// Days that make a slot unsound, or leave it sound by chance.
const ODD_DAYS: [u32; 6] = [36525, 36526, u32::MAX, 25567, 25568, 0];

impl World {
    /// Makes an empty world one of before, up to this day by the former reading.
    pub fn into_old(mut self, last_day: Day) -> Self {
        self.reading = Reading::Former;
        self.last_day = last_day.0;
        self.today %= self.last_day + 1;
        self
    }

    /// An old world goes on by the present reading, with its register converted.
    pub fn renew(&mut self, register: &[u8]) {
        self.register = register.to_vec();
        self.reading = Reading::Present;
        self.last_day = LAST_DAY.0;
        self.today = (self.today + MOVED).min(self.last_day);
    }

    /// The conversion of a register: one of before made slot by slot, one that is
    /// converted already, or this world's own.
    pub fn convert(&mut self) -> Call {
        let register = match self.random.below(10) {
            0 => self.register.clone(),
            1 | 2 => {
                let mut register = self.old_register();
                convert_register::<Described>(&mut register);
                register
            }
            _ => self.old_register(),
        };
        Call::convert(register)
    }

    /// A register of a few slots, seldom of all that it may have.
    fn old_register(&mut self) -> Vec<u8> {
        let slots = match self.random.below(500) {
            0 => MOST_SLOTS,
            _ => self.random.pick(&[1, 1, 2, 3, 5, 8, 64]),
        };
        self.old_register_of(slots)
    }

    /// A register of so many slots: half of them have no late slot, others one,
    /// or two, and some a slot of an odd day.
    pub fn old_register_of(&mut self, slots: usize) -> Vec<u8> {
        let mut register = Vec::with_capacity(slots * REGISTER_SLOT);
        // Few states in a register: one without held slots converts twice.
        let states = self.random.pick(&[
            [FREE, HELD, OPEN, RESTING],
            [HELD, HELD, OPEN, RESTING],
            [FREE, OPEN, OPEN, RESTING],
            [FREE, FREE, RESTING, RESTING],
        ]);
        for _ in 0..slots {
            let state = self.random.pick(&states);
            let day = self.old_day(0, LAST_FORMER_DAY.0);
            register.extend(self.old_slot(state, day));
        }
        for _ in 0..self.random.pick(&[0, 0, 0, 1, 1, 2]) {
            let state = self.random.pick(&[HELD, OPEN, RESTING]);
            let day = self.old_day(LAST_FORMER_DAY.0 + 1, LAST_DAY.0);
            let late = self.old_slot(state, day);
            self.any_slot_of(&mut register).copy_from_slice(&late);
        }
        if self.random.chance(15) {
            let day = self.random.pick(&ODD_DAYS);
            let slot = self.any_slot_of(&mut register);
            slot[1..5].copy_from_slice(&day.to_be_bytes());
        }
        register
    }

    fn any_slot_of<'a>(&mut self, register: &'a mut [u8]) -> &'a mut [u8] {
        let index = self.random.below(register.len() / REGISTER_SLOT);
        &mut register[index * REGISTER_SLOT..][..REGISTER_SLOT]
    }

    /// A day of the range, often at an edge.
    fn old_day(&mut self, low: u32, high: u32) -> u32 {
        let edge = self.random.pick(&DAYS);
        if (low..=high).contains(&edge) && self.random.chance(60) {
            edge
        } else {
            self.random.between(low, high)
        }
    }

    /// A sound slot of this state and day, by the former reading.
    fn old_slot(&mut self, state: u8, day: u32) -> [u8; REGISTER_SLOT] {
        let mut slot = [0; REGISTER_SLOT];
        if state == FREE {
            return slot;
        }
        // "Its day equals the record's date if held and is no earlier if open or
        // resting."
        let filed = match state {
            HELD => day,
            _ => self.old_day(0, day),
        };
        let mut whole = self.entry();
        put(
            &mut whole,
            record::DATE,
            &date_of(Reading::Former, Day(filed)),
        );
        slot[0] = state;
        slot[1..5].copy_from_slice(&day.to_be_bytes());
        slot[SLOT_HEAD..].copy_from_slice(&whole);
        slot
    }

    /// A record as a used slot holds it: "code I, C or M, ESN not blank".
    fn entry(&mut self) -> [u8; RECORD] {
        let mut whole = self.record();
        while !matches!(whole[0], b'I' | b'C' | b'M') {
            whole = self.record();
        }
        if blank(record::ESN.of(&whole)) {
            put(&mut whole, record::ESN, b"83");
        }
        whole
    }
}
