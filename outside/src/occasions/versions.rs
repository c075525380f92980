//! Occasions of the two versions.

use super::{answered, register};
use crate::call::{Call, Op, Outcome};
use crate::model::form::blank;
use crate::model::layout::{narrow, record};
use crate::model::store::{
    is_live, register_sound, slot_number, slot_record, slots, FREE, OPEN, RESTING,
};
use crate::model::versions::{is_wide, BEYOND};
use crate::model::{Described, Version};
use crate::subject::Model;

/// Whether a slot is used and its record has no form in Version 1.
fn holds_wide(slot: &[u8]) -> bool {
    slot[0] != FREE && is_wide(slot_record(slot))
}

fn is_wide_entry(slot: &[u8]) -> bool {
    is_live(slot) && holds_wide(slot)
}

fn rests_wide(slot: &[u8]) -> bool {
    slot[0] == RESTING && holds_wide(slot)
}

/// Whether records of a file of this version were done.
fn is_done(call: &Call, outcome: &Outcome, version: Version) -> bool {
    call.op == Op::ApplyData && call.version == version && outcome.returned[4] > 0
}

pub fn done(call: &Call, outcome: &Outcome) -> bool {
    is_done(call, outcome, Version::One)
}

/// Afterwards the register has entries that only Version 2 can have filed.
pub fn beside(call: &Call, outcome: &Outcome) -> bool {
    done(call, outcome) && slots(&outcome.lent[0]).any(is_wide_entry)
}

/// The slot of a record's number.
fn slot_of<'a>(register: &'a [u8], whole: &[u8]) -> Option<&'a [u8]> {
    let number = &whole[record::NPA.first - 1..record::CALLING_NUMBER.last];
    slots(register).find(|slot| slot[0] != FREE && slot_number(slot) == number)
}

/// A record of this code was done where a wide entry stood.
pub fn over_wide<const CODE: u8>(call: &Call, outcome: &Outcome) -> bool {
    done(call, outcome)
        && slots(register(call)).any(is_wide_entry)
        && answered(call, outcome, 0).any(|whole| {
            let before = slot_of(register(call), &whole);
            whole[0] == CODE && before.is_some_and(is_wide_entry)
        })
}

pub fn made_wide(call: &Call, outcome: &Outcome) -> bool {
    is_done(call, outcome, Version::Two)
        && slots(register(call))
            .zip(slots(&outcome.lent[0]))
            .any(|(before, after)| {
                is_live(before)
                    && !holds_wide(before)
                    && holds_wide(after)
                    && slot_record(after)[0] == b'C'
            })
}

/// The street has as many bytes as Version 1 has for it.
pub fn longest(call: &Call, outcome: &Outcome) -> bool {
    let last = narrow::record::STREET.last - 1;
    done(call, outcome) && answered(call, outcome, 0).any(|whole| whole[last] != b' ')
}

/// The fault is the code, and it is this one.
pub fn unknown<const CODE: u8>(call: &Call, outcome: &Outcome) -> bool {
    call.op.has_records()
        && call.version == Version::One
        && outcome.returned[..1] == [9]
        && outcome.returned[2] == 1
        && {
            let before = outcome.returned[1] as usize - 1;
            call.lent[2][call.version.edge() + before * call.version.record()] == CODE
        }
}

/// Refused so, but said to be of the other version it is a good file.
fn lent_as(call: &Call, outcome: &Outcome, version: Version, refusal: u32) -> bool {
    call.op == Op::CheckData && call.version == version && outcome.refusal() == refusal && {
        let mut other = call.clone();
        other.version = version.other();
        other.run(&Model::<Described>::new(), 0).refusal() == 0
    }
}

pub fn lent_as_two<const REFUSAL: u32>(call: &Call, outcome: &Outcome) -> bool {
    lent_as(call, outcome, Version::Two, REFUSAL)
}

pub fn lent_as_one<const REFUSAL: u32>(call: &Call, outcome: &Outcome) -> bool {
    lent_as(call, outcome, Version::One, REFUSAL)
}

/// Whether a Version 1 load file is answered so.
fn loads(call: &Call, outcome: &Outcome, refusal: u32) -> bool {
    call.op == Op::WriteLoad && call.version == Version::One && outcome.refusal() == refusal
}

/// The slot that 27 tells, and its record.
fn told<'a>(call: &'a Call, outcome: &Outcome) -> Option<&'a [u8]> {
    let slot = outcome.returned.get(3).copied().unwrap_or(0);
    slots(register(call))
        .nth(slot as usize)
        .filter(|_| loads(call, outcome, 27))
}

/// Only this part of the record that 27 tells has no place in Version 1.
pub fn wide_by<const PART: usize>(call: &Call, outcome: &Outcome) -> bool {
    told(call, outcome).is_some_and(|slot| {
        let stands = BEYOND.map(|part| !blank(part.of(slot_record(slot))));
        let alone: [bool; BEYOND.len()] = std::array::from_fn(|part| part == PART);
        stands == alone
    })
}

pub fn above_0(call: &Call, outcome: &Outcome) -> bool {
    told(call, outcome).is_some() && outcome.returned[3] > 0
}

pub fn wide_open(call: &Call, outcome: &Outcome) -> bool {
    told(call, outcome).is_some_and(|slot| slot[0] == OPEN)
}

/// What rests is not written, so that the slot that is told is a later one.
pub fn behind_resting(call: &Call, outcome: &Outcome) -> bool {
    told(call, outcome).is_some() && {
        let before = outcome.returned[3] as usize;
        slots(register(call)).take(before).any(rests_wide)
    }
}

/// 25 comes after 27.
pub fn wide_and_short(call: &Call, outcome: &Outcome) -> bool {
    told(call, outcome).is_some() && {
        let entries = slots(register(call)).filter(|slot| is_live(slot)).count();
        call.lent[3].len() < call.version.file(entries)
    }
}

/// 26 comes before it.
pub fn wide_and_early(call: &Call, outcome: &Outcome) -> bool {
    loads(call, outcome, 26)
        && register_sound::<Described>(register(call))
        && slots(register(call)).any(is_wide_entry)
}

pub fn with_entries(call: &Call, outcome: &Outcome) -> bool {
    loads(call, outcome, 0) && outcome.returned[2] > 0
}

pub fn past_resting(call: &Call, outcome: &Outcome) -> bool {
    with_entries(call, outcome) && slots(register(call)).any(rests_wide)
}

/// It is written as an I, as Version 1 has no M.
pub fn with_migrated(call: &Call, outcome: &Outcome) -> bool {
    with_entries(call, outcome)
        && slots(register(call)).any(|slot| is_live(slot) && slot_record(slot)[0] == b'M')
}
