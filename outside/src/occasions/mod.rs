//! What must come up beside the numbers: conversions of each kind, decisions
//! between a date of the last century and one of this, how far a check goes, and
//! what files of one version do beside those of the other.

mod versions;

use crate::call::{Call, Op, Outcome};
use crate::model::convert::{LAST_FORMER_DAY, MOVED};
use crate::model::date::{day, Day};
use crate::model::layout::{header, record, MOST_RECORDS, RECORD};
use crate::model::store::{
    is_live, register_fits, register_sound, slot_day, slot_number, slots, FREE, HELD, OPEN, RESTING,
};
use crate::model::versions::as_stored;
use crate::model::{Described, Former};
use crate::subject::Model;

/// Whether a call and its outcome are such an occasion.
type CameUp = fn(&Call, &Outcome) -> bool;

/// All of them, with their names.
pub const OCCASIONS: [(&str, CameUp); 42] = [
    ("a held slot converted", is_converted::<HELD>),
    ("an open slot converted", is_converted::<OPEN>),
    ("a resting slot converted", is_converted::<RESTING>),
    ("a slot converted to the last day", last_day),
    ("a converted register converted again", again),
    ("a held late slot", is_late::<HELD>),
    ("an open late slot", is_late::<OPEN>),
    ("a resting late slot", is_late::<RESTING>),
    ("a late slot of the first late day", first_late_day),
    ("a late slot behind a sound one", late_behind_sound),
    ("a late slot before an unsound one", late_before_unsound),
    ("11 across the century", too_new),
    ("17 across the century", too_old),
    ("20 across the century", no_room),
    ("a slot reused across the century", reused),
    ("26 across the century", load_too_old),
    ("a check refused by 4 alone", short_of_answers),
    ("a good check, every record turned away", turned_away),
    ("a Version 1 record done", versions::done),
    (
        "a Version 1 record done beside a wide entry",
        versions::beside,
    ),
    ("a Version 1 C on a wide entry", versions::over_wide::<b'C'>),
    ("a Version 1 D on a wide entry", versions::over_wide::<b'D'>),
    (
        "a Version 2 C that makes an entry wide",
        versions::made_wide,
    ),
    (
        "a Version 1 record of the longest street done",
        versions::longest,
    ),
    ("a Version 1 U, 9 at 1", versions::unknown::<b'U'>),
    ("a Version 1 M, 9 at 1", versions::unknown::<b'M'>),
    (
        "a good Version 1 file lent as Version 2, 3",
        versions::lent_as_two::<3>,
    ),
    (
        "a good Version 1 file lent as Version 2, 5",
        versions::lent_as_two::<5>,
    ),
    (
        "a good Version 2 file lent as Version 1, 3",
        versions::lent_as_one::<3>,
    ),
    (
        "a good Version 2 file lent as Version 1, 5",
        versions::lent_as_one::<5>,
    ),
    ("27 for Street Name alone", versions::wide_by::<0>),
    ("27 for Location alone", versions::wide_by::<1>),
    ("27 for Customer Code to TAR alone", versions::wide_by::<2>),
    ("27 for Reserved alone", versions::wide_by::<3>),
    ("27 of a slot above 0", versions::above_0),
    ("27 of an open slot", versions::wide_open),
    ("27 behind a resting wide slot", versions::behind_resting),
    (
        "27 where the room is too short too",
        versions::wide_and_short,
    ),
    ("26 where an entry is wide too", versions::wide_and_early),
    ("a Version 1 load file with entries", versions::with_entries),
    (
        "a Version 1 load file past a resting wide slot",
        versions::past_resting,
    ),
    (
        "a Version 1 load file with what an M stored",
        versions::with_migrated,
    ),
];

/// The register that is lent; every call has it first.
fn register(call: &Call) -> &[u8] {
    &call.lent[0]
}

fn used(register: &[u8]) -> impl Iterator<Item = &[u8]> {
    slots(register).filter(|slot| slot[0] != FREE)
}

/// Whether a conversion is answered so.
fn converts(call: &Call, outcome: &Outcome, refusal: u32) -> bool {
    call.op == Op::ConvertRegister && outcome.refusal() == refusal
}

fn is_converted<const STATE: u8>(call: &Call, outcome: &Outcome) -> bool {
    converts(call, outcome, 0) && slots(register(call)).any(|slot| slot[0] == STATE)
}

fn last_day(call: &Call, outcome: &Outcome) -> bool {
    converts(call, outcome, 0)
        && slots(register(call)).any(|slot| slot_day(slot) == LAST_FORMER_DAY)
}

/// By its days, at least, the register may have been converted before.
fn again(call: &Call, outcome: &Outcome) -> bool {
    converts(call, outcome, 0)
        && used(register(call)).next().is_some()
        && used(register(call)).all(|slot| slot_day(slot).0 >= MOVED)
}

/// The slot that refusal 28 names.
fn late_slot<'a>(call: &'a Call, outcome: &Outcome) -> Option<&'a [u8]> {
    let late = converts(call, outcome, 28);
    slots(register(call))
        .nth(outcome.returned[1] as usize)
        .filter(|_| late)
}

fn is_late<const STATE: u8>(call: &Call, outcome: &Outcome) -> bool {
    late_slot(call, outcome).is_some_and(|slot| slot[0] == STATE)
}

fn first_late_day(call: &Call, outcome: &Outcome) -> bool {
    late_slot(call, outcome).is_some_and(|slot| slot_day(slot).0 == LAST_FORMER_DAY.0 + 1)
}

fn late_behind_sound(call: &Call, outcome: &Outcome) -> bool {
    let before = outcome.returned[1] as usize;
    converts(call, outcome, 28)
        && slots(register(call))
            .take(before)
            .any(|slot| slot[0] != FREE)
}

/// Refusal 1 comes first even if the late slot is the lower one.
fn late_before_unsound(call: &Call, outcome: &Outcome) -> bool {
    // A slot is a register of one.
    let is_sound = |slot: &&[u8]| register_sound::<Former<Described>>(slot);
    converts(call, outcome, 1)
        && register_fits(register(call))
        && slots(register(call))
            .take_while(is_sound)
            .any(|slot| slot[0] != FREE && slot_day(slot) > LAST_FORMER_DAY)
}

fn is_last_century(date: &[u8]) -> bool {
    day::<Described>(date).is_some_and(|Day(number)| number < MOVED)
}

fn is_this_century(date: &[u8]) -> bool {
    day::<Described>(date).is_some_and(|Day(number)| number >= MOVED)
}

/// The records of a data file that were answered so, as they would be stored.
fn answered<'a>(
    call: &'a Call,
    outcome: &'a Outcome,
    answer: u8,
) -> impl Iterator<Item = [u8; RECORD]> + 'a {
    let taken = call.op == Op::ApplyData && outcome.refusal() == 0;
    let parts = taken.then(|| {
        let applied = outcome.returned[3] as usize;
        let records = call.lent[2][call.version.edge()..].chunks_exact(call.version.record());
        records.zip(&outcome.lent[3][..applied])
    });
    parts
        .into_iter()
        .flatten()
        .filter(move |(_, given)| **given == answer)
        .map(|(whole, _)| as_stored(call.version, whole))
}

fn file_date(call: &Call) -> &[u8] {
    header::DATE.of(&call.lent[2])
}

/// A record of this century in a file of the last.
fn too_new(call: &Call, outcome: &Outcome) -> bool {
    answered(call, outcome, 11)
        .any(|whole| is_last_century(file_date(call)) && is_this_century(record::DATE.of(&whole)))
}

/// A record of the last century for a number that has a day of this.
fn too_old(call: &Call, outcome: &Outcome) -> bool {
    answered(call, outcome, 17).any(|whole| {
        let number = &whole[record::NPA.first - 1..record::CALLING_NUMBER.last];
        is_last_century(record::DATE.of(&whole))
            && used(register(call))
                .any(|slot| slot_number(slot) == number && slot_day(slot).0 >= MOVED)
    })
}

fn rests_since_last_century(slot: &[u8]) -> bool {
    slot[0] == RESTING && slot_day(slot).0 < MOVED
}

/// A number rests since the last century, in a file of this not yet long enough.
fn no_room(call: &Call, outcome: &Outcome) -> bool {
    answered(call, outcome, 20).next().is_some()
        && is_this_century(file_date(call))
        && slots(register(call)).any(rests_since_last_century)
}

/// A number rests since the last century, and a file of this gave its slot away.
fn reused(call: &Call, outcome: &Outcome) -> bool {
    call.op == Op::ApplyData
        && outcome.refusal() == 0
        && is_this_century(file_date(call))
        && slots(register(call))
            .zip(slots(&outcome.lent[0]))
            .any(|(before, after)| {
                rests_since_last_century(before) && slot_number(before) != slot_number(after)
            })
}

/// A load file dated in the last century, an entry of this.
fn load_too_old(call: &Call, outcome: &Outcome) -> bool {
    call.op == Op::WriteLoad
        && outcome.refusal() == 26
        && is_last_century(&call.lent[1])
        && slots(register(call)).any(|slot| is_live(slot) && slot_day(slot).0 >= MOVED)
}

/// With more answers the same check is good.
fn short_of_answers(call: &Call, outcome: &Outcome) -> bool {
    let is_check = matches!(call.op, Op::CheckData | Op::CheckGuide);
    is_check && outcome.refusal() == 4 && {
        let mut longer = call.clone();
        longer.lent[3] = vec![0; MOST_RECORDS];
        longer.run(&Model::<Described>::new(), 0).refusal() == 0
    }
}

/// The check before it was good, or it would not have foretold this.
fn turned_away(call: &Call, outcome: &Outcome) -> bool {
    let is_apply = call.op.check().is_some();
    is_apply && outcome.returned[3] > 0 && outcome.returned[4] == 0
}
