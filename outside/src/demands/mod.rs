//! The brief's demands 2 and 3 on a run from empty stores, by a history that is
//! kept apart from the model: what was filed and answered, and nothing else.

mod streets;
mod wide;

use crate::call::{Call, Op, Outcome};
use crate::gen::NAME;
use crate::model::layout::{record, REGISTER_SLOT, SLOT_HEAD};
use crate::model::Version;
use crate::subject::Subject;
use std::collections::HashMap;
use streets::Streets;
use wide::{has_form, wide};

/// No entry is later.
const LAST_DATE: &[u8; 6] = b"123169";

/// What a number's accepted records say of it.
struct Entry {
    /// The last accepted insert, change or migrate.
    filed: Vec<u8>,
    /// The company that has it.
    company: Vec<u8>,
    /// Unlocked and not yet migrated.
    open: bool,
}

/// The accepted records of a run, in the order of taking.
#[derive(Default)]
pub struct History {
    entries: HashMap<Vec<u8>, Entry>,
    inserts: u64,
    deletes: u64,
    /// Whether a record was accepted of each version.
    accepted: [bool; 2],
}

fn number_of(whole: &[u8]) -> Vec<u8> {
    whole[record::NPA.first - 1..record::CALLING_NUMBER.last].to_vec()
}

fn demand(kept: bool, what: &str) -> Result<(), String> {
    if kept {
        Ok(())
    } else {
        Err(what.to_string())
    }
}

impl History {
    /// Adds an accepted data file's answers to the history.
    pub fn note(&mut self, call: &Call, outcome: &Outcome) -> Result<(), String> {
        if call.op != Op::ApplyData || outcome.refusal() != 0 {
            return Ok(());
        }
        let version = call.version;
        let records = call.lent[2][version.edge()..].chunks_exact(version.record());
        let applied = outcome.returned[3] as usize;
        for (whole, &answer) in records.zip(&outcome.lent[3][..applied]) {
            if answer == 0 {
                self.accepted[version as usize] = true;
                self.accept(&wide(version, whole))?;
            }
        }
        Ok(())
    }

    /// Whether files of both versions have a part in it.
    pub fn is_of_both_versions(&self) -> bool {
        self.accepted == [true; 2]
    }

    fn accept(&mut self, whole: &[u8]) -> Result<(), String> {
        let number = number_of(whole);
        let company = record::COMPANY_ID.of(whole).to_vec();
        let filed = whole.to_vec();
        let entry = self.entries.get_mut(&number);
        match (whole[0], entry) {
            (b'I', None) => {
                let open = false;
                self.inserts += 1;
                self.entries.insert(
                    number,
                    Entry {
                        filed,
                        company,
                        open,
                    },
                );
                Ok(())
            }
            (b'M', Some(entry)) => {
                demand(entry.open, "migrated without an unlock")?;
                *entry = Entry {
                    filed,
                    company,
                    open: false,
                };
                Ok(())
            }
            (code, Some(entry)) => {
                demand(code != b'I', "inserted twice")?;
                demand(!entry.open, "an open number changed otherwise than by M")?;
                demand(
                    entry.company == company,
                    "passed by a change of another company",
                )?;
                match code {
                    b'C' => entry.filed = filed,
                    b'U' => entry.open = true,
                    _ => {
                        self.deletes += 1;
                        self.entries.remove(&number);
                    }
                }
                Ok(())
            }
            (_, None) => Err("accepted for an absent number".to_string()),
        }
    }

    /// Demand 3: what stands in the stores is what the history says.
    pub fn check<'a>(&self, register: &'a [u8], guide: &'a [u8]) -> Result<(), String> {
        let streets = Streets::read(guide);
        demand(streets.are_clear(), "a house number under two rows")?;
        let mut seen = std::collections::HashSet::new();
        let mut live = 0;
        for slot in register
            .chunks_exact(REGISTER_SLOT)
            .filter(|slot| slot[0] != 0)
        {
            let whole = &slot[SLOT_HEAD..];
            let number = number_of(whole);
            demand(seen.insert(number.clone()), "a number in two slots")?;
            if slot[0] == 3 {
                demand(!self.entries.contains_key(&number), "a live number rests")?;
                continue;
            }
            live += 1;
            let entry = self.entries.get(&number).ok_or("an entry never filed")?;
            demand(entry.open == (slot[0] == 2), "held and open mixed up")?;
            let over = streets.over(whole);
            let [row] = over[..] else {
                return Err(format!("an entry under {} rows", over.len()));
            };
            demand(
                record::ESN.of(whole) == row.esn,
                "an entry shows another ESN",
            )?;
            let mut expected = entry.filed.clone();
            let esn = record::ESN.of_mut(&mut expected);
            if esn.iter().all(|&byte| byte == b' ') {
                esn.copy_from_slice(row.esn);
            }
            demand(
                expected == whole,
                "an entry is not the last accepted record",
            )?;
        }
        demand(
            live == self.entries.len() as u64,
            "an accepted entry is lost",
        )?;
        demand(
            live + self.deletes == self.inserts,
            "held and open are not I less D",
        )
    }
}

/// Demand 2's round trip, of "either version": a load file taken into an empty
/// register brings back every held and open entry but for its Function and Source.
/// Where an entry has no form in Version 1 there is no such file of it.
pub fn round_trip(subject: &impl Subject, register: &[u8], guide: &[u8]) -> Result<(), String> {
    Version::BOTH
        .into_iter()
        .try_for_each(|version| round_trip_of(version, subject, register, guide))
}

fn round_trip_of(
    version: Version,
    subject: &impl Subject,
    register: &[u8],
    guide: &[u8],
) -> Result<(), String> {
    let live = entries(register);
    let mut file = vec![0; version.file(live.len())];
    let loaded = subject.write_load(version, register, LAST_DATE, NAME, 1, &mut file);
    let wide = live.iter().find(|(_, whole)| !has_form(version, whole));
    if let Some((index, _)) = wide {
        return demand(
            (loaded.refusal, loaded.slot as usize) == (27, *index),
            "an entry without a form in Version 1 is not told",
        );
    }
    demand(
        loaded.refusal == 0,
        "a sound register's load file is refused",
    )?;
    demand(
        loaded.entries as usize == live.len(),
        "another number of entries",
    )?;
    let mut back = vec![0; live.len().max(1) * REGISTER_SLOT];
    let mut answers = vec![1; live.len()];
    let taken = subject.apply_data(version, &mut back, guide, &file, &mut answers, 999_999);
    demand(
        taken.refusal == 0 && taken.undone == 0,
        "the load file is not taken",
    )?;
    let back = back.chunks_exact(REGISTER_SLOT);
    let mut pairs = back.zip(live.iter().map(|(_, whole)| *whole));
    demand(
        pairs.all(|(slot, whole)| is_back(slot, whole)),
        "an entry came back changed",
    )
}

/// The held and open records, with their slots.
fn entries(register: &[u8]) -> Vec<(usize, &[u8])> {
    register
        .chunks_exact(REGISTER_SLOT)
        .enumerate()
        .filter(|(_, slot)| matches!(slot[0], 1 | 2))
        .map(|(index, slot)| (index, &slot[SLOT_HEAD..]))
        .collect()
}

/// Whether a slot holds this entry "but for its Function and Source".
fn is_back(slot: &[u8], whole: &[u8]) -> bool {
    let mut expected = whole.to_vec();
    record::FUNCTION.of_mut(&mut expected)[0] = b'I';
    record::SOURCE.of_mut(&mut expected)[0] = b'C';
    slot[0] == 1 && slot[SLOT_HEAD..] == expected
}

#[cfg(test)]
mod tests {
    use super::*;
    use crate::gen::World;
    use crate::model::layout::GUIDE_SLOT;
    use crate::model::Described;
    use crate::subject::Model;

    const MODEL: Model<Described> = Model::new();

    /// A world with entries and a slot and a row to spare, and its history.
    fn grown() -> (World, History) {
        let mut world = World::sized(1, 64, 64);
        let mut history = History::default();
        for turn in 0..12 {
            let call = if turn < 4 {
                world.apply_guide()
            } else {
                world.apply_data()
            };
            let outcome = call.run(&MODEL, 0);
            world.adopt(call.op, &outcome.returned, &outcome.lent);
            history.note(&call, &outcome).expect("a good run");
        }
        (world, history)
    }

    #[test]
    fn what_breaks_a_demand_is_seen() {
        let (world, history) = grown();
        let (register, guide) = (&world.register, &world.guide);
        assert_eq!(history.check(register, guide), Ok(()));
        assert_eq!(round_trip(&MODEL, register, guide), Ok(()));
        assert!(
            register[0] == 1 && guide[0] == 1,
            "the first ones are there"
        );
        let seen = |change: &dyn Fn(&mut Vec<u8>, &mut Vec<u8>)| {
            let (mut register, mut guide) = (register.clone(), guide.clone());
            change(&mut register, &mut guide);
            history.check(&register, &guide).expect_err("a breach")
        };
        let last = 63 * REGISTER_SLOT;
        let twice = seen(&|register, _| register.copy_within(..REGISTER_SLOT, last));
        assert_eq!(twice, "a number in two slots");
        let lost = seen(&|register, _| register[..REGISTER_SLOT].fill(0));
        assert_eq!(lost, "an accepted entry is lost");
        let open = seen(&|register, _| register[0] = 2);
        assert_eq!(open, "held and open mixed up");
        let resting = seen(&|register, _| register[0] = 3);
        assert_eq!(resting, "a live number rests");
        let changed = seen(&|register, _| register[SLOT_HEAD + 300] = b'x');
        assert_eq!(changed, "an entry is not the last accepted record");
        let shown = seen(&|register, _| register[SLOT_HEAD + 225] = b'7');
        assert_eq!(shown, "an entry shows another ESN");
        let row = 63 * GUIDE_SLOT;
        let rows = seen(&|_, guide| guide.copy_within(..GUIDE_SLOT, row));
        assert_eq!(rows, "a house number under two rows");
        let bare = seen(&|_, guide| guide.fill(0));
        assert_eq!(bare, "an entry under 0 rows");
    }
}
