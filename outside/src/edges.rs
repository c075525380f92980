//! Calls at the edges: sizes of stores and files, short buffers, last cycles.

use crate::call::{Call, Op, Outcome};
use crate::damage::LASTS;
use crate::explore::{Explorer, Finding};
use crate::gen::{file_of, next_cycle, World, EDGE_DATES};
use crate::model::layout::{GUIDE_SLOT, MOST_SLOTS, REGISTER_SLOT};
use crate::model::{convert_register, Described, Version};
use crate::subject::Subject;

/// Sizes of stores.
const SLOTS: [usize; 4] = [1, 2, 64, MOST_SLOTS];
/// Sizes of files.
const RECORDS: [usize; 5] = [0, 1, 127, 9999, 10_000];
/// No entry is later.
const LAST_DATE: &[u8; 6] = b"123169";
/// The applies, of either version.
const APPLIES: [(Op, Version); 3] = [
    (Op::ApplyGuide, Version::Two),
    (Op::ApplyData, Version::One),
    (Op::ApplyData, Version::Two),
];

impl<A: Subject, B: Subject> Explorer<'_, A, B> {
    /// Every edge once.
    pub(crate) fn every_edge(&mut self, seed: u64) -> Result<(), Finding> {
        for (place, slots) in SLOTS.into_iter().enumerate() {
            let mut world = World::sized(seed ^ place as u64, slots, slots);
            self.file_sizes(&mut world)?;
            self.last_cycles(&mut world)?;
            self.store_lengths(&world)?;
            self.lookups(&world)?;
            for version in Version::BOTH {
                self.load_files(version, &mut world)?;
            }
            self.conversions(&mut world)?;
        }
        self.versions(seed)?;
        self.centuries()
    }

    /// Guide and data files of every size, with answers buffers that just hold
    /// the answers, are a byte short, or have bytes to spare.
    fn file_sizes(&mut self, world: &mut World) -> Result<(), Finding> {
        for (op, version) in APPLIES {
            for count in RECORDS {
                let file = match op {
                    Op::ApplyGuide => world.guide_file(count),
                    _ => world.data_file(version, count),
                };
                let short = world.apply(op, version, file.clone(), count.saturating_sub(1));
                self.compare(&short, count)?;
                let call = world.apply(op, version, file, count + count % 2);
                let outcome = self.compare(&call, count + 1)?;
                world.adopt(op, &outcome.returned, &outcome.lent);
            }
        }
        Ok(())
    }

    /// Every last cycle with the cycle after it, 1 and 999999, n = 0.
    fn last_cycles(&mut self, world: &mut World) -> Result<(), Finding> {
        for (op, version) in APPLIES {
            for last in LASTS {
                for cycle in [next_cycle(last), 1, 999_999] {
                    let empty = file_of(version, b"010100", cycle % 1_000_000, b"", 0);
                    let mut call = world.apply(op, version, empty, 0);
                    call.given = last;
                    self.compare(&call, 7)?;
                }
            }
        }
        Ok(())
    }

    /// Stores that are a byte or a slot off, and the largest and one too large.
    fn store_lengths(&mut self, world: &World) -> Result<(), Finding> {
        for (op, version) in APPLIES {
            for (store, slot) in [(0, REGISTER_SLOT), (1, GUIDE_SLOT)] {
                let now = world.guide.len() / GUIDE_SLOT * slot;
                let most = MOST_SLOTS * slot;
                for length in [0, 1, now - 1, now + 1, most, most + slot] {
                    let empty = file_of(version, LAST_DATE, 1, b"", 0);
                    let mut call = world.apply(op, version, empty, 0);
                    call.given = 0;
                    call.lent[store].resize(length, 0);
                    self.compare(&call, length)?;
                }
            }
        }
        Ok(())
    }

    /// Every slot's number in a few slots, the ends of a long register, a number
    /// that is not there, and what is no number.
    fn lookups(&mut self, world: &World) -> Result<(), Finding> {
        let slots = world.register.len() / REGISTER_SLOT;
        let mut numbers: Vec<Vec<u8>> = [0, slots / 2, slots - 1]
            .iter()
            .map(|slot| world.register[slot * REGISTER_SLOT + 9..][..10].to_vec())
            .collect();
        for text in [
            "9999999999",
            "",
            "503555010",
            "50355501000",
            "50355501 0",
            "503555010:",
        ] {
            numbers.push(text.as_bytes().to_vec());
        }
        for number in numbers {
            for off in [0, 1, 519, 520] {
                let mut register = world.register.clone();
                register.truncate(register.len() - off);
                let call = Call {
                    op: Op::Lookup,
                    version: Version::Two,
                    given: 0,
                    lent: vec![register, number.clone()],
                };
                self.compare(&call, off)?;
            }
        }
        Ok(())
    }

    /// Load files with room to the byte, and every cycle at which something
    /// changes.
    fn load_files(&mut self, version: Version, world: &mut World) -> Result<(), Finding> {
        let mut call = world.write_load_of(version);
        call.lent[1] = LAST_DATE.to_vec();
        call.given = 1;
        let slots = world.register.len() / REGISTER_SLOT;
        call.lent[3].resize(version.file(slots), 0x55);
        let full: Outcome = self.compare(&call, 3)?;
        // What is refused by 27 has no bytes, and no room is enough for it.
        let bytes = full.returned[1] as usize;
        for room in [bytes, bytes.saturating_sub(1), 0] {
            call.lent[3].resize(room, 0x55);
            self.compare(&call, room)?;
        }
        call.lent[3].resize(bytes, 0x55);
        for cycle in LASTS {
            call.given = cycle;
            self.compare(&call, 11)?;
        }
        call.given = 1;
        for date in EDGE_DATES {
            call.lent[1] = date.to_vec();
            self.compare(&call, 12)?;
        }
        Ok(())
    }

    /// Registers of before, one converted already and this world's own, each
    /// whole and of a wrong length: a byte or a slot off, none, one too many.
    fn conversions(&mut self, world: &mut World) -> Result<(), Finding> {
        let slots = world.register.len() / REGISTER_SLOT;
        let old = world.old_register_of(slots);
        let mut converted = old.clone();
        convert_register::<Described>(&mut converted);
        let own = world.register.clone();
        for register in [old, converted, own] {
            let now = register.len();
            let most = MOST_SLOTS * REGISTER_SLOT;
            for length in [now, now - 1, now + 1, 0, 1, 519, 520, 521, most, most + 520] {
                let mut lent = register.clone();
                lent.resize(length, 0);
                self.compare(&Call::convert(lent), length)?;
            }
        }
        Ok(())
    }
}
