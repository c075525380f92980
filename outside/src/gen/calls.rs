//! Calls for the stores as they are.

use super::{World, NAME};
use crate::call::{Call, Op};
use crate::model::date::Reading;
use crate::model::layout::REGISTER_SLOT;
use crate::model::store::{is_live, slot_day};
use crate::model::Version;

/// What an answers or out buffer holds before the call.
const FILLER: u8 = 0xee;

impl World {
    /// A few records; many if the stores are large.
    fn some_count(&mut self) -> usize {
        let large = self.register.len().max(self.guide.len()) > 100 * REGISTER_SLOT;
        if large && self.random.chance(50) {
            self.random.pick(&[1500, 9999])
        } else {
            self.random.pick(&[0, 1, 1, 2, 3, 5, 8, 12, 20])
        }
    }

    /// The version of the next data or load file; old worlds knew Version 2 alone.
    fn some_version(&mut self) -> Version {
        match self.reading {
            Reading::Present if self.random.chance(40) => Version::One,
            _ => Version::Two,
        }
    }

    /// An apply of this file to the stores as they are.
    pub fn apply(&self, op: Op, version: Version, file: Vec<u8>, answers: usize) -> Call {
        let given = if op.has_records() {
            self.last_data
        } else {
            self.last_guide
        };
        let answers = vec![FILLER; answers];
        Call {
            op,
            version,
            given,
            lent: vec![self.register.clone(), self.guide.clone(), file, answers],
        }
    }

    /// An apply of a data file of either version.
    pub fn apply_data(&mut self) -> Call {
        let version = self.some_version();
        self.apply_data_of(version)
    }

    /// An apply of a data file of this version.
    pub fn apply_data_of(&mut self, version: Version) -> Call {
        let count = self.some_count();
        let file = self.data_file(version, count);
        let more = self.random.pick(&[0, 0, 1, 7]);
        self.apply(Op::ApplyData, version, file, count + more)
    }

    /// An apply of a guide file.
    pub fn apply_guide(&mut self) -> Call {
        let count = self.some_count().min(4200);
        let file = self.guide_file(count);
        let more = self.random.pick(&[0, 0, 1, 7]);
        self.apply(Op::ApplyGuide, Version::Two, file, count + more)
    }

    /// A lookup of a number that may be there.
    pub fn lookup(&mut self) -> Call {
        let fresh = format!("503{:07}", self.random.below(self.numbers)).into_bytes();
        let number = self.some_slot().map_or(fresh, |slot| slot.2.to_vec());
        Call {
            op: Op::Lookup,
            version: Version::Two,
            given: 0,
            lent: vec![self.register.clone(), number],
        }
    }

    /// The writing of a load file of either version.
    pub fn write_load(&mut self) -> Call {
        let version = self.some_version();
        self.write_load_of(version)
    }

    /// The writing of a load file: mostly on a day that allows it, with just
    /// enough room, one byte too little, or more.
    pub fn write_load_of(&mut self, version: Version) -> Call {
        let entries = || {
            self.register
                .chunks_exact(REGISTER_SLOT)
                .filter(|slot| is_live(slot))
        };
        let count = entries().count();
        let newest = entries().map(|slot| slot_day(slot).0).max().unwrap_or(0);
        let day = match self.random.below(8) {
            0 => newest.saturating_sub(1),
            1 => newest,
            2 => self.edge_day(),
            _ => newest.max(self.today),
        };
        let need = version.file(count);
        let room = self
            .random
            .pick(&[need, need, need + 1, need + 300, need - 1]);
        Call {
            op: Op::WriteLoad,
            version,
            given: self.random.pick(&[1, 9, 10, 42, 99_999, 999_999]),
            lent: vec![
                self.register.clone(),
                self.date(day).to_vec(),
                NAME.to_vec(),
                vec![FILLER; room],
            ],
        }
    }
}
