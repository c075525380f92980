//! Calls at the edges of the two versions: lengths of either, files lent as the
//! other one, fields that are longer in Version 2, and codes that Version 1 lacks.

use crate::call::{Call, Op};
use crate::explore::{Explorer, Finding};
use crate::gen::{file_of, put, records_of, World, NAME};
use crate::model::date::day;
use crate::model::layout::{narrow, record, Field, MOST_SLOTS, RECORD, REGISTER_SLOT, SLOT_HEAD};
use crate::model::store::{FREE, HELD, OPEN, RESTING};
use crate::model::{Described, Version};
use crate::subject::Subject;
use crate::town;

const DATE: &[u8; 6] = b"010124";
/// So many records of Version 2 have as many bytes with header and trailer as so
/// many of Version 1.
const ALIKE: [(usize, usize); 2] = [(5, 11), (20, 43)];
/// Bytes around those of a header, a record, an empty file and a file of one
/// record, of either version.
const LENGTHS: [usize; 24] = [
    0, 1, 159, 160, 161, 199, 200, 201, 239, 240, 241, 319, 320, 321, 399, 400, 401, 559, 560, 561,
    911, 912, 913, 2960,
];

/// A stored record at the only row of a guide of one.
fn stored() -> [u8; RECORD] {
    let mut whole = town::record_at(b'I', 0, 1, b"ABC", DATE);
    put(&mut whole, record::ESN, b"100");
    whole
}

/// Writes bytes into a field up to this one, from 1.
fn fill_to(whole: &mut [u8], field: Field, last: usize) {
    whole[field.first - 1..last].fill(b'e');
}

/// A slot of this state that holds this record.
fn slot(state: u8, whole: &[u8; RECORD]) -> Vec<u8> {
    let mut slot = vec![0; REGISTER_SLOT];
    if state != FREE {
        let filed = day::<Described>(DATE).expect("a date");
        slot[0] = state;
        slot[1..5].copy_from_slice(&filed.0.to_be_bytes());
        slot[SLOT_HEAD..].copy_from_slice(whole);
    }
    slot
}

/// A load file of this date from this register into so much room.
fn load(version: Version, register: Vec<u8>, date: &[u8], room: usize) -> Call {
    Call {
        op: Op::WriteLoad,
        version,
        given: 7,
        lent: vec![register, date.to_vec(), NAME.to_vec(), vec![0xee; room]],
    }
}

/// An apply to one free slot under one row.
fn apply(version: Version, file: Vec<u8>, answers: usize) -> Call {
    Call {
        op: Op::ApplyData,
        version,
        given: 0,
        lent: vec![
            vec![0; REGISTER_SLOT],
            town::guide(1),
            file,
            vec![0xee; answers],
        ],
    }
}

impl<A: Subject, B: Subject> Explorer<'_, A, B> {
    /// Every edge between the versions once.
    pub(crate) fn versions(&mut self, seed: u64) -> Result<(), Finding> {
        self.file_lengths()?;
        self.lent_as_the_other(seed)?;
        self.codes()?;
        self.bytes_beyond()?;
        self.wide_slots()?;
        self.full_register()
    }

    /// Files of every such length, said to be of either version.
    fn file_lengths(&mut self) -> Result<(), Finding> {
        for version in Version::BOTH {
            let file = file_of(version, DATE, 1, &records_of(version, &[stored()]), 1);
            for length in LENGTHS {
                for said in Version::BOTH {
                    let mut file = file.clone();
                    file.resize(length, b' ');
                    self.compare(&apply(said, file, 20), length)?;
                }
            }
        }
        Ok(())
    }

    /// Files whose length is that of a file of the other version too: with its
    /// answers and without, and with the `*` where the other one has it.
    fn lent_as_the_other(&mut self, seed: u64) -> Result<(), Finding> {
        let mut world = World::sized(seed, 8, 8);
        for (two, one) in ALIKE {
            for (version, count) in [(Version::Two, two), (Version::One, one)] {
                let said = version.other();
                let file = world.data_file(version, count);
                let mut starred = file.clone();
                starred[said.edge() - 1] = b'*';
                for file in [file, starred] {
                    for answers in [two - 1, two, one - 1, one] {
                        let call = world.apply(Op::ApplyData, said, file.clone(), answers);
                        self.compare(&call, answers)?;
                    }
                }
            }
        }
        Ok(())
    }

    /// Every code in either version, in the first record and in a later one.
    fn codes(&mut self) -> Result<(), Finding> {
        for version in Version::BOTH {
            for code in 0..=u8::MAX {
                let other = town::record_at(code, 0, 1, b"ABC", DATE);
                for records in [vec![other], vec![stored(), other]] {
                    let count = records.len();
                    let file = file_of(version, DATE, 1, &records_of(version, &records), count);
                    self.compare(&apply(version, file, count), usize::from(code))?;
                }
            }
        }
        Ok(())
    }

    /// Entries filled up to each byte of a field that Version 1 has shorter or not
    /// at all: the load file of Version 1, and inserts by files of either version.
    fn bytes_beyond(&mut self) -> Result<(), Finding> {
        let longer = [record::STREET, record::LOCATION, record::RESERVED];
        let only_in_two = record::FIELDS.into_iter().filter(|field| {
            let name = |one: &Field| one.name == field.name;
            longer.iter().any(name) || !narrow::record::FIELDS.iter().any(name)
        });
        for field in only_in_two {
            for last in field.first..=field.last {
                let mut whole = stored();
                fill_to(&mut whole, field, last);
                let register = slot(HELD, &whole);
                self.compare(&load(Version::One, register, DATE, 560), last)?;
                for version in Version::BOTH {
                    let file = file_of(version, DATE, 1, &records_of(version, &[whole]), 1);
                    self.compare(&apply(version, file, 1), last)?;
                }
            }
        }
        Ok(())
    }

    /// Registers of three slots, each free, held, open or resting and wide or not:
    /// room to the byte or short by one, a date that is none, either version.
    fn wide_slots(&mut self) -> Result<(), Finding> {
        let narrow = stored();
        let mut wide = narrow;
        fill_to(&mut wide, record::COMMENTS, record::COMMENTS.first);
        let one = [
            slot(FREE, &narrow),
            slot(HELD, &narrow),
            slot(HELD, &wide),
            slot(OPEN, &narrow),
            slot(OPEN, &wide),
            slot(RESTING, &wide),
        ];
        for places in 0..one.len().pow(3) {
            let at = |power| &one[places / one.len().pow(power) % one.len()][..];
            let register = [at(0), at(1), at(2)].concat();
            for version in Version::BOTH {
                let entries = register
                    .chunks_exact(REGISTER_SLOT)
                    .filter(|slot| matches!(slot[0], HELD | OPEN))
                    .count();
                let need = version.file(entries);
                for (date, room) in [(DATE, need), (DATE, need - 1), (b"022901", need)] {
                    self.compare(&load(version, register.clone(), date, room), places)?;
                }
            }
        }
        Ok(())
    }

    /// All slots that a register may have: its load file of either version, taken
    /// into an empty register; and the last entry alone wide.
    fn full_register(&mut self) -> Result<(), Finding> {
        let full = town::register(MOST_SLOTS, &town::guide(1));
        for version in Version::BOTH {
            let call = load(version, full.clone(), DATE, version.file(MOST_SLOTS));
            let mut written = self.compare(&call, 1)?;
            let mut taking = apply(version, written.lent.remove(3), MOST_SLOTS);
            (taking.given, taking.lent[0]) = (6, vec![0; full.len()]);
            self.compare(&taking, 2)?;
        }
        let mut wide = full;
        let last = wide.len() - REGISTER_SLOT + SLOT_HEAD;
        fill_to(&mut wide[last..], record::TAR, record::TAR.last);
        let room = Version::One.file(MOST_SLOTS);
        self.compare(&load(Version::One, wide, DATE, room), 3)?;
        Ok(())
    }
}
