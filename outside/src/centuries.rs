//! Calls in which dates of the last century and of this meet: of a slot, of a
//! record, of a file. They are few, so all of them are compared.

use crate::call::{Call, Op};
use crate::explore::{Explorer, Finding};
use crate::gen::{file_of, put, records_of, NAME};
use crate::model::date::day;
use crate::model::layout::{record, RECORD, REGISTER_SLOT, SLOT_HEAD};
use crate::model::store::{HELD, OPEN, RESTING};
use crate::model::{Described, Version};
use crate::subject::Subject;
use crate::town;

/// Both ends, leap days, both sides of the turn, and days 89 and 90 days from it.
const DATES: [&[u8; 6]; 10] = [
    b"010170", b"022972", b"100399", b"100499", b"123199", b"010100", b"022900", b"033000",
    b"033100", b"123169",
];

/// A record of number 0 or 1.
fn a_record(code: u8, number: usize, date: &[u8; 6]) -> [u8; RECORD] {
    town::record_at(code, number, 1, b"ABC", date)
}

/// A register of one slot: number 0, in this state since this date.
fn a_register(state: u8, since: &[u8; 6]) -> Vec<u8> {
    let mut slot = vec![0; REGISTER_SLOT];
    let day = day::<Described>(since).expect("a date");
    slot[0] = state;
    slot[1..5].copy_from_slice(&day.0.to_be_bytes());
    // An open or resting slot's record may be older than its day.
    let filed = if state == HELD { since } else { DATES[0] };
    let mut whole = a_record(b'I', 0, filed);
    put(&mut whole, record::ESN, b"100");
    slot[SLOT_HEAD..].copy_from_slice(&whole);
    slot
}

impl<A: Subject, B: Subject> Explorer<'_, A, B> {
    /// Every slot's date with every record's and every file's: what changes the
    /// slot, and an insert of another number that would need it.
    pub fn centuries(&mut self) -> Result<(), Finding> {
        for since in DATES {
            for (state, code) in [(HELD, b'C'), (OPEN, b'M'), (RESTING, b'I')] {
                let register = a_register(state, since);
                for date in DATES {
                    self.load(&register, date)?;
                    for filed in DATES {
                        self.record(&register, date, a_record(code, 0, filed))?;
                    }
                }
            }
            for date in DATES {
                for filed in DATES {
                    let other = a_record(b'I', 1, filed);
                    self.record(&a_register(RESTING, since), date, other)?;
                }
            }
        }
        Ok(())
    }

    /// The applies of files of this date with this record, of either version.
    fn record(
        &mut self,
        register: &[u8],
        date: &[u8; 6],
        whole: [u8; RECORD],
    ) -> Result<(), Finding> {
        for version in Version::BOTH {
            // Version 1 has no M, which is tried elsewhere.
            if version == Version::One && whole[0] == b'M' {
                continue;
            }
            let file = file_of(version, date, 1, &records_of(version, &[whole]), 1);
            let call = Call {
                op: Op::ApplyData,
                version,
                given: 0,
                lent: vec![register.to_vec(), town::guide(1), file, vec![0xee]],
            };
            self.compare(&call, 5)?;
        }
        Ok(())
    }

    /// The load files of this date, of either version.
    fn load(&mut self, register: &[u8], date: &[u8; 6]) -> Result<(), Finding> {
        for version in Version::BOTH {
            let call = Call {
                op: Op::WriteLoad,
                version,
                given: 1,
                lent: vec![
                    register.to_vec(),
                    date.to_vec(),
                    NAME.to_vec(),
                    vec![0xee; version.file(1)],
                ],
            };
            self.compare(&call, 6)?;
        }
        Ok(())
    }
}
