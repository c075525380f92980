//! Runs of files from empty stores, seeded.
//!
//! The generator looks at the stores to make records that matter to them, so
//! that every answer comes up often.

mod calls;
mod filing;
mod old;
mod tagged;

use crate::call::Op;
use crate::model::date::{date_of, day, Day, Reading, LAST_DAY};
use crate::model::layout::{
    header, record, trailer, Field, GUIDE_SLOT, NARROW_RECORD, RECORD, REGISTER_SLOT, SLOT_HEAD,
};
use crate::model::store::{slot_day, slot_number, slot_record, RESTING};
use crate::model::versions::narrow;
use crate::model::{Described, Former, Version};
use crate::random::Random;

/// The company name of every file.
pub const NAME: &[u8; 50] = b"RURAL TELEPHONE AND LINE                          ";
/// The first day of this century, 010100.
const CENTURY: u32 = 10957;
/// A run that begins so many days before a day comes to it.
const SHORTLY: u32 = 120;
/// Days of four years, one of them leap.
const FOUR_YEARS: u32 = 1461;
/// 022972, the first of 25 leap days.
const LEAP_DAY: u32 = 789;
/// The first and the last date, both sides of the turn of the century, of YY 70
/// and of its leap days; by the former reading they stand in another order.
pub const EDGE_DATES: [&[u8; 6]; 10] = [
    b"010170", b"123170", b"022972", b"030172", b"123199", b"010100", b"022900", b"030100",
    b"010169", b"123169",
];

/// Stores, their cycles and the pools that records are made from.
pub struct World {
    /// Where all choices come from.
    pub random: Random,
    /// The register.
    pub register: Vec<u8>,
    /// The guide.
    pub guide: Vec<u8>,
    /// The last cycle of data files.
    pub last_data: u32,
    /// The last cycle of guide files.
    pub last_guide: u32,
    /// How its files and its register are dated.
    reading: Reading,
    /// The last day that a file of its is dated.
    last_day: u32,
    today: u32,
    /// Whether every record of its has a form in Version 1.
    narrow: bool,
    numbers: usize,
    streets: usize,
    houses: u32,
}

/// Writes text at the left of a field, spaces after it.
pub fn put(whole: &mut [u8], field: Field, text: &[u8]) {
    let bytes = field.of_mut(whole);
    bytes.fill(b' ');
    bytes[..text.len()].copy_from_slice(text);
}

/// A file of these rows, or of these records of Version 2, whole.
pub fn file(date: &[u8; 6], cycle: u32, records: &[u8], count: usize) -> Vec<u8> {
    file_of(Version::Two, date, cycle, records, count)
}

/// A file of these records of a version, whole.
pub fn file_of(
    version: Version,
    date: &[u8; 6],
    cycle: u32,
    records: &[u8],
    count: usize,
) -> Vec<u8> {
    let edge = |mark: &[u8], field, number: &str| {
        let mut edge = vec![b' '; version.edge()];
        put(&mut edge, header::MARK, mark);
        put(&mut edge, header::DATE, date);
        put(&mut edge, header::NAME, NAME);
        put(&mut edge, field, number.as_bytes());
        edge[version.edge() - 1] = b'*';
        edge
    };
    let head = edge(b"UHL", header::CYCLE, &cycle.to_string());
    let tail = edge(b"UTL", trailer::COUNT, &format!("{count:>9}"));
    [&head, records, &tail].concat()
}

/// Records of Version 2 as records of a version: of Version 1 what it has of them.
pub fn records_of(version: Version, records: &[[u8; RECORD]]) -> Vec<u8> {
    match version {
        Version::One => records.iter().flat_map(|whole| narrow(whole)).collect(),
        Version::Two => records.concat(),
    }
}

/// The cycle after this one.
pub fn next_cycle(last: u32) -> u32 {
    if last == 999_999 {
        1
    } else {
        last.wrapping_add(1)
    }
}

impl World {
    /// Empty stores of a size that the seed picks.
    pub fn new(seed: u64) -> Self {
        let mut random = Random::new(seed);
        let large = random.below(400) == 0;
        let sizes: &[usize] = if large {
            &[4096]
        } else {
            &[1, 1, 2, 3, 5, 8, 64]
        };
        let (slots, rows) = (random.pick(sizes), random.pick(sizes));
        let mut world = World::sized(random.bits(), slots, rows);
        world.last_data = random.pick(&[0, 0, 0, 1, 999_997, 999_998, 999_999]);
        world.last_guide = random.pick(&[0, 0, 0, 1, 999_997, 999_998, 999_999]);
        world
    }

    /// Empty stores of this size.
    pub fn sized(seed: u64, slots: usize, rows: usize) -> Self {
        let mut random = Random::new(seed);
        let today = match random.below(7) {
            0 => random.between(0, 400),
            1 => random.between(0, 24) * FOUR_YEARS + LEAP_DAY,
            2 | 3 => CENTURY - random.between(0, SHORTLY),
            4 => LAST_DAY.0 - random.between(0, SHORTLY),
            _ => random.between(0, LAST_DAY.0),
        };
        World {
            reading: Reading::Present,
            last_day: LAST_DAY.0,
            register: vec![0; slots * REGISTER_SLOT],
            guide: vec![0; rows * GUIDE_SLOT],
            last_data: 0,
            last_guide: 0,
            today,
            narrow: random.chance(40),
            numbers: slots + slots / 4 + 2,
            streets: if rows > 64 { 48 } else { 6 },
            houses: if rows > 64 { 4000 } else { 40 },
            random,
        }
    }

    /// The date of a day, by this world's reading.
    fn date(&self, day: u32) -> [u8; 6] {
        date_of(self.reading, Day(day.min(self.last_day)))
    }

    /// The day of a date at an edge.
    fn edge_day(&mut self) -> u32 {
        let date = self.random.pick(&EDGE_DATES);
        let day = match self.reading {
            Reading::Present => day::<Described>(date),
            Reading::Former => day::<Former<Described>>(date),
        };
        day.expect("a date").0.min(self.last_day)
    }

    /// A used slot's state, day, number and company, if there is one.
    fn some_slot(&mut self) -> Option<(u8, u32, [u8; 10], Vec<u8>)> {
        let slots = self.register.len() / REGISTER_SLOT;
        let at = self.random.below(slots) * REGISTER_SLOT;
        let slot = &self.register[at..at + REGISTER_SLOT];
        (slot[0] != 0).then(|| {
            let number = slot_number(slot).try_into().expect("ten digits");
            let company = record::COMPANY_ID.of(slot_record(slot)).to_vec();
            (slot[0], slot_day(slot).0, number, company)
        })
    }

    /// A present row, if there is one.
    fn some_row(&mut self) -> Option<Vec<u8>> {
        let rows = self.guide.len() / GUIDE_SLOT;
        let at = self.random.below(rows) * GUIDE_SLOT;
        let slot = &self.guide[at..at + GUIDE_SLOT];
        (slot[0] != 0).then(|| slot[SLOT_HEAD..].to_vec())
    }

    /// Goes on to the day of the next file: often to one where a resting slot
    /// just may or just may not be used again.
    fn go_on(&mut self) {
        let resting = self.some_slot().filter(|slot| slot.0 == RESTING);
        let wanted = match resting {
            Some((_, since, _, _)) if self.random.chance(40) => {
                since + self.random.pick(&[89, 90, 90, 91])
            }
            _ => self.today + self.random.pick(&[0, 0, 1, 1, 2, 30, 90]),
        };
        let today = match self.random.below(60) {
            0 => self.random.between(0, 24) * FOUR_YEARS + LEAP_DAY,
            1 => self.random.between(0, self.last_day),
            2 => self.edge_day(),
            _ => wanted,
        };
        self.today = today.min(self.last_day);
    }

    /// A data file of n records for the stores as they are.
    pub fn data_file(&mut self, version: Version, count: usize) -> Vec<u8> {
        self.go_on();
        let records: Vec<u8> = match version {
            Version::One => (0..count).flat_map(|_| self.narrow_record()).collect(),
            Version::Two => (0..count).flat_map(|_| self.record()).collect(),
        };
        let date = self.date(self.today);
        file_of(version, &date, next_cycle(self.last_data), &records, count)
    }

    /// A record of Version 1, which has no U and no M: D and C stand in for them.
    fn narrow_record(&mut self) -> [u8; NARROW_RECORD] {
        let mut whole = narrow(&self.record());
        whole[0] = match whole[0] {
            b'U' => b'D',
            b'M' => b'C',
            code => code,
        };
        whole
    }

    /// A guide file of n rows for the stores as they are.
    pub fn guide_file(&mut self, count: usize) -> Vec<u8> {
        let rows: Vec<u8> = (0..count).flat_map(|_| self.row()).collect();
        file(
            &self.date(self.today),
            next_cycle(self.last_guide),
            &rows,
            count,
        )
    }

    /// Takes over what an apply left.
    pub fn adopt(&mut self, op: Op, returned: &[u32], lent: &[Vec<u8>]) {
        let last = returned.last().copied().unwrap_or(0);
        match op {
            Op::ApplyData => {
                self.register.clone_from(&lent[0]);
                self.last_data = last;
            }
            Op::ApplyGuide => {
                self.guide.clone_from(&lent[1]);
                self.last_guide = last;
            }
            _ => {}
        }
    }
}
