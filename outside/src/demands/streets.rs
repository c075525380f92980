//! The guide by street, read apart from the model.

use crate::model::layout::{record, row, GUIDE_SLOT, SLOT_HEAD};
use std::collections::HashMap;

/// Directionals, street, suffix, community and state.
type Street<'a> = [&'a [u8]; 6];

/// A row of the guide, read by its own small reader.
pub struct Row<'a> {
    low: u64,
    high: u64,
    parity: u8,
    /// Its ESN bytes.
    pub esn: &'a [u8],
}

fn value(field: &[u8]) -> u64 {
    let text = std::str::from_utf8(field).unwrap_or("").trim_end();
    if text.is_empty() {
        0
    } else {
        text.parse().expect("digits")
    }
}

impl<'a> Row<'a> {
    fn read(whole: &'a [u8]) -> Self {
        Row {
            low: value(row::LOW.of(whole)),
            high: value(row::HIGH.of(whole)),
            parity: row::PARITY.of(whole)[0],
            esn: row::ESN.of(whole),
        }
    }

    fn has(&self, house: u64) -> bool {
        let parity = match self.parity {
            b'O' => house % 2 == 1,
            b'E' => house.is_multiple_of(2),
            _ => true,
        };
        (self.low..=self.high).contains(&house) && parity
    }

    /// Whether both rows of a street have a house number. If so they both have
    /// one of the higher Low and the number after it.
    fn meets(&self, other: &Row) -> bool {
        let low = self.low.max(other.low);
        [low, low + 1]
            .into_iter()
            .any(|house| self.has(house) && other.has(house))
    }
}

/// The present rows by street.
pub struct Streets<'a>(HashMap<Street<'a>, Vec<Row<'a>>>);

impl<'a> Streets<'a> {
    /// Reads a guide.
    pub fn read(guide: &'a [u8]) -> Self {
        let mut streets: HashMap<Street, Vec<Row>> = HashMap::new();
        for slot in guide.chunks_exact(GUIDE_SLOT).filter(|slot| slot[0] != 0) {
            let whole = &slot[SLOT_HEAD..];
            let street = [
                row::PREFIX,
                row::STREET,
                row::SUFFIX,
                row::POST,
                row::COMMUNITY,
                row::STATE,
            ];
            let street = street.map(|field| field.of(whole));
            streets.entry(street).or_default().push(Row::read(whole));
        }
        Streets(streets)
    }

    /// Whether no house number has two rows.
    pub fn are_clear(&self) -> bool {
        self.0.values().all(|rows| {
            let mut pairs = (rows.iter().enumerate())
                .flat_map(|(place, one)| rows[..place].iter().map(move |other| (one, other)));
            pairs.all(|(one, other)| !one.meets(other))
        })
    }

    /// The rows over a record's address.
    pub fn over(&self, whole: &'a [u8]) -> Vec<&Row<'a>> {
        let street = [
            record::PREFIX,
            record::STREET,
            record::SUFFIX,
            record::POST,
            record::COMMUNITY,
            record::STATE,
        ];
        let house = value(record::HOUSE.of(whole));
        let rows = self.0.get(&street.map(|field| field.of(whole)));
        let rows = rows.into_iter().flatten();
        rows.filter(|row| row.has(house)).collect()
    }
}
