//! Records and rows of good form that matter to the stores as they are.

use super::{put, World};
use crate::model::form::number;
use crate::model::layout::{narrow, record, row, Blank, Field, Form, RECORD, ROW};
use crate::model::store::{HELD, OPEN};
use crate::model::{versions, Described};

const COMPANIES: [&str; 4] = ["ABC", "XYZ12", "7", "ABCDE"];
/// Two of them are one number.
const ESNS: [&str; 4] = ["83", "083", "1", "99999"];

impl World {
    /// A street's fields, by place in record or row. Streets 0 to 3 differ in
    /// one field each; of 4 and 5 one has as many bytes as a record of Version 1
    /// has room for, and one a byte more.
    fn street(&mut self) -> [String; 6] {
        let which = self.random.below(self.streets);
        let most = narrow::record::STREET.length();
        let name = match which {
            0..4 => "MAIN".to_string(),
            4 => "L".repeat(most),
            5 => "L".repeat(most + 1),
            _ => format!("OAK {which}"),
        };
        let prefix = if which == 1 { "N" } else { "" };
        let suffix = if which == 2 { "AV" } else { "ST" };
        let community = if which == 3 { "Salem" } else { "SALEM" };
        let post = if which % 8 == 7 { "SE" } else { "" };
        let state = if which % 8 == 6 { "WA" } else { "OR" };
        [prefix, &name, suffix, post, community, state].map(str::to_string)
    }

    /// A row of good form.
    pub fn row(&mut self) -> [u8; ROW] {
        let mut whole = [b' '; ROW];
        let present = self.some_row();
        if let (Some(present), true) = (present, self.random.chance(45)) {
            // One that is there: deletes it, clashes with it, or nearly so.
            whole.copy_from_slice(&present);
            if self.random.chance(15) {
                let esn = self.random.pick(&ESNS);
                put(&mut whole, row::ESN, esn.as_bytes());
            }
            if self.random.chance(20) {
                let low = format!("{:04}", number(row::LOW.of(&whole)));
                put(&mut whole, row::LOW, low.as_bytes());
            }
            whole[row::FUNCTION.first - 1] = self.random.pick(b"DDDI");
            return whole;
        }
        let fields = [
            row::PREFIX,
            row::STREET,
            row::SUFFIX,
            row::POST,
            row::COMMUNITY,
            row::STATE,
        ];
        for (field, text) in fields.into_iter().zip(self.street()) {
            put(&mut whole, field, text.as_bytes());
        }
        let parity = self.random.pick(b"OEB");
        let wide = self.random.pick(&[0, 0, 1, 2, 4, 10]);
        let mut low = self.random.between(0, self.houses);
        let mut high = low + wide;
        match parity {
            b'O' => (low, high) = (low | 1, high | 1),
            b'E' => (low, high) = (low & !1, high & !1),
            _ => {}
        }
        if self.random.chance(2) {
            high = 99_999_999 - u32::from(parity == b'E');
        }
        put(&mut whole, row::LOW, low.to_string().as_bytes());
        put(&mut whole, row::HIGH, high.to_string().as_bytes());
        put(&mut whole, row::PARITY, &[parity]);
        let esn = self.random.pick(&ESNS);
        put(&mut whole, row::ESN, esn.as_bytes());
        put(
            &mut whole,
            row::FUNCTION,
            self.random.pick(&[b"I", b"I", b"I", b"I", b"D"]),
        );
        put(&mut whole, row::STAR, b"*");
        if self.random.chance(10) {
            put(&mut whole, row::FREE, b"  free text");
        }
        whole
    }

    /// Writes an address, and perhaps the ESN: mostly under a present row.
    fn put_address(&mut self, whole: &mut [u8]) {
        const PAIRS: [(Field, Field); 6] = [
            (record::PREFIX, row::PREFIX),
            (record::STREET, row::STREET),
            (record::SUFFIX, row::SUFFIX),
            (record::POST, row::POST),
            (record::COMMUNITY, row::COMMUNITY),
            (record::STATE, row::STATE),
        ];
        let present = self.some_row();
        let mut esn = self.random.pick(&ESNS).as_bytes().to_vec();
        let house = match present {
            Some(present) if self.random.chance(85) => {
                for (field, from) in PAIRS {
                    put(whole, field, from.of(&present));
                }
                if self.random.chance(85) {
                    esn = row::ESN.of(&present).to_vec();
                }
                let (low, high) = (
                    number(row::LOW.of(&present)),
                    number(row::HIGH.of(&present)),
                );
                let house = self.random.between(low, high.min(low + 20));
                self.random
                    .pick(&[house, house, low, low, high, high, high + 1])
            }
            _ => {
                for ((field, _), text) in PAIRS.into_iter().zip(self.street()) {
                    put(whole, field, text.as_bytes());
                }
                self.random.between(0, self.houses)
            }
        };
        if house > 0 || self.random.chance(50) {
            let text = house.min(99_999_999).to_string();
            put(whole, record::HOUSE, text.as_bytes());
        }
        if self.random.chance(55) {
            put(whole, record::ESN, &esn);
        }
    }

    /// Writes something into fields that no step looks at.
    fn put_extras(&mut self, whole: &mut [u8]) {
        for field in record::FIELDS {
            let plain = field.form == Form::Text && field.blank == Blank::May;
            if plain && self.random.chance(25) {
                let text = &b"x Y~7!zz"[..field.length().min(8)];
                put(whole, field, text);
            }
        }
        put(whole, record::GENERAL_USE, b"  g");
        put(whole, record::RESERVED, b"   r");
        if self.random.chance(50) {
            put(whole, record::SOURCE, b"C");
        }
    }

    /// Fills a field as far as Version 1 has bytes for it, or a byte further, or
    /// writes only where it has none.
    fn put_to_the_edge(&mut self, whole: &mut [u8]) {
        let (field, most) = self.random.pick(&[
            (record::LOCATION, narrow::record::LOCATION.length()),
            (record::RESERVED, narrow::record::RESERVED.length()),
            (record::CUSTOMER_CODE, 0),
            (record::TAR, 0),
        ]);
        let length = most + self.random.below(2);
        put(whole, field, &vec![b'e'; length]);
        if self.random.chance(10) {
            whole[record::RESERVED.last - 1] = b'e';
        }
    }

    /// A record of good form for a file of today.
    pub fn record(&mut self) -> [u8; RECORD] {
        let mut whole = [b' '; RECORD];
        let known = self.some_slot().filter(|_| self.random.chance(60));
        let mut code = self.random.pick(b"IIIIICDUM");
        let mut company = self.random.pick(&COMPANIES).as_bytes().to_vec();
        let mut day = self.today - self.random.pick(&[0, 0, 0, 1, 2, 90]).min(self.today);
        let fresh = self.random.below(self.numbers);
        let mut number = format!("503{fresh:07}").into_bytes();
        if let Some((state, since, held, owner)) = known {
            number = held.to_vec();
            if self.random.chance(75) {
                company = owner;
            }
            if self.random.chance(75) {
                code = match state {
                    HELD => self.random.pick(b"CCDDU"),
                    OPEN => self.random.pick(b"MMMMC"),
                    _ => self.random.pick(b"IIIIC"),
                };
            }
            if self.random.chance(25) {
                day = (since + self.random.pick(&[0, 1, 2])).saturating_sub(1);
            }
        }
        match self.random.below(25) {
            0 => day = self.today + 1,
            1 => day = self.edge_day(),
            2 => day = self.random.between(0, self.today),
            _ => {}
        }
        put(&mut whole, record::FUNCTION, &[code]);
        put(&mut whole, record::NPA, &number[..3]);
        put(&mut whole, record::CALLING_NUMBER, &number[3..]);
        put(&mut whole, record::COMPANY_ID, &company);
        put(&mut whole, record::DATE, &self.date(day));
        put(&mut whole, record::STAR, b"*");
        let bare = matches!(code, b'D' | b'U') && self.random.chance(50);
        if !bare {
            self.put_address(&mut whole);
            put(
                &mut whole,
                record::CLASS,
                self.random.pick(&[b"1", b"0", b"9"]),
            );
            put(&mut whole, record::TYPE, self.random.pick(&[b"0", b"5"]));
        }
        match self.random.below(10) {
            0 => self.put_extras(&mut whole),
            1 => self.put_to_the_edge(&mut whole),
            _ => {}
        }
        self.held_to(whole)
    }

    /// The record, or what Version 1 has of it where every record has its form.
    fn held_to(&self, whole: [u8; RECORD]) -> [u8; RECORD] {
        if self.narrow {
            versions::widen::<Described>(&versions::narrow(&whole))
        } else {
            whole
        }
    }
}
