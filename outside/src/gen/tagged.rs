//! Records that have a tagged form, and their texts.

use super::{put, World};
use crate::model::date::LAST_DAY;
use crate::model::layout::{record, Form, RECORD};
use crate::model::tagged::{write_tagged, Tag, Wording, TAGS, UNLABELLED};
use crate::model::Described;
use crate::texts::parts::Parts;

const DIGITS: &[u8] = b"0123456789";
const CAPITALS: &[u8] = b"ABCDEFGHIJKLMNOPQRSTUVWXYZ";
const CAPITALS_AND_DIGITS: &[u8] = b"ABCDEFGHIJKLMNOPQRSTUVWXYZ0123456789";
const DIRECTIONALS: [&[u8]; 8] = [b"N", b"S", b"E", b"W", b"NE", b"NW", b"SE", b"SW"];

impl World {
    /// A record of a file in which nothing stands that has no tagged form, and
    /// some labels, or all, have a value that is made for them.
    pub fn labelled_record(&mut self) -> [u8; RECORD] {
        let mut whole = self.record();
        let zip_and_main = [
            record::ZIP,
            record::ZIP4,
            record::MAIN_NPA,
            record::MAIN_NUMBER,
        ];
        for field in UNLABELLED.into_iter().chain(zip_and_main) {
            put(&mut whole, field, b"");
        }
        let share = self.random.pick(&[0, 10, 10, 50, 100]);
        for tag in &TAGS {
            if self.random.chance(share) {
                self.put_label(tag, &mut whole);
            }
        }
        whole
    }

    /// A record as a load file has it: "with Function `I` and Source `C`".
    pub fn load_record(&mut self) -> [u8; RECORD] {
        let mut whole = self.labelled_record();
        while !matches!(whole[0], b'I' | b'C' | b'M') {
            whole = self.labelled_record();
        }
        put(&mut whole, record::FUNCTION, b"I");
        put(&mut whole, record::SOURCE, b"C");
        whole
    }

    /// The text of a record that has one, its labels often in another order.
    pub fn tagged_parts(&mut self) -> Parts {
        let whole = self.labelled_record();
        let mut out = [0; RECORD];
        let written = write_tagged::<Described>(&whole, &mut out);
        assert_eq!(written.refusal, 0, "it has a tagged form");
        let mut parts = Parts::of(&out[..written.bytes as usize]).expect("a text");
        if self.random.chance(60) {
            self.random.shuffle(&mut parts.pairs);
        }
        parts
    }

    /// Gives a label's field a good value, often as long as it may be. The code
    /// stays: what may be blank goes by it.
    fn put_label(&mut self, tag: &Tag, whole: &mut [u8]) {
        let most = tag.field.length();
        let value = match (tag.wording, tag.field.form) {
            (Wording::TenDigits, _) => self.some_of(DIGITS, 10),
            (Wording::CalendarDate, _) => {
                let edge = self.edge_day();
                let any = self.random.between(0, LAST_DAY.0);
                let day = self.random.pick(&[edge, any]);
                self.date(day).to_vec()
            }
            (Wording::Postal, _) => {
                let length = self.random.pick(&[5, 9]);
                self.some_of(DIGITS, length)
            }
            (_, Form::OneOf(_)) => return,
            (_, Form::DigitTo(to)) => vec![self.random.between(48, to.into()) as u8],
            (_, Form::Digits(most)) => self.up_to(DIGITS, most),
            (_, Form::Directional) => self.random.pick(&DIRECTIONALS).to_vec(),
            (_, Form::Capitals) => self.some_of(CAPITALS, most),
            (_, Form::CompanyId) => self.up_to(CAPITALS_AND_DIGITS, most),
            (_, form) => self.text_of(most, form == Form::Free),
        };
        let bytes = tag.of_mut(whole);
        bytes.fill(b' ');
        bytes[..value.len()].copy_from_slice(&value);
    }

    fn some_of(&mut self, bytes: &[u8], length: usize) -> Vec<u8> {
        (0..length).map(|_| self.random.pick(bytes)).collect()
    }

    fn some_length(&mut self, most: usize) -> usize {
        if self.random.chance(40) {
            most
        } else {
            1 + self.random.below(most)
        }
    }

    fn up_to(&mut self, bytes: &[u8], most: usize) -> Vec<u8> {
        let length = self.some_length(most);
        self.some_of(bytes, length)
    }

    /// Any bytes of 20 to 7E hex but `|`, the first no space unless it may be one.
    fn text_of(&mut self, most: usize, may_begin_with_space: bool) -> Vec<u8> {
        let length = self.some_length(most);
        let mut text: Vec<u8> = (0..length)
            .map(|_| match self.random.between(0x20, 0x7e) as u8 {
                b'|' => b'~',
                byte => byte,
            })
            .collect();
        if text[0] == b' ' && !may_begin_with_space {
            text[0] = b'!';
        }
        text
    }
}
