//! Texts and records at the edges: every label's lengths, every byte in every part,
//! every cut, every room.

use super::coverage::TextCoverage;
use super::damage::{pair, values, ENDS, HEADS, NOT_TAKEN};
use super::parts::{longest_value, Parts};
use super::records::{put_main, put_zip, MAIN_FORMS, ZIP_FORMS};
use super::{reading, text_length, writing, written, ENOUGH};
use crate::damage::texts;
use crate::explore::{Explorer, Finding};
use crate::gen::put;
use crate::model::layout::{record, Form, RECORD};
use crate::model::tagged::{Tag, Wording, TAGS, UNLABELLED};
use crate::subject::Subject;
use crate::town;

/// A record's length, and others next to it and far from it.
const LENGTHS: [usize; 6] = [0, 1, RECORD - 1, RECORD, RECORD + 1, 2 * RECORD];

/// A text of twelve labels.
fn a_text() -> Parts {
    let text = b"DAT|FOCI|CPN5035550100|HNO100|STNMAIN|STSST|MCNSALEM|STAOR|NAMDOE|CLS1|TYS0|\
        CPD2000-01-01|CPFABC\n";
    Parts::of(text).expect("a text")
}

/// That text with this value for this label.
fn with_value(tag: &Tag, value: &[u8]) -> Parts {
    let mut parts = a_text();
    parts.pairs.retain(|old| !old.starts_with(&tag.label));
    parts.pairs.push(pair(&tag.label, value));
    parts
}

/// Values as long as they may be and longer by one, of letters and with spaces at
/// their end, and with bytes at the edges.
fn edge_values(tag: &Tag) -> Vec<Vec<u8>> {
    let most = longest_value(tag);
    let mut all = vec![
        b"\x1f".to_vec(),
        b"\x7f".to_vec(),
        b"A\n".to_vec(),
        b"A|".to_vec(),
    ];
    for length in [most, most + 1] {
        for letter in [b'A', b'1', b' '] {
            let mut spaced = vec![letter];
            spaced.resize(length, b' ');
            all.extend([vec![letter; length], spaced]);
        }
    }
    all.extend(values(tag).iter().map(|value| value.to_vec()));
    all
}

/// A record of twelve labels.
fn a_record() -> [u8; RECORD] {
    town::record_at(b'I', 0, 1, b"ABC", b"010100")
}

/// As few labels as a record may have.
fn bare_record() -> [u8; RECORD] {
    let mut whole = [b' '; RECORD];
    whole[0] = b'D';
    put(&mut whole, record::NPA, b"503");
    put(&mut whole, record::CALLING_NUMBER, b"5550100");
    put(&mut whole, record::DATE, b"123199");
    put(&mut whole, record::COMPANY_ID, b"A");
    put(&mut whole, record::STAR, b"*");
    whole
}

/// Every label with its longest value.
fn longest_record() -> [u8; RECORD] {
    let mut whole = a_record();
    for tag in &TAGS {
        let bytes = tag.of_mut(&mut whole);
        match (tag.wording, tag.field.form) {
            (Wording::Plain, Form::Text | Form::Free | Form::CompanyId) => bytes.fill(b'X'),
            (Wording::Plain, Form::Digits(most)) => bytes[..most].fill(b'1'),
            (Wording::Plain, Form::Directional) => bytes.copy_from_slice(b"NE"),
            (Wording::Plain, _) => {}
            // 111111 is a date.
            _ => bytes.fill(b'1'),
        }
    }
    whole
}

impl<A: Subject, B: Subject> Explorer<'_, A, B, TextCoverage> {
    /// Every edge once.
    pub(super) fn every_text_edge(&mut self) -> Result<(), Finding> {
        self.labels()?;
        self.frames()?;
        self.text_bytes()?;
        self.record_bytes()?;
        self.orders_of_refusals()?;
        self.rooms()?;
        self.fields()?;
        self.digits()
    }

    /// Reads a text; what is read is written.
    fn text(&mut self, parts: &Parts) -> Result<(), Finding> {
        let outcome = self.compare(&reading(&parts.text(), RECORD), parts.pairs.len())?;
        match outcome.refusal() {
            0 => self.is_written(written(&outcome)),
            _ => Ok(()),
        }
    }

    /// Every label with values at its edges, and twice.
    fn labels(&mut self) -> Result<(), Finding> {
        for tag in &TAGS {
            for value in edge_values(tag) {
                let mut parts = with_value(tag, &value);
                self.text(&parts)?;
                parts.pairs.insert(0, tag.label.to_vec());
                self.text(&parts)?;
            }
        }
        Ok(())
    }

    /// Every head with every end, labels that are not taken, and a text cut at
    /// every byte.
    fn frames(&mut self) -> Result<(), Finding> {
        for head in HEADS {
            for end in ENDS {
                let (head, end) = (head.to_vec(), end.to_vec());
                let pairs = a_text().pairs;
                self.text(&Parts { head, pairs, end })?;
            }
        }
        for label in NOT_TAKEN {
            let mut parts = a_text();
            parts.pairs.push(pair(label, b"1"));
            self.text(&parts)?;
        }
        let text = a_text().text();
        for length in 0..text.len() {
            self.compare(&reading(&text[..length], RECORD), length)?;
        }
        // Two records in one text.
        self.compare(&reading(&text.repeat(2), RECORD), 0)?;
        self.compare(&reading(b"DAT\n", RECORD), 0)?;
        Ok(())
    }

    /// Every byte in the place of each one of a short text.
    fn text_bytes(&mut self) -> Result<(), Finding> {
        let text = b"DAT|FOCD|CPN5035550100|CPD2000-01-01|CPFA|ZIP97301-1234|CUSx\n";
        for place in 0..text.len() {
            for byte in 0..=u8::MAX {
                let mut other = text.to_vec();
                other[place] = byte;
                self.compare(&reading(&other, RECORD), place)?;
            }
        }
        Ok(())
    }

    /// Bytes at the edges in the place of each one of a record.
    fn record_bytes(&mut self) -> Result<(), Finding> {
        for whole in [bare_record(), a_record(), longest_record()] {
            for place in 0..RECORD {
                for &byte in b"\x1f 1A|~\x7f" {
                    let mut other = whole;
                    other[place] = byte;
                    self.compare(&writing(&other, ENOUGH), place)?;
                }
            }
        }
        Ok(())
    }

    /// Two faults in a text, one at its begin and one at its end: the lower number
    /// is told, wherever it stands.
    fn orders_of_refusals(&mut self) -> Result<(), Finding> {
        let faults: [&[u8]; 6] = [b"ZZZ1", b"ST", b"STSAV", b"COI12345", b"LOC\x7f", b"CUS"];
        for one in faults {
            for other in faults {
                let mut parts = a_text();
                parts.pairs.insert(0, one.to_vec());
                parts.pairs.push(other.to_vec());
                for room in LENGTHS {
                    self.compare(&reading(&parts.text(), room), room)?;
                }
            }
        }
        Ok(())
    }

    /// Records of every length into every room, and rooms next to the text's length.
    fn rooms(&mut self) -> Result<(), Finding> {
        for room in LENGTHS {
            self.compare(&reading(&a_text().text(), room), room)?;
        }
        for whole in [bare_record(), a_record(), longest_record()] {
            let need = text_length(&whole);
            for room in [0, need - 1, need, need + 1, ENOUGH, RECORD] {
                self.compare(&writing(&whole, room), room)?;
            }
            for length in LENGTHS {
                let mut other = whole.to_vec();
                other.resize(length, b' ');
                self.compare(&writing(&other, ENOUGH), length)?;
            }
        }
        Ok(())
    }

    /// Every field with the texts of its form, and with a field without a label
    /// beside it.
    fn fields(&mut self) -> Result<(), Finding> {
        for field in record::FIELDS {
            for text in texts(field.form) {
                let mut whole = a_record();
                put(&mut whole, field, &text[..text.len().min(field.length())]);
                self.compare(&writing(&whole, ENOUGH), field.first)?;
                for other in UNLABELLED {
                    let mut whole = whole;
                    put(&mut whole, other, b"C");
                    self.compare(&writing(&whole, ENOUGH), field.first)?;
                    self.compare(&writing(&whole, 0), field.last)?;
                }
            }
        }
        Ok(())
    }

    /// Zip with Zip+4 in every form, with the main number in every form.
    fn digits(&mut self) -> Result<(), Finding> {
        for zip in ZIP_FORMS {
            for main in MAIN_FORMS {
                let mut whole = bare_record();
                put_zip(&mut whole, zip);
                put_main(&mut whole, main);
                self.compare(&writing(&whole, ENOUGH), 9)?;
            }
        }
        Ok(())
    }
}
