//! Tagged texts in their parts: to be put together otherwise, and to be looked at
//! apart from the model's reader.

use crate::model::tagged::{Tag, Wording, TAGS};

/// What stands before the first `|`, behind each one, and at the end.
#[derive(Clone, Debug)]
pub struct Parts {
    /// `DAT` in a good text.
    pub head: Vec<u8>,
    /// Labels with their values.
    pub pairs: Vec<Vec<u8>>,
    /// One newline in a good text.
    pub end: Vec<u8>,
}

impl Parts {
    /// The parts of a text that begins with `DAT` and ends with a newline.
    pub fn of(text: &[u8]) -> Option<Self> {
        let pairs = raw_pairs(text)?;
        Some(Parts {
            head: b"DAT".to_vec(),
            pairs: pairs.map(<[u8]>::to_vec).collect(),
            end: b"\n".to_vec(),
        })
    }

    /// The text of these parts.
    pub fn text(&self) -> Vec<u8> {
        let mut text = self.head.clone();
        for pair in &self.pairs {
            text.push(b'|');
            text.extend(pair);
        }
        text.extend(&self.end);
        text
    }
}

/// What stands behind a `|`.
pub struct Pair<'a> {
    /// All of it.
    pub bytes: &'a [u8],
    /// The label's place in `TAGS`, if it is taken.
    pub label: Option<usize>,
    /// What stands behind three bytes.
    pub value: &'a [u8],
}

impl<'a> Pair<'a> {
    fn of(bytes: &'a [u8]) -> Self {
        Pair {
            bytes,
            label: TAGS.iter().position(|tag| bytes.starts_with(&tag.label)),
            value: bytes.get(3..).unwrap_or_default(),
        }
    }

    /// Whether the label is taken, and its value longer than any that fits.
    pub fn is_too_long(&self) -> bool {
        let most = self.label.map(|label| longest_value(&TAGS[label]));
        most.is_some_and(|most| self.value.len() > most)
    }

    /// Whether it is so by one space at the end of a plain value.
    pub fn is_a_space_too_long(&self) -> bool {
        self.label.map(|label| &TAGS[label]).is_some_and(|tag| {
            tag.wording == Wording::Plain
                && self.value.len() == longest_value(tag) + 1
                && self.value.ends_with(b" ")
        })
    }
}

/// The pairs of a text; none if it has no `DAT` or newline.
pub fn pairs(text: &[u8]) -> Option<Vec<Pair<'_>>> {
    Some(raw_pairs(text)?.map(Pair::of).collect())
}

fn raw_pairs(text: &[u8]) -> Option<impl Iterator<Item = &[u8]>> {
    let body = text.strip_prefix(b"DAT")?.strip_suffix(b"\n")?;
    let mut parts = body.split(|&byte| byte == b'|');
    let first = parts.next();
    (first == Some(b"")).then_some(parts)
}

/// Bytes of the longest value that a label may have.
pub fn longest_value(tag: &Tag) -> usize {
    match tag.wording {
        Wording::Plain => tag.field.length(),
        Wording::TenDigits | Wording::CalendarDate | Wording::Postal => 10,
    }
}

#[cfg(test)]
mod tests {
    use super::*;

    #[test]
    fn a_text_comes_apart_and_together() {
        for text in ["DAT\n", "DAT|\n", "DAT|FOCI||ST|STNa\n\n", "DAT|ZIP|\n"] {
            let parts = Parts::of(text.as_bytes()).expect("parts");
            assert_eq!(parts.text(), text.as_bytes());
        }
        for text in ["", "DAT", "DATX\n", "RTN|FOCI\n", "DAT|FOCI", "\n"] {
            assert!(Parts::of(text.as_bytes()).is_none());
        }
    }
}
