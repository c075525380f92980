//! The two versions of a data file, and what a record is in the other one.

use super::form::blank;
use super::layout::{
    header, narrow, record, trailer, Blank, Field, Form, EDGE, NARROW_EDGE, NARROW_RECORD, RECORD,
};
use super::rules::{Described, Rules};

/// "The caller says which version."
#[derive(Clone, Copy, Debug, PartialEq, Eq)]
pub enum Version {
    /// Records of 240 bytes, header and trailer of 160.
    One,
    /// Records of 512 bytes, header and trailer of 200.
    Two,
}

impl Version {
    /// Both of them.
    pub const BOTH: [Version; 2] = [Version::One, Version::Two];

    /// The other one.
    pub const fn other(self) -> Self {
        match self {
            Version::One => Version::Two,
            Version::Two => Version::One,
        }
    }

    /// Bytes of a data record.
    pub const fn record(self) -> usize {
        match self {
            Version::One => NARROW_RECORD,
            Version::Two => RECORD,
        }
    }

    /// Bytes of a header, and of a trailer.
    pub const fn edge(self) -> usize {
        match self {
            Version::One => NARROW_EDGE,
            Version::Two => EDGE,
        }
    }

    /// Bytes of a data file of so many records.
    pub const fn file(self, records: usize) -> usize {
        2 * self.edge() + records * self.record()
    }

    /// The fields of a data record.
    pub const fn fields(self) -> &'static [Field] {
        match self {
            Version::One => &narrow::record::FIELDS,
            Version::Two => &record::FIELDS,
        }
    }

    /// The fields of a header.
    pub const fn header(self) -> &'static [Field] {
        match self {
            Version::One => &narrow::header::FIELDS,
            Version::Two => &header::FIELDS,
        }
    }

    /// The fields of a trailer.
    pub const fn trailer(self) -> &'static [Field] {
        match self {
            Version::One => &narrow::trailer::FIELDS,
            Version::Two => &trailer::FIELDS,
        }
    }
}

/// "By widening each record to Version 2: same fields, blanks behind, the 13
/// Reserved bytes first."
pub fn widen<R: Rules>(rec: &[u8]) -> [u8; RECORD] {
    let rec: &[u8; NARROW_RECORD] = rec.try_into().expect("a record of Version 1");
    let mut widened = [b' '; RECORD];
    narrow::record::each_with_wide(|field, wide| {
        let bytes = field.of(rec);
        let behind = wide.length() - bytes.len();
        let first = R::RESERVED_FIRST || wide.first != record::RESERVED.first;
        let at = if first { 0 } else { behind };
        wide.of_mut(&mut widened)[at..][..bytes.len()].copy_from_slice(bytes);
    });
    widened
}

/// The fields that Version 1 has, each as long as it is there; so "any Version 1
/// record widened and narrowed is itself".
pub fn narrow(rec: &[u8]) -> [u8; NARROW_RECORD] {
    let rec: &[u8; RECORD] = rec.try_into().expect("a record of Version 2");
    let mut narrowed = [b' '; NARROW_RECORD];
    narrow::record::each_with_wide(|field, wide| {
        let kept = &wide.of(rec)[..field.length()];
        field.of_mut(&mut narrowed).copy_from_slice(kept);
    });
    narrowed
}

/// What stands in Version 2 behind the bytes that Version 1 has of a field.
const fn tail(field: Field, wide: Field) -> Field {
    Field {
        first: wide.first + field.length(),
        ..wide
    }
}

/// What Version 1 has no bytes for: "a Version 2 field or the tail of a longer
/// field". The eight fields stand together.
pub const BEYOND: [Field; 4] = [
    tail(narrow::record::STREET, record::STREET),
    tail(narrow::record::LOCATION, record::LOCATION),
    Field {
        name: "Customer Code to TAR",
        first: record::CUSTOMER_CODE.first,
        last: record::TAR.last,
        form: Form::Free,
        blank: Blank::May,
    },
    tail(narrow::record::RESERVED, record::RESERVED),
];

/// Whether a stored record has no form in Version 1: something of it "isn't
/// blank" that Version 1 has no bytes for.
pub fn is_wide(rec: &[u8]) -> bool {
    let rec: &[u8; RECORD] = rec.try_into().expect("a record of Version 2");
    BEYOND.iter().any(|part| !blank(part.of(rec)))
}

/// A record of a version as it is stored.
pub fn as_stored(version: Version, rec: &[u8]) -> [u8; RECORD] {
    match version {
        Version::One => widen::<Described>(rec),
        Version::Two => rec.try_into().expect("a record of Version 2"),
    }
}

#[cfg(test)]
mod tests {
    use super::*;
    use crate::random::Random;

    #[test]
    fn what_is_kept_and_what_is_not_are_every_byte_once() {
        let mut met = [0; RECORD];
        narrow::record::each_with_wide(|field, wide| {
            assert_eq!((field.name, field.blank), (wide.name, wide.blank));
            assert!(field.form == wide.form || field.name == "Function");
            met[wide.first - 1..][..field.length()]
                .iter_mut()
                .for_each(|times| *times += 1);
        });
        for part in BEYOND {
            part.of_mut(&mut met)
                .iter_mut()
                .for_each(|times| *times += 1);
        }
        assert_eq!(met, [1; RECORD]);
    }

    #[test]
    fn widened_and_narrowed_is_itself() {
        let mut random = Random::new(1);
        for _ in 0..1000 {
            let bytes: Vec<u8> = (0..NARROW_RECORD).map(|_| random.bits() as u8).collect();
            let widened = widen::<Described>(&bytes);
            assert!(!is_wide(&widened));
            assert_eq!(narrow(&widened)[..], bytes);
        }
    }

    #[test]
    fn what_fits_narrowed_and_widened_is_itself() {
        for byte in 0..RECORD {
            let mut whole = [b' '; RECORD];
            whole[byte] = b'x';
            let same = widen::<Described>(&narrow(&whole)) == whole;
            assert_eq!(is_wide(&whole), !same, "byte {byte}");
        }
    }
}
