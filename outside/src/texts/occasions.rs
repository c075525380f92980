//! What must come up beside the numbers: every reason of a refusal, which of two
//! goes first, and values at their edges.

use super::parts::{pairs, Pair};
use super::{text_length, written};
use crate::call::{Call, Op, Outcome};
use crate::model::form::{blank, printable};
use crate::model::layout::{record, RECORD};
use crate::model::tagged::{LABELS, TAGS, UNLABELLED};

/// A call on a text, its outcome, and the pairs of the text that it read or wrote.
pub struct Case<'a> {
    /// The call.
    pub call: &'a Call,
    /// What came of it.
    pub outcome: &'a Outcome,
    /// No pairs if the text has no `DAT` or newline, or none was written.
    pub pairs: Vec<Pair<'a>>,
}

impl<'a> Case<'a> {
    /// Looks at a call.
    pub fn of(call: &'a Call, outcome: &'a Outcome) -> Self {
        let text = match call.op {
            Op::ReadTagged => call.lent[0].as_slice(),
            _ => written(outcome),
        };
        Case {
            call,
            outcome,
            pairs: pairs(text).unwrap_or_default(),
        }
    }

    /// Whether it is a reading with this refusal, 0 if none.
    pub fn reads(&self, refusal: u32) -> bool {
        self.call.op == Op::ReadTagged && self.outcome.refusal() == refusal
    }

    /// Whether it is a writing with this refusal, 0 if none.
    pub fn writes(&self, refusal: u32) -> bool {
        self.call.op == Op::WriteTagged && self.outcome.refusal() == refusal
    }

    /// The text that is read, or the record that is written.
    fn lent(&self) -> &[u8] {
        &self.call.lent[0]
    }

    /// Bytes that the output has.
    fn room(&self) -> usize {
        self.call.lent[1].len()
    }

    /// The values of a label, as often as it stands.
    fn values(&self, label: &'static [u8; 3]) -> impl Iterator<Item = &[u8]> {
        let has = move |pair: &&Pair| pair.label.is_some_and(|at| TAGS[at].label == *label);
        self.pairs.iter().filter(has).map(|pair| pair.value)
    }

    /// Whether a label stands with this value.
    fn has(&self, label: &'static [u8; 3], value: &[u8]) -> bool {
        self.values(label).any(|other| other == value)
    }

    /// Whether a main or calling number has so many digits and then these bytes.
    fn has_number(&self, digits: usize, rest: &[u8]) -> bool {
        self.values(b"CPN").chain(self.values(b"MTN")).any(|value| {
            value
                .split_at_checked(digits)
                .is_some_and(|(number, end)| number.iter().all(u8::is_ascii_digit) && end == rest)
        })
    }

    /// How many pairs stand before the first whose label is not taken.
    fn known(&self) -> usize {
        self.pairs
            .iter()
            .take_while(|pair| pair.label.is_some())
            .count()
    }

    /// Whether the record to write has a field that no label names.
    fn has_unlabelled(&self) -> bool {
        UNLABELLED.iter().any(|field| !blank(field.of(self.lent())))
    }

    /// Whether the record to write has the Source of a load file's.
    fn is_of_a_load_file(&self) -> bool {
        record::SOURCE.of(self.lent()) == b"C"
    }

    /// Whether writing is refused by 37 for its Zip or its main number alone.
    fn has_odd_digits(&self) -> bool {
        self.writes(37) && !self.has_unlabelled() && !self.lent().contains(&b'|')
    }
}

/// How many pairs stand before the first whose label stood before.
fn once(pairs: &[Pair]) -> usize {
    let is_new = |at: &usize| {
        pairs[..*at]
            .iter()
            .all(|pair| pair.label != pairs[*at].label)
    };
    (0..pairs.len()).take_while(is_new).count()
}

fn any_too_long(pairs: &[Pair]) -> bool {
    pairs.iter().any(Pair::is_too_long)
}

/// Whether a call is such an occasion.
type CameUp = fn(&Case) -> bool;

/// All of them, with their names.
pub const OCCASIONS: [(&str, CameUp); 45] = [
    ("33 of RTN", |case| {
        case.reads(33) && case.lent().starts_with(b"RTN|")
    }),
    ("33 of DATX", |case| {
        case.reads(33) && case.lent().starts_with(b"DATX|")
    }),
    ("33 for the newline alone", no_newline),
    ("34 of a label cut short", label_cut_short),
    ("34 of a label in small letters", small_letters),
    ("34 of a `|` before the newline", |case| {
        case.reads(34) && case.lent().ends_with(b"|\n")
    }),
    ("34 behind a value too long", |case| {
        case.reads(34) && any_too_long(&case.pairs[..case.known()])
    }),
    ("34 behind a label twice", |case| {
        case.reads(34) && once(&case.pairs) < case.known()
    }),
    ("35 behind a value too long", |case| {
        case.reads(35) && any_too_long(&case.pairs[..once(&case.pairs)])
    }),
    ("35 of two records", |case| {
        case.reads(35) && case.values(b"CPF").any(|value| value.ends_with(b"\nDAT"))
    }),
    ("36 for one space too many", |case| {
        case.reads(36) && case.pairs.iter().any(Pair::is_a_space_too_long)
    }),
    ("36 before 9", |case| {
        case.reads(36) && case.pairs.iter().any(|pair| !printable(pair.value))
    }),
    ("36 of 1969-12-31", |case| {
        case.reads(36) && case.has(b"CPD", b"1969-12-31")
    }),
    ("36 of 2070-01-01", |case| {
        case.reads(36) && case.has(b"CPD", b"2070-01-01")
    }),
    ("36 of a CPD as MMDDYY", |case| {
        case.reads(36) && case.has(b"CPD", b"010100")
    }),
    ("1970-01-01 read", |case| {
        case.reads(0) && case.has(b"CPD", b"1970-01-01")
    }),
    ("2069-12-31 read", |case| {
        case.reads(0) && case.has(b"CPD", b"2069-12-31")
    }),
    ("9 for a day that does not exist", |case| {
        case.reads(9) && case.outcome.returned[1] == 251 && case.has(b"CPD", b"2001-02-29")
    }),
    ("36 of nine digits", |case| {
        case.reads(36) && case.has_number(9, b"")
    }),
    ("36 of eleven digits", |case| {
        case.reads(36) && case.has_number(11, b"")
    }),
    ("36 of ten digits and a space", |case| {
        case.reads(36) && case.has_number(10, b" ")
    }),
    ("a ZIP of five digits read", |case| {
        case.reads(0) && case.has(b"ZIP", b"97301")
    }),
    ("a ZIP of five and four read", |case| {
        case.reads(0) && case.has(b"ZIP", b"97301-1234")
    }),
    ("36 of a ZIP of nine in a row", |case| {
        case.reads(36) && case.has(b"ZIP", b"973011234")
    }),
    ("9 for a newline in a value", |case| {
        case.reads(9) && case.pairs.iter().any(|pair| pair.value.contains(&b'\n'))
    }),
    ("9 of no pairs", |case| {
        case.reads(9) && case.lent() == b"DAT\n"
    }),
    ("spaces at a value's end read", |case| {
        case.reads(0) && case.pairs.iter().any(|pair| pair.value.ends_with(b" "))
    }),
    ("an empty value read", |case| {
        case.reads(0) && case.pairs.iter().any(|pair| pair.value.is_empty())
    }),
    ("another order read", |case| {
        case.reads(0) && !case.pairs.is_sorted_by_key(|pair| pair.label)
    }),
    ("all labels read", |case| {
        case.reads(0) && case.pairs.len() == LABELS
    }),
    ("9 into too little room", |case| {
        case.reads(9) && case.room() < RECORD
    }),
    ("33 to 36 into too little room", |case| {
        (33..=36).contains(&case.outcome.refusal()) && case.room() < RECORD
    }),
    ("25 of 511 bytes", |case| {
        case.reads(25) && case.room() == RECORD - 1
    }),
    ("read with bytes behind", |case| {
        case.reads(0) && case.room() > RECORD
    }),
    ("9 before 37", |case| {
        case.writes(9) && case.lent().len() == RECORD && case.is_of_a_load_file()
    }),
    ("37 before 25", |case| case.writes(37) && case.room() == 0),
    ("9 of 511 or 513 bytes", |case| {
        case.writes(9) && [RECORD - 1, RECORD + 1].contains(&case.lent().len())
    }),
    ("37 of a load file's record", load_record),
    ("37 of a Zip+4 without Zip", |case| {
        case.has_odd_digits()
            && blank(record::ZIP.of(case.lent()))
            && !blank(record::ZIP4.of(case.lent()))
    }),
    ("37 of four digits of Zip", |case| {
        case.has_odd_digits() && record::ZIP.of(case.lent()) == b"9730 "
    }),
    ("37 of a main number without NPA", |case| {
        case.has_odd_digits()
            && blank(record::MAIN_NPA.of(case.lent()))
            && !blank(record::MAIN_NUMBER.of(case.lent()))
    }),
    ("37 of a main NPA alone", |case| {
        case.has_odd_digits()
            && !blank(record::MAIN_NPA.of(case.lent()))
            && blank(record::MAIN_NUMBER.of(case.lent()))
    }),
    ("25 for one byte", |case| {
        case.writes(25) && text_length(case.lent()) == case.room() + 1
    }),
    ("written into just the room", |case| {
        case.writes(0) && written(case.outcome).len() == case.room()
    }),
    ("the longest text written", |case| {
        case.writes(0) && written(case.outcome).len() == LONGEST
    }),
];

/// The longest text: House Number has 8 digits at most, so two bytes are to spare.
const LONGEST: usize = 450;

fn no_newline(case: &Case) -> bool {
    case.reads(33) && {
        let whole = [case.lent(), b"\n"].concat();
        pairs(&whole).is_some_and(|pairs| !pairs.is_empty())
    }
}

fn label_cut_short(case: &Case) -> bool {
    let is_cut = |pair: &Pair| {
        let mut labels = TAGS.iter().map(|tag| &tag.label[..2]);
        labels.any(|label| label == pair.bytes)
    };
    case.reads(34) && case.pairs.iter().any(is_cut)
}

fn small_letters(case: &Case) -> bool {
    let is_small = |pair: &Pair| {
        let mut labels = TAGS.iter().map(|tag| tag.label.to_ascii_lowercase());
        labels.any(|label| pair.bytes.starts_with(&label))
    };
    case.reads(34) && case.pairs.iter().any(is_small)
}

/// Without its Source it would be written.
fn load_record(case: &Case) -> bool {
    case.writes(37) && case.is_of_a_load_file() && {
        let mut whole = case.lent().to_vec();
        record::SOURCE.of_mut(&mut whole)[0] = b' ';
        text_length(&whole) > 0
    }
}
