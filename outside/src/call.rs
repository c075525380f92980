//! A call as data: what is lent, what comes back, and how two outcomes differ.

use crate::lent::Lent;
use crate::model::{Loaded, Tagged, Taken, Version};
use crate::subject::Subject;

/// One of the functions, of either version.
#[derive(Clone, Copy, Debug, PartialEq, Eq)]
pub enum Op {
    /// Checks a data file.
    CheckData,
    /// Checks a guide file.
    CheckGuide,
    /// Applies a data file.
    ApplyData,
    /// Applies a guide file.
    ApplyGuide,
    /// Looks a number up.
    Lookup,
    /// Writes a load file.
    WriteLoad,
    /// Converts a register written by the former reading.
    ConvertRegister,
    /// Reads a tagged text into a record.
    ReadTagged,
    /// Writes a record as a tagged text.
    WriteTagged,
}

impl Op {
    /// How many there are.
    pub const COUNT: usize = 9;
    /// All of them.
    pub const ALL: [Op; Op::COUNT] = [
        Op::CheckData,
        Op::CheckGuide,
        Op::ApplyData,
        Op::ApplyGuide,
        Op::Lookup,
        Op::WriteLoad,
        Op::ConvertRegister,
        Op::ReadTagged,
        Op::WriteTagged,
    ];
    /// The name in a calls file.
    pub fn name(self) -> &'static str {
        match self {
            Op::CheckData => "check_data",
            Op::CheckGuide => "check_guide",
            Op::ApplyData => "apply_data",
            Op::ApplyGuide => "apply_guide",
            Op::Lookup => "lookup",
            Op::WriteLoad => "write_load",
            Op::ConvertRegister => "convert_register",
            Op::ReadTagged => "read_tagged",
            Op::WriteTagged => "write_tagged",
        }
    }

    /// The check that tests what this apply tests.
    pub fn check(self) -> Option<Op> {
        match self {
            Op::ApplyData => Some(Op::CheckData),
            Op::ApplyGuide => Some(Op::CheckGuide),
            _ => None,
        }
    }

    /// Whether it is lent a file of data records.
    pub fn has_records(self) -> bool {
        matches!(self, Op::CheckData | Op::ApplyData)
    }

    /// Whether the caller says which version its file has, or shall have.
    pub fn has_version(self) -> bool {
        self.has_records() || self == Op::WriteLoad
    }

    /// The given number's name, empty if none is given.
    pub fn given(self) -> &'static str {
        match self {
            Op::CheckData | Op::CheckGuide | Op::ApplyData | Op::ApplyGuide => "last",
            Op::Lookup | Op::ConvertRegister | Op::ReadTagged | Op::WriteTagged => "",
            Op::WriteLoad => "cycle",
        }
    }

    /// The names of the lent buffers, in the order they are handed over.
    pub fn lent(self) -> &'static [&'static str] {
        match self {
            Op::CheckData | Op::CheckGuide | Op::ApplyData | Op::ApplyGuide => {
                &["register", "guide", "file", "answers"]
            }
            Op::Lookup => &["register", "number"],
            Op::WriteLoad => &["register", "date", "name", "out"],
            Op::ConvertRegister => &["register"],
            Op::ReadTagged => &["text", "out"],
            Op::WriteTagged => &["record", "out"],
        }
    }

    /// The names of the returned numbers.
    pub fn returned(self) -> &'static [&'static str] {
        match self {
            Op::CheckData | Op::CheckGuide | Op::ApplyData | Op::ApplyGuide => &[
                "refusal", "place", "position", "n", "done", "undone", "last",
            ],
            Op::Lookup => &["refusal", "state", "slot", "looked"],
            Op::WriteLoad => &["refusal", "bytes", "entries", "slot"],
            Op::ConvertRegister => &["refusal", "slot"],
            Op::ReadTagged | Op::WriteTagged => &["refusal", "position", "bytes"],
        }
    }
}

/// A call with all it lends.
#[derive(Clone, Debug)]
pub struct Call {
    /// Which function.
    pub op: Op,
    /// Of which version, where it has one; Version 2 elsewhere.
    pub version: Version,
    /// Last cycle or cycle.
    pub given: u32,
    /// The lent buffers, in the order of `Op::lent`.
    pub lent: Vec<Vec<u8>>,
}

/// What a call gave back and left behind.
#[derive(Clone, Debug, PartialEq, Eq)]
pub struct Outcome {
    /// The returned numbers, in the order of `Op::returned`.
    pub returned: Vec<u32>,
    /// Every lent buffer afterwards.
    pub lent: Vec<Vec<u8>>,
    /// Whether no guard byte changed.
    pub intact: bool,
}

impl Outcome {
    /// The refusal's number, 0 if none.
    pub fn refusal(&self) -> u32 {
        self.returned[0]
    }
}

impl Call {
    /// The conversion of a register.
    pub fn convert(register: Vec<u8>) -> Self {
        Call {
            op: Op::ConvertRegister,
            version: Version::Two,
            given: 0,
            lent: vec![register],
        }
    }

    /// The reading of a tagged text, or the writing of a record.
    pub fn tagged(op: Op, lent: Vec<u8>, out: Vec<u8>) -> Self {
        Call {
            op,
            version: Version::Two,
            given: 0,
            lent: vec![lent, out],
        }
    }

    /// The check of the same bytes, if this is an apply.
    pub fn check(&self) -> Option<Self> {
        let op = self.op.check()?;
        Some(Call { op, ..self.clone() })
    }

    /// What this check must return to foretell an apply of the same bytes: its
    /// refusal and n, nothing done, the last cycle as given.
    fn foretold(&self, applied: &Outcome) -> Vec<u32> {
        let mut returned = applied.returned.clone();
        returned[4..].copy_from_slice(&[0, 0, self.given]);
        returned
    }

    /// What this check must come to: that, and every byte as it was.
    pub fn foretelling(&self, applied: &Outcome) -> Outcome {
        Outcome {
            returned: self.foretold(applied),
            lent: self.lent.clone(),
            intact: true,
        }
    }

    /// Whether this is what the check came to.
    pub fn foretells(&self, outcome: &Outcome, applied: &Outcome) -> bool {
        outcome.intact && outcome.returned == self.foretold(applied) && outcome.lent == self.lent
    }

    /// Makes the call on guarded copies of what it lends.
    pub fn run(&self, subject: &impl Subject, shift: usize) -> Outcome {
        let mut lent: Vec<Lent> = (self.lent.iter().enumerate())
            .map(|(place, bytes)| Lent::new(bytes, shift.wrapping_mul(place + 1)))
            .collect();
        let returned = self.returned(subject, &mut lent);
        Outcome {
            returned,
            intact: lent.iter().all(Lent::is_intact),
            lent: lent.into_iter().map(Lent::into_bytes).collect(),
        }
    }

    fn returned(&self, subject: &impl Subject, lent: &mut [Lent]) -> Vec<u32> {
        let given = self.given;
        match (self.op, lent) {
            (Op::Lookup, [register, number]) => {
                let found = subject.lookup(register.bytes(), number.bytes());
                vec![found.refusal, found.state, found.slot, found.looked]
            }
            (Op::WriteLoad, [register, date, name, out]) => {
                let (register, date, name) = (register.bytes(), date.bytes(), name.bytes());
                let (version, out) = (self.version, out.bytes_mut());
                loaded_numbers(&subject.write_load(version, register, date, name, given, out))
            }
            (Op::ConvertRegister, [register]) => {
                let converted = subject.convert_register(register.bytes_mut());
                vec![converted.refusal, converted.slot]
            }
            (Op::ReadTagged, [text, out]) => {
                tagged_numbers(&subject.read_tagged(text.bytes(), out.bytes_mut()))
            }
            (Op::WriteTagged, [record, out]) => {
                tagged_numbers(&subject.write_tagged(record.bytes(), out.bytes_mut()))
            }
            (_, [register, guide, file, answers]) => {
                taken_numbers(&self.taken(subject, register, guide, file.bytes(), answers))
            }
            (op, lent) => panic!("{} lends {} buffers", op.name(), lent.len()),
        }
    }

    /// What a check or an apply gives back.
    fn taken(
        &self,
        subject: &impl Subject,
        register: &mut Lent,
        guide: &mut Lent,
        file: &[u8],
        answers: &mut Lent,
    ) -> Taken {
        let (version, last) = (self.version, self.given);
        match self.op {
            Op::CheckData => {
                let (register, answers) = (register.bytes(), answers.bytes());
                subject.check_data(version, register, guide.bytes(), file, answers, last)
            }
            Op::CheckGuide => {
                subject.check_guide(register.bytes(), guide.bytes(), file, answers.bytes(), last)
            }
            Op::ApplyData => {
                let (register, answers) = (register.bytes_mut(), answers.bytes_mut());
                subject.apply_data(version, register, guide.bytes(), file, answers, last)
            }
            Op::ApplyGuide => {
                let (guide, answers) = (guide.bytes_mut(), answers.bytes_mut());
                subject.apply_guide(register.bytes(), guide, file, answers, last)
            }
            op => panic!("{} lends no file", op.name()),
        }
    }

    /// In words, where two outcomes of this call differ.
    pub fn difference(&self, expected: &Outcome, got: &Outcome) -> Option<String> {
        if !got.intact {
            return Some("a byte outside the lent ones changed".to_string());
        }
        if expected.returned != got.returned {
            let names = self.op.returned().join(" ");
            let (expected, got) = (&expected.returned, &got.returned);
            return Some(format!("({names}) expected {expected:?}, got {got:?}"));
        }
        let buffers = expected.lent.iter().zip(&got.lent);
        for (name, (expected, got)) in self.op.lent().iter().zip(buffers) {
            if expected != got {
                let byte = expected
                    .iter()
                    .zip(got)
                    .position(|(one, other)| one != other);
                return Some(format!("{name} differs from byte {byte:?}"));
            }
        }
        None
    }
}

fn loaded_numbers(loaded: &Loaded) -> Vec<u32> {
    vec![loaded.refusal, loaded.bytes, loaded.entries, loaded.slot]
}

fn tagged_numbers(tagged: &Tagged) -> Vec<u32> {
    vec![tagged.refusal, tagged.position, tagged.bytes]
}

fn taken_numbers(taken: &Taken) -> Vec<u32> {
    vec![
        taken.refusal,
        taken.place,
        taken.position,
        taken.records,
        taken.done,
        taken.undone,
        taken.last,
    ]
}
