//! How often each refusal, answer, fault position, damaged byte and occasion
//! came up.

use crate::call::{Call, Op, Outcome};
use crate::model::layout::{row, Field, RECORD, ROW};
use crate::model::Version;
use crate::occasions::OCCASIONS;

/// The parts of files that bytes are damaged in.
#[derive(Clone, Copy, Debug, PartialEq, Eq)]
pub enum Part {
    /// A header; a guide file's is of Version 2.
    Header(Version),
    /// A trailer.
    Trailer(Version),
    /// A data record.
    Record(Version),
    /// A guide row.
    Row,
}

impl Part {
    /// All of them.
    const ALL: [Part; 7] = [
        Part::Header(Version::Two),
        Part::Trailer(Version::Two),
        Part::Record(Version::Two),
        Part::Row,
        Part::Header(Version::One),
        Part::Trailer(Version::One),
        Part::Record(Version::One),
    ];

    /// Its bytes.
    fn length(self) -> usize {
        match self {
            Part::Header(version) | Part::Trailer(version) => version.edge(),
            Part::Record(version) => version.record(),
            Part::Row => ROW,
        }
    }

    /// In words.
    fn name(self) -> String {
        match self {
            Part::Header(version) => format!("{}Header", of(version)),
            Part::Trailer(version) => format!("{}Trailer", of(version)),
            Part::Record(version) => format!("{}Record", of(version)),
            Part::Row => "Row".to_string(),
        }
    }

    /// Its place among all.
    fn index(self) -> usize {
        let place = Part::ALL.iter().position(|part| *part == self);
        place.expect("one of all")
    }
}

/// What stands before a name where Version 1 is meant.
fn of(version: Version) -> &'static str {
    match version {
        Version::One => "Version 1 ",
        Version::Two => "",
    }
}

/// What counts the calls of a kind of runs.
pub trait Notes: Default {
    /// Counts a call's outcome.
    fn note(&mut self, call: &Call, outcome: &Outcome);
    /// What came up, a line a kind.
    fn lines(&self) -> Vec<String>;
    /// What never came up.
    fn missing(&self) -> Vec<String>;
}

/// Refusal numbers of files and stores go to 28.
const NUMBERS: usize = 29;

/// The counts of one call of files and stores.
#[derive(Clone)]
struct Counts {
    refusals: [u64; NUMBERS],
    answers: [u64; NUMBERS],
    faults: [u64; RECORD + 1],
}

/// The calls of files and stores, with the versions that they are made of.
const KINDS: [(Op, Version); 10] = [
    (Op::CheckData, Version::Two),
    (Op::CheckData, Version::One),
    (Op::CheckGuide, Version::Two),
    (Op::ApplyData, Version::Two),
    (Op::ApplyData, Version::One),
    (Op::ApplyGuide, Version::Two),
    (Op::Lookup, Version::Two),
    (Op::WriteLoad, Version::Two),
    (Op::WriteLoad, Version::One),
    (Op::ConvertRegister, Version::Two),
];

/// The counts of runs of files.
pub struct Coverage {
    counts: Vec<Counts>,
    damaged: [[u64; RECORD]; Part::ALL.len()],
    occasions: [u64; OCCASIONS.len()],
    mornings: [u64; Morning::ALL.len()],
    /// Runs with records accepted of both versions.
    mixed: u64,
}

/// What becomes in the morning of a file that was checked good in the evening.
#[derive(Clone, Copy)]
pub enum Morning {
    /// No other file of its kind was applied.
    Kept,
    /// Another one was, of the same version.
    Overtaken,
    /// Another one was, of the other version: the cycles are one sequence.
    OvertakenByOther,
}

impl Morning {
    const ALL: [Morning; 3] = [Morning::Kept, Morning::Overtaken, Morning::OvertakenByOther];

    /// Behind a file that was applied.
    pub fn behind(waiting: &Call, applied: &Call) -> Self {
        if waiting.version == applied.version {
            Morning::Overtaken
        } else {
            Morning::OvertakenByOther
        }
    }

    /// In words.
    pub fn name(self) -> &'static str {
        match self {
            Morning::Kept => "a good check, no file of its kind applied, then 0",
            Morning::Overtaken => "a good check, another file applied, then 6",
            Morning::OvertakenByOther => {
                "a good check, a file of the other version applied, then 6"
            }
        }
    }

    /// What applying it says.
    pub fn refusal(self) -> u32 {
        match self {
            Morning::Kept => 0,
            Morning::Overtaken | Morning::OvertakenByOther => 6,
        }
    }
}

impl Default for Coverage {
    fn default() -> Self {
        let none = Counts {
            refusals: [0; NUMBERS],
            answers: [0; NUMBERS],
            faults: [0; RECORD + 1],
        };
        Coverage {
            counts: vec![none; KINDS.len()],
            damaged: [[0; RECORD]; Part::ALL.len()],
            occasions: [0; OCCASIONS.len()],
            mornings: [0; Morning::ALL.len()],
            mixed: 0,
        }
    }
}

/// The refusals that each function can give, no refusal among them.
fn refusals(op: Op, version: Version) -> &'static [usize] {
    match (op, version) {
        (Op::CheckData | Op::CheckGuide | Op::ApplyData | Op::ApplyGuide, _) => {
            &[0, 1, 2, 3, 4, 5, 6, 7, 8, 9]
        }
        (Op::Lookup, _) => &[0, 1, 10],
        (Op::WriteLoad, Version::One) => &[0, 1, 25, 26, 27],
        (Op::WriteLoad, Version::Two) => &[0, 1, 25, 26],
        (Op::ConvertRegister, _) => &[0, 1, 28],
        (Op::ReadTagged | Op::WriteTagged, _) => &[],
    }
}

/// The answers that each apply can give; 14 is to an M alone.
fn answers(op: Op, version: Version) -> &'static [usize] {
    match (op, version) {
        (Op::ApplyData, Version::One) => &[0, 11, 12, 13, 15, 16, 17, 18, 19, 20],
        (Op::ApplyData, Version::Two) => &[0, 11, 12, 13, 14, 15, 16, 17, 18, 19, 20],
        (Op::ApplyGuide, _) => &[0, 21, 22, 23, 24],
        _ => &[],
    }
}

/// The fields whose faults a check or an apply can find.
fn fields(op: Op, version: Version) -> &'static [Field] {
    match op {
        Op::CheckData | Op::ApplyData => version.fields(),
        Op::CheckGuide | Op::ApplyGuide => &row::FIELDS,
        _ => &[],
    }
}

impl Coverage {
    /// Counts a damaged byte, from 0.
    pub fn note_damage(&mut self, part: Part, byte: usize) {
        self.damaged[part.index()][byte] += 1;
    }

    /// Counts what became of a file that was checked in the evening.
    pub fn note_morning(&mut self, morning: Morning) {
        self.mornings[morning as usize] += 1;
    }

    /// Counts a run that has ended, if files of both versions had a part in it.
    pub fn note_run(&mut self, is_mixed: bool) {
        self.mixed += u64::from(is_mixed);
    }

    /// Each call of files and stores: its name, what it is, and its counts.
    fn kinds(&self) -> impl Iterator<Item = (String, (Op, Version), &Counts)> {
        let named = |(op, version): (Op, Version)| format!("{}{}", of(version), op.name());
        let kinds = KINDS.into_iter().zip(&self.counts);
        kinds.map(move |(kind, counts)| (named(kind), kind, counts))
    }

    /// The occasions with their counts: those of one call, and those of several.
    fn occasions(&self) -> impl Iterator<Item = (&'static str, u64)> + '_ {
        let names = OCCASIONS.iter().map(|(name, _)| *name);
        let mornings = Morning::ALL.map(Morning::name).into_iter();
        let runs = [("a run with records done of both versions", self.mixed)];
        names
            .zip(self.occasions)
            .chain(mornings.zip(self.mornings))
            .chain(runs)
    }
}

impl Notes for Coverage {
    fn note(&mut self, call: &Call, outcome: &Outcome) {
        let kind = (call.op, call.version);
        let place = KINDS.iter().position(|one| *one == kind);
        let counts = &mut self.counts[place.expect("a call of files and stores")];
        let refusal = outcome.refusal() as usize;
        counts.refusals[refusal] += 1;
        for (count, (_, came_up)) in self.occasions.iter_mut().zip(OCCASIONS) {
            *count += u64::from(came_up(call, outcome));
        }
        if refusal == 9 {
            counts.faults[outcome.returned[2] as usize] += 1;
        }
        if answers(call.op, call.version).is_empty() {
            return;
        }
        let applied = outcome.returned[3] as usize;
        for &answer in &outcome.lent[3][..applied] {
            counts.answers[usize::from(answer)] += 1;
        }
    }

    fn lines(&self) -> Vec<String> {
        let mut lines = Vec::new();
        let list = |numbers: &[usize], counts: &[u64]| -> String {
            let one = |&number: &usize| format!(" {number}:{}", counts[number]);
            numbers.iter().map(one).collect()
        };
        for (name, (op, version), counts) in self.kinds() {
            let refusals = list(refusals(op, version), &counts.refusals);
            lines.push(format!("{name} refusals{refusals}"));
            if !answers(op, version).is_empty() {
                let answers = list(answers(op, version), &counts.answers);
                lines.push(format!("{name} answers{answers}"));
            }
            let fields = fields(op, version);
            if !fields.is_empty() {
                let firsts: Vec<usize> = fields.iter().map(|field| field.first).collect();
                let faults = list(&firsts, &counts.faults);
                lines.push(format!("{name} fault positions{faults}"));
            }
        }
        for (part, hit) in Part::ALL.into_iter().zip(&self.damaged) {
            let (name, length) = (part.name(), part.length());
            let bytes = hit.iter().filter(|&&count| count > 0).count();
            let least = hit[..length].iter().min().unwrap_or(&0);
            lines.push(format!(
                "{name} bytes damaged {bytes} of {length}, least often {least}"
            ));
        }
        let occasions = self.occasions();
        lines.extend(occasions.map(|(name, count)| format!("{name}: {count}")));
        lines
    }

    fn missing(&self) -> Vec<String> {
        let mut missing = Vec::new();
        let mut want = |count: u64, what: String| {
            if count == 0 {
                missing.push(what);
            }
        };
        for (name, (op, version), counts) in self.kinds() {
            for &number in refusals(op, version) {
                want(counts.refusals[number], format!("{name} refusal {number}"));
            }
            for &number in answers(op, version) {
                want(counts.answers[number], format!("{name} answer {number}"));
            }
            for field in fields(op, version) {
                let first = field.first;
                want(counts.faults[first], format!("{name} fault at {first}"));
            }
        }
        for (part, hit) in Part::ALL.into_iter().zip(&self.damaged) {
            for (byte, &count) in hit[..part.length()].iter().enumerate() {
                want(count, format!("{} byte {byte}", part.name()));
            }
        }
        for (name, count) in self.occasions() {
            want(count, name.to_string());
        }
        missing
    }
}
