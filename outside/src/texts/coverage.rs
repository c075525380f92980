//! How often each refusal, fault position, label and occasion came up in runs of
//! tagged texts.

use super::damage::NOT_TAKEN;
use super::occasions::{Case, OCCASIONS};
use super::parts::Pair;
use super::records::may_hold_a_bar;
use crate::call::{Call, Op, Outcome};
use crate::coverage::Notes;
use crate::model::form::blank;
use crate::model::layout::{record, Field, RECORD};
use crate::model::tagged::{LABELS, TAGS, UNLABELLED};

/// Refusal numbers go to 37.
const NUMBERS: usize = 38;
/// Fields of a record.
const FIELDS: usize = record::FIELDS.len();

/// What may become of a label, in the order of `TextCoverage::labels`.
const FATES: [&str; 4] = ["read", "written", "too long", "twice"];

/// The counts of runs of texts.
pub struct TextCoverage {
    /// Texts that were made, not counting those in another order or read back.
    pub made: u64,
    /// Of readings and of writings.
    refusals: [[u64; NUMBERS]; 2],
    /// Of readings and of writings, by position.
    faults: [[u64; RECORD + 1]; 2],
    labels: [[u64; LABELS]; FATES.len()],
    /// 34 for one label of the exhibit.
    not_taken: [u64; NOT_TAKEN.len()],
    /// 37 for a `|` in one field.
    barred: [u64; FIELDS],
    /// 37 for one field without a label.
    unlabelled: [u64; UNLABELLED.len()],
    occasions: [u64; OCCASIONS.len()],
}

impl Default for TextCoverage {
    fn default() -> Self {
        TextCoverage {
            made: 0,
            refusals: [[0; NUMBERS]; 2],
            faults: [[0; RECORD + 1]; 2],
            labels: [[0; LABELS]; FATES.len()],
            not_taken: [0; NOT_TAKEN.len()],
            barred: [0; FIELDS],
            unlabelled: [0; UNLABELLED.len()],
            occasions: [0; OCCASIONS.len()],
        }
    }
}

/// Both calls, with the refusals that each can give, no refusal among them.
const CALLS: [(Op, &[usize]); 2] = [
    (Op::ReadTagged, &[0, 9, 25, 33, 34, 35, 36]),
    (Op::WriteTagged, &[0, 9, 25, 37]),
];

/// The fields whose faults a call can find. A text has its main number and its Zip
/// in a good form or not at all, and the two fields of CPN together or not at all.
fn fields(op: Op) -> Vec<Field> {
    let of_text = TAGS
        .iter()
        .filter(|tag| !matches!(&tag.label, b"MTN" | b"ZIP"));
    match op {
        Op::ReadTagged => of_text.map(|tag| tag.field).collect(),
        _ => record::FIELDS.to_vec(),
    }
}

/// What became of a label: its place in `FATES`.
fn fate(case: &Case, pair: &Pair) -> Option<usize> {
    let same = |other: &&Pair| other.label == pair.label;
    let too_long = || case.pairs.iter().filter(|pair| pair.is_too_long()).count();
    let fates = [
        case.reads(0),
        case.writes(0),
        case.reads(36) && pair.is_too_long() && too_long() == 1,
        case.reads(35) && case.pairs.iter().filter(same).count() > 1,
    ];
    fates.iter().position(|&is_so| is_so)
}

/// The place of the one item of which it is so.
fn only<T>(items: &[T], is_so: impl Fn(&T) -> bool) -> Option<usize> {
    let mut places = (0..items.len()).filter(|&at| is_so(&items[at]));
    places.next().filter(|_| places.next().is_none())
}

impl TextCoverage {
    /// Counts which label of the exhibit is not taken, if it is the only one.
    fn note_not_taken(&mut self, pairs: &[Pair]) {
        if let Some(at) = only(pairs, |pair| pair.label.is_none()) {
            let has = |label: &[u8; 3]| pairs[at].bytes.starts_with(label);
            if let Some(at) = NOT_TAKEN.iter().position(|label| has(label)) {
                self.not_taken[at] += 1;
            }
        }
    }

    /// Counts why a record has no tagged form.
    fn note_no_form(&mut self, whole: &[u8]) {
        if let Some(at) = only(&record::FIELDS, |field| field.of(whole).contains(&b'|')) {
            self.barred[at] += 1;
        } else if let Some(at) = only(&UNLABELLED, |field| !blank(field.of(whole))) {
            self.unlabelled[at] += 1;
        }
    }

    /// Every count that must not stay 0, in groups, with their names.
    fn groups(&self) -> Vec<(String, Vec<(String, u64)>)> {
        let mut groups = Vec::new();
        for (at, (op, numbers)) in CALLS.into_iter().enumerate() {
            let refusal = |&number: &usize| (number.to_string(), self.refusals[at][number]);
            let refusals = numbers.iter().map(refusal).collect();
            groups.push((format!("{} refusal", op.name()), refusals));
            let fault = |field: Field| (field.first.to_string(), self.faults[at][field.first]);
            let faults = fields(op).into_iter().map(fault).collect();
            groups.push((format!("{} fault at", op.name()), faults));
        }
        for (fate, counts) in FATES.iter().zip(&self.labels) {
            let names = TAGS.iter().map(|tag| tag.label.escape_ascii().to_string());
            let labels = names.zip(counts.iter().copied()).collect();
            groups.push((format!("label {fate}"), labels));
        }
        let not_taken = NOT_TAKEN
            .iter()
            .map(|label| label.escape_ascii().to_string());
        groups.push(("34 of".to_string(), not_taken.zip(self.not_taken).collect()));
        let barred = record::FIELDS.iter().zip(self.barred);
        let barred = barred.filter(|(field, _)| may_hold_a_bar(field.form));
        groups.push(("37 for `|` in".to_string(), named(barred)));
        let unlabelled = named(UNLABELLED.iter().zip(self.unlabelled));
        groups.push(("37 for".to_string(), unlabelled));
        groups
    }
}

fn named<'a>(fields: impl Iterator<Item = (&'a Field, u64)>) -> Vec<(String, u64)> {
    fields
        .map(|(field, count)| (field.name.to_string(), count))
        .collect()
}

impl Notes for TextCoverage {
    fn note(&mut self, call: &Call, outcome: &Outcome) {
        let case = Case::of(call, outcome);
        let refusal = outcome.refusal() as usize;
        let op = usize::from(call.op == Op::WriteTagged);
        self.refusals[op][refusal] += 1;
        if refusal == 9 {
            self.faults[op][outcome.returned[1] as usize] += 1;
        }
        for pair in &case.pairs {
            if let (Some(label), Some(fate)) = (pair.label, fate(&case, pair)) {
                self.labels[fate][label] += 1;
            }
        }
        match refusal {
            34 => self.note_not_taken(&case.pairs),
            37 => self.note_no_form(&call.lent[0]),
            _ => {}
        }
        for (count, (_, came_up)) in self.occasions.iter_mut().zip(OCCASIONS) {
            *count += u64::from(came_up(&case));
        }
    }

    fn lines(&self) -> Vec<String> {
        let one = |(name, count): &(String, u64)| format!(" {name}:{count}");
        let list = |counts: &[(String, u64)]| -> String { counts.iter().map(one).collect() };
        let groups = self.groups();
        let groups = (groups.iter()).map(|(group, counts)| format!("{group}{}", list(counts)));
        let occasions = OCCASIONS.iter().zip(self.occasions);
        let occasions = occasions.map(|((name, _), count)| format!("{name}: {count}"));
        let [read, written] = self.refusals.map(|counts| counts.iter().sum::<u64>());
        let made = self.made;
        let sum = format!("{made} texts made, {read} read, {written} records written");
        groups.chain(occasions).chain([sum]).collect()
    }

    fn missing(&self) -> Vec<String> {
        let mut missing = Vec::new();
        for (group, counts) in self.groups() {
            let never = counts.into_iter().filter(|(_, count)| *count == 0);
            missing.extend(never.map(|(name, _)| format!("{group} {name}")));
        }
        let occasions = OCCASIONS.iter().zip(self.occasions);
        let never = occasions.filter(|(_, count)| *count == 0);
        missing.extend(never.map(|((name, _), _)| name.to_string()));
        missing
    }
}
