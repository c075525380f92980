//! Runs of tagged texts to be read and of records to be written.

pub mod coverage;
pub mod damage;
mod edges;
pub mod occasions;
pub mod parts;
pub mod records;

use crate::call::{Call, Op, Outcome};
use crate::explore::{Explorer, Finding, Runs};
use crate::gen::{file, World};
use crate::model::layout::{RECORD, REGISTER_SLOT};
use crate::model::{write_tagged, Described, Version};
use crate::random::Random;
use crate::subject::Subject;
use crate::town;
use crate::vectors::line;
use coverage::TextCoverage;
use damage::{damaged, random_text};
use parts::{pairs, Parts};
use records::damage_record;

/// Room that is enough for any text.
pub const ENOUGH: usize = 452;
/// What an output holds before the call.
const FILLER: u8 = 0xee;

/// The reading of a text into so much room.
fn reading(text: &[u8], room: usize) -> Call {
    Call::tagged(Op::ReadTagged, text.to_vec(), vec![FILLER; room])
}

/// The writing of a record into so much room.
fn writing(rec: &[u8], room: usize) -> Call {
    Call::tagged(Op::WriteTagged, rec.to_vec(), vec![FILLER; room])
}

/// Bytes of the text that a record is written as; 0 if it is refused.
fn text_length(rec: &[u8]) -> usize {
    write_tagged::<Described>(rec, &mut [0; ENOUGH]).bytes as usize
}

/// What a call wrote.
fn written(outcome: &Outcome) -> &[u8] {
    &outcome.lent[1][..outcome.returned[2] as usize]
}

/// A promise on texts that this call did not keep.
fn broken(what: &str, call: &Call, outcome: &Outcome) -> Finding {
    Finding {
        what: what.to_string(),
        line: line(call, outcome, "promise"),
    }
}

/// Good texts, damaged ones, and a few of any bytes.
fn some_text(random: &mut Random, world: &mut World) -> Vec<u8> {
    match random.below(20) {
        0 => random_text(random),
        1..=7 => world.tagged_parts().text(),
        _ => damaged(random, world.tagged_parts()),
    }
}

/// Mostly room for a record, to the byte or more.
fn some_room(random: &mut Random) -> usize {
    match random.below(10) {
        0 => random.below(RECORD + 2),
        1 => RECORD - 1,
        2 => RECORD + 1,
        3 => 600,
        _ => RECORD,
    }
}

/// Records with a tagged form, as files have them, as load files have them, and
/// damaged ones.
fn some_record(random: &mut Random, world: &mut World) -> Vec<u8> {
    let mut whole = match random.below(10) {
        0 => world.record().to_vec(),
        1 => world.load_record().to_vec(),
        _ => world.labelled_record().to_vec(),
    };
    for _ in 0..random.pick(&[0, 0, 1, 1, 2]) {
        // Another length is the last damage.
        if whole.len() == RECORD {
            damage_record(random, &mut whole);
        }
    }
    whole
}

/// Whether a text is "in the exhibit's order", without blank fields and trailing
/// spaces.
fn is_as_written(text: &[u8]) -> bool {
    let Some(pairs) = pairs(text) else {
        return false;
    };
    let in_order = pairs
        .windows(2)
        .all(|two| two[0].label.is_some() && two[0].label < two[1].label);
    let is_trimmed = |value: &[u8]| !value.is_empty() && !value.ends_with(b" ");
    in_order && pairs.iter().all(|pair| is_trimmed(pair.value))
}

impl<'a, A: Subject, B: Subject> Explorer<'a, A, B, TextCoverage> {
    /// Compares what is got with what is expected, on tagged texts.
    pub fn of_texts(expected: &'a A, got: &'a B) -> Self {
        Explorer::new(expected, got)
    }
}

impl<A: Subject, B: Subject> Runs for Explorer<'_, A, B, TextCoverage> {
    type Notes = TextCoverage;

    fn edges(&mut self, _seed: u64) -> Result<(), Finding> {
        self.every_text_edge()
    }

    /// Texts and records of one small world.
    fn run(&mut self, seed: u64) -> Result<(), Finding> {
        let mut world = World::sized(seed, 1, 1);
        let mut random = Random::new(!seed);
        let mut read = Vec::new();
        for _ in 0..random.between(8, 40) {
            let call = reading(&some_text(&mut random, &mut world), some_room(&mut random));
            let outcome = self.compare(&call, random.below(64))?;
            self.coverage.made += 1;
            self.any_order(&mut random, &call, &outcome)?;
            if outcome.refusal() == 0 {
                self.is_written(written(&outcome))?;
                read.extend_from_slice(written(&outcome));
            }
            if random.chance(40) {
                let whole = some_record(&mut random, &mut world);
                self.write_into_some_room(&mut random, &whole)?;
            }
        }
        self.is_taken(&read)
    }

    fn calls(&self) -> u64 {
        self.calls
    }

    /// Texts that were made.
    fn cases(&self) -> u64 {
        self.coverage.made
    }

    fn notes(&self) -> &TextCoverage {
        &self.coverage
    }
}

impl<A: Subject, B: Subject> Explorer<'_, A, B, TextCoverage> {
    /// "Reading accepts any order": the same pairs in another one are answered the
    /// same, refused or not.
    fn any_order(
        &mut self,
        random: &mut Random,
        call: &Call,
        outcome: &Outcome,
    ) -> Result<(), Finding> {
        let Some(mut parts) = Parts::of(&call.lent[0]) else {
            return Ok(());
        };
        random.shuffle(&mut parts.pairs);
        let other = reading(&parts.text(), call.lent[1].len());
        let answer = self.compare(&other, 1)?;
        let same = (&answer.returned, &answer.lent[1]) == (&outcome.returned, &outcome.lent[1]);
        if same {
            Ok(())
        } else {
            Err(broken("another order is read otherwise", &other, &answer))
        }
    }

    /// What was read can be written.
    fn is_written(&mut self, whole: &[u8]) -> Result<(), Finding> {
        let call = writing(whole, ENOUGH);
        let outcome = self.compare(&call, 2)?;
        match outcome.refusal() {
            0 => self.reads_back(&call, &outcome),
            _ => Err(broken("what was read is not written", &call, &outcome)),
        }
    }

    /// "Reading what we wrote gives the same record", and it was written in its
    /// one tagged form.
    fn reads_back(&mut self, call: &Call, outcome: &Outcome) -> Result<(), Finding> {
        let text = written(outcome);
        if !is_as_written(text) {
            return Err(broken("not in the one tagged form", call, outcome));
        }
        let back = self.compare(&reading(text, RECORD), 3)?;
        if written(&back) == call.lent[0] {
            Ok(())
        } else {
            Err(broken("it reads back otherwise", call, outcome))
        }
    }

    /// Writes a record: with just enough room, a byte too little, more or none.
    fn write_into_some_room(&mut self, random: &mut Random, whole: &[u8]) -> Result<(), Finding> {
        let room = match text_length(whole) {
            0 => random.pick(&[ENOUGH, ENOUGH, 90, 0]),
            need => random.pick(&[need, need, need + 1, ENOUGH, 600, need - 1, 0]),
        };
        let call = writing(whole, room);
        let outcome = self.compare(&call, random.below(64))?;
        match outcome.refusal() {
            0 => self.reads_back(&call, &outcome),
            _ => Ok(()),
        }
    }

    /// Records that were read make a data file that is taken: "Demands 2 and 3 hold
    /// over the record so read."
    fn is_taken(&self, records: &[u8]) -> Result<(), Finding> {
        let count = records.len() / RECORD;
        let call = Call {
            op: Op::ApplyData,
            version: Version::Two,
            given: 0,
            lent: vec![
                vec![0; REGISTER_SLOT],
                town::guide(1),
                file(b"123169", 1, records, count),
                vec![FILLER; count],
            ],
        };
        let outcome = call.run(self.got, 0);
        match outcome.refusal() {
            0 => Ok(()),
            _ => Err(broken("records read are refused", &call, &outcome)),
        }
    }
}
