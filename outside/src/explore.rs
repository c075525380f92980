//! Compares two subjects on random runs, and holds the runs to the demands.

use crate::call::{Call, Op, Outcome};
use crate::coverage::{Coverage, Morning, Notes};
use crate::damage::damage;
use crate::demands::{round_trip, History};
use crate::gen::World;
use crate::model::convert::LAST_FORMER_DAY;
use crate::model::date::LAST_DAY;
use crate::model::layout::REGISTER_SLOT;
use crate::model::store::{guide_sound, register_sound};
use crate::model::{Described, Former};
use crate::random::Random;
use crate::shrink::shrink;
use crate::subject::{Model, Subject};
use crate::vectors::line;

/// A difference, or a demand that a run did not keep.
pub struct Finding {
    /// What differs.
    pub what: String,
    /// The call, as a line of a calls file, with what was expected.
    pub line: String,
}

/// One step of a run in so many is an evening too.
const EVENINGS: usize = 8;

/// A demand that a run did not keep after this call.
fn not_kept(what: &str, seed: u64, call: &Call, outcome: &Outcome) -> Finding {
    Finding {
        what: format!("{what} (run {seed})"),
        line: line(call, outcome, "demand"),
    }
}

/// Runs of one kind: of files and stores, or of tagged texts.
pub trait Runs {
    /// What counts their calls.
    type Notes: Notes;

    /// Every edge once.
    fn edges(&mut self, seed: u64) -> Result<(), Finding>;

    /// One seeded run.
    fn run(&mut self, seed: u64) -> Result<(), Finding>;

    /// How many calls were compared.
    fn calls(&self) -> u64;

    /// How many cases: as a rule, calls.
    fn cases(&self) -> u64 {
        self.calls()
    }

    /// What came up.
    fn notes(&self) -> &Self::Notes;

    /// Every edge, then runs until `enough`.
    fn explore(&mut self, seed: u64, enough: impl Fn(u64) -> bool) -> Result<(), Finding> {
        self.edges(seed)?;
        let mut seeds = Random::new(seed);
        while !enough(self.cases()) {
            self.run(seeds.bits())?;
        }
        Ok(())
    }
}

/// Calls compared so far and what they covered.
pub struct Explorer<'a, A, B, C = Coverage> {
    expected: &'a A,
    pub(crate) got: &'a B,
    /// How many calls were compared.
    pub calls: u64,
    /// What came up.
    pub coverage: C,
}

impl<'a, A: Subject, B: Subject> Explorer<'a, A, B> {
    /// Compares what is got with what is expected, on files and stores.
    pub fn of_files(expected: &'a A, got: &'a B) -> Self {
        Explorer::new(expected, got)
    }
}

impl<'a, A: Subject, B: Subject, C: Notes> Explorer<'a, A, B, C> {
    pub(crate) fn new(expected: &'a A, got: &'a B) -> Self {
        Explorer {
            expected,
            got,
            calls: 0,
            coverage: C::default(),
        }
    }

    /// Compares a call, and before an apply the check of the same bytes, which must
    /// foretell it; the outcome is the same for both.
    pub fn compare(&mut self, call: &Call, shift: usize) -> Result<Outcome, Finding> {
        let Some(check) = call.check() else {
            return self.compare_alone(call, shift);
        };
        let foretold = self.compare_alone(&check, shift)?;
        let outcome = self.compare_alone(call, shift)?;
        if check.foretells(&foretold, &outcome) {
            return Ok(outcome);
        }
        Err(self.smallest(call, shift, |call| self.unforetold(call, shift)))
    }

    /// Compares one call and no other.
    pub(crate) fn compare_alone(&mut self, call: &Call, shift: usize) -> Result<Outcome, Finding> {
        self.calls += 1;
        let got = call.run(self.got, shift);
        let expected = call.run(self.expected, shift);
        if call.difference(&expected, &got).is_some() {
            return Err(self.smallest(call, shift, |call| self.difference(call, shift)));
        }
        self.coverage.note(call, &got);
        Ok(got)
    }

    /// Where the outcomes of this call differ.
    fn difference(&self, call: &Call, shift: usize) -> Option<String> {
        let (expected, got) = (call.run(self.expected, shift), call.run(self.got, shift));
        call.difference(&expected, &got)
    }

    /// Where the check does not foretell this apply.
    fn unforetold(&self, call: &Call, shift: usize) -> Option<String> {
        let check = call.check()?;
        let expected = check.foretelling(&call.run(self.got, shift));
        let text = check.difference(&expected, &check.run(self.got, shift))?;
        Some(format!("the check does not foretell the apply: {text}"))
    }

    /// What is wrong, on as small a call as shows it.
    fn smallest(
        &self,
        call: &Call,
        shift: usize,
        wrong: impl Fn(&Call) -> Option<String>,
    ) -> Finding {
        let small = shrink(call, |call| wrong(call).is_some());
        Finding {
            what: wrong(&small).unwrap_or_default(),
            line: line(&small, &small.run(self.expected, shift), "expected"),
        }
    }
}

impl<A: Subject, B: Subject> Runs for Explorer<'_, A, B> {
    type Notes = Coverage;

    fn edges(&mut self, seed: u64) -> Result<(), Finding> {
        self.every_edge(seed)
    }

    /// From empty stores or from a register that is converted first.
    fn run(&mut self, seed: u64) -> Result<(), Finding> {
        let mut random = Random::new(!seed);
        let old = if random.chance(20) {
            self.old_run(seed, &mut random)?
        } else {
            None
        };
        let (mut world, mut history) =
            old.unwrap_or_else(|| (World::new(seed), History::default()));
        let small = world.register.len() <= 64 * REGISTER_SLOT;
        let mut waiting = None;
        for left in (0..random.between(4, 40)).rev() {
            if random.below(EVENINGS) == 0 {
                waiting = self.evening(&mut world, &mut random)?;
            }
            let (mut call, whole) = self.next_call(&mut world, &mut random);
            let goes_on = whole || damage(&mut random, &mut self.coverage, &mut call);
            let outcome = self.compare(&call, random.below(64))?;
            let mut kept = Ok(());
            if goes_on {
                world.adopt(call.op, &outcome.returned, &outcome.lent);
                kept = history.note(&call, &outcome);
                let is_behind = |file: &mut Call| file.op == call.op && outcome.refusal() == 0;
                let late = waiting.take_if(is_behind);
                late.map_or(Ok(()), |file| {
                    self.morning(&file, &world, Morning::behind(&file, &call))
                })?;
            }
            // Large stores are held to the demands when the run ends.
            if small && goes_on || left == 0 {
                kept = kept.and_then(|()| self.demands(&history, &world));
            }
            kept.map_err(|what| not_kept(&what, seed, &call, &outcome))?;
        }
        self.coverage.note_run(history.is_of_both_versions());
        waiting.map_or(Ok(()), |file| self.morning(&file, &world, Morning::Kept))
    }

    fn calls(&self) -> u64 {
        self.calls
    }

    fn notes(&self) -> &Coverage {
        &self.coverage
    }
}

impl<A: Subject, B: Subject> Explorer<'_, A, B> {
    /// A run of before: files taken by the model under the former reading, then
    /// the conversion, which is compared and must leave what the history says.
    /// None if it is refused.
    fn old_run(
        &mut self,
        seed: u64,
        random: &mut Random,
    ) -> Result<Option<(World, History)>, Finding> {
        let last_day = random.pick(&[LAST_FORMER_DAY, LAST_DAY]);
        let mut world = World::new(seed).into_old(last_day);
        let mut history = History::default();
        for turn in 0..random.between(2, 10) {
            let call = if turn == 0 || random.chance(25) {
                world.apply_guide()
            } else {
                world.apply_data()
            };
            let outcome = call.run(&Model::<Former<Described>>::new(), 0);
            world.adopt(call.op, &outcome.returned, &outcome.lent);
            history
                .note(&call, &outcome)
                .map_err(|what| not_kept(&what, seed, &call, &outcome))?;
        }
        let call = Call::convert(world.register.clone());
        let outcome = self.compare(&call, random.below(64))?;
        if outcome.refusal() != 0 {
            return Ok(None);
        }
        world.renew(&outcome.lent[0]);
        self.demands(&history, &world)
            .map_err(|what| not_kept(&what, seed, &call, &outcome))?;
        Ok(Some((world, history)))
    }

    /// A call for the world as it is, and whether it is left undamaged.
    fn next_call(&mut self, world: &mut World, random: &mut Random) -> (Call, bool) {
        let call = match random.below(18) {
            0..=3 => world.apply_guide(),
            4 | 5 => world.lookup(),
            6 | 7 => world.write_load(),
            8 | 9 => world.convert(),
            _ => world.apply_data(),
        };
        // Runs get far only if most files of theirs are accepted.
        let whole = random.chance(if call.op == Op::ApplyData { 55 } else { 45 });
        (call, whole)
    }

    /// A file is checked in the evening; if that is good it waits for the morning,
    /// which may never come.
    fn evening(&mut self, world: &mut World, random: &mut Random) -> Result<Option<Call>, Finding> {
        let call = if random.chance(50) {
            world.apply_guide()
        } else {
            world.apply_data()
        };
        let check = call.check().expect("an apply");
        let foretold = self.compare_alone(&check, random.below(64))?;
        Ok((foretold.refusal() == 0).then_some(call))
    }

    /// The file that waits is applied in the morning: refused by 6 behind another of
    /// its kind, whose cycle was the same, with nothing changed, and else not refused.
    fn morning(&mut self, file: &Call, world: &World, due: Morning) -> Result<(), Finding> {
        let (lent, answers) = (file.lent[2].clone(), file.lent[3].len());
        let call = world.apply(file.op, file.version, lent, answers);
        let outcome = self.compare(&call, 9)?;
        let changes = outcome.lent != call.lent;
        if outcome.refusal() != due.refusal() || due.refusal() != 0 && changes {
            return Err(Finding {
                what: format!("not so: {}", due.name()),
                line: line(&call, &outcome, "morning"),
            });
        }
        self.coverage.note_morning(due);
        Ok(())
    }

    /// The brief's demands on what a run has left.
    fn demands(&self, history: &History, world: &World) -> Result<(), String> {
        let sound =
            register_sound::<Described>(&world.register) && guide_sound::<Described>(&world.guide);
        if !sound {
            return Err("a store is left unsound".to_string());
        }
        history.check(&world.register, &world.guide)?;
        round_trip(self.got, &world.register, &world.guide)
    }
}
