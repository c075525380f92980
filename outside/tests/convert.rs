//! What the conversion of old registers must keep, on seeded registers and runs.

use outside::call::{Call, Op, Outcome};
use outside::coverage::Coverage;
use outside::damage::damage;
use outside::face::Library;
use outside::gen::World;
use outside::model::convert::{LAST_FORMER_DAY, MOVED};
use outside::model::date::day;
use outside::model::layout::{header, record, EDGE, RECORD, REGISTER_SLOT};
use outside::model::store::{register_sound, slot_day, HELD};
use outside::model::{Converted, Described, Former};
use outside::random::Random;
use outside::subject::{Model, Subject};

const MODEL: Model<Described> = Model::new();
const FORMER: Model<Former<Described>> = Model::new();

/// A register that a world makes, damaged now and then.
fn some_register(world: &mut World, random: &mut Random) -> Vec<u8> {
    let mut call = world.convert();
    if random.chance(30) {
        damage(random, &mut Coverage::default(), &mut call);
    }
    call.lent.remove(0)
}

/// What is said of the conversion of one register; its refusal.
fn keeps_its_word(subject: &impl Subject, before: &[u8]) -> u32 {
    let mut after = before.to_vec();
    let Converted { refusal, slot } = subject.convert_register(&mut after);
    assert_eq!(after.len(), before.len());
    assert_eq!(
        refusal == 1,
        !register_sound::<Former<Described>>(before),
        "1 by the old reading and nothing else"
    );
    if refusal != 0 {
        assert_eq!(after, before, "a refusal changes nothing");
        assert!(refusal == 28 || slot == 0);
        return refusal;
    }
    assert_eq!(slot, 0);
    assert!(
        register_sound::<Described>(&after),
        "sound by the present reading"
    );
    let slots = before.chunks_exact(REGISTER_SLOT);
    for (before, after) in slots.zip(after.chunks_exact(REGISTER_SLOT)) {
        let moved = if before[0] == 0 { 0 } else { MOVED };
        assert_eq!(slot_day(after).0, slot_day(before).0 + moved);
        assert_eq!((before[0], &before[5..]), (after[0], &after[5..]));
    }
    if after
        .chunks_exact(REGISTER_SLOT)
        .any(|slot| slot[0] == HELD)
    {
        let again = subject.convert_register(&mut after);
        assert_eq!((again.refusal, again.slot), (1, 0), "not twice");
    }
    0
}

/// Refusal 28 names the lowest slot whose day has no reading.
fn names_the_lowest(subject: &impl Subject, register: &[u8]) {
    let late = |slot: &[u8]| slot[0] != 0 && slot_day(slot) > LAST_FORMER_DAY;
    let lowest = register.chunks_exact(REGISTER_SLOT).position(late);
    let converted = subject.convert_register(&mut register.to_vec());
    assert_eq!(Some(converted.slot as usize), lowest);
}

fn conversions_keep_their_word(subject: &impl Subject) {
    let mut seen = [0_u32; 29];
    for seed in 0..3000 {
        let mut world = World::new(seed);
        let register = some_register(&mut world, &mut Random::new(!seed));
        let refusal = keeps_its_word(subject, &register);
        if refusal == 28 {
            names_the_lowest(subject, &register);
        }
        seen[refusal as usize] += 1;
    }
    assert!([0, 1, 28].iter().all(|&refusal| seen[refusal] > 100));
}

#[test]
fn the_models_conversions_keep_their_word() {
    conversions_keep_their_word(&MODEL);
}

#[test]
fn the_librarys_conversions_keep_their_word() {
    conversions_keep_their_word(&Library);
}

/// Whether no date of the call is of YY 70 to 99: for the two readings such a date
/// lies a century apart, and any other is the same day.
fn is_of_shared_years(call: &Call) -> bool {
    let shared =
        |date: &[u8]| day::<Former<Described>>(date).is_none_or(|number| number <= LAST_FORMER_DAY);
    match (call.op, &call.lent[..]) {
        (Op::ApplyData, [_, _, file, _]) if file.len() > EDGE => {
            // Old worlds file Version 2.
            let mut records = file[EDGE..].chunks_exact(RECORD);
            shared(header::DATE.of(file)) && records.all(|whole| shared(record::DATE.of(whole)))
        }
        (Op::ApplyGuide, [_, _, file, _]) if file.len() > EDGE => shared(header::DATE.of(file)),
        (Op::WriteLoad, [_, date, _, _]) => shared(date),
        _ => true,
    }
}

/// The register converted, which must not be refused.
fn converted(register: &[u8]) -> Vec<u8> {
    let mut register = register.to_vec();
    assert_eq!(MODEL.convert_register(&mut register), Converted::default());
    register
}

/// The call by the former reading and then the conversion, and the conversion and
/// then the call by the present reading.
fn both_ways(call: &Call) -> (Outcome, [Outcome; 2]) {
    let former = call.run(&FORMER, 0);
    let mut one = former.clone();
    one.lent[0] = converted(&one.lent[0]);
    let mut other = call.clone();
    other.lent[0] = converted(&call.lent[0]);
    (former, [one, other.run(&MODEL, 0)])
}

#[test]
fn converting_first_or_last_is_the_same() {
    let (mut compared, mut accepted) = (0, 0);
    for seed in 0..400 {
        let mut random = Random::new(!seed);
        let slots = random.pick(&[1, 2, 5, 64]);
        let mut world = World::sized(seed, slots, slots).into_old(LAST_FORMER_DAY);
        for _ in 0..30 {
            let mut call = match random.below(8) {
                0 | 1 => world.apply_guide(),
                2 => world.lookup(),
                3 => world.write_load(),
                _ => world.apply_data(),
            };
            // A damaged register may have no conversion.
            let sound =
                random.chance(75) || damage(&mut random, &mut Coverage::default(), &mut call);
            if !sound || !is_of_shared_years(&call) {
                continue;
            }
            let (outcome, [one, other]) = both_ways(&call);
            assert_eq!(one, other);
            compared += 1;
            accepted += outcome.returned.get(4).copied().unwrap_or(0);
            world.adopt(call.op, &outcome.returned, &outcome.lent);
        }
    }
    assert!(compared > 5000 && accepted > 5000, "{compared} {accepted}");
}
