//! Damage to calls: to files, stores, lengths and numbers.

use crate::call::{Call, Op};
use crate::coverage::{Coverage, Part};
use crate::gen::{next_cycle, put};
use crate::model::layout::{
    header, record, row, trailer, Field, Form, GUIDE_SLOT, REGISTER_SLOT, ROW, SLOT_HEAD,
};
use crate::model::Version;
use crate::random::Random;

/// Bytes next to the ends of what the rules allow.
pub const BYTES: &[u8] = b"\x00\x01\x02\x03\x04\x1f !/01569:@ACDEIMNOUWZ[az~\x7f\x80\xff*";
/// Last cycles at which something changes.
pub const LASTS: [u32; 6] = [0, 1, 999_998, 999_999, 1_000_000, u32::MAX];

/// Texts that a field of this form may or may not hold.
pub fn texts(form: Form) -> &'static [&'static [u8]] {
    match form {
        Form::Free => &[b"", b" x", b"\x7f"],
        Form::Text => &[b"", b" x", b"x", b"x y", b"  X", b"\x1f", b"~"],
        Form::Mark(_) => &[b"UHL", b"UTL", b"uhl", b"UHL *"],
        Form::OneOf(_) => &[
            b"", b"I", b"D", b"C", b"M", b"U", b"O", b"E", b"B", b"*", b"i",
        ],
        Form::DigitTo(_) => &[b"", b"0", b"5", b"6", b"9", b":", b"/"],
        Form::AllDigits => &[b"", b"1", b"12", b"000", b"12A", b"0000000", b" 123456"],
        Form::Digits(_) => &[
            b"",
            b"0",
            b"7",
            b"83",
            b"083",
            b"12345",
            b"123456",
            b"000001",
            b"1 1",
            b" 1",
            b"1A",
            b"12345678",
            b"123456789",
            b"99999999",
            b"00000000",
            b"1234567890",
            b"-1",
        ],
        Form::Directional => &[b"", b"N", b"SW", b"EN", b" N", b"NN", b"X", b"n", b"WE"],
        Form::Capitals => &[b"", b"OR", b"O", b" R", b"Or", b"O1", b"AZ", b"@A", b"[A"],
        Form::CompanyId => &[
            b"", b"ABC", b"A B", b" AB", b"abc", b"A-1", b"ZZZZZ", b"00000",
        ],
        Form::Date => &[
            b"", b"022900", b"022901", b"022904", b"022800", b"030100", b"123199", b"000100",
            b"130100", b"010000", b"013200", b"043100", b"063100", b"010100", b"01010A", b" 10100",
            b"010170", b"123169", b"022970", b"022972", b"022968", b"022969", b"123170", b"010169",
        ],
        Form::Count => &[
            b"",
            b"0",
            b"        0",
            b"        1",
            b"       01",
            b"        2",
            b"1",
            b"       -1",
            b"000000001",
            b"999999999",
            b"     1  1",
        ],
    }
}

/// Changes one byte of the whole, or gives one field another text.
fn change(
    random: &mut Random,
    coverage: &mut Coverage,
    part: Part,
    fields: &[Field],
    whole: &mut [u8],
) {
    let field = random.pick(fields);
    if random.chance(50) {
        let text = random.pick(texts(field.form));
        put(whole, field, &text[..text.len().min(field.length())]);
        (field.first - 1..field.last).for_each(|byte| coverage.note_damage(part, byte));
        return;
    }
    // Long fields get as many hits as short ones, each of their bytes some.
    let byte = if random.chance(50) {
        field.first - 1 + random.below(field.length())
    } else {
        random.below(whole.len())
    };
    whole[byte] = if random.chance(85) {
        random.pick(BYTES)
    } else {
        random.bits() as u8
    };
    coverage.note_damage(part, byte);
}

/// The size, fields and part of a file's records.
fn kind(call: &Call) -> (usize, &'static [Field], Part) {
    let version = call.version;
    if call.op.has_records() {
        (version.record(), version.fields(), Part::Record(version))
    } else {
        (ROW, &row::FIELDS, Part::Row)
    }
}

/// Damages the file of an apply at one place: header, trailer or a record, where
/// the version that is said has them.
fn damage_file(random: &mut Random, coverage: &mut Coverage, call: &mut Call) {
    let (size, fields, part) = kind(call);
    let (version, edge) = (call.version, call.version.edge());
    let file = &mut call.lent[2];
    let Some(between) = file.len().checked_sub(version.file(0)) else {
        return;
    };
    let (count, tail) = (between / size, file.len() - edge);
    match random.below(10) {
        0 | 1 => {
            let part = Part::Header(version);
            change(random, coverage, part, version.header(), &mut file[..edge]);
        }
        2 | 3 => {
            let part = Part::Trailer(version);
            change(random, coverage, part, version.trailer(), &mut file[tail..]);
        }
        4 if random.chance(50) => cut(random, size, file),
        4 => {
            let other = random.pick(&[count + 1, count.saturating_sub(1), 999_999_999]);
            let text = format!("{other:>9}");
            put(&mut file[tail..], trailer::COUNT, text.as_bytes());
        }
        _ if count > 0 => {
            let at = edge + size * random.below(count);
            change(random, coverage, part, fields, &mut file[at..at + size]);
        }
        _ => {}
    }
}

/// Gives bytes another length.
fn cut(random: &mut Random, size: usize, bytes: &mut Vec<u8>) {
    let length = bytes.len();
    let wanted = match random.below(6) {
        0 => 0,
        1 => length + 1,
        2 => length.saturating_sub(1),
        3 => length + size,
        4 => length.saturating_sub(size),
        _ => random.below(length + 2),
    };
    bytes.resize(wanted, b' ');
}

/// Damages a slot of a register or guide, or the store's length.
fn damage_store(random: &mut Random, coverage: &mut Coverage, op: Op, store: &mut Vec<u8>) {
    let (slot, fields, part): (usize, &[Field], Part) = match op {
        Op::ApplyGuide => (GUIDE_SLOT, &row::FIELDS, Part::Row),
        _ => (REGISTER_SLOT, &record::FIELDS, Part::Record(Version::Two)),
    };
    if random.chance(8) {
        return cut(random, slot, store);
    }
    let slots = store.len() / slot;
    if random.chance(25) {
        // A slot twice is sound: the lowest one alone decides.
        let (from, to) = (random.below(slots) * slot, random.below(slots) * slot);
        return store.copy_within(from..from + slot, to);
    }
    let used = |index: &usize| store[index * slot] != 0;
    // A used slot if two tries find one: a free one has little to damage.
    let tries = [random.below(slots), random.below(slots)];
    let index = tries.into_iter().find(used).unwrap_or(tries[0]);
    let whole = &mut store[index * slot..][..slot];
    if random.chance(45) {
        let byte = random.below(SLOT_HEAD);
        let changed = random.pick(&[
            0,
            1,
            2,
            3,
            4,
            255,
            whole[byte] ^ 1,
            whole[byte].wrapping_add(1),
        ]);
        whole[byte] = changed;
    } else {
        change(random, coverage, part, fields, &mut whole[SLOT_HEAD..]);
    }
}

/// Damages a call in place; true if its stores and last cycle are untouched, so
/// that a run may go on from its outcome.
pub fn damage(random: &mut Random, coverage: &mut Coverage, call: &mut Call) -> bool {
    match call.op {
        Op::ApplyData | Op::ApplyGuide => damage_apply(random, coverage, call),
        Op::Lookup => {
            match random.below(5) {
                0 => cut(random, REGISTER_SLOT, &mut call.lent[0]),
                1 => cut(random, 1, &mut call.lent[1]),
                2 => {
                    let byte = random.below(call.lent[1].len());
                    call.lent[1][byte] = random.pick(BYTES);
                }
                _ => damage_store(random, coverage, Op::ApplyData, &mut call.lent[0]),
            }
            false
        }
        Op::WriteLoad => {
            damage_load(random, coverage, call);
            false
        }
        Op::ConvertRegister => {
            damage_store(random, coverage, Op::ApplyData, &mut call.lent[0]);
            false
        }
        Op::CheckData | Op::CheckGuide => unreachable!("a check is of an apply's bytes"),
        Op::ReadTagged | Op::WriteTagged => unreachable!("texts are damaged elsewhere"),
    }
}

fn damage_load(random: &mut Random, coverage: &mut Coverage, call: &mut Call) {
    match random.below(6) {
        0 => call.given = random.pick(&LASTS),
        1 => {
            let text = random.pick(texts(Form::Date));
            call.lent[1] = text.to_vec();
        }
        2 => {
            let byte = random.pick(&[0, 0, 1, 49]);
            call.lent[2][byte] = random.pick(BYTES);
        }
        3 => call.lent[2] = vec![b' '; random.pick(&[49, 50, 51])],
        4 => cut(random, call.version.record(), &mut call.lent[3]),
        _ => damage_store(random, coverage, Op::ApplyData, &mut call.lent[0]),
    }
}

fn damage_apply(random: &mut Random, coverage: &mut Coverage, call: &mut Call) -> bool {
    match random.below(20) {
        0..=2 => {
            damage_store(random, coverage, Op::ApplyData, &mut call.lent[0]);
            return false;
        }
        3..=5 => {
            damage_store(random, coverage, Op::ApplyGuide, &mut call.lent[1]);
            return false;
        }
        6 => {
            call.given = random.pick(&LASTS);
            if random.chance(60) {
                // Often with the cycle that follows, or seems to.
                let cycle = random.pick(&[next_cycle(call.given), 1, 999_999]) % 1_000_000;
                let text = cycle.to_string();
                put(&mut call.lent[2], header::CYCLE, text.as_bytes());
            }
            return false;
        }
        7 => {
            let shorter = call.lent[3]
                .len()
                .saturating_sub(random.pick(&[1, 1, 2, 9]));
            call.lent[3].truncate(shorter);
        }
        // The caller says the other version: nothing tells it from the bytes.
        8 if call.op.has_records() => call.version = call.version.other(),
        _ => {
            damage_file(random, coverage, call);
            // Two faults show the order of the tests.
            if random.chance(25) {
                damage_file(random, coverage, call);
            }
        }
    }
    true
}
