//! `vectors CALLS.. [DESK_FOLDER]`: runs every line of the calls files against
//! the model and the library, before each apply the check that foretells it, and
//! every desk vector against the model; a record widened or narrowed, which no call
//! shows alone, against the model.

use outside::dates::day_read;
use outside::face::Library;
use outside::model::date::{day, Day};
use outside::model::versions::{is_wide, narrow, widen};
use outside::model::{desk::desk, Described, Version};
use outside::subject::{Model, Subject};
use outside::vectors::{parse, parse_date, parse_reshaped, Reshaped, Vector};
use std::path::Path;
use std::process::ExitCode;

const MODEL: Model<Described> = Model::new();

/// Passed and failed.
#[derive(Default)]
struct Tally(u32, u32);

impl Tally {
    fn note(&mut self, place: &str, difference: Option<String>) {
        match difference {
            None => self.0 += 1,
            Some(text) => {
                self.1 += 1;
                println!("{place}: {text}");
            }
        }
    }
}

/// Where a subject's outcome is not the vector's.
fn against(subject: &impl Subject, vector: &Vector, shift: usize) -> Option<String> {
    let got = vector.call.run(subject, shift);
    let text = vector.call.difference(&vector.expected, &got)?;
    Some(format!("{text} ({})", vector.kind))
}

/// Where the day that was read is not the vector's.
fn other_day(expected: Option<Day>, got: Result<Option<Day>, String>) -> Option<String> {
    (got != Ok(expected)).then(|| format!("expected {expected:?}, got {got:?}"))
}

/// Where a record is not what the vector says in the other version and back.
fn otherwise(vector: &Reshaped) -> Option<String> {
    let rec = &vector.rec[..];
    let (fits, back) = match vector.version {
        Version::One => (true, narrow(&widen::<Described>(rec)).to_vec()),
        Version::Two if is_wide(rec) => (false, rec.to_vec()),
        Version::Two => (true, widen::<Described>(&narrow(rec)).to_vec()),
    };
    let same = fits == vector.fits && back == vector.back;
    (!same).then(|| format!("expected {}, got {fits}, or other bytes", vector.fits))
}

fn calls(path: &Path, library: &mut Tally, model: &mut Tally) -> std::io::Result<()> {
    for (before, line) in std::fs::read_to_string(path)?.lines().enumerate() {
        let place = format!("{} line {}", path.display(), before + 1);
        if let Some((date, expected)) = parse_date(line) {
            // The model's reader itself too: no call reads a date alone.
            let read = other_day(expected, Ok(day::<Described>(&date)));
            let difference = read.or_else(|| other_day(expected, day_read(&MODEL, &date)));
            model.note(&place, difference);
            library.note(&place, other_day(expected, day_read(&Library, &date)));
        } else if let Some(vector) = parse_reshaped(line) {
            model.note(&place, otherwise(&vector));
        } else if let Some(vector) = parse(line) {
            for vector in [vector.check(), Some(vector)].iter().flatten() {
                model.note(&place, against(&MODEL, vector, before));
                library.note(&place, against(&Library, vector, before));
            }
        } else {
            model.note(&place, Some("can't be read".to_string()));
        }
    }
    Ok(())
}

fn desks(folder: &Path, tally: &mut Tally) -> std::io::Result<()> {
    for entry in std::fs::read_dir(folder)? {
        let path = entry?.path();
        if path.extension().is_some_and(|kind| kind == "in") {
            let expected = std::fs::read(path.with_extension("out"))?;
            let same = desk(&std::fs::read(&path)?) == expected;
            let difference = (!same).then(|| "another output".to_string());
            tally.note(&path.display().to_string(), difference);
        }
    }
    Ok(())
}

fn main() -> std::io::Result<ExitCode> {
    let (mut library, mut model, mut desk) = <(Tally, Tally, Tally)>::default();
    let arguments: Vec<String> = std::env::args().skip(1).collect();
    assert!(!arguments.is_empty(), "the calls files");
    for argument in &arguments {
        let path = Path::new(argument);
        if path.is_dir() {
            desks(path, &mut desk)?;
        } else {
            calls(path, &mut library, &mut model)?;
        }
    }
    println!("model: {} calls passed, {} failed", model.0, model.1);
    println!("library: {} calls passed, {} failed", library.0, library.1);
    println!("model: {} desk inputs passed, {} failed", desk.0, desk.1);
    let (passed, failed) = (model.0 + library.0 + desk.0, model.1 + library.1 + desk.1);
    println!("{passed} passed, {failed} failed");
    Ok(ExitCode::from(u8::from(failed > 0)))
}
