//! Reading and writing calls as lines:
//! `OP inputs -> results # kind of case`, bytes in hexadecimal with `(HEX*N)`.
//! Three OPs are no calls: `date` tells the day number of a date, or None; `widen`
//! and `narrow` tell what a record is in the other version and back.

use crate::call::{Call, Op, Outcome};
use crate::model::date::Day;
use crate::model::desk::{from_hex, put_hex};
use crate::model::layout::RECORD;
use crate::model::Version;
use std::collections::HashMap;

/// A line of a calls file.
pub struct Vector {
    /// The call.
    pub call: Call,
    /// What must come of it.
    pub expected: Outcome,
    /// The kind of case.
    pub kind: String,
}

impl Vector {
    /// The check of the same bytes, if the call is an apply, which it must foretell.
    pub fn check(&self) -> Option<Vector> {
        let call = self.call.check()?;
        Some(Vector {
            expected: call.foretelling(&self.expected),
            kind: format!("foretells {}", self.kind),
            call,
        })
    }
}

/// Reads one line: with every input and every returned number that its OP has, and
/// with no word that it has not.
pub fn parse(line: &str) -> Option<Vector> {
    let (line, kind) = line.split_once(" # ").unwrap_or((line, ""));
    let (inputs, results) = line.split_once(" ->")?;
    let (name, inputs) = inputs.split_once(' ')?;
    let op = Op::ALL.into_iter().find(|op| op.name() == name)?;
    let (inputs, results) = (words(inputs)?, words(results)?);
    let are_known =
        only(&inputs, op.lent(), &input_names(op)) && only(&results, op.lent(), op.returned());
    if !are_known {
        return None;
    }
    let lent = op.lent().iter().map(|name| bytes(inputs.get(name)?));
    let lent: Vec<Vec<u8>> = lent.collect::<Option<_>>()?;
    let given = match op.given() {
        "" => 0,
        name => inputs.get(name)?.parse().ok()?,
    };
    Some(Vector {
        expected: expected(op, &lent, &results)?,
        call: Call {
            op,
            version: version(op, &inputs)?,
            given,
            lent,
        },
        kind: kind.to_string(),
    })
}

/// What a line says that comes of its call.
fn expected(op: Op, lent: &[Vec<u8>], results: &HashMap<&str, &str>) -> Option<Outcome> {
    let after = op.lent().iter().zip(lent).map(|(name, before)| {
        match results.get(name).copied() {
            // A buffer that is not named is one the call may not write.
            None | Some("same") => Some(before.clone()),
            Some(text) => bytes(text),
        }
    });
    let returned = op.returned().iter().map(|name| match results.get(name) {
        Some(text) => text.parse().ok(),
        None => unnamed(op, name, results.get("refusal")?),
    });
    Some(Outcome {
        returned: returned.collect::<Option<_>>()?,
        lent: after.collect::<Option<_>>()?,
        intact: true,
    })
}

/// The names of what a call is given beside its buffers.
fn input_names(op: Op) -> Vec<&'static str> {
    let version = op.has_version().then_some("version");
    [op.given()].into_iter().chain(version).collect()
}

/// Whether every word is one of these.
fn only(words: &HashMap<&str, &str>, lent: &[&str], numbers: &[&str]) -> bool {
    words
        .keys()
        .all(|name| lent.contains(name) || numbers.contains(name))
}

/// The version that a line says, where it has to.
fn version(op: Op, inputs: &HashMap<&str, &str>) -> Option<Version> {
    if !op.has_version() {
        return Some(Version::Two);
    }
    match *inputs.get("version")? {
        "1" => Some(Version::One),
        "2" => Some(Version::Two),
        _ => None,
    }
}

/// A returned number that a line does not name: the bytes that a reading of a
/// tagged text wrote, which its refusal tells.
fn unnamed(op: Op, name: &str, refusal: &str) -> Option<u32> {
    let known = op == Op::ReadTagged && name == "bytes";
    known.then_some(if refusal == "0" { RECORD as u32 } else { 0 })
}

/// Reads one line of OP `date`: the date and its day.
pub fn parse_date(line: &str) -> Option<(Vec<u8>, Option<Day>)> {
    let (line, _) = line.split_once(" # ").unwrap_or((line, ""));
    let (inputs, results) = line.strip_prefix("date ")?.split_once(" ->")?;
    let day = match *words(results)?.get("day")? {
        "None" => None,
        number => Some(Day(number.parse().ok()?)),
    };
    Some((bytes(words(inputs)?.get("date")?)?, day))
}

/// A line of OP `widen` or `narrow`.
#[derive(Debug, PartialEq, Eq)]
pub struct Reshaped {
    /// The version of its record.
    pub version: Version,
    /// The record.
    pub rec: Vec<u8>,
    /// Whether it has a form in the other version.
    pub fits: bool,
    /// The record once it came back from there, or was never sent.
    pub back: Vec<u8>,
}

/// Reads one line of OP `widen` or `narrow`.
pub fn parse_reshaped(line: &str) -> Option<Reshaped> {
    let (line, _) = line.split_once(" # ").unwrap_or((line, ""));
    let (inputs, results) = line.split_once(" ->")?;
    let (name, inputs) = inputs.split_once(' ')?;
    let (inputs, results) = (words(inputs)?, words(results)?);
    let rec = bytes(inputs.get("record")?)?;
    let (version, fits) = match (name, results.get("narrows").copied()) {
        ("widen", None) => (Version::One, true),
        ("narrow", Some("True")) => (Version::Two, true),
        ("narrow", Some("False")) => (Version::Two, false),
        _ => return None,
    };
    let back = match *results.get("record")? {
        "same" => rec.clone(),
        text => bytes(text)?,
    };
    (rec.len() == version.record()).then_some(Reshaped {
        version,
        rec,
        fits,
        back,
    })
}

fn words(text: &str) -> Option<HashMap<&str, &str>> {
    text.split_whitespace()
        .map(|word| word.split_once('='))
        .collect()
}

/// The bytes of hexadecimal with groups.
fn bytes(mut text: &str) -> Option<Vec<u8>> {
    let mut all = Vec::new();
    while let Some((plain, rest)) = text.split_once('(') {
        let (group, rest) = rest.split_once(')')?;
        let (part, times) = group.split_once('*')?;
        all.extend(from_hex(plain.as_bytes())?);
        all.extend(from_hex(part.as_bytes())?.repeat(times.parse().ok()?));
        text = rest;
    }
    all.extend(from_hex(text.as_bytes())?);
    Some(all)
}

/// A call and its outcome as one line, to show a difference.
pub fn line(call: &Call, outcome: &Outcome, kind: &str) -> String {
    let mut text = call.op.name().to_string();
    if !call.op.given().is_empty() {
        text += &format!(" {}={}", call.op.given(), call.given);
    }
    if call.op.has_version() {
        let version = match call.version {
            Version::One => 1,
            Version::Two => 2,
        };
        text += &format!(" version={version}");
    }
    for (name, bytes) in call.op.lent().iter().zip(&call.lent) {
        text += &format!(" {name}={}", hex(bytes));
    }
    text += " ->";
    for (name, number) in call.op.returned().iter().zip(&outcome.returned) {
        text += &format!(" {name}={number}");
    }
    let buffers = call.lent.iter().zip(&outcome.lent);
    for (name, (before, after)) in call.op.lent().iter().zip(buffers) {
        let after = if before == after {
            "same".to_string()
        } else {
            hex(after)
        };
        text += &format!(" {name}={after}");
    }
    text + " # " + kind
}

/// Hexadecimal, runs of a byte as groups.
fn hex(bytes: &[u8]) -> String {
    /// Shorter runs are as short when written out.
    const RUN: usize = 5;
    let mut text = Vec::new();
    for run in bytes.chunk_by(|one, other| one == other) {
        if run.len() < RUN {
            run.iter().for_each(|&byte| put_hex(&mut text, byte));
        } else {
            text.push(b'(');
            put_hex(&mut text, run[0]);
            text.extend(format!("*{})", run.len()).bytes());
        }
    }
    String::from_utf8(text).expect("hexadecimal")
}

#[cfg(test)]
mod tests {
    use super::*;
    use crate::gen::World;
    use crate::model::Described;
    use crate::subject::Model;

    #[test]
    fn a_written_line_reads_back() {
        let mut world = World::new(3);
        let guide = world.apply_guide();
        let [one, two] = Version::BOTH.map(|version| world.apply_data_of(version));
        let calls = [
            guide.check().expect("an apply"),
            one.check().expect("an apply"),
            two.check().expect("an apply"),
            guide,
            one,
            two,
            world.lookup(),
            world.write_load_of(Version::One),
            world.write_load_of(Version::Two),
            world.convert(),
            Call::tagged(Op::ReadTagged, world.tagged_parts().text(), vec![1; 513]),
            Call::tagged(Op::WriteTagged, world.record().to_vec(), vec![1; 452]),
        ];
        for call in calls {
            let outcome = call.run(&Model::<Described>::new(), 0);
            let read = parse(&line(&call, &outcome, "kind")).expect("a line");
            assert_eq!(read.call.lent, call.lent);
            assert_eq!((read.expected, read.call.given), (outcome, call.given));
            assert_eq!(read.call.version, call.version);
            assert_eq!(read.kind, "kind");
        }
    }

    #[test]
    fn an_apply_has_a_check_that_foretells_it() {
        let line =
            "apply_data last=8 version=1 register=00 guide= file= answers=77 -> refusal=0 place=0 \
                    position=0 n=1 done=1 undone=0 last=9 register=01 answers=00 # kind";
        let check = parse(line).and_then(|vector| vector.check());
        let check = check.expect("an apply");
        assert_eq!(check.call.op, Op::CheckData);
        assert_eq!(check.call.version, Version::One);
        assert_eq!(check.expected.returned, [0, 0, 0, 1, 0, 0, 8]);
        assert_eq!(check.expected.lent, check.call.lent);
        assert!(check.check().is_none());
    }

    #[test]
    fn a_reading_need_not_name_its_bytes() {
        let numbers = |line: &str| parse(line).map(|vector| vector.expected.returned);
        let done = "read_tagged text=44 out= -> refusal=0 position=0 text=same out=(20*512)";
        assert_eq!(numbers(done), Some(vec![0, 0, 512]));
        let refused = "read_tagged text=44 out= -> refusal=33 position=0 text=same out=same";
        assert_eq!(numbers(refused), Some(vec![33, 0, 0]));
        let writing = "write_tagged record=44 out= -> refusal=9 position=0 record=same out=same";
        assert_eq!(numbers(writing), None);
    }

    #[test]
    fn a_line_has_one_form() {
        let is_read = |version: &str, slot: &str| {
            let line = format!(
                "write_load cycle=1{version} register= date= name= out= -> \
                 refusal=1 bytes=0 entries=0{slot} # kind"
            );
            parse(&line).is_some()
        };
        assert!(is_read(" version=2", " slot=0"));
        assert!(!is_read("", " slot=0"));
        assert!(!is_read(" version=3", " slot=0"));
        assert!(!is_read(" version=2", ""));
        assert!(!is_read(" version=2", " slot=0 other=0"));
        assert!(!is_read(" version=2 last=0", " slot=0"));
    }

    #[test]
    fn a_widening_and_a_narrowing_are_read() {
        let read = |line: &str| {
            let read = parse_reshaped(line)?;
            Some((read.version, read.fits, read.back == read.rec))
        };
        let widened = read("widen record=(20*240) -> record=same # widen");
        assert_eq!(widened, Some((Version::One, true, true)));
        let narrowed = read("narrow record=(20*512) -> record=same narrows=False # narrow");
        assert_eq!(narrowed, Some((Version::Two, false, true)));
        assert_eq!(read("widen record=(20*239) -> record=same"), None);
        assert_eq!(read("narrow record=(20*512) -> record=same"), None);
    }

    #[test]
    fn a_date_and_its_day_are_read() {
        let good = parse_date("date date=303130313730 -> day=0 date=same # kind");
        assert_eq!(good, Some((b"010170".to_vec(), Some(Day(0)))));
        let bad = parse_date("date date=(20*6) -> day=None date=same # ");
        assert_eq!(bad, Some((b"      ".to_vec(), None)));
        assert!(parse_date("lookup register= number= -> day=0").is_none());
        assert!(parse("date date=303130313730 -> day=0 date=same # kind").is_none());
    }
}
