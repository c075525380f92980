//! `bench`: library, model and floor in one run, as a table. The floor is a copy
//! of the bytes that a call is lent; for a lookup, one load a slot.

use outside::call::Op;
use outside::face::Library;
use outside::gen::file;
use outside::model::layout::{GUIDE_SLOT, MOST_RECORDS, MOST_SLOTS, RECORD, REGISTER_SLOT};
use outside::model::{Described, Version};
use outside::random::Random;
use outside::subject::{Model, Subject};
use outside::texts::ENOUGH;
use outside::town;
use std::hint::black_box;
use std::time::{Duration, Instant};

/// Rounds of a case; each times library, model and floor, one after another.
const ROUNDS: usize = 9;
/// A quick thing is repeated until a round of it lasts this long.
const ROUND: Duration = Duration::from_millis(4);

/// Tagged texts, or records, of a pass.
const TEXTS: usize = 1024;

/// Of the order of pairs.
const SEED: u64 = 2026;

/// Prepares, then times, one pass of something.
type Pass<'a> = Box<dyn FnMut() -> Duration + 'a>;

/// Times `body` alone.
fn timed<T>(body: impl FnOnce() -> T) -> Duration {
    let start = Instant::now();
    black_box(body());
    start.elapsed()
}

/// One round's time of a pass, in nanoseconds.
fn round(pass: &mut Pass) -> f64 {
    let (mut total, mut passes) = (Duration::ZERO, 0);
    while total < ROUND {
        total += pass();
        passes += 1;
    }
    total.as_nanos() as f64 / f64::from(passes)
}

/// Prints a row of the table: the times of the round whose ratio of library to
/// model is the median one, so that times and ratio agree, and the least and the
/// greatest ratio of all rounds. A slow spell of the computer counts for both sides.
fn report(name: &str, mut library: Pass, mut model: Pass, mut floor: Pass) {
    let mut rounds: Vec<[f64; 3]> = (0..ROUNDS)
        .map(|_| [round(&mut library), round(&mut model), round(&mut floor)])
        .collect();
    let ratio = |round: &[f64; 3]| round[0] / round[1];
    rounds.sort_by(|a, b| ratio(a).total_cmp(&ratio(b)));
    let middle = rounds[ROUNDS / 2];
    println!(
        "| {name} | {:.2} | {:.2} | {:.2} | {:.2} | {:.2} to {:.2} | {:.2} |",
        middle[0] / 1000.0,
        middle[1] / 1000.0,
        middle[2] / 1000.0,
        ratio(&middle),
        ratio(&rounds[0]),
        ratio(&rounds[ROUNDS - 1]),
        middle[0] / middle[2]
    );
}

/// Copies what is lent.
fn copying<'a>(lent: Vec<&'a [u8]>) -> Pass<'a> {
    let most = lent.iter().map(|bytes| bytes.len()).max().unwrap_or(0);
    let mut to = vec![0; most];
    Box::new(move || {
        timed(|| {
            for bytes in &lent {
                to[..bytes.len()].copy_from_slice(bytes);
                black_box(&to);
            }
        })
    })
}

/// Checks or applies of a data file, each on the register as it was.
fn data<'a>(
    subject: &'a impl Subject,
    (op, version): (Op, Version),
    register: &'a [u8],
    guide: &'a [u8],
    file: &'a [u8],
) -> Pass<'a> {
    let mut lent = register.to_vec();
    let mut answers = vec![0; MOST_RECORDS];
    Box::new(move || {
        lent.copy_from_slice(register);
        answers.fill(0xee);
        match op {
            Op::CheckData => timed(|| subject.check_data(version, &lent, guide, file, &answers, 0)),
            _ => timed(|| subject.apply_data(version, &mut lent, guide, file, &mut answers, 0)),
        }
    })
}

/// Checks or applies of a guide file, each on the guide as it was.
fn rows<'a>(
    subject: &'a impl Subject,
    op: Op,
    register: &'a [u8],
    guide: &'a [u8],
    file: &'a [u8],
) -> Pass<'a> {
    let mut lent = guide.to_vec();
    let mut answers = vec![0; MOST_RECORDS];
    Box::new(move || {
        lent.copy_from_slice(guide);
        answers.fill(0xee);
        match op {
            Op::CheckGuide => timed(|| subject.check_guide(register, &lent, file, &answers, 0)),
            _ => timed(|| subject.apply_guide(register, &mut lent, file, &mut answers, 0)),
        }
    })
}

fn lookup<'a>(subject: &'a impl Subject, register: &'a [u8], number: &'a [u8]) -> Pass<'a> {
    Box::new(move || timed(|| subject.lookup(black_box(register), number)))
}

/// Load files of a full register.
fn load<'a>(subject: &'a impl Subject, version: Version, register: &'a [u8]) -> Pass<'a> {
    let name = outside::gen::NAME;
    let mut out = vec![0; version.file(register.len() / REGISTER_SLOT)];
    Box::new(move || {
        out.fill(0xee);
        timed(|| subject.write_load(version, register, b"010224", name, 1, &mut out))
    })
}

/// Conversions, each of the register as it was.
fn conversion<'a>(subject: &'a impl Subject, register: &'a [u8]) -> Pass<'a> {
    let mut lent = register.to_vec();
    Box::new(move || {
        lent.copy_from_slice(register);
        timed(|| subject.convert_register(&mut lent))
    })
}

/// Readings of all texts, each into the same record.
fn readings<'a>(subject: &'a impl Subject, texts: &'a [Vec<u8>]) -> Pass<'a> {
    let mut whole = [0; RECORD];
    Box::new(move || {
        timed(|| {
            for text in texts {
                let read = subject.read_tagged(text, black_box(&mut whole));
                assert_eq!(black_box(read).bytes as usize, RECORD);
            }
        })
    })
}

/// Writings of all records, each into the same room.
fn writings<'a>(subject: &'a impl Subject, records: &'a [[u8; RECORD]]) -> Pass<'a> {
    let mut out = [0; ENOUGH];
    Box::new(move || {
        timed(|| {
            for whole in records {
                let written = subject.write_tagged(whole, black_box(&mut out));
                assert_eq!(black_box(written).refusal, 0);
            }
        })
    })
}

/// A text that was written, with its pairs in any order.
fn scatter(random: &mut Random, text: &[u8]) -> Vec<u8> {
    let end = text.len() - 1;
    let mut parts: Vec<&[u8]> = text[..end].split(|&byte| byte == b'|').collect();
    random.shuffle(&mut parts[1..]);
    [&parts.join(&b'|'), &text[end..]].concat()
}

/// Texts of these records read, in the order of the labels and in any, and the
/// records written.
fn texts(labels: &str, records: &[[u8; RECORD]]) {
    let text = |whole: &[u8; RECORD]| {
        let mut out = [0; ENOUGH];
        let written = MODEL.write_tagged(whole, &mut out);
        out[..written.bytes as usize].to_vec()
    };
    let texts: Vec<Vec<u8>> = records.iter().map(text).collect();
    let mut random = Random::new(SEED);
    let scattered: Vec<Vec<u8>> = texts
        .iter()
        .map(|text| scatter(&mut random, text))
        .collect();
    for (order, texts) in [("", &texts), (", in any order", &scattered)] {
        let (library, model) = (readings(&Library, texts), readings(&MODEL, texts));
        let floor = copying(texts.iter().map(Vec::as_slice).collect());
        let name = format!("read_tagged, {} texts of {labels}{order}", texts.len());
        report(&name, library, model, floor);
    }
    let (library, model) = (writings(&Library, records), writings(&MODEL, records));
    let floor = copying(records.iter().map(<[u8; RECORD]>::as_slice).collect());
    let name = format!("write_tagged, {} records of {labels}", records.len());
    report(&name, library, model, floor);
}

/// One byte of every slot.
fn loads(register: &[u8]) -> Pass<'_> {
    Box::new(move || {
        timed(|| {
            let firsts = black_box(register).iter().step_by(REGISTER_SLOT);
            firsts.fold(0_u8, |all, byte| all ^ byte)
        })
    })
}

/// What stands behind a call's name where it is of Version 1.
fn of(version: Version) -> &'static str {
    match version {
        Version::One => ", Version 1",
        Version::Two => "",
    }
}

/// The cases at a size of stores.
struct Bench {
    slots: usize,
    guide: Vec<u8>,
    register: Vec<u8>,
}

const MODEL: Model<Described> = Model::new();

impl Bench {
    fn new(slots: usize) -> Self {
        let guide = town::guide(slots);
        let register = town::register(slots, &guide);
        Bench {
            slots,
            guide,
            register,
        }
    }

    fn lookups(&self) {
        for (what, number) in [
            ("hit in the last slot", town::number_at(self.slots - 1)),
            ("miss", b"9999999999".to_vec()),
        ] {
            let library = lookup(&Library, &self.register, &number);
            let model = lookup(&MODEL, &self.register, &number);
            let name = format!("lookup, {what}, {} slots", self.slots);
            report(&name, library, model, loads(&self.register));
        }
    }

    /// A row for a data file under this name.
    fn data_file(&self, call: (Op, Version), name: &str, file: &[u8]) {
        let (register, guide) = (&self.register, &self.guide);
        let name = format!("{name}, {} slots and rows", self.slots);
        let library = data(&Library, call, register, guide, file);
        let model = data(&MODEL, call, register, guide, file);
        report(&name, library, model, copying(vec![register, guide, file]));
    }

    fn data(&self, op: Op, version: Version, records: usize) {
        let file = town::mixed_file(version, records, self.slots, self.slots);
        let name = format!("{}{}, {records} records", op.name(), of(version));
        self.data_file((op, version), &name, &file);
    }

    /// An apply that tests all that a good check tests, and applies nothing: the
    /// last byte of the last record is wrong.
    fn refused(&self, version: Version, records: usize) {
        let mut file = town::mixed_file(version, records, self.slots, self.slots);
        let star = file.len() - version.edge() - 1;
        file[star] = b'?';
        let op = Op::ApplyData;
        let name = format!(
            "{}{}, refused for its last record, {records} records",
            op.name(),
            of(version)
        );
        self.data_file((op, version), &name, &file);
    }

    fn rows(&self, op: Op) {
        let file = town::guide_file(self.slots);
        let empty = vec![0; self.slots * GUIDE_SLOT];
        let register = &self.register;
        let name = format!("{}, {} rows into as many slots", op.name(), self.slots);
        let library = rows(&Library, op, register, &empty, &file);
        let model = rows(&MODEL, op, register, &empty, &file);
        report(
            &name,
            library,
            model,
            copying(vec![register, &empty, &file]),
        );
    }

    fn soundness(&self) {
        let file = file(b"010224", 1, b"", 0);
        let call = (Op::ApplyData, Version::Two);
        self.data_file(call, "soundness (apply of 0 records)", &file);
    }

    /// Both calls that take a data file of this version.
    fn data_takes(&self, version: Version, records: usize) {
        self.data(Op::CheckData, version, records);
        self.data(Op::ApplyData, version, records);
    }

    /// Both calls that take a data file, of either version, and both that take a
    /// guide file.
    fn takes(&self, records: usize) {
        self.data_takes(Version::Two, records);
        self.data_takes(Version::One, records);
        self.rows(Op::CheckGuide);
        self.rows(Op::ApplyGuide);
    }

    /// Load files of either version: every entry has a form in both.
    fn load(&self) {
        let register = &self.register;
        for version in [Version::Two, Version::One] {
            let name = format!("load file{}, {} entries", of(version), self.slots);
            let library = load(&Library, version, register);
            let model = load(&MODEL, version, register);
            report(&name, library, model, copying(vec![register]));
        }
    }

    fn conversion(&self) {
        let old = town::old_register(self.slots, &self.guide);
        let name = format!("convert register, {} slots", self.slots);
        let (library, model) = (conversion(&Library, &old), conversion(&MODEL, &old));
        report(&name, library, model, copying(vec![&old]));
    }
}

fn main() {
    println!(
        "| Case | Library µs | Model µs | Floor µs | Library/model | Over the rounds | Library/floor |"
    );
    println!("|---|---|---|---|---|---|---|");
    let full = Bench::new(MOST_SLOTS);
    full.lookups();
    full.refused(Version::Two, MOST_RECORDS);
    full.refused(Version::One, MOST_RECORDS);
    full.takes(MOST_RECORDS);
    full.load();
    full.soundness();
    full.conversion();
    let (few, all): (Vec<_>, Vec<_>) = (0..TEXTS)
        .map(|index| {
            let few = town::record_at(b'I', index, TEXTS, b"ABC", b"010124");
            (few, town::full_record_at(index, TEXTS))
        })
        .unzip();
    texts("twelve labels", &few);
    texts("all labels", &all);
    for slots in [512, 1024, 2048, 4096] {
        let bench = Bench::new(slots);
        bench.lookups();
        bench.takes(slots);
        bench.load();
        bench.soundness();
        bench.conversion();
    }
    for records in [512, 1024, 2048, 4096, 8192] {
        full.data_takes(Version::Two, records);
        full.data_takes(Version::One, records);
    }
}
