//! The way from a tagged delivery (Version 3.1) to a taken file, with the compiled
//! library. `console/delivery.c` is the same in C, and says why each step is so:
//! both print the same bytes for the same file.
//!
//!     cargo run --example delivery -- DELIVERY [REGISTER]
//!
//! Exit status: 0 every line was read and done, 1 a line was refused or turned
//! away, 2 bad usage, 3 a file cannot be read or written, or the output.

use outside::face::Library;
use outside::model::layout::{GUIDE_SLOT, MOST_RECORDS, MOST_SLOTS, RECORD, REGISTER_SLOT, ROW};
use outside::model::{Tagged, Taken, Version};
use outside::subject::Subject;
use std::io::{self, BufWriter, Write};
use std::process::ExitCode;

/// What stands before the pairs of a line, and between them.
const START: &[u8] = b"DAT|";
const BAR: u8 = b'|';
const LABEL: usize = 3;

/// A label, where its first field begins in the record, the name of that field,
/// and what may be given for it.
struct Tag {
    label: &'static str,
    position: u32,
    field: &'static str,
    give: &'static str,
}

const fn tag(label: &'static str, position: u32, field: &'static str, give: &'static str) -> Tag {
    Tag {
        label,
        position,
        field,
        give,
    }
}

macro_rules! plain {
    ($most:literal) => {
        concat!("at most ", $most, " printable bytes, the first no space")
    };
}

macro_rules! needed {
    ($give:literal) => {
        concat!($give, " (only D and U go without)")
    };
}

const DIRECTION: &str = "N, S, E, W, NE, NW, SE or SW";

#[rustfmt::skip] // a row a line
static TAGS: [Tag; 28] = [
    tag("FOC", 1, "Function", "I, C, D, U or M"),
    tag("CPN", 2, "NPA and Calling Number", "ten digits"),
    tag("HNO", 12, "House Number", "1 to 8 digits"),
    tag("HNS", 22, "House Suffix", plain!(4)),
    tag("PRD", 26, "Prefix Directional", DIRECTION),
    tag("STN", 28, "Street Name", needed!("1 to 60 printable bytes, the first no space")),
    tag("STS", 88, "Street Suffix", plain!(4)),
    tag("POD", 92, "Post Directional", DIRECTION),
    tag("MCN", 94, "Community", needed!("1 to 32 printable bytes, the first no space")),
    tag("STA", 126, "State", needed!("two capitals")),
    tag("LOC", 128, "Location", plain!(60)),
    tag("NAM", 188, "Customer Name", plain!(32)),
    tag("CLS", 220, "Class", needed!("one digit")),
    tag("TYS", 221, "Type", needed!("one digit, 0 to 5")),
    tag("EXC", 222, "Exchange", plain!(4)),
    tag("ESN", 226, "ESN", "1 to 5 digits"),
    tag("MTN", 231, "Main NPA and Main Number", "ten digits"),
    tag("ORD", 241, "Order", plain!(10)),
    tag("CPD", 251, "Date", "CCYY-MM-DD, a real day of 1970 to 2069"),
    tag("COI", 257, "County", plain!(4)),
    tag("CPF", 261, "Company ID", "1 to 5 capitals and digits"),
    tag("ZIP", 267, "Zip and Zip+4", "NNNNN or NNNNN-NNNN"),
    tag("CUS", 287, "Customer Code", plain!(3)),
    tag("CMT", 290, "Comments", plain!(30)),
    tag("TAR", 350, "TAR", plain!(6)),
    tag("GU1", 276, "General Use", "at most 11 printable bytes"),
    tag("CEL", 343, "Cell", plain!(6)),
    tag("SEC", 349, "Sector", "one printable byte"),
];

/// For a label or a position that is not in the table; the library tells none such.
static NO_TAG: Tag = tag("(none)", 0, "this field", "what hakkiyolu.h says");

fn find_tag(is_sought: impl Fn(&&Tag) -> bool) -> &'static Tag {
    TAGS.iter().find(is_sought).unwrap_or(&NO_TAG)
}

/// The answers from 11 on in words.
const ANSWERS: [&str; 14] = [
    "dated after its file",
    "the number is present already",
    "the number is not present",
    "the number is still held",
    "the number is open",
    "another company holds the number",
    "dated before the entry",
    "no guide row covers the address",
    "not the ESN of the guide row",
    "the register is full",
    "clashes with a present row",
    "the guide is full",
    "no such row",
    "an entry still lies under the row",
];

/// A guide row to be inserted: low, high, parity, prefix, street, suffix, post, ESN.
type GuideRow = [&'static str; 8];

const ROWS: [GuideRow; 3] = [
    ["100", "198", "E", "", "MAIN", "ST", "", "83"],
    ["101", "199", "O", "", "MAIN", "ST", "", "84"],
    ["1", "99", "B", "NW", "RIVER", "RD", "SE", "85"],
];

const DATE: &str = "111526";

/// What a register office keeps.
struct Office {
    register: Vec<u8>,
    guide: Vec<u8>,
    last_data: u32,
    last_guide: u32,
}

/// Lines of one length between a header and a trailer.
fn frame(name: &str, cycle: u32, lines: &[u8], count: usize) -> Vec<u8> {
    let mut file = format!("UHL  {DATE}{name:<50}{cycle:<6}{:132}*", "").into_bytes();
    file.extend_from_slice(lines);
    file.extend(format!("UTL  {DATE}{name:<50}{count:>9}{:129}*", "").bytes());
    file
}

/// The cycle that comes after the last one.
fn next(last: u32) -> u32 {
    last % 999_999 + 1
}

/// What became of one record or row.
fn answer_words(answer: u8) -> String {
    if answer == 0 {
        return "done".into();
    }
    let words = usize::from(answer)
        .checked_sub(11)
        .and_then(|at| ANSWERS.get(at));
    let words = words.unwrap_or(&"an unknown answer");
    format!("turned away ({answer}), {words}")
}

/// A file as it is named to whoever reads.
struct Name {
    file: &'static str,
    cycle: u32,
}

/// Tells that a file was refused by a check or an apply, or this of it.
fn tell(out: &mut impl Write, name: &Name, taken: &Taken, good: &str) -> io::Result<()> {
    write!(out, "{}, cycle {}: ", name.file, name.cycle)?;
    if taken.refusal == 0 {
        return writeln!(out, "{good}");
    }
    let (refusal, place, position) = (taken.refusal, taken.place, taken.position);
    writeln!(
        out,
        "refused ({refusal}), record {place}, position {position}"
    )
}

/// Tells what a check came to; false if the file was refused.
fn tell_checked(out: &mut impl Write, name: &Name, checked: &Taken) -> io::Result<bool> {
    let records = checked.records;
    let plural = if records == 1 { "" } else { "s" };
    let good = format!("checked, {records} record{plural}");
    tell(out, name, checked, &good)?;
    Ok(checked.refusal == 0)
}

/// Tells what an apply came to.
fn tell_applied(out: &mut impl Write, name: &Name, applied: &Taken) -> io::Result<()> {
    let good = format!("{} done, {} not done", applied.done, applied.undone);
    tell(out, name, applied, &good)
}

fn guide_row([low, high, parity, prefix, street, suffix, post, esn]: &GuideRow) -> String {
    format!(
        "{prefix:<2}{street:<60}{suffix:<4}{post:<2}{low:<10}{high:<10}{:<32}OR{parity}{esn:<5}{:70}I*",
        "SALEM", ""
    )
}

/// Checks and applies the guide; false if it was refused or a row turned away.
fn take_rows(office: &mut Office, out: &mut impl Write) -> io::Result<bool> {
    let last = office.last_guide;
    let name = Name {
        file: "guide file of MARION COUNTY",
        cycle: next(last),
    };
    let lines: String = ROWS.iter().map(guide_row).collect();
    assert_eq!(lines.len(), ROW * ROWS.len());
    let file = frame("MARION COUNTY", name.cycle, lines.as_bytes(), ROWS.len());
    let mut answers = vec![0; ROWS.len()];
    let (register, guide) = (&office.register, &mut office.guide);
    let checked = Library.check_guide(register, guide, &file, &answers, last);
    if !tell_checked(out, &name, &checked)? {
        return Ok(false);
    }
    let taken = Library.apply_guide(register, guide, &file, &mut answers, last);
    office.last_guide = taken.last;
    tell_applied(out, &name, &taken)?;
    for (row, answer) in ROWS.iter().zip(&answers).take(taken.records as usize) {
        let [low, high, parity, .., esn] = row;
        let street = row[3..7].join(" ");
        let (street, answer) = (street.trim(), answer_words(*answer));
        writeln!(
            out,
            "  I {low} to {high} {street}, {parity}, ESN {esn}: {answer}"
        )?;
    }
    Ok(taken.done as usize == ROWS.len())
}

/// The pairs of a line that has `DAT` and newline; there may be none.
fn pairs(text: &[u8]) -> &[u8] {
    text.get(START.len()..text.len() - 1).unwrap_or_default()
}

/// Asks whether one pair, or some in a row, are refused by this number if they come
/// alone.
fn is_refused_alone(pairs: &[u8], refusal: u32) -> bool {
    let text = [START, pairs, b"\n"].concat();
    Library.read_tagged(&text, &mut [0; RECORD]).refusal == refusal
}

/// The pair for which the line was refused by 34, 35 or 36: the first that is
/// refused alone, or the last of the fewest first ones that are refused by 35.
fn pair_at_fault(text: &[u8], refusal: u32) -> &[u8] {
    let pairs = pairs(text);
    let mut from = 0;
    for pair in pairs.split(|byte| *byte == BAR) {
        let end = from + pair.len();
        let asked = if refusal == 35 { &pairs[..end] } else { pair };
        if is_refused_alone(asked, refusal) {
            return pair;
        }
        from = end + 1;
    }
    b""
}

/// A label as far as it goes, and `?` for what a screen should not be sent.
fn label_words(pair: &[u8]) -> String {
    if pair.is_empty() {
        return "(none)".into();
    }
    let shown = |byte: &u8| {
        if matches!(byte, 0x20..=0x7e) {
            char::from(*byte)
        } else {
            '?'
        }
    };
    pair.iter().take(LABEL).map(shown).collect()
}

/// What a line refused by 34, 35 or 36 is told.
fn pair_words(text: &[u8], refusal: u32) -> String {
    let pair = pair_at_fault(text, refusal);
    let told = match refusal {
        35 => "it stands twice; give it once".to_string(),
        36 => {
            let tag = find_tag(|tag| pair.starts_with(tag.label.as_bytes()));
            format!(
                "its value does not fit; for {} give {}",
                tag.field, tag.give
            )
        }
        _ if pair.len() < LABEL => {
            "it is cut short; give three capitals behind each |, and no | in a value or at the end"
                .into()
        }
        _ => "it is not taken; mend the label, or leave it out with its value".into(),
    };
    format!("({refusal}), label {}: {told}", label_words(pair))
}

/// What a line is told whose record breaks a field rule.
fn field_words(text: &[u8], position: u32) -> String {
    let tag = find_tag(|tag| tag.position == position);
    let (label, field, give) = (tag.label, tag.field, tag.give);
    let mut pairs = pairs(text).split(|byte| *byte == BAR);
    let wrong = if pairs.any(|pair| pair.starts_with(label.as_bytes())) {
        "its value is bad"
    } else {
        "it is missing"
    };
    format!("(9 at {position}), label {label}: {wrong}; for {field} give {give}")
}

/// Why a line was refused, at which label, and what to do.
fn refusal_words(text: &[u8], read: &Tagged) -> String {
    let told = match read.refusal {
        33 => "(33): begin it with DAT and |, and end it with a newline, 0a hex".into(),
        34..=36 => pair_words(text, read.refusal),
        _ => field_words(text, read.position),
    };
    let behind = if text.ends_with(b"\r\n") {
        "; take out the carriage return, 0d hex, before the newline"
    } else {
        ""
    };
    format!("refused {told}{behind}")
}

/// Checks and applies the records as the next data file, and tells each answer by
/// its line; false if one was turned away.
fn take_records(
    office: &mut Office,
    records: &[u8],
    lines: &[usize],
    out: &mut impl Write,
) -> io::Result<bool> {
    let last = office.last_data;
    let name = Name {
        file: "data file of ALPHA TELEPHONE",
        cycle: next(last),
    };
    let file = frame("ALPHA TELEPHONE", name.cycle, records, lines.len());
    let mut answers = vec![0; lines.len()];
    let (register, guide) = (&mut office.register, &office.guide);
    let checked = Library.check_data(Version::Two, register, guide, &file, &answers, last);
    if !tell_checked(out, &name, &checked)? {
        return Ok(false);
    }
    let taken = Library.apply_data(Version::Two, register, guide, &file, &mut answers, last);
    office.last_data = taken.last;
    tell_applied(out, &name, &taken)?;
    for (line, answer) in lines.iter().zip(&answers).take(taken.records as usize) {
        writeln!(out, "line {line}: {}", answer_words(*answer))?;
    }
    Ok(taken.done as usize == lines.len())
}

/// Reads the lines one by one and takes what is good; false if a line was refused
/// or turned away.
fn take_delivery(office: &mut Office, delivery: &[u8], out: &mut impl Write) -> io::Result<bool> {
    let mut good = take_rows(office, out)?;
    let (mut records, mut lines) = (Vec::new(), Vec::new());
    for (at, text) in delivery.split_inclusive(|byte| *byte == b'\n').enumerate() {
        let mut record = [0; RECORD];
        let read = Library.read_tagged(text, &mut record);
        if read.refusal != 0 {
            writeln!(out, "line {}: {}", at + 1, refusal_words(text, &read))?;
            good = false;
            continue;
        }
        let [code, number] = [0..1, 1..11].map(|part| String::from_utf8_lossy(&record[part]));
        writeln!(out, "line {}: read, {code} {number}", at + 1)?;
        records.extend(record);
        lines.push(at + 1);
        if lines.len() == MOST_RECORDS {
            good &= take_records(office, &records, &lines, out)?;
            (records, lines) = (Vec::new(), Vec::new());
        }
    }
    if !lines.is_empty() {
        good &= take_records(office, &records, &lines, out)?;
    }
    Ok(good)
}

fn run(delivery: &str, register: Option<&String>) -> io::Result<bool> {
    let mut office = Office {
        register: vec![0; MOST_SLOTS * REGISTER_SLOT],
        guide: vec![0; ROWS.len() * GUIDE_SLOT],
        last_data: 0,
        last_guide: 0,
    };
    let mut out = BufWriter::new(io::stdout().lock());
    let good = take_delivery(&mut office, &std::fs::read(delivery)?, &mut out)?;
    out.flush()?;
    if let Some(path) = register {
        std::fs::write(path, &office.register)?;
    }
    Ok(good)
}

fn main() -> ExitCode {
    let arguments: Vec<String> = std::env::args().skip(1).collect();
    if !(1..=2).contains(&arguments.len()) {
        eprintln!("Usage: delivery DELIVERY [REGISTER]");
        return ExitCode::from(2);
    }
    match run(&arguments[0], arguments.get(1)) {
        Ok(good) => ExitCode::from(u8::from(!good)),
        Err(error) => {
            eprintln!("delivery: {error}");
            ExitCode::from(3)
        }
    }
}
