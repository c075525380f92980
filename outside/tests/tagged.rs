//! Which labels a tagged text may have, and in which order they are written, held
//! to a list of their own.

use outside::face::Library;
use outside::model::layout::RECORD;
use outside::model::Described;
use outside::subject::{Model, Subject};

const MODEL: Model<Described> = Model::new();

/// The exhibit's labels that have a field, in its order; CLS, whose row is lost,
/// where its example has it.
const TAKEN: &str = "FOC CPN HNO HNS PRD STN STS POD MCN STA LOC NAM CLS TYS EXC ESN MTN ORD CPD \
                     COI CPF ZIP CUS CMT TAR GU1 CEL SEC";

/// Of all labels of three capitals or digits, those that are not refused by 34.
fn labels_taken(subject: &impl Subject) -> Vec<String> {
    let letters = || (b'A'..=b'Z').chain(b'0'..=b'9').map(char::from);
    let labels = letters().flat_map(|one| {
        letters().flat_map(move |two| letters().map(move |three| format!("{one}{two}{three}")))
    });
    let is_taken = |label: &String| {
        let text = format!("DAT|{label}\n");
        subject
            .read_tagged(text.as_bytes(), &mut [0; RECORD])
            .refusal
            != 34
    };
    labels.filter(is_taken).collect()
}

fn takes_the_labels(subject: &impl Subject) {
    let mut expected: Vec<&str> = TAKEN.split(' ').collect();
    assert_eq!(expected.len(), 28);
    expected.sort_unstable();
    assert_eq!(labels_taken(subject), expected);
}

#[test]
fn the_model_takes_28_labels() {
    takes_the_labels(&MODEL);
}

#[test]
fn the_library_takes_28_labels() {
    takes_the_labels(&Library);
}

/// A text of every label, each with a value, the last label first.
fn backwards() -> String {
    let value = |label: &str| match label {
        "FOC" => "I",
        "CPN" | "MTN" => "5035550100",
        "PRD" | "POD" => "N",
        "STA" => "OR",
        "CPD" => "2026-11-15",
        "ZIP" => "97301-1234",
        _ => "1",
    };
    let pairs: Vec<String> = TAKEN
        .split(' ')
        .rev()
        .map(|label| format!("|{label}{}", value(label)))
        .collect();
    format!("DAT{}\n", pairs.concat())
}

fn writes_in_order(subject: &impl Subject) {
    let (mut whole, mut out) = ([0; RECORD], [0; 452]);
    let read = subject.read_tagged(backwards().as_bytes(), &mut whole);
    assert_eq!((read.refusal, read.bytes), (0, 512));
    let written = subject.write_tagged(&whole, &mut out);
    let text = String::from_utf8_lossy(&out[..written.bytes as usize]);
    let labels: Vec<&str> = text.split('|').skip(1).map(|pair| &pair[..3]).collect();
    assert_eq!(labels.join(" "), TAKEN);
}

#[test]
fn the_model_writes_in_the_exhibits_order() {
    writes_in_order(&MODEL);
}

#[test]
fn the_library_writes_in_the_exhibits_order() {
    writes_in_order(&Library);
}
