//! Makes a call that shows a difference small enough to read.

use crate::call::{Call, Op};
use crate::gen::put;
use crate::model::form::blank;
use crate::model::layout::{record, trailer, Field, GUIDE_SLOT, RECORD, REGISTER_SLOT, ROW};

/// A lent buffer's edges, and the parts between them that can be left out.
struct Shape {
    edge: usize,
    part: usize,
}

fn shape(call: &Call, name: &str) -> Option<Shape> {
    let version = call.version;
    let (edge, part) = match name {
        "register" => (0, REGISTER_SLOT),
        "guide" => (0, GUIDE_SLOT),
        "file" if call.op.has_records() => (version.edge(), version.record()),
        "file" => (version.edge(), ROW),
        _ => return None,
    };
    Some(Shape { edge, part })
}

impl Shape {
    fn parts(&self, bytes: &[u8]) -> usize {
        bytes.len().saturating_sub(2 * self.edge) / self.part
    }

    /// The bytes without `parts` parts from `start` on; a trailer that counted
    /// right goes on counting right.
    fn without(&self, bytes: &[u8], start: usize, parts: usize) -> Option<Vec<u8>> {
        let all = self.parts(bytes);
        if start + parts > all {
            return None;
        }
        let from = self.edge + start * self.part;
        let mut smaller = bytes.to_vec();
        smaller.drain(from..from + parts * self.part);
        if self.edge > 0 {
            let counted = format!("{all:>9}");
            let at = smaller.len() - self.edge;
            let tail = &mut smaller[at..];
            if trailer::COUNT.of(tail) == counted.as_bytes() {
                let count = format!("{:>9}", all - parts);
                put(tail, trailer::COUNT, count.as_bytes());
            }
        }
        Some(smaller)
    }
}

/// The text without so many of the parts that `|` sets apart; it keeps its end.
fn without_pairs(text: &[u8], start: usize, parts: usize) -> Option<Vec<u8>> {
    let body = text.strip_suffix(b"\n").unwrap_or(text);
    let mut all: Vec<&[u8]> = body.split(|&byte| byte == b'|').collect();
    (start + parts <= all.len()).then(|| {
        all.drain(start..start + parts);
        [&all.join(&b'|'), &text[body.len()..]].concat()
    })
}

/// The record with so many of its fields blank that were not.
fn without_fields(whole: &[u8], start: usize, parts: usize) -> Option<Vec<u8>> {
    let filled = |field: &&Field| whole.len() == RECORD && !blank(field.of(whole));
    let fields: Vec<&Field> = record::FIELDS.iter().filter(filled).collect();
    let blanked = fields.get(start..start + parts)?;
    let mut smaller = whole.to_vec();
    blanked
        .iter()
        .for_each(|field| field.of_mut(&mut smaller).fill(b' '));
    Some(smaller)
}

/// The call without the records, slots and rows, or pairs or fields, that the
/// difference can spare.
pub fn shrink(call: &Call, differs: impl Fn(&Call) -> bool) -> Call {
    let mut best = call.clone();
    match call.op {
        Op::ReadTagged => spare(&mut best, 0, RECORD, without_pairs, &differs),
        Op::WriteTagged => spare(&mut best, 0, record::FIELDS.len(), without_fields, &differs),
        _ => shrink_stores(&mut best, &differs),
    }
    best
}

fn shrink_stores(best: &mut Call, differs: &impl Fn(&Call) -> bool) {
    // The file first: its records decide which slots and rows are needed.
    for name in ["file", "register", "guide", "file"] {
        let place = best.op.lent().iter().position(|lent| *lent == name);
        if let (Some(place), Some(shape)) = (place, shape(best, name)) {
            let parts = shape.parts(&best.lent[place]);
            let without = |bytes: &[u8], start, parts| shape.without(bytes, start, parts);
            spare(best, place, parts, without, differs);
        }
    }
}

/// Leaves out ever smaller runs of parts of one buffer.
fn spare(
    best: &mut Call,
    place: usize,
    mut parts: usize,
    without: impl Fn(&[u8], usize, usize) -> Option<Vec<u8>>,
    differs: &impl Fn(&Call) -> bool,
) {
    while parts > 0 {
        let mut start = 0;
        while let Some(smaller) = without(&best.lent[place], start, parts) {
            let mut call = best.clone();
            call.lent[place] = smaller;
            if differs(&call) {
                *best = call;
            } else {
                start += parts;
            }
        }
        parts /= 2;
    }
}

#[cfg(test)]
mod tests {
    use super::*;
    use crate::gen::World;
    use crate::model::rules::{CpdFrom1960, Described, RestingForgotten, Rules, UnfitFirst};
    use crate::subject::Model;

    fn differs_by<R: Rules>(call: &Call) -> bool {
        let expected = call.run(&Model::<Described>::new(), 0);
        let got = call.run(&Model::<R>::new(), 0);
        call.difference(&expected, &got).is_some()
    }

    #[test]
    fn a_text_shrinks_to_the_pairs_that_differ() {
        let text = b"DAT|FOCI|CPN1|STNMAIN|CPN2|CLS1\n".to_vec();
        let large = Call::tagged(Op::ReadTagged, text, vec![0; RECORD]);
        let small = shrink(&large, differs_by::<UnfitFirst>);
        assert_eq!(small.lent[0].escape_ascii().to_string(), "DAT|CPN1|CPN2\\n");
    }

    #[test]
    fn a_record_shrinks_to_the_fields_that_differ() {
        let whole = crate::town::record_at(b'D', 0, 1, b"ABC", b"010160").to_vec();
        let large = Call::tagged(Op::WriteTagged, whole, vec![0; RECORD]);
        let small = shrink(&large, differs_by::<CpdFrom1960>);
        let filled = record::FIELDS
            .iter()
            .filter(|field| !blank(field.of(&small.lent[0])));
        let names: Vec<&str> = filled.map(|field| field.name).collect();
        let expected = [
            "Function",
            "NPA",
            "Calling Number",
            "Date",
            "Company ID",
            "*",
        ];
        assert_eq!(names, expected);
    }

    #[test]
    fn a_conversion_shrinks_to_the_slot_that_differs() {
        let differs = differs_by::<RestingForgotten>;
        let mut world = World::sized(1, 1, 1);
        let mut calls = (0..100).map(|_| Call::convert(world.old_register_of(64)));
        let large = calls.find(differs).expect("a resting slot is converted");
        let small = shrink(&large, differs);
        assert_eq!((small.lent[0].len(), small.lent[0][0]), (REGISTER_SLOT, 3));
    }
}
