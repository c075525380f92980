//! The desk program: lines of hexadecimal in, lines of hexadecimal out.

use super::layout::{GUIDE_SLOT, MOST_RECORDS, REGISTER_SLOT};
use super::results::Taken;
use super::rules::Described;
use super::{apply_data, apply_guide, lookup, Version};

/// Slots of each kind.
pub const SLOTS: usize = 64;
/// "A take empties the collection (at most 65424 bytes)."
pub const COLLECTION: usize = 65424;
/// "Over 2050 characters before the newline" can't be read.
pub const LONGEST_LINE: usize = 2050;
/// "It stops after 65535 lines."
pub const LINES: u32 = 65535;

/// The desk between two lines.
pub struct Desk {
    /// The register.
    pub register: Vec<u8>,
    /// The guide.
    pub guide: Vec<u8>,
    /// The last cycle of data files.
    pub last_data: u32,
    /// The last cycle of guide files.
    pub last_guide: u32,
    collected: Vec<u8>,
    lines: u32,
}

impl Default for Desk {
    fn default() -> Self {
        Desk {
            register: vec![0; SLOTS * REGISTER_SLOT],
            guide: vec![0; SLOTS * GUIDE_SLOT],
            last_data: 0,
            last_guide: 0,
            collected: Vec::new(),
            lines: 0,
        }
    }
}

/// What the desk program writes for this input.
pub fn desk(input: &[u8]) -> Vec<u8> {
    let mut desk = Desk::default();
    let mut output = Vec::new();
    // "The last line may lack its newline": what follows the last one is a line
    // only if there is something.
    for line in input.split_inclusive(|&byte| byte == b'\n') {
        desk.line(line.strip_suffix(b"\n").unwrap_or(line), &mut output);
    }
    output
}

impl Desk {
    /// Answers one line.
    pub fn line(&mut self, line: &[u8], output: &mut Vec<u8>) {
        if self.lines == LINES {
            return;
        }
        self.lines += 1;
        let read = from_hex(line).filter(|_| line.len() <= LONGEST_LINE);
        let known = match read.as_deref() {
            Some([0x01, more @ ..]) => self.collect(more),
            Some([0x02]) => {
                self.guide_file(output);
                true
            }
            Some([0x03]) => {
                self.data_file(output);
                true
            }
            Some([0x04, number @ ..]) => {
                self.show(number, output);
                true
            }
            _ => false,
        };
        if !known {
            frame(output, 0xa4, &[&two(self.lines)]);
        }
    }

    /// Whether the bytes could be collected.
    fn collect(&mut self, more: &[u8]) -> bool {
        let fits = self.collected.len() + more.len() <= COLLECTION;
        if fits {
            self.collected.extend_from_slice(more);
        }
        fits
    }

    fn guide_file(&mut self, output: &mut Vec<u8>) {
        let file = std::mem::take(&mut self.collected);
        let mut answers = [0; MOST_RECORDS];
        let (register, guide) = (&self.register, &mut self.guide);
        let taken = apply_guide::<Described>(register, guide, &file, &mut answers, self.last_guide);
        self.last_guide = taken.last;
        tell(&taken, &answers, output);
    }

    fn data_file(&mut self, output: &mut Vec<u8>) {
        let file = std::mem::take(&mut self.collected);
        let mut answers = [0; MOST_RECORDS];
        let (register, guide, last) = (&mut self.register, &self.guide, self.last_data);
        // No code of the desk names a version.
        let version = Version::Two;
        let taken = apply_data::<Described>(version, register, guide, &file, &mut answers, last);
        self.last_data = taken.last;
        tell(&taken, &answers, output);
    }

    /// "`a3` state(1) looked(2), with state `ff` and looked 0 for refusal 10."
    fn show(&self, number: &[u8], output: &mut Vec<u8>) {
        let found = lookup(&self.register, number);
        let state = if found.refusal == 0 {
            found.state as u8
        } else {
            0xff
        };
        frame(output, 0xa3, &[&[state], &two(found.looked)]);
    }
}

/// "`a0` place(2 bytes) answer(1) per record; then `a1` done(2) not done(2);
/// `a2` refusal(1) place(2) position(2)."
fn tell(taken: &Taken, answers: &[u8], output: &mut Vec<u8>) {
    if taken.refusal != 0 {
        let refusal = [taken.refusal as u8];
        let (place, position) = (two(taken.place), two(taken.position));
        frame(output, 0xa2, &[&refusal, &place, &position]);
        return;
    }
    for (place, answer) in (1..=taken.records).zip(answers) {
        frame(output, 0xa0, &[&two(place), &[*answer]]);
    }
    frame(output, 0xa1, &[&two(taken.done), &two(taken.undone)]);
}

/// A number as two bytes, high byte first.
fn two(number: u32) -> [u8; 2] {
    (number as u16).to_be_bytes()
}

/// Writes one frame as a line.
fn frame(output: &mut Vec<u8>, code: u8, parts: &[&[u8]]) {
    put_hex(output, code);
    for byte in parts.iter().copied().flatten() {
        put_hex(output, *byte);
    }
    output.push(b'\n');
}

/// Writes a byte in small letters.
pub fn put_hex(output: &mut Vec<u8>, byte: u8) {
    const FIGURES: &[u8; 16] = b"0123456789abcdef";
    output.push(FIGURES[usize::from(byte >> 4)]);
    output.push(FIGURES[usize::from(byte & 15)]);
}

/// The bytes of whole pairs of hexadecimal characters, either case.
pub fn from_hex(text: &[u8]) -> Option<Vec<u8>> {
    if text.len() % 2 == 1 {
        return None;
    }
    let figure = |byte: u8| char::from(byte).to_digit(16);
    text.chunks_exact(2)
        .map(|pair| Some((figure(pair[0])? * 16 + figure(pair[1])?) as u8))
        .collect()
}
