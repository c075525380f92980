//! Seeded inputs of the desk program.

use crate::coverage::Coverage;
use crate::damage::damage;
use crate::gen::World;
use crate::model::desk::{put_hex, Desk, COLLECTION, LINES, LONGEST_LINE, SLOTS};
use crate::model::Version;
use crate::random::Random;

/// Bytes that the longest line has after its code.
const MOST_BYTES: usize = LONGEST_LINE / 2 - 1;

/// An input under way: a desk follows it, so that the files fit its stores.
struct Input {
    random: Random,
    world: World,
    desk: Desk,
    text: Vec<u8>,
}

/// An input of files in chunks, lookups, and lines that can't be read.
pub fn input(seed: u64) -> Vec<u8> {
    let mut input = Input {
        random: Random::new(seed),
        world: World::sized(!seed, SLOTS, SLOTS),
        desk: Desk::default(),
        text: Vec::new(),
    };
    for _ in 0..input.random.between(1, 12) {
        match input.random.below(12) {
            0..=2 => input.file(0x02),
            3..=7 => input.file(0x03),
            8 | 9 => input.number(),
            10 => input.overflow(),
            _ => input.odd_line(),
        }
    }
    if input.random.below(40) == 0 {
        input.many_lines();
    }
    if input.random.chance(30) {
        // "The last line may lack its newline."
        input.text.pop();
    }
    input.text
}

impl Input {
    /// Adds a line to the text and lets the desk answer it.
    fn line(&mut self, line: &[u8]) {
        self.text.extend_from_slice(line);
        self.text.push(b'\n');
        self.desk.line(line, &mut Vec::new());
        self.world.register.clone_from(&self.desk.register);
        self.world.guide.clone_from(&self.desk.guide);
        self.world.last_data = self.desk.last_data;
        self.world.last_guide = self.desk.last_guide;
    }

    /// Adds a frame, its letters small, large or mixed.
    fn frame(&mut self, code: u8, bytes: &[u8]) {
        let mut line = Vec::new();
        put_hex(&mut line, code);
        bytes.iter().for_each(|&byte| put_hex(&mut line, byte));
        match self.random.below(4) {
            0 => line.make_ascii_uppercase(),
            1 => {
                let letters = line.iter_mut().step_by(3);
                letters.for_each(|letter| letter.make_ascii_uppercase());
            }
            _ => {}
        }
        self.line(&line);
    }

    /// Collects bytes in chunks, sometimes with odd lines between.
    fn chunks(&mut self, bytes: &[u8]) {
        let size = self.random.pick(&[MOST_BYTES, MOST_BYTES, 512, 200, 77]);
        for chunk in bytes.chunks(size) {
            if self.random.chance(2) {
                self.odd_line();
            }
            self.frame(0x01, chunk);
        }
    }

    /// A file to be taken, sometimes damaged.
    fn file(&mut self, code: u8) {
        let mut call = match code {
            0x02 => self.world.apply_guide(),
            _ => {
                // The desk takes every file as one of Version 2.
                let foreign = self.random.chance(3);
                let version = if foreign { Version::One } else { Version::Two };
                self.world.apply_data_of(version)
            }
        };
        if self.random.chance(30) {
            // What is not the file cannot be damaged from here.
            damage(&mut self.random, &mut Coverage::default(), &mut call);
        }
        let file = std::mem::take(&mut call.lent[2]);
        self.chunks(&file);
        self.frame(code, b"");
    }

    /// A lookup, sometimes of what is no number.
    fn number(&mut self) {
        let mut number = self.world.lookup().lent[1].clone();
        match self.random.below(6) {
            0 => number.truncate(self.random.below(10)),
            1 => number.push(b'1'),
            2 => number[self.random.below(10)] = self.random.bits() as u8,
            _ => {}
        }
        self.frame(0x04, &number);
    }

    /// A file that just fills the collection, and a byte or more on top.
    fn overflow(&mut self) {
        let records = (COLLECTION - 400) / 512;
        let file = self.world.data_file(Version::Two, records);
        self.chunks(&file);
        let more = vec![b' '; self.random.pick(&[0, 1, 2, MOST_BYTES])];
        self.frame(0x01, &more);
        let code = self.random.pick(&[0x03, 0x03, 0x02]);
        self.frame(code, b"");
    }

    /// A line that can't be read, or only just can.
    fn odd_line(&mut self) {
        let long = self.random.pick(&[2048, 2049, 2050, 2051, 2052, 4100]);
        let line: Vec<u8> = match self.random.below(12) {
            0 => b"".to_vec(),
            1 => b"0".to_vec(),
            2 => b"03\r".to_vec(),
            3 => b" 02".to_vec(),
            4 => b"0200".to_vec(),
            5 => b"0320".to_vec(),
            6 => b"05".to_vec(),
            7 => b"00".to_vec(),
            8 => b"01".to_vec(),
            9 => b"04".to_vec(),
            10 => vec![b'0'; long],
            _ => {
                let letters = b"0123456789abcdefABCDEFgG \t/:@`\x00\xff";
                let length = self.random.below(9);
                (0..length).map(|_| self.random.pick(letters)).collect()
            }
        };
        self.line(&line);
    }

    /// Lines up to the last that is answered, and a few more.
    fn many_lines(&mut self) {
        let before = self.text.iter().filter(|&&byte| byte == b'\n').count();
        let until = LINES as usize + self.random.pick(&[0, 1, 3]);
        for _ in before + 1..until {
            self.text.extend_from_slice(b"01\n");
        }
        self.text.extend_from_slice(b"0435303335353530313030\n7\n");
    }
}
