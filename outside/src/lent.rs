//! Lent bytes between guard areas.

/// Guard bytes on either side.
const GUARD: usize = 96;
/// What the guard bytes hold repeats after so many.
const PERIOD: usize = 256;
/// What they hold, from any place of a period on.
static PATTERN: [u8; 2 * PERIOD] = pattern();

const fn pattern() -> [u8; 2 * PERIOD] {
    let mut bytes = [0; 2 * PERIOD];
    let mut place = 0;
    while place < bytes.len() {
        bytes[place] = (place as u8).wrapping_mul(29) ^ 0xa5;
        place += 1;
    }
    bytes
}

/// So many guard bytes from this place on.
fn guard(from: usize, length: usize) -> &'static [u8] {
    &PATTERN[from % PERIOD..][..length]
}

/// A buffer to lend, with a guard area on either side.
pub struct Lent {
    all: Vec<u8>,
    start: usize,
    length: usize,
}

impl Lent {
    /// Lends a copy of the bytes, `shift` (0 to 63) bytes off the usual start,
    /// so that no alignment is taken for granted.
    pub fn new(bytes: &[u8], shift: usize) -> Self {
        let start = GUARD + shift % 64;
        let length = bytes.len();
        let mut all = Vec::with_capacity(start + length + GUARD);
        all.extend_from_slice(guard(0, start));
        all.extend_from_slice(bytes);
        all.extend_from_slice(guard(start + length, GUARD));
        Lent { all, start, length }
    }

    /// The lent bytes.
    pub fn bytes(&self) -> &[u8] {
        &self.all[self.start..self.start + self.length]
    }

    /// The lent bytes, to be written.
    pub fn bytes_mut(&mut self) -> &mut [u8] {
        &mut self.all[self.start..self.start + self.length]
    }

    /// The lent bytes alone; they are moved, for a copy of many needs fresh memory.
    pub fn into_bytes(mut self) -> Vec<u8> {
        self.all.truncate(self.start + self.length);
        self.all.drain(..self.start);
        self.all
    }

    /// Whether both guard areas are as they were.
    pub fn is_intact(&self) -> bool {
        let end = self.start + self.length;
        self.all[..self.start] == *guard(0, self.start) && self.all[end..] == *guard(end, GUARD)
    }
}

#[cfg(test)]
mod tests {
    use super::*;

    #[test]
    fn a_byte_next_to_the_lent_ones_is_watched() {
        for shift in [0, 1, 63] {
            let mut lent = Lent::new(b"bytes", shift);
            lent.bytes_mut().fill(0);
            assert!(lent.is_intact());
            for place in [lent.start - 1, lent.start + lent.length] {
                lent.all[place] ^= 1;
                assert!(!lent.is_intact());
                lent.all[place] ^= 1;
            }
            assert_eq!(lent.into_bytes(), [0; 5]);
        }
    }
}
