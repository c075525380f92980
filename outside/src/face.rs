//! A safe face of the compiled static libraries. The only file with `unsafe`.

use crate::model::{Converted, Found, Loaded, Tagged, Taken, Version};
use crate::subject::Subject;

extern "C" {
    fn hakkiyolu_check_data(
        register: *const u8,
        register_length: usize,
        guide: *const u8,
        guide_length: usize,
        file: *const u8,
        file_length: usize,
        answers: *const u8,
        answers_length: usize,
        last: u32,
    ) -> Taken;

    fn hakkiyolu_check_data_v1(
        register: *const u8,
        register_length: usize,
        guide: *const u8,
        guide_length: usize,
        file: *const u8,
        file_length: usize,
        answers: *const u8,
        answers_length: usize,
        last: u32,
    ) -> Taken;

    fn hakkiyolu_check_guide(
        register: *const u8,
        register_length: usize,
        guide: *const u8,
        guide_length: usize,
        file: *const u8,
        file_length: usize,
        answers: *const u8,
        answers_length: usize,
        last: u32,
    ) -> Taken;

    fn hakkiyolu_apply_data(
        register: *mut u8,
        register_length: usize,
        guide: *const u8,
        guide_length: usize,
        file: *const u8,
        file_length: usize,
        answers: *mut u8,
        answers_length: usize,
        last: u32,
    ) -> Taken;

    fn hakkiyolu_apply_data_v1(
        register: *mut u8,
        register_length: usize,
        guide: *const u8,
        guide_length: usize,
        file: *const u8,
        file_length: usize,
        answers: *mut u8,
        answers_length: usize,
        last: u32,
    ) -> Taken;

    fn hakkiyolu_apply_guide(
        register: *const u8,
        register_length: usize,
        guide: *mut u8,
        guide_length: usize,
        file: *const u8,
        file_length: usize,
        answers: *mut u8,
        answers_length: usize,
        last: u32,
    ) -> Taken;

    fn hakkiyolu_write_load(
        register: *const u8,
        register_length: usize,
        date: *const u8,
        date_length: usize,
        name: *const u8,
        name_length: usize,
        cycle: u32,
        out: *mut u8,
        out_length: usize,
    ) -> Loaded;

    fn hakkiyolu_write_load_v1(
        register: *const u8,
        register_length: usize,
        date: *const u8,
        date_length: usize,
        name: *const u8,
        name_length: usize,
        cycle: u32,
        out: *mut u8,
        out_length: usize,
    ) -> Loaded;

    fn hakkiyolu_convert_register(register: *mut u8, register_length: usize) -> Converted;

    fn hakkiyolu_read_tagged(
        text: *const u8,
        text_length: usize,
        rec: *mut u8,
        rec_length: usize,
    ) -> Tagged;

    fn hakkiyolu_write_tagged(
        rec: *const u8,
        rec_length: usize,
        text: *mut u8,
        text_length: usize,
    ) -> Tagged;

    fn hakkiyolu_lookup(
        register: *const u8,
        register_length: usize,
        number: *const u8,
        number_length: usize,
    ) -> u64;
}

/// The compiled libraries.
pub struct Library;

/// A C program may lend no bytes as NULL, so that is what is tried.
fn start(bytes: &[u8]) -> *const u8 {
    if bytes.is_empty() {
        std::ptr::null()
    } else {
        bytes.as_ptr()
    }
}

/// As `start`, for bytes to be written.
fn start_mut(bytes: &mut [u8]) -> *mut u8 {
    if bytes.is_empty() {
        std::ptr::null_mut()
    } else {
        bytes.as_mut_ptr()
    }
}

/// One of the three checks.
type Check = unsafe extern "C" fn(
    *const u8,
    usize,
    *const u8,
    usize,
    *const u8,
    usize,
    *const u8,
    usize,
    u32,
) -> Taken;

// SAFETY of every call below: each pointer comes with the length of the slice it
// was made from, slices do not overlap by Rust's own rules, what is lent as
// `*const` is not written (the guard and compare tests watch that), and nothing
// is kept after the call.

/// Lends all of it to that check, read-only.
fn checked(check: Check, [register, guide, file, answers]: [&[u8]; 4], last: u32) -> Taken {
    unsafe {
        check(
            start(register),
            register.len(),
            start(guide),
            guide.len(),
            start(file),
            file.len(),
            start(answers),
            answers.len(),
            last,
        )
    }
}

impl Subject for Library {
    fn check_data(
        &self,
        version: Version,
        register: &[u8],
        guide: &[u8],
        file: &[u8],
        answers: &[u8],
        last: u32,
    ) -> Taken {
        let check = match version {
            Version::One => hakkiyolu_check_data_v1,
            Version::Two => hakkiyolu_check_data,
        };
        checked(check, [register, guide, file, answers], last)
    }

    fn check_guide(
        &self,
        register: &[u8],
        guide: &[u8],
        file: &[u8],
        answers: &[u8],
        last: u32,
    ) -> Taken {
        checked(
            hakkiyolu_check_guide,
            [register, guide, file, answers],
            last,
        )
    }

    fn apply_data(
        &self,
        version: Version,
        register: &mut [u8],
        guide: &[u8],
        file: &[u8],
        answers: &mut [u8],
        last: u32,
    ) -> Taken {
        let apply = match version {
            Version::One => hakkiyolu_apply_data_v1,
            Version::Two => hakkiyolu_apply_data,
        };
        unsafe {
            apply(
                start_mut(register),
                register.len(),
                start(guide),
                guide.len(),
                start(file),
                file.len(),
                start_mut(answers),
                answers.len(),
                last,
            )
        }
    }

    fn apply_guide(
        &self,
        register: &[u8],
        guide: &mut [u8],
        file: &[u8],
        answers: &mut [u8],
        last: u32,
    ) -> Taken {
        unsafe {
            hakkiyolu_apply_guide(
                start(register),
                register.len(),
                start_mut(guide),
                guide.len(),
                start(file),
                file.len(),
                start_mut(answers),
                answers.len(),
                last,
            )
        }
    }

    fn lookup(&self, register: &[u8], number: &[u8]) -> Found {
        let packed = unsafe {
            hakkiyolu_lookup(start(register), register.len(), start(number), number.len())
        };
        unpack(packed)
    }

    fn write_load(
        &self,
        version: Version,
        register: &[u8],
        date: &[u8],
        name: &[u8],
        cycle: u32,
        out: &mut [u8],
    ) -> Loaded {
        let write = match version {
            Version::One => hakkiyolu_write_load_v1,
            Version::Two => hakkiyolu_write_load,
        };
        unsafe {
            write(
                start(register),
                register.len(),
                start(date),
                date.len(),
                start(name),
                name.len(),
                cycle,
                start_mut(out),
                out.len(),
            )
        }
    }

    fn convert_register(&self, register: &mut [u8]) -> Converted {
        unsafe { hakkiyolu_convert_register(start_mut(register), register.len()) }
    }

    fn read_tagged(&self, text: &[u8], rec: &mut [u8]) -> Tagged {
        unsafe { hakkiyolu_read_tagged(start(text), text.len(), start_mut(rec), rec.len()) }
    }

    fn write_tagged(&self, rec: &[u8], text: &mut [u8]) -> Tagged {
        unsafe { hakkiyolu_write_tagged(start(rec), rec.len(), start_mut(text), text.len()) }
    }
}

/// "Slots looked at in bits 0-15, slot in 16-31, state in 32-35, refusal in
/// 36-39; bits 40-63 are 0": were they not, the refusal would come out too large.
pub fn unpack(packed: u64) -> Found {
    Found {
        refusal: (packed >> 36) as u32,
        state: (packed >> 32) as u32 & 0xf,
        slot: (packed >> 16) as u32 & 0xffff,
        looked: packed as u32 & 0xffff,
    }
}

#[cfg(test)]
mod tests {
    use super::*;

    #[test]
    fn the_returned_structs_have_their_length() {
        assert_eq!((size_of::<Taken>(), size_of::<Loaded>()), (28, 16));
    }

    #[test]
    fn the_packed_number_comes_apart() {
        let found = Found {
            refusal: 10,
            state: 3,
            slot: 4095,
            looked: 4096,
        };
        assert_eq!(unpack(0x00a3_0fff_1000), found);
    }
}
