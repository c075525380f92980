//! What is compared: the model under some rules, or the compiled library.

use crate::model::{self, Converted, Found, Loaded, Rules, Tagged, Taken, Version};
use std::marker::PhantomData;

/// The functions; a version of data files is said, as the libraries have a call each.
pub trait Subject {
    /// Checks a data file.
    fn check_data(
        &self,
        version: Version,
        register: &[u8],
        guide: &[u8],
        file: &[u8],
        answers: &[u8],
        last: u32,
    ) -> Taken;

    /// Checks a guide file.
    fn check_guide(
        &self,
        register: &[u8],
        guide: &[u8],
        file: &[u8],
        answers: &[u8],
        last: u32,
    ) -> Taken;

    /// Applies a data file.
    fn apply_data(
        &self,
        version: Version,
        register: &mut [u8],
        guide: &[u8],
        file: &[u8],
        answers: &mut [u8],
        last: u32,
    ) -> Taken;

    /// Applies a guide file.
    fn apply_guide(
        &self,
        register: &[u8],
        guide: &mut [u8],
        file: &[u8],
        answers: &mut [u8],
        last: u32,
    ) -> Taken;

    /// Looks a number up.
    fn lookup(&self, register: &[u8], number: &[u8]) -> Found;

    /// Writes a load file.
    fn write_load(
        &self,
        version: Version,
        register: &[u8],
        date: &[u8],
        name: &[u8],
        cycle: u32,
        out: &mut [u8],
    ) -> Loaded;

    /// Converts a register written by the former reading.
    fn convert_register(&self, register: &mut [u8]) -> Converted;

    /// Reads a tagged text into a record.
    fn read_tagged(&self, text: &[u8], rec: &mut [u8]) -> Tagged;

    /// Writes a record as a tagged text.
    fn write_tagged(&self, rec: &[u8], text: &mut [u8]) -> Tagged;
}

/// The model under these rules.
pub struct Model<R>(PhantomData<R>);

impl<R> Model<R> {
    /// The model.
    pub const fn new() -> Self {
        Model(PhantomData)
    }
}

impl<R> Default for Model<R> {
    fn default() -> Self {
        Self::new()
    }
}

impl<R: Rules> Subject for Model<R> {
    fn check_data(
        &self,
        version: Version,
        register: &[u8],
        guide: &[u8],
        file: &[u8],
        answers: &[u8],
        last: u32,
    ) -> Taken {
        model::check_data::<R>(version, register, guide, file, answers, last)
    }

    fn check_guide(
        &self,
        register: &[u8],
        guide: &[u8],
        file: &[u8],
        answers: &[u8],
        last: u32,
    ) -> Taken {
        model::check_guide::<R>(register, guide, file, answers, last)
    }

    fn apply_data(
        &self,
        version: Version,
        register: &mut [u8],
        guide: &[u8],
        file: &[u8],
        answers: &mut [u8],
        last: u32,
    ) -> Taken {
        model::apply_data::<R>(version, register, guide, file, answers, last)
    }

    fn apply_guide(
        &self,
        register: &[u8],
        guide: &mut [u8],
        file: &[u8],
        answers: &mut [u8],
        last: u32,
    ) -> Taken {
        model::apply_guide::<R>(register, guide, file, answers, last)
    }

    fn lookup(&self, register: &[u8], number: &[u8]) -> Found {
        model::lookup(register, number)
    }

    fn write_load(
        &self,
        version: Version,
        register: &[u8],
        date: &[u8],
        name: &[u8],
        cycle: u32,
        out: &mut [u8],
    ) -> Loaded {
        model::write_load::<R>(version, register, date, name, cycle, out)
    }

    fn convert_register(&self, register: &mut [u8]) -> Converted {
        model::convert_register::<R>(register)
    }

    fn read_tagged(&self, text: &[u8], rec: &mut [u8]) -> Tagged {
        model::read_tagged::<R>(text, rec)
    }

    fn write_tagged(&self, rec: &[u8], text: &mut [u8]) -> Tagged {
        model::write_tagged::<R>(rec, text)
    }
}
