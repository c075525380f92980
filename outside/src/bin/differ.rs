//! `differ [--seed S] [--seconds N | --cases N] [--full]`: compares the library
//! with the model on every call of files and stores, and prints what came up.

use outside::arguments::Arguments;
use outside::explore::Explorer;
use outside::face::Library;
use outside::model::Described;
use outside::program::differ;
use outside::subject::Model;
use std::process::ExitCode;

fn main() -> ExitCode {
    let model = Model::<Described>::new();
    let mut explorer = Explorer::of_files(&model, &Library);
    differ(&mut explorer, &Arguments::read())
}
