//! The library against the model, for as long as a test may last.

use outside::coverage::Notes;
use outside::explore::{Explorer, Runs};
use outside::face::Library;
use outside::model::Described;
use outside::subject::Model;

const MODEL: Model<Described> = Model::new();

fn does_as_the_model(mut runs: impl Runs, most: u64) {
    if let Err(finding) = runs.explore(7, |cases| cases >= most) {
        panic!("{}\n{}", finding.what, finding.line);
    }
    assert_eq!(runs.notes().missing(), [""; 0]);
}

#[test]
fn the_library_does_as_the_model_with_files() {
    does_as_the_model(Explorer::of_files(&MODEL, &Library), 100_000);
}

#[test]
fn the_library_does_as_the_model_with_texts() {
    does_as_the_model(Explorer::of_texts(&MODEL, &Library), 40_000);
}
