//! The examples with their journals, and 01's session, on which crates/board is run
//! when it is proved.

use super::{chosen, of_the_model};
use crate::model::program;
use std::path::Path;

#[test]
fn journals_of_the_examples_agree_with_the_model() {
    for requests in chosen::examples() {
        let input = std::fs::read(&requests).expect("an example");
        of_the_model(
            &requests.with_extension("journal"),
            &program::output(&input),
        );
    }
}

#[test]
fn lines_of_the_program_agree_with_the_model() {
    let folder = Path::new(env!("CARGO_MANIFEST_DIR")).join("../../crates/board");
    let input = std::fs::read(folder.join("stdin")).expect("01's session");
    of_the_model(&folder.join("stdout"), &program::output(&input));
}
