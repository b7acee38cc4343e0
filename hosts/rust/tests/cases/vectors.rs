//! The model replays the vectors: the program's output with its order, and the
//! host entry's answers, images and journals. The library replays them too.

use super::of_the_model;
use crate::compare::call::{library, model, Call, Outcome};
use crate::compare::session::Session;
use crate::model::image::ROOM;
use crate::model::program;
use std::path::PathBuf;

fn data() -> PathBuf {
    PathBuf::from(env!("CARGO_MANIFEST_DIR")).join("../../crates/vectors/data")
}

/// The inputs' names, without their ending.
pub fn names() -> Vec<PathBuf> {
    let mut names: Vec<PathBuf> = std::fs::read_dir(data())
        .expect("the vectors' directory")
        .map(|entry| entry.expect("a vector").path())
        .filter(|path| path.extension().is_some_and(|ending| ending == "in"))
        .collect();
    names.sort();
    assert!(!names.is_empty());
    names
}

/// crates/vectors replays the sets that `names` lists.
#[test]
fn every_vector_is_listed() {
    let listed = std::fs::read_to_string(data().join("names")).expect("the list of names");
    let mut listed: Vec<PathBuf> = listed
        .lines()
        .map(|name| data().join(format!("{name}.in")))
        .collect();
    listed.sort();
    assert_eq!(listed, names());
}

#[test]
fn vectors_agree_with_the_model() {
    for input in names() {
        let text = std::fs::read(&input).unwrap();
        of_the_model(&input.with_extension("out"), &program::output(&text));
        let sums = sums(Session::empty().start, &text, model);
        of_the_model(&input.with_extension("host"), sums.as_bytes());
    }
}

#[test]
fn vectors_agree_with_the_library() {
    for input in names() {
        let text = std::fs::read(&input).unwrap();
        let expected = std::fs::read_to_string(input.with_extension("host")).unwrap();
        let sums = sums(Session::empty().start, &text, library);
        assert!(sums == expected, "{}", input.display());
    }
}

/// The lines of NAME.host, from an image on: answer, sum of the image, sum of
/// the journal.
pub fn sums(mut image: Vec<u8>, input: &[u8], host: fn(&[u8], &Call) -> Outcome) -> String {
    let mut text = String::new();
    for line in program::requests(input) {
        let call = Call {
            line: line.to_vec(),
            journal: ROOM,
            place: 0,
            fill: Call::ALL_170,
        };
        let outcome = host(&image, &call);
        let (of_image, of_journal) = (adler(&outcome.image), adler(&outcome.journal));
        text += &format!("{} {of_image} {of_journal}\n", outcome.answer);
        image = outcome.image;
    }
    text
}

fn adler(bytes: &[u8]) -> u32 {
    let (a, b) = bytes.iter().fold((1u32, 0u32), |(a, b), &byte| {
        let a = (a + u32::from(byte)) % 65521;
        (a, (b + a) % 65521)
    });
    b * 65536 + a
}
