//! Calls of the C entry with their answers: damaged images, journals with
//! places, and sessions that start from a board. Their form is told in
//! vectors-entry/README.md.

use super::of_the_model;
use super::vectors::sums;
use crate::compare::call::{library, model, Call};
use crate::compare::session::Session;
use crate::model::fields;
use crate::model::image::{self, read, REFUSED_1, REFUSED_2};
use crate::model::journal::{Entry, LINE};
use crate::model::program;
use std::collections::BTreeSet;
use std::path::{Path, PathBuf};

const DAMAGED: [&str; 3] = ["image-favour", "image-records", "image-stream"];
const ODD: [&str; 2] = ["odd-1", "odd-2"];
const PLACES: &str = "places.calls";

fn path(name: &str) -> PathBuf {
    Path::new(env!("CARGO_MANIFEST_DIR"))
        .join("tests/vectors-entry")
        .join(name)
}

fn file(name: &str) -> Vec<u8> {
    std::fs::read(path(name)).unwrap_or_else(|error| panic!("{name}: {error}"))
}

/// The lines of a file: what is asked, and the answer, which stands behind the last
/// of these marks.
fn calls(name: &str, mark: &str) -> Vec<(String, u64)> {
    let text = String::from_utf8(file(name)).expect("plain text");
    let call = |line: &str| {
        let (asked, answer) = line.rsplit_once(mark)?;
        Some((asked.to_string(), answer.parse().ok()?))
    };
    let lines = text.lines();
    let calls: Vec<(String, u64)> = lines
        .map(|line| call(line).unwrap_or_else(|| panic!("{name}: {line:?}")))
        .collect();
    assert!(!calls.is_empty(), "{name}");
    calls
}

/// Puts what a line says into an image.
fn put(image: &mut [u8], line: &str) {
    let (at, bytes) = fields::read(line).unwrap_or_else(|fault| panic!("{fault}"));
    image[at..at + bytes.len()].copy_from_slice(&bytes);
}

/// The image of a file of fields.
fn image_of(name: &str) -> Vec<u8> {
    let text = String::from_utf8(file(&format!("{name}.board"))).expect("plain text");
    let mut image = Session::empty().start;
    text.lines().for_each(|line| put(&mut image, line));
    assert!(read(&image).is_ok(), "{name} is sound");
    image
}

/// An image with one byte changed.
fn damaged(image: &[u8], damage: &str) -> Vec<u8> {
    let mut damaged = image.to_vec();
    put(&mut damaged, damage);
    let changed = damaged.iter().zip(image).filter(|(is, was)| is != was);
    assert_eq!(changed.count(), 1, "bytes that are changed by {damage}");
    damaged
}

/// The call that is made on a damaged image.
fn empty_line() -> Call {
    Call {
        fill: Call::ALL_170,
        ..Call::plain(b"")
    }
}

/// The call of a journal's length and a place.
fn leave(asked: &str) -> Call {
    let (journal, place) = asked.split_once(' ').expect("two numbers");
    Call {
        line: b"LEAVE   1".to_vec(),
        journal: journal.parse().expect("a length"),
        place: place.parse().expect("a place"),
        fill: Call::ALL_170,
    }
}

/// The journal lines of a session that starts from an image.
fn journal(start: &[u8], input: &[u8]) -> Vec<u8> {
    let (mut board, mut written) = (read(start).expect("a sound image"), Vec::new());
    for line in program::requests(input) {
        let (after, lines) = image::step(&board, line);
        written.extend(lines.iter().flat_map(Entry::bytes));
        board = after;
    }
    written
}

/// All answers are the model's, and so are sums and journals of the sessions.
#[test]
fn vectors_of_the_entry_agree_with_the_model() {
    let answered = |name: &str, mark: &str, answer: &dyn Fn(&str) -> u64| {
        let calls = calls(name, mark).into_iter();
        let lines = calls.map(|(asked, _)| format!("{asked}{mark}{}\n", answer(&asked)));
        of_the_model(&path(name), lines.collect::<String>().as_bytes());
    };
    for name in DAMAGED {
        let image = image_of(name);
        answered(&format!("{name}.damage"), ": ", &|damage| {
            model(&damaged(&image, damage), &empty_line()).answer
        });
    }
    let empty = Session::empty().start;
    answered(PLACES, " ", &|asked| model(&empty, &leave(asked)).answer);
    for name in ODD {
        let (start, input) = (image_of(name), file(&format!("{name}.in")));
        let sums = sums(start.clone(), &input, model);
        of_the_model(&path(&format!("{name}.host")), sums.as_bytes());
        let journal = journal(&start, &input);
        of_the_model(&path(&format!("{name}.journal")), &journal);
    }
}

/// Both sides answer so; they leave the image as it was, and in the journal this
/// entry or nothing.
fn both_answer(answer: u64, image: &[u8], call: &Call, written: Entry) {
    let mut journal = vec![170; call.journal];
    if answer < REFUSED_2 {
        let (place, bytes) = (call.place as usize, written.bytes());
        journal[place..place + bytes.len()].copy_from_slice(&bytes);
    }
    for side in [model, library] {
        let outcome = side(image, call);
        assert_eq!(outcome.answer, answer, "{call:?}");
        assert!(
            outcome.image == image && outcome.journal == journal,
            "{call:?}"
        );
        assert_eq!(outcome.spilt, None, "{call:?}");
    }
}

#[test]
fn damaged_images_are_answered() {
    for name in DAMAGED {
        let (image, mut met) = (image_of(name), BTreeSet::new());
        for (damage, answer) in calls(&format!("{name}.damage"), ": ") {
            let image = damaged(&image, &damage);
            both_answer(answer, &image, &empty_line(), Entry::refused(3, 0, 0, 0));
            met.insert(answer);
        }
        assert_eq!(met, BTreeSet::from([LINE as u64, REFUSED_1]), "{name}");
    }
}

#[test]
fn places_are_answered() {
    let (empty, mut met) = (Session::empty().start, BTreeSet::new());
    for (asked, answer) in calls(PLACES, " ") {
        both_answer(answer, &empty, &leave(&asked), Entry::refused(11, 1, 0, 0));
        met.insert(answer == REFUSED_2);
    }
    assert_eq!(met, BTreeSet::from([false, true]));
}

/// The library and the model go through sessions on boards that no calls lead
/// to, with counts out of the order of the waiting line.
#[test]
fn sessions_from_an_image_are_answered() {
    for name in ODD {
        let (start, input) = (image_of(name), file(&format!("{name}.in")));
        let board = read(&start).expect("a sound image");
        assert!(!board
            .waiting
            .is_sorted_by(|&a, &b| board.count(a) >= board.count(b)));
        for side in [model, library] {
            let sums = sums(start.clone(), &input, side);
            assert!(sums.as_bytes() == file(&format!("{name}.host")), "{name}");
        }
        let written = journal(&start, &input);
        assert!(written == file(&format!("{name}.journal")), "{name}");
    }
}
