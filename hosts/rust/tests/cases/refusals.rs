//! Refusals as the three hosts show them, whole: those of the vectors, of random
//! sessions, and of the sessions in refusals.txt.

use super::{of_the_model, program, seed, vectors};
use crate::expected::refusals::{Document, Session};
use crate::generate::random::Random;
use crate::model::board::Board;
use crate::model::image;
use crate::model::program::requests;
use crate::running::whole::{file, run};
use crate::running::{built, HOSTS};
use std::ffi::OsStr;
use std::path::{Path, PathBuf};

fn document() -> Document {
    let path = Path::new(env!("CARGO_MANIFEST_DIR")).join("../../docs/REFUSALS.md");
    Document::read(&std::fs::read_to_string(path).expect("docs/REFUSALS.md"))
}

fn expected(document: &Document, board: Board, input: &[u8]) -> Vec<String> {
    let mut session = Session::new(document, board);
    for line in requests(input) {
        session.serve(line);
    }
    session.shown
}

/// Runs each host and compares all that it shows.
fn agree(arguments: &[&OsStr], input: &[u8], expected: &[String], prepare: impl Fn()) {
    for host in HOSTS.map(built) {
        prepare();
        let output = run(&host, arguments, input);
        assert!(output.status.success(), "{}", host.display());
        let shown = String::from_utf8(output.stderr).expect("plain text");
        let mut lines = shown.lines();
        for expected in expected {
            assert_eq!(lines.next(), Some(expected.as_str()), "{}", host.display());
        }
        assert_eq!(lines.next(), None, "{}", host.display());
    }
}

/// The refusals of an input from the empty board, in all hosts; answers what was expected.
fn agree_from_empty(document: &Document, input: &[u8]) -> Vec<String> {
    let expected = expected(document, Board::EMPTY, input);
    agree(&[], input, &expected, || ());
    expected
}

#[test]
#[ignore = "runs the hosts: hosts/test explain"]
fn refusals_of_the_vectors_agree() {
    let document = document();
    let mut count = 0;
    for path in vectors::names() {
        count += agree_from_empty(&document, &std::fs::read(path).unwrap()).len();
    }
    assert!(count > 1000, "{count} refusals");
    println!("shown: {count} refusals");
}

#[test]
#[ignore = "runs the hosts: hosts/test explain"]
fn refusals_of_random_sessions_agree() {
    let (document, mut random) = (document(), Random::new(seed() ^ 0x7777));
    for round in 0..60 {
        agree_from_empty(&document, &program::input(round, &mut random));
    }
}

/// 31 labelled readers of the file that a program waits for, and 64 files in all three claims.
#[test]
#[ignore = "runs the hosts: hosts/test explain"]
fn the_longest_refusals_agree() {
    let shown = agree_from_empty(&document(), include_bytes!("../longest.in"));
    assert_eq!(shown.len(), 5);
    assert!(shown.iter().any(|text| text.len() > 600));
}

/// A session that goes on from an image knows no labels of the one before.
#[test]
#[ignore = "runs the hosts: hosts/test explain"]
fn refusals_on_an_image_agree() {
    let (document, file) = (document(), file("refusals.image"));
    let arguments = [OsStr::new("--image"), file.as_os_str()];
    let chosen = [
        "contention-2",
        "favour-3",
        "refusals-3",
        "readers-3",
        "session",
        "cancel-refusals-5",
        "record-refusals",
        "records-refusals-3",
    ];
    let mut paths = vectors::names();
    paths.retain(|path| chosen.contains(&path.file_stem().unwrap().to_str().unwrap()));
    assert_eq!(paths.len(), chosen.len());
    for path in paths {
        let input = std::fs::read(path).unwrap();
        let lines = requests(&input);
        let (first, rest) = lines.split_at(lines.len() / 2);
        let board = first
            .iter()
            .fold(Board::EMPTY, |board, line| image::step(&board, line).0);
        let rest = rest.join(&10);
        let expected = expected(&document, board.clone(), &rest);
        agree(&arguments, &rest, &expected, || {
            std::fs::write(&file, image::write(&board)).expect("the image is written");
        });
    }
}

fn refusals() -> PathBuf {
    Path::new(env!("CARGO_MANIFEST_DIR")).join("tests/refusals.txt")
}

/// A session of refusals.txt, with what the model shows behind each request.
fn session_anew(document: &Document, part: &str) -> String {
    let (mut session, mut lines) = (Session::new(document, Board::EMPTY), Vec::new());
    for line in part.lines().filter(|line| !line.starts_with("= ")) {
        lines.push(line.to_string());
        if line.starts_with('#') {
            continue;
        }
        let known = session.shown.len();
        for request in requests(&[bytes(line), vec![10]].concat()) {
            session.serve(request);
        }
        for shown in &session.shown[known..] {
            let (_, text) = shown.split_once(": refusal ").expect("a refusal");
            lines.push(format!("= {text}"));
        }
    }
    lines.join("\n")
}

#[test]
fn explanations_agree_with_the_model() {
    let (document, text) = (document(), std::fs::read_to_string(refusals()).unwrap());
    let parts = text.trim_end().split("\n\n");
    let parts: Vec<String> = parts.map(|part| session_anew(&document, part)).collect();
    of_the_model(&refusals(), (parts.join("\n\n") + "\n").as_bytes());
}

/// The sessions of refusals.txt, and what is shown of each.
fn sessions() -> Vec<(Vec<u8>, Vec<String>)> {
    let mut sessions = Vec::new();
    for part in include_str!("../refusals.txt").split("\n\n") {
        let (mut input, mut shown, mut number) = (Vec::new(), Vec::new(), 0);
        for line in part.lines().filter(|line| !line.starts_with('#')) {
            if let Some(text) = line.strip_prefix("= ") {
                shown.push(format!("line {number}: refusal {text}"));
            } else {
                number += 1;
                input.extend(bytes(line));
                input.push(10);
            }
        }
        sessions.push((input, shown));
    }
    sessions
}

/// The bytes of a request: <13> is one byte, <32*400> one of them 400 times.
fn bytes(text: &str) -> Vec<u8> {
    let mut parts = text.split('<');
    let mut bytes = parts.next().expect("the first part").as_bytes().to_vec();
    for part in parts {
        let (named, plain) = part.split_once('>').expect("< and then >");
        let (byte, times) = named.split_once('*').unwrap_or((named, "1"));
        if !byte.is_empty() {
            let byte: u8 = byte.parse().expect("a byte");
            bytes.extend(std::iter::repeat_n(byte, times.parse().expect("a number")));
        }
        bytes.extend(plain.as_bytes());
    }
    bytes
}

#[test]
#[ignore = "runs the hosts: hosts/test explain"]
fn every_explanation_is_shown() {
    let document = document();
    for (input, shown) in sessions() {
        assert_eq!(agree_from_empty(&document, &input), shown);
    }
}
