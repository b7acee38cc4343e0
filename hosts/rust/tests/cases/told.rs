//! Sessions worked by hand, through the library and the model.
//!
//! A line of a session is `request -> journal lines`, with `; ` between those.
//! ` -> P N L` after them: from then on program P is favoured (0 for nobody), the
//! number at favouring is N, and L leaves are counted. ` -> P=C ..`, last: from
//! then on C is the count of program P. The last line has the order after the
//! session.

use crate::compare::call::{library, model, Call, Outcome};
use crate::compare::session::Session;
use crate::model::board::PROGRAMS;
use crate::model::image::{
    COUNTS, ENTRY_LINE, FAVOURED, INQUIRY, INQUIRY_LEN, PROGRAM, WAITING_LINE,
};
use crate::model::journal::{COLUMNS, LINE};

/// The library and the model go through a session as it is told.
pub fn told(start: &str, rest: &str) {
    let (steps, order) = rest.rsplit_once("ORDER ").expect("the order");
    for side in [model, library] {
        let mut image = Session::empty().start;
        let mut end = image[FAVOURED..INQUIRY].to_vec();
        let mut carried = Vec::new();
        for step in start.lines().chain(steps.lines()) {
            let parts: Vec<&str> = step.split(" -> ").collect();
            let outcome = side(&image, &Call::plain(parts[0].as_bytes()));
            assert_eq!(outcome.spilt, None, "{step}");
            assert_eq!(journal(&outcome), parts[1], "{step}");
            parts[2..].iter().for_each(|part| change(&mut end, part));
            assert_eq!(outcome.image[FAVOURED..INQUIRY], end, "{step}");
            if let Some(program) = parts[0].strip_prefix("CANCEL") {
                cancelled(program, parts[1], &image, &outcome.image);
            }
            carried = outcome.order[0].buffer[..outcome.order[0].answer as usize].to_vec();
            image = outcome.image;
        }
        assert_eq!(carried, numbers(order));
    }
}

fn number(word: &str) -> u8 {
    word.parse().expect("a number")
}

fn numbers(text: &str) -> Vec<u8> {
    text.split_whitespace().map(number).collect()
}

/// Changes the part of an image with the favoured program and the counts, as a line
/// tells.
fn change(end: &mut [u8], part: &str) {
    if !part.contains('=') {
        return end[..COUNTS - FAVOURED].copy_from_slice(&numbers(part));
    }
    for one in part.split(' ') {
        let (p, count) = one.split_once('=').expect("P=C");
        end[COUNTS - FAVOURED + usize::from(number(p)) - 1] = number(count);
    }
}

/// The lines that a call has written, from place 0 on.
fn journal(outcome: &Outcome) -> String {
    let written = outcome.journal[..outcome.answer as usize].chunks(LINE);
    let lines: Vec<String> = written
        .map(|line| line[..COLUMNS].escape_ascii().to_string())
        .collect();
    lines.join("; ")
}

/// "The program goes with its files and claims": all its bytes are 0, and no
/// line names it. A refused cancel changes nothing.
fn cancelled(program: &str, answer: &str, before: &[u8], after: &[u8]) {
    if answer.starts_with("REFUSE") {
        return assert!(after == before, "a refused cancel of {program}");
    }
    let p = usize::from(number(program.trim_start()));
    let first = &after[PROGRAM * (p - 1)..PROGRAM * p];
    let second = &after[INQUIRY..][INQUIRY_LEN * (p - 1)..INQUIRY_LEN * p];
    let mut bytes = first.iter().chain(second);
    assert!(bytes.all(|&byte| byte == 0), "{program} has bytes");
    for line in [WAITING_LINE, ENTRY_LINE] {
        let names = &after[line..line + PROGRAMS];
        assert!(!names.contains(&(p as u8)), "{program} is in a line");
    }
}
