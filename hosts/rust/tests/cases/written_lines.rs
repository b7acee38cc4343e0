//! There and back: each line that the library writes is taken by both readers
//! as the same call with the same label, and each line that a reader takes is
//! written back byte for byte.

use super::direct::{assert_refusals, count, path};
use super::{calls, seed};
use crate::compare::asked::{Asking, Question};
use crate::compare::call::Call;
use crate::compare::counters::Counters;
use crate::compare::session::one;
use crate::compare::written::{both, library, Written};
use crate::generate::random::Random;
use crate::generate::sessions::wild;
use crate::generate::{lines, writings};
use crate::model::board::only;
use crate::model::direct;
use crate::model::events::Request;
use crate::model::line;
use crate::model::writer::{Writing, VERBS};

/// The line that the library writes, if it writes one.
fn written(writing: &Writing, random: &mut Random) -> Option<Vec<u8>> {
    let before = writings::buffer(writing, random);
    let Written { answer, buffer, .. } = library(writing, &before);
    let line = buffer.get(..usize::try_from(answer).ok()?)?;
    Some(line.to_vec())
}

/// A board on which the answer to the request tells its verb and its numbers:
/// empty for enter, else with its program running and its file claimed; for fetch
/// open for inquiry.
fn telling(request: &Request) -> Vec<u8> {
    let empty = Asking::new().board;
    let (p, f) = request.numbers();
    let file = if f == 0 { 0 } else { only(f) };
    let (v, q, j) = match request {
        Request::Enter { .. } => return empty,
        Request::Fetch { .. } => (0, 0, file),
        _ => (file, 0, 0),
    };
    let entered = direct::call(&empty, &Request::Enter { p, v, q, j }).image;
    match request {
        Request::Fetch { .. } => direct::call(&entered, &Request::Open { p, f }).image,
        _ => entered,
    }
}

/// "The reader takes each written line back to the same call." The model's
/// reader, and the library's through its line call and the program `asked`,
/// which makes the direct call beside it and tells the label.
#[test]
fn written_lines_make_the_same_call() {
    let mut random = Random::new(seed() ^ 0xEEEE);
    let (path, mut met) = (path(), Counters::default());
    for _ in 0..=calls() / 10_000 {
        let mut asking = Asking::new();
        for _ in 0..500 {
            let writing = writings::writing(&mut random);
            if let Some(text) = written(&writing, &mut random) {
                same_call(&writing, &text, &mut asking, &mut met);
            }
        }
        if let Some(path) = &path {
            asking.check(path);
        }
    }
    met.print("written lines");
    met.assert_met(&VERBS);
    met.assert_met(&["ADMIT", "refusal 10", "GIVEN", "refusal 16"]);
    met.assert_met(&["DONE", "refusal 18", "refusal 20"]);
}

/// The line and the direct call with the writing's own numbers, on one board.
fn same_call(writing: &Writing, text: &[u8], asking: &mut Asking, met: &mut Counters) {
    let request = writing.request().expect("a verb, as a line was written");
    let shown = format!("{writing:?} is written as {}", text.escape_ascii());
    assert_eq!(line::read(text), Ok(request), "{shown}");
    let label = match request {
        Request::Enter { .. } => writing.label.as_slice(),
        _ => &[],
    };
    assert_eq!(line::label(text), label, "{shown}");
    let (board, call) = (telling(&request), Call::plain(text));
    one(&board, call.clone());
    asking.add(Question::Label(text.to_vec()));
    asking.add(Question::Image(board.clone()));
    let by_numbers = asking.call(request);
    asking.add(Question::Image(board));
    let by_line = asking.line(call);
    assert_eq!(by_line, by_numbers, "{shown}");
    met.add(VERBS[writing.verb as usize - 1]);
    count(&by_line, met);
}

/// "Writing what was read yields the identical line." Lines in form and damaged
/// ones; the library's line call takes those that the model's reader takes.
#[test]
fn lines_taken_are_written_back() {
    let mut random = Random::new(seed() ^ 0xFFFF);
    let (empty, mut met) = (Asking::new().board, Counters::default());
    for _ in 0..calls() / 5 {
        let mut text = lines::text(&wild(&mut random), &mut random);
        if random.per_mille(600) {
            lines::damage(&mut text, &mut random);
            met.add("damaged");
        }
        one(&empty, Call::plain(&text));
        match line::read(&text) {
            Ok(request) => {
                let writing = Writing::of(&request, line::label(&text));
                let before = random.bytes(text.len());
                let back = both(&writing, &before, &mut met);
                let shown = text.escape_ascii();
                assert_eq!(back, Written::line(&text, &before), "{shown}");
            }
            Err(number) => met.add(&format!("refusal {number}")),
        }
    }
    met.print("lines written back");
    met.assert_met(&VERBS);
    met.assert_met(&["damaged"]);
    assert_refusals(&met, 3..=7);
}
