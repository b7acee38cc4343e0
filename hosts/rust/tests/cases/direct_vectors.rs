//! The vectors of direct calls, through the model and the program `asked`; their form
//! is told in vectors-direct/README.md.

use super::direct;
use crate::compare::asked::{Asking, Question};
use crate::model::board::{only, Files};
use crate::model::events::Request;
use crate::model::image;
use crate::model::writer::{Writing, VERBS};
use std::collections::BTreeSet;

/// The board on which each call is made.
fn board() -> Vec<u8> {
    let enter = |p, v: Files, q: Files, j: Files| Request::Enter { p, v, q, j };
    let (f, n) = (3, 7);
    let mut requests: Vec<Request> = vec![enter(1, 0, 0, only(f)), enter(2, 0, 0, only(f))];
    requests.extend([1, 2].map(|p| Request::Open { p, f }));
    requests.extend([1, 2].map(|p| Request::Fetch { p, f, n }));
    requests.push(enter(4, only(1), only(2), 0));
    for _ in 0..7 {
        requests.extend([enter(5, 0, 0, 0), Request::Leave { p: 5 }]);
    }
    requests.push(enter(6, 0, 0, 0));
    let mut asking = Asking::new();
    for request in requests {
        assert_eq!(asking.call(request).refusal, 0, "{request:?}");
    }
    let board = image::read(&asking.board).expect("a sound board");
    assert_eq!((board.favoured, board.entry), (2, vec![6]));
    asking.board
}

/// A line's call, and its answer.
fn asked(line: &str) -> (Request, &str) {
    let words: Vec<&str> = line.split(' ').collect();
    let [verb, numbers @ .., answer] = &words[..] else {
        panic!("no call: {line:?}");
    };
    let verb = VERBS.iter().position(|name| name == verb);
    let numbers: Vec<u64> = numbers
        .iter()
        .filter_map(|word| word.parse().ok())
        .collect();
    let &[program, file, record] = &numbers[..] else {
        panic!("not three numbers: {line:?}");
    };
    let writing = Writing {
        verb: verb.expect("a verb") as u64 + 1,
        program,
        file,
        record,
        claims: Vec::new(),
        label: Vec::new(),
    };
    (writing.request().expect("no enter"), answer)
}

#[test]
fn direct_calls_are_answered() {
    let (board, mut asking, mut met) = (board(), Asking::new(), BTreeSet::new());
    for line in include_str!("../vectors-direct/records.calls").lines() {
        let (request, answer) = asked(line);
        asking.add(Question::Image(board.clone()));
        let reply = asking.call(request);
        let found = match reply.refusal {
            0 => String::from_utf8(reply.word.text().to_vec()).expect("a word"),
            number => number.to_string(),
        };
        assert_eq!(found.trim_end(), answer, "{line}");
        met.insert(answer);
    }
    let expected = [
        "8", "11", "12", "13", "14", "16", "18", "19", "20", "21", "DONE", "GIVEN",
    ];
    assert_eq!(met, BTreeSet::from(expected));
    if let Some(path) = direct::path() {
        asking.check(&path);
    }
}
