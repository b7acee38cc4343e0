//! Every board that three programs can reach in a small scope: on each of them every
//! call that is accepted, and some or all that are refused, of the library and of the
//! model; what 02 says of every board that calls lead to; and each of them run
//! through to the empty one. Of the waiters' counts only 0, 7 and 8 are looked at,
//! unless a run has time for all.

use super::plan::emptied;
use crate::compare::call::Call;
use crate::compare::counters::{Counters, CANCELS, RECORDS};
use crate::compare::session::one;
use crate::model::board::{members, Board, Files, Standing, MOST_PASSES};
use crate::model::events::{self, Request};
use crate::model::{image, line, order};
use std::collections::HashSet;

const PROGRAMS: usize = 3;

/// The files that may be claimed in each way, all of them 1 or 2, and record 1 of each.
struct Scope {
    name: &'static str,
    writable: Files,
    readable: Files,
    inquirable: Files,
    /// Whether a call is made where it is refused, too.
    refused: fn(&Request) -> bool,
}

/// Two files, as in 01.
const FILES: Scope = Scope {
    name: "two files",
    writable: 0b11,
    readable: 0b11,
    inquirable: 0,
    refused: |request| matches!(request, Request::Cancel { .. }),
};

/// One file in every way.
const RECORD: Scope = Scope {
    name: "one record",
    writable: 0b01,
    readable: 0b01,
    inquirable: 0b01,
    refused: |_| true,
};

/// One file for inquiry and writing, one for writing alone.
const RECORD_AND_FILE: Scope = Scope {
    name: "one record and another file",
    writable: 0b11,
    readable: 0,
    inquirable: 0b01,
    refused: |request| matches!(request, Request::Cancel { .. } | Request::Return { .. }),
};

/// The sets within one.
fn within(all: Files) -> impl Iterator<Item = Files> {
    (0..=all).filter(move |set| set & !all == 0)
}

impl Scope {
    fn requests(&self) -> Vec<Request> {
        let mut all = Vec::new();
        for p in 1..=PROGRAMS {
            all.extend(self.enters(p));
            for f in members(self.writable | self.readable | self.inquirable) {
                all.push(Request::Open { p, f });
                all.push(Request::Close { p, f });
                all.push(Request::Drop { p, f });
                all.push(Request::Fetch { p, f, n: 1 });
            }
            all.push(Request::Leave { p });
            all.push(Request::Cancel { p });
            all.push(Request::Return { p });
        }
        all
    }

    /// With every claim, those that meet among them.
    fn enters(&self, p: usize) -> Vec<Request> {
        let mut all = Vec::new();
        for v in within(self.writable) {
            for q in within(self.readable) {
                all.extend(within(self.inquirable).map(|j| Request::Enter { p, v, q, j }));
            }
        }
        all
    }

    /// Walks over the boards, each changed before it is looked at.
    fn every_call(&self, change: fn(&mut Board)) -> Counters {
        let requests = self.requests();
        let mut known = HashSet::from([image::write(&Board::EMPTY)]);
        let mut ahead = vec![Board::EMPTY];
        let mut met = Counters::default();
        while let Some(board) = ahead.pop() {
            let before = image::write(&board);
            emptied(&board);
            for request in &requests {
                let mut after = match events::call(&board, request) {
                    Ok((after, _)) => after,
                    Err(_) if (self.refused)(request) => board.clone(),
                    Err(_) => continue,
                };
                let call = Call {
                    fill: Call::ALL_170,
                    ..Call::plain(&line::write(request, b"SCOPE   "))
                };
                let outcome = one(&before, call.clone());
                assert_eq!(outcome.image, image::write(&after));
                met.answer(&call, &outcome);
                met.boards(&board, &after);
                change(&mut after);
                if known.insert(image::write(&after)) {
                    by_the_sentences(&after, &mut met);
                    ahead.push(after);
                }
            }
        }
        met.print(self.name);
        met
    }
}

/// A waiter that was passed by some is passed by all but one of those that may:
/// as sound as before.
fn hurry(board: &mut Board) {
    for p in 1..=PROGRAMS {
        let count = board.count_mut(p);
        if *count > 0 {
            *count = (*count).max(MOST_PASSES - 1);
        }
    }
}

/// What is said of every board after calls: it is sound, and its image is that of no
/// other; it has an order, by trying all, of which the carried one is one; "the
/// order's first program isn't waiting, or it awaits a record whose user is running".
fn by_the_sentences(board: &Board, met: &mut Counters) {
    assert_eq!(image::read(&image::write(board)).as_ref(), Ok(board));
    assert!(order::some_order(board));
    let order = order::carried(board).expect("an order");
    assert!(order::completes(board, &order));
    met.add(first_one(board));
}

/// What the order's first program does; that it waits for a file ends the test.
pub fn first_one(board: &Board) -> &'static str {
    let order = order::carried(board).expect("an order");
    let first = order.first().map(|&p| board.get(p));
    let awaits = first.and_then(|first| first.awaits());
    match (first.map(|first| first.standing), awaits) {
        (None, _) => "board with nobody",
        (Some(Standing::Running), _) => "board whose first one runs",
        (_, Some(record)) => {
            let user = board.user(record).expect("an awaited record is in use");
            assert_eq!(board.get(user).standing, Standing::Running);
            "board whose first one awaits a record"
        }
        _ => panic!("the order's first one waits for a file: {board:?}"),
    }
}

/// What scopes of two files meet.
const MET: [&str; 6] = [
    "settling gives and favours",
    "favouring passes on",
    "enter favours",
    "8, and nobody to admit",
    "count ended by GIVEN",
    "count ended by a cancel",
];

fn files(change: fn(&mut Board)) {
    let met = FILES.every_call(change);
    met.assert_met(&CANCELS);
    met.assert_met(&MET);
}

/// All that records lead to, but that three programs are too few for settling to favour
/// one who awaits a record: its user, itself, and a favoured and a held one.
fn records(change: fn(&mut Board)) {
    let met = RECORD_AND_FILE.every_call(change);
    met.assert_met(&CANCELS);
    met.assert_met(&MET);
    met.assert_met(&RECORDS[..12]);
    assert_eq!(met.get(RECORDS[12]), 0);
    met.assert_met(&["board whose first one awaits a record"]);
}

#[test]
fn every_call_on_every_board_of_two_files() {
    files(hurry);
}

#[test]
fn every_call_on_every_board_with_a_record_and_a_file() {
    records(hurry);
}

#[test]
fn every_call_refused_or_not_on_every_board_with_a_record() {
    let met = RECORD.every_call(|_| ());
    met.assert_met(&["board whose first one awaits a record"]);
    for refusal in [9, 10, 11, 12, 13, 14, 15, 16, 18, 20, 21] {
        met.assert_met(&[&format!("refusal {refusal}")]);
    }
}

#[test]
#[ignore = "takes minutes"]
fn every_call_on_every_board_of_two_files_with_every_count() {
    files(|_| ());
}

#[test]
#[ignore = "takes minutes"]
fn every_call_on_every_board_with_a_record_and_a_file_and_every_count() {
    records(|_| ());
}
