//! What is promised while a program is favoured, in random lists with cancels,
//! fetches and returns among them: read from the list and the journal alone, of the
//! library and of the model.
//!
//! "While a program is favoured, the accepted leaves after the call that favoured
//! it and the programs now admitted add up to the number admitted after that
//! call. It gets its file at the latest with the leave that brings those leaves
//! to that number less one." Document 02: a cancel of an admitted program other
//! than itself counts as such a leave, and "a wait now also ends with its own
//! cancel"; a favoured program may also get its record, "within the same bound".

use super::lists::{lists, List};
use super::{calls, seed};
use crate::compare::counters::Counters;
use crate::generate::random::Random;
use std::collections::BTreeSet;

struct Favoured {
    program: usize,
    /// The number admitted after the call that favoured it.
    number: usize,
    /// Accepted leaves, and cancels of other admitted programs, after that call.
    leaves: usize,
    /// Whether that call was an enter, as 02 has it.
    by_enter: bool,
}

/// What the list and the journal tell up to a call.
#[derive(Default)]
struct Told {
    admitted: BTreeSet<usize>,
    waiting: BTreeSet<usize>,
    favoured: Option<Favoured>,
}

impl Told {
    /// One more call, of which these journal lines were written.
    fn take(&mut self, request: &[u8], lines: &[(&str, usize)], met: &mut Counters) {
        let (word, p) = lines[0];
        match word {
            "REFUSE" => return,
            "ADMIT" => drop(self.admitted.insert(p)),
            "WAIT" | "UNSAFE" => drop(self.waiting.insert(p)),
            "DONE" if request.starts_with(b"LEAVE") => self.left(p, met),
            "DONE" if request.starts_with(b"CANCEL") => self.cancelled(p, met),
            _ => {}
        }
        for &(word, p) in &lines[1..] {
            match word {
                "GIVEN" => {
                    // A return gives a record, never a file.
                    if request.starts_with(b"RETURN") && self.is_favoured(p) {
                        met.add("record by a return");
                    }
                    self.given(p, met);
                }
                "ADMIT" => drop(self.admitted.insert(p)),
                _ => {
                    assert_eq!(word, "FAVOUR");
                    self.favours(p, lines[0].0 == "HELD", met);
                }
            }
        }
    }

    fn is_favoured(&self, p: usize) -> bool {
        matches!(&self.favoured, Some(favoured) if favoured.program == p)
    }

    fn favours(&mut self, program: usize, by_enter: bool, met: &mut Counters) {
        assert!(self.favoured.is_none(), "two favoured programs");
        let (number, leaves) = (self.admitted.len(), 0);
        if by_enter {
            met.add("favoured by an enter");
        }
        self.favoured = Some(Favoured {
            program,
            number,
            leaves,
            by_enter,
        });
    }

    fn left(&mut self, p: usize, met: &mut Counters) {
        self.admitted.remove(&p);
        if let Some(favoured) = &mut self.favoured {
            favoured.leaves += 1;
            met.add("leave while favoured");
        }
    }

    fn cancelled(&mut self, p: usize, met: &mut Counters) {
        let admitted = self.admitted.remove(&p);
        assert_eq!(
            admitted,
            self.waiting.remove(&p),
            "a cancel of one that runs"
        );
        match &mut self.favoured {
            Some(favoured) if favoured.program == p => {
                self.favoured = None;
                met.add("own cancel");
            }
            Some(favoured) if admitted => {
                favoured.leaves += 1;
                met.add("cancel of another waiter");
            }
            Some(_) => met.add("cancel of a held one"),
            None => met.add("cancel, nobody favoured"),
        }
    }

    fn given(&mut self, p: usize, met: &mut Counters) {
        assert!(self.waiting.remove(&p), "{p} does not wait");
        if let Some(favoured) = self.favoured.take_if(|favoured| favoured.program == p) {
            met.add(
                match (favoured.leaves + 1 == favoured.number, favoured.by_enter) {
                    (true, true) => "file at the latest, favoured by an enter",
                    (true, false) => "file at the latest",
                    (false, _) => "file before",
                },
            );
        }
    }

    /// The promise, after a call.
    fn check(&self) {
        let Some(favoured) = &self.favoured else {
            return;
        };
        let Favoured {
            program,
            number,
            leaves,
            ..
        } = *favoured;
        assert!(self.waiting.contains(&program), "{program} waits");
        assert_eq!(leaves + self.admitted.len(), number, "the sum");
        assert!(
            leaves + 1 < number,
            "{program} waits beyond {leaves} leaves"
        );
    }
}

/// Makes the calls of a list, and holds each journal to the promise.
fn keep_promise(list: &List, met: &mut Counters) {
    let mut told = Told::default();
    list.each(|request, lines, outcome| {
        told.take(request, lines, met);
        told.check();
        let order = &outcome.order[0];
        let named = &order.buffer[..order.answer as usize];
        let named: BTreeSet<usize> = named.iter().map(|&p| p.into()).collect();
        assert_eq!(named, told.admitted, "the programs of the order");
    });
    met.calls += list.len();
}

#[test]
fn favoured_programs_wait_no_longer_than_promised() {
    let mut random = Random::new(seed() ^ 0x1234);
    let mut met = Counters::default();
    lists(calls() / 2, &mut random, |list| {
        keep_promise(&list, &mut met)
    });
    met.print("favoured programs");
    met.assert_met(&[
        "favoured by an enter",
        "leave while favoured",
        "cancel of another waiter",
        "cancel of a held one",
        "cancel, nobody favoured",
        "own cancel",
        "file before",
        "file at the latest",
        "file at the latest, favoured by an enter",
        "record by a return",
    ]);
}
