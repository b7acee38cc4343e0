//! What document 02 promises every waiter, for a file or for a record, in lists with
//! cancels, fetches and returns among them: read from the list and the journal alone,
//! of the library and of the model.
//!
//! "After every list of calls, no waiter has been passed by more than 8
//! admissions. Others' leaves and the cancels of other admitted programs during
//! one wait number at most 8 more than the other admitted programs at its start."
//! The counts in the image are those admissions, "0 for all others".

use super::lists::{lists, List};
use super::{calls, seed};
use crate::compare::counters::Counters;
use crate::generate::random::Random;
use crate::model::board::{MOST_PASSES, PROGRAMS};
use crate::model::image::COUNTS;
use std::collections::{BTreeMap, BTreeSet};

/// One wait, from the call that began it on.
struct Wait {
    /// The other admitted programs at its start.
    others: usize,
    /// ADMIT answers and lines since.
    passed: usize,
    /// Leaves of others, and cancels of other admitted programs, since.
    gone: usize,
}

impl Wait {
    /// The promises, while it lasts and with the call that ends it.
    fn check(&self, met: &mut Counters) {
        assert!(self.passed <= MOST_PASSES, "passed by {}", self.passed);
        assert!(
            self.gone <= self.others + MOST_PASSES,
            "{} have gone of {}",
            self.gone,
            self.others
        );
        for (met_here, name) in [
            (self.passed == MOST_PASSES, "passed by 8"),
            (self.gone == self.others + MOST_PASSES, "8 more have gone"),
        ] {
            if met_here {
                met.add(name);
            }
        }
    }
}

/// What the list and the journal tell up to a call.
#[derive(Default)]
struct Told {
    admitted: BTreeSet<usize>,
    waits: BTreeMap<usize, Wait>,
}

impl Told {
    /// One more call, of which these journal lines were written.
    fn take(&mut self, request: &[u8], lines: &[(&str, usize)], met: &mut Counters) {
        let goes = request.starts_with(b"LEAVE") || request.starts_with(b"CANCEL");
        for &(word, p) in lines {
            match word {
                "ADMIT" => self.admits(p),
                "WAIT" | "UNSAFE" => {
                    if request.starts_with(b"FETCH") {
                        met.add("wait for a record");
                    }
                    self.begins(p);
                }
                "GIVEN" => self.ends(p, "wait ended by GIVEN", met),
                "DONE" if goes => self.goes(p, met),
                _ => {}
            }
        }
        self.waits.values().for_each(|wait| wait.check(met));
    }

    fn admits(&mut self, p: usize) {
        self.admitted.insert(p);
        self.waits.values_mut().for_each(|wait| wait.passed += 1);
    }

    fn begins(&mut self, p: usize) {
        let wait = Wait {
            others: self.admitted.len() - 1,
            passed: 0,
            gone: 0,
        };
        assert!(self.waits.insert(p, wait).is_none(), "{p} waits twice");
    }

    /// The end of a wait; an open that is given its file has none.
    fn ends(&mut self, p: usize, name: &str, met: &mut Counters) {
        if let Some(wait) = self.waits.remove(&p) {
            wait.check(met);
            met.add(name);
        }
    }

    /// A leave, or a cancel; that of a held one counts nowhere.
    fn goes(&mut self, p: usize, met: &mut Counters) {
        if self.admitted.remove(&p) {
            self.ends(p, "wait ended by its own cancel", met);
            self.waits.values_mut().for_each(|wait| wait.gone += 1);
        }
    }

    /// The counts as an image has them.
    fn counts(&self) -> Vec<u8> {
        let count = |p| self.waits.get(&p).map_or(0, |wait| wait.passed as u8);
        (1..=PROGRAMS).map(count).collect()
    }
}

/// Makes the calls of a list, and holds each journal and image to the promises.
fn keep_promise(list: &List, met: &mut Counters) {
    let mut told = Told::default();
    list.each(|request, lines, outcome| {
        told.take(request, lines, met);
        let counts = &outcome.image[COUNTS..COUNTS + PROGRAMS];
        assert_eq!(counts, told.counts(), "the counts");
    });
    met.calls += list.len();
}

#[test]
fn waiters_are_passed_no_more_than_promised() {
    let mut random = Random::new(seed() ^ 0xBBBB);
    let mut met = Counters::default();
    lists(calls() / 2, &mut random, |list| {
        keep_promise(&list, &mut met)
    });
    met.print("passed waiters");
    met.assert_met(&[
        "passed by 8",
        "8 more have gone",
        "wait ended by GIVEN",
        "wait ended by its own cancel",
        "wait for a record",
    ]);
}
