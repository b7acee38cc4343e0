//! A session: an image and the calls made on it, each handed the image that
//! the one before it left.

use super::call::{library, model, Call, Outcome};
use super::{report, shrink};
use crate::model::board::Board;
use crate::model::image;

#[derive(Clone)]
pub struct Session {
    pub start: Vec<u8>,
    pub calls: Vec<Call>,
}

pub struct Difference {
    /// The call that differs, counted from 0.
    pub at: usize,
    /// The image handed to it.
    pub before: Vec<u8>,
    pub expected: Outcome,
    pub found: Outcome,
}

impl Session {
    pub fn empty() -> Session {
        Session::from(image::write(&Board::EMPTY))
    }

    pub fn from(start: Vec<u8>) -> Session {
        Session {
            start,
            calls: Vec::new(),
        }
    }

    /// All calls from the start, up to the first that differs.
    pub fn difference(&self) -> Option<Difference> {
        let mut before = self.start.clone();
        for (at, call) in self.calls.iter().enumerate() {
            let (expected, found) = (model(&before, call), library(&before, call));
            if expected != found {
                return Some(Difference {
                    at,
                    before,
                    expected,
                    found,
                });
            }
            before = expected.image;
        }
        None
    }

    /// Makes one more call on an image that the calls before it left, and gives
    /// what both sides agree on. A difference ends the test.
    pub fn add(&mut self, before: &[u8], call: Call) -> Outcome {
        let (expected, found) = (model(before, &call), library(before, &call));
        self.calls.push(call);
        if expected != found {
            let calls = self.calls.len();
            let smallest = shrink::shrink(self.clone());
            panic!("{}", report::text(&smallest, calls));
        }
        expected
    }
}

/// A session of one call.
pub fn one(start: &[u8], call: Call) -> Outcome {
    Session::from(start.to_vec()).add(start, call)
}
