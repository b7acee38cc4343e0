//! One line call, made of the library and of the model on the same bytes.

use super::digraph::{self, Seen};
use super::guard::{spilt, Guarded};
use super::orders::{self, Asked};
use crate::generate::random::Random;
use crate::model::image::{self, ROOM};

extern "C" {
    fn lock_board_empty(image: *mut u8, image_len: usize) -> u64;
    fn lock_board_line(
        image: *mut u8,
        image_len: usize,
        line: *const u8,
        line_len: usize,
        journal: *mut u8,
        journal_len: usize,
        place: u64,
    ) -> u64;
}

/// What a call is handed besides the image. The journal's bytes before the
/// call follow from `fill`.
#[derive(Clone, PartialEq, Debug)]
pub struct Call {
    pub line: Vec<u8>,
    pub journal: usize,
    pub place: u64,
    pub fill: u64,
}

impl Call {
    /// The fill of a journal whose bytes all hold 170.
    pub const ALL_170: u64 = 0;

    /// A call with just the room that it needs, from place 0 on.
    pub fn plain(line: &[u8]) -> Call {
        Call {
            line: line.to_vec(),
            journal: ROOM,
            place: 0,
            fill: 1,
        }
    }

    pub fn journal_before(&self) -> Vec<u8> {
        if self.fill == Call::ALL_170 {
            return vec![170; self.journal];
        }
        Random::new(self.fill).bytes(self.journal)
    }
}

/// What is seen after a call.
#[derive(Clone, PartialEq, Debug)]
pub struct Outcome {
    pub answer: u64,
    pub image: Vec<u8>,
    pub journal: Vec<u8>,
    /// The order of the image after the call.
    pub order: Vec<Asked>,
    /// Its matrix, and the loops of those that wait.
    pub digraph: Seen,
    /// Bytes changed that no call may change.
    pub spilt: Option<&'static str>,
}

pub fn model(image: &[u8], call: &Call) -> Outcome {
    let (mut image, mut journal) = (image.to_vec(), call.journal_before());
    let answer = image::line_call(&mut image, &call.line, &mut journal, call.place);
    let board = image::read(&image).ok();
    Outcome {
        answer,
        order: orders::model(board.as_ref()),
        digraph: digraph::model(board.as_ref()),
        image,
        journal,
        spilt: None,
    }
}

pub fn library(image: &[u8], call: &Call) -> Outcome {
    let mut image = Guarded::new(image);
    let mut line = Guarded::new(&call.line);
    let mut journal = Guarded::new(&call.journal_before());
    let answer = library_line(&mut image, &mut line, &mut journal, call.place);
    let spilt = spilt([
        (image.intact(), "guard bytes of the image"),
        (line.intact(), "guard bytes of the line"),
        (journal.intact(), "guard bytes of the journal"),
        (line.contents() == call.line, "bytes of the line"),
    ]);
    let (image, journal) = (image.contents().to_vec(), journal.contents().to_vec());
    Outcome {
        answer,
        order: orders::library(&image),
        digraph: digraph::library(&image, image::read(&image).ok().as_ref()),
        image,
        journal,
        spilt,
    }
}

pub fn library_line(
    image: &mut Guarded,
    line: &mut Guarded,
    journal: &mut Guarded,
    place: u64,
) -> u64 {
    let (image_len, line_len, journal_len) = (image.len(), line.len(), journal.len());
    // SAFETY: three buffers of these lengths, apart from each other, none null.
    unsafe {
        lock_board_line(
            image.start(),
            image_len,
            line.start(),
            line_len,
            journal.start(),
            journal_len,
            place,
        )
    }
}

pub fn library_empty(image: &mut Guarded) -> u64 {
    let len = image.len();
    // SAFETY: a buffer of this length, not null.
    unsafe { lock_board_empty(image.start(), len) }
}
