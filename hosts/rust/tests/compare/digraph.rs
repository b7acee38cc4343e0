//! The matrix, the loops and the checker: asked of the library, and judged by
//! the model on the same image.

use super::guard::{spilt, Guarded};
use super::orders::Asked;
use crate::model::board::Board;
use crate::model::digraph::{self, Looped, REACH};
use crate::model::settle::awaited;

extern "C" {
    fn lock_board_reach(image: *const u8, image_len: usize, rows: *mut u8, rows_len: usize) -> u64;
    fn lock_board_loop(
        image: *const u8,
        image_len: usize,
        program: u64,
        list: *mut u8,
        list_len: usize,
    ) -> u64;
    fn lock_board_is_loop(
        image: *const u8,
        image_len: usize,
        program: u64,
        file: u64,
        list: *const u8,
        list_len: usize,
    ) -> u64;
}

const FILL: u8 = 0x5A;
/// Longer than a matrix and than any loop.
const LONG: usize = REACH + 8;

/// A call that is lent an image and a buffer.
fn lent(image: &[u8], len: usize, call: impl FnOnce(*const u8, *mut u8) -> u64) -> Asked {
    let (mut lent, mut buffer) = (Guarded::new(image), Guarded::new(&vec![FILL; len]));
    let answer = call(lent.start(), buffer.start());
    let spilt = spilt([
        (lent.intact(), "guard bytes of the image"),
        (buffer.intact(), "guard bytes of the buffer"),
        (lent.contents() == image, "bytes of the image"),
    ]);
    Asked {
        answer,
        buffer: buffer.contents().to_vec(),
        spilt,
    }
}

pub fn library_reach(image: &[u8], len: usize) -> Asked {
    // SAFETY: two buffers of these lengths, apart from each other, none null.
    lent(image, len, |start, rows| unsafe {
        lock_board_reach(start, image.len(), rows, len)
    })
}

pub fn model_reach(board: Option<&Board>, len: usize) -> Asked {
    let mut buffer = vec![FILL; len];
    Asked {
        answer: digraph::reach_call(board, &mut buffer),
        buffer,
        spilt: None,
    }
}

pub fn library_loop(image: &[u8], p: u64, len: usize) -> Asked {
    // SAFETY: two buffers of these lengths, apart from each other, none null.
    lent(image, len, |start, list| unsafe {
        lock_board_loop(start, image.len(), p, list, len)
    })
}

/// The checker's answer. A list that it changes ends the test.
pub fn library_check(image: &[u8], p: u64, f: u64, list: &[u8]) -> u64 {
    let (mut lent, mut given) = (Guarded::new(image), Guarded::new(list));
    let (image_len, list_len) = (image.len(), list.len());
    // SAFETY: two buffers of these lengths, apart from each other, none null.
    let answer =
        unsafe { lock_board_is_loop(lent.start(), image_len, p, f, given.start(), list_len) };
    assert!(lent.intact() && given.intact(), "guard bytes");
    assert!(lent.contents() == image, "bytes of the image");
    assert!(given.contents() == list, "bytes of the list");
    answer
}

/// What is wrong with an answer to the loop call, if anything.
pub fn fault(asked: &Asked, expected: &Looped) -> Option<String> {
    let programs = match expected {
        Looped::Refused(answer) if asked.answer != *answer => None,
        Looped::None if asked.answer != 0 => None,
        Looped::Refused(_) | Looped::None => Some(0),
        Looped::Any(given) => usize::try_from(asked.answer)
            .ok()
            .filter(|&n| n <= asked.buffer.len() && digraph::is_loop(given, &asked.buffer[..n])),
    };
    let kept = |n: usize| asked.buffer[n..].iter().all(|&byte| byte == FILL);
    let right = programs.is_some_and(kept) && asked.spilt.is_none();
    (!right).then(|| format!("{asked:?}"))
}

/// What is seen of an image's digraph.
#[derive(Clone, PartialEq, Debug)]
pub struct Seen {
    pub matrix: Asked,
    /// What is wrong with the loops of its waiters.
    pub loops: Vec<String>,
}

pub fn model(board: Option<&Board>) -> Seen {
    Seen {
        matrix: model_reach(board, LONG),
        loops: Vec::new(),
    }
}

/// The board, none if it is not sound, is the model's.
pub fn library(image: &[u8], board: Option<&Board>) -> Seen {
    let waiters = board.map_or(&[][..], |board| &board.waiting);
    Seen {
        matrix: library_reach(image, LONG),
        loops: (waiters.iter())
            .filter_map(|&p| fault_of_loop(image, board, p as u64))
            .collect(),
    }
}

/// What is wrong with the loop of one program: it is judged by the model's
/// checker, and then by the library's.
pub fn fault_of_loop(image: &[u8], board: Option<&Board>, p: u64) -> Option<String> {
    let asked = library_loop(image, p, LONG);
    let expected = digraph::loop_call(board, p, LONG);
    if let Some(fault) = fault(&asked, &expected) {
        return Some(format!("loop of program {p}: {fault}"));
    }
    let (Looped::Any(_), Some(board)) = (expected, board) else {
        return None;
    };
    let list = &asked.buffer[..asked.answer as usize];
    let f = awaited(board, p as usize) as u64;
    let taken = library_check(image, p, f, list);
    (taken != 1).then(|| format!("loop {list:?} of program {p}: the checker answers {taken}"))
}
