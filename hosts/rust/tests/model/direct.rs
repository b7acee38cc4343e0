//! The direct calls: any numbers, on any board; and the line call with its
//! reply. A board is handed over and given back as its image, so that one that
//! is not sound has a form too.

use super::board::{Board, FILES, PROGRAMS, RECORDS};
use super::events::{self, Request};
use super::image::{self, layout, read, write, REFUSED_1, REFUSED_2};
use super::journal::{Entry, Word};
use super::sound::Fault;
use super::{line, order};

/// "A direct call has the same answer, with its lines as values and no
/// journal; refused, it has no lines."
#[derive(Clone, PartialEq, Debug)]
pub struct Reply {
    pub word: Word,
    pub refusal: usize,
    pub lines: Vec<Entry>,
    pub order: Vec<usize>,
    pub image: Vec<u8>,
    /// "An UNSAFE answer now carries a loop": the board before the call "with the
    /// file given", on which it is one. None for other answers.
    pub given: Option<Box<Board>>,
}

/// "Every answer carries the order of the board after the call; a refusal that
/// of the unchanged board, refusal 1 an empty one."
pub fn call(image: &[u8], request: &Request) -> Reply {
    let Ok(board) = read(image) else {
        return refused(1, Vec::new(), image);
    };
    let accepted = match out_of_range(request) {
        Some(number) => Err(number),
        None => events::call(&board, request),
    };
    let (after, lines) = match accepted {
        Ok(result) => result,
        Err(number) => return refused(number, carried(&board), image),
    };
    let given = (lines[0].word == Word::Unsafe).then(|| {
        let (p, f) = request.numbers();
        Box::new(board.with_given(p, f))
    });
    Reply {
        word: lines[0].word,
        refusal: 0,
        order: carried(&after),
        image: write(&after),
        lines,
        given,
    }
}

/// The line call with the reply that a Rattle host gets, and the new place:
/// it does "what the direct call with its line's numbers does", or is refused.
pub fn line_call(image: &[u8], text: &[u8], journal: &mut [u8], place: u64) -> (Reply, u64) {
    let answer = image::line_call(&mut image.to_vec(), text, journal, place);
    let unchanged = |number| match read(image) {
        Ok(board) => refused(number, carried(&board), image),
        Err(_) => refused(1, Vec::new(), image),
    };
    match (answer, line::read(text)) {
        (REFUSED_1, _) => (unchanged(1), place),
        (REFUSED_2, _) => (unchanged(2), place),
        (place, Err(number)) => (unchanged(number), place),
        (place, Ok(request)) => (call(image, &request), place),
    }
}

/// "The board stays equal to the one handed in."
fn refused(refusal: usize, order: Vec<usize>, image: &[u8]) -> Reply {
    Reply {
        word: Word::Refuse,
        refusal,
        lines: Vec::new(),
        order,
        image: image.to_vec(),
        given: None,
    }
}

fn carried(board: &Board) -> Vec<usize> {
    order::carried(board).expect("a sound board has an order")
}

/// 8, "program or file out of range"; and "a record number out of range with 19
/// (after 8)".
pub fn out_of_range(request: &Request) -> Option<usize> {
    let (p, f) = request.numbers();
    if !(1..=PROGRAMS).contains(&p) || request.has_file() && !(1..=FILES).contains(&f) {
        return Some(8);
    }
    match *request {
        Request::Fetch { n, .. } if !(1..=RECORDS).contains(&n) => Some(19),
        _ => None,
    }
}

/// The board of an image of the layout, sound or not; else the empty board.
/// The layout is in the length, the standings and who has which record: a byte that
/// should name a program or a file stands in a board whatever it is, and makes it
/// unsound.
pub fn load(image: &[u8]) -> Result<Vec<u8>, Vec<u8>> {
    let of_layout = |fault: &Fault| {
        matches!(
            fault,
            Fault::Length
                | Fault::StandingByte
                | Fault::AwaitedNotZero
                | Fault::UserWithoutFile
                | Fault::UserNotRunning
                | Fault::AwaitedRecordOfNoWaiter
        )
    };
    match layout(image) {
        Err(faults) if faults.iter().any(of_layout) => Err(write(&Board::EMPTY)),
        _ => Ok(image.to_vec()),
    }
}
