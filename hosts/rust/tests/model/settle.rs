//! "Settle": the waiting line gone through once, then favouring or the entry
//! of the held programs; document 02's admitting, of which enter makes use too,
//! and its handing on of a record.

use super::board::{Board, Record, Standing, MOST_PASSES};
use super::journal::{Entry, Word};
use super::order;

/// Whether an open of f by p would give it.
pub fn would_give(board: &Board, p: usize, f: usize) -> bool {
    !board.conflicting_use(p, f) && order::carried(&board.with_given(p, f)).is_some()
}

/// The file that a waiting program waits for, or that of its record.
pub fn awaited(board: &Board, p: usize) -> usize {
    match board.get(p).standing {
        Standing::Waiting(f) => f,
        _ => unreachable!("only waiting programs stand in the waiting line"),
    }
}

pub fn settle(board: &mut Board) -> Vec<Entry> {
    let mut lines = give_waiters(board);
    if board.favoured == 0 {
        lines.extend(favour_or_admit(board));
    }
    lines
}

/// "The oldest waiter for the record gets it (GIVEN)", if there is one.
pub fn hand_on(board: &mut Board, record: Record) -> Option<Entry> {
    let awaits = |p: &usize| board.get(*p).awaits() == Some(record);
    let p = board.waiting.iter().copied().find(awaits)?;
    board.serve(p);
    Some(Entry::of_record(Word::Given, p, record))
}

/// Those who wait for a file, the oldest first.
fn file_waiters(board: &Board) -> Vec<usize> {
    let mut waiters = board.waiting.clone();
    waiters.retain(|&p| board.get(p).awaits().is_none());
    waiters
}

/// Once through the waiting line from the oldest. "Settling's pass skips those who
/// wait for a record."
fn give_waiters(board: &mut Board) -> Vec<Entry> {
    let mut lines = Vec::new();
    for p in file_waiters(board) {
        let f = awaited(board, p);
        if would_give(board, p, f) {
            board.serve(p);
            lines.push(Entry::new(Word::Given, p, f));
        }
    }
    lines
}

/// With nobody favoured: the oldest waiter whose file is in no conflicting use
/// becomes favoured; if there is none, the held programs run, in line order.
/// "Admitting goes one program at a time." "Waits for a record .. are never favoured
/// for want of an order."
fn favour_or_admit(board: &mut Board) -> Vec<Entry> {
    let free = |p: &usize| !board.conflicting_use(*p, awaited(board, *p));
    if let Some(p) = file_waiters(board).into_iter().find(free) {
        return vec![favour(board, p)];
    }
    let mut lines = Vec::new();
    while let Some(&p) = board.entry.first() {
        if let Some(favoured) = favour_passed(board) {
            lines.push(favoured);
            break;
        }
        board.entry.remove(0);
        lines.push(admit(board, p));
    }
    lines
}

/// Favoured "with the admitted number taken after this call and a leave count
/// of 0".
fn favour(board: &mut Board, p: usize) -> Entry {
    (board.favoured, board.number, board.leaves) = (p, board.admitted().len(), 0);
    match board.get(p).awaits() {
        Some(record) => Entry::of_record(Word::Favour, p, record),
        None => Entry::new(Word::Favour, p, awaited(board, p)),
    }
}

/// "Before each, if nobody is favoured and some waiter's count is 8, nobody is
/// admitted: the oldest such waiter is favoured .. and the rest stay held." "Waits
/// for a record count".
pub fn favour_passed(board: &mut Board) -> Option<Entry> {
    if board.favoured != 0 {
        return None;
    }
    let passed = |p: &usize| board.count(*p) == MOST_PASSES;
    let p = board.waiting.iter().copied().find(passed)?;
    Some(favour(board, p))
}

/// A program runs, and each waiter has been passed by one more.
pub fn admit(board: &mut Board, p: usize) -> Entry {
    board.get_mut(p).standing = Standing::Running;
    for waiter in board.waiting.clone() {
        *board.count_mut(waiter) += 1;
    }
    Entry::new(Word::Admit, p, 0)
}
