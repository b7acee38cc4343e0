//! "Events": the five calls with their refusals 9 to 16, of programs, files and
//! records in range; and document 02's: cancel with its refusal 18, fetch and
//! return with 20 and 21.

use super::board::{only, Board, Files, Program, Record, Standing};
use super::journal::{Entry, Word};
use super::settle::{admit, favour_passed, hand_on, settle, would_give};

#[derive(Clone, Copy, PartialEq, Eq, Debug)]
pub enum Request {
    Enter {
        p: usize,
        v: Files,
        q: Files,
        j: Files,
    },
    Open {
        p: usize,
        f: usize,
    },
    Close {
        p: usize,
        f: usize,
    },
    Drop {
        p: usize,
        f: usize,
    },
    Leave {
        p: usize,
    },
    Cancel {
        p: usize,
    },
    /// Record n of file f.
    Fetch {
        p: usize,
        f: usize,
        n: usize,
    },
    Return {
        p: usize,
    },
}

impl Request {
    /// The program, and the file or 0.
    pub fn numbers(&self) -> (usize, usize) {
        match *self {
            Request::Enter { p, .. } | Request::Leave { p } => (p, 0),
            Request::Cancel { p } | Request::Return { p } => (p, 0),
            Request::Open { p, f } | Request::Close { p, f } => (p, f),
            Request::Drop { p, f } | Request::Fetch { p, f, .. } => (p, f),
        }
    }

    /// Whether it has a file.
    pub fn has_file(&self) -> bool {
        !matches!(
            self,
            Request::Enter { .. }
                | Request::Leave { .. }
                | Request::Cancel { .. }
                | Request::Return { .. }
        )
    }

    /// "The record of the call", or 0.
    pub fn record(&self) -> usize {
        match *self {
            Request::Fetch { n, .. } => n,
            _ => 0,
        }
    }
}

/// The refusal of a call, if it is refused. "Any other call by a program with a
/// record in use with 21 (after 13)".
pub fn refusal(board: &Board, request: &Request) -> Option<usize> {
    let program = board.get(request.numbers().0);
    if let Request::Enter { v, q, j, .. } = *request {
        return match program.standing {
            Standing::Absent if claims_meet(v, q, j) => Some(10),
            Standing::Absent => None,
            _ => Some(9),
        };
    }
    if let Request::Cancel { .. } = request {
        return refusal_of_cancel(program.standing);
    }
    match program.standing {
        Standing::Absent => return Some(11),
        Standing::Held => return Some(12),
        Standing::Waiting(_) => return Some(13),
        Standing::Running => {}
    }
    let allowed = matches!(request, Request::Return { .. } | Request::Leave { .. });
    if program.in_use.is_some() && !allowed {
        return Some(21);
    }
    refusal_of_file(program, request)
}

/// "Refusal 10 covers any two claims that meet."
pub fn claims_meet(v: Files, q: Files, j: Files) -> bool {
    v & q != 0 || v & j != 0 || q & j != 0
}

/// 14 to 16, and 20, the last: "a FETCH from a file not open for inquiry or a RETURN
/// of nothing".
fn refusal_of_file(program: &Program, request: &Request) -> Option<usize> {
    match *request {
        Request::Open { f, .. } | Request::Drop { f, .. } => {
            if program.claim() & only(f) == 0 {
                Some(14)
            } else if program.open() & only(f) != 0 {
                Some(15)
            } else {
                None
            }
        }
        Request::Close { f, .. } if program.open() & only(f) == 0 => Some(16),
        Request::Fetch { f, .. } if program.i & only(f) == 0 => Some(20),
        Request::Return { .. } if program.in_use.is_none() => Some(20),
        _ => None,
    }
}

/// "It refuses a cancel of a running program with 18, after 11; 12 and 13 don't
/// apply to it."
fn refusal_of_cancel(standing: Standing) -> Option<usize> {
    match standing {
        Standing::Absent => Some(11),
        Standing::Running => Some(18),
        Standing::Waiting(_) | Standing::Held => None,
    }
}

/// The board after the call and its lines, or the refusal.
pub fn call(before: &Board, request: &Request) -> Result<(Board, Vec<Entry>), usize> {
    if let Some(number) = refusal(before, request) {
        return Err(number);
    }
    let mut board = before.clone();
    let lines = match *request {
        Request::Enter { p, v, q, j } => {
            let claims = Program {
                standing: Standing::Held,
                v,
                q,
                j,
                ..Program::ABSENT
            };
            enter(&mut board, p, claims)
        }
        Request::Open { p, f } => vec![open(&mut board, p, f)],
        Request::Fetch { p, f: file, n } => {
            let record = Record { file, number: n };
            vec![fetch(&mut board, p, record)]
        }
        _ => release(&mut board, request),
    };
    Ok((board, lines))
}

/// "With somebody favoured, p is held at the end of the entry line (HELD);
/// otherwise running (ADMIT)." 02 has a waiter favoured here: "FAVOUR, after
/// HELD .. This applies to enter and to settling".
fn enter(board: &mut Board, p: usize, claims: Program) -> Vec<Entry> {
    *board.get_mut(p) = claims;
    let favoured = favour_passed(board);
    if board.favoured == 0 {
        return vec![admit(board, p)];
    }
    board.entry.push(p);
    let held = Entry::new(Word::Held, p, 0);
    [held].into_iter().chain(favoured).collect()
}

fn open(board: &mut Board, p: usize, f: usize) -> Entry {
    if would_give(board, p, f) {
        *board = board.with_given(p, f);
        return Entry::new(Word::Given, p, f);
    }
    let word = if board.conflicting_use(p, f) {
        Word::Wait
    } else {
        Word::Unsafe
    };
    board.get_mut(p).standing = Standing::Waiting(f);
    board.waiting.push(p);
    Entry::new(word, p, f)
}

/// "It waits (WAIT) while another has that record, else gets it (GIVEN)."
fn fetch(board: &mut Board, p: usize, record: Record) -> Entry {
    if board.user(record).is_none() {
        board.get_mut(p).in_use = Some(record);
        return Entry::of_record(Word::Given, p, record);
    }
    board.get_mut(p).standing = Standing::Waiting(record.file);
    board.get_mut(p).awaited_record = record.number;
    board.waiting.push(p);
    Entry::of_record(Word::Wait, p, record)
}

/// Close, drop, leave, cancel and return: DONE, then settle. "On RETURN (DONE, file
/// and record 0) the oldest waiter for the record gets it (GIVEN), then the board
/// settles; a leave returns it too."
fn release(board: &mut Board, request: &Request) -> Vec<Entry> {
    let (p, f) = request.numbers();
    let program = board.get_mut(p);
    let mut returned = None;
    match request {
        Request::Close { .. } => {
            program.w &= !only(f);
            program.r &= !only(f);
            program.i &= !only(f);
        }
        Request::Drop { .. } => {
            program.v &= !only(f);
            program.q &= !only(f);
            program.j &= !only(f);
        }
        Request::Cancel { .. } => cancel(board, p),
        Request::Return { .. } => returned = program.in_use.take(),
        _ => {
            returned = program.in_use;
            *program = Program::ABSENT;
            count_leave(board);
        }
    }
    let mut lines = vec![Entry::new(Word::Done, p, f)];
    lines.extend(returned.and_then(|record| hand_on(board, record)));
    lines.extend(settle(board));
    lines
}

/// "The leave is counted if somebody was favoured before it"; 02's cancel may
/// count as one.
fn count_leave(board: &mut Board) {
    board.leaves += usize::from(board.favoured != 0);
}

/// "The program goes with its files and claims". "A cancelled favoured program
/// is favoured no longer. Otherwise a cancel of an admitted program counts as a
/// leave ..; a cancel of a held one counts nowhere."
fn cancel(board: &mut Board, p: usize) {
    let admitted = board.get(p).admitted();
    *board.get_mut(p) = Program::ABSENT;
    board.end_wait(p);
    board.entry.retain(|&other| other != p);
    if board.favoured == p {
        board.favour_nobody();
    } else if admitted {
        count_leave(board);
    }
}
