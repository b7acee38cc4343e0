//! Document 02's sixth request: the matrix of who holds back whom, closed over
//! paths, on any arrangement of claims and open files; loops, and the checker.

use super::board::{only, Board, Standing, FILES, PROGRAMS};
use super::image::{REFUSED_1, REFUSED_17, REFUSED_8};

/// The matrix as bytes: for each program a number with a bit for each.
pub const REACH: usize = PROGRAMS * PROGRAMS / 8;
/// The room for any loop.
pub const LOOP: usize = PROGRAMS;

/// "Which admitted program holds back which", "for different programs i and j".
pub fn holds_back(board: &Board, i: usize, j: usize) -> bool {
    let (one, other) = (board.get(i), board.get(j));
    i != j && one.admitted() && other.admitted() && one.holds_back(other)
}

/// Those that a program holds back, rising.
pub fn held_back(board: &Board, i: usize) -> Vec<usize> {
    let mut all = board.admitted();
    all.retain(|&j| holds_back(board, i, j));
    all
}

/// "Closed over paths": those at the end of a path of one or more steps, rising.
pub fn reached(board: &Board, from: usize) -> Vec<usize> {
    let (mut found, mut ahead) = ([false; PROGRAMS + 1], vec![from]);
    while let Some(at) = ahead.pop() {
        for next in held_back(board, at) {
            if !found[next] {
                found[next] = true;
                ahead.push(next);
            }
        }
    }
    (1..=PROGRAMS).filter(|&p| found[p]).collect()
}

/// The programs that reach themselves.
pub fn selves(board: &Board) -> Vec<usize> {
    let mut all = board.admitted();
    all.retain(|&p| reached(board, p).contains(&p));
    all
}

/// "A list of two or more different programs, each holding back the next and the
/// last the first", on a board that has the file given.
pub fn is_loop(given: &Board, list: &[u8]) -> bool {
    let programs: Vec<usize> = list.iter().map(|&byte| usize::from(byte)).collect();
    let known = programs.iter().all(|p| (1..=PROGRAMS).contains(p));
    let different = |(at, p)| !programs[..at].contains(p);
    let next = programs.iter().cycle().skip(1);
    programs.len() >= 2
        && known
        && programs.iter().enumerate().all(different)
        && (programs.iter().zip(next)).all(|(&i, &j)| holds_back(given, i, j))
}

/// The board with f given to p, if that has a meaning: p is admitted, and f in a
/// claim of it.
pub fn given(board: &Board, p: u64, f: u64) -> Option<Board> {
    let (p, f) = (usize::try_from(p).ok()?, usize::try_from(f).ok()?);
    let numbers = (1..=PROGRAMS).contains(&p) && (1..=FILES).contains(&f);
    let claimed = numbers && board.get(p).claim() & only(f) != 0;
    (claimed && board.get(p).admitted()).then(|| board.with_given(p, f))
}

/// The checker: the list is a loop "with the file given".
pub fn is_loop_with(board: &Board, p: u64, f: u64, list: &[u8]) -> bool {
    given(board, p, f).is_some_and(|given| is_loop(&given, list))
}

/// One of the shortest loops: a way from a program back to itself.
pub fn some_loop(given: &Board) -> Option<Vec<u8>> {
    let ways = selves(given).into_iter().map(|p| way_back(given, p));
    ways.min_by_key(Vec::len)
}

/// A shortest way from a program that reaches itself, up to the one that holds it
/// back.
fn way_back(given: &Board, p: usize) -> Vec<u8> {
    let mut ways = vec![vec![p as u8]];
    let mut at = 0;
    while !holds_back(given, ways[at][ways[at].len() - 1].into(), p) {
        let way = ways[at].clone();
        for next in held_back(given, way[way.len() - 1].into()) {
            if !ways.iter().any(|way| way.contains(&(next as u8))) {
                ways.push([&way[..], &[next as u8]].concat());
            }
        }
        at += 1;
    }
    ways[at].clone()
}

/// The rows as bytes, of the board that an image has, sound or not: in that of p
/// bit i - 1 is set if i reaches p.
pub fn rows(board: &Board) -> Vec<u8> {
    let mut rows = [0u32; PROGRAMS];
    for i in board.admitted() {
        for p in reached(board, i) {
            rows[p - 1] |= 1 << (i - 1);
        }
    }
    rows.into_iter().flat_map(u32::to_le_bytes).collect()
}

/// The C host's matrix call, on a sound image's board.
pub fn reach_call(board: Option<&Board>, buffer: &mut [u8]) -> u64 {
    let Some(board) = board else {
        return REFUSED_1;
    };
    let Some(start) = buffer.get_mut(..REACH) else {
        return REFUSED_17;
    };
    start.copy_from_slice(&rows(board));
    REACH as u64
}

/// The C host's checker, on a sound image's board.
pub fn check_call(board: Option<&Board>, p: u64, f: u64, list: &[u8]) -> u64 {
    match board {
        None => REFUSED_1,
        Some(board) => is_loop_with(board, p, f, list).into(),
    }
}

/// What the C host's loop call answers, on a sound image's board. Which loop is
/// free.
#[derive(Clone, PartialEq, Debug)]
pub enum Looped {
    Refused(u64),
    /// The program does not wait, or waits for a record: it has its file open.
    None,
    /// Any loop on this board, on which the program has the file that it waits for.
    Any(Box<Board>),
}

pub fn loop_call(board: Option<&Board>, p: u64, room: usize) -> Looped {
    let Some(board) = board else {
        return Looped::Refused(REFUSED_1);
    };
    if !(1..=PROGRAMS as u64).contains(&p) {
        return Looped::Refused(REFUSED_8);
    }
    if room < LOOP {
        return Looped::Refused(REFUSED_17);
    }
    let program = board.get(p as usize);
    match (program.standing, program.awaits()) {
        (Standing::Waiting(f), None) => Looped::Any(Box::new(board.with_given(p as usize, f))),
        _ => Looped::None,
    }
}
