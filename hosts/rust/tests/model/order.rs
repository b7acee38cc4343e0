//! The carried order of completion, and a search through all orders beside it.

use super::board::{Board, PROGRAMS};

/// For each program, who holds it back among the admitted ones (bit p is
/// program p).
fn holders(board: &Board, admitted: &[usize]) -> [u64; PROGRAMS + 1] {
    let mut holders = [0; PROGRAMS + 1];
    for &j in admitted {
        for &i in admitted {
            if i != j && board.get(i).holds_back(board.get(j)) {
                holders[j] |= 1 << i;
            }
        }
    }
    holders
}

/// Takes the lowest-numbered one that no other remaining one holds back, then
/// does the same for the rest.
fn take(holders: &[u64; PROGRAMS + 1], left: u64, order: &mut Vec<usize>) -> bool {
    if left == 0 {
        return true;
    }
    let free = |p: &usize| left & 1 << *p != 0 && holders[*p] & left == 0;
    match (1..=PROGRAMS).find(free) {
        None => false,
        Some(p) => {
            order.push(p);
            take(holders, left & !(1 << p), order)
        }
    }
}

/// The carried order of the admitted programs, if there is one.
pub fn carried(board: &Board) -> Option<Vec<usize>> {
    let admitted = board.admitted();
    let left = admitted.iter().fold(0, |set, &p| set | 1 << p);
    let mut order = Vec::new();
    take(&holders(board, &admitted), left, &mut order).then_some(order)
}

/// Whether none in the list is held back by a later one.
pub fn completes(board: &Board, list: &[usize]) -> bool {
    list.iter().enumerate().all(|(at, &p)| {
        list[at + 1..]
            .iter()
            .all(|&later| !board.get(later).holds_back(board.get(p)))
    })
}

/// Whether some list of all the admitted programs is a completion order,
/// found by trying every list. For few programs only.
pub fn some_order(board: &Board) -> bool {
    lists(&board.admitted())
        .iter()
        .any(|list| completes(board, list))
}

/// Every list that names each of the programs once.
fn lists(programs: &[usize]) -> Vec<Vec<usize>> {
    let Some((&first, rest)) = programs.split_first() else {
        return vec![Vec::new()];
    };
    let mut all = Vec::new();
    for list in lists(rest) {
        for at in 0..=list.len() {
            let mut longer = list.clone();
            longer.insert(at, first);
            all.push(longer);
        }
    }
    all
}
