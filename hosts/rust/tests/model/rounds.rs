//! Document 02's fourth request: the carried order run through. It "begins with no
//! record in use", so those in use are returned before it.

use super::board::{members, Board};
use super::events::{self, Request};
use super::journal::Entry;
use super::order;

/// A request with its lines.
pub type Served = (Request, Vec<Entry>);

/// "In a round the order's first program opens each claimed file that it hasn't
/// open, rising, then leaves."
fn round(board: &Board) -> Vec<Request> {
    let order = order::carried(board).expect("a sound board has an order");
    let p = *order.first().expect("a program that can finish");
    let to_open = board.get(p).claim() & !board.get(p).open();
    let opens = members(to_open).into_iter().map(|f| Request::Open { p, f });
    opens.chain([Request::Leave { p }]).collect()
}

/// Serves one more request.
fn serve(board: &mut Board, request: Request, served: &mut Vec<Served>) {
    let (after, lines) = events::call(board, &request).expect("no refusal on the way");
    served.push((request, lines));
    *board = after;
}

/// The RETURNs that leave no record in use: of the lowest-numbered program that has
/// one, then of the one that it is handed on to, and so on; then of the next
/// lowest-numbered one.
pub fn returns(board: &Board) -> (Vec<Served>, Board) {
    let (mut board, mut served) = (board.clone(), Vec::new());
    while let Some(p) = board.which(|program| program.in_use.is_some()).first() {
        let record = board.get(*p).in_use.expect("a record in use");
        while let Some(p) = board.user(record) {
            serve(&mut board, Request::Return { p }, &mut served);
        }
    }
    (served, board)
}

/// "Letting the carried order's first program finish, then the new one's, and so
/// on": "n rounds for n programs, held ones included". What is served, and the
/// board after it; the RETURNs that it needs come first.
pub fn run_through(board: &Board) -> (Vec<Served>, Board) {
    let (mut served, mut board) = returns(board);
    for _ in 0..board.admitted().len() + board.entry.len() {
        for request in round(&board) {
            serve(&mut board, request, &mut served);
        }
    }
    (served, board)
}
