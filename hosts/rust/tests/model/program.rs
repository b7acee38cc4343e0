//! The program `board`: all of its output for an input.

use super::board::Board;
use super::image::step;
use super::journal::{program_columns, Entry};
use super::line::{CUT, LONGEST};
use super::order;

/// The request lines of an input, a long one cut.
pub fn requests(input: &[u8]) -> Vec<&[u8]> {
    let mut lines: Vec<&[u8]> = input.split(|&byte| byte == 10).collect();
    if lines.last().is_some_and(|last| last.is_empty()) {
        lines.pop();
    }
    lines
        .into_iter()
        .map(|line| match line.len() > LONGEST {
            true => &line[..CUT],
            false => line,
        })
        .collect()
}

pub fn output(input: &[u8]) -> Vec<u8> {
    let (mut board, mut out) = (Board::EMPTY, Vec::new());
    for request in requests(input) {
        let (after, lines) = step(&board, request);
        out.extend(lines.iter().flat_map(Entry::bytes));
        board = after;
    }
    let order = order::carried(&board).expect("a board after calls has an order");
    out.extend(b"ORDER ");
    out.extend(order.into_iter().flat_map(program_columns));
    out.push(10);
    out
}
