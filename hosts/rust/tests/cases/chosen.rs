//! Boards that the vectors' and the examples' requests lead to, for tests of what
//! hosts write of a board.

use super::vectors;
use crate::model::board::Board;
use crate::model::{image, program};
use std::path::{Path, PathBuf};

/// The examples' requests.
pub fn examples() -> Vec<PathBuf> {
    let folder = Path::new(env!("CARGO_MANIFEST_DIR")).join("../../examples");
    let files = std::fs::read_dir(folder).expect("the examples");
    let mut paths: Vec<PathBuf> = files.map(|file| file.unwrap().path()).collect();
    paths.retain(|path| path.extension().is_none());
    paths.sort();
    assert!(!paths.is_empty());
    paths
}

/// The boards after each request of an input that was not refused, the empty one first.
fn boards(input: &[u8]) -> Vec<Board> {
    let mut boards = vec![Board::EMPTY];
    for line in program::requests(input) {
        let board = image::step(boards.last().unwrap(), line).0;
        if board != *boards.last().unwrap() {
            boards.push(board);
        }
    }
    boards
}

/// The boards of each example and vector.
pub fn all() -> impl Iterator<Item = Vec<Board>> {
    let inputs = examples().into_iter().chain(vectors::names());
    inputs.map(|path| boards(&std::fs::read(path).unwrap()))
}

/// About so many boards of each, the last among them.
pub fn some(of_each: usize) -> Vec<Board> {
    let chosen = all().flat_map(|boards| {
        let step = 1 + boards.len() / of_each;
        boards.into_iter().rev().step_by(step)
    });
    chosen.collect()
}
