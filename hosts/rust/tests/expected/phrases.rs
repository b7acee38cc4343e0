//! Phrases about a board that several texts have.

use crate::model::board::{members, only, Board, Files, Program, Record, PROGRAMS};
use crate::model::settle::awaited;
use std::collections::BTreeMap;

/// The labels of the programs whose ENTER was served in the session.
pub type Labels = BTreeMap<usize, String>;

fn list(name: &str, items: &[String]) -> String {
    let plural = if items.len() == 1 { "" } else { "s" };
    format!("{name}{plural} {}", items.join(", "))
}

pub fn files(set: Files) -> String {
    let numbers: Vec<String> = members(set).iter().map(usize::to_string).collect();
    list("file", &numbers)
}

pub fn programs(programs: &[usize], labels: &Labels) -> String {
    let name = |p: &usize| match labels.get(p) {
        Some(label) => format!("{p} ({label})"),
        None => p.to_string(),
    };
    let names: Vec<String> = programs.iter().map(name).collect();
    list("program", &names)
}

/// The verbs of writing, reading and inquiry: what one program does, what several do or one may do.
const OF_ONE: [&str; 3] = ["writes", "reads", "inquires into"];
const PLAIN: [&str; 3] = ["write", "read", "inquire into"];

/// Files written, read and inquired into, each with its verb; nothing if there are none.
fn uses(verbs: [&str; 3], sets: [Files; 3]) -> String {
    let used = verbs.into_iter().zip(sets).filter(|&(_, set)| set != 0);
    let mut parts: Vec<String> = used
        .map(|(verb, set)| format!("{verb} {}", files(set)))
        .collect();
    match (parts.pop(), parts.join(", ")) {
        (None, _) => String::new(),
        (Some(only), before) if before.is_empty() => only,
        (Some(last), before) => format!("{before} and {last}"),
    }
}

/// What a program may do with files of V, Q and J.
pub fn may(sets: [Files; 3]) -> String {
    uses(PLAIN, sets)
}

pub fn open(program: &Program) -> String {
    if program.open() == 0 {
        return "has nothing open".to_string();
    }
    uses(OF_ONE, [program.w, program.r, program.i])
}

pub fn record(record: Record) -> String {
    format!("record {} of file {}", record.number, record.file)
}

/// The record in use, with what comes before it; nothing if there is none.
pub fn in_use(before: &str, program: &Program) -> String {
    let has = |used| format!("{before}has {}", record(used));
    program.in_use.map_or(String::new(), has)
}

/// What a waiting program waits for.
pub fn awaited_thing(board: &Board, p: usize) -> String {
    match board.get(p).awaits() {
        Some(awaited) => record(awaited),
        None => format!("file {}", awaited(board, p)),
    }
}

/// Those who have the file in conflicting use: with it given, they and p would conflict.
pub fn users(board: &Board, p: usize) -> Vec<usize> {
    let given = board.get(p).given(awaited(board, p));
    (1..=PROGRAMS)
        .filter(|&other| other != p && board.get(other).conflicts(&given))
        .collect()
}

/// Whether a waiter waits for a file that nobody has in conflicting use.
pub fn wants_order(board: &Board, p: usize) -> bool {
    board.get(p).awaits().is_none() && users(board, p).is_empty()
}

/// Why a waiting program waits.
pub fn wait(board: &Board, p: usize, labels: &Labels) -> String {
    let why = match board.get(p).awaits() {
        _ if wants_order(board, p) => {
            "nobody has in conflicting use, but with it given no completion order would be left"
                .to_string()
        }
        Some(record) => {
            let user = board.user(record).expect("an awaited record is in use");
            format!("{} has in use", programs(&[user], labels))
        }
        None => {
            let (users, file) = (users(board, p), only(awaited(board, p)));
            let verbs = if users.len() == 1 { OF_ONE } else { PLAIN };
            let sets = |user: &usize| {
                let user = board.get(*user);
                [user.w, user.r, user.i].map(|set| set & file != 0)
            };
            let ways: Vec<[bool; 3]> = users.iter().map(sets).collect();
            assert!(ways.iter().all(|way| *way == ways[0]), "one way of use");
            let way = ways[0].iter().position(|&used| used).expect("a use");
            format!("{} {}", programs(&users, labels), verbs[way])
        }
    };
    format!("waits for {}, which {why}", awaited_thing(board, p))
}
