//! The text of --show and of --dot. Which loop they name is free, so each is handed the
//! loops, and what is no loop fails here.

use super::phrases::{awaited_thing, files, in_use, may, open, programs};
use super::phrases::{record, wait, wants_order, Labels};
use crate::model::board::{members, only, Board, Files, Record, Standing};
use crate::model::board::{MOST_PASSES, PROGRAMS};
use crate::model::digraph::is_loop;
use crate::model::order;
use crate::model::settle::awaited;
use std::collections::{BTreeMap, BTreeSet};

/// A loop for each program that waits for want of an order, the program first.
pub type Loops = BTreeMap<usize, Vec<usize>>;

/// The columns of a line, and the blanks before all but the first of a paragraph.
const WIDTH: usize = 80;
const HANG: &str = "      ";

/// The files in which i holds back j: "W of i meets V or Q of j, or R of i meets V of j", "also if
/// I of i meets V or Q of j, or W or R of i meets J of j".
pub fn held_in(board: &Board, i: usize, j: usize) -> Files {
    let (i, j) = (board.get(i), board.get(j));
    i.w & (j.v | j.q) | i.r & j.v | i.i & (j.v | j.q) | (i.w | i.r) & j.j
}

/// A paragraph of any length in lines.
fn broken(paragraph: &str) -> String {
    let mut lines = vec![String::new()];
    for (at, word) in paragraph.trim_start().split(' ').enumerate() {
        let last = lines.last_mut().expect("the first line is there");
        if at == 0 {
            *last = paragraph[..paragraph.len() - paragraph.trim_start().len()].to_string() + word;
        } else if last.len() + 1 + word.len() <= WIDTH {
            *last += &format!(" {word}");
        } else {
            lines.push(format!("{HANG}{word}"));
        }
    }
    lines.join("\n") + "\n"
}

fn admitted(board: &Board, p: usize) -> String {
    let program = board.get(p);
    let standing = match program.standing {
        Standing::Running => "runs",
        _ => "waits",
    };
    let left = [
        program.v & !program.w,
        program.q & !program.r,
        program.j & !program.i,
    ];
    let more = match may(left).as_str() {
        "" => "may open nothing more".to_string(),
        left => format!("may still {left}"),
    };
    let (open, in_use) = (open(program), in_use("; ", program));
    format!("  program {p} {standing}: {open}{in_use}; {more}")
}

/// The steps of a loop, by the model's checker, each with the lowest file over which the first
/// holds back the second.
fn steps(board: &Board, p: usize, list: &[usize]) -> Vec<(usize, usize, usize)> {
    let given = board.with_given(p, awaited(board, p));
    let bytes: Vec<u8> = list.iter().map(|&i| i as u8).collect();
    assert!(is_loop(&given, &bytes), "no loop: {list:?}");
    assert_eq!(list[0], p, "{list:?}");
    let next = list.iter().cycle().skip(1);
    let step = |(&i, &j): (&usize, &usize)| (i, j, members(held_in(&given, i, j))[0]);
    list.iter().zip(next).map(step).collect()
}

fn waiter(board: &Board, p: usize, loops: &Loops) -> String {
    let mut text = format!("  program {p} {}", wait(board, p, &Labels::new()));
    if wants_order(board, p) {
        let steps: Vec<String> = steps(board, p, &loops[&p])
            .iter()
            .map(|(i, j, file)| format!("{i} holds back {j} over file {file}"))
            .collect();
        let file = awaited(board, p);
        text += &format!("; with file {file} given: {}", steps.join(", "));
        let holders: Vec<String> = (1..=PROGRAMS)
            .filter(|&i| i != p && held_in(board, i, p) != 0)
            .map(|i| format!("program {i} ({})", files(held_in(board, i, p))))
            .collect();
        assert!(!holders.is_empty(), "nobody holds back program {p}");
        text += &format!("; held back by {}", holders.join(", "));
    }
    let count = board.count(p);
    text + &format!("; passed by {count} of at most {MOST_PASSES} programs")
}

/// "A favoured program that gets its record, within the same bound, is favoured no longer." That is:
/// "It gets its file at the latest with the leave that brings those leaves to that number less one";
/// "a cancel of an admitted program counts as a leave, also in the bound for favoured programs".
fn favoured(board: &Board) -> String {
    if board.favoured == 0 {
        return "nobody".to_string();
    }
    let left = (board.number - 1) - board.leaves;
    let thing = awaited_thing(board, board.favoured);
    let leaves = match left {
        1 => "1 leave or waiter's cancel".to_string(),
        _ => format!("{left} leaves or waiters' cancels"),
    };
    format!(
        "program {} (gets {thing} after at most {leaves})",
        board.favoured
    )
}

fn named(list: &[usize]) -> String {
    match list {
        [] => "nobody".to_string(),
        list => programs(list, &Labels::new()),
    }
}

pub fn show(board: &Board, loops: &Loops) -> String {
    let mut paragraphs = Vec::new();
    match board.admitted() {
        none if none.is_empty() => paragraphs.push("Admitted: nobody".to_string()),
        some => {
            paragraphs.push("Admitted:".to_string());
            paragraphs.extend(some.iter().map(|&p| admitted(board, p)));
        }
    }
    if board.waiting.is_empty() {
        paragraphs.push("Waiting: nobody".to_string());
    } else {
        paragraphs.push("Waiting, oldest first:".to_string());
        paragraphs.extend(board.waiting.iter().map(|&p| waiter(board, p, loops)));
    }
    let order = order::carried(board).expect("a sound board has an order");
    paragraphs.push(format!("Favoured: {}", favoured(board)));
    paragraphs.push(format!(
        "Held at entry, oldest first: {}",
        named(&board.entry)
    ));
    paragraphs.push(format!("Completion order: {}", named(&order)));
    paragraphs
        .iter()
        .map(|paragraph| broken(paragraph))
        .collect()
}

/// The pairs of admitted programs of which the first holds back the second.
pub fn edges(board: &Board) -> Vec<(usize, usize)> {
    let admitted = board.admitted();
    let all = admitted
        .iter()
        .flat_map(|&i| admitted.iter().map(move |&j| (i, j)));
    all.filter(|&(i, j)| i != j && board.get(i).holds_back(board.get(j)))
        .collect()
}

/// The edges that are there only with an awaited file given, with the file.
pub fn given_edges(board: &Board, loops: &Loops) -> BTreeMap<(usize, usize), usize> {
    let first = |(&p, list): (&usize, &Vec<usize>)| {
        let (i, j, file) = steps(board, p, list)[0];
        assert_eq!(held_in(board, i, j), 0, "{i} holds back {j} as it is");
        assert_eq!(file, awaited(board, p));
        ((i, j), file)
    };
    loops.iter().map(first).collect()
}

/// The edges among the admitted programs, in the sequence of their numbers; red are the loops,
/// dashed what only a file given makes.
fn edge_lines(board: &Board, loops: &Loops) -> BTreeMap<(usize, usize), String> {
    let red: BTreeSet<_> = loops
        .iter()
        .flat_map(|(&p, list)| steps(board, p, list))
        .map(|(i, j, _)| (i, j))
        .collect();
    let colour = |i, j| match red.contains(&(i, j)) {
        true => ", color=red",
        false => "",
    };
    let solid = edges(board).into_iter().map(|(i, j)| {
        let label = files(held_in(board, i, j));
        let line = format!("{i} -> {j} [label=\"{label}\"{}]", colour(i, j));
        ((i, j), line)
    });
    let dashed = given_edges(board, loops).into_iter().map(|((i, j), file)| {
        let label = files(only(file)) + " if given";
        let line = format!("{i} -> {j} [label=\"{label}\", color=red, style=dashed]");
        ((i, j), line)
    });
    solid.chain(dashed).collect()
}

/// Who waits for whose record: the record's user, the waiter and the record, by the waiter.
pub fn record_waits(board: &Board) -> Vec<(usize, usize, Record)> {
    let wait = |p| {
        let awaited = board.get(p).awaits()?;
        let user = board.user(awaited).expect("an awaited record is in use");
        Some((user, p, awaited))
    };
    (1..=PROGRAMS).filter_map(wait).collect()
}

pub fn dot(board: &Board, loops: &Loops) -> String {
    let mut text = "digraph lock_board {\n".to_string();
    for p in board.admitted() {
        let standing = match board.get(p).standing {
            Standing::Waiting(_) => format!("waits for {}", awaited_thing(board, p)),
            _ => format!("runs{}", in_use(", ", board.get(p))),
        };
        text += &format!("    {p} [label=\"program {p}\\n{standing}\"];\n");
    }
    for line in edge_lines(board, loops).values() {
        text += &format!("    {line};\n");
    }
    for (user, p, awaited) in record_waits(board) {
        let label = record(awaited);
        text += &format!("    {user} -> {p} [label=\"{label}\", style=dotted];\n");
    }
    text + "}\n"
}
