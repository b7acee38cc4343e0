//! --show and --dot of the C host, and the views of the Rust wrapper, on boards
//! of the vectors and of the examples: all of the text is compared.

use super::chosen;
use crate::expected::phrases::users;
use crate::expected::show::{dot, edges, given_edges, record_waits, show, Loops};
use crate::model::board::{only, Board, Files, Program, Record, Standing};
use crate::model::board::{FILES, MOST_PASSES, PROGRAMS, RECORDS};
use crate::model::image;
use crate::model::settle::awaited;
use crate::running::whole::{file, run};
use crate::running::{built, HOSTS};
use lock_board::Standing as ViewedStanding;
use std::collections::BTreeMap;
use std::ffi::OsStr;
use std::path::Path;

/// The text that the C host writes of a board with this argument.
pub fn shown(file: &Path, argument: &str, board: &Board) -> String {
    let image = image::write(board);
    std::fs::write(file, &image).expect("the image is written");
    let arguments = [
        OsStr::new("--image"),
        file.as_os_str(),
        OsStr::new(argument),
    ];
    let output = run(&built(HOSTS[0]), &arguments, b"");
    let errors = String::from_utf8_lossy(&output.stderr);
    assert!(
        output.status.success() && errors.is_empty(),
        "{argument}: {errors}"
    );
    assert_eq!(
        std::fs::read(file).unwrap(),
        image,
        "{argument} changed the image"
    );
    String::from_utf8(output.stdout).expect("plain text")
}

/// The loops that the text of --show names, by waiter: `program 2 waits for ..; with file 4 given:
/// 2 holds back 1 over file 4, 1 holds back 2 over file 3; ..`
fn loops_in(text: &str) -> Loops {
    let unbroken = text.replace("\n      ", " ");
    let waiter = |line: &str| {
        let p = line.strip_prefix("  program ")?.split(' ').next()?;
        let (_, given) = line.split_once("; with file ")?;
        let (_, steps) = given.split(';').next()?.split_once(" given: ")?;
        let first = |step: &str| step.split(' ').next().and_then(|i| i.parse().ok());
        let list: Option<Vec<usize>> = steps.split(", ").map(first).collect();
        Some((p.parse().ok()?, list?))
    };
    unbroken.lines().filter_map(waiter).collect()
}

/// Boards of all the examples, of short vectors, and some of each long one.
fn chosen_boards() -> Vec<Board> {
    let mut chosen = longest_texts();
    chosen.extend(chosen::some(40));
    chosen
}

fn admitted(standing: Standing, v: Files, q: Files, w: Files, r: Files) -> Program {
    Program {
        standing,
        v,
        q,
        w,
        r,
        ..Program::ABSENT
    }
}

/// The boards with the longest texts: one with 32 readers of all files, one where 31
/// readers of 63 files hold back a program that waits for the last, the longest loop, and
/// the longest wait for a record.
fn longest_texts() -> Vec<Board> {
    let last = only(FILES);
    let mut all_read = Board::EMPTY;
    let mut one_waits = Board::EMPTY;
    for p in 1..=PROGRAMS {
        *all_read.get_mut(p) = admitted(Standing::Running, 0, !0, 0, !0);
        *one_waits.get_mut(p) = admitted(Standing::Running, 0, !0, 0, !last);
    }
    *one_waits.get_mut(PROGRAMS) = admitted(Standing::Waiting(FILES), !0, 0, 0, 0);
    one_waits.waiting.push(PROGRAMS);
    let longest = vec![all_read, one_waits, longest_loop(), longest_record_wait()];
    for board in &longest {
        assert!(image::read(&image::write(board)).is_ok(), "a sound board");
    }
    longest
}

/// Each program but the last writes the file of its number and only reads that of the one before,
/// the first that of the last; this one waits for its own.
fn longest_loop() -> Board {
    let mut board = Board::EMPTY;
    let file = |p: usize| FILES - PROGRAMS + p;
    for p in 1..=PROGRAMS {
        let before = if p == 1 { PROGRAMS } else { p - 1 };
        let (own, read) = (only(file(p)), only(file(before)));
        *board.get_mut(p) = admitted(Standing::Running, own, read, own, 0);
    }
    let last = board.get_mut(PROGRAMS);
    (last.standing, last.w) = (Standing::Waiting(FILES), 0);
    board.waiting.push(PROGRAMS);
    board
}

/// All inquire into all files; the first has the last record of the last, and all others wait for it,
/// one of them favoured.
fn longest_record_wait() -> Board {
    let mut board = Board::EMPTY;
    let last = Record {
        file: FILES,
        number: RECORDS,
    };
    for p in 1..=PROGRAMS {
        *board.get_mut(p) = Program {
            standing: Standing::Waiting(FILES),
            j: !0,
            i: !0,
            awaited_record: RECORDS,
            ..Program::ABSENT
        };
    }
    *board.get_mut(1) = Program {
        standing: Standing::Running,
        in_use: Some(last),
        awaited_record: 0,
        ..*board.get(1)
    };
    board.waiting.extend(2..=PROGRAMS);
    (board.favoured, board.number) = (2, PROGRAMS);
    board
}

/// What a board has of inquiry that the text must tell.
fn met_of_inquiry(board: &Board) -> Vec<&'static str> {
    let mut met = Vec::new();
    for p in board.admitted() {
        let program = board.get(p);
        let sets = [program.w, program.r, program.i];
        met.push(match sets.iter().filter(|&&set| set != 0).count() {
            3 => "three ways of use",
            2 => "two ways of use",
            _ => "one way of use or none",
        });
        if program.in_use.is_some() {
            met.push("a record in use");
        }
        if program.awaits().is_some() && board.favoured == p {
            met.push("a favoured one waits for a record");
        }
    }
    let users: Vec<usize> = record_waits(board).iter().map(|wait| wait.0).collect();
    met.push(match users.as_slice() {
        [] => "no record is awaited",
        [_] => "one waits for a record",
        [one, others @ ..] if others.contains(one) => "several wait for a record",
        _ => "different records are awaited",
    });
    met
}

/// What a board has that the text must tell.
fn met(board: &Board, loops: &Loops) -> Vec<&'static str> {
    let mut met = met_of_inquiry(board);
    for list in loops.values() {
        met.push(match list.len() {
            2 => "a loop of two",
            PROGRAMS => "a loop of all",
            _ => "a longer loop",
        });
    }
    if loops.len() > 1 {
        met.push("several loops");
    }
    for &p in &board.waiting {
        let (file, users) = (only(awaited(board, p)), users(board, p));
        let inquires = |user: usize| board.get(user).i & file != 0;
        met.push(match users.as_slice() {
            _ if board.get(p).awaits().is_some() => "another has the record",
            [] => "no order would be left",
            [user] if board.get(*user).w & file != 0 => "a writer has the file",
            [user] if inquires(*user) => "one inquires into the file",
            [_] => "a reader has the file",
            [user, ..] if inquires(*user) => "several inquire into the file",
            _ => "several readers have the file",
        });
        met.push(match board.count(p) {
            0 => "passed by nobody",
            1 => "passed by one",
            MOST_PASSES => "passed by as many as may",
            _ => "passed by several",
        });
    }
    if board.waiting.len() > 1 && !board.waiting.is_sorted() {
        met.push("a waiting line out of number");
    }
    if board.entry.len() > 1 && !board.entry.is_sorted() {
        met.push("an entry line out of number");
    }
    if board.favoured != 0 {
        met.push(if board.leaves > 0 {
            "leaves counted"
        } else {
            "nobody left yet"
        });
        met.push(match board.number - 1 - board.leaves {
            1 => "one leave to come",
            _ => "several leaves to come",
        });
    }
    if board.admitted().is_empty() {
        met.push("nobody admitted");
    }
    met
}

const TO_MEET: [&str; 29] = [
    "three ways of use",
    "two ways of use",
    "a record in use",
    "one waits for a record",
    "several wait for a record",
    "different records are awaited",
    "a favoured one waits for a record",
    "another has the record",
    "one inquires into the file",
    "several inquire into the file",
    "a loop of two",
    "a longer loop",
    "a loop of all",
    "several loops",
    "no order would be left",
    "a writer has the file",
    "a reader has the file",
    "several readers have the file",
    "passed by nobody",
    "passed by one",
    "passed by several",
    "passed by as many as may",
    "a waiting line out of number",
    "an entry line out of number",
    "leaves counted",
    "nobody left yet",
    "one leave to come",
    "several leaves to come",
    "nobody admitted",
];

#[test]
#[ignore = "runs the hosts: hosts/test show"]
fn show_agrees() {
    let file = file("show.image");
    let mut all_met = Vec::new();
    let chosen = chosen_boards();
    for board in &chosen {
        let text = shown(&file, "--show", board);
        let loops = loops_in(&text);
        assert_eq!(text, show(board, &loops));
        assert!(text.lines().all(|line| line.len() <= 80), "{text}");
        all_met.extend(met(board, &loops));
    }
    for what in TO_MEET {
        assert!(all_met.contains(&what), "no board: {what}");
    }
    println!("shown: {} boards", chosen.len());
}

#[test]
#[ignore = "runs the hosts: hosts/test show"]
fn dot_agrees() {
    let file = file("dot.image");
    let (mut found, mut red, mut records) = (0, 0, 0);
    for board in &chosen_boards() {
        let loops = loops_in(&shown(&file, "--show", board));
        let text = shown(&file, "--dot", board);
        assert_eq!(text, dot(board, &loops));
        let graph = graph(&text).unwrap_or_else(|| panic!("no graph:\n{text}"));
        assert_eq!(graph.nodes, board.admitted());
        assert_eq!(graph.solid, edges(board));
        let given: Vec<_> = given_edges(board, &loops).into_keys().collect();
        assert_eq!(graph.dashed, given);
        let waits = record_waits(board).into_iter();
        let waits: Vec<_> = waits.map(|(user, p, _)| (user, p)).collect();
        assert_eq!(graph.dotted, waits);
        found += graph.solid.len();
        red += graph.dashed.len();
        records += graph.dotted.len();
    }
    assert!(found > 0 && red > 0 && records > 0);
}

/// A word, a sign or a quoted text of Graphviz's language, and what comes after it.
fn token(text: &str) -> Option<(&str, &str)> {
    let text = text.trim_start();
    let end = match text.chars().next()? {
        '"' => 2 + text[1..].find('"')?,
        '-' if text.starts_with("->") => 2,
        '{' | '}' | '[' | ']' | '=' | ';' | ',' => 1,
        first if first.is_alphanumeric() || first == '_' => text
            .find(|c: char| !c.is_alphanumeric() && c != '_')
            .unwrap_or(text.len()),
        _ => return None,
    };
    Some(text.split_at(end))
}

/// A digraph in Graphviz's language.
#[derive(Default)]
struct Graph {
    nodes: Vec<usize>,
    solid: Vec<(usize, usize)>,
    dashed: Vec<(usize, usize)>,
    dotted: Vec<(usize, usize)>,
}

/// The words of `name=value, ..`, by name.
fn attributes<'a>(tokens: &[&'a str]) -> Option<BTreeMap<&'a str, &'a str>> {
    let attribute = |tokens: &[&'a str]| match tokens {
        [name, "=", value] => Some((*name, *value)),
        _ => None,
    };
    tokens.split(|&token| token == ",").map(attribute).collect()
}

/// The nodes and the edges of a digraph in Graphviz's language, each with a label.
fn graph(text: &str) -> Option<Graph> {
    let (mut tokens, mut rest) = (Vec::new(), text);
    while !rest.trim().is_empty() {
        let (token, after) = token(rest)?;
        tokens.push(token);
        rest = after;
    }
    let statements = match tokens.as_slice() {
        ["digraph", _, "{", statements @ .., "}"] => statements,
        _ => return None,
    };
    let mut graph = Graph::default();
    for statement in statements.split_inclusive(|&token| token == ";") {
        let open = statement.iter().position(|&token| token == "[")?;
        let (what, words) = (&statement[..open], statement[open..].strip_prefix(&["["])?);
        let attributes = attributes(words.strip_suffix(&["]", ";"])?)?;
        attributes.get("label")?.strip_prefix('"')?;
        let edges = match (what, attributes.get("style").copied()) {
            ([node], None) => {
                graph.nodes.push(node.parse().ok()?);
                continue;
            }
            (_, None) => &mut graph.solid,
            (_, Some("dashed")) => &mut graph.dashed,
            (_, Some("dotted")) => &mut graph.dotted,
            _ => return None,
        };
        let [i, "->", j] = what else { return None };
        edges.push((i.parse().ok()?, j.parse().ok()?));
    }
    Some(graph)
}

/// A program as the wrapper views it.
fn same_program(viewed: &lock_board::Program, program: &Program) -> bool {
    let standing = match viewed.standing {
        ViewedStanding::Absent => Standing::Absent,
        ViewedStanding::Running => Standing::Running,
        ViewedStanding::Waiting(f) => Standing::Waiting(f.into()),
        ViewedStanding::Held => Standing::Held,
    };
    let record = |record: lock_board::Record| Record {
        file: record.file.into(),
        number: record.number.into(),
    };
    let awaits = viewed.awaited_record.map(record);
    let found = Program {
        standing,
        v: viewed.write_claim.bits(),
        q: viewed.read_claim.bits(),
        j: viewed.inquiry_claim.bits(),
        w: viewed.write_open.bits(),
        r: viewed.read_open.bits(),
        i: viewed.inquiry_open.bits(),
        in_use: viewed.record_in_use.map(record),
        awaited_record: awaits.map_or(0, |record| record.number),
    };
    found == *program && awaits == program.awaits()
}

fn numbers(line: &[u8]) -> Vec<usize> {
    line.iter().map(|&p| p.into()).collect()
}

#[test]
fn views_agree() {
    let mut compared = 0;
    for board in chosen::all().flatten() {
        let viewed = lock_board::Board::from_image(&image::write(&board)).unwrap();
        same_views(&viewed, &board);
        compared += 1;
    }
    assert!(compared > 1000);
}

fn same_views(viewed: &lock_board::Board, board: &Board) {
    for p in 1..=32 {
        let program = viewed.program(p).expect("a program's number");
        assert_eq!(program.number, p);
        assert!(same_program(&program, board.get(p.into())));
        assert_eq!(program.is_admitted(), board.get(p.into()).admitted());
        assert_eq!(
            viewed.passed(p).map(usize::from),
            Some(board.count(p.into()))
        );
    }
    assert_eq!((viewed.program(0), viewed.program(33)), (None, None));
    let entered = board.which(|program| program.standing != Standing::Absent);
    let programs: Vec<_> = viewed.programs().collect();
    assert_eq!(
        programs
            .iter()
            .map(|p| p.number.into())
            .collect::<Vec<usize>>(),
        entered
    );
    for i in &programs {
        for j in programs.iter().filter(|j| j.number != i.number) {
            let held = crate::expected::show::held_in(board, i.number.into(), j.number.into());
            assert_eq!(i.holds_back(j).bits(), held);
        }
    }
    assert_eq!(numbers(viewed.waiting_line()), board.waiting);
    assert_eq!(numbers(viewed.entry_line()), board.entry);
    let favoured = viewed
        .favoured()
        .map_or((0, 0, 0), |f| (f.program, f.at_favouring, f.leaves));
    let bytes = |(p, number, leaves): (u8, u8, u8)| (p.into(), number.into(), leaves.into());
    assert_eq!(
        bytes(favoured),
        (board.favoured, board.number, board.leaves)
    );
    if let Some(favoured) = viewed.favoured() {
        let left = board.number - 1 - board.leaves;
        assert_eq!(usize::from(favoured.leaves_to_come()), left);
    }
}
