//! Records returned and the carried order run through, on boards of the vectors and of
//! the examples: the lines that --plan of the C host writes, and what each host makes of
//! them.

use super::chosen;
use super::show::shown;
use crate::model::board::{Board, Program, Standing, FILES, PROGRAMS};
use crate::model::events::Request;
use crate::model::journal::{Entry, Word};
use crate::model::rounds::{run_through, Served};
use crate::model::{image, line};
use crate::running::whole::{file, run};
use crate::running::{built, HOSTS};
use std::collections::BTreeMap;
use std::ffi::OsStr;
use std::path::Path;

/// "This empties every board reached from the empty one .. No such open waits."
/// Gives back what is served on the way.
pub fn emptied(board: &Board) -> Vec<Served> {
    let (served, after) = run_through(board);
    assert_eq!(after, Board::EMPTY);
    for (request, lines) in &served {
        let (p, f) = request.numbers();
        let answer = match request {
            Request::Open { .. } => Word::Given,
            _ => Word::Done,
        };
        assert_eq!(lines[0], Entry::new(answer, p, f));
    }
    served
}

/// The request lines, each with its byte 10.
fn plan(served: &[Served]) -> Vec<u8> {
    let lines = served.iter().map(|(request, _)| line::write(request, b""));
    lines.flat_map(|line| [line, vec![10]].concat()).collect()
}

/// All that a host writes for them.
fn journal(served: &[Served]) -> Vec<u8> {
    let lines = served.iter().flat_map(|(_, lines)| lines);
    let mut journal: Vec<u8> = lines.flat_map(Entry::bytes).collect();
    journal.extend(b"ORDER \n");
    journal
}

/// Serves a plan with a host on the image that it was made from.
fn serves(host: &str, image: &Path, served: &[Served]) {
    let arguments = [OsStr::new("--image"), image.as_os_str()];
    let output = run(&built(host), &arguments, &plan(served));
    assert!(output.status.success(), "{host}");
    assert_eq!(output.stderr, b"", "{host}: something was refused");
    assert_eq!(output.stdout, journal(served), "{host}");
    assert_eq!(
        std::fs::read(image).unwrap(),
        image::write(&Board::EMPTY),
        "{host} does not end at the empty board"
    );
}

/// The board with the longest plan: 32 programs, each with all files still to open.
fn longest_plan() -> Board {
    let mut board = Board::EMPTY;
    for p in 1..=PROGRAMS {
        *board.get_mut(p) = Program {
            standing: Standing::Running,
            q: !0,
            ..Program::ABSENT
        };
    }
    assert!(image::read(&image::write(&board)).is_ok(), "a sound board");
    board
}

/// What boards and their rounds must have, and whether these do.
fn has(board: &Board, served: &[Served]) -> [(&'static str, bool); 12] {
    let lines = served.iter().flat_map(|(_, lines)| &lines[1..]);
    let settling: Vec<Word> = lines.map(|entry| entry.word).collect();
    let returns = |(request, _): &&Served| matches!(request, Request::Return { .. });
    let returned: Vec<&Served> = served.iter().filter(returns).collect();
    let users = board.which(|program| program.in_use.is_some()).len();
    let rounds = &served[returned.len()..];
    let first = rounds.first().map(|(request, _)| request.numbers().0);
    let lowest = board.admitted().first().copied();
    let after_returns = returned.iter().flat_map(|(_, lines)| &lines[1..]);
    [
        ("a record in use", users == 1),
        ("several records in use", users > 1),
        ("a record handed on", returned.len() > users),
        (
            "a held one admitted after a return",
            after_returns.clone().any(|entry| entry.word == Word::Admit),
        ),
        ("nobody on the board", served.is_empty()),
        ("several waiters", board.waiting.len() > 1),
        ("somebody favoured", board.favoured != 0),
        ("several held", board.entry.len() > 1),
        ("a file given by settling", settling.contains(&Word::Given)),
        ("a held one admitted", settling.contains(&Word::Admit)),
        ("another one favoured", settling.contains(&Word::Favour)),
        ("a first that is not the lowest", first != lowest),
    ]
}

#[test]
#[ignore = "runs the hosts: hosts/test plan"]
fn plans_agree_and_empty_the_board() {
    let file = file("plan.image");
    let (mut met, mut requests, mut longest) = (BTreeMap::<_, u64>::new(), 0, 0);
    let mut chosen = chosen::some(8);
    chosen.push(longest_plan());
    for (at, board) in chosen.iter().enumerate() {
        let served = emptied(board);
        let text = shown(&file, "--plan", board);
        assert_eq!(text.as_bytes(), plan(&served));
        serves(HOSTS[at % HOSTS.len()], &file, &served);
        for (what, here) in has(board, &served) {
            *met.entry(what).or_default() += u64::from(here);
        }
        requests += served.len();
        longest = longest.max(served.len());
    }
    println!("{met:?}");
    assert!(met.values().all(|&boards| boards > 0));
    assert_eq!(longest, PROGRAMS * (FILES + 1));
    println!("plans: {} boards, {requests} requests", chosen.len());
}
