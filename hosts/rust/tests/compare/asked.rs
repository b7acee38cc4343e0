//! The program `asked`, which makes direct calls, asks for labels, matrices and
//! loops and lends its board to line calls: a list of such questions, and the
//! model's answers compared with the program's. The form of both is told in
//! crates/asked/src/main.rt.

use super::call::Call;
use super::programs;
use crate::model::board::{Board, PROGRAMS};
use crate::model::direct::{self, Reply};
use crate::model::events::Request;
use crate::model::journal::{Entry, Word};
use crate::model::{digraph, image, line};
use std::fmt;
use std::ops::Range;
use std::path::Path;

#[derive(Clone)]
pub enum Question {
    Call(Request),
    Image(Vec<u8>),
    Label(Vec<u8>),
    /// The line call on a lent board; the journal's bytes are the program's.
    Line(Call),
    /// The matrix of the program's board, sound or not.
    Matrix,
    /// Whether a list is a loop with a file given to a program.
    Check {
        p: u64,
        f: u64,
        list: Vec<u8>,
    },
}

/// What the program is to answer.
struct Answer {
    /// All bytes; if it carries a loop, with one of those that it may carry.
    bytes: Vec<u8>,
    /// The board on which the carried one is a loop.
    given: Option<Box<Board>>,
}

/// The bytes of a line in the answer to a call.
const LINE: usize = 7;

/// Where the loop stands in the answer to a call, after four numbers, the lines and
/// the order: its count, then its places.
const CARRIED: Range<usize> = 4 + LINE * PROGRAMS + PROGRAMS..5 + LINE * PROGRAMS + 2 * PROGRAMS;

impl Answer {
    fn plain(bytes: Vec<u8>) -> Answer {
        Answer { bytes, given: None }
    }

    /// Whether an answer is this one. "Which loop is free": it may have any.
    fn is(&self, found: &[u8]) -> bool {
        let mut expected = self.bytes.clone();
        if let (Some(given), Some(carried)) = (&self.given, found.get(CARRIED)) {
            let (count, places) = (usize::from(carried[0]), &carried[1..]);
            let (list, rest) = places.split_at(count.min(places.len()));
            if digraph::is_loop(given, list) && rest.iter().all(|&byte| byte == 0) {
                expected[CARRIED].copy_from_slice(carried);
            }
        }
        found == expected
    }
}

impl Question {
    pub fn bytes(&self) -> Vec<u8> {
        let (kind, numbers, text): (_, _, &[u8]) = match self {
            Question::Call(request) => (kind(request), numbers(request), &[]),
            Question::Image(text) => (b'i', six([text.len() as u64]), text),
            Question::Label(text) => (b'l', six([text.len() as u64]), text),
            Question::Line(call) => {
                let text = &call.line;
                let numbers = [text.len() as u64, call.journal as u64, call.place];
                (b'p', six(numbers), text)
            }
            Question::Matrix => (b'm', six([]), &[]),
            Question::Check { p, f, list } => (b'k', six([*p, *f, list.len() as u64]), list),
        };
        let mut bytes = vec![kind];
        bytes.extend(numbers.iter().flat_map(|number| number.to_le_bytes()));
        bytes.extend(text);
        bytes
    }

    /// The model's answer, and the board after it.
    fn answer(&self, board: &mut Vec<u8>) -> Answer {
        match self {
            Question::Call(request) => {
                let reply = direct::call(board, request);
                board.clone_from(&reply.image);
                Answer {
                    bytes: reply_bytes(&reply),
                    given: reply.given,
                }
            }
            Question::Image(text) => {
                let loaded = direct::load(text);
                let ok = u8::from(loaded.is_ok());
                *board = loaded.unwrap_or_else(|empty| empty);
                Answer::plain([&[ok], board.as_slice()].concat())
            }
            Question::Label(text) => {
                let label = line::label(text);
                Answer::plain([&[label.len() as u8], label].concat())
            }
            Question::Line(call) => posted(board, call),
            Question::Matrix => Answer::plain(digraph::rows(&image::parts(board).0)),
            Question::Check { p, f, list } => {
                let board = image::parts(board).0;
                Answer::plain(vec![digraph::is_loop_with(&board, *p, *f, list).into()])
            }
        }
    }
}

impl fmt::Display for Question {
    fn fmt(&self, to: &mut fmt::Formatter) -> fmt::Result {
        match self {
            Question::Call(request) => write!(to, "{request:?}"),
            Question::Image(text) => write!(to, "Image {}", text.escape_ascii()),
            Question::Label(text) => write!(to, "Label {}", text.escape_ascii()),
            Question::Line(call) => {
                let line = call.line.escape_ascii();
                write!(
                    to,
                    "Line {line} (journal {}, place {})",
                    call.journal, call.place
                )
            }
            Question::Matrix => write!(to, "Matrix"),
            Question::Check { p, f, list } => write!(to, "Check {p} {f} {list:?}"),
        }
    }
}

/// The model's line call with the journal that the program has: 1,024 bytes of
/// 170, of which so many are handed over as the call says.
fn lent_line(board: &[u8], call: &Call) -> (Reply, u64, Vec<u8>) {
    let mut journal = vec![170; 1024];
    let room = call.journal.min(journal.len());
    let (reply, place) = direct::line_call(board, &call.line, &mut journal[..room], call.place);
    (reply, place, journal)
}

/// The model's answer to a line call, and the board after it.
fn posted(board: &mut Vec<u8>, call: &Call) -> Answer {
    let (reply, place, journal) = lent_line(board, call);
    board.clone_from(&reply.image);
    let place = format!("{place}\n");
    Answer {
        bytes: [&reply_bytes(&reply), place.as_bytes(), &journal, board].concat(),
        given: reply.given,
    }
}

fn kind(request: &Request) -> u8 {
    match request {
        Request::Enter { .. } => b'E',
        Request::Open { .. } => b'O',
        Request::Close { .. } => b'C',
        Request::Drop { .. } => b'D',
        Request::Leave { .. } => b'L',
        Request::Cancel { .. } => b'X',
        Request::Fetch { .. } => b'F',
        Request::Return { .. } => b'R',
    }
}

/// The six numbers of a question that has fewer.
fn six<const N: usize>(some: [u64; N]) -> [u64; 6] {
    let mut numbers = [0; 6];
    numbers[..N].copy_from_slice(&some);
    numbers
}

/// Program, file, record, V, Q and J.
fn numbers(request: &Request) -> [u64; 6] {
    let (v, q, j) = match *request {
        Request::Enter { v, q, j, .. } => (v, q, j),
        _ => (0, 0, 0),
    };
    let (p, f) = request.numbers();
    [p as u64, f as u64, request.record() as u64, v, q, j]
}

fn letter(word: Word) -> u8 {
    word.text()[0]
}

/// A reply as the program writes it; after the last line stand lines of ADMIT
/// and zeros, after the order's last program and the loop's last zeros.
fn reply_bytes(reply: &Reply) -> Vec<u8> {
    let [refusal, count, placed] = [reply.refusal, reply.lines.len(), reply.order.len()];
    let mut bytes = vec![refusal as u8, letter(reply.word), count as u8, placed as u8];
    let mut lines = reply.lines.clone();
    lines.resize(PROGRAMS, Entry::new(Word::Admit, 0, 0));
    for line in lines {
        let [file, record] = [line.file, line.record].map(|number| number as u16);
        bytes.extend([letter(line.word), line.program as u8]);
        bytes.extend(file.to_le_bytes());
        bytes.push(line.refusal as u8);
        bytes.extend(record.to_le_bytes());
    }
    let order: Vec<u8> = reply.order.iter().map(|&p| p as u8).collect();
    bytes.extend(places(order));
    let carried = reply.given.as_deref().and_then(digraph::some_loop);
    let carried = carried.unwrap_or_default();
    bytes.push(carried.len() as u8);
    bytes.extend(places(carried));
    bytes.extend(&reply.image);
    bytes
}

/// A list of programs in its 32 places.
fn places(mut list: Vec<u8>) -> Vec<u8> {
    list.resize(PROGRAMS, 0);
    list
}

/// Records from the empty board on, and the model's board after them.
pub struct Asking {
    pub questions: Vec<Question>,
    pub board: Vec<u8>,
}

impl Asking {
    pub fn new() -> Asking {
        Asking {
            questions: Vec::new(),
            board: image::write(&Board::EMPTY),
        }
    }

    /// One more question.
    pub fn add(&mut self, question: Question) {
        question.answer(&mut self.board);
        self.questions.push(question);
    }

    /// One more call; gives the model's reply.
    pub fn call(&mut self, request: Request) -> Reply {
        let reply = direct::call(&self.board, &request);
        self.board.clone_from(&reply.image);
        self.questions.push(Question::Call(request));
        reply
    }

    /// One more line call; gives the model's reply.
    pub fn line(&mut self, call: Call) -> Reply {
        let reply = lent_line(&self.board, &call).0;
        self.board.clone_from(&reply.image);
        self.questions.push(Question::Line(call));
        reply
    }

    /// All the bytes that the program is to read.
    pub fn input(&self) -> Vec<u8> {
        input(&self.questions)
    }

    /// All that the program is to write, if its answers carry these loops. A list
    /// that is no loop ends the test.
    pub fn output(&self, loops: &[&[u8]]) -> Vec<u8> {
        let (mut output, mut loops) = (Vec::new(), loops.iter());
        for mut answer in answers(&self.questions) {
            if let Some(given) = &answer.given {
                let list = loops.next().expect("a loop for each answer with one");
                assert!(digraph::is_loop(given, list), "{list:?}");
                let carried = [&[list.len() as u8], places(list.to_vec()).as_slice()].concat();
                answer.bytes[CARRIED].copy_from_slice(&carried);
            }
            output.extend(answer.bytes);
        }
        assert_eq!(loops.next(), None, "a loop that no answer carries");
        output
    }

    /// Runs the program. A difference ends the test, with few questions that
    /// show it.
    pub fn check(&self, path: &Path) {
        if run_differs(path, &self.questions).is_some() {
            let questions = smallest(path, self.questions.clone());
            let text = run_differs(path, &questions).expect("the difference stays");
            let questions: Vec<String> = questions.iter().map(Question::to_string).collect();
            panic!("{text}\nrecords:\n{}", questions.join("\n"));
        }
    }
}

fn input(questions: &[Question]) -> Vec<u8> {
    questions.iter().flat_map(Question::bytes).collect()
}

fn answers(questions: &[Question]) -> Vec<Answer> {
    let mut board = Asking::new().board;
    questions
        .iter()
        .map(|question| question.answer(&mut board))
        .collect()
}

/// What the program answers otherwise than the model, if anything.
fn run_differs(path: &Path, questions: &[Question]) -> Option<String> {
    difference(questions, &programs::run(path, &input(questions)))
}

/// What in these answers is otherwise than the model's, if anything.
fn difference(questions: &[Question], mut found: &[u8]) -> Option<String> {
    for (question, expected) in questions.iter().zip(answers(questions)) {
        let (answer, rest) = found.split_at(expected.bytes.len().min(found.len()));
        if !expected.is(answer) {
            let expected = expected.bytes;
            let at = answer.iter().zip(&expected).position(|(a, b)| a != b);
            let (answer, expected) = (answer.escape_ascii(), expected.escape_ascii());
            return Some(format!(
                "{question}\nanswers differ at byte {at:?}\nexpected: {expected}\nfound: {answer}"
            ));
        }
        found = rest;
    }
    (!found.is_empty()).then(|| format!("{} bytes too many", found.len()))
}

/// The questions without the parts that the difference does not need: halves
/// first, then ever smaller ones.
fn smallest(path: &Path, mut questions: Vec<Question>) -> Vec<Question> {
    let mut part = questions.len().div_ceil(2);
    loop {
        let mut at = 0;
        while at < questions.len() {
            let mut fewer = questions.clone();
            fewer.drain(at..questions.len().min(at + part));
            match run_differs(path, &fewer) {
                Some(_) => questions = fewer,
                None => at += part,
            }
        }
        if part <= 1 {
            return questions;
        }
        part = part.div_ceil(2);
    }
}
