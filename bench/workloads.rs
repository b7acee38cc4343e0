//! Writes the seven workloads of the bench: request lines for the program
//! `board`, always the same ones. The model of the tests follows the board, so
//! that the lines keep it busy; neither the library nor the program is called.
//!
//! workloads DIRECTORY LINES: writes DIRECTORY/NAME.in for each workload, and
//! its mix to standard output.

#[allow(dead_code)]
#[path = "../hosts/rust/tests/model/mod.rs"]
mod model;
#[allow(dead_code)]
#[path = "../hosts/rust/tests/generate/random.rs"]
mod random;

use model::board::{members, only, Board, Files, Program, Standing};
use model::events::Request;
use model::journal::Word;
use model::{image, line, settle};
use random::Random;

const SEED: u64 = 197_214_701;

type Next = fn(&mut Workload) -> Vec<u8>;

const WORKLOADS: [(&str, Next); 7] = [
    ("low", low),
    ("high", high),
    ("unsafe", unsafe_opens),
    ("refusals", refusals),
    ("wide", wide),
    ("cancel", cancels),
    ("clerks", clerks),
];

fn main() {
    let arguments: Vec<String> = std::env::args().collect();
    let [_, directory, lines] = &arguments[..] else {
        eprintln!("workloads DIRECTORY LINES");
        std::process::exit(2);
    };
    let lines: usize = lines.parse().expect("a number of lines");
    for (at, (name, next)) in WORKLOADS.into_iter().enumerate() {
        let mut workload = Workload::new(SEED + at as u64);
        let mut text = Vec::new();
        for _ in 0..lines {
            let line = next(&mut workload);
            workload.step(&line);
            text.extend(line);
            text.push(10);
        }
        std::fs::write(format!("{directory}/{name}.in"), text).expect("a writable directory");
        println!("{name:<9}{}", workload.mix(lines));
    }
}

/// A workload under way: the board that its lines have led to, and its mix.
struct Workload {
    random: Random,
    board: Board,
    answers: [usize; 8],
    settled: usize,
    admitted: usize,
    waiting: usize,
}

impl Workload {
    fn new(seed: u64) -> Workload {
        Workload {
            random: Random::new(seed),
            board: Board::EMPTY,
            answers: [0; 8],
            settled: 0,
            admitted: 0,
            waiting: 0,
        }
    }

    fn step(&mut self, line: &[u8]) {
        let (board, entries) = image::step(&self.board, line);
        self.answers[entries[0].word as usize] += 1;
        self.settled += entries.len() - 1;
        self.admitted += board.admitted().len();
        self.waiting += board.waiting.len();
        self.board = board;
    }

    /// Shares of the answer words, and means for one line.
    fn mix(&self, lines: usize) -> String {
        let share = |count: usize| count as f64 / lines as f64;
        let mut text = String::new();
        for word in Word::ALL {
            let name = std::str::from_utf8(word.text()).unwrap().trim_end();
            if word != Word::Favour {
                text += &format!("{name} {:.1}% ", 100.0 * share(self.answers[word as usize]));
            }
        }
        text + &format!(
            "| settled lines {:.2}, admitted {:.1}, waiting {:.1}",
            share(self.settled),
            share(self.admitted),
            share(self.waiting)
        )
    }

    /// Some program up to `highest` of a standing.
    fn some(&mut self, highest: usize, standing: Standing) -> Option<usize> {
        let mut all = self.board.which(|program| program.standing == standing);
        all.retain(|&p| p <= highest);
        self.random.pick(&all)
    }

    /// `count` different files out of a set.
    fn files(&mut self, count: usize, from: Files) -> Files {
        let mut from = members(from);
        let mut set = 0;
        for _ in 0..count.min(from.len()) {
            set |= only(from.swap_remove(self.random.below(from.len())));
        }
        set
    }

    /// An open, close, drop or leave of a running program, in these shares of
    /// a hundred, a leave for the rest.
    fn live(&mut self, p: usize, shares: [usize; 3]) -> Request {
        let program = *self.board.get(p);
        let shut = members(program.claim() & !program.open());
        let open = members(program.open());
        let [opens, closes, drops] = shares;
        let leaves = 100 - opens - closes - drops;
        let kind = self.random.weighted(&[opens, closes, drops, leaves]);
        match (kind, self.random.pick(&shut), self.random.pick(&open)) {
            (0, Some(f), _) => Request::Open { p, f },
            (1, _, Some(f)) => Request::Close { p, f },
            (2, Some(f), _) => Request::Drop { p, f },
            _ => Request::Leave { p },
        }
    }

    /// A line of a running clerk: a return or a leave if it has a record in use,
    /// else a fetch, or an open, close or leave.
    fn look_up(&mut self, p: usize) -> Request {
        let program = *self.board.get(p);
        if program.in_use.is_some() {
            return if self.random.per_mille(950) {
                Request::Return { p }
            } else {
                Request::Leave { p }
            };
        }
        let n = self.random.within(1, 4);
        match (
            self.random.pick(&members(program.i)),
            self.random.per_mille(850),
        ) {
            (Some(f), true) => Request::Fetch { p, f, n },
            _ => self.live(p, [70, 20, 0]),
        }
    }
}

fn text(request: Request, label: &[u8; 8]) -> Vec<u8> {
    line::write(&request, label)
}

/// An enter that claims nothing for inquiry.
fn enter(p: usize, v: Files, q: Files) -> Request {
    Request::Enter { p, v, q, j: 0 }
}

/// Eight programs, each with files of its own; one in five also claims a file
/// that all share.
fn low(work: &mut Workload) -> Vec<u8> {
    let p = work.random.within(1, 8);
    if work.board.get(p).standing == Standing::Absent {
        let own = 0x7f << (7 * (p - 1));
        let count = work.random.within(1, 4);
        let mut v = work.files(count, own);
        let mut q = work.files(2, own & !v);
        match work.random.below(20) {
            0 => v |= only(64),
            1..=3 => q |= only(64),
            _ => {}
        }
        return text(enter(p, v, q), b"LOW     ");
    }
    let p = work.some(8, Standing::Running).unwrap_or(p);
    text(work.live(p, [55, 35, 3]), b"LOW     ")
}

/// All 32 programs on 24 files; most of them wait.
fn high(work: &mut Workload) -> Vec<u8> {
    let hot = 0xff_ffff;
    if work.random.per_mille(600) {
        if let Some(p) = work.some(32, Standing::Absent) {
            let (w, r) = (work.random.within(2, 5), work.random.within(0, 3));
            let v = work.files(w, hot);
            let q = work.files(r, hot & !v);
            return text(enter(p, v, q), b"HIGH    ");
        }
    }
    let p = work.some(32, Standing::Running).unwrap_or(1);
    text(work.live(p, [68, 24, 2]), b"HIGH    ")
}

/// Opens that leave no order are made wherever there is one.
fn unsafe_opens(work: &mut Workload) -> Vec<u8> {
    let label = b"UNSAFE  ";
    let (safe, without_order) = opens(&work.board);
    if let (Some((p, f)), true) = (work.random.pick(&without_order), work.random.per_mille(950)) {
        return text(Request::Open { p, f }, label);
    }
    if let (Some(p), true) = (work.some(32, Standing::Absent), work.random.per_mille(550)) {
        let near = 0x3f << (4 * work.random.below(6));
        let count = work.random.within(3, 4);
        return text(enter(p, work.files(count, near), 0), label);
    }
    if let (Some((p, f)), true) = (work.random.pick(&safe), work.random.per_mille(350)) {
        return text(Request::Open { p, f }, label);
    }
    let busy = |program: &Program| program.standing == Standing::Running && program.open() != 0;
    let busy = work.board.which(busy);
    let p = work
        .random
        .pick(&busy)
        .or_else(|| work.some(32, Standing::Running))
        .unwrap_or(1);
    text(work.live(p, [0, 85, 0]), label)
}

/// Opens of running programs that would be given, and that would be UNSAFE.
fn opens(board: &Board) -> (Vec<(usize, usize)>, Vec<(usize, usize)>) {
    let (mut safe, mut without_order) = (Vec::new(), Vec::new());
    for p in board.which(|program| program.standing == Standing::Running) {
        let program = board.get(p);
        for f in members(program.claim() & !program.open()) {
            if settle::would_give(board, p, f) {
                safe.push((p, f));
            } else if !board.conflicting_use(p, f) {
                without_order.push((p, f));
            }
        }
    }
    (safe, without_order)
}

/// About three lines of four are refused: lines out of form, and lines at the
/// wrong time. The rest is as in `high`.
fn refusals(work: &mut Workload) -> Vec<u8> {
    let (p, f) = (work.random.within(1, 32), work.random.within(1, 64));
    let label = b"REFUSED ";
    match work.random.below(16) {
        0 => b"START   1".to_vec(),
        1 => [text(Request::Open { p, f }, label), b" ".to_vec()].concat(),
        2 => b"CLOSE  01  1".to_vec(),
        3 => text(enter(p, 0xf0f0, 0), b"BAD\x7f    "),
        4 => format!("ENTER {p:3}FALLING   2  0  0 12 11").into_bytes(),
        5 => format!("ENTER {p:3}COUNT    65  0  0").into_bytes(),
        6 | 7 => text(enter(p, 6, 12), label),
        8 => text(Request::Open { p, f }, label),
        9 => text(Request::Close { p, f }, label),
        10 => text(Request::Drop { p, f: f.max(25) }, label),
        11 => text(Request::Open { p, f: f.max(25) }, label),
        _ => high(work),
    }
}

/// All 32 programs with claims of 20 to 64 files; long ENTER lines.
fn wide(work: &mut Workload) -> Vec<u8> {
    if work.random.per_mille(500) {
        if let Some(p) = work.some(32, Standing::Absent) {
            let count = work.random.within(20, 64);
            let v = work.files(count, !0);
            let q = if work.random.per_mille(500) { !v } else { 0 };
            return text(enter(p, v, q), b"WIDE    ");
        }
    }
    let p = work.some(32, Standing::Running).unwrap_or(1);
    text(work.live(p, [55, 15, 5]), b"WIDE    ")
}

/// As `high`, but one line in eight cancels a program that waits or is held.
fn cancels(work: &mut Workload) -> Vec<u8> {
    let stopped =
        |program: &Program| matches!(program.standing, Standing::Waiting(_) | Standing::Held);
    let stopped = work.board.which(stopped);
    match (work.random.pick(&stopped), work.random.per_mille(125)) {
        (Some(p), true) => text(Request::Cancel { p }, b"CANCEL  "),
        _ => high(work),
    }
}

/// Thirty clerks look up the same few records of four files; two batch programs
/// write one of these files and read another.
fn clerks(work: &mut Workload) -> Vec<u8> {
    let (label, files) = (b"CLERKS  ", 0xf);
    let absent = work.some(32, Standing::Absent);
    let running = work.some(32, Standing::Running);
    let request = match (absent, running, work.random.per_mille(120)) {
        (Some(p), _, true) | (Some(p), None, _) if p > 30 => {
            let v = work.files(1, files);
            enter(p, v, work.files(1, files & !v))
        }
        (Some(p), _, true) | (Some(p), None, _) => {
            let count = work.random.within(1, 2);
            let j = work.files(count, files);
            Request::Enter { p, v: 0, q: 0, j }
        }
        (_, Some(p), _) if p > 30 => work.live(p, [70, 15, 0]),
        (_, running, _) => work.look_up(running.unwrap_or(1)),
    };
    text(request, label)
}
