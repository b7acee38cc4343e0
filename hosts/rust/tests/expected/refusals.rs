//! What a host shows on standard error of a session: one line for each refusal,
//! with what was asked and what stands. The words come from docs/REFUSALS.md.

use super::phrases::{self, files, in_use, may, open, programs, record, wants_order, Labels};
use crate::model::board::{only, Board, Files, Record, Standing, FILES, PROGRAMS, RECORDS};
use crate::model::image::step;
use crate::model::journal::{columns, Entry, Word};
use crate::model::line::{claimed, enter_length, BEFORE_FILES, COUNT_J, COUNT_R, COUNT_W};
use crate::model::line::{FILE, LABEL, LONGEST, PROGRAM, RECORD, VERB};
use std::ops::Range;

/// The rows of docs/REFUSALS.md, from refusal 1 on: the words, and what to do.
pub struct Document(Vec<(String, String)>);

impl Document {
    pub fn read(text: &str) -> Document {
        let mut rows = Vec::new();
        for line in text.lines() {
            let cells: Vec<&str> = line.split('|').map(str::trim).collect();
            if let ["", number, words, advice, ""] = cells.as_slice() {
                if number.parse() == Ok(rows.len() + 1) {
                    rows.push((words.to_string(), advice.to_string()));
                }
            }
        }
        Document(rows)
    }

    fn words(&self, refusal: usize) -> &str {
        &self.0[refusal - 1].0
    }

    /// What to do, in sentences that go on after another.
    fn advice(&self, refusal: usize) -> Vec<String> {
        let small = |sentence: &str| sentence[..1].to_lowercase() + &sentence[1..];
        let sentences = self.0[refusal - 1].1.trim_end_matches('.').split(". ");
        sentences.map(small).collect()
    }

    /// With which verb a dead program is removed: the last sentence of what to do.
    fn remedy(&self, refusal: usize) -> String {
        let sentence = self.advice(refusal).pop().expect("a sentence");
        assert!(sentence.contains("that has died"), "refusal {refusal}");
        sentence
    }
}

/// A session so far, and what was shown of it.
pub struct Session<'a> {
    document: &'a Document,
    board: Board,
    labels: Labels,
    number: usize,
    pub shown: Vec<String>,
}

impl Session<'_> {
    pub fn new(document: &Document, board: Board) -> Session<'_> {
        Session {
            document,
            board,
            labels: Labels::new(),
            number: 0,
            shown: Vec::new(),
        }
    }

    pub fn serve(&mut self, line: &[u8]) {
        self.number += 1;
        let (after, lines) = step(&self.board, line);
        match lines[0] {
            answer if answer.word == Word::Refuse => {
                let text = self.refused(line, &answer);
                self.shown.push(text);
            }
            answer => self.keep_label(line, answer.program),
        }
        self.board = after;
    }

    fn keep_label(&mut self, line: &[u8], p: usize) {
        if line.starts_with(b"ENTER") {
            self.labels.remove(&p);
            self.labels.extend(label(line).map(|label| (p, label)));
        } else if line.starts_with(b"LEAVE") || line.starts_with(b"CANCEL") {
            self.labels.remove(&p);
        }
    }

    fn refused(&self, line: &[u8], answer: &Entry) -> String {
        let about = match (answer.program, answer.file, answer.record) {
            (0, _, _) => String::new(),
            (p, 0, _) => format!(" (program {p})"),
            (p, f, 0) => format!(" (program {p}, file {f})"),
            (p, f, n) => format!(" (program {p}, file {f}, record {n})"),
        };
        let what = match answer.refusal {
            3 => verb(line),
            4 => length(line),
            5 => number(line),
            6 => label_byte(line),
            7 => rising(line),
            _ => format!(
                "{}; {}",
                self.asked(line, answer),
                self.stands(line, answer)
            ),
        };
        let (n, refusal) = (self.number, answer.refusal);
        format!(
            "line {n}: refusal {refusal}: {}{about}: {what}",
            self.document.words(refusal)
        )
    }

    fn asked(&self, line: &[u8], answer: &Entry) -> String {
        let known = self.labels.get(&answer.program);
        let who = known.map_or(String::new(), |label| format!("{label} "));
        let f = answer.file;
        match &line[VERB] {
            b"ENTER " => match label(line) {
                Some(label) => format!("asked to enter as {label}"),
                None => "asked to enter".to_string(),
            },
            b"OPEN  " => format!("{who}asked for file {f}"),
            b"CLOSE " => format!("{who}asked to close file {f}"),
            b"DROP  " => format!("{who}asked to drop file {f}"),
            b"LEAVE " => format!("{who}asked to leave"),
            b"FETCH " => {
                let number = answer.record;
                format!("{who}asked for {}", record(Record { file: f, number }))
            }
            b"RETURN" => format!("{who}asked to return a record"),
            _ => known.map_or("asked to cancel".to_string(), |label| {
                format!("asked to cancel {label}")
            }),
        }
    }

    /// What helps whoever wants a dead program to leave that waits or is held.
    fn if_dead(&self, line: &[u8], answer: &Entry) -> String {
        match line.starts_with(b"LEAVE") {
            true => format!("; {}", self.document.remedy(answer.refusal)),
            false => String::new(),
        }
    }

    /// What stands on the board, for refusals 9 to 16 and 18.
    fn stands(&self, line: &[u8], answer: &Entry) -> String {
        let (board, labels, p) = (&self.board, &self.labels, answer.program);
        let program = board.get(p);
        match answer.refusal {
            9 => {
                let standing = match program.standing {
                    Standing::Waiting(_) => wait(board, p, labels),
                    Standing::Held => "is held at entry".to_string(),
                    _ => "runs".to_string(),
                };
                format!("{} {standing}", programs(&[p], labels))
            }
            10 => in_two(line),
            11 => match board
                .which(|program| program.standing != Standing::Absent)
                .as_slice()
            {
                [] => "no program has entered".to_string(),
                [one] => format!("{} has entered", programs(&[*one], labels)),
                several => format!("{} have entered", programs(several, labels)),
            },
            12 => {
                let favoured = programs(&[board.favoured], labels);
                let wait = wait(board, board.favoured, labels);
                let if_dead = self.if_dead(line, answer);
                format!("{favoured} is favoured and {wait}{if_dead}")
            }
            13 => wait(board, p, labels) + &self.if_dead(line, answer),
            14 => {
                let claims = match may([program.v, program.q, program.j]).as_str() {
                    "" => "claims no file".to_string(),
                    claims => format!("may {claims}"),
                };
                match line.starts_with(b"OPEN") {
                    true => format!("{claims}; {}", self.document.advice(14).join("; ")),
                    false => claims,
                }
            }
            18 => {
                let (open, in_use) = (open(program), in_use("; ", program));
                format!("{open}{in_use}; {}", self.document.remedy(18))
            }
            20 if line.starts_with(b"RETURN") => "has no record in use".to_string(),
            20 if program.i == 0 => "has nothing open for inquiry".to_string(),
            20 => format!("inquires into {}", files(program.i)),
            21 => format!("{}; {}", in_use("", program), self.document.advice(21)[0]),
            _ => open(program),
        }
    }
}

/// Why a program waits, and for want of an order also who holds it back.
fn wait(board: &Board, p: usize, labels: &Labels) -> String {
    let why = phrases::wait(board, p, labels);
    if !wants_order(board, p) {
        return why;
    }
    let mut holders = board.which(|other| other.holds_back(board.get(p)));
    holders.retain(|&other| other != p);
    assert!(!holders.is_empty(), "nobody holds back program {p}");
    format!("{why}; held back by {}", programs(&holders, labels))
}

/// Bytes of a line between quotes, those outside 32 to 126 as `?`.
fn quoted(bytes: &[u8]) -> String {
    let plain = |&byte: &u8| match byte {
        32..=126 => char::from(byte),
        _ => '?',
    };
    format!("\"{}\"", bytes.iter().map(plain).collect::<String>())
}

/// The label of an ENTER without the blanks after it, unless it is all blank.
fn label(line: &[u8]) -> Option<String> {
    let label = String::from_utf8_lossy(&line[LABEL])
        .trim_end_matches(' ')
        .to_string();
    (!label.is_empty()).then_some(label)
}

/// Columns are counted from 1.
fn named(field: &Range<usize>) -> String {
    format!("columns {}-{}", field.start + 1, field.end)
}

fn verb(line: &[u8]) -> String {
    let what = match line.get(VERB) {
        None if line.is_empty() => return "the line is empty".to_string(),
        None => format!("the line has only {}", quoted(line)),
        Some(verb) => format!("{} have {}", named(&VERB), quoted(verb)),
    };
    let verbs = "not ENTER, OPEN, CLOSE, DROP, LEAVE, CANCEL, FETCH or RETURN";
    format!("{what}, {verbs}, with blanks up to column {}", VERB.end)
}

fn length(line: &[u8]) -> String {
    let found = match line {
        line if line.len() > LONGEST => format!("the line goes beyond column {LONGEST}"),
        [.., 13] => format!(
            "the line ends with column {}, a carriage return",
            line.len()
        ),
        line => format!("the line ends with column {}", line.len()),
    };
    let verb = String::from_utf8_lossy(&line[VERB]).trim_end().to_string();
    let asked = match verb.as_str() {
        "LEAVE" | "CANCEL" | "RETURN" => format!("{verb} ends with column {}", PROGRAM.end),
        "FETCH" => format!("FETCH ends with column {}", RECORD.end),
        "ENTER" if line.len() < BEFORE_FILES => {
            format!("ENTER goes up to column {BEFORE_FILES} at least")
        }
        "ENTER" => {
            let [w, r, j] = counts(line);
            let end = enter_length(w + r + j);
            let files = format!("{w} files to write, {r} to read and {j} to inquire into");
            format!("ENTER with {files} ends with column {end}")
        }
        _ => format!("{verb} ends with column {}", FILE.end),
    };
    format!("{found}; {asked}")
}

/// The number in form in these columns.
fn in_form(line: &[u8], field: &Range<usize>) -> Option<usize> {
    let (text, width) = (&line[field.clone()], field.len());
    (0..10usize.pow(width as u32)).find(|&n| columns(n, width) == text)
}

/// w, r and j.
const COUNTS: [Range<usize>; 3] = [COUNT_W, COUNT_R, COUNT_J];

fn counts(line: &[u8]) -> [usize; 3] {
    COUNTS.map(|count| in_form(line, &count).expect("counts were read before"))
}

/// A file with the columns in which it stands.
type Placed = (usize, Range<usize>);

/// The files of an ENTER, those of V, of Q and of J.
fn claims(line: &[u8]) -> [Vec<Placed>; 3] {
    let file = |n: usize| {
        let f = in_form(line, &claimed(n)).expect("files were read");
        (f, claimed(n))
    };
    let [w, r, j] = counts(line);
    [0..w, w..w + r, w + r..w + r + j].map(|claim| claim.map(file).collect())
}

/// Which two claims have which files: "Refusal 10 covers any two claims that meet."
fn in_two(line: &[u8]) -> String {
    let set = |files: Vec<Placed>| files.iter().fold(0, |set, file| set | only(file.0));
    let [v, q, j]: [Files; 3] = claims(line).map(set);
    let two = [
        ("write and read", v & q),
        ("write and inquiry", v & j),
        ("read and inquiry", q & j),
    ];
    let met = two.into_iter().filter(|&(_, both)| both != 0);
    let texts: Vec<String> = met
        .map(|(two, both)| format!("the {two} claims have {}", files(both)))
        .collect();
    assert!(!texts.is_empty());
    texts.join("; ")
}

/// The first number from the left that is not in form or range.
fn number(line: &[u8]) -> String {
    let mut fields = vec![(PROGRAM, "program", 1, PROGRAMS)];
    if line.starts_with(b"ENTER") {
        fields.extend(COUNTS.map(|count| (count, "count", 0, FILES)));
        let files = (0..).map(claimed).take_while(|file| file.end <= line.len());
        fields.extend(files.map(|file| (file, "file", 1, FILES)));
    } else if line.len() >= FILE.end {
        fields.push((FILE, "file", 1, FILES));
        fields.extend((line.len() == RECORD.end).then_some((RECORD, "record", 1, RECORDS)));
    }
    let bad = |(field, _, low, high): &&(Range<usize>, &str, usize, usize)| {
        !in_form(line, field).is_some_and(|n| (*low..=*high).contains(&n))
    };
    let (field, what, low, high) = fields.iter().find(bad).expect("a number is bad");
    let (columns, found) = (named(field), quoted(&line[field.clone()]));
    format!("{columns} have {found}, not a {what} from {low} to {high}, right-justified")
}

fn label_byte(line: &[u8]) -> String {
    let bad = |at: &usize| !(32..=126).contains(&line[*at]);
    let at = LABEL.into_iter().find(bad);
    let at = at.expect("a byte of the label is bad");
    format!("column {} has byte {}", at + 1, line[at])
}

/// The first file that is not above the one before it in its claim.
fn rising(line: &[u8]) -> String {
    let claims = claims(line);
    let mut pairs = claims.iter().flat_map(|files| files.windows(2));
    let pair = pairs
        .find(|pair| pair[1].0 <= pair[0].0)
        .expect("files do not rise");
    let ((before, _), (file, at)) = (&pair[0], &pair[1]);
    format!("{} have file {file} after file {before}", named(at))
}
