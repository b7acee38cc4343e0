use crate::{Refusal, JOURNAL_LINE};
use std::str::FromStr;

/// Where the numbers of a line begin, after its word, and where it ends with byte 10.
const JOURNAL_PROGRAM: usize = 6;
const JOURNAL_FILE: usize = JOURNAL_PROGRAM + 3;
const JOURNAL_REFUSAL: usize = JOURNAL_FILE + 3;
const JOURNAL_RECORD: usize = JOURNAL_REFUSAL + 3;
const JOURNAL_END: usize = JOURNAL_RECORD + 5;

const _: () = assert!(JOURNAL_END + 1 == JOURNAL_LINE);

/// The word of a journal line. `docs/REFUSALS.md` says what comes after each.
#[derive(Clone, Copy, Debug, PartialEq, Eq, Hash)]
pub enum Word {
    /// The program runs.
    Admit,
    /// The program is held at entry.
    Held,
    /// The program has the file open, or the record in use.
    Given,
    /// The program waits: another has the file in conflicting use, or the record in use.
    Wait,
    /// The program waits: with the file given there would be no completion order.
    Unsafe,
    /// The close, drop, return, leave or cancel is done.
    Done,
    /// The waiting program is favoured.
    Favour,
    /// The request was refused.
    Refuse,
}

impl Word {
    /// The word in its six columns.
    pub const fn columns(self) -> &'static [u8; JOURNAL_PROGRAM] {
        match self {
            Word::Admit => b"ADMIT ",
            Word::Held => b"HELD  ",
            Word::Given => b"GIVEN ",
            Word::Wait => b"WAIT  ",
            Word::Unsafe => b"UNSAFE",
            Word::Done => b"DONE  ",
            Word::Favour => b"FAVOUR",
            Word::Refuse => b"REFUSE",
        }
    }

    fn read(columns: &[u8]) -> Option<Word> {
        use Word::*;
        let all = [Admit, Held, Given, Wait, Unsafe, Done, Favour, Refuse];
        all.into_iter().find(|word| word.columns() == columns)
    }
}

/// One line of the journal.
#[derive(Clone, Copy, Debug, PartialEq, Eq, Hash)]
pub struct Line {
    /// What the board did.
    pub word: Word,
    /// The program, 1 to 32, or 0 where there is none.
    pub program: u8,
    /// The file, 1 to 64, or 0 where there is none.
    pub file: u8,
    /// Why the request was refused; none for other words than REFUSE.
    pub refusal: Option<Refusal>,
    /// The record, 1 to 65,535, or 0 where there is none.
    pub record: u16,
}

impl Line {
    /// Reads a journal line, with its byte 10. `None` if it is not in form.
    ///
    /// ```
    /// use lock_board::{Line, Refusal, Word};
    ///
    /// let line = Line::read(b"REFUSE  2  4 13  365\n").unwrap();
    /// assert_eq!((line.word, line.program, line.file), (Word::Refuse, 2, 4));
    /// assert_eq!((line.refusal, line.record), (Some(Refusal::IsWaiting), 365));
    /// assert_eq!(Line::read(b"REFUSE  2  0 17    0\n"), None);
    /// ```
    pub fn read(bytes: &[u8; JOURNAL_LINE]) -> Option<Line> {
        let refusal = match number(&bytes[JOURNAL_REFUSAL..JOURNAL_RECORD])? {
            0 => None,
            n @ (3..=7 | 9..=16 | 18 | 20 | 21) => Some(Refusal::from_number(n)?),
            _ => return None, // the others come in no line
        };
        let word = Word::read(&bytes[..JOURNAL_PROGRAM])?;
        if bytes[JOURNAL_END] != b'\n' || (word == Word::Refuse) != refusal.is_some() {
            return None;
        }
        Some(Line {
            word,
            program: number(&bytes[JOURNAL_PROGRAM..JOURNAL_FILE])?,
            file: number(&bytes[JOURNAL_FILE..JOURNAL_REFUSAL])?,
            refusal,
            record: number(&bytes[JOURNAL_RECORD..JOURNAL_END])?,
        })
    }
}

/// A decimal number, right-justified in its columns, blanks before and no leading zero.
fn number<T: FromStr>(columns: &[u8]) -> Option<T> {
    let text = std::str::from_utf8(columns).ok()?.trim_start_matches(' ');
    let in_form =
        text.bytes().all(|b| b.is_ascii_digit()) && (text == "0" || !text.starts_with('0'));
    if in_form {
        text.parse().ok()
    } else {
        None
    }
}
