//! "Journal": its words and lines.

use super::board::Record;
pub use super::layout::journal::*;
use super::layout::{FILE_COLUMNS, PROGRAM_COLUMNS, RECORD_COLUMNS, REFUSAL_COLUMNS};

#[derive(Clone, Copy, PartialEq, Eq, PartialOrd, Ord, Debug)]
pub enum Word {
    Admit,
    Held,
    Given,
    Wait,
    Unsafe,
    Done,
    Favour,
    Refuse,
}

impl Word {
    pub const ALL: [Word; 8] = [
        Word::Admit,
        Word::Held,
        Word::Given,
        Word::Wait,
        Word::Unsafe,
        Word::Done,
        Word::Favour,
        Word::Refuse,
    ];

    pub fn text(self) -> &'static [u8; 6] {
        match self {
            Word::Admit => b"ADMIT ",
            Word::Held => b"HELD  ",
            Word::Given => b"GIVEN ",
            Word::Wait => b"WAIT  ",
            Word::Unsafe => b"UNSAFE",
            Word::Done => b"DONE  ",
            Word::Favour => b"FAVOUR",
            Word::Refuse => b"REFUSE",
        }
    }
}

#[derive(Clone, Copy, PartialEq, Eq, Debug)]
pub struct Entry {
    pub word: Word,
    pub program: usize,
    pub file: usize,
    pub refusal: usize,
    /// "The record of the call or of the waiter named".
    pub record: usize,
}

impl Entry {
    pub fn new(word: Word, program: usize, file: usize) -> Entry {
        Entry {
            word,
            program,
            file,
            refusal: 0,
            record: 0,
        }
    }

    /// A line that names a record.
    pub fn of_record(word: Word, program: usize, record: Record) -> Entry {
        Entry {
            record: record.number,
            ..Entry::new(word, program, record.file)
        }
    }

    pub fn refused(refusal: usize, program: usize, file: usize, record: usize) -> Entry {
        Entry {
            refusal,
            record,
            ..Entry::new(Word::Refuse, program, file)
        }
    }

    /// The columns and byte 10.
    pub fn bytes(&self) -> Vec<u8> {
        let mut line = self.word.text().to_vec();
        line.extend(program_columns(self.program));
        line.extend(file_columns(self.file));
        line.extend(columns(self.refusal, REFUSAL_COLUMNS));
        line.extend(record_columns(self.record));
        line.push(10);
        assert_eq!(line.len(), LINE);
        line
    }
}

/// A number right-justified in its columns, blanks before.
pub fn columns(n: usize, width: usize) -> Vec<u8> {
    let text = format!("{n:>width$}").into_bytes();
    assert_eq!(text.len(), width, "{n} is too long");
    text
}

/// A program in its columns.
pub fn program_columns(p: usize) -> Vec<u8> {
    columns(p, PROGRAM_COLUMNS)
}

/// A file, or a count of files, in its columns.
pub fn file_columns(f: usize) -> Vec<u8> {
    columns(f, FILE_COLUMNS)
}

/// A record's number in its columns.
pub fn record_columns(n: usize) -> Vec<u8> {
    columns(n, RECORD_COLUMNS)
}
