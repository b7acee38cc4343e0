//! What stands on a board, read from its image by the layout that `include/lock_board.h` describes.

use crate::{Board, CLAIMS_LEN, FILES, IMAGE_LEN, PROGRAMS, SET_LEN};

/// Where the fields of a program begin in its first row, and how many bytes that has.
const WRITE_CLAIM: usize = 0;
const READ_CLAIM: usize = WRITE_CLAIM + SET_LEN;
const WRITE_OPEN: usize = READ_CLAIM + SET_LEN;
const READ_OPEN: usize = WRITE_OPEN + SET_LEN;
const STANDING: usize = READ_OPEN + SET_LEN;
const AWAITED_FILE: usize = STANDING + 1;
const PROGRAM_LEN: usize = AWAITED_FILE + 1;
/// Where the rest of the image begins.
const WAITING_LINE: usize = PROGRAMS * PROGRAM_LEN;
const ENTRY_LINE: usize = WAITING_LINE + PROGRAMS;
const FAVOURED: usize = ENTRY_LINE + PROGRAMS;
const AT_FAVOURING: usize = FAVOURED + 1;
const LEAVES: usize = AT_FAVOURING + 1;
const PASSED: usize = LEAVES + 1;
const INQUIRY: usize = PASSED + PROGRAMS;
/// The bytes of a record's number.
const RECORD_LEN: usize = 2;
/// Where the fields of a program begin in its second row, and how many bytes that has.
const INQUIRY_CLAIM: usize = 0;
const INQUIRY_OPEN: usize = INQUIRY_CLAIM + SET_LEN;
const RECORD_IN_USE: usize = INQUIRY_OPEN + SET_LEN;
const AWAITED_RECORD: usize = RECORD_IN_USE + RECORD_LEN;
const INQUIRY_LEN: usize = AWAITED_RECORD + RECORD_LEN;

const _: () = assert!(INQUIRY + PROGRAMS * INQUIRY_LEN == IMAGE_LEN);
const _: () = assert!(FILES == 8 * SET_LEN && CLAIMS_LEN == 3 * SET_LEN);

/// A set of files.
#[derive(Clone, Copy, Debug, Default, PartialEq, Eq, Hash)]
pub struct Files(u64);

impl Files {
    /// Whether the file is in the set. A number that is no file is in none.
    pub fn has(self, file: u8) -> bool {
        (1..=FILES).contains(&usize::from(file)) && self.0 >> (file - 1) & 1 != 0
    }

    /// Whether no file is in the set.
    pub fn is_empty(self) -> bool {
        self.0 == 0
    }

    /// The files, rising.
    pub fn iter(self) -> impl Iterator<Item = u8> {
        (1..=FILES as u8).filter(move |&file| self.has(file))
    }

    /// The set with this file; `None` for a number that is no file.
    pub(crate) fn with(self, file: u8) -> Option<Files> {
        let place = file.checked_sub(1)?;
        Some(Files(self.0 | 1u64.checked_shl(place.into())?))
    }

    /// The set as bits: file 1 is the lowest.
    pub fn bits(self) -> u64 {
        self.0
    }
}

/// How a program stands.
#[derive(Clone, Copy, Debug, PartialEq, Eq, Hash)]
pub enum Standing {
    /// It has not entered, has left or was cancelled.
    Absent,
    /// It is admitted and runs.
    Running,
    /// It is admitted and waits for this file, or for a record of it.
    Waiting(u8),
    /// It is held at entry.
    Held,
}

/// A record: a file and a number.
#[derive(Clone, Copy, Debug, PartialEq, Eq, Hash)]
pub struct Record {
    /// The file, 1 to 64.
    pub file: u8,
    /// The number, 1 to 65,535.
    pub number: u16,
}

/// A program on the board.
#[derive(Clone, Copy, Debug, PartialEq, Eq, Hash)]
pub struct Program {
    /// Its number, 1 to 32.
    pub number: u8,
    /// How it stands.
    pub standing: Standing,
    /// The files that it may write.
    pub write_claim: Files,
    /// The files that it may only read.
    pub read_claim: Files,
    /// The files that it may inquire into.
    pub inquiry_claim: Files,
    /// The files that it has open for writing.
    pub write_open: Files,
    /// The files that it has open for reading.
    pub read_open: Files,
    /// The files that it has open for inquiry.
    pub inquiry_open: Files,
    /// The record that it has in use; it runs then.
    pub record_in_use: Option<Record>,
    /// The record that it waits for, which another program has in use.
    pub awaited_record: Option<Record>,
}

impl Program {
    /// Whether it is admitted: running or waiting.
    pub fn is_admitted(&self) -> bool {
        matches!(self.standing, Standing::Running | Standing::Waiting(_))
    }

    /// The files in which this program holds back another one; none if it does not. It does if it
    /// writes a file that the other claims, reads one that the other may write or inquire into, or
    /// inquires into one that the other may write or read.
    pub fn holds_back(&self, other: &Program) -> Files {
        let (v, q) = (other.write_claim.0, other.read_claim.0);
        let j = other.inquiry_claim.0;
        let (w, r) = (self.write_open.0, self.read_open.0);
        let i = self.inquiry_open.0;
        Files(w & (v | q | j) | r & (v | j) | i & (v | q))
    }
}

/// The favoured program, and what its wait is counted by.
#[derive(Clone, Copy, Debug, PartialEq, Eq, Hash)]
pub struct Favoured {
    /// Its number.
    pub program: u8,
    /// How many programs were admitted when it was favoured.
    pub at_favouring: u8,
    /// The leaves since, cancels of other waiters among them.
    pub leaves: u8,
}

impl Favoured {
    /// The leaves that are still to come, at most, until it gets its file or record. A cancel of
    /// another waiter counts as a leave.
    pub fn leaves_to_come(&self) -> u8 {
        self.at_favouring
            .saturating_sub(1)
            .saturating_sub(self.leaves)
    }
}

impl Board {
    /// The program with this number, 1 to 32.
    pub fn program(&self, number: u8) -> Option<Program> {
        let place = usize::from(number).checked_sub(1)?;
        let row = self.rows(0, PROGRAM_LEN).nth(place)?;
        let inquiry = self.rows(INQUIRY, INQUIRY_LEN).nth(place)?;
        let file = row[AWAITED_FILE];
        let set = |row: &[u8], at: usize| Files(low_first(&row[at..at + SET_LEN]));
        let record = |at: usize| match low_first(&inquiry[at..at + RECORD_LEN]) as u16 {
            0 => None,
            number => Some(Record { file, number }),
        };
        Some(Program {
            number,
            standing: match row[STANDING] {
                0 => Standing::Absent,
                1 => Standing::Running,
                2 => Standing::Waiting(file),
                _ => Standing::Held,
            },
            write_claim: set(row, WRITE_CLAIM),
            read_claim: set(row, READ_CLAIM),
            inquiry_claim: set(inquiry, INQUIRY_CLAIM),
            write_open: set(row, WRITE_OPEN),
            read_open: set(row, READ_OPEN),
            inquiry_open: set(inquiry, INQUIRY_OPEN),
            record_in_use: record(RECORD_IN_USE),
            awaited_record: record(AWAITED_RECORD),
        })
    }

    /// The programs that have entered, by number.
    ///
    /// ```
    /// use lock_board::{Board, Standing};
    ///
    /// let mut board = Board::new();
    /// board.serve(b"ENTER   1PRICES    1  0  0  1")?;
    /// board.serve(b"ENTER   2ORDERS    1  1  0  2  1")?;
    /// board.serve(b"OPEN    2  1")?;
    /// board.serve(b"OPEN    1  1")?;
    /// let programs: Vec<_> = board.programs().collect();
    /// assert_eq!(programs[0].standing, Standing::Waiting(1));
    /// assert_eq!(programs[1].read_open.iter().collect::<Vec<_>>(), [1]);
    /// assert!(programs[1].holds_back(&programs[0]).has(1));
    /// assert_eq!(board.waiting_line(), [1]);
    /// # Ok::<(), lock_board::Error>(())
    /// ```
    pub fn programs(&self) -> impl Iterator<Item = Program> + '_ {
        (1..=PROGRAMS as u8)
            .filter_map(|number| self.program(number))
            .filter(|program| program.standing != Standing::Absent)
    }

    /// The programs that wait, oldest first.
    pub fn waiting_line(&self) -> &[u8] {
        self.line(WAITING_LINE)
    }

    /// How many programs were admitted since the one with this number, 1 to 32, began to wait, at
    /// most [`MOST_PASSED`](crate::MOST_PASSED); 0 unless it waits.
    ///
    /// ```
    /// use lock_board::Board;
    ///
    /// let mut board = Board::new();
    /// board.serve(b"ENTER   1LISTS     0  1  0  1")?;
    /// board.serve(b"ENTER   2PRICES    1  0  0  1")?;
    /// board.serve(b"OPEN    1  1")?;
    /// board.serve(b"OPEN    2  1")?;
    /// board.serve(b"ENTER   3LISTS     0  1  0  1")?;
    /// assert_eq!(board.passed(2), Some(1));
    /// assert_eq!(board.passed(1), Some(0));
    /// # Ok::<(), lock_board::Error>(())
    /// ```
    pub fn passed(&self, number: u8) -> Option<u8> {
        let place = usize::from(number).checked_sub(1)?;
        let counts = &self.image()[PASSED..PASSED + PROGRAMS];
        counts.get(place).copied()
    }

    /// The programs that are held at entry, oldest first.
    pub fn entry_line(&self) -> &[u8] {
        self.line(ENTRY_LINE)
    }

    /// The favoured program, if there is one.
    pub fn favoured(&self) -> Option<Favoured> {
        let image = self.image();
        (image[FAVOURED] != 0).then_some(Favoured {
            program: image[FAVOURED],
            at_favouring: image[AT_FAVOURING],
            leaves: image[LEAVES],
        })
    }

    /// The rows of the programs, so long each, that begin here.
    fn rows(&self, at: usize, len: usize) -> impl Iterator<Item = &[u8]> {
        self.image()[at..at + PROGRAMS * len].chunks_exact(len)
    }

    /// A line up to its first 0.
    fn line(&self, at: usize) -> &[u8] {
        let line = &self.image()[at..at + PROGRAMS];
        let end = line.iter().position(|&program| program == 0);
        &line[..end.unwrap_or(line.len())]
    }
}

/// The number in these bytes, lowest first.
pub(crate) fn low_first(bytes: &[u8]) -> u64 {
    bytes
        .iter()
        .rfold(0, |number, &b| number << 8 | u64::from(b))
}
