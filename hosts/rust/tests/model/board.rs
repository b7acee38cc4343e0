//! "Programs and files": standings, claims, open files, conflict, holding
//! back, and the board that keeps them with its two lines and the waiters'
//! counts of document 02; and 02's inquiry, with records.

pub use super::layout::{FILES, MOST_PASSES, PROGRAMS, RECORDS};

/// A set of files; file 1 is the lowest bit.
pub type Files = u64;

/// The set of one file.
pub fn only(f: usize) -> Files {
    1 << (f - 1)
}

/// The files of a set, rising.
pub fn members(set: Files) -> Vec<usize> {
    (1..=FILES).filter(|&f| set & only(f) != 0).collect()
}

/// A record: its file and its number.
#[derive(Clone, Copy, PartialEq, Eq, Debug)]
pub struct Record {
    pub file: usize,
    pub number: usize,
}

/// "Waiting carries its file": that of the awaited record, if it awaits one.
#[derive(Clone, Copy, PartialEq, Eq, Debug)]
pub enum Standing {
    Absent,
    Running,
    Waiting(usize),
    Held,
}

#[derive(Clone, Copy, PartialEq, Eq, Debug)]
pub struct Program {
    pub standing: Standing,
    pub v: Files,
    pub q: Files,
    pub j: Files,
    pub w: Files,
    pub r: Files,
    pub i: Files,
    pub in_use: Option<Record>,
    /// The number of the awaited record; 0 for one who awaits a file or nothing.
    pub awaited_record: usize,
}

impl Program {
    pub const ABSENT: Program = Program {
        standing: Standing::Absent,
        v: 0,
        q: 0,
        j: 0,
        w: 0,
        r: 0,
        i: 0,
        in_use: None,
        awaited_record: 0,
    };

    pub fn admitted(&self) -> bool {
        matches!(self.standing, Standing::Running | Standing::Waiting(_))
    }

    pub fn open(&self) -> Files {
        self.w | self.r | self.i
    }

    pub fn claim(&self) -> Files {
        self.v | self.q | self.j
    }

    /// The record that this program waits for.
    pub fn awaits(&self) -> Option<Record> {
        match (self.standing, self.awaited_record) {
            (Standing::Waiting(file), number) if number != 0 => Some(Record { file, number }),
            _ => None,
        }
    }

    /// "W of one meets W or R of the other"; "I of one conflicts with W and R of
    /// another, never with I."
    pub fn conflicts(&self, other: &Program) -> bool {
        let meets = |one: &Program, other: &Program| (one.w | one.i) & (other.w | other.r) != 0;
        meets(self, other) || meets(other, self)
    }

    /// "W of i meets V or Q of j, or R of i meets V of j"; "i holds back j also if I of
    /// i meets V or Q of j, or W or R of i meets J of j".
    pub fn holds_back(&self, other: &Program) -> bool {
        (self.w | self.i) & (other.v | other.q) != 0
            || self.r & other.v != 0
            || (self.w | self.r) & other.j != 0
    }

    /// This program with file f given, in the way that its claim says.
    pub fn given(&self, f: usize) -> Program {
        Program {
            w: self.w | only(f) & self.v,
            r: self.r | only(f) & self.q,
            i: self.i | only(f) & self.j,
            ..*self
        }
    }
}

#[derive(Clone, PartialEq, Eq, Debug)]
pub struct Board {
    programs: [Program; PROGRAMS],
    pub waiting: Vec<usize>,
    pub entry: Vec<usize>,
    pub favoured: usize,
    pub number: usize,
    pub leaves: usize,
    counts: [usize; PROGRAMS],
}

impl Board {
    pub const EMPTY: Board = Board {
        programs: [Program::ABSENT; PROGRAMS],
        waiting: Vec::new(),
        entry: Vec::new(),
        favoured: 0,
        number: 0,
        leaves: 0,
        counts: [0; PROGRAMS],
    };

    pub fn get(&self, p: usize) -> &Program {
        &self.programs[p - 1]
    }

    pub fn get_mut(&mut self, p: usize) -> &mut Program {
        &mut self.programs[p - 1]
    }

    /// "Each waiting program now gets a count of its own, of programs admitted
    /// since it began to wait; it is 0 for all others."
    pub fn count(&self, p: usize) -> usize {
        self.counts[p - 1]
    }

    pub fn count_mut(&mut self, p: usize) -> &mut usize {
        &mut self.counts[p - 1]
    }

    /// The programs that pass a test, lowest first.
    pub fn which(&self, test: impl Fn(&Program) -> bool) -> Vec<usize> {
        (1..=PROGRAMS).filter(|&p| test(self.get(p))).collect()
    }

    pub fn admitted(&self) -> Vec<usize> {
        self.which(Program::admitted)
    }

    /// "The last two are 0 when nobody is favoured."
    pub fn favour_nobody(&mut self) {
        (self.favoured, self.number, self.leaves) = (0, 0, 0);
    }

    /// A wait has ended: p stands in the line no more, and has no count.
    pub fn end_wait(&mut self, p: usize) {
        self.waiting.retain(|&other| other != p);
        *self.count_mut(p) = 0;
    }

    /// A waiter gets what it waits for, a file or a record, and runs. "A favoured
    /// program that is given its file is favoured no longer"; so is one "that gets
    /// its record".
    pub fn serve(&mut self, p: usize) {
        match (self.get(p).awaits(), self.get(p).standing) {
            (None, Standing::Waiting(f)) => *self = self.with_given(p, f),
            (record, _) => self.get_mut(p).in_use = record,
        }
        self.get_mut(p).standing = Standing::Running;
        self.get_mut(p).awaited_record = 0;
        self.end_wait(p);
        if self.favoured == p {
            self.favour_nobody();
        }
    }

    /// The program that has this record in use.
    pub fn user(&self, record: Record) -> Option<usize> {
        (1..=PROGRAMS).find(|&p| self.get(p).in_use == Some(record))
    }

    /// Whether, with f given to p, another program and p would conflict.
    pub fn conflicting_use(&self, p: usize, f: usize) -> bool {
        let given = self.get(p).given(f);
        (1..=PROGRAMS).any(|other| other != p && self.get(other).conflicts(&given))
    }

    /// The board with f given to p, all else as before.
    pub fn with_given(&self, p: usize, f: usize) -> Board {
        let mut board = self.clone();
        *board.get_mut(p) = self.get(p).given(f);
        board
    }
}
