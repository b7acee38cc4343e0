//! Request lines, written by the board's own library.

use crate::{entry, Error, Files, Refusal, CLAIMS_LEN, LABEL_LEN, LONGEST_LINE, SET_LEN};

/// The verb of a request.
#[derive(Clone, Copy, Debug, PartialEq, Eq, Hash)]
#[repr(u8)]
#[non_exhaustive]
pub enum Verb {
    /// The program enters, with its claims.
    Enter = 1,
    /// The program asks for a file.
    Open,
    /// The program gives a file back.
    Close,
    /// A file leaves the program's claims.
    Drop,
    /// The program leaves.
    Leave,
    /// A program that waits or is held is removed.
    Cancel,
    /// The program asks for a record of a file that it has open for inquiry.
    Fetch,
    /// The program returns the record that it has in use.
    Return,
}

impl Verb {
    /// The number of the verb, 1 to 8, as [`entry::write`] takes it.
    pub const fn number(self) -> u64 {
        self as u64
    }
}

/// A request, to be written as a line.
///
/// ```
/// use lock_board::{Board, Request, Word};
///
/// let mut board = Board::new();
/// let line = Request::enter(2).label("ORDERS").write([2]).read([1]).line()?;
/// assert_eq!(line, b"ENTER   2ORDERS    1  1  0  2  1");
/// assert_eq!(board.serve(&line)?.answer().word, Word::Admit);
/// assert_eq!(board.serve(&Request::open(2, 1).line()?)?.answer().word, Word::Given);
/// # Ok::<(), lock_board::Error>(())
/// ```
///
/// Any numbers may be given; [`line`](Request::line) tells what is wrong with them:
///
/// ```
/// # use lock_board::{Error, Refusal, Request};
/// assert_eq!(Request::leave(33).line(), Err(Error::Refused(Refusal::OutOfRange)));
/// assert_eq!(Request::enter(1).write([64, 65]).line(), Err(Error::ClaimedFile(65)));
/// ```
#[derive(Clone, Debug, PartialEq, Eq, Hash)]
#[must_use = "a request does nothing before its line is served"]
pub struct Request {
    verb: Verb,
    program: u8,
    file: u8,
    record: u16,
}

impl Request {
    /// The program enters, with the label and the claims that are then added.
    pub fn enter(program: u8) -> Enter {
        Enter {
            program,
            label: Vec::new(),
            claims: Default::default(),
        }
    }

    /// The program asks for a file of its claims.
    pub fn open(program: u8, file: u8) -> Request {
        Request::new(Verb::Open, program, file)
    }

    /// The program gives the file back.
    pub fn close(program: u8, file: u8) -> Request {
        Request::new(Verb::Close, program, file)
    }

    /// The file, which is closed, leaves the program's claims.
    pub fn drop(program: u8, file: u8) -> Request {
        Request::new(Verb::Drop, program, file)
    }

    /// The program asks for a record, 1 to 65,535, of a file that it has open for inquiry. With a
    /// record in use it may only return it or leave.
    ///
    /// ```
    /// # use lock_board::{Board, Request, Word};
    /// let mut board = Board::new();
    /// for clerk in [1, 2] {
    ///     board.serve(&Request::enter(clerk).label("CLERK").inquire([4]).line()?)?;
    ///     board.serve(&Request::open(clerk, 4).line()?)?;
    /// }
    /// assert_eq!(board.serve(&Request::fetch(1, 4, 17).line()?)?.answer().word, Word::Given);
    /// assert_eq!(board.serve(&Request::fetch(2, 4, 17).line()?)?.answer().word, Word::Wait);
    /// let reply = board.serve(&Request::return_record(1).line()?)?;
    /// assert_eq!(reply.answer().word, Word::Done);
    /// assert_eq!((reply.settled()[0].program, reply.settled()[0].record), (2, 17));
    /// # Ok::<(), lock_board::Error>(())
    /// ```
    pub fn fetch(program: u8, file: u8, record: u16) -> Request {
        Request {
            record,
            ..Request::new(Verb::Fetch, program, file)
        }
    }

    /// The program returns the record that it has in use.
    pub fn return_record(program: u8) -> Request {
        Request::new(Verb::Return, program, 0)
    }

    /// The program leaves.
    pub fn leave(program: u8) -> Request {
        Request::new(Verb::Leave, program, 0)
    }

    /// The program, which waits or is held, is removed with its files and claims: a remedy for one
    /// that has died. A running one leaves.
    ///
    /// ```
    /// # use lock_board::{Board, Request, Standing, Word};
    /// let mut board = Board::new();
    /// board.serve(b"ENTER   1STOCK     1  0  0  3")?;
    /// board.serve(b"ENTER   2BILLS     1  0  0  3")?;
    /// board.serve(b"OPEN    1  3")?;
    /// assert_eq!(board.serve(b"OPEN    2  3")?.answer().word, Word::Wait);
    /// assert_eq!(board.serve(&Request::cancel(2).line()?)?.answer().word, Word::Done);
    /// assert_eq!(board.program(2).unwrap().standing, Standing::Absent);
    /// # Ok::<(), lock_board::Error>(())
    /// ```
    pub fn cancel(program: u8) -> Request {
        Request::new(Verb::Cancel, program, 0)
    }

    fn new(verb: Verb, program: u8, file: u8) -> Request {
        Request {
            verb,
            program,
            file,
            record: 0,
        }
    }

    /// The request line, without a byte 10.
    pub fn line(&self) -> Result<Vec<u8>, Error> {
        written(|line| {
            let (program, file) = (self.program.into(), self.file.into());
            let (verb, record) = (self.verb.number(), self.record.into());
            entry::write(verb, program, file, record, b"", b"", line)
        })
    }
}

/// An ENTER in the making; [`Request::enter`] begins one.
#[derive(Clone, Debug, PartialEq, Eq, Hash)]
#[must_use = "a request does nothing before its line is served"]
pub struct Enter {
    program: u8,
    label: Vec<u8>,
    /// The files to write, to read and to inquire into.
    claims: [Vec<u8>; 3],
}

impl Enter {
    /// The label, at most eight bytes of 32 to 126; blanks fill it up. Without one it is blank.
    pub fn label(mut self, label: impl AsRef<[u8]>) -> Enter {
        self.label = label.as_ref().to_vec();
        self
    }

    /// Adds files that the program may write.
    pub fn write(self, files: impl IntoIterator<Item = u8>) -> Enter {
        self.claim(0, files)
    }

    /// Adds files that the program may only read.
    pub fn read(self, files: impl IntoIterator<Item = u8>) -> Enter {
        self.claim(1, files)
    }

    /// Adds files of which the program may look up and correct single records.
    pub fn inquire(self, files: impl IntoIterator<Item = u8>) -> Enter {
        self.claim(2, files)
    }

    fn claim(mut self, place: usize, files: impl IntoIterator<Item = u8>) -> Enter {
        self.claims[place].extend(files);
        self
    }

    /// The request line, without a byte 10. A file in two claims is written in both; the board
    /// refuses such a line with 10.
    pub fn line(&self) -> Result<Vec<u8>, Error> {
        let mut label = [b' '; LABEL_LEN];
        label
            .get_mut(..self.label.len())
            .ok_or(Error::LabelLength(self.label.len()))?
            .copy_from_slice(&self.label);
        let mut claims = [0; CLAIMS_LEN];
        for (bytes, files) in claims.chunks_exact_mut(SET_LEN).zip(&self.claims) {
            bytes.copy_from_slice(&set(files)?.bits().to_le_bytes());
        }
        written(|line| {
            let (verb, program) = (Verb::Enter.number(), self.program.into());
            entry::write(verb, program, 0, 0, &claims, &label, line)
        })
    }
}

/// The set of these files.
fn set(files: &[u8]) -> Result<Files, Error> {
    files.iter().try_fold(Files::default(), |set, &file| {
        set.with(file).ok_or(Error::ClaimedFile(file))
    })
}

/// The line that the library writes into a buffer long enough for any, or its refusal.
fn written(write: impl FnOnce(&mut [u8]) -> u64) -> Result<Vec<u8>, Error> {
    let mut line = vec![0; LONGEST_LINE];
    match write(&mut line) {
        entry::OUT_OF_RANGE => Err(Error::Refused(Refusal::OutOfRange)),
        entry::BAD_RECORD => Err(Error::Refused(Refusal::BadRecord)),
        entry::BAD_LABEL => Err(Error::Refused(Refusal::BadLabel)),
        len => {
            assert!(
                len <= LONGEST_LINE as u64,
                "the verb is one, and the buffer long enough"
            );
            line.truncate(len as usize);
            Ok(line)
        }
    }
}

#[cfg(test)]
mod tests {
    use super::*;

    fn line(line: Result<Vec<u8>, Error>) -> String {
        String::from_utf8(line.unwrap()).unwrap()
    }

    /// By 01's columns: the verb in 1–6, the program in 7–9, the file in 10–12; and "the record in
    /// 13–17".
    #[test]
    fn verbs_stand_in_their_columns() {
        assert_eq!(line(Request::open(2, 1).line()), "OPEN    2  1");
        assert_eq!(line(Request::close(32, 64).line()), "CLOSE  32 64");
        assert_eq!(line(Request::drop(10, 7).line()), "DROP   10  7");
        assert_eq!(line(Request::leave(1).line()), "LEAVE   1");
        assert_eq!(line(Request::cancel(32).line()), "CANCEL 32");
        assert_eq!(line(Request::fetch(2, 1, 1).line()), "FETCH   2  1    1");
        let last = Request::fetch(32, 64, 65535);
        assert_eq!(line(last.line()), "FETCH  32 6465535");
        assert_eq!(line(Request::return_record(10).line()), "RETURN 10");
    }

    #[test]
    fn claims_are_sets() {
        let enter = Request::enter(4).label("REPRICE").write([2, 2]).write([1]);
        assert_eq!(line(enter.line()), "ENTER   4REPRICE   2  0  0  1  2");
        let none = "ENTER  20          0  0  0";
        assert_eq!(line(Request::enter(20).line()), none);
        let enter = Request::enter(1).label(b"12345678").write([64]);
        let all = enter.read([64]).inquire([64, 3]).read([1]);
        let columns = "ENTER   112345678  1  2  2 64  1 64  3 64";
        assert_eq!(line(all.line()), columns);
        let most = Request::enter(32).write(1..=64).read(1..=64);
        let most = most.inquire(1..=64).line();
        assert_eq!(most.unwrap().len(), LONGEST_LINE);
    }

    #[test]
    fn what_no_line_can_have_is_told() {
        let out_of_range = Err(Error::Refused(Refusal::OutOfRange));
        for program in [0, 33, 255] {
            assert_eq!(Request::enter(program).line(), out_of_range);
            assert_eq!(Request::leave(program).line(), out_of_range);
            assert_eq!(Request::cancel(program).line(), out_of_range);
            assert_eq!(Request::open(program, 1).line(), out_of_range);
            assert_eq!(Request::fetch(program, 1, 0).line(), out_of_range);
            assert_eq!(Request::return_record(program).line(), out_of_range);
        }
        for file in [0, 65, 255] {
            for request in [Request::open, Request::close, Request::drop] {
                assert_eq!(request(1, file).line(), out_of_range);
            }
            assert_eq!(Request::fetch(1, file, 0).line(), out_of_range);
            let wrong = Err(Error::ClaimedFile(file));
            assert_eq!(Request::enter(1).write([1, file]).line(), wrong);
            assert_eq!(Request::enter(1).read([file, 66]).line(), wrong);
            assert_eq!(Request::enter(1).inquire([64, file]).line(), wrong);
        }
        let record = Err(Error::Refused(Refusal::BadRecord));
        assert_eq!(Request::fetch(1, 1, 0).line(), record);
        let long = Request::enter(1).label("123456789");
        assert_eq!(long.line(), Err(Error::LabelLength(9)));
        let bad = Request::enter(1).label("TAB\t");
        assert_eq!(bad.line(), Err(Error::Refused(Refusal::BadLabel)));
    }

    #[test]
    fn errors_name_what_is_wrong() {
        let text = |line: Result<Vec<u8>, Error>| line.unwrap_err().to_string();
        let file = Request::enter(1).write([65]);
        assert_eq!(
            text(file.line()),
            "file 65 is out of range; files are 1 to 64"
        );
        let label = Request::enter(1).label("123456789");
        assert_eq!(text(label.line()), "a label has at most 8 bytes, not 9");
        let program = "refusal 8: The program or file number is out of range";
        assert_eq!(text(Request::leave(33).line()), program);
    }
}
