use crate::{entry, Line, Refusal, Word};
use crate::{FILES, IMAGE_LEN, JOURNAL_LINE, JOURNAL_ROOM, LABEL_LEN, PROGRAMS};
use std::error;
use std::fmt;

/// A sound board, held as its image.
#[derive(Clone, PartialEq, Eq)]
pub struct Board {
    image: [u8; IMAGE_LEN],
}

/// The journal lines of one request: first the answer, then those for other programs.
#[derive(Clone, Debug, PartialEq, Eq)]
pub struct Reply {
    answer: Line,
    settled: Vec<Line>,
    journal: Vec<u8>,
}

/// Why there is no board, no reply or no request line.
#[derive(Clone, Copy, Debug, PartialEq, Eq)]
#[non_exhaustive]
pub enum Error {
    /// The image has this many bytes and not [`IMAGE_LEN`]; 1,187 are those of an image of version
    /// 1.5 or 1.6, 1,155 of one before: its board is to be emptied with that version.
    ImageLength(usize),
    /// Refused with 1 or 2: the board is as it was and nothing was written. Or a
    /// [`Request`](crate::Request) with 8, 19 or 6: there is no such line. Or
    /// [`loop_for`](Board::loop_for) with 8: there is no such program.
    Refused(Refusal),
    /// The label of an ENTER has this many bytes, more than [`LABEL_LEN`].
    LabelLength(usize),
    /// This file of a claim is not 1 to [`FILES`].
    ClaimedFile(u8),
    /// The library wrote something that is no journal line: it is not the one that this crate is for.
    Journal,
}

impl Board {
    /// The empty board.
    pub fn new() -> Board {
        let mut image = [0; IMAGE_LEN];
        entry::empty(&mut image);
        Board { image }
    }

    /// The board of an image, which must have [`IMAGE_LEN`] bytes and hold a sound board.
    ///
    /// ```
    /// use lock_board::{Board, Error, Refusal, IMAGE_LEN};
    ///
    /// let mut image = *Board::new().image();
    /// assert!(Board::from_image(&image).is_ok());
    /// image[32] = 4; // no standing of a program
    /// assert_eq!(Board::from_image(&image), Err(Error::Refused(Refusal::NotSound)));
    /// assert_eq!(Board::from_image(&image[1..]), Err(Error::ImageLength(IMAGE_LEN - 1)));
    /// ```
    pub fn from_image(image: &[u8]) -> Result<Board, Error> {
        let image: [u8; IMAGE_LEN] = image
            .try_into()
            .map_err(|_| Error::ImageLength(image.len()))?;
        match entry::order(&image, &mut [0; PROGRAMS]) {
            entry::UNSOUND => Err(Error::Refused(Refusal::NotSound)),
            _ => Ok(Board { image }),
        }
    }

    /// The image, to keep the board until later or to hand it to another host.
    pub fn image(&self) -> &[u8; IMAGE_LEN] {
        &self.image
    }

    /// The completion order that the board carries: each admitted program once, none held back by
    /// a later one.
    ///
    /// ```
    /// use lock_board::Board;
    ///
    /// let mut board = Board::new();
    /// assert_eq!(board.order(), []);
    /// board.serve(b"ENTER   1STOCK     1  0  0  3")?;
    /// board.serve(b"ENTER   2BILLS     1  0  0  3")?;
    /// board.serve(b"OPEN    2  3")?;
    /// assert_eq!(board.order(), [2, 1]);
    /// # Ok::<(), lock_board::Error>(())
    /// ```
    pub fn order(&self) -> Vec<u8> {
        let mut order = vec![0; PROGRAMS];
        let programs = entry::order(&self.image, &mut order);
        assert!(programs <= PROGRAMS as u64, "a sound board has an order");
        order.truncate(programs as usize);
        order
    }

    /// Serves one request line, given without its byte 10.
    ///
    /// A refusal with 3 to 7, 9 to 16, 18, 20 or 21 is a reply too, with one REFUSE line. An error
    /// never comes from a board that was made by [`new`](Board::new) or
    /// [`from_image`](Board::from_image).
    pub fn serve(&mut self, line: &[u8]) -> Result<Reply, Error> {
        let mut journal = vec![0; JOURNAL_ROOM];
        match entry::line(&mut self.image, line, &mut journal, 0) {
            entry::UNSOUND => Err(Error::Refused(Refusal::NotSound)),
            entry::JOURNAL_FULL => Err(Error::Refused(Refusal::JournalFull)),
            place => {
                journal.truncate(usize::try_from(place).map_err(|_| Error::Journal)?);
                Reply::read(journal).ok_or(Error::Journal)
            }
        }
    }
}

impl Reply {
    fn read(journal: Vec<u8>) -> Option<Reply> {
        let mut lines = journal
            .chunks(JOURNAL_LINE)
            .map(|bytes| Line::read(bytes.try_into().ok()?));
        let answer = lines.next()??;
        let settled = lines.collect::<Option<Vec<Line>>>()?;
        Some(Reply {
            answer,
            settled,
            journal,
        })
    }

    /// The answer to the request itself: the first line.
    pub fn answer(&self) -> Line {
        self.answer
    }

    /// The lines after the answer: who got a record that was returned, and what settling did; or,
    /// after the HELD of an ENTER, the FAVOUR line of a waiter that
    /// [`MOST_PASSED`](crate::MOST_PASSED) programs have passed.
    ///
    /// ```
    /// use lock_board::{Board, Word};
    ///
    /// let mut board = Board::new();
    /// board.serve(b"ENTER   1STOCK     1  0  0  3")?;
    /// board.serve(b"ENTER   2BILLS     1  0  0  3")?;
    /// board.serve(b"OPEN    1  3")?;
    /// assert_eq!(board.serve(b"OPEN    2  3")?.answer().word, Word::Wait);
    /// let reply = board.serve(b"LEAVE   1")?;
    /// assert_eq!(reply.answer().word, Word::Done);
    /// assert_eq!(reply.settled()[0].word, Word::Given);
    /// assert_eq!(reply.settled()[0].program, 2);
    /// # Ok::<(), lock_board::Error>(())
    /// ```
    pub fn settled(&self) -> &[Line] {
        &self.settled
    }

    /// All lines: the answer and those after it.
    pub fn lines(&self) -> impl Iterator<Item = Line> + '_ {
        std::iter::once(self.answer).chain(self.settled.iter().copied())
    }

    /// Why the request was refused, if it was.
    pub fn refusal(&self) -> Option<Refusal> {
        self.answer.refusal
    }

    /// Whether the program of an OPEN or a FETCH has to wait.
    pub fn waits(&self) -> bool {
        matches!(self.answer.word, Word::Wait | Word::Unsafe)
    }

    /// The lines as the board wrote them, each of [`JOURNAL_LINE`] bytes.
    pub fn journal(&self) -> &[u8] {
        &self.journal
    }
}

impl Default for Board {
    fn default() -> Board {
        Board::new()
    }
}

impl fmt::Debug for Board {
    fn fmt(&self, f: &mut fmt::Formatter) -> fmt::Result {
        f.debug_struct("Board").finish_non_exhaustive()
    }
}

impl fmt::Display for Error {
    fn fmt(&self, f: &mut fmt::Formatter) -> fmt::Result {
        match self {
            Error::ImageLength(len) => write!(f, "an image has {IMAGE_LEN} bytes, not {len}"),
            Error::Refused(refusal) => write!(f, "refusal {}: {refusal}", refusal.number()),
            Error::LabelLength(len) => {
                write!(f, "a label has at most {LABEL_LEN} bytes, not {len}")
            }
            Error::ClaimedFile(file) => {
                write!(f, "file {file} is out of range; files are 1 to {FILES}")
            }
            Error::Journal => f.write_str("the library wrote no journal line"),
        }
    }
}

impl error::Error for Error {}
