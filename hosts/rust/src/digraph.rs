//! Who holds back whom over paths, and the loops for which files are not given.

use crate::view::low_first;
use crate::{entry, Board, Error, Refusal, LOOP_ROOM, PROGRAMS, REACH_LEN};

/// Which admitted program reaches which: the matrix of who holds back whom, closed over paths.
#[derive(Clone, Copy, Debug, PartialEq, Eq, Hash)]
pub struct Reach {
    rows: [u32; PROGRAMS],
}

impl Reach {
    /// Whether a path of one or more steps leads from the first program to the second, each step
    /// from one program to another that it holds back. A number that is no admitted program
    /// reaches nobody, and nobody reaches it.
    pub fn reaches(&self, from: u8, to: u8) -> bool {
        match (place(from), place(to)) {
            (Some(from), Some(to)) => self.rows[to] >> from & 1 == 1,
            _ => false,
        }
    }

    /// The programs that reach this one, rising.
    pub fn reaching(&self, program: u8) -> impl Iterator<Item = u8> + '_ {
        (1..=PROGRAMS as u8).filter(move |&from| self.reaches(from, program))
    }
}

/// A program's place in a row and among the rows; `None` for a number that is no program.
fn place(program: u8) -> Option<usize> {
    let place = usize::from(program).checked_sub(1)?;
    (place < PROGRAMS).then_some(place)
}

impl Board {
    /// Who reaches whom. On a board no program reaches itself, since it has a completion order.
    ///
    /// ```
    /// use lock_board::Board;
    ///
    /// let mut board = Board::new();
    /// board.serve(b"ENTER   1STOCK     2  0  0  1  2")?;
    /// board.serve(b"ENTER   2BILLS     2  0  0  2  3")?;
    /// board.serve(b"ENTER   3LISTS     0  1  0  3")?;
    /// board.serve(b"OPEN    1  2")?;
    /// board.serve(b"OPEN    2  3")?;
    /// let reach = board.reach();
    /// assert!(reach.reaches(1, 2) && reach.reaches(2, 3));
    /// assert!(reach.reaches(1, 3)); // over 2
    /// assert!(!reach.reaches(3, 1));
    /// assert_eq!(reach.reaching(3).collect::<Vec<_>>(), [1, 2]);
    /// # Ok::<(), lock_board::Error>(())
    /// ```
    pub fn reach(&self) -> Reach {
        let mut bytes = [0; REACH_LEN];
        let answer = entry::reach(self.image(), &mut bytes);
        assert_eq!(answer, REACH_LEN as u64, "a sound board has a matrix");
        let mut rows = [0; PROGRAMS];
        for (row, four) in rows.iter_mut().zip(bytes.chunks_exact(4)) {
            *row = low_first(four) as u32;
        }
        Reach { rows }
    }

    /// A loop for which a waiting program does not get its file: two or more different programs, of
    /// which with the file given each would hold back the next, and the last the first. After an
    /// UNSAFE it says why. Which loop it is, and where it begins, is free. Empty if the program does
    /// not wait for a file; refused with 8 if the number is not 1 to 32.
    ///
    /// ```
    /// use lock_board::{Board, Word};
    ///
    /// let mut board = Board::new();
    /// board.serve(b"ENTER   1STOCK     2  0  0  1  2")?;
    /// board.serve(b"ENTER   2BILLS     2  0  0  1  2")?;
    /// board.serve(b"OPEN    1  1")?;
    /// assert_eq!(board.serve(b"OPEN    2  2")?.answer().word, Word::Unsafe);
    /// let mut list = board.loop_for(2)?;
    /// assert!(board.is_loop(2, 2, &list));
    /// list.sort();
    /// assert_eq!(list, [1, 2]);
    /// assert_eq!(board.loop_for(1)?, []);
    /// # Ok::<(), lock_board::Error>(())
    /// ```
    pub fn loop_for(&self, program: u8) -> Result<Vec<u8>, Error> {
        let mut list = vec![0; LOOP_ROOM];
        match entry::loop_for(self.image(), program.into(), &mut list) {
            entry::OUT_OF_RANGE => Err(Error::Refused(Refusal::OutOfRange)),
            programs => {
                assert!(
                    programs <= LOOP_ROOM as u64,
                    "the board is sound, and the buffer long enough"
                );
                list.truncate(programs as usize);
                Ok(list)
            }
        }
    }

    /// Whether a list is such a loop, if this file is given to this program. No list is one if the
    /// program is not admitted or the file is in no claim of it.
    ///
    /// ```
    /// use lock_board::Board;
    ///
    /// let mut board = Board::new();
    /// board.serve(b"ENTER   1STOCK     2  0  0  1  2")?;
    /// board.serve(b"ENTER   2BILLS     2  0  0  1  2")?;
    /// board.serve(b"OPEN    1  1")?;
    /// assert!(board.is_loop(2, 2, &[1, 2]) && board.is_loop(2, 2, &[2, 1]));
    /// assert!(!board.is_loop(2, 2, &[2]) && !board.is_loop(1, 2, &[1, 2]));
    /// # Ok::<(), lock_board::Error>(())
    /// ```
    pub fn is_loop(&self, program: u8, file: u8, list: &[u8]) -> bool {
        let answer = entry::is_loop(self.image(), program.into(), file.into(), list);
        assert!(answer <= 1, "the board is sound");
        answer == 1
    }
}
