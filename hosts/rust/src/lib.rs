//! The lock board, for hosts in Rust: a safe wrapper of the seven functions of `libhost.a`.
//!
//! A [`Board`] serves request lines and gives back the journal lines of each:
//!
//! ```
//! use lock_board::{Board, Word};
//!
//! let mut board = Board::new();
//! board.serve(b"ENTER   1STOCK     1  0  0  3")?;
//! let reply = board.serve(b"OPEN    1  3")?;
//! assert_eq!(reply.answer().word, Word::Given);
//! assert_eq!(reply.journal(), b"GIVEN   1  3  0    0\n");
//! # Ok::<(), lock_board::Error>(())
//! ```
//!
//! A refused request changes nothing and tells why:
//!
//! ```
//! # use lock_board::{Board, Refusal};
//! let mut board = Board::new();
//! let reply = board.serve(b"LEAVE   7")?;
//! assert_eq!(reply.refusal(), Some(Refusal::IsAbsent));
//! assert_eq!(Refusal::IsAbsent.number(), 11);
//! assert_eq!(Refusal::IsAbsent.to_string(), "The program has not entered");
//! # Ok::<(), lock_board::Error>(())
//! ```
//!
//! A [`Request`] writes the lines, so that nobody counts columns:
//!
//! ```
//! # use lock_board::Request;
//! let line = Request::enter(1).label("STOCK").write([3]).line()?;
//! assert_eq!(line, b"ENTER   1STOCK     1  0  0  3");
//! # Ok::<(), lock_board::Error>(())
//! ```
#![deny(unsafe_op_in_unsafe_fn)]
#![deny(missing_docs)]

mod board;
mod digraph;
pub mod entry;
mod journal;
mod refusal;
mod request;
mod view;

pub use board::{Board, Error, Reply};
pub use digraph::Reach;
pub use journal::{Line, Word};
pub use refusal::Refusal;
pub use request::{Enter, Request, Verb};
pub use view::{Favoured, Files, Program, Record, Standing};

/// The bytes of a board's image.
pub const IMAGE_LEN: usize = 1827;

/// The bytes of journal that a call asks for from its place on.
pub const JOURNAL_ROOM: usize = 672;

/// The bytes of a journal line, byte 10 among them.
pub const JOURNAL_LINE: usize = 21;

/// The highest place in a journal that a call takes.
pub const HIGHEST_PLACE: u64 = 1_000_000_000;

/// The bytes of the longest request line in form.
pub const LONGEST_LINE: usize = 602;

/// The bytes to which a host may cut a longer request line: it is refused with the same number.
pub const CUT_LINE: usize = 603;

/// The highest number of a program, and the most programs of an order.
pub const PROGRAMS: usize = 32;

/// The highest number of a file.
pub const FILES: usize = 64;

/// The highest number of a record.
pub const RECORDS: usize = 65535;

/// The bytes of a set of files.
pub const SET_LEN: usize = 8;

/// The bytes of the claims of an ENTER: the files to write, to read and to inquire into, a set each.
pub const CLAIMS_LEN: usize = 24;

/// The bytes of the label in an ENTER line.
pub const LABEL_LEN: usize = 8;

/// The bytes of a matrix: four for each program.
pub const REACH_LEN: usize = 128;

/// The bytes of buffer that a loop asks for.
pub const LOOP_ROOM: usize = 32;

/// The programs that are admitted, at most, while one waits.
pub const MOST_PASSED: u8 = 8;
