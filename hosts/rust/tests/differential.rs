//! Compares the library, through its C entry, with a model of the documents: on
//! random sessions, damaged lines, damaged images and all kinds of journals, on
//! lines that it writes, and on matrices and loops. Every answer, image, journal
//! byte and written byte is compared, with guard bytes around each buffer; a loop,
//! which is free, is judged by the model's checker. Compares also what the hosts
//! show for a person.
//!
//! LOCK_BOARD_SEED chooses another seed, LOCK_BOARD_LINES another number of
//! calls (200,000). A difference is printed as the smallest session that shows
//! it; `-- --nocapture` prints seed and counters of a run without one.
//! LOCK_BOARD_WRITE=1 writes files of expected answers anew, by the model
//! (cases/mod.rs).
//! Run it with --release.

extern crate lock_board as _;

mod cases;
mod compare;
mod expected;
mod generate;
mod model;
mod running;
