//! The C functions that all three example hosts share (hosts/c), for the host in Rust.

use std::ffi::{c_char, c_int, c_ulong, CString};
use std::io;
use std::os::unix::ffi::OsStringExt;
use std::path::PathBuf;

use lock_board::{Board, Reply, IMAGE_LEN};

mod c {
    use super::{c_char, c_int, c_ulong};

    extern "C" {
        pub fn session_begin();
        pub fn session_journal_failed(line: c_ulong, reason: c_int);
        pub fn image_file_open(path: *const c_char, image: *mut u8) -> c_int;
        pub fn image_file_save(image: *const u8, line: c_ulong) -> c_int;
        pub fn list_refusals() -> c_int;
        pub fn show_version() -> c_int;
        pub fn explain_answer(
            text: *mut u8,
            text_len: usize,
            number: c_ulong,
            image: *const u8,
            labels: *mut u8,
            line: *const u8,
            line_len: usize,
            journal: *const u8,
        ) -> usize;
    }
}

/// What went wrong has been told on standard error.
#[derive(Debug)]
pub struct Told;

fn told(outcome: c_int) -> Result<(), Told> {
    if outcome == 0 {
        Ok(())
    } else {
        Err(Told)
    }
}

/// Called first: writes that fail are told and do not end the process.
pub fn begin() {
    // SAFETY: it takes nothing.
    unsafe { c::session_begin() }
}

/// Takes the image file for this process, until it ends, and reads or makes it.
pub fn open_image(path: PathBuf) -> Result<Board, Told> {
    let mut image = [0; IMAGE_LEN];
    let path = CString::new(path.into_os_string().into_vec()).expect("an argument has no byte 0");
    // SAFETY: the path ends with a byte 0 and the image has its length.
    told(unsafe { c::image_file_open(path.as_ptr(), image.as_mut_ptr()) })?;
    Board::from_image(&image).map_err(|_| Told) // not met: the file was found sound
}

/// Saves the board, before the line's journal is shown. Without an image file it does nothing.
pub fn save_image(board: &Board, line: usize) -> Result<(), Told> {
    // SAFETY: the image has its length.
    told(unsafe { c::image_file_save(board.image().as_ptr(), line as c_ulong) })
}

/// Tells that the journal of a line cannot be written.
pub fn journal_failed(line: usize, error: io::Error) -> Told {
    // SAFETY: it takes numbers.
    unsafe { c::session_journal_failed(line as c_ulong, error.raw_os_error().unwrap_or(0)) };
    Told
}

/// The labels of the programs that have entered, as explain.h has them.
pub type Labels = [u8; 256];

/// What the operator sees of a line that was served: the text of a refusal, or nothing.
pub fn explain(
    board: &Board,
    labels: &mut Labels,
    number: usize,
    line: &[u8],
    reply: &Reply,
) -> String {
    let mut text = [0; 1024];
    // SAFETY: text and line are handed over with their lengths; image, labels and journal have
    // the lengths that explain.h asks for.
    let len = unsafe {
        c::explain_answer(
            text.as_mut_ptr(),
            text.len(),
            number as c_ulong,
            board.image().as_ptr(),
            labels.as_mut_ptr(),
            line.as_ptr(),
            line.len(),
            reply.journal().as_ptr(),
        )
    };
    String::from_utf8_lossy(&text[..len]).into_owned()
}

/// Lists the refusals on standard output.
pub fn list_refusals() -> Result<(), Told> {
    // SAFETY: it takes nothing.
    told(unsafe { c::list_refusals() })
}

/// Shows the version, and the kit that proved the board, on standard output.
pub fn show_version() -> Result<(), Told> {
    // SAFETY: it takes nothing.
    told(unsafe { c::show_version() })
}
