//! The entry of `libhost.a` on slices, as it is: for hosts that keep image and journal themselves.
//!
//! Slices cannot be null, and the borrow checker keeps these from overlapping; the board checks
//! all else. So any bytes, lengths and numbers are safe. No function keeps any state.

/// The answer for refusal 1.
pub const UNSOUND: u64 = u64::MAX;

/// The answer for refusal 2.
pub const JOURNAL_FULL: u64 = u64::MAX - 1;

/// The answer for refusal 3.
pub const NO_VERB: u64 = u64::MAX - 2;

/// The answer for refusal 6.
pub const BAD_LABEL: u64 = u64::MAX - 5;

/// The answer for refusal 8.
pub const OUT_OF_RANGE: u64 = u64::MAX - 7;

/// The answer for refusal 17.
pub const BUFFER_SHORT: u64 = u64::MAX - 16;

/// The answer for refusal 19.
pub const BAD_RECORD: u64 = u64::MAX - 18;

mod c {
    extern "C" {
        pub fn lock_board_empty(image: *mut u8, image_len: usize) -> u64;
        pub fn lock_board_line(
            image: *mut u8,
            image_len: usize,
            line: *const u8,
            line_len: usize,
            journal: *mut u8,
            journal_len: usize,
            place: u64,
        ) -> u64;
        pub fn lock_board_order(
            image: *const u8,
            image_len: usize,
            order: *mut u8,
            order_len: usize,
        ) -> u64;
        pub fn lock_board_write(
            verb: u64,
            program: u64,
            file: u64,
            record: u64,
            claims: *const u8,
            claims_len: usize,
            label: *const u8,
            label_len: usize,
            line: *mut u8,
            line_len: usize,
        ) -> u64;
        pub fn lock_board_reach(
            image: *const u8,
            image_len: usize,
            rows: *mut u8,
            rows_len: usize,
        ) -> u64;
        pub fn lock_board_loop(
            image: *const u8,
            image_len: usize,
            program: u64,
            list: *mut u8,
            list_len: usize,
        ) -> u64;
        pub fn lock_board_is_loop(
            image: *const u8,
            image_len: usize,
            program: u64,
            file: u64,
            list: *const u8,
            list_len: usize,
        ) -> u64;
    }
}

/// Fills an image of [`IMAGE_LEN`](crate::IMAGE_LEN) bytes with the empty board and answers 0.
/// An image of another length stays as it was; the answer is then [`UNSOUND`].
///
/// ```
/// let mut image = [1; lock_board::IMAGE_LEN];
/// assert_eq!(lock_board::entry::empty(&mut image), 0);
/// assert_eq!(image, *lock_board::Board::new().image());
/// ```
pub fn empty(image: &mut [u8]) -> u64 {
    // SAFETY: the slice gives a pointer that is not null and its own length.
    unsafe { c::lock_board_empty(image.as_mut_ptr(), image.len()) }
}

/// Serves one request line on the board that the image holds, writes its journal lines from the
/// place on and answers the new place, [`UNSOUND`] or [`JOURNAL_FULL`].
///
/// ```
/// use lock_board::{entry, IMAGE_LEN, JOURNAL_ROOM};
///
/// let (mut image, mut journal) = ([0; IMAGE_LEN], [0; JOURNAL_ROOM]);
/// entry::empty(&mut image);
/// assert_eq!(entry::line(&mut image, b"LEAVE   1", &mut journal, 0), 21);
/// assert_eq!(&journal[..21], b"REFUSE  1  0 11    0\n");
/// assert_eq!(entry::line(&mut image, b"LEAVE   1", &mut journal, 1), entry::JOURNAL_FULL);
/// ```
pub fn line(image: &mut [u8], line: &[u8], journal: &mut [u8], place: u64) -> u64 {
    // SAFETY: the slices give pointers that are not null and their own lengths; `image` and
    // `journal` are borrowed for this call alone, so no two of the three overlap.
    unsafe {
        c::lock_board_line(
            image.as_mut_ptr(),
            image.len(),
            line.as_ptr(),
            line.len(),
            journal.as_mut_ptr(),
            journal.len(),
            place,
        )
    }
}

/// Writes the completion order of the image's board, a byte for each admitted program, from the
/// buffer's start on and answers how many, [`UNSOUND`] or [`BUFFER_SHORT`].
///
/// ```
/// use lock_board::{entry, IMAGE_LEN, JOURNAL_ROOM, PROGRAMS};
///
/// let (mut image, mut journal) = ([0; IMAGE_LEN], [0; JOURNAL_ROOM]);
/// entry::empty(&mut image);
/// entry::line(&mut image, b"ENTER   7LISTS     0  0  0", &mut journal, 0);
/// let mut order = [0; PROGRAMS];
/// assert_eq!(entry::order(&image, &mut order), 1);
/// assert_eq!(order[..2], [7, 0]);
/// assert_eq!(entry::order(&image, &mut []), entry::BUFFER_SHORT);
/// ```
pub fn order(image: &[u8], order: &mut [u8]) -> u64 {
    // SAFETY: the slices give pointers that are not null and their own lengths; `order` is
    // borrowed for this call alone, so the two do not overlap.
    unsafe { c::lock_board_order(image.as_ptr(), image.len(), order.as_mut_ptr(), order.len()) }
}

/// Writes the request line of a call, from the buffer's start on and without a byte 10, and answers
/// its length, [`NO_VERB`], [`OUT_OF_RANGE`], [`BAD_RECORD`], [`BAD_LABEL`] or [`BUFFER_SHORT`].
/// The verbs are those of [`Verb::number`](crate::Verb::number). The claims have
/// [`CLAIMS_LEN`](crate::CLAIMS_LEN) bytes: the sets of files to write, to read and to inquire into,
/// each with its lowest byte first and file 1 the lowest bit; of another length they are out of
/// range. What a verb does not use is not looked at. [`Request`](crate::Request) is easier to use.
///
/// ```
/// use lock_board::{entry, Verb, CLAIMS_LEN, LONGEST_LINE, SET_LEN};
///
/// let mut line = [0; LONGEST_LINE];
/// let mut claims = [0; CLAIMS_LEN];
/// claims[0] = 0b10; // file 2, to write
/// claims[SET_LEN] = 0b1; // file 1, to read
/// assert_eq!(entry::write(Verb::Enter.number(), 2, 0, 0, &claims, b"ORDERS  ", &mut line), 32);
/// assert_eq!(&line[..33], b"ENTER   2ORDERS    1  1  0  2  1\0");
/// let leave = Verb::Leave.number();
/// assert_eq!(entry::write(leave, 2, 0, 0, b"", b"", &mut line[..8]), entry::BUFFER_SHORT);
/// assert_eq!(entry::write(9, 2, 0, 0, b"", b"", &mut line), entry::NO_VERB);
/// ```
pub fn write(
    verb: u64,
    program: u64,
    file: u64,
    record: u64,
    claims: &[u8],
    label: &[u8],
    line: &mut [u8],
) -> u64 {
    // SAFETY: the slices give pointers that are not null and their own lengths; `line` is
    // borrowed for this call alone, so it overlaps neither of the others, which are only read.
    unsafe {
        c::lock_board_write(
            verb,
            program,
            file,
            record,
            claims.as_ptr(),
            claims.len(),
            label.as_ptr(),
            label.len(),
            line.as_mut_ptr(),
            line.len(),
        )
    }
}

/// Writes the matrix of the image's board from the buffer's start on, four bytes for each program
/// 1 to 32, and answers [`REACH_LEN`](crate::REACH_LEN), [`UNSOUND`] or [`BUFFER_SHORT`]. In the row
/// of a program, a number of 32 bits with its lowest byte first, bit i - 1 is set if program i
/// reaches it: over a path of one or more steps, each from an admitted program to one that it
/// holds back. [`Board::reach`](crate::Board::reach) is easier to use.
///
/// ```
/// use lock_board::{entry, Board, REACH_LEN};
///
/// let mut board = Board::new();
/// board.serve(b"ENTER   1STOCK     1  0  0  3")?;
/// board.serve(b"ENTER   2BILLS     1  0  0  3")?;
/// board.serve(b"OPEN    2  3")?;
/// let mut rows = [0; REACH_LEN];
/// assert_eq!(entry::reach(board.image(), &mut rows), 128);
/// assert_eq!(rows[..8], [0b10, 0, 0, 0, 0, 0, 0, 0]); // 2 reaches 1, and nobody 2
/// assert_eq!(entry::reach(board.image(), &mut rows[1..]), entry::BUFFER_SHORT);
/// # Ok::<(), lock_board::Error>(())
/// ```
pub fn reach(image: &[u8], rows: &mut [u8]) -> u64 {
    // SAFETY: the slices give pointers that are not null and their own lengths; `rows` is
    // borrowed for this call alone, so the two do not overlap.
    unsafe { c::lock_board_reach(image.as_ptr(), image.len(), rows.as_mut_ptr(), rows.len()) }
}

/// Writes a loop of a waiting program, a byte for each program in it, from the buffer's start on
/// and answers how many; 0 if the program does not wait for a file; [`UNSOUND`], [`OUT_OF_RANGE`] or
/// [`BUFFER_SHORT`], if the buffer has not [`LOOP_ROOM`](crate::LOOP_ROOM) bytes.
/// [`Board::loop_for`](crate::Board::loop_for) says what a loop is.
///
/// ```
/// use lock_board::{entry, Board, LOOP_ROOM};
///
/// let board = Board::new();
/// let mut list = [0; LOOP_ROOM];
/// assert_eq!(entry::loop_for(board.image(), 1, &mut list), 0);
/// assert_eq!(entry::loop_for(board.image(), 33, &mut list), entry::OUT_OF_RANGE);
/// assert_eq!(entry::loop_for(board.image(), 1, &mut list[1..]), entry::BUFFER_SHORT);
/// ```
pub fn loop_for(image: &[u8], program: u64, list: &mut [u8]) -> u64 {
    // SAFETY: the slices give pointers that are not null and their own lengths; `list` is
    // borrowed for this call alone, so the two do not overlap.
    unsafe {
        c::lock_board_loop(
            image.as_ptr(),
            image.len(),
            program,
            list.as_mut_ptr(),
            list.len(),
        )
    }
}

/// Answers 1 if the list, a byte for each program, is a loop with the file given to the program,
/// otherwise 0; or [`UNSOUND`]. Any list may be asked about.
/// [`Board::is_loop`](crate::Board::is_loop) says more.
///
/// ```
/// use lock_board::{entry, Board};
///
/// let board = Board::new();
/// assert_eq!(entry::is_loop(board.image(), 1, 1, &[1, 2]), 0);
/// assert_eq!(entry::is_loop(&[], 1, 1, &[1, 2]), entry::UNSOUND);
/// ```
pub fn is_loop(image: &[u8], program: u64, file: u64, list: &[u8]) -> u64 {
    // SAFETY: the slices give pointers that are not null and their own lengths; the library only
    // reads them, so they may overlap.
    unsafe {
        c::lock_board_is_loop(
            image.as_ptr(),
            image.len(),
            program,
            file,
            list.as_ptr(),
            list.len(),
        )
    }
}
