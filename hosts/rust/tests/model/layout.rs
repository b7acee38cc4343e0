//! Every number of documents 01 and 02 on which the form of lines, journal and
//! image depends, said once: what the documents state is quoted, all else follows
//! from it. Where they also state what follows, that is held to their number. The
//! other test programs take this file by its path.

use std::ops::Range;

/// "Programs are 1 to 32, files 1 to 64".
pub const PROGRAMS: usize = 32;
pub const FILES: usize = 64;
/// "A program may FETCH one record, 1 to 65,535".
pub const RECORDS: usize = 65_535;
/// "No waiter has been passed by more than 8 admissions."
pub const MOST_PASSES: usize = 8;

/// "Numbers are decimal, right-justified in three columns": a program, a file or a
/// count of files, a refusal.
pub const PROGRAM_COLUMNS: usize = 3;
pub const FILE_COLUMNS: usize = 3;
pub const REFUSAL_COLUMNS: usize = 3;
/// "The record in 13–17", "five record columns".
pub const RECORD_COLUMNS: usize = 5;

/// The next bytes after a part, so many.
const fn next(before: Range<usize>, len: usize) -> Range<usize> {
    before.end..before.end + len
}

/// "Request lines"; ranges of bytes, which are counted from 0 and columns from 1.
pub mod line {
    use super::*;

    /// "Columns 1–6: ENTER, OPEN, CLOSE, DROP or LEAVE, blanks after."
    pub const VERB: Range<usize> = 0..6;
    /// "Columns 7–9: program." With it LEAVE, CANCEL ("a 9-byte line") and RETURN end:
    /// "RETURN has 9."
    pub const PROGRAM: Range<usize> = next(VERB, PROGRAM_COLUMNS);
    /// "OPEN, CLOSE, DROP: columns 10–12 file."
    pub const FILE: Range<usize> = next(PROGRAM, FILE_COLUMNS);
    /// "FETCH lines have the file in columns 10–12 and the record in 13–17".
    pub const RECORD: Range<usize> = next(FILE, RECORD_COLUMNS);
    /// "ENTER: 10–17 label, 18–20 count w, 21–23 count r"; "a third count in columns
    /// 24–26".
    pub const LABEL: Range<usize> = next(PROGRAM, 8);
    pub const COUNT_W: Range<usize> = next(LABEL, FILE_COLUMNS);
    pub const COUNT_R: Range<usize> = next(COUNT_W, FILE_COLUMNS);
    pub const COUNT_J: Range<usize> = next(COUNT_R, FILE_COLUMNS);
    /// What comes before the files. 01: "ENTER under 23, or, after columns 7–23, not
    /// 23 + 3(w + r)"; the third count makes it 26 and 26 + 3(w + r + j).
    pub const BEFORE_FILES: usize = COUNT_J.end;
    /// "The longest line has 602 bytes; a longer one is cut to 603."
    pub const LONGEST: usize = enter_length(3 * FILES);
    pub const CUT: usize = LONGEST + 1;

    const _: () = assert!(PROGRAM.end == 9 && FILE.end == 12 && LABEL.end == 17);
    const _: () = assert!(RECORD.start == 12 && RECORD.end == 17 && COUNT_J.start == 23);
    const _: () = assert!(BEFORE_FILES == 26 && LONGEST == 602 && CUT == 603);

    /// The bytes of an ENTER line with so many files.
    pub const fn enter_length(files: usize) -> usize {
        BEFORE_FILES + FILE_COLUMNS * files
    }

    /// One of the files of an ENTER line, counted from 0.
    pub const fn claimed(n: usize) -> Range<usize> {
        enter_length(n)..enter_length(n + 1)
    }
}

/// "Journal", and the room that check 2 asks for.
pub mod journal {
    use super::*;

    /// "Word in 1–6, blanks after; program 7–9; file 10–12; refusal 13–15".
    pub const WORD: Range<usize> = 0..6;
    pub const PROGRAM: Range<usize> = next(WORD, PROGRAM_COLUMNS);
    pub const FILE: Range<usize> = next(PROGRAM, FILE_COLUMNS);
    pub const REFUSAL: Range<usize> = next(FILE, REFUSAL_COLUMNS);
    /// "The journal line has five record columns after the refusal .., so 20".
    pub const RECORD: Range<usize> = next(REFUSAL, RECORD_COLUMNS);
    pub const COLUMNS: usize = RECORD.end;
    /// And byte 10.
    pub const LINE: usize = COLUMNS + 1;
    /// "At most 32 lines follow one call."
    pub const MOST_LINES: usize = PROGRAMS;
    /// "Place + 512 above the buffer's length"; "the 512 of check 2 becomes 672".
    pub const ROOM: usize = MOST_LINES * LINE;
    /// "Journal place above 1,000,000,000".
    pub const HIGHEST_PLACE: u64 = 1_000_000_000;

    const _: () = assert!(COLUMNS == 20 && MOST_LINES == 32 && ROOM == 672);
}

/// "Image and hosts"; places of bytes, counted from 0.
pub mod image {
    use super::*;

    /// "Per program V, Q, W, R (8 bytes each, lowest first, file 1 the lowest bit),
    /// standing .., awaited file". Where they begin in the bytes of a program. "The
    /// awaited-file byte of a record's user holds its file."
    pub const SET: usize = FILES / 8;
    pub const V: usize = 0;
    pub const Q: usize = V + SET;
    pub const W: usize = Q + SET;
    pub const R: usize = W + SET;
    pub const STANDING: usize = R + SET;
    pub const AWAITED: usize = STANDING + 1;
    /// The bytes of one program.
    pub const PROGRAM: usize = AWAITED + 1;
    /// "Then waiting line (32), entry line (32), favoured, number at favouring,
    /// leaves".
    pub const WAITING_LINE: usize = PROGRAM * PROGRAMS;
    pub const ENTRY_LINE: usize = WAITING_LINE + PROGRAMS;
    pub const FAVOURED: usize = ENTRY_LINE + PROGRAMS;
    pub const NUMBER: usize = FAVOURED + 1;
    pub const LEAVES: usize = NUMBER + 1;
    /// "The image gains 32 count bytes at its end, 1,187 in all".
    pub const COUNTS: usize = LEAVES + 1;
    /// "The image gains at its end, per program, J and I (8 bytes each), record in use
    /// and awaited record (2 each, low byte first, 0 for none), 1,827 in all." Where
    /// these second rows begin, and the fields in one.
    pub const INQUIRY: usize = COUNTS + PROGRAMS;
    pub const J: usize = 0;
    pub const I: usize = J + SET;
    pub const RECORD_IN_USE: usize = I + SET;
    pub const AWAITED_RECORD: usize = RECORD_IN_USE + RECORD;
    pub const RECORD: usize = 2;
    /// The bytes of one program's second row.
    pub const INQUIRY_LEN: usize = AWAITED_RECORD + RECORD;
    pub const LENGTH: usize = INQUIRY + INQUIRY_LEN * PROGRAMS;

    const _: () = assert!(SET == 8 && COUNTS == 1155 && INQUIRY == 1187);
    const _: () = assert!(INQUIRY_LEN == 20 && LENGTH == 1827);
}
