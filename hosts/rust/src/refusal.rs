use std::error;
use std::fmt;

/// Why a request was refused. `docs/REFUSALS.md` says what to do about each.
#[derive(Clone, Copy, Debug, PartialEq, Eq, Hash)]
#[repr(u8)]
#[non_exhaustive]
pub enum Refusal {
    /// The board is not sound, or the image is not 1,827 bytes or not of its layout.
    NotSound = 1,
    /// The place is above 1,000,000,000, or place + 672 is above the journal's length.
    JournalFull,
    /// The line has under 6 bytes, or columns 1–6 are no verb; or a line of no verb is to be written.
    NoVerb,
    /// The line has not the length that its verb, and for ENTER its counts, ask for.
    BadLength,
    /// A number is not in form or range.
    BadNumber,
    /// A byte of the label is outside 32 to 126; or one to be written has not eight bytes.
    BadLabel,
    /// The files of one group are not strictly rising.
    NotRising,
    /// The program or file is out of range. No request line meets this.
    OutOfRange,
    /// The program that asks to enter is not absent.
    NotAbsent,
    /// Two of the claims have a file in common.
    ClaimsMeet,
    /// The program is absent.
    IsAbsent,
    /// The program is held.
    IsHeld,
    /// The program is waiting.
    IsWaiting,
    /// The file is in none of the claims.
    NotClaimed,
    /// The file is open by the program.
    IsOpen,
    /// The file is not open by the program.
    NotOpen,
    /// The buffer for an order, a line or a matrix is shorter than that, or one for a loop than 32
    /// bytes.
    BufferShort,
    /// The program that is to be cancelled is running.
    IsRunning,
    /// The record is not 1 to 65,535. No request line meets this.
    BadRecord,
    /// The file is not open for inquiry by the program, or no record is in use by it.
    NoRecord,
    /// The program has a record in use, and asks for something else than to return it or to leave.
    HasRecord,
}

impl Refusal {
    /// All refusals, by number.
    pub const ALL: [Refusal; 21] = [
        Refusal::NotSound,
        Refusal::JournalFull,
        Refusal::NoVerb,
        Refusal::BadLength,
        Refusal::BadNumber,
        Refusal::BadLabel,
        Refusal::NotRising,
        Refusal::OutOfRange,
        Refusal::NotAbsent,
        Refusal::ClaimsMeet,
        Refusal::IsAbsent,
        Refusal::IsHeld,
        Refusal::IsWaiting,
        Refusal::NotClaimed,
        Refusal::IsOpen,
        Refusal::NotOpen,
        Refusal::BufferShort,
        Refusal::IsRunning,
        Refusal::BadRecord,
        Refusal::NoRecord,
        Refusal::HasRecord,
    ];

    /// The refusal with this number, 1 to 21.
    pub fn from_number(number: u8) -> Option<Refusal> {
        let place = usize::from(number).checked_sub(1)?;
        Self::ALL.get(place).copied()
    }

    /// The refusal's number, 1 to 21.
    pub const fn number(self) -> u8 {
        self as u8
    }

    /// The refusal in words, as `docs/REFUSALS.md` has them.
    pub const fn words(self) -> &'static str {
        match self {
            Refusal::NotSound => "The image holds no sound board",
            Refusal::JournalFull => "The journal has no room for the answer",
            Refusal::NoVerb => "The line begins with no verb",
            Refusal::BadLength => "The line has a wrong length",
            Refusal::BadNumber => "A number is not in form or range",
            Refusal::BadLabel => "The label has a byte outside 32 to 126",
            Refusal::NotRising => "The files of a claim do not rise",
            Refusal::OutOfRange => "The program or file number is out of range",
            Refusal::NotAbsent => "The program has already entered",
            Refusal::ClaimsMeet => "A file is in two claims",
            Refusal::IsAbsent => "The program has not entered",
            Refusal::IsHeld => "The program is held at entry",
            Refusal::IsWaiting => "The program is waiting for a file or a record",
            Refusal::NotClaimed => "The file is in none of the claims",
            Refusal::IsOpen => "The program has the file open",
            Refusal::NotOpen => "The program does not have the file open",
            Refusal::BufferShort => "The buffer is shorter than the result",
            Refusal::IsRunning => "The program is running",
            Refusal::BadRecord => "The record number is out of range",
            Refusal::NoRecord => "The file is not open for inquiry, or no record is in use",
            Refusal::HasRecord => "The program has a record in use",
        }
    }
}

impl fmt::Display for Refusal {
    fn fmt(&self, f: &mut fmt::Formatter) -> fmt::Result {
        f.write_str(self.words())
    }
}

impl error::Error for Refusal {}
