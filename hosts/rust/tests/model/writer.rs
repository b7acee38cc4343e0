//! The writer of document 02: from a call's numbers, claims and a label to the
//! request line in a lent buffer.

use super::board::Files;
use super::direct::out_of_range;
use super::events::Request;
use super::layout::image::SET;
use super::line;

/// 01's verbs and 02's; their numbers are 1 to 8.
pub const VERBS: [&str; 8] = [
    "ENTER", "OPEN", "CLOSE", "DROP", "LEAVE", "CANCEL", "FETCH", "RETURN",
];

/// The bytes of the claims V, Q and J.
pub const CLAIMS: usize = 3 * SET;

/// The claims as bytes, each as in an image.
pub fn claims(v: Files, q: Files, j: Files) -> Vec<u8> {
    [v, q, j].map(Files::to_le_bytes).concat()
}

/// What the writer is handed besides the buffer.
#[derive(Clone, PartialEq, Debug)]
pub struct Writing {
    pub verb: u64,
    pub program: u64,
    pub file: u64,
    pub record: u64,
    /// Looked at for ENTER only.
    pub claims: Vec<u8>,
    pub label: Vec<u8>,
}

impl Writing {
    /// The writing of what was read.
    pub fn of(request: &Request, label: &[u8]) -> Writing {
        let (verb, claims) = match *request {
            Request::Enter { v, q, j, .. } => (1, claims(v, q, j)),
            Request::Open { .. } => (2, claims(0, 0, 0)),
            Request::Close { .. } => (3, claims(0, 0, 0)),
            Request::Drop { .. } => (4, claims(0, 0, 0)),
            Request::Leave { .. } => (5, claims(0, 0, 0)),
            Request::Cancel { .. } => (6, claims(0, 0, 0)),
            Request::Fetch { .. } => (7, claims(0, 0, 0)),
            Request::Return { .. } => (8, claims(0, 0, 0)),
        };
        let (p, f) = request.numbers();
        Writing {
            verb,
            program: p as u64,
            file: f as u64,
            record: request.record() as u64,
            claims,
            label: label.to_vec(),
        }
    }

    /// V, Q and J, if the claims have their length.
    pub fn sets(&self) -> Option<[Files; 3]> {
        let bytes: &[u8; CLAIMS] = self.claims.as_slice().try_into().ok()?;
        let set = |at: usize| Files::from_le_bytes(bytes[at..at + SET].try_into().unwrap());
        Some([set(0), set(SET), set(2 * SET)])
    }

    /// The call with these numbers, in range or not; what its verb does not use
    /// is left out. A number that is no verb is 3; ENTER's claims of another length
    /// are 8.
    pub fn request(&self) -> Result<Request, u64> {
        let (p, f) = (self.program as usize, self.file as usize);
        match self.verb {
            1 => {
                let [v, q, j] = self.sets().ok_or(8u64)?;
                Ok(Request::Enter { p, v, q, j })
            }
            2 => Ok(Request::Open { p, f }),
            3 => Ok(Request::Close { p, f }),
            4 => Ok(Request::Drop { p, f }),
            5 => Ok(Request::Leave { p }),
            6 => Ok(Request::Cancel { p }),
            7 => {
                let n = self.record as usize;
                Ok(Request::Fetch { p, f, n })
            }
            8 => Ok(Request::Return { p }),
            _ => Err(3),
        }
    }

    /// The line for a buffer of so many bytes. "It refuses a buffer shorter than
    /// the line with 17, after 01's checks 8 and, for ENTER, 6"; FETCH's record out of
    /// range is "19 (after 8)".
    pub fn line(&self, room: usize) -> Result<Vec<u8>, u64> {
        let request = self.request()?;
        if let Some(number) = out_of_range(&request) {
            return Err(number as u64);
        }
        if matches!(request, Request::Enter { .. }) && !line::is_label(&self.label) {
            return Err(6);
        }
        let line = line::write(&request, &self.label);
        if room < line.len() {
            return Err(17);
        }
        Ok(line)
    }

    /// The C host's call: the line's length, or 2^64 less the refusal's number.
    /// "Bytes after the line keep their contents, and a refusal fills nothing."
    pub fn write(&self, buffer: &mut [u8]) -> u64 {
        match self.line(buffer.len()) {
            Ok(line) => {
                buffer[..line.len()].copy_from_slice(&line);
                line.len() as u64
            }
            Err(number) => number.wrapping_neg(),
        }
    }
}
