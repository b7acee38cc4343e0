//! One call of the writer, made of the library and of the model on the same
//! buffer.

use super::counters::Counters;
use super::guard::{spilt, Guarded};
use crate::model::board::members;
use crate::model::writer::{Writing, VERBS};

extern "C" {
    fn lock_board_write(
        verb: u64,
        program: u64,
        file: u64,
        record: u64,
        claims: *const u8,
        claims_len: usize,
        label: *const u8,
        label_len: usize,
        line: *mut u8,
        line_len: usize,
    ) -> u64;
}

/// What is seen after a call.
#[derive(Clone, PartialEq, Debug)]
pub struct Written {
    pub answer: u64,
    pub buffer: Vec<u8>,
    /// Bytes changed that no call may change.
    pub spilt: Option<&'static str>,
}

impl Written {
    /// What a call leaves that is refused.
    pub fn refused(number: u64, before: &[u8]) -> Written {
        Written {
            answer: number.wrapping_neg(),
            buffer: before.to_vec(),
            spilt: None,
        }
    }

    /// What a call leaves that has written a line.
    pub fn line(line: &[u8], before: &[u8]) -> Written {
        Written {
            answer: line.len() as u64,
            buffer: [line, &before[line.len()..]].concat(),
            spilt: None,
        }
    }
}

pub fn model(writing: &Writing, before: &[u8]) -> Written {
    let mut buffer = before.to_vec();
    Written {
        answer: writing.write(&mut buffer),
        buffer,
        spilt: None,
    }
}

pub fn library(writing: &Writing, before: &[u8]) -> Written {
    let [mut claims, mut label] = [&writing.claims, &writing.label].map(|part| Guarded::new(part));
    let mut line = Guarded::new(before);
    let (claims_len, label_len, line_len) = (claims.len(), label.len(), line.len());
    // SAFETY: three buffers of these lengths, apart from each other, none null.
    let answer = unsafe {
        lock_board_write(
            writing.verb,
            writing.program,
            writing.file,
            writing.record,
            claims.start(),
            claims_len,
            label.start(),
            label_len,
            line.start(),
            line_len,
        )
    };
    let spilt = spilt([
        (claims.intact(), "guard bytes of the claims"),
        (label.intact(), "guard bytes of the label"),
        (line.intact(), "guard bytes of the line"),
        (claims.contents() == writing.claims, "bytes of the claims"),
        (label.contents() == writing.label, "bytes of the label"),
    ]);
    Written {
        answer,
        buffer: line.contents().to_vec(),
        spilt,
    }
}

/// Both sides with this buffer; counts the verb or the refusal. A difference
/// ends the test, with what the writer was handed.
pub fn both(writing: &Writing, before: &[u8], met: &mut Counters) -> Written {
    let expected = model(writing, before);
    expect(&expected, &library(writing, before), writing, before);
    met.calls += 1;
    match writing.line(before.len()) {
        Ok(_) => met.add(VERBS[writing.verb as usize - 1]),
        Err(number) => met.add(&format!("refusal {number}")),
    }
    expected
}

/// Ends the test unless the found is the expected.
pub fn expect(expected: &Written, found: &Written, writing: &Writing, before: &[u8]) {
    if expected != found {
        let (handed, expected) = (handed(writing, before), text(expected, before));
        let found = text(found, before);
        panic!("another writing\n{handed}expected {expected}found    {found}");
    }
}

fn handed(writing: &Writing, before: &[u8]) -> String {
    let Writing {
        verb,
        program,
        file,
        record,
        claims,
        label,
    } = writing;
    let sets = writing.sets().map(|sets| sets.map(members));
    format!(
        "  verb {verb}, program {program}, file {file}, record {record}\n  claims of {} bytes, V, Q, J {sets:?}\n  label of {} bytes {:?}\n  buffer of {} bytes\n",
        claims.len(),
        label.len(),
        label.escape_ascii().to_string(),
        before.len()
    )
}

/// The answer, the changed bytes of the buffer up to the last one, and whether
/// other bytes were changed.
fn text(written: &Written, before: &[u8]) -> String {
    let pairs = written.buffer.iter().zip(before);
    let end = pairs.rev().position(|(is, was)| is != was);
    let end = end.map_or(0, |kept| before.len() - kept);
    let mut text = match written.answer {
        refusal if refusal > u64::MAX - 100 => format!("refusal {}", refusal.wrapping_neg()),
        length => format!("length {length}"),
    };
    let changed = written.buffer[..end].escape_ascii().to_string();
    text += &format!("\n  {end} bytes up to the last changed one: {changed:?}\n");
    if let Some(what) = written.spilt {
        text += &format!("  {what} changed\n");
    }
    text
}
