//! The printed text of a session that shows a difference.

use super::call::{Call, Outcome};
use super::session::Session;
use crate::model::board::PROGRAMS;
use crate::model::fields;
use crate::model::image::{self, ROOM};
use crate::model::journal::LINE;

/// The session's lines, then the expected and the found answer of its last.
pub fn text(session: &Session, calls_before: usize) -> String {
    let mut text = format!(
        "the library differs from the model: {} of {} calls remain\n",
        session.calls.len(),
        calls_before
    );
    text += &start(&session.start);
    for call in &session.calls {
        text += &request(call);
    }
    let Some(difference) = session.difference() else {
        return text + "(not met again)\n";
    };
    let call = &session.calls[difference.at];
    text += &format!(
        "expected {}",
        outcome(&difference.expected, call, &difference.before)
    );
    text += &format!(
        "found    {}",
        outcome(&difference.found, call, &difference.before)
    );
    text
}

/// The image's bytes that are not 0, if there are any.
fn start(bytes: &[u8]) -> String {
    let mut text = String::new();
    if bytes.len() != image::LENGTH {
        text += &format!("  an image of {} bytes\n", bytes.len());
    }
    for (at, byte) in bytes.iter().enumerate().filter(|(_, &byte)| byte != 0) {
        text += &format!("  image byte {at} ({}) is {byte}\n", name(at));
    }
    text
}

/// What an image's byte belongs to.
pub fn name(at: usize) -> String {
    match fields::names(at).pop() {
        Some(name) => name,
        None => format!("end + {}", at - image::LENGTH),
    }
}

fn request(call: &Call) -> String {
    let mut text = format!("  {:?}", call.line.escape_ascii().to_string());
    if (call.journal, call.place) != (ROOM, 0) {
        text += &format!("  (journal of {}, place {})", call.journal, call.place);
    }
    text + "\n"
}

/// An answer, its journal lines and the changed bytes of the image.
fn outcome(outcome: &Outcome, call: &Call, before: &[u8]) -> String {
    let mut text = match outcome.answer {
        image::REFUSED_1 => "refusal 1\n".to_string(),
        image::REFUSED_2 => "refusal 2\n".to_string(),
        place => format!("place {place}\n"),
    };
    let written = outcome.answer.saturating_sub(call.place).min(ROOM as u64) as usize;
    let from = call.place.min(outcome.journal.len() as u64) as usize;
    let to = outcome.journal.len().min(from + written);
    if outcome.answer < image::REFUSED_2 {
        for line in outcome.journal[from..to].chunks(LINE) {
            text += &format!("  {}\n", line.escape_ascii());
        }
    }
    if outcome.journal[..from] != call.journal_before()[..from]
        || outcome.journal[to..] != call.journal_before()[to..]
    {
        text += "  other journal bytes changed\n";
    }
    for (at, (is, was)) in outcome.image.iter().zip(before).enumerate() {
        if is != was {
            text += &format!("  image byte {at} ({}) from {was} to {is}\n", name(at));
        }
    }
    if let Some(what) = outcome.spilt {
        text += &format!("  {what} changed\n");
    }
    text + &order(outcome) + &digraph(outcome)
}

/// The matrix after the call, and what is wrong with the loops.
fn digraph(outcome: &Outcome) -> String {
    let matrix = &outcome.digraph.matrix;
    let mut text = format!("  matrix: {} {:?}\n", matrix.answer, matrix.buffer);
    if let Some(what) = matrix.spilt {
        text += &format!("  {what} changed\n");
    }
    for fault in &outcome.digraph.loops {
        text += &format!("  {fault}\n");
    }
    text
}

/// The most programs of an order.
const MOST: u64 = PROGRAMS as u64;

/// The order after the call: each answer, with its buffer.
fn order(outcome: &Outcome) -> String {
    let mut text = String::new();
    for asked in &outcome.order {
        let (len, below) = (asked.buffer.len(), asked.answer.wrapping_neg());
        text += &match asked.answer {
            0..=MOST => format!(
                "  order of {} in {len} bytes: {:?}\n",
                asked.answer, asked.buffer
            ),
            _ => format!(
                "  order in {len} bytes: refusal {below}, {:?}\n",
                asked.buffer
            ),
        };
        if let Some(what) = asked.spilt {
            text += &format!("  {what} changed\n");
        }
    }
    text
}
