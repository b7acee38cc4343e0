//! The image's fields by their names, for files that say what an image holds.
//!
//! `V of 2 = {1,5 to 7}`, and so Q, J, W, R and I: a set of files, rising. `standing of
//! 2 = absent`, or a number that is no standing. `awaited file of 2`, `count of 2`,
//! `record in use of 2`, `awaited record of 2`, `favoured`, `number at favouring`,
//! `leaves`: a number. `waiting line = [2,3]`, and so the entry line: its programs,
//! the oldest first; the rest is 0.

use super::layout::image::*;
use super::layout::{FILES, PROGRAMS};

/// "Standing (0 absent, 1 running, 2 waiting, 3 held)".
const STANDINGS: [&str; 4] = ["absent", "running", "waiting", "held"];

enum Kind {
    Set,
    Standing,
    Number,
    Line,
}

struct Field {
    name: &'static str,
    kind: Kind,
    /// Where it begins, and its bytes.
    at: usize,
    len: usize,
    /// If each program has one, `at` is that of program 1, and this the way to the
    /// next; else 0.
    step: usize,
}

/// All the fields: every byte of the image belongs to one.
const FIELDS: [Field; 16] = [
    field("V", Kind::Set, V, SET, PROGRAM),
    field("Q", Kind::Set, Q, SET, PROGRAM),
    field("W", Kind::Set, W, SET, PROGRAM),
    field("R", Kind::Set, R, SET, PROGRAM),
    field("standing", Kind::Standing, STANDING, 1, PROGRAM),
    field("awaited file", Kind::Number, AWAITED, 1, PROGRAM),
    field("waiting line", Kind::Line, WAITING_LINE, PROGRAMS, 0),
    field("entry line", Kind::Line, ENTRY_LINE, PROGRAMS, 0),
    field("favoured", Kind::Number, FAVOURED, 1, 0),
    field("number at favouring", Kind::Number, NUMBER, 1, 0),
    field("leaves", Kind::Number, LEAVES, 1, 0),
    field("count", Kind::Number, COUNTS, 1, 1),
    inquiry("J", Kind::Set, J, SET),
    inquiry("I", Kind::Set, I, SET),
    inquiry("record in use", Kind::Number, RECORD_IN_USE, RECORD),
    inquiry("awaited record", Kind::Number, AWAITED_RECORD, RECORD),
];

/// A field of the second rows.
const fn inquiry(name: &'static str, kind: Kind, at: usize, len: usize) -> Field {
    field(name, kind, INQUIRY + at, len, INQUIRY_LEN)
}

const fn field(name: &'static str, kind: Kind, at: usize, len: usize, step: usize) -> Field {
    Field {
        name,
        kind,
        at,
        len,
        step,
    }
}

/// What `FIELD = VALUE` says: where the field begins, and the bytes that it has then.
pub fn read(text: &str) -> Result<(usize, Vec<u8>), String> {
    let (name, value) = text
        .split_once(" = ")
        .ok_or_else(|| format!("'{text}' is no FIELD = VALUE"))?;
    let (field, at) = find(name)?;
    let bytes = match field.kind {
        Kind::Set => set(value, field.len),
        Kind::Standing => standing(value),
        Kind::Number => number(value, field.len),
        Kind::Line => line(value, field.len),
    };
    Ok((at, bytes.map_err(|fault| format!("{name}: {fault}"))?))
}

/// The field of a name, and where it begins.
fn find(name: &str) -> Result<(&'static Field, usize), String> {
    let (plain, program) = match name.split_once(" of ") {
        Some((plain, program)) => (plain, Some(program)),
        None => (name, None),
    };
    let field = FIELDS
        .iter()
        .find(|field| field.name == plain)
        .ok_or_else(|| format!("the image has no field '{plain}'"))?;
    match (field.step, program) {
        (0, None) => Ok((field, field.at)),
        (0, Some(_)) => Err(format!("'{name}': the board has one {plain}")),
        (_, None) => Err(format!("'{name}': of which program?")),
        (step, Some(program)) => match decimal(program) {
            Ok(p) if (1..=PROGRAMS).contains(&p) => Ok((field, field.at + step * (p - 1))),
            _ => Err(format!("'{name}': programs are 1 to {PROGRAMS}")),
        },
    }
}

/// The names of the fields that have this byte: one, or none beyond the image. Of
/// a field of several bytes it is also said which.
pub fn names(at: usize) -> Vec<String> {
    let mut names = Vec::new();
    for field in &FIELDS {
        let programs = if field.step == 0 { 1 } else { PROGRAMS };
        for p in 1..=programs {
            let begins = field.at + field.step * (p - 1);
            if !(begins..begins + field.len).contains(&at) {
                continue;
            }
            let of = if field.step == 0 {
                String::new()
            } else {
                format!(" of {p}")
            };
            let byte = match field.len {
                1 => String::new(),
                _ => format!(", byte {}", at - begins),
            };
            names.push(format!("{}{of}{byte}", field.name));
        }
    }
    names
}

/// A number in decimal, without signs.
fn decimal(text: &str) -> Result<usize, String> {
    let digits = !text.is_empty() && text.bytes().all(|byte| byte.is_ascii_digit());
    let number = text.parse().ok().filter(|_| digits);
    number.ok_or_else(|| format!("'{text}' is no number"))
}

/// A number, lowest byte first.
fn number(value: &str, len: usize) -> Result<Vec<u8>, String> {
    let bytes = decimal(value)?.to_le_bytes();
    match bytes[len..].iter().all(|&byte| byte == 0) {
        true => Ok(bytes[..len].to_vec()),
        false => Err(format!("{value} does not fit into {} bits", 8 * len)),
    }
}

fn standing(value: &str) -> Result<Vec<u8>, String> {
    match STANDINGS.iter().position(|word| *word == value) {
        Some(number) => Ok(vec![number as u8]),
        None => number(value, 1),
    }
}

/// What stands between two brackets, with commas and no blanks between.
fn list(value: &str, brackets: [char; 2]) -> Result<Vec<&str>, String> {
    let inside = value
        .strip_prefix(brackets[0])
        .and_then(|rest| rest.strip_suffix(brackets[1]));
    match inside {
        Some("") => Ok(Vec::new()),
        Some(inside) => Ok(inside.split(',').collect()),
        None => Err(format!(
            "'{value}' does not stand between {} and {}",
            brackets[0], brackets[1]
        )),
    }
}

/// "Lowest first, file 1 the lowest bit".
fn set(value: &str, len: usize) -> Result<Vec<u8>, String> {
    let (mut bytes, mut last) = (vec![0; len], 0);
    for part in list(value, ['{', '}'])? {
        let (low, high) = part.split_once(" to ").unwrap_or((part, part));
        let (low, high) = (decimal(low)?, decimal(high)?);
        if low < 1 || FILES < high {
            return Err(format!("files are 1 to {FILES}, not {part}"));
        }
        if low <= last || high < low {
            return Err(format!("the files of {value} do not rise"));
        }
        for f in low..=high {
            bytes[(f - 1) / 8] |= 1 << ((f - 1) % 8);
        }
        last = high;
    }
    Ok(bytes)
}

/// Programs, then 0. Any byte may stand in the place of one.
fn line(value: &str, len: usize) -> Result<Vec<u8>, String> {
    let mut bytes = Vec::new();
    for part in list(value, ['[', ']'])? {
        bytes.extend(number(part, 1)?);
    }
    if bytes.len() > len {
        return Err(format!("the line has {len} places, not {}", bytes.len()));
    }
    if bytes.last() == Some(&0) {
        return Err(format!("{value} ends with 0, as every line does"));
    }
    bytes.resize(len, 0);
    Ok(bytes)
}
