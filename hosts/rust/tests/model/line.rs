//! "Request lines": how a line is read, with the refusals 3 to 7, and how a
//! request is written as a line.

use super::board::{members, only, Files, FILES, PROGRAMS, RECORDS};
use super::events::Request;
use super::journal::{columns, file_columns, program_columns, record_columns};
pub use super::layout::line::*;
use super::layout::FILE_COLUMNS;

/// A number right-justified in its columns, within a range.
fn number(field: &[u8], low: usize, high: usize) -> Result<usize, usize> {
    let digits = |text: &str| text.trim_start_matches(' ').parse::<usize>().ok();
    match std::str::from_utf8(field).ok().and_then(digits) {
        Some(n) if (low..=high).contains(&n) && columns(n, field.len()) == field => Ok(n),
        _ => Err(5),
    }
}

/// The request of a line, or its refusal. Document 02: "CANCEL is a sixth verb,
/// with a 9-byte line"; FETCH and RETURN are two more.
pub fn read(line: &[u8]) -> Result<Request, usize> {
    match line.get(VERB).ok_or(3usize)? {
        b"ENTER " => enter(line),
        b"OPEN  " => program_and_file(line).map(|(p, f)| Request::Open { p, f }),
        b"CLOSE " => program_and_file(line).map(|(p, f)| Request::Close { p, f }),
        b"DROP  " => program_and_file(line).map(|(p, f)| Request::Drop { p, f }),
        b"LEAVE " => program(line).map(|p| Request::Leave { p }),
        b"CANCEL" => program(line).map(|p| Request::Cancel { p }),
        b"FETCH " => fetch(line),
        b"RETURN" => program(line).map(|p| Request::Return { p }),
        _ => Err(3),
    }
}

/// The program of a line that ends with it.
fn program(line: &[u8]) -> Result<usize, usize> {
    if line.len() != PROGRAM.end {
        return Err(4);
    }
    number(&line[PROGRAM], 1, PROGRAMS)
}

/// The program and the file of a line that ends with this.
fn program_and_file(line: &[u8]) -> Result<(usize, usize), usize> {
    if line.len() != FILE.end {
        return Err(4);
    }
    let p = number(&line[PROGRAM], 1, PROGRAMS)?;
    Ok((p, number(&line[FILE], 1, FILES)?))
}

/// "FETCH lines have the file in columns 10–12 and the record in 13–17".
fn fetch(line: &[u8]) -> Result<Request, usize> {
    if line.len() != RECORD.end {
        return Err(4);
    }
    let (p, f) = program_and_file(&line[..FILE.end])?;
    let n = number(&line[RECORD], 1, RECORDS)?;
    Ok(Request::Fetch { p, f, n })
}

/// ENTER, left to right: program, label, w, r and the third count, then the length,
/// then the files, "the J files last".
fn enter(line: &[u8]) -> Result<Request, usize> {
    if line.len() < BEFORE_FILES {
        return Err(4);
    }
    let p = number(&line[PROGRAM], 1, PROGRAMS)?;
    if !is_label(&line[LABEL]) {
        return Err(6);
    }
    let w = number(&line[COUNT_W], 0, FILES)?;
    let r = number(&line[COUNT_R], 0, FILES)?;
    let j = number(&line[COUNT_J], 0, FILES)?;
    if line.len() != enter_length(w + r + j) {
        return Err(4);
    }
    let mut files = Vec::new();
    for field in line[BEFORE_FILES..].chunks(FILE_COLUMNS) {
        files.push(number(field, 1, FILES)?);
    }
    let (v, rest) = files.split_at(w);
    let (q, j) = rest.split_at(r);
    Ok(Request::Enter {
        p,
        v: group(v)?,
        q: group(q)?,
        j: group(j)?,
    })
}

/// Of the label's length, and no byte outside 32 to 126.
pub fn is_label(bytes: &[u8]) -> bool {
    bytes.len() == LABEL.len() && bytes.iter().all(|byte| (32..=126).contains(byte))
}

/// The set of one group, whose files must rise strictly.
fn group(files: &[usize]) -> Result<Files, usize> {
    if files.windows(2).any(|pair| pair[0] >= pair[1]) {
        return Err(7);
    }
    Ok(files.iter().fold(0, |set, &f| set | only(f)))
}

/// "The reader gives back the label as a part of the caller's line ..; for
/// another verb or a refused line that part is empty."
pub fn label(line: &[u8]) -> &[u8] {
    match read(line) {
        Ok(Request::Enter { .. }) => &line[LABEL],
        _ => &[],
    }
}

/// The line of a request; the label is used for ENTER only.
pub fn write(request: &Request, label: &[u8]) -> Vec<u8> {
    let verb = match request {
        Request::Enter { .. } => b"ENTER ",
        Request::Open { .. } => b"OPEN  ",
        Request::Close { .. } => b"CLOSE ",
        Request::Drop { .. } => b"DROP  ",
        Request::Leave { .. } => b"LEAVE ",
        Request::Cancel { .. } => b"CANCEL",
        Request::Fetch { .. } => b"FETCH ",
        Request::Return { .. } => b"RETURN",
    };
    let (p, f) = request.numbers();
    let mut line = verb.to_vec();
    line.extend(program_columns(p));
    match *request {
        Request::Enter { v, q, j, .. } => {
            let groups = [v, q, j].map(members);
            line.extend(label);
            line.extend(groups.iter().flat_map(|group| file_columns(group.len())));
            line.extend(groups.into_iter().flatten().flat_map(file_columns));
        }
        _ if request.has_file() => line.extend(file_columns(f)),
        _ => {}
    }
    if let Request::Fetch { n, .. } = *request {
        line.extend(record_columns(n));
    }
    line
}
