//! An example host: serves request lines from standard input.
//!
//!     serve [--image FILE]    serve; FILE keeps the board from session to session
//!     serve --refusals        list the refusals and their words
//!     serve --version         show the version, and the kit that proved the board
//!
//! The journal goes to standard output, last the ORDER line, as the program `board` writes them.
//! Each refusal is also shown in words on standard error.
//!
//! Exit status: 0 if every line was served, refused ones too; 1 if the image, reading or writing
//! failed; 2 for wrong arguments.

mod common;

use common::{Labels, Told};
use lock_board::{Board, CUT_LINE};
use std::io::{self, BufRead, Write};
use std::process::ExitCode;

/// The session so far.
struct Session<W> {
    board: Board,
    output: W,
    number: usize,
    labels: Labels,
}

impl<W: Write> Session<W> {
    /// Serves one line. Its effect is on the disk before its journal lines are written, and these
    /// at once, so that each answer is seen before the next request.
    fn serve(&mut self, line: &[u8]) -> Result<(), Told> {
        self.number += 1;
        let reply = self.board.serve(line).map_err(|error| {
            eprintln!("line {}: {error}", self.number);
            Told
        })?;
        common::save_image(&self.board, self.number)?;
        self.write(reply.journal())?;
        let text = common::explain(&self.board, &mut self.labels, self.number, line, &reply);
        if !text.is_empty() {
            eprintln!("{text}");
        }
        Ok(())
    }

    /// The ORDER line, which ends a session that has served all its input.
    fn write_order(&mut self) -> Result<(), Told> {
        let programs: String = self
            .board
            .order()
            .iter()
            .map(|p| format!("{p:3}"))
            .collect();
        self.write(format!("ORDER {programs}\n").as_bytes())
    }

    fn write(&mut self, bytes: &[u8]) -> Result<(), Told> {
        self.output
            .write_all(bytes)
            .and_then(|()| self.output.flush())
            .map_err(|error| common::journal_failed(self.number, error))
    }
}

/// Serves each line as soon as its byte 10 is read; the last line may lack it.
fn serve(board: Board, input: impl BufRead, output: impl Write) -> Result<(), Told> {
    let mut session = Session {
        board,
        output,
        number: 0,
        labels: [0; 256],
    };
    let mut line = Vec::with_capacity(CUT_LINE);
    for byte in input.bytes() {
        let byte = byte.map_err(|error| {
            eprintln!("the requests cannot be read: {error}");
            Told
        })?;
        match byte {
            b'\n' => {
                session.serve(&line)?;
                line.clear();
            }
            byte if line.len() < CUT_LINE => line.push(byte),
            _ => {} // cut
        }
    }
    if !line.is_empty() {
        session.serve(&line)?;
    }
    session.write_order()
}

fn main() -> ExitCode {
    common::begin();
    let arguments: Vec<_> = std::env::args_os().skip(1).collect();
    let result = match arguments.as_slice() {
        [] => serve(Board::new(), io::stdin().lock(), io::stdout().lock()),
        [image, path] if image == "--image" => common::open_image(path.into())
            .and_then(|board| serve(board, io::stdin().lock(), io::stdout().lock())),
        [refusals] if refusals == "--refusals" => common::list_refusals(),
        [version] if version == "--version" => common::show_version(),
        _ => {
            eprintln!("usage: serve [--image FILE | --refusals | --version]");
            return ExitCode::from(2);
        }
    };
    match result {
        Ok(()) => ExitCode::SUCCESS,
        Err(Told) => ExitCode::FAILURE,
    }
}
