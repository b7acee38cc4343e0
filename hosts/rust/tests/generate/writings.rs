//! What the writer is handed: any verbs and numbers, any claims, any labels,
//! buffers of any length.

use super::lines;
use super::numbers::astray;
use super::random::Random;
use super::sessions::record;
use crate::model::board::{only, Files, FILES, PROGRAMS};
use crate::model::line::{BEFORE_FILES, LONGEST};
use crate::model::writer::{self, Writing, CLAIMS};

/// Verbs, numbers in range in most cases, claims and a label. What the verb
/// does not use may be anything.
pub fn writing(random: &mut Random) -> Writing {
    let verb = random.weighted(&[0, 8, 2, 2, 2, 2, 2, 4, 2]);
    let program = random.within(1, PROGRAMS);
    let file = random.within(1, FILES);
    let numbers = [verb, program, file, record(random)];
    let [verb, program, file, record] = numbers.map(|number| match random.below(10) {
        0 => astray(number, random) as u64,
        _ => number as u64,
    });
    let [v, q, j] = claims(random);
    let mut claims = writer::claims(v, q, j);
    if random.per_mille(30) {
        claims.resize(random.below(2 * CLAIMS), 1);
    }
    Writing {
        verb,
        program,
        file,
        record,
        claims,
        label: label(random),
    }
}

/// Claims of any size; they meet in many cases, and are all files in some.
pub fn claims(random: &mut Random) -> [Files; 3] {
    let [v, q, j] = [0; 3].map(|_: Files| claim(random));
    match random.below(8) {
        0 => [v, v, j],
        1 => [v, !v, 0],
        2 => [v, 0, v],
        3 => [0, q, !q],
        4 => [Files::MAX; 3],
        5 => [0, 0, j],
        _ => [v, q, j],
    }
}

fn claim(random: &mut Random) -> Files {
    match random.below(8) {
        0 => 0,
        1 => Files::MAX,
        2 => only(random.within(1, FILES)),
        3 => Files::MAX & !only(random.within(1, FILES)),
        4 => random.next() | random.next(),
        5 => random.next() & random.next() & random.next() & random.next(),
        _ => random.next(),
    }
}

/// A label of a line; now and then of another length, 0 to 12, or of any bytes.
pub fn label(random: &mut Random) -> Vec<u8> {
    match random.below(10) {
        0 => {
            let mut label = lines::label(random).repeat(2);
            label.truncate(random.below(13));
            label
        }
        1 => {
            let len = random.below(13);
            random.bytes(len)
        }
        _ => lines::label(random).to_vec(),
    }
}

/// A buffer, in most cases about as long as the line, filled with any bytes.
pub fn buffer(writing: &Writing, random: &mut Random) -> Vec<u8> {
    let line = writing
        .line(usize::MAX)
        .map_or(BEFORE_FILES, |line| line.len());
    let len = match random.below(8) {
        0 | 1 => line,
        2 => line - 1,
        3 => line + random.below(4),
        4 => random.below(line + 1),
        5 => random.below(LONGEST + 13),
        6 => line + random.below(600),
        _ => line + 3,
    };
    random.bytes(len)
}
