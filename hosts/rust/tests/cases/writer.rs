//! The writer: lines that the documents have, its refusals in their order, all
//! numbers, labels, counts and buffers at the edges, and random calls.

use super::{calls, seed};
use crate::compare::counters::Counters;
use crate::compare::written::{both, expect, library, model, Written};
use crate::generate::numbers::NUMBERS;
use crate::generate::random::Random;
use crate::generate::writings;
use crate::model::board::{Files, FILES, PROGRAMS};
use crate::model::journal::{file_columns, ROOM};
use crate::model::line::{enter_length, BEFORE_FILES, CUT, LONGEST};
use crate::model::writer::{self, Writing, CLAIMS, VERBS};

const ENTER: u64 = 1;
const OPEN: u64 = 2;
const CLOSE: u64 = 3;
const DROP: u64 = 4;
const LEAVE: u64 = 5;
const CANCEL: u64 = 6;
const FETCH: u64 = 7;
const RETURN: u64 = 8;

const REFUSALS: [&str; 5] = [
    "refusal 3",
    "refusal 8",
    "refusal 19",
    "refusal 6",
    "refusal 17",
];

/// ENTER with V, Q and J, the lowest bit file 1.
fn enters(program: u64, label: &[u8], v: Files, q: Files, j: Files) -> Writing {
    Writing {
        verb: ENTER,
        program,
        file: 0,
        record: 0,
        claims: writer::claims(v, q, j),
        label: label.to_vec(),
    }
}

/// ENTER with V and Q.
fn enter(program: u64, label: &[u8], v: Files, q: Files) -> Writing {
    enters(program, label, v, q, 0)
}

/// Another verb, with a record, claims and a label that it does not use.
fn other(verb: u64, program: u64, file: u64) -> Writing {
    Writing {
        verb,
        file,
        record: u64::MAX,
        claims: vec![7; 7],
        ..enter(program, b"", 0, 0)
    }
}

fn fetch(program: u64, file: u64, record: u64) -> Writing {
    Writing {
        record,
        ..other(FETCH, program, file)
    }
}

/// ENTER with claims of so many bytes, all of them 0.
fn claims_of(len: usize, program: u64, label: &[u8]) -> Writing {
    Writing {
        claims: vec![0; len],
        ..enter(program, label, 0, 0)
    }
}

/// Both sides leave what is expected in a buffer of so many bytes.
fn both_leave(expected: Result<&[u8], u64>, writing: &Writing, len: usize) {
    let before = vec![170; len];
    let expected = match expected {
        Ok(line) => Written::line(line, &before),
        Err(number) => Written::refused(number, &before),
    };
    for side in [model, library] {
        expect(&expected, &side(writing, &before), writing, &before);
    }
}

/// Both sides write this line into a buffer just long enough and into longer
/// ones; a shorter one gets 17.
fn both_write(line: &[u8], writing: Writing) {
    for more in [0, 1, 60] {
        both_leave(Ok(line), &writing, line.len() + more);
    }
    for len in [0, line.len() - 1] {
        both_leave(Err(17), &writing, len);
    }
}

#[test]
fn the_session_of_01_is_written() {
    let enters: [(&[u8], _); 3] = [
        (
            b"ENTER   1STOCK     3  0  0  1  2  3",
            (1, b"STOCK   ", 7, 0),
        ),
        (b"ENTER   2BILLS     2  0  0  1  2", (2, b"BILLS   ", 3, 0)),
        (b"ENTER   3LISTS     0  1  0  2", (3, b"LISTS   ", 0, 2)),
    ];
    for (line, (p, label, v, q)) in enters {
        both_write(line, enter(p, label, v, q));
    }
    both_write(b"OPEN    1  1", other(OPEN, 1, 1));
    both_write(b"OPEN    1  3", other(OPEN, 1, 3));
    both_write(b"OPEN    2  2", other(OPEN, 2, 2));
    both_write(b"CLOSE   1  3", other(CLOSE, 1, 3));
    both_write(b"LEAVE   1", other(LEAVE, 1, 0));
}

/// The last program, file and record, numbers of two digits, a file that LEAVE,
/// CANCEL and RETURN do not use, empty claims, claims that meet.
#[test]
fn lines_at_the_edges_are_written() {
    both_write(b"DROP   32 64", other(DROP, 32, 64));
    both_write(b"OPEN   10 10", other(OPEN, 10, 10));
    both_write(b"CLOSE   9  9", other(CLOSE, 9, 9));
    both_write(b"LEAVE  32", other(LEAVE, 32, u64::MAX));
    both_write(b"CANCEL  1", other(CANCEL, 1, 0));
    both_write(b"CANCEL 32", other(CANCEL, 32, u64::MAX));
    both_write(b"RETURN  1", other(RETURN, 1, 0));
    both_write(b"RETURN 32", other(RETURN, 32, u64::MAX));
    both_write(b"FETCH   1  1    1", fetch(1, 1, 1));
    both_write(b"FETCH  32 6465535", fetch(32, 64, 65_535));
    both_write(b"FETCH  10 10 1000", fetch(10, 10, 1000));
    both_write(b"ENTER  32 a~!1234  0  0  0", enter(32, b" a~!1234", 0, 0));
    let (v, q) = (1 << 63 | 1, 1 << 9);
    let line = b"ENTER  10          2  1  0  1 64 10";
    both_write(line, enter(10, b"        ", v, q));
    let line = b"ENTER   9CLERKS    0  1  2  7  2 64";
    both_write(line, enters(9, b"CLERKS  ", 0, 1 << 6, 1 << 63 | 2));
}

/// "Claims that meet are written too": any two of them, and all three.
#[test]
fn claims_that_meet_are_written() {
    let label = b"MEETING ";
    let line = b"ENTER   4MEETING   2  2  0  2  3  3  4";
    both_write(line, enters(4, label, 0b110, 0b1100, 0));
    let line = b"ENTER   4MEETING   1  0  1  3  3";
    both_write(line, enters(4, label, 0b100, 0, 0b100));
    let line = b"ENTER   4MEETING   0  1  2  3  3  4";
    both_write(line, enters(4, label, 0, 0b100, 0b1100));
    let line = b"ENTER   4MEETING   1  1  1  3  3  3";
    both_write(line, enters(4, label, 0b100, 0b100, 0b100));
}

/// Every file in all claims: the longest line.
#[test]
fn the_longest_line_is_written() {
    let group: Vec<u8> = (1..=FILES).flat_map(file_columns).collect();
    let mut line = b"ENTER  20LONGEST ".to_vec();
    line.extend(file_columns(FILES).repeat(3));
    line.extend(group.repeat(3));
    assert_eq!(line.len(), LONGEST);
    let writing = enters(20, b"LONGEST ", Files::MAX, Files::MAX, Files::MAX);
    for len in [
        LONGEST,
        CUT,
        ROOM,
        65_536,
        65_536 + LONGEST - 1,
        (1 << 20) + 1,
    ] {
        both_leave(Ok(&line), &writing, len);
    }
    for len in [0, 1, 255, 256, LONGEST - 1] {
        both_leave(Err(17), &writing, len);
    }
}

/// Calls with several things wrong: the first of 3, 8, 19, 6, 17 wins.
#[test]
fn refusals_of_the_writer_come_in_order() {
    let label = b"STOCK   ";
    let refused: [(Writing, usize, u64); 28] = [
        // no verb, and program, file, claims, label and buffer are wrong too
        (other(0, 0, 0), 0, 3),
        (other(9, 0, 65), 0, 3),
        (other(u64::MAX, 33, 0), 0, 3),
        (other(1 << 32 | OPEN, 1, 1), 12, 3),
        (other(256 + LEAVE, 1, 1), 9, 3),
        (other(256 + CANCEL, 1, 0), 9, 3),
        // program or file out of range; label and buffer are wrong too
        (enter(0, b"", 1, 1), 0, 8),
        (enter(33, b"STOC\x1FK  ", 1, 0), 26, 8),
        (enter(33, label, 1, 0), 0, 8),
        (enter(1 << 32 | 1, label, 0, 0), 23, 8),
        (other(OPEN, 0, 1), 0, 8),
        (other(OPEN, 1, 0), 0, 8),
        (other(OPEN, 1, 65), 12, 8),
        (other(CLOSE, 33, 64), 11, 8),
        (other(CLOSE, 32, 256 + 1), 12, 8),
        (other(DROP, 1, u64::MAX), 0, 8),
        (other(LEAVE, 0, 1), 0, 8),
        (other(LEAVE, u64::MAX, 1), 9, 8),
        (other(CANCEL, 0, 1), 0, 8),
        (other(CANCEL, 33, 1), 9, 8),
        // ENTER's label; the buffer is too short too
        (enter(1, b"", 1, 1), 0, 6),
        (enter(1, b"STOCK  ", 0, 0), 0, 6),
        (enter(1, b"STOCK    ", 0, 0), 26, 6),
        (enter(1, b"STOCK  \x7F", 0, 0), 25, 6),
        (enter(1, b"\x1FSTOCK  ", 3, 3), 25, 6),
        // the buffer alone
        (enter(1, label, 3, 3), enter_length(4) - 1, 17),
        (other(LEAVE, 1, 65), 8, 17),
        (other(CANCEL, 1, 65), 8, 17),
    ];
    for (writing, len, number) in refused {
        both_leave(Err(number), &writing, len);
    }
}

/// The same of FETCH, RETURN and ENTER's claims.
#[test]
fn refusals_of_records_and_claims_come_in_order() {
    let label = b"STOCK   ";
    let refused: [(Writing, usize, u64); 21] = [
        (other(256 + RETURN, 1, 0), 9, 3),
        // program or file out of range; record and buffer are wrong too
        (other(RETURN, 0, 1), 0, 8),
        (other(RETURN, 1 << 32 | 1, 1), 9, 8),
        (fetch(0, 1, 0), 0, 8),
        (fetch(33, 1, 1), 17, 8),
        (fetch(1, 0, 65_536), 0, 8),
        (fetch(32, 65, 65_535), 17, 8),
        // ENTER's claims; label and buffer are wrong too
        (claims_of(0, 1, b""), 0, 8),
        (claims_of(CLAIMS - 1, 1, label), 26, 8),
        (claims_of(CLAIMS + 1, 1, label), 26, 8),
        (claims_of(16, 1, b"STOCK  "), 23, 8),
        (claims_of(256 + CLAIMS, 1, label), 26, 8),
        // FETCH's record; the buffer is too short too
        (fetch(1, 1, 0), 0, 19),
        (fetch(1, 1, 0), 17, 19),
        (fetch(1, 1, 65_536), 17, 19),
        (fetch(32, 64, 65_536 + 1), 16, 19),
        (fetch(32, 64, 1 << 32 | 1), 17, 19),
        (fetch(1, 1, u64::MAX), 100, 19),
        // the buffer alone
        (other(RETURN, 1, 65), 8, 17),
        (fetch(1, 1, 1), 16, 17),
        (fetch(32, 64, 65_535), 0, 17),
    ];
    for (writing, len, number) in refused {
        both_leave(Err(number), &writing, len);
    }
}

/// Every verb with every pair of numbers around the edges.
#[test]
fn writings_agree_on_numbers() {
    let mut met = Counters::default();
    let label = b"STOCK   ".to_vec();
    let edges = NUMBERS.map(|number| number as u64);
    for verb in (0..=10).chain(edges) {
        for program in (0..=40).chain(edges) {
            for file in (0..=70).chain(edges) {
                let writing = Writing {
                    verb,
                    file,
                    record: 1,
                    ..enters(program, &label, 5, 2, 8)
                };
                both(&writing, &[170; enter_length(4) + 2], &mut met);
            }
        }
    }
    for record in (0..=65_540).chain(edges) {
        both(&fetch(1, 64, record), &[170; 20], &mut met);
    }
    met.print("writer numbers");
    met.assert_met(&VERBS);
    met.assert_met(&REFUSALS[..3]);
}

/// Claims of every length, those among them that would be right if they lost their
/// upper bits; for verbs that do not use them too.
#[test]
fn writings_agree_on_claims() {
    let mut met = Counters::default();
    for len in (0..=100).chain([256, 256 + CLAIMS, 65_536 + CLAIMS]) {
        for verb in ENTER..=RETURN {
            let writing = Writing {
                verb,
                file: 1,
                record: 1,
                ..claims_of(len, 1, b"STOCK   ")
            };
            both(&writing, &[170; 40], &mut met);
        }
    }
    met.print("writer claims");
    // One length is right for ENTER.
    assert_eq!((met.get("ENTER"), met.get("refusal 8")), (1, 103));
    assert_eq!((met.get("FETCH"), met.get("RETURN")), (104, 104));
}

/// Every byte in every column of a label, and every length of labels, those
/// among them that would be 8 if they lost their upper bits.
#[test]
fn writings_agree_on_labels() {
    let mut met = Counters::default();
    let lengths = (0..=20).chain([256, 256 + 8, 65_536 + 8]);
    for label in lengths.map(|len| vec![b'A'; len]) {
        for verb in ENTER..=RETURN {
            let writing = Writing {
                verb,
                file: 1,
                record: 1,
                ..enter(1, &label, 1, 1)
            };
            both(&writing, &[170; 40], &mut met);
        }
    }
    for at in 0..8 {
        for byte in 0..=255 {
            let mut label = *b"STOCK   ";
            label[at] = byte;
            both(&enter(1, &label, 1, 1), &[170; 40], &mut met);
        }
    }
    met.print("writer labels");
    // 95 bytes are in form in each column, and one length is.
    assert_eq!(met.get("ENTER"), 8 * 95 + 1);
    assert_eq!(met.get("refusal 6"), 8 * (256 - 95) + 23);
    assert_eq!(met.get("OPEN"), 24);
    assert_eq!(met.get("CANCEL"), 24);
    assert_eq!(met.get("FETCH"), 24);
}

/// Every pair of counts of V and Q, with any count of J and any files.
#[test]
fn writings_agree_on_counts() {
    let mut random = Random::new(seed() ^ 0xBBBB);
    let mut met = Counters::default();
    for w in 0..=FILES {
        for r in 0..=FILES {
            let counts = [w, r, random.within(0, FILES)];
            let [v, q, j] = counts.map(|count| {
                let files = random.shuffled(FILES);
                files[..count].iter().fold(0, |set, f| set | 1 << (f - 1))
            });
            let len = enter_length(counts.iter().sum());
            let writing = enters(random.within(1, PROGRAMS) as u64, b"STOCK   ", v, q, j);
            let written = both(&writing, &random.bytes(len), &mut met);
            assert_eq!(written.answer, len as u64);
            both(&writing, &random.bytes(len - 1), &mut met);
        }
    }
    met.print("writer counts");
    assert_eq!(met.get("ENTER"), met.get("refusal 17"));
}

/// Buffers of every length from 0 to the line's and three more.
#[test]
fn writings_agree_in_every_buffer() {
    let mut random = Random::new(seed() ^ 0xCCCC);
    let mut met = Counters::default();
    let full = enters(32, b"        ", Files::MAX, Files::MAX, Files::MAX);
    let any = |_| writings::writing(&mut random);
    let all: Vec<Writing> = [full, fetch(1, 1, 0)]
        .into_iter()
        .chain((0..200).map(any))
        .collect();
    for writing in all {
        let len = writing
            .line(usize::MAX)
            .map_or(BEFORE_FILES, |line| line.len());
        for room in 0..=len + 3 {
            both(&writing, &random.bytes(room), &mut met);
        }
    }
    met.print("writer buffers");
    met.assert_met(&VERBS);
    met.assert_met(&REFUSALS);
}

#[test]
fn writings_agree() {
    let mut random = Random::new(seed() ^ 0xDDDD);
    let mut met = Counters::default();
    while met.calls < calls() {
        let writing = writings::writing(&mut random);
        let before = writings::buffer(&writing, &mut random);
        both(&writing, &before, &mut met);
        let Some([v, q, j]) = writing.sets().filter(|_| writing.verb == ENTER) else {
            continue;
        };
        if v & q != 0 || v & j != 0 || q & j != 0 {
            met.add("claims that meet");
        }
        if v & q & j == Files::MAX {
            met.add("claims of all files");
        }
    }
    met.print("writer");
    met.assert_met(&VERBS);
    met.assert_met(&REFUSALS);
    met.assert_met(&["claims that meet", "claims of all files"]);
}
