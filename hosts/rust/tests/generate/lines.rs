//! Damage to request lines, labels, and the journals of calls.

use super::random::Random;
use crate::compare::call::Call;
use crate::model::board::FILES;
use crate::model::events::Request;
use crate::model::journal::{file_columns, HIGHEST_PLACE, ROOM};
use crate::model::line::{self, claimed, BEFORE_FILES, VERB};
use crate::model::line::{COUNT_J, COUNT_R, COUNT_W, FILE, PROGRAM, RECORD};
use std::ops::Range;

/// Bytes at the edges of what fields and labels admit.
pub const EDGES: [u8; 20] = [
    0, 9, 10, 13, 31, 32, 33, 43, 45, 47, 48, 49, 57, 58, 64, 126, 127, 128, 160, 255,
];

const LABEL: usize = line::LABEL.end - line::LABEL.start;

/// A label; now and then of edge bytes.
pub fn label(random: &mut Random) -> [u8; LABEL] {
    let mut label = *b"JOB     ";
    if random.per_mille(300) {
        for byte in &mut label {
            *byte = random.within(32, 126) as u8;
        }
    }
    if random.per_mille(20) {
        label[random.below(LABEL)] = EDGES[random.below(EDGES.len())];
    }
    label
}

pub fn text(request: &Request, random: &mut Random) -> Vec<u8> {
    line::write(request, &label(random))
}

/// One to three damages of a line.
pub fn damage(line: &mut Vec<u8>, random: &mut Random) {
    for _ in 0..1 + random.weighted(&[6, 2, 1]) {
        match random.below(9) {
            0 => change_byte(line, random),
            1 => line.truncate(random.below(line.len() + 1)),
            2 => lengthen(line, random),
            3 => change_field(line, random),
            4 => swap_fields(line, random),
            5 => repeat_field(line, random),
            6 => change_count(line, random),
            7 => change_record(line, random),
            _ => change_verb(line, random),
        }
    }
}

fn change_byte(line: &mut [u8], random: &mut Random) {
    if !line.is_empty() {
        let at = random.below(line.len());
        line[at] = match random.below(3) {
            0 => random.below(256) as u8,
            1 => line[at] ^ 1 << random.below(8),
            _ => EDGES[random.below(EDGES.len())],
        };
    }
}

fn lengthen(line: &mut Vec<u8>, random: &mut Random) {
    let more = if random.per_mille(100) {
        random.within(0, 400)
    } else {
        random.within(1, 6)
    };
    if random.per_mille(500) {
        line.extend(std::iter::repeat_n(b' ', more));
    } else {
        line.extend(random.bytes(more));
    }
}

/// Where the number fields may begin, and how many columns they have.
fn field(line: &[u8], random: &mut Random) -> Option<Range<usize>> {
    let mut all = vec![PROGRAM, FILE, RECORD, COUNT_W, COUNT_R, COUNT_J];
    all.extend(
        (0..)
            .map(claimed)
            .take_while(|file| file.start < line.len()),
    );
    let field = all.swap_remove(random.below(all.len()));
    (field.end <= line.len()).then_some(field)
}

/// Two fields of one width, as far as that of the narrower one goes.
fn two_fields(line: &[u8], random: &mut Random) -> Option<[Range<usize>; 2]> {
    let (a, b) = (field(line, random)?, field(line, random)?);
    let width = a.len().min(b.len());
    Some([a, b].map(|field| field.end - width..field.end))
}

/// Numbers out of range and numbers out of form.
fn change_field(line: &mut [u8], random: &mut Random) {
    const TEXTS: [&[u8; 3]; 24] = [
        b"  0", b" 00", b"000", b"001", b" 01", b"01 ", b"1  ", b" 1 ", b"   ", b" 32", b" 33",
        b" 64", b" 65", b" 99", b"100", b"128", b"256", b"999", b" -1", b" +1", b"  1", b" 10",
        b"  9", b"\t 1",
    ];
    if let Some(field) = field(line, random) {
        let text = TEXTS[random.below(TEXTS.len())];
        line[field.clone()].fill(b' ');
        line[field.end - text.len()..field.end].copy_from_slice(text);
    }
}

/// The same in the columns of a record.
fn change_record(line: &mut [u8], random: &mut Random) {
    const TEXTS: [&[u8; 5]; 16] = [
        b"    0", b"    1", b"00001", b" 0001", b"1    ", b"   1 ", b"     ", b"65535", b"65536",
        b"65545", b"66535", b"75535", b"99999", b"   -1", b"   +1", b"	   1",
    ];
    if line.len() >= RECORD.end {
        line[RECORD].copy_from_slice(TEXTS[random.below(TEXTS.len())]);
    }
}

fn swap_fields(line: &mut [u8], random: &mut Random) {
    if let Some([a, b]) = two_fields(line, random) {
        a.zip(b).for_each(|(a, b)| line.swap(a, b));
    }
}

fn repeat_field(line: &mut [u8], random: &mut Random) {
    if let Some([a, b]) = two_fields(line, random) {
        line.copy_within(a, b.start);
    }
}

/// One more or one less in a count of ENTER, with or without its file.
fn change_count(line: &mut Vec<u8>, random: &mut Random) {
    let at = [COUNT_W, COUNT_R, COUNT_J][random.below(3)].end - 1;
    if line.len() >= BEFORE_FILES {
        line[at] = line[at].wrapping_add(if random.per_mille(500) { 1 } else { 255 });
        if random.per_mille(300) {
            line.extend(file_columns(FILES));
        }
    }
}

fn change_verb(line: &mut [u8], random: &mut Random) {
    const VERBS: [&[u8; 6]; 26] = [
        b"ENTER ",
        b"OPEN  ",
        b"CLOSE ",
        b"DROP  ",
        b"LEAVE ",
        b"CANCEL",
        b"FETCH ",
        b"RETURN",
        b"enter ",
        b"OPENS ",
        b"LEAVES",
        b"      ",
        b" OPEN ",
        b"DROP\0\0",
        b"ORDER ",
        b"CANCE ",
        b"CANCE\0",
        b" CANCE",
        b"cancel",
        b"Cancel",
        b"FETCH\0",
        b" FETCH",
        b"FETCHS",
        b"fetch ",
        b"RETUR ",
        b"return",
    ];
    if line.len() >= VERB.end {
        line[VERB].copy_from_slice(VERBS[random.below(VERBS.len())]);
    }
}

/// A call with a journal of any kind, in most cases with room enough.
pub fn call(line: Vec<u8>, random: &mut Random) -> Call {
    let fill = random.next();
    let places = if random.per_mille(30) { 3000 } else { 200 };
    let place = random.below(places) as u64;
    let room = match random.below(200) {
        0 => random.below(ROOM),
        1 => ROOM - 1,
        2..=100 => ROOM,
        _ => ROOM + random.below(64),
    };
    let mut call = Call {
        line,
        journal: place as usize + room,
        place,
        fill,
    };
    if random.per_mille(4) {
        call.place = far_place(random);
    }
    if random.per_mille(2) {
        call.journal = random.below(call.journal + 1);
    }
    call
}

/// Places around the highest one and up to the largest number.
pub fn far_place(random: &mut Random) -> u64 {
    let base = [
        HIGHEST_PLACE,
        1 << 31,
        1 << 32,
        1 << 63,
        u64::MAX - ROOM as u64,
        u64::MAX,
    ];
    let base = base[random.below(base.len())];
    base.saturating_add(random.below(5) as u64)
        .saturating_sub(random.below(5) as u64)
}
