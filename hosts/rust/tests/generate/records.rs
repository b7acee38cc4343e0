//! Damage to the records of sound images: of those in use and of those awaited.

// All damages have one type.
#![allow(clippy::ptr_arg)]

use super::images::{at, byte, inquiry};
use super::random::Random;
use crate::model::board::{members, only, Board, Record, Standing, FILES, RECORDS};
use crate::model::image::{self, AWAITED, AWAITED_RECORD, RECORD, RECORD_IN_USE};

/// Puts a record's number into two bytes.
fn put(image: &mut [u8], at: usize, number: usize) {
    image[at..at + RECORD].copy_from_slice(&(number as u16).to_le_bytes());
}

/// One of the programs with a record in use, and its record.
fn some_user(board: &Board, random: &mut Random) -> Option<(usize, Record)> {
    let p = random.pick(&board.which(|program| program.in_use.is_some()))?;
    Some((p, board.get(p).in_use?))
}

/// One of the programs that await a record, and the record.
fn some_record_waiter(board: &Board, random: &mut Random) -> Option<(usize, Record)> {
    let p = random.pick(&board.which(|program| program.awaits().is_some()))?;
    Some((p, board.get(p).awaits()?))
}

pub fn user_without_file(image: &mut Vec<u8>, board: &Board, random: &mut Random) {
    if let Some((p, _)) = some_user(board, random) {
        image[at(p, AWAITED)] = 0;
    }
}

pub fn user_file_range(image: &mut Vec<u8>, board: &Board, random: &mut Random) {
    if let Some((p, _)) = some_user(board, random) {
        image[at(p, AWAITED)] = byte(random, FILES + 1);
    }
}

/// Its file byte names another file; sound, if that is open for inquiry and nobody
/// awaits the record.
pub fn user_of_another_file(image: &mut Vec<u8>, board: &Board, random: &mut Random) {
    if let Some((p, _)) = some_user(board, random) {
        let open = members(board.get(p).i);
        let any = random.within(1, FILES);
        let f = random.pick(&open).filter(|_| random.per_mille(300));
        image[at(p, AWAITED)] = f.unwrap_or(any) as u8;
    }
}

/// The record of a user is another one, or none; the first is sound, if nobody awaits
/// its own.
pub fn user_of_another_record(image: &mut Vec<u8>, board: &Board, random: &mut Random) {
    if let Some((p, _)) = some_user(board, random) {
        let number = random.within(0, RECORDS) * random.below(2);
        put(image, inquiry(p, RECORD_IN_USE), number);
    }
}

/// A program that waits, is held or is absent has a record in use.
pub fn user_not_running(image: &mut Vec<u8>, board: &Board, random: &mut Random) {
    let idle = board.which(|program| program.standing != Standing::Running);
    if let Some(p) = random.pick(&idle) {
        put(image, inquiry(p, RECORD_IN_USE), random.within(1, RECORDS));
        if random.per_mille(500) && board.get(p).standing == Standing::Absent {
            image[at(p, AWAITED)] = random.within(1, FILES) as u8;
        }
    }
}

/// A user of a record waits: for its own file, or for its own record.
pub fn user_waits(image: &mut Vec<u8>, board: &Board, random: &mut Random) {
    if let Some((p, record)) = some_user(board, random) {
        let mut board = board.clone();
        board.get_mut(p).standing = Standing::Waiting(record.file);
        board.get_mut(p).awaited_record = record.number * random.below(2);
        board.waiting.push(p);
        *image = image::write(&board);
    }
}

/// A record in use is that of another program too, which runs without one; in most
/// cases one with the file open for inquiry.
pub fn in_use_twice(image: &mut Vec<u8>, board: &Board, random: &mut Random) {
    if let Some((_, record)) = some_user(board, random) {
        let any = random.per_mille(100);
        let other = random.pick(&board.which(|program| {
            program.standing == Standing::Running
                && program.in_use.is_none()
                && (any || program.i & only(record.file) != 0)
        }));
        if let Some(p) = other {
            let mut board = board.clone();
            board.get_mut(p).in_use = Some(record);
            *image = image::write(&board);
        }
    }
}

/// One who awaits a record has it, though its user has it too; or its user has it no
/// longer.
pub fn handed_anyway(image: &mut Vec<u8>, board: &Board, random: &mut Random) {
    if let Some((p, record)) = some_record_waiter(board, random) {
        let mut board = board.clone();
        match board.user(record) {
            Some(user) if random.per_mille(500) => board.get_mut(user).in_use = None,
            _ => board.serve(p),
        }
        *image = image::write(&board);
    }
}

pub fn awaited_by_no_waiter(image: &mut Vec<u8>, board: &Board, random: &mut Random) {
    let idle = board.which(|program| !matches!(program.standing, Standing::Waiting(_)));
    if let Some(p) = random.pick(&idle) {
        let in_use = board.get(p).in_use.map(|record| record.number);
        let number = in_use.unwrap_or(random.within(1, RECORDS));
        put(image, inquiry(p, AWAITED_RECORD), number);
    }
}

/// Another number than the awaited one, which is in use in few cases.
pub fn awaited_free(image: &mut Vec<u8>, board: &Board, random: &mut Random) {
    if let Some((p, record)) = some_record_waiter(board, random) {
        let other = [
            record.number ^ 1,
            record.number ^ 256,
            random.within(1, RECORDS),
        ];
        put(image, inquiry(p, AWAITED_RECORD), other[random.below(3)]);
    }
}

/// Somebody awaits a record in use of a file that is not in its I.
pub fn awaited_not_inquired(image: &mut Vec<u8>, board: &Board, random: &mut Random) {
    let Some((_, record)) = some_user(board, random) else {
        return;
    };
    let outside = |p: &usize| board.get(*p).i & only(record.file) == 0;
    let waiters: Vec<usize> = board.waiting.iter().copied().filter(outside).collect();
    if let Some(p) = random.pick(&waiters) {
        image[at(p, AWAITED)] = record.file as u8;
        put(image, inquiry(p, AWAITED_RECORD), record.number);
    }
}

/// One who waits for a file awaits a record of it.
pub fn awaited_of_a_file(image: &mut Vec<u8>, board: &Board, random: &mut Random) {
    let of_file = |p: &usize| board.get(*p).awaits().is_none();
    let waiters: Vec<usize> = board.waiting.iter().copied().filter(of_file).collect();
    if let Some(p) = random.pick(&waiters) {
        put(image, inquiry(p, AWAITED_RECORD), random.within(1, RECORDS));
    }
}

/// One who awaits a record waits for its file, which is open by it.
pub fn file_of_a_record(image: &mut Vec<u8>, board: &Board, random: &mut Random) {
    if let Some((p, _)) = some_record_waiter(board, random) {
        put(image, inquiry(p, AWAITED_RECORD), 0);
    }
}
