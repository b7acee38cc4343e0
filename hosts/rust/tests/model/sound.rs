//! "A sound board": every clause that a board breaks, each under its own name.
//! The layout's faults stand in the same list, and those of 02's counts and
//! records.

use super::board::{only, Board, Program, Record, Standing, MOST_PASSES, PROGRAMS};
use super::events::claims_meet;
use super::order;
use super::settle::would_give;

#[derive(Clone, Copy, PartialEq, Eq, PartialOrd, Ord, Debug)]
pub enum Fault {
    // The image's layout.
    Length,
    StandingByte,
    AwaitedNotZero,
    AwaitedRange,
    UserWithoutFile,
    UserNotRunning,
    AwaitedRecordOfNoWaiter,
    WaitingLineRange,
    EntryLineRange,
    FavouredRange,
    // Each line names its programs once and is then 0.
    WaitingLineGap,
    WaiterMissing,
    WaiterTwice,
    WaitingLineStranger,
    EntryLineGap,
    HeldMissing,
    HeldTwice,
    EntryLineStranger,
    // Sets.
    WriteOutsideClaim,
    ReadOutsideClaim,
    InquiryOutsideClaim,
    ClaimsMeet,
    AbsentWithSets,
    HeldWithOpen,
    // Conflict and order.
    Conflict,
    NoOrder,
    // A waiter's file.
    AwaitedUnclaimed,
    AwaitedOpen,
    AwaitedCanBeGiven,
    // Records.
    UserNotInquiring,
    RecordInUseTwice,
    AwaitedRecordNotInquired,
    AwaitedRecordFree,
    // Favouring.
    FavouredNotWaiting,
    HeldWithoutFavoured,
    NumberWithoutFavoured,
    LeavesWithoutFavoured,
    SumWrong,
    NumberAbove32,
    // Counts.
    CountAbove8,
    CountOfNoWaiter,
}

/// The broken clauses of a board whose layout is right, save the gaps in its
/// lines, which only the image shows.
pub fn faults(board: &Board) -> Vec<Fault> {
    let mut found = Vec::new();
    let waiting = board.which(|program| matches!(program.standing, Standing::Waiting(_)));
    let held = board.which(|program| program.standing == Standing::Held);
    let names = [
        Fault::WaiterMissing,
        Fault::WaiterTwice,
        Fault::WaitingLineStranger,
    ];
    line(&board.waiting, &waiting, names, &mut found);
    let names = [
        Fault::HeldMissing,
        Fault::HeldTwice,
        Fault::EntryLineStranger,
    ];
    line(&board.entry, &held, names, &mut found);
    for p in board.which(|_| true) {
        sets(board.get(p), &mut found);
    }
    conflict_and_order(board, &mut found);
    for &p in &waiting {
        waiter(board, p, &mut found);
    }
    records(board, &mut found);
    favouring(board, &mut found);
    counts(board, &waiting, &mut found);
    found.sort();
    found.dedup();
    found
}

/// A line against the programs it should name: missing, twice, stranger.
fn line(line: &[usize], programs: &[usize], names: [Fault; 3], found: &mut Vec<Fault>) {
    for p in programs {
        match line.iter().filter(|&name| name == p).count() {
            0 => found.push(names[0]),
            1 => {}
            _ => found.push(names[1]),
        }
    }
    if line.iter().any(|name| !programs.contains(name)) {
        found.push(names[2]);
    }
}

fn sets(program: &Program, found: &mut Vec<Fault>) {
    if program.w & !program.v != 0 {
        found.push(Fault::WriteOutsideClaim);
    }
    if program.r & !program.q != 0 {
        found.push(Fault::ReadOutsideClaim);
    }
    if program.i & !program.j != 0 {
        found.push(Fault::InquiryOutsideClaim);
    }
    if claims_meet(program.v, program.q, program.j) {
        found.push(Fault::ClaimsMeet);
    }
    if program.standing == Standing::Absent && program.claim() | program.open() != 0 {
        found.push(Fault::AbsentWithSets);
    }
    if program.standing == Standing::Held && program.open() != 0 {
        found.push(Fault::HeldWithOpen);
    }
}

fn conflict_and_order(board: &Board, found: &mut Vec<Fault>) {
    let all = board.which(|_| true);
    let conflict = |i: usize, j: usize| i != j && board.get(i).conflicts(board.get(j));
    if all.iter().any(|&i| all.iter().any(|&j| conflict(i, j))) {
        found.push(Fault::Conflict);
    }
    if order::carried(board).is_none() {
        found.push(Fault::NoOrder);
    }
}

/// "01's rule on a waiter's file covers file waits only."
fn waiter(board: &Board, p: usize, found: &mut Vec<Fault>) {
    let program = board.get(p);
    let Standing::Waiting(f) = program.standing else {
        return;
    };
    if program.awaits().is_some() {
        return;
    }
    if program.claim() & only(f) == 0 {
        found.push(Fault::AwaitedUnclaimed);
    } else if program.open() & only(f) != 0 {
        found.push(Fault::AwaitedOpen);
    } else if would_give(board, p, f) {
        found.push(Fault::AwaitedCanBeGiven);
    }
}

/// "Records in use differ, .. and an awaited record is in use; both have their file
/// in I".
fn records(board: &Board, found: &mut Vec<Fault>) {
    let all = board.which(|_| true);
    let mut check = |holds: bool, fault: Fault| {
        if !holds {
            found.push(fault);
        }
    };
    for program in all.iter().map(|&p| board.get(p)) {
        let inquires = |record: Record| program.i & only(record.file) != 0;
        if let Some(record) = program.in_use {
            let users = board.which(|other| other.in_use == Some(record));
            check(inquires(record), Fault::UserNotInquiring);
            check(users.len() == 1, Fault::RecordInUseTwice);
        }
        if let Some(record) = program.awaits() {
            let used = board.user(record).is_some();
            check(inquires(record), Fault::AwaitedRecordNotInquired);
            check(used, Fault::AwaitedRecordFree);
        }
    }
}

fn favouring(board: &Board, found: &mut Vec<Fault>) {
    let mut check = |holds: bool, fault: Fault| {
        if !holds {
            found.push(fault);
        }
    };
    if board.favoured == 0 {
        let held = board.which(|program| program.standing == Standing::Held);
        check(held.is_empty(), Fault::HeldWithoutFavoured);
        check(board.number == 0, Fault::NumberWithoutFavoured);
        check(board.leaves == 0, Fault::LeavesWithoutFavoured);
        return;
    }
    let standing = board.get(board.favoured).standing;
    check(
        matches!(standing, Standing::Waiting(_)),
        Fault::FavouredNotWaiting,
    );
    let sum = board.leaves + board.admitted().len();
    check(sum == board.number, Fault::SumWrong);
    check(board.number <= PROGRAMS, Fault::NumberAbove32);
}

/// "A sound board has no count above 8, and 0 for all who aren't waiting."
fn counts(board: &Board, waiting: &[usize], found: &mut Vec<Fault>) {
    for p in board.which(|_| true) {
        if board.count(p) > MOST_PASSES {
            found.push(Fault::CountAbove8);
        }
        if board.count(p) != 0 && !waiting.contains(&p) {
            found.push(Fault::CountOfNoWaiter);
        }
    }
}
