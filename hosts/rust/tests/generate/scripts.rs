//! Sessions with a plan: many programs given at once, many admitted at once,
//! and waiters for a file or a record that many pass. Programs, files and sizes are
//! random.

use super::random::Random;
use super::sessions::record;
use crate::model::board::{only, Files, FILES, PROGRAMS};
use crate::model::events::Request;

pub type Script = fn(&mut Random) -> Vec<Request>;

pub const SCRIPTS: [Script; 9] = [
    readers_behind_writer,
    readers_behind_waiter,
    held_behind_favoured,
    held_behind_cancelled,
    writers_behind_a_stream,
    held_beside_a_waiter,
    many_beside_a_waiter,
    clerks_behind_a_record,
    held_beside_a_clerk,
];

/// How many programs take part; in many cases all.
fn up_to_all(random: &mut Random) -> usize {
    if random.per_mille(300) {
        PROGRAMS
    } else {
        random.within(4, PROGRAMS)
    }
}

fn writer(p: usize, v: Files) -> Request {
    let (q, j) = (0, 0);
    Request::Enter { p, v, q, j }
}

/// All enter as readers of a file and open it.
fn open_all(readers: &[usize], f: usize) -> Vec<Request> {
    let (v, q, j) = (0, only(f), 0);
    let both = |&p: &usize| [Request::Enter { p, v, q, j }, Request::Open { p, f }];
    readers.iter().flat_map(both).collect()
}

/// All enter for inquiry into a file, open it and fetch one record.
fn fetch_all(clerks: &[usize], f: usize, n: usize) -> Vec<Request> {
    let (v, q, j) = (0, 0, only(f));
    let all = |&p: &usize| {
        let enter = Request::Enter { p, v, q, j };
        [enter, Request::Open { p, f }, Request::Fetch { p, f, n }]
    };
    clerks.iter().flat_map(all).collect()
}

fn leave_all(programs: &[usize]) -> Vec<Request> {
    let leave = |&p: &usize| Request::Leave { p };
    programs.iter().map(leave).collect()
}

/// Cancels of some of the programs.
fn cancel_some(programs: &[usize], random: &mut Random) -> Vec<Request> {
    let some = programs.iter().filter(|_| random.per_mille(200));
    some.map(|&p| Request::Cancel { p }).collect()
}

/// Readers wait behind a writer, whose close or leave gives them all.
fn readers_behind_writer(random: &mut Random) -> Vec<Request> {
    let (programs, f) = (random.shuffled(PROGRAMS), random.within(1, FILES));
    let (p, readers) = (programs[0], &programs[1..up_to_all(random)]);
    let mut requests = vec![writer(p, only(f)), Request::Open { p, f }];
    requests.extend(open_all(readers, f));
    requests.push(if random.per_mille(500) {
        Request::Close { p, f }
    } else {
        Request::Leave { p }
    });
    requests.extend(leave_all(readers));
    requests
}

/// Readers wait behind a writer that waits for another file. Some of them are
/// cancelled; the cancel of the writer gives the rest.
fn readers_behind_waiter(random: &mut Random) -> Vec<Request> {
    let (programs, files) = (random.shuffled(PROGRAMS), random.shuffled(FILES));
    let (p, user, readers) = (programs[0], programs[1], &programs[2..up_to_all(random)]);
    let (f, other) = (files[0], files[1]);
    let mut requests = vec![
        writer(p, only(f) | only(other)),
        Request::Open { p, f },
        writer(user, only(other)),
        Request::Open { p: user, f: other },
        Request::Open { p, f: other },
    ];
    requests.extend(open_all(readers, f));
    requests.extend(cancel_some(readers, random));
    requests.push(Request::Cancel { p });
    requests.extend(leave_all(readers));
    requests
}

/// A program is favoured while another writes, and others are held.
struct Held {
    requests: Vec<Request>,
    user: usize,
    favoured: usize,
    held: Vec<usize>,
}

fn held(programs: &[usize], files: &[usize], random: &mut Random) -> Held {
    let (user, favoured) = (programs[0], programs[1]);
    let (a, b, c) = (files[0], files[1], files[2]);
    let mut requests = vec![
        writer(user, only(a) | only(b) | only(c)),
        writer(favoured, only(a) | only(b)),
        Request::Open { p: user, f: a },
        Request::Open { p: user, f: c },
        Request::Open { p: favoured, f: b },
        Request::Close { p: user, f: c },
    ];
    let held = programs[2..up_to_all(random).min(programs.len())].to_vec();
    for &p in &held {
        requests.push(writer(p, only(files[random.within(0, 8)])));
    }
    Held {
        requests,
        user,
        favoured,
        held,
    }
}

/// The leave of the one that writes gives the favoured one its file, and the
/// held are admitted together.
fn held_behind_favoured(random: &mut Random) -> Vec<Request> {
    let mut script = held(&random.shuffled(PROGRAMS), &random.shuffled(FILES), random);
    script.requests.push(Request::Leave { p: script.user });
    script.requests.extend(leave_all(&script.held));
    script.requests
}

/// Some of the held are cancelled; the cancel of the favoured one admits the
/// rest together.
fn held_behind_cancelled(random: &mut Random) -> Vec<Request> {
    let mut script = held(&random.shuffled(PROGRAMS), &random.shuffled(FILES), random);
    let cancelled = cancel_some(&script.held, random);
    script.requests.extend(cancelled);
    let p = script.favoured;
    script.requests.push(Request::Cancel { p });
    script.requests.extend(leave_all(&script.held));
    script.requests
}

/// Writers wait while overlapping readers come and go, until the oldest writer
/// is favoured in place of the next reader; then all leave.
fn writers_behind_a_stream(random: &mut Random) -> Vec<Request> {
    let (programs, f) = (random.shuffled(PROGRAMS), random.within(1, FILES));
    let several = random.below(2) * random.within(1, 3);
    let (writers, readers) = programs.split_at(1 + several);
    let mut requests = open_all(&readers[..1], f);
    requests.extend(writers.iter().map(|&p| writer(p, only(f))));
    requests.extend(writers.iter().map(|&p| Request::Open { p, f }));
    let overlaps = readers.windows(2).take(random.within(7, 12));
    for pair in overlaps {
        requests.extend(open_all(&pair[1..], f));
        requests.push(Request::Leave { p: pair[0] });
    }
    requests.extend(leave_all(readers));
    requests.extend(leave_all(writers));
    requests
}

/// The held ones are admitted until they have passed another waiter, which waits
/// for a file that is read; with its reader's leave the rest are admitted.
fn held_beside_a_waiter(random: &mut Random) -> Vec<Request> {
    let (programs, files) = (random.shuffled(PROGRAMS), random.shuffled(FILES));
    let (reader, p, f) = (programs[0], programs[1], files[FILES - 1]);
    let mut requests = open_all(&[reader], f);
    requests.extend([writer(p, only(f)), Request::Open { p, f }]);
    let script = held(&programs[2..], &files, random);
    requests.extend(script.requests);
    requests.push(Request::Leave { p: script.user });
    requests.push(Request::Leave { p: reader });
    requests.extend(leave_all(&script.held));
    requests
}

/// Many enter beside a program that waits for want of an order, until it is
/// favoured in place of the next one. With the leave of the other program that
/// claims its file it gets that file.
fn many_beside_a_waiter(random: &mut Random) -> Vec<Request> {
    let (programs, files) = (random.shuffled(PROGRAMS), random.shuffled(FILES));
    let (user, p, others) = (programs[0], programs[1], &programs[2..up_to_all(random)]);
    let (a, b) = (files[0], files[1]);
    let mut requests = vec![
        writer(user, only(a) | only(b)),
        writer(p, only(a) | only(b)),
        Request::Open { p: user, f: a },
        Request::Open { p, f: b },
    ];
    requests.extend(
        others
            .iter()
            .map(|&p| writer(p, only(files[random.within(0, 8)]))),
    );
    requests.push(Request::Leave { p: user });
    requests.extend(leave_all(others));
    requests
}

/// Clerks wait for one record. Others come and go until the oldest clerk is favoured
/// in place of the next one; then each who has the record returns it or leaves.
fn clerks_behind_a_record(random: &mut Random) -> Vec<Request> {
    let (programs, f) = (random.shuffled(PROGRAMS), random.within(1, FILES));
    let (clerks, others) = programs.split_at(random.within(2, 6));
    let mut requests = fetch_all(clerks, f, record(random));
    for &p in &others[..random.within(7, 12)] {
        requests.extend([writer(p, 0), Request::Leave { p }]);
    }
    for &p in clerks {
        if random.per_mille(300) {
            requests.push(Request::Cancel { p });
        }
        if random.per_mille(500) {
            requests.push(Request::Return { p });
        }
        requests.push(Request::Leave { p });
    }
    requests
}

/// The held ones are admitted until they have passed a clerk that waits for a record;
/// when that is returned, the rest are admitted.
fn held_beside_a_clerk(random: &mut Random) -> Vec<Request> {
    let (programs, files) = (random.shuffled(PROGRAMS), random.shuffled(FILES));
    let (clerks, others) = programs.split_at(2);
    let mut requests = fetch_all(clerks, files[FILES - 1], record(random));
    let script = held(others, &files, random);
    requests.extend(script.requests);
    requests.push(Request::Leave { p: script.user });
    requests.push(Request::Return { p: clerks[0] });
    requests.extend(leave_all(&script.held));
    requests.extend(leave_all(clerks));
    requests
}
