//! Makes a session that shows a difference as small as it goes while some
//! difference remains.

use super::call::Call;
use super::session::Session;
use crate::model::board::{FILES, PROGRAMS};
use crate::model::image;

pub fn shrink(mut session: Session) -> Session {
    loop {
        let size = size(&session);
        cut(&mut session);
        drop_calls(&mut session);
        if session.start.len() == image::LENGTH {
            drop_programs(&mut session);
            drop_files(&mut session);
        }
        clear_start(&mut session);
        plain_journals(&mut session);
        if self::size(&session) == size {
            return session;
        }
    }
}

fn size(session: &Session) -> (usize, usize, usize) {
    let set = session.start.iter().filter(|&&byte| byte != 0).count();
    let odd = session
        .calls
        .iter()
        .filter(|call| **call != Call::plain(&call.line))
        .count();
    (session.calls.len(), set, odd)
}

/// Replaces the session if the change does something and a difference remains.
fn keep(session: &mut Session, change: impl Fn(&mut Session)) -> bool {
    let mut changed = session.clone();
    change(&mut changed);
    let same = changed.start == session.start && changed.calls == session.calls;
    let smaller = !same && changed.difference().is_some();
    if smaller {
        *session = changed;
    }
    smaller
}

/// Leaves out what comes after the call that differs.
fn cut(session: &mut Session) {
    if let Some(difference) = session.difference() {
        session.calls.truncate(difference.at + 1);
    }
}

/// Leaves out runs of calls, long ones first.
fn drop_calls(session: &mut Session) {
    let mut run = session.calls.len() / 2;
    while run > 0 {
        let mut from = 0;
        while from + run <= session.calls.len() {
            if !keep(session, |changed| {
                drop(changed.calls.drain(from..from + run))
            }) {
                from += run;
            }
        }
        run /= 2;
    }
    cut(session);
}

/// Takes single programs out of the image, also out of its lines; with one
/// less at favouring if that is needed.
fn drop_programs(session: &mut Session) {
    for p in 1..=PROGRAMS as u8 {
        let row =
            |from: usize, len: usize| from + len * usize::from(p - 1)..from + len * usize::from(p);
        let rows = [
            row(0, image::PROGRAM),
            row(image::INQUIRY, image::INQUIRY_LEN),
        ];
        let start = &session.start;
        if (rows.iter().flat_map(|row| &start[row.clone()])).all(|&byte| byte == 0) {
            continue;
        }
        for less in [1, 0] {
            keep(session, |changed| {
                for row in &rows {
                    changed.start[row.clone()].fill(0);
                }
                changed.start[image::COUNTS + usize::from(p) - 1] = 0;
                for line in [image::WAITING_LINE, image::ENTRY_LINE] {
                    let names = &mut changed.start[line..line + PROGRAMS];
                    if let Some(at) = names.iter().position(|&name| name == p) {
                        names[at..].rotate_left(1);
                        names[PROGRAMS - 1] = 0;
                    }
                }
                let number = &mut changed.start[image::NUMBER];
                *number = number.saturating_sub(less);
            });
        }
    }
}

/// Takes single files out of all sets of one program, or of all programs.
fn drop_files(session: &mut Session) {
    for f in 0..FILES {
        let clear = |start: &mut [u8], p: usize| {
            let first =
                [image::V, image::Q, image::W, image::R].map(|set| image::PROGRAM * p + set);
            let second =
                [image::J, image::I].map(|set| image::INQUIRY + image::INQUIRY_LEN * p + set);
            for set in first.into_iter().chain(second) {
                start[set + f / 8] &= !(1 << (f % 8));
            }
        };
        keep(session, |changed| {
            (0..PROGRAMS).for_each(|p| clear(&mut changed.start, p))
        });
        for p in 0..PROGRAMS {
            keep(session, |changed| clear(&mut changed.start, p));
        }
    }
}

/// Puts 0 into the image's bytes, whole programs first.
fn clear_start(session: &mut Session) {
    for run in [image::PROGRAM, image::SET, 1] {
        for from in (0..session.start.len()).step_by(run) {
            let to = session.start.len().min(from + run);
            if session.start[from..to].iter().any(|&byte| byte != 0) {
                keep(session, |changed| changed.start[from..to].fill(0));
            }
        }
    }
}

/// Gives each call a journal of just the room it needs, if it can.
fn plain_journals(session: &mut Session) {
    for at in 0..session.calls.len() {
        let plain = Call::plain(&session.calls[at].line);
        if session.calls[at] != plain {
            keep(session, |changed| changed.calls[at] = plain.clone());
        }
    }
}
