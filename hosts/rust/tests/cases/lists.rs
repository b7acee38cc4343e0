//! Lists of request lines from the empty board on, and what their calls tell:
//! for promises that are read from the list and the journal alone.

use crate::compare::call::{library, model, Call, Outcome};
use crate::compare::session::Session;
use crate::generate::lines::text;
use crate::generate::random::Random;
use crate::generate::scripts::{Script, SCRIPTS};
use crate::generate::sessions::{Cast, Profile, PROFILES};
use crate::model::board::Board;
use crate::model::image::{self, REFUSED_2};
use crate::model::journal::{LINE, PROGRAM, WORD};

/// A list that the library or the model is to answer.
pub struct List {
    requests: Vec<Vec<u8>>,
    side: fn(&[u8], &Call) -> Outcome,
}

impl List {
    pub fn len(&self) -> u64 {
        self.requests.len() as u64
    }

    /// Makes the calls; takes each request with the words and programs of its
    /// journal lines, and what is seen after it.
    pub fn each(&self, mut take: impl FnMut(&[u8], &[(&str, usize)], &Outcome)) {
        let mut image = Session::empty().start;
        for request in &self.requests {
            let outcome = (self.side)(&image, &Call::plain(request));
            take(request, &lines(&outcome), &outcome);
            image = outcome.image;
        }
    }
}

/// Takes lists of so many calls or some more: of each profile in turn, and now
/// and then one of each script; each for both sides.
pub fn lists(calls: u64, random: &mut Random, mut take: impl FnMut(List)) {
    let (mut made, mut round) = (0, 0);
    while made < calls {
        let mut all = vec![guided(&PROFILES[round % PROFILES.len()], random)];
        if round % 10 == 0 {
            all.extend(SCRIPTS.map(|script| planned(script, random)));
        }
        for requests in all {
            for side in [model, library] {
                let requests = requests.clone();
                made += requests.len() as u64;
                take(List { requests, side });
            }
        }
        round += 1;
    }
}

/// A random list, made with an eye on the model's board.
fn guided(profile: &Profile, random: &mut Random) -> Vec<Vec<u8>> {
    let (cast, mut board) = (Cast::new(profile, random), Board::EMPTY);
    let mut next = |at| {
        let line = text(&cast.request(&board, at, random), random);
        board = image::step(&board, &line).0;
        line
    };
    (0..profile.length).map(&mut next).collect()
}

/// A list with a plan.
fn planned(script: Script, random: &mut Random) -> Vec<Vec<u8>> {
    let requests = script(random);
    requests
        .iter()
        .map(|request| text(request, random))
        .collect()
}

/// The words and programs of the lines that a call has written from place 0 on.
fn lines(outcome: &Outcome) -> Vec<(&str, usize)> {
    assert!(outcome.answer < REFUSED_2, "a refused board");
    let text = |bytes| std::str::from_utf8(bytes).expect("plain text").trim();
    let program = |bytes| text(bytes).parse().expect("a program");
    let written = outcome.journal[..outcome.answer as usize].chunks(LINE);
    written
        .map(|line| (text(&line[WORD]), program(&line[PROGRAM])))
        .collect()
}
