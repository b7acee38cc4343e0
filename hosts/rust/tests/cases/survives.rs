//! Image files survive whatever ends a session: sessions of all three hosts are
//! ended by signals at random moments, one after another on the same file. The
//! image must then be the model's board after the k requests whose answers were
//! seen, or after one more; so must be what a power cut would have left. The
//! next session goes on from there.

use super::seed;
use crate::generate::lines;
use crate::generate::random::Random;
use crate::generate::sessions::{Cast, PROFILES};
use crate::model::board::Board;
use crate::model::journal::{program_columns, Entry, Word};
use crate::model::{image, order};
use crate::running::{Place, Running, HOSTS, SIGHUP, SIGINT, SIGKILL, SIGTERM};
use std::collections::BTreeMap;
use std::fs;
use std::os::unix::process::ExitStatusExt;
use std::path::Path;
use std::time::{Duration, Instant};

/// Sessions on one file, and files.
const CHAIN: usize = 30;
const CHAINS: usize = 10;

/// Request lines of one session, and their bytes, which fit into a pipe. At most
/// 4 lines are answered before the end is near.
const REQUESTS: usize = 300;
const BYTES: usize = 50_000;

/// What the model says of a session: its lines, the boards before the first and
/// after each, the journal, and where the journal of each line ends.
struct Expected {
    lines: Vec<Vec<u8>>,
    boards: Vec<Board>,
    journal: Vec<u8>,
    ends: Vec<usize>,
}

impl Expected {
    fn new(start: Board, random: &mut Random) -> Expected {
        let profile = &PROFILES[random.below(PROFILES.len())];
        let cast = Cast::new(profile, random);
        let mut expected = Expected {
            lines: Vec::new(),
            boards: vec![start],
            journal: Vec::new(),
            ends: vec![0],
        };
        let mut bytes = 0;
        for at in 0..REQUESTS {
            let board = &expected.boards[at];
            let line = lines::text(&cast.request(board, at, random), random);
            let line: Vec<u8> = line.into_iter().filter(|&byte| byte != 10).collect();
            let (after, entries) = image::step(board, &line);
            expected
                .journal
                .extend(entries.iter().flat_map(Entry::bytes));
            expected.ends.push(expected.journal.len());
            expected.boards.push(after);
            bytes += line.len() + 1;
            expected.lines.push(line);
            if bytes > BYTES {
                break;
            }
        }
        expected
    }

    /// How many requests were answered, and whether part of one more was.
    fn answered(&self, seen: &[u8]) -> (usize, bool) {
        assert!(self.journal.starts_with(seen), "another journal");
        let k = self
            .ends
            .iter()
            .rposition(|&end| end <= seen.len())
            .unwrap();
        (k, seen.len() > self.ends[k])
    }
}

/// The board of an image file, which must be sound; none if there is no file.
fn board_of(path: &Path) -> Option<Board> {
    let bytes = fs::read(path).ok()?;
    match image::read(&bytes) {
        Ok(board) => Some(board),
        Err(faults) => panic!("{} of {} bytes: {faults:?}", path.display(), bytes.len()),
    }
}

/// What a place holds: the boards of the image and of the copy of the disk.
fn boards_of(place: &Place) -> [Option<Board>; 2] {
    [board_of(&place.image()), board_of(&place.disk())]
}

#[test]
#[ignore = "runs the hosts: hosts/test survives"]
fn images_survive_signals() {
    let mut random = Random::new(seed() ^ 0x7777);
    let mut met: BTreeMap<String, usize> = BTreeMap::new();
    for chain in 0..CHAINS {
        let place = Place::new(&format!("chain-{chain}"));
        let mut board = Board::EMPTY;
        for round in 0..CHAIN {
            let signal = [SIGINT, SIGTERM, SIGHUP].get(round % 10).copied();
            let signal = signal.unwrap_or(SIGKILL);
            let host = HOSTS[random.below(HOSTS.len())];
            let expected = Expected::new(board, &mut random);
            let kind = one_session(host, &place, &expected, signal, &mut random);
            for name in [host, kind, &format!("signal {signal}")] {
                *met.entry(name.to_string()).or_default() += 1;
            }
            board = what_is_left(&place, &mut random);
        }
        whole_session(HOSTS[chain % 3], &place, board, &mut random);
    }
    println!("sessions ended by signals: {met:?}");
    let met = |name: &str| met.get(name).copied().unwrap_or(0);
    assert!(met("signal 9") >= 200);
    assert!([SIGINT, SIGTERM, SIGHUP].map(|signal| met(&format!("signal {signal}"))) == [30; 3]);
    assert!(HOSTS.iter().all(|host| met(host) > 50));
    assert!(met("board after k") > 10 && met("board after k + 1") > 10);
    assert!(met("all was served") < 30, "the ends came too late");
}

/// A session that a signal ends: the image is as it must be, and so is what is
/// on the disk. Gives which board it is.
fn one_session(
    host: &str,
    place: &Place,
    expected: &Expected,
    signal: i32,
    random: &mut Random,
) -> &'static str {
    let before = boards_of(place);
    let seen = run_until(host, place, expected, signal, random);
    let found = boards_of(place);
    let (k, partly) = expected.answered(&seen);
    let now = &expected.boards[k];
    let next = expected.boards.get(k + 1).unwrap_or(now);
    for (at, board) in found.iter().enumerate() {
        let as_before = seen.is_empty() && *board == before[at];
        let is_now = !partly && board.as_ref() == Some(now);
        assert!(
            as_before || is_now || board.as_ref() == Some(next),
            "{host}, signal {signal}: not the board after {k} answers, or one more, in the {}",
            ["image", "copy of what is on the disk"][at]
        );
    }
    match (seen.is_empty(), k == expected.lines.len()) {
        (true, _) => "no answer seen",
        (_, true) => "all was served",
        _ if now == next => "both boards alike",
        _ if found[0].as_ref() == Some(now) => "board after k",
        _ => {
            let again = image::step(next, &expected.lines[k]).1;
            assert_eq!(again[0].word, Word::Refuse, "what was served, sent again");
            "board after k + 1"
        }
    }
}

/// Runs a session, ends it somewhere in the midst, and gives what was seen of
/// its journal.
fn run_until(
    host: &str,
    place: &Place,
    expected: &Expected,
    signal: i32,
    random: &mut Random,
) -> Vec<u8> {
    let mut running = Running::start(host, place);
    running.send(&expected.lines);
    let wait = if random.per_mille(100) {
        // Near its start, before the first answer in most cases.
        Duration::from_micros(20_000)
    } else {
        let answers = random.below(5);
        running.wait_for(expected.ends[1]);
        let began = Instant::now();
        running.wait_for(expected.ends[answers]);
        // About a request more, or two.
        began.elapsed() * 3 / 2 / answers.max(2) as u32 + Duration::from_micros(200)
    };
    std::thread::sleep(wait * random.below(1000) as u32 / 1000);
    running.signal(signal);
    let (status, seen) = running.ended();
    // At its very start GnuCOBOL's own handler ends the COBOL host, with a status.
    let ended = status.signal() == Some(signal) || (seen.is_empty() && !status.success());
    assert!(ended, "{host}: {status}, {}", place.messages());
    seen
}

/// The board that the next session begins with: that of the image or, as after
/// a power cut, that of the disk.
fn what_is_left(place: &Place, random: &mut Random) -> Board {
    if random.per_mille(500) {
        cut_power(place);
    }
    board_of(&place.image()).unwrap_or(Board::EMPTY)
}

/// Leaves of the image what is sure to be on the disk.
fn cut_power(place: &Place) {
    if place.disk().exists() {
        fs::copy(place.disk(), place.image()).expect("the image of the disk");
    } else if place.image().exists() {
        fs::remove_file(place.image()).expect("no image on the disk");
    }
}

/// A session that serves its whole input, with the ORDER line.
fn whole_session(host: &str, place: &Place, start: Board, random: &mut Random) {
    let expected = Expected::new(start, random);
    let mut running = Running::start(host, place);
    running.send(&expected.lines[..5]);
    let (status, seen) = running.finish();
    let mut journal = expected.journal[..expected.ends[5]].to_vec();
    let order = order::carried(&expected.boards[5]).expect("an order");
    journal.extend(b"ORDER ");
    journal.extend(order.into_iter().flat_map(program_columns));
    journal.push(10);
    assert!(status.success(), "{host}: {}", place.messages());
    assert_eq!(
        seen.escape_ascii().to_string(),
        journal.escape_ascii().to_string()
    );
    assert_eq!(board_of(&place.image()), Some(expected.boards[5].clone()));
}
