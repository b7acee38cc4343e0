//! The wrapper: what it gives back, and what it makes of bad images.

use lock_board::{
    entry, Board, Error, Line, Record, Refusal, Reply, Request, Standing, Verb, Word,
};
use lock_board::{CLAIMS_LEN, FILES, LABEL_LEN, LOOP_ROOM, MOST_PASSED, PROGRAMS, REACH_LEN};
use lock_board::{CUT_LINE, HIGHEST_PLACE, IMAGE_LEN, JOURNAL_LINE, JOURNAL_ROOM, LONGEST_LINE};
use lock_board::{RECORDS, SET_LEN};

#[allow(dead_code)] // this program needs some of it
#[path = "model/fields.rs"]
mod fields;
#[allow(dead_code)]
#[path = "model/layout.rs"]
mod layout;

/// The limits are those that the model of the tests has from the documents.
#[test]
fn limits_are_those_of_the_documents() {
    for (name, limit, documents) in [
        ("IMAGE_LEN", IMAGE_LEN, layout::image::LENGTH),
        ("JOURNAL_LINE", JOURNAL_LINE, layout::journal::LINE),
        ("JOURNAL_ROOM", JOURNAL_ROOM, layout::journal::ROOM),
        ("LONGEST_LINE", LONGEST_LINE, layout::line::LONGEST),
        ("CUT_LINE", CUT_LINE, layout::line::CUT),
        ("LABEL_LEN", LABEL_LEN, layout::line::LABEL.len()),
        ("PROGRAMS", PROGRAMS, layout::PROGRAMS),
        ("FILES", FILES, layout::FILES),
        ("RECORDS", RECORDS, layout::RECORDS),
        ("SET_LEN", SET_LEN, layout::image::SET),
        ("CLAIMS_LEN", CLAIMS_LEN, 3 * layout::image::SET),
        ("MOST_PASSED", MOST_PASSED.into(), layout::MOST_PASSES),
    ] {
        assert_eq!(limit, documents, "{name}");
    }
    assert_eq!(HIGHEST_PLACE, layout::journal::HIGHEST_PLACE);
}

/// The image with a field that has another value.
fn changed(image: &[u8; IMAGE_LEN], field: &str) -> [u8; IMAGE_LEN] {
    let (at, bytes) = fields::read(field).unwrap();
    let mut changed = *image;
    changed[at..at + bytes.len()].copy_from_slice(&bytes);
    assert_ne!(changed, *image, "{field}");
    changed
}

fn board_after(lines: &[&str]) -> Board {
    let mut board = Board::new();
    for line in lines {
        let reply = board.serve(line.as_bytes()).unwrap();
        assert_eq!(reply.refusal(), None, "{line}");
    }
    board
}

fn line(word: Word, program: u8, file: u8) -> Line {
    Line {
        word,
        program,
        file,
        refusal: None,
        record: 0,
    }
}

/// A line about record 365 of file 4.
fn record_line(word: Word, program: u8) -> Line {
    Line {
        record: 365,
        ..line(word, program, 4)
    }
}

/// Program 1 runs, 2 waits for file 2 and is favoured, 3 is held.
fn favoured_and_held() -> Board {
    board_after(&[
        "ENTER   1STOCK     3  0  0  1  2  3",
        "ENTER   2BILLS     2  0  0  1  2",
        "OPEN    1  1",
        "OPEN    1  3",
        "OPEN    2  2",
        "CLOSE   1  3",
        "ENTER   3LISTS     0  1  0  2",
    ])
}

/// What follows the DONE of a cancel, whose line the library writes.
fn cancelled(board: &mut Board, program: u8) -> Vec<Line> {
    let reply = board.serve(&Request::cancel(program).line().unwrap());
    let reply = reply.unwrap();
    assert_eq!(reply.answer(), line(Word::Done, program, 0));
    let gone = board.program(program).unwrap();
    assert_eq!(gone.standing, Standing::Absent);
    let claims = [gone.write_claim, gone.read_claim, gone.inquiry_claim];
    let open = [gone.write_open, gone.read_open, gone.inquiry_open];
    assert!(claims.iter().chain(&open).all(|set| set.is_empty()));
    assert_eq!((gone.record_in_use, gone.awaited_record), (None, None));
    reply.settled().to_vec()
}

/// The refusal of a line, which must leave the board as it was and write one line.
fn refusal_of(board: &mut Board, request: &[u8]) -> u8 {
    let before = board.clone();
    let reply = board.serve(request).unwrap();
    assert_eq!(*board, before);
    assert_eq!(reply.answer().word, Word::Refuse);
    assert!(reply.settled().is_empty());
    reply.refusal().unwrap().number()
}

#[test]
fn answer_and_settling_are_typed() {
    let mut board = board_after(&[
        "ENTER   1STOCK     3  0  0  1  2  3",
        "ENTER   2BILLS     2  0  0  1  2",
        "OPEN    1  1",
        "OPEN    1  3",
    ]);
    let unsafe_open = board.serve(b"OPEN    2  2").unwrap();
    assert_eq!(unsafe_open.answer(), line(Word::Unsafe, 2, 2));
    assert!(unsafe_open.waits());
    let close = board.serve(b"CLOSE   1  3").unwrap();
    assert_eq!(close.answer(), line(Word::Done, 1, 3));
    assert_eq!(close.settled(), [line(Word::Favour, 2, 2)]);
    let enter = board.serve(b"ENTER   3LISTS     0  1  0  2").unwrap();
    assert_eq!(enter.answer(), line(Word::Held, 3, 0));
    assert!(!enter.waits());
    let leave = board.serve(b"LEAVE   1").unwrap();
    let settled = [line(Word::Given, 2, 2), line(Word::Admit, 3, 0)];
    assert_eq!(leave.settled(), settled);
    assert_eq!(leave.lines().collect::<Vec<_>>()[1..], settled);
    let bytes = b"DONE    1  0  0    0\nGIVEN   2  2  0    0\nADMIT   3  0  0    0\n";
    assert_eq!(leave.journal(), bytes);
}

#[test]
fn wait_is_typed() {
    let mut board = board_after(&[
        "ENTER   1STOCK     1  0  0 64",
        "ENTER   2BILLS     0  1  0 64",
        "OPEN    1 64",
    ]);
    let reply = board.serve(b"OPEN    2 64").unwrap();
    assert_eq!(reply.answer(), line(Word::Wait, 2, 64));
    assert!(reply.waits());
}

/// 31 readers, all admitted before one waits, wait for the file of program 1; its leave gives it
/// to all of them.
fn fullest_reply() -> Reply {
    let mut board = board_after(&["ENTER   1WRITER    1  0  0  1", "OPEN    1  1"]);
    for program in 2..=PROGRAMS {
        let enter = format!("ENTER {program:3}READER    0  1  0  1");
        let admitted = board.serve(enter.as_bytes());
        assert_eq!(admitted.unwrap().answer().word, Word::Admit);
    }
    for program in 2..=PROGRAMS {
        let open = board.serve(format!("OPEN  {program:3}  1").as_bytes());
        assert_eq!(open.unwrap().answer().word, Word::Wait);
    }
    board.serve(b"LEAVE   1").unwrap()
}

#[test]
fn the_most_lines_fill_the_journal() {
    let reply = fullest_reply();
    assert_eq!(reply.journal().len(), JOURNAL_ROOM);
    assert_eq!(reply.lines().count(), JOURNAL_ROOM / JOURNAL_LINE);
    let readers = 2..=PROGRAMS as u8;
    let given: Vec<Line> = readers.map(|p| line(Word::Given, p, 1)).collect();
    assert_eq!(reply.settled(), given);
}

#[test]
fn boards_in_several_threads() {
    let expected = fullest_reply();
    let threads: Vec<_> = (0..4)
        .map(|_| std::thread::spawn(|| (0..50).map(|_| fullest_reply()).collect::<Vec<_>>()))
        .collect();
    for thread in threads {
        assert!(thread.join().unwrap().iter().all(|r| *r == expected));
    }
}

#[test]
fn refusals_of_the_line() {
    let mut board = Board::new();
    for (request, number) in [
        (&b""[..], 3),
        (b"LEAV", 3),
        (b"leave   1", 3),
        (b"LEAVE   1 ", 4),
        (b"OPEN    1", 4),
        (b"CANCEL", 4),
        (b"CANCEL   1", 4),
        (b"CANCEL 1", 4),
        (b"CANCE   1", 3),
        (b"CANCEL001", 5),
        (b"CANCEL 33", 5),
        (b"LEAVE  01", 5),
        (b"LEAVE  33", 5),
        (b"OPEN    1 65", 5),
        (b"RETURN", 4),
        (b"RETURN  1  1    1", 4),
        (b"RETURN 33", 5),
        (b"FETCH   1  1", 4),
        (b"FETCH   1  1    1 ", 4),
        (b"FETCH   1  0    1", 5),
        (b"FETCH   1 65    1", 5),
        (b"FETCH   1  1    0", 5),
        (b"FETCH   1  165536", 5),
        (b"ENTER   1STO\x1fK     0  0  0", 6),
        (b"ENTER   1STOCK     2  0  0  2  1", 7),
        (&[b'7'; CUT_LINE], 3),
    ] {
        let text = String::from_utf8_lossy(request);
        assert_eq!(refusal_of(&mut board, request), number, "{text}");
    }
}

#[test]
fn the_longest_line() {
    let mut board = Board::new();
    let mut longest = b"ENTER   1LABEL   ".to_vec();
    let files = (0..3).flat_map(|_| 1..=FILES);
    for number in [FILES; 3].into_iter().chain(files) {
        longest.extend(format!("{number:3}").bytes());
    }
    assert_eq!(longest.len(), LONGEST_LINE);
    assert_eq!(refusal_of(&mut board, &longest), 10);
    longest.push(b' ');
    assert_eq!(refusal_of(&mut board, &longest), 4);
}

#[test]
fn refusals_of_the_call() {
    let mut board = favoured_and_held();
    for (request, number) in [
        (&b"ENTER   3LISTS     0  1  0  2"[..], 9),
        (b"ENTER   4BOTH      1  1  0  5  5", 10),
        (b"LEAVE   9", 11),
        (b"LEAVE   3", 12),
        (b"CLOSE   2  2", 13),
        (b"OPEN    1 64", 14),
        (b"DROP    1  1", 15),
        (b"CLOSE   1  2", 16),
        (b"CANCEL  9", 11),
        (b"CANCEL  1", 18),
        (b"FETCH   9  1    1", 11),
        (b"FETCH   3  2    1", 12),
        (b"FETCH   2  1    1", 13),
        (b"FETCH   1  1    1", 20),
        (b"RETURN  9", 11),
        (b"RETURN  3", 12),
        (b"RETURN  2", 13),
        (b"RETURN  1", 20),
    ] {
        let text = String::from_utf8_lossy(request);
        assert_eq!(refusal_of(&mut board, request), number, "{text}");
    }
}

/// Programs 1, 2 and 3 inquire into file 4. 1 has its record 365, and 2 waits for that.
fn record_in_use() -> Board {
    let mut board = Board::new();
    for clerk in 1..=3 {
        let enter = Request::enter(clerk).label("CLERK").inquire([4]).line();
        let admitted = board.serve(&enter.unwrap()).unwrap();
        assert_eq!(admitted.answer(), line(Word::Admit, clerk, 0));
        let open = board.serve(&Request::open(clerk, 4).line().unwrap());
        assert_eq!(open.unwrap().answer(), line(Word::Given, clerk, 4));
    }
    for (clerk, word) in [(1, Word::Given), (2, Word::Wait)] {
        let fetch = board.serve(&Request::fetch(clerk, 4, 365).line().unwrap());
        let fetch = fetch.unwrap();
        assert_eq!(fetch.answer(), record_line(word, clerk));
        assert_eq!(fetch.waits(), word == Word::Wait);
        assert!(fetch.settled().is_empty());
    }
    board
}

/// The record in use and the awaited record of a program, and how it stands.
fn records(board: &Board, program: u8) -> (Standing, Option<Record>, Option<Record>) {
    let program = board.program(program).unwrap();
    let (used, awaited) = (program.record_in_use, program.awaited_record);
    (program.standing, used, awaited)
}

#[test]
fn records_are_seen() {
    let board = record_in_use();
    let (file, number) = (4, 365);
    let record = Some(Record { file, number });
    for clerk in board.programs() {
        let sets = [clerk.inquiry_claim, clerk.inquiry_open];
        assert!(sets.iter().all(|set| set.iter().eq([4])));
        let others = [clerk.write_claim, clerk.read_claim];
        assert!(others.iter().all(|set| set.is_empty()));
    }
    assert_eq!(records(&board, 1), (Standing::Running, record, None));
    assert_eq!(records(&board, 2), (Standing::Waiting(4), None, record));
    assert_eq!(records(&board, 3), (Standing::Running, None, None));
    assert_eq!(board.waiting_line(), [2]);
    assert_eq!(board.loop_for(2), Ok(vec![]), "2 waits for no file");
    assert_eq!(Board::from_image(board.image()), Ok(board));
}

/// "On RETURN .. the oldest waiter for the record gets it .., a leave returns it too."
#[test]
fn a_record_goes_to_its_oldest_waiter() {
    for request in [Request::return_record(1), Request::leave(1)] {
        let mut board = record_in_use();
        let fetch = board.serve(b"FETCH   3  4  365").unwrap();
        assert_eq!(fetch.answer(), record_line(Word::Wait, 3));
        let reply = board.serve(&request.line().unwrap()).unwrap();
        assert_eq!(reply.answer(), line(Word::Done, 1, 0));
        assert_eq!(reply.settled(), [record_line(Word::Given, 2)]);
        assert_eq!(
            (records(&board, 1).1, board.waiting_line()),
            (None, &[3][..])
        );
        assert_eq!(cancelled(&mut board, 3), []);
        let reply = board.serve(b"RETURN  2").unwrap();
        assert_eq!(reply.lines().collect::<Vec<_>>(), [line(Word::Done, 2, 0)]);
    }
}

/// "With a record in use it may only RETURN it or leave": 21, after 13, and before 14 to 16 and 20.
#[test]
fn refusals_with_records() {
    let mut board = record_in_use();
    for (request, number) in [
        (&b"OPEN    1  5"[..], 21),
        (b"OPEN    1  4", 21),
        (b"CLOSE   1  5", 21),
        (b"DROP    1  4", 21),
        (b"FETCH   1  4  365", 21),
        (b"FETCH   1  5    1", 21),
        (b"CANCEL  1", 18),
        (b"ENTER   1CLERK     0  0  0", 9),
        (b"FETCH   2  4  365", 13),
        (b"RETURN  2", 13),
        (b"FETCH   3  5    1", 20),
        (b"RETURN  3", 20),
        (b"ENTER   4CLERK     1  0  1  4  4", 10),
        (b"ENTER   4CLERK     0  1  1  4  4", 10),
    ] {
        let text = String::from_utf8_lossy(request);
        assert_eq!(refusal_of(&mut board, request), number, "{text}");
    }
    let refused = board.serve(b"FETCH   3  5   17").unwrap().answer();
    assert_eq!((refused.program, refused.file, refused.record), (3, 5, 17));
}

/// A waiter for a record is passed by eight and favoured; with its record it is so no longer.
#[test]
fn a_favoured_program_gets_its_record() {
    let mut board = record_in_use();
    for passed in 1..=MOST_PASSED {
        let enter = board.serve(b"ENTER   5LISTS     0  0  0").unwrap();
        assert_eq!(enter.answer(), line(Word::Admit, 5, 0));
        assert_eq!(board.passed(2), Some(passed));
        assert!(board.serve(b"LEAVE   5").unwrap().settled().is_empty());
    }
    let enter = board.serve(b"ENTER   5LISTS     0  0  0").unwrap();
    assert_eq!(enter.answer(), line(Word::Held, 5, 0));
    assert_eq!(enter.settled(), [record_line(Word::Favour, 2)]);
    assert_eq!(board.favoured().unwrap().leaves_to_come(), 2);
    let settled = [record_line(Word::Given, 2), line(Word::Admit, 5, 0)];
    assert_eq!(board.serve(b"RETURN  1").unwrap().settled(), settled);
    assert_eq!((board.favoured(), board.passed(2)), (None, Some(0)));
}

/// Program 1 has file 1 open in one way, 2 claims it in another: whether 1 holds back 2. 01: "W of i
/// meets V or Q of j, or R of i meets V of j"; 02: "also if I of i meets V or Q of j, or W or R of i
/// meets J of j". The two then conflict if 2 opens it.
#[test]
fn who_holds_back_whom() {
    let holding = [[true, true, true], [true, false, true], [true, true, false]];
    let enter = |program: u8, way: usize| {
        let mut counts = [0; 3];
        counts[way] = 1;
        let [w, r, j] = counts;
        format!("ENTER {program:3}LABEL   {w:3}{r:3}{j:3}  1")
    };
    for (open, row) in holding.into_iter().enumerate() {
        for (claimed, holds) in row.into_iter().enumerate() {
            let (first, second) = (enter(1, open), enter(2, claimed));
            let mut board = board_after(&[&first, &second, "OPEN    1  1"]);
            let programs: Vec<_> = board.programs().collect();
            let files = programs[0].holds_back(&programs[1]);
            assert!(files.iter().eq(holds.then_some(1)), "{first}, {second}");
            assert!(programs[1].holds_back(&programs[0]).is_empty());
            assert_eq!(board.reach().reaches(1, 2), holds, "{first}, {second}");
            let waits = board.serve(b"OPEN    2  1").unwrap().waits();
            assert_eq!(waits, holds, "{first}, {second}");
        }
    }
}

/// The favoured program goes, and with nobody favoured the held one runs: it is not cancelled then.
#[test]
fn a_favoured_program_is_cancelled() {
    let mut board = favoured_and_held();
    assert_eq!(cancelled(&mut board, 2), [line(Word::Admit, 3, 0)]);
    assert_eq!((board.favoured(), board.waiting_line()), (None, &[][..]));
    assert_eq!(board.order(), [1, 3]);
    assert_eq!(refusal_of(&mut board, b"CANCEL  2"), 11);
    assert_eq!(refusal_of(&mut board, b"CANCEL  3"), 18);
    let again = board.serve(b"ENTER   2BILLS     2  0  0  1  2").unwrap();
    assert_eq!(again.answer(), line(Word::Admit, 2, 0));
}

/// A cancel of a held program counts nowhere.
#[test]
fn a_held_program_is_cancelled() {
    let mut board = favoured_and_held();
    let favoured = board.favoured();
    assert_eq!(favoured.unwrap().leaves_to_come(), 1);
    assert_eq!(cancelled(&mut board, 3), []);
    assert_eq!((board.favoured(), board.entry_line()), (favoured, &[][..]));
}

/// A cancel of another waiter counts as a leave, and its open file is given to who waits for it.
#[test]
fn a_waiting_program_is_cancelled() {
    let mut board = board_after(&[
        "ENTER   1STOCK     3  0  0  1  2  3",
        "ENTER   2BILLS     2  0  0  1  2",
        "ENTER   4LISTS     2  0  0  1  4",
        "ENTER   5PRICES    1  0  0  4",
        "OPEN    1  1",
        "OPEN    1  3",
        "OPEN    2  2",
        "CLOSE   1  3",
        "OPEN    4  4",
        "OPEN    4  1",
        "OPEN    5  4",
    ]);
    assert_eq!(board.waiting_line(), [2, 4, 5]);
    assert_eq!(board.favoured().unwrap().leaves_to_come(), 3);
    assert_eq!(cancelled(&mut board, 4), [line(Word::Given, 5, 4)]);
    assert_eq!(board.waiting_line(), [2]);
    let favoured = board.favoured().unwrap();
    assert_eq!((favoured.program, favoured.at_favouring), (2, 4));
    assert_eq!((favoured.leaves, favoured.leaves_to_come()), (1, 2));
}

/// Program 1 reads file 1, and 2 waits to write it while others come and go, admitted after it.
fn passed_by(others: u8) -> Board {
    let mut board = board_after(&[
        "ENTER   1LISTS     0  1  0  1",
        "ENTER   2PRICES    1  0  0  1",
        "OPEN    1  1",
        "OPEN    2  1",
    ]);
    assert_eq!(board.passed(2), Some(0));
    for passed in 1..=others {
        let enter = board.serve(b"ENTER   3LISTS     0  1  0  1").unwrap();
        assert_eq!(enter.answer(), line(Word::Admit, 3, 0));
        assert_eq!(board.passed(2), Some(passed));
        let leave = board.serve(b"LEAVE   3").unwrap();
        assert!(leave.settled().is_empty());
    }
    board
}

/// A waiter is passed by eight programs; the next one to enter is held, and the waiter is favoured.
#[test]
fn a_waiter_is_passed_by_eight() {
    assert_eq!(MOST_PASSED, 8);
    let mut board = passed_by(MOST_PASSED);
    assert_eq!(board.favoured(), None);
    let enter = board.serve(b"ENTER   3LISTS     0  1  0  1").unwrap();
    assert_eq!(enter.answer(), line(Word::Held, 3, 0));
    assert_eq!(enter.settled(), [line(Word::Favour, 2, 1)]);
    let favoured = board.favoured().unwrap();
    assert_eq!((favoured.program, favoured.at_favouring), (2, 2));
    assert_eq!(favoured.leaves_to_come(), 1);
    assert_eq!((board.passed(2), board.entry_line()), (Some(8), &[3][..]));
    let leave = board.serve(b"LEAVE   1").unwrap();
    let settled = [line(Word::Given, 2, 1), line(Word::Admit, 3, 0)];
    assert_eq!(leave.settled(), settled);
    let programs = 1..=PROGRAMS as u8;
    let counts: Vec<u8> = programs.filter_map(|p| board.passed(p)).collect();
    assert_eq!(counts, [0; PROGRAMS]);
}

/// A wait begins with 0, and a cancel ends it: the number's next wait is counted anew.
#[test]
fn a_count_ends_with_its_wait() {
    let mut board = passed_by(3);
    assert_eq!(cancelled(&mut board, 2), []);
    assert_eq!(board.passed(2), Some(0));
    board.serve(b"ENTER   2PRICES    1  0  0  1").unwrap();
    board.serve(b"OPEN    2  1").unwrap();
    assert_eq!((board.waiting_line(), board.passed(2)), (&[2][..], Some(0)));
    assert_eq!((board.passed(0), board.passed(33)), (None, None));
}

#[test]
fn a_board_goes_on_from_its_image() {
    let mut first = board_after(&["ENTER   1STOCK     1  0  0  3", "OPEN    1  3"]);
    let mut second = Board::from_image(first.image()).unwrap();
    assert_eq!(first, second);
    assert_eq!(first.serve(b"LEAVE   1"), second.serve(b"LEAVE   1"));
    assert_eq!(first, second);
    assert_eq!(second, Board::new());
}

#[test]
fn images_of_another_length() {
    let image = [0; IMAGE_LEN + 1];
    let (first, fifth) = (layout::image::COUNTS, layout::image::INQUIRY);
    for len in [0, 1, first, fifth, IMAGE_LEN - 1, IMAGE_LEN + 1] {
        let refused = Board::from_image(&image[..len]);
        assert_eq!(refused, Err(Error::ImageLength(len)));
    }
}

#[test]
fn images_that_are_not_sound() {
    let image = *board_after(&["ENTER   1STOCK     1  0  0  3", "OPEN    1  3"]).image();
    // W outside V; no such standing; a running program that awaits a file; a name in each line;
    // somebody favoured who is not waiting; a number though nobody is favoured; a count of one who
    // runs and of one who is absent.
    for field in [
        "W of 1 = {3,4}",
        "standing of 1 = 9",
        "awaited file of 1 = 8",
        "waiting line = [8]",
        "entry line = [8]",
        "favoured = 8",
        "number at favouring = 8",
        "leaves = 8",
        "count of 1 = 8",
        "count of 32 = 8",
    ] {
        let refused = Board::from_image(&changed(&image, field));
        assert_eq!(refused, Err(Error::Refused(Refusal::NotSound)), "{field}");
    }
}

/// "In a sound board records in use differ, their users run, and an awaited record is in use; both
/// have their file in I".
#[test]
fn images_with_records() {
    let image = *record_in_use().image();
    for field in [
        "record in use of 1 = 0",
        "record in use of 1 = 364",
        "record in use of 2 = 1",
        "record in use of 3 = 1",
        "record in use of 4 = 1",
        "awaited record of 1 = 365",
        "awaited record of 2 = 0",
        "awaited record of 2 = 366",
        "awaited record of 3 = 365",
        "awaited record of 32 = 365",
        "awaited file of 1 = 5",
        "awaited file of 2 = 0",
        "awaited file of 3 = 4",
        "I of 1 = {}",
        "I of 2 = {}",
        "I of 3 = {4,5}",
        "J of 3 = {}",
        "J of 4 = {4}",
        "V of 3 = {4}",
        "Q of 3 = {4}",
    ] {
        let refused = Board::from_image(&changed(&image, field));
        assert_eq!(refused, Err(Error::Refused(Refusal::NotSound)), "{field}");
    }
}

/// Program 3 may have any record in use but 365, which 1 has.
#[test]
fn images_with_other_records() {
    let image = changed(record_in_use().image(), "awaited file of 3 = 4");
    for (number, sound) in [(1, true), (365, false), (u16::MAX, true)] {
        let image = changed(&image, &format!("record in use of 3 = {number}"));
        let read = Board::from_image(&image).map(|board| records(&board, 3).1);
        let expected = match sound {
            true => Ok(Some(Record { file: 4, number })),
            false => Err(Error::Refused(Refusal::NotSound)),
        };
        assert_eq!(read, expected, "record {number}");
    }
}

/// "A sound board has no count above 8": a waiter may have any other, whatever happened before.
#[test]
fn images_with_counts() {
    let mut image = *passed_by(0).image();
    for count in 0..=u8::MAX {
        image[layout::image::COUNTS + 2 - 1] = count;
        let read = Board::from_image(&image).map(|board| board.passed(2));
        let expected = match count {
            0..=MOST_PASSED => Ok(Some(count)),
            _ => Err(Error::Refused(Refusal::NotSound)),
        };
        assert_eq!(read, expected, "count {count}");
    }
}

#[test]
fn the_entry_keeps_what_it_does_not_write() {
    let empty = *Board::new().image();
    let mut image = empty;
    let mut journal = [170; JOURNAL_ROOM + JOURNAL_LINE];
    let request = b"ENTER   1STOCK     1  0  0  3";
    let (last, end) = (JOURNAL_LINE as u64, 2 * JOURNAL_LINE);
    for place in [last + 1, HIGHEST_PLACE, HIGHEST_PLACE + 1, u64::MAX] {
        let answer = entry::line(&mut image, request, &mut journal, place);
        assert_eq!(answer, entry::JOURNAL_FULL, "place {place}");
        assert_eq!(image, empty);
        assert_eq!(journal, [170; JOURNAL_ROOM + JOURNAL_LINE]);
    }
    let answer = entry::line(&mut image, request, &mut journal, last);
    assert_eq!(answer, end as u64);
    assert_eq!(&journal[JOURNAL_LINE..end], b"ADMIT   1  0  0    0\n");
    let kept = journal[..JOURNAL_LINE].iter().chain(&journal[end..]);
    assert!(kept.copied().all(|byte| byte == 170));
    assert_ne!(image, empty);
    let mut short = [7; IMAGE_LEN - 1];
    assert_eq!(entry::empty(&mut short), entry::UNSOUND);
    let answer = entry::line(&mut short, request, &mut journal, 0);
    assert_eq!(answer, entry::UNSOUND);
    assert_eq!(short, [7; IMAGE_LEN - 1]);
}

#[test]
fn order_is_given() {
    let mut board = board_after(&[
        "ENTER   1STOCK     2  0  0  1  2",
        "ENTER   2BILLS     2  0  0  1  2",
        "ENTER   9LISTS     0  1  0  2",
        "OPEN    2  2",
    ]);
    assert_eq!(board.order(), [2, 1, 9]);
    board.serve(b"LEAVE   2").unwrap();
    assert_eq!(board.order(), [1, 9]);
    let mut order = [170; 3];
    assert_eq!(
        entry::order(board.image(), &mut order[..1]),
        entry::BUFFER_SHORT
    );
    assert_eq!(
        entry::order(&board.image()[1..], &mut order),
        entry::UNSOUND
    );
    assert_eq!(order, [170; 3]);
    assert_eq!(entry::order(board.image(), &mut order), 2);
    assert_eq!(order, [1, 9, 170]);
}

/// Program 7 has file 4 open, which 20 claims too, and 31 has 5, which 7 claims too. Program 20
/// waits for 6, which 31 claims too.
fn unsafe_of_three() -> Board {
    let mut board = board_after(&[
        "ENTER   7STOCK     2  0  0  4  5",
        "ENTER  20BILLS     2  0  0  4  6",
        "ENTER  31LISTS     2  0  0  5  6",
        "OPEN    7  4",
        "OPEN   31  5",
    ]);
    let reply = board.serve(b"OPEN   20  6").unwrap();
    assert_eq!(reply.answer(), line(Word::Unsafe, 20, 6));
    board
}

#[test]
fn who_reaches_whom() {
    let reach = unsafe_of_three().reach();
    let numbers = (0..=u8::MAX).flat_map(|i| (0..=u8::MAX).map(move |j| (i, j)));
    let pairs: Vec<(u8, u8)> = numbers.filter(|&(i, j)| reach.reaches(i, j)).collect();
    assert_eq!(pairs, [(7, 20), (31, 7), (31, 20)]);
    assert_eq!(reach.reaching(20).collect::<Vec<_>>(), [7, 31]);
    assert_eq!(reach.reaching(31).count() + reach.reaching(0).count(), 0);
    assert_ne!(reach, Board::new().reach());
}

/// There is one loop, wherever it begins.
#[test]
fn a_waiting_program_has_its_loop() {
    let board = unsafe_of_three();
    let turned = [[20, 31, 7], [31, 7, 20], [7, 20, 31]];
    let list = board.loop_for(20).unwrap();
    assert!(turned.iter().any(|turned| *turned == list[..]), "{list:?}");
    assert!(turned.iter().all(|turned| board.is_loop(20, 6, turned)));
    for wrong in [
        &[][..],
        &[20],
        &[20, 31],
        &[7, 31, 20],
        &[20, 31, 7, 20],
        &[20, 31, 7, 0],
        &[33, 20, 31, 7],
    ] {
        assert!(!board.is_loop(20, 6, wrong), "{wrong:?}");
    }
    for (program, file) in [
        (20, 4),
        (31, 6),
        (20, 5),
        (0, 6),
        (33, 6),
        (20, 0),
        (20, 65),
        (1, 6),
    ] {
        assert!(
            !board.is_loop(program, file, &[20, 31, 7]),
            "{program} {file}"
        );
    }
    for program in [1, 7, 31, 32] {
        assert_eq!(
            board.loop_for(program),
            Ok(vec![]),
            "{program} does not wait"
        );
    }
    for program in [0, 33, 255] {
        let refused = Err(Error::Refused(Refusal::OutOfRange));
        assert_eq!(board.loop_for(program), refused, "{program}");
    }
}

/// Those in conflict hold back each other.
#[test]
fn a_wait_has_its_loop() {
    let board = passed_by(0);
    let mut list = board.loop_for(2).unwrap();
    assert!(board.is_loop(2, 1, &list));
    list.sort();
    assert_eq!(list, [1, 2]);
}

#[test]
fn refusals_of_the_digraph_come_in_order() {
    let board = unsafe_of_three();
    let (image, bad) = (board.image(), &board.image()[1..]);
    let mut buffer = [170; REACH_LEN + 1];
    for (answer, expected) in [
        (entry::reach(bad, &mut buffer[..1]), entry::UNSOUND),
        (
            entry::reach(image, &mut buffer[..REACH_LEN - 1]),
            entry::BUFFER_SHORT,
        ),
        (entry::loop_for(bad, 0, &mut buffer[..1]), entry::UNSOUND),
        (
            entry::loop_for(image, 0, &mut buffer[..1]),
            entry::OUT_OF_RANGE,
        ),
        (entry::loop_for(image, 33, &mut buffer), entry::OUT_OF_RANGE),
        (
            entry::loop_for(image, 20, &mut buffer[..LOOP_ROOM - 1]),
            entry::BUFFER_SHORT,
        ),
        (
            entry::loop_for(image, 7, &mut buffer[..LOOP_ROOM - 1]),
            entry::BUFFER_SHORT,
        ),
        (entry::loop_for(image, 7, &mut buffer), 0),
        (entry::is_loop(bad, 0, 0, &[]), entry::UNSOUND),
        (entry::is_loop(image, 0, 0, &[]), 0),
    ] {
        assert_eq!(answer, expected);
    }
    assert_eq!(buffer, [170; REACH_LEN + 1]);
    assert_eq!(entry::loop_for(image, 20, &mut buffer[..LOOP_ROOM]), 3);
    assert!(buffer[3..].iter().all(|&byte| byte == 170));
    assert_eq!(entry::reach(image, &mut buffer), REACH_LEN as u64);
    assert_eq!(buffer[REACH_LEN], 170);
}

/// 3; then "a buffer shorter than the line with 17, after 01's checks 8 and, for ENTER, 6", and "a
/// record number out of range with 19 (after 8)".
#[test]
fn refusals_of_the_writer_come_in_order() {
    let (enter, fetch) = (Verb::Enter.number(), Verb::Fetch.number());
    let returning = Verb::Return.number();
    let claims = [255; CLAIMS_LEN + 1];
    let mut line = [170; LONGEST_LINE + 1];
    for ([verb, program, file, record], claims_len, label, room, refusal) in [
        ([0, 0, 0, 0], 0, "", 0, 3),
        ([9, 0, 0, 0], 0, "", 0, 3),
        ([fetch, 33, 1, 0], 0, "", 0, 8),
        ([fetch, 1, 0, 0], 0, "", 0, 8),
        ([fetch, 1, 65, 0], 0, "", 0, 8),
        ([fetch, 1, 64, 0], 0, "", 0, 19),
        ([fetch, 1, 64, 65536], 0, "", 0, 19),
        ([fetch, 1, 64, u64::MAX], 0, "", 0, 19),
        ([fetch, 1, 64, 65535], 0, "", 16, 17),
        ([enter, 33, 0, 0], 24, "", 0, 8),
        ([enter, 1, 0, 0], 23, "", 0, 8),
        ([enter, 1, 0, 0], 25, "", 0, 8),
        ([enter, 1, 0, 0], 24, "LABEL", 0, 6),
        ([enter, 1, 0, 0], 24, "LABEL   ", 601, 17),
        ([returning, 0, 0, 0], 0, "", 0, 8),
        ([returning, 1, 0, 0], 0, "", 8, 17),
    ] {
        let (claims, label) = (&claims[..claims_len], label.as_bytes());
        let line = &mut line[..room];
        let answer = entry::write(verb, program, file, record, claims, label, line);
        assert_eq!(0u64.wrapping_sub(answer), refusal);
    }
    assert_eq!(line, [170; LONGEST_LINE + 1]);
}

#[test]
fn the_writer_fills_just_its_line() {
    let (enter, fetch) = (Verb::Enter.number(), Verb::Fetch.number());
    let mut line = [170; LONGEST_LINE + 1];
    let claims = [255; CLAIMS_LEN];
    let answer = entry::write(enter, 1, 0, 0, &claims, b"LABEL   ", &mut line);
    assert_eq!((answer, line[LONGEST_LINE]), (602, 170));
    for (record, columns) in [(1, b"FETCH  32 64    1"), (65535, b"FETCH  32 6465535")] {
        let mut line = [170; 18];
        let answer = entry::write(fetch, 32, 64, record, b"", b"", &mut line);
        assert_eq!((answer, &line[..17], line[17]), (17, &columns[..], 170));
    }
}

#[test]
fn refusals_have_their_numbers() {
    for (number, refusal) in (1..).zip(Refusal::ALL) {
        assert_eq!(refusal.number(), number);
        assert_eq!(Refusal::from_number(number), Some(refusal));
    }
    assert_eq!(Refusal::from_number(0), None);
    assert_eq!(Refusal::from_number(22), None);
}

#[test]
fn lines_that_are_not_in_form() {
    for bytes in [
        b"ADMIT   1  0  0    0 ",
        b"ADMIT   1  0  9    0\n",
        b"REFUSE  1  0  0    0\n",
        b"REFUSE  0  0  1    0\n",
        b"REFUSE  0  0  2    0\n",
        b"REFUSE  0  0 17    0\n",
        b"REFUSE  1  0  8    0\n",
        b"REFUSE  1  0 19    0\n",
        b"REFUSE  1  0 22    0\n",
        b"ORDER   1  2  3    0\n",
        b"admit   1  0  0    0\n",
        b"ADMIT  01  0  0    0\n",
        b"ADMIT 1    0  0    0\n",
        b"ADMIT      0  0    0\n",
        b"ADMIT  +1  0  0    0\n",
        b"GIVEN   1  1  065536\n",
        b"GIVEN   1  1  000001\n",
        b"GIVEN   1  1  0     \n",
    ] {
        assert_eq!(
            Line::read(bytes),
            None,
            "{}",
            String::from_utf8_lossy(bytes)
        );
    }
}

#[test]
fn errors_in_words() {
    let unsound = Error::Refused(Refusal::NotSound);
    assert_eq!(
        unsound.to_string(),
        "refusal 1: The image holds no sound board"
    );
    let length = Error::ImageLength(3);
    let words = format!("an image has {IMAGE_LEN} bytes, not 3");
    assert_eq!(length.to_string(), words);
}

#[test]
fn words_are_those_of_the_document() {
    let path = concat!(env!("CARGO_MANIFEST_DIR"), "/../../docs/REFUSALS.md");
    let text = std::fs::read_to_string(path).expect("docs/REFUSALS.md");
    let rows: Vec<(u8, &str)> = text
        .lines()
        .filter_map(|line| {
            let mut columns = line.split('|').map(str::trim).skip(1);
            Some((columns.next()?.parse().ok()?, columns.next()?))
        })
        .collect();
    let wrapper: Vec<(u8, &str)> = Refusal::ALL
        .iter()
        .map(|refusal| (refusal.number(), refusal.words()))
        .collect();
    assert_eq!(wrapper, rows);
}
