//! Asks the board every question of limits.txt through its C entry, and compares answer, journal
//! and image with what the question's own line expects. limits.txt says how its lines are read;
//! a line that cannot be read is a failure.

use lock_board as _; // links the board's archive

#[path = "model/fields.rs"]
mod fields;
#[allow(dead_code)] // this program needs some of it
#[path = "model/layout.rs"]
mod layout;

use layout::image::LENGTH as IMAGE;
use layout::journal::{COLUMNS, ROOM};
use layout::FILE_COLUMNS;

unsafe extern "C" {
    fn lock_board_empty(image: *mut u8, image_len: usize) -> u64;
    fn lock_board_line(
        image: *mut u8,
        image_len: usize,
        line: *const u8,
        line_len: usize,
        journal: *mut u8,
        journal_len: usize,
        place: u64,
    ) -> u64;
}

const REFUSAL_1: u64 = u64::MAX;
const REFUSAL_2: u64 = u64::MAX - 1;
/// What journals, and images before lock_board_empty, hold before a call.
const BEFORE: u8 = 170;
/// What the bytes on both sides of each buffer hold, and how many there are on a side.
const GUARD: u8 = 219;
const GUARDS: usize = 64;
const EMPTY_CALL: &str = "lock_board_empty of ";

/// What was read, or what could not be read.
type Read<T> = Result<T, String>;

// ---- the calls, with guarded buffers

/// A buffer for a call, between guard bytes.
struct Guarded {
    name: &'static str,
    bytes: Vec<u8>,
}

impl Guarded {
    fn new(name: &'static str, held: &[u8]) -> Guarded {
        let side = [GUARD; GUARDS];
        Guarded {
            name,
            bytes: [&side, held, &side].concat(),
        }
    }

    fn len(&self) -> usize {
        self.bytes.len() - 2 * GUARDS
    }

    fn held(&self) -> &[u8] {
        &self.bytes[GUARDS..GUARDS + self.len()]
    }

    fn start(&mut self) -> *mut u8 {
        self.bytes[GUARDS..].as_mut_ptr()
    }

    /// The guard bytes that changed, as words; the buffer's own bytes are numbered from 0.
    fn faults(&self) -> Vec<String> {
        let (name, len) = (self.name, self.len());
        let mut faults = Vec::new();
        for (i, b) in self.bytes.iter().enumerate() {
            let outside = i < GUARDS || GUARDS + len <= i;
            if outside && *b != GUARD {
                let at = i as i64 - GUARDS as i64;
                let words = format!("byte {at} of {len} is {b}, expected {GUARD}");
                faults.push(format!("{name} written outside: {words}"));
            }
        }
        faults
    }
}

/// What a call gave back and left in its buffers, and what it did that no call may do.
struct Came {
    answer: u64,
    image: Vec<u8>,
    journal: Vec<u8>,
    faults: Vec<String>,
}

/// Calls lock_board_empty with an image of some length.
fn call_empty(len: usize) -> Came {
    let mut image = Guarded::new("image", &vec![BEFORE; len]);
    let answer = unsafe { lock_board_empty(image.start(), len) };
    Came {
        answer,
        image: image.held().to_vec(),
        journal: Vec::new(),
        faults: image.faults(),
    }
}

/// Calls lock_board_line with an image, a request, and a journal of some length.
fn call_line(image: &[u8], request: &[u8], room: usize, place: u64) -> Came {
    let mut image = Guarded::new("image", image);
    let mut line = Guarded::new("line", request);
    let mut journal = Guarded::new("journal", &vec![BEFORE; room]);
    let (image_len, line_len) = (image.len(), line.len());
    let answer = unsafe {
        let line = line.start().cast_const();
        lock_board_line(
            image.start(),
            image_len,
            line,
            line_len,
            journal.start(),
            room,
            place,
        )
    };
    let mut faults = [image.faults(), line.faults(), journal.faults()].concat();
    faults.extend(difference("line", line.held(), request));
    Came {
        answer,
        image: image.held().to_vec(),
        journal: journal.held().to_vec(),
        faults,
    }
}

/// The first byte in which a buffer is not as expected.
fn difference(name: &str, came: &[u8], expected: &[u8]) -> Option<String> {
    let i = (0..expected.len()).find(|&i| came[i] != expected[i])?;
    let field = match (name, fields::names(i).pop()) {
        ("image", Some(field)) => format!(" ({field})"),
        _ => String::new(),
    };
    Some(format!(
        "byte {i} of the {name}{field} is {}, expected {}",
        came[i], expected[i]
    ))
}

// ---- requests and boards

/// The bytes that a notation between < and > stands for.
fn notation(inside: &str) -> Read<Vec<u8>> {
    if let Some(count) = inside.strip_suffix(" blanks") {
        return Ok(vec![b' '; number(count)? as usize]);
    }
    if let Some((first, last)) = inside.split_once(" to ") {
        let files = number(first)?..=number(last)?;
        let columns = |f| format!("{f:FILE_COLUMNS$}").into_bytes();
        return Ok(files.flat_map(columns).collect());
    }
    let byte = u8::try_from(number(inside)?);
    Ok(vec![byte.map_err(|_| format!("<{inside}> is no byte"))?])
}

/// The bytes of a request as it stands between bars.
fn request_bytes(text: &str) -> Read<Vec<u8>> {
    let mut bytes = Vec::new();
    let mut rest = text;
    while let Some(first) = rest.bytes().next() {
        if first == b'<' {
            let (inside, after) = rest[1..].split_once('>').ok_or("< without >")?;
            bytes.extend(notation(inside)?);
            rest = after;
        } else if (32..127).contains(&first) && first != b'|' {
            bytes.push(first);
            rest = &rest[1..];
        } else {
            return Err(format!("byte {first} stands in a request; write <{first}>"));
        }
    }
    Ok(bytes)
}

/// A number in decimal, without signs.
fn number(text: &str) -> Read<u64> {
    let digits = !text.is_empty() && text.bytes().all(|b| b.is_ascii_digit());
    let value = text.parse().ok().filter(|_| digits);
    value.ok_or_else(|| format!("'{text}' is no number"))
}

/// The image of a board after a request that it must not refuse.
fn image_after(image: &[u8], request: &str) -> Read<Vec<u8>> {
    let came = call_line(image, &request_bytes(request)?, ROOM, 0);
    let refused = came.answer >= REFUSAL_2 || came.journal.starts_with(b"REFUSE");
    if refused || !came.faults.is_empty() {
        let faults = came.faults.join("; ");
        return Err(format!("|{request}| came to {}; {faults}", shown(&came, 0)));
    }
    Ok(came.image)
}

/// Whether a line sets the board of the questions after it.
fn sets_board(line: &str) -> bool {
    line == "On the empty board:" || line.starts_with("After ")
}

/// The image of the board that such a line sets.
fn board(line: &str) -> Read<Vec<u8>> {
    let mut image = vec![0; IMAGE];
    let Some(list) = line.strip_prefix("After ") else {
        return Ok(image);
    };
    let inside = list.strip_prefix('|').and_then(|l| l.strip_suffix("|:"));
    for request in inside
        .ok_or("After needs |request| |request|:")?
        .split("| |")
    {
        image = image_after(&image, request)?;
    }
    Ok(image)
}

// ---- questions

/// What a call is expected to write, to answer and to change in the image, and how the file says it.
struct Expected {
    text: String,
    written: Vec<u8>,
    answer: u64,
    changes: Option<String>,
}

/// A question to lock_board_line.
struct Question {
    image: Vec<u8>,
    request: Vec<u8>,
    room: usize,
    place: u64,
    expected: Expected,
}

/// Reads "place N" or "refusal N".
fn answer(text: &str) -> Read<u64> {
    match text {
        "refusal 1" => Ok(REFUSAL_1),
        "refusal 2" => Ok(REFUSAL_2),
        _ => number(
            text.strip_prefix("place ")
                .ok_or_else(|| format!("'{text}' is no answer"))?,
        ),
    }
}

/// Reads the journal lines, the answer and the changes at the end of a line.
fn expected(text: &str) -> Read<Expected> {
    let mut parts: Vec<&str> = text.split("; ").collect();
    let changes = parts.pop_if(|last| last.contains(" = "));
    let answer = answer(parts.pop().ok_or("the answer is missing")?)?;
    let mut written = Vec::new();
    if parts != ["nothing"] {
        for line in parts {
            if line.len() != COLUMNS {
                let words = format!("the {COLUMNS} columns of a journal line");
                return Err(format!("'{line}' has not {words}"));
            }
            written.extend([line.as_bytes(), b"\n"].concat());
        }
        if written.is_empty() {
            return Err("'nothing' or journal lines are missing".to_string());
        }
    }
    Ok(Expected {
        text: text.to_string(),
        written,
        answer,
        changes: changes.map(str::to_string),
    })
}

/// Changes fields of an image, as in "standing of 1 = absent, V of 1 = {}"; each must have held
/// another value.
fn change(image: &mut [u8], changes: &str) -> Read<()> {
    for one in changes.split(", ") {
        let (at, bytes) = fields::read(one)?;
        let held = image
            .get_mut(at..at + bytes.len())
            .ok_or_else(|| format!("the image is too short for '{one}'"))?;
        if *held == bytes {
            return Err(format!("'{one}' is so already"));
        }
        held.copy_from_slice(&bytes);
    }
    Ok(())
}

/// Takes one condition, of those before a request, into the question.
fn condition(q: &mut Question, text: &str) -> Read<()> {
    if let Some(rest) = text.strip_prefix("journal of ") {
        let (room, place) = rest
            .split_once(" bytes, place ")
            .ok_or("a journal needs its place")?;
        (q.room, q.place) = (number(room)? as usize, number(place)?);
        return Ok(());
    }
    if let Some(rest) = text.strip_prefix("image of ") {
        let len = rest
            .strip_suffix(" bytes")
            .ok_or("an image needs its bytes")?;
        q.image.resize(number(len)? as usize, 0);
        return Ok(());
    }
    if !text.contains(" = ") {
        return Err(format!("'{text}' is no condition"));
    }
    let (changes, words) = text.split_once(" (").ok_or("a change needs its (words)")?;
    words
        .strip_suffix(')')
        .ok_or("a change needs its (words)")?;
    change(&mut q.image, changes)
}

/// Reads a question: conditions, the request between bars, its length, what is expected.
fn question(line: &str, image: &[u8]) -> Read<Question> {
    let (before, rest) = line
        .split_once('|')
        .ok_or("neither comment, board nor question")?;
    let (request, after) = rest.rsplit_once('|').ok_or("a request needs two bars")?;
    let after = after
        .strip_prefix(' ')
        .ok_or("a blank is missing after the request")?;
    let (len, text) = after
        .split_once(" bytes: ")
        .ok_or("the request's length is missing")?;
    let (image, request) = (image.to_vec(), request_bytes(request)?);
    if request.len() as u64 != number(len)? {
        return Err(format!("the request has {} bytes", request.len()));
    }
    let mut q = Question {
        image,
        request,
        room: ROOM,
        place: 0,
        expected: expected(text)?,
    };
    if !before.is_empty() {
        let conditions = before
            .strip_suffix(": ")
            .ok_or("': ' is missing before the request")?;
        for one in conditions.split("; ") {
            condition(&mut q, one)?;
        }
    }
    Ok(q)
}

// ---- what came, beside what was expected

/// A byte as it is, or its number between < and >.
fn shown_byte(b: u8) -> String {
    if (32..127).contains(&b) {
        char::from(b).to_string()
    } else {
        format!("<{b}>")
    }
}

/// An answer in the notation of limits.txt.
fn shown_answer(answer: u64) -> String {
    match answer {
        REFUSAL_1 => "refusal 1".to_string(),
        REFUSAL_2 => "refusal 2".to_string(),
        place => format!("place {place}"),
    }
}

/// What a call wrote and answered, in the notation of limits.txt.
fn shown(came: &Came, place: u64) -> String {
    let answer = shown_answer(came.answer);
    let end = came.answer.min(came.journal.len() as u64);
    if came.answer >= REFUSAL_2 || end <= place {
        return format!("nothing; {answer}");
    }
    let written = &came.journal[place as usize..end as usize];
    let lines = written
        .strip_suffix(b"\n")
        .unwrap_or(written)
        .split(|b| *b == 10);
    let lines = lines.map(|l| l.iter().map(|b| shown_byte(*b)).collect::<String>());
    format!("{}; {answer}", lines.collect::<Vec<_>>().join("; "))
}

/// The journal that a question expects: its lines from the place on, all else as before.
fn journal_expected(q: &Question) -> Read<Vec<u8>> {
    let mut journal = vec![BEFORE; q.room];
    let written = &q.expected.written;
    if !written.is_empty() {
        let rest = journal
            .get_mut(q.place as usize..)
            .ok_or("the place is outside the journal")?;
        let lines = rest
            .get_mut(..written.len())
            .ok_or("the lines do not fit the journal")?;
        lines.copy_from_slice(written);
    }
    Ok(journal)
}

/// The image that a question expects: as before, but for the changes of a call that is accepted.
fn image_expected(q: &Question) -> Read<Vec<u8>> {
    let mut image = q.image.clone();
    let written = &q.expected.written;
    let accepted = !written.is_empty() && !written.starts_with(b"REFUSE");
    match &q.expected.changes {
        Some(changes) if accepted => change(&mut image, changes)?,
        Some(_) => return Err("a refusal changes nothing in the image".to_string()),
        None if accepted => return Err("the fields that the call changes are missing".to_string()),
        None => {}
    }
    Ok(image)
}

/// Asks lock_board_line; gives back what came otherwise than expected.
fn ask_line(q: &Question) -> Read<Vec<String>> {
    let (journal, image) = (journal_expected(q)?, image_expected(q)?);
    let came = call_line(&q.image, &q.request, q.room, q.place);
    let mut faults = Vec::new();
    if came.answer != q.expected.answer {
        faults.push("another answer".to_string());
    }
    faults.extend(difference("journal", &came.journal, &journal));
    faults.extend(difference("image", &came.image, &image));
    faults.extend_from_slice(&came.faults);
    if !faults.is_empty() {
        faults.insert(0, format!("expected: {}", q.expected.text));
        faults.insert(1, format!("came:     {}", shown(&came, q.place)));
    }
    Ok(faults)
}

/// Reads a question to lock_board_empty and asks it.
fn ask_empty(text: &str) -> Read<Vec<String>> {
    let (len, text) = text
        .split_once(" bytes: ")
        .ok_or("the image's length is missing")?;
    let len = number(len)? as usize;
    let (image, last) = match text.split_once("; ") {
        Some(("the empty board", last)) => (vec![0; IMAGE], last),
        Some(("nothing", last)) => (vec![BEFORE; len], last),
        _ => return Err("an image needs 'the empty board; ' or 'nothing; '".to_string()),
    };
    if image.len() != len {
        return Err(format!("the empty board has {IMAGE} bytes"));
    }
    let (came, expected) = (call_empty(len), answer(last)?);
    let mut faults: Vec<String> = difference("image", &came.image, &image)
        .into_iter()
        .collect();
    faults.extend_from_slice(&came.faults);
    if came.answer != expected || !faults.is_empty() {
        faults.insert(0, format!("expected: {text}"));
        faults.insert(1, format!("came:     {}", shown_answer(came.answer)));
    }
    Ok(faults)
}

// ---- the whole file

/// What is known between two lines of the file.
#[derive(Default)]
struct State {
    image: Option<Vec<u8>>,
    questions: u64,
    ended: bool,
}

/// Does what a line says; gives back what came otherwise than expected.
fn line(state: &mut State, text: &str) -> Read<Vec<String>> {
    if text.is_empty() || text.starts_with('#') {
        return Ok(Vec::new());
    }
    if state.ended {
        return Err("a line after the number of questions".to_string());
    }
    if let Some(count) = text.strip_suffix(" questions") {
        state.ended = true;
        let same = number(count)? == state.questions;
        let fault = format!("the file has {} questions", state.questions);
        return Ok(if same { Vec::new() } else { vec![fault] });
    }
    if let Some(rest) = text.strip_prefix(EMPTY_CALL) {
        state.questions += 1;
        return ask_empty(rest);
    }
    if sets_board(text) {
        state.image = None;
        state.image = Some(board(text)?);
        return Ok(Vec::new());
    }
    state.questions += 1;
    let image = state.image.as_ref().ok_or("no board is set")?;
    ask_line(&question(text, image)?)
}

/// Goes through a text of questions; gives back a message for each line that fails.
fn failures(text: &str) -> Vec<String> {
    let mut state = State::default();
    let mut messages = Vec::new();
    for (i, t) in text.lines().enumerate() {
        let faults = line(&mut state, t).unwrap_or_else(|e| vec![format!("cannot be read: {e}")]);
        if !faults.is_empty() {
            messages.push(format!(
                "limits.txt:{}: {t}\n    {}",
                i + 1,
                faults.join("\n    ")
            ));
        }
    }
    if !state.ended {
        messages.push("limits.txt: the last line, 'N questions', is missing".to_string());
    }
    messages
}

#[test]
fn every_question_has_its_answer() {
    let messages = failures(include_str!("limits.txt"));
    assert!(
        messages.is_empty(),
        "{} lines fail\n{}",
        messages.len(),
        messages.join("\n")
    );
}

/// The messages for a line, which is asked about a board on which program 1 runs.
fn messages_for(line: &str) -> Vec<String> {
    let text = format!("After |ENTER   1LABEL     0  0  0|:\n{line}\n");
    let mut messages = failures(&text);
    messages.retain(|message| message.starts_with(&format!("limits.txt:2: {line}\n")));
    messages
}

/// Lines of which each has one thing wrong.
#[test]
fn a_wrong_line_fails() {
    let (less, more, room) = (IMAGE - 1, IMAGE + 1, ROOM - 1);
    let wrong = [
        "|LEAVE   1| 9 bytes: DONE    1  0  0    0; place 42; standing of 1 = absent",
        "|LEAVE   1| 9 bytes: DONE    1  1  0    0; place 21; standing of 1 = absent",
        "|LEAVE   1| 9 bytes: DONE    1  0  0    1; place 21; standing of 1 = absent",
        "|LEAVE   1| 9 bytes: DONE    1  0  0; place 21; standing of 1 = absent",
        "|LEAVE   1| 9 bytes: DONE    1  0  0    0; place 21; awaited file of 1 = 1",
        "|LEAVE   1| 9 bytes: DONE    1  0  0    0; place 21; standing of 1 = absent, record in use of 1 = 1",
        "|LEAVE   1| 9 bytes: DONE    1  0  0    0; place 21; standing of 1 = absent, leaves = 1",
        "|LEAVE   1| 9 bytes: DONE    1  0  0    0; place 21; standing of 2 = absent",
        "|LEAVE   1| 9 bytes: DONE    1  0  0    0; place 21; standing of 1 = held",
        "|LEAVE   1| 9 bytes: DONE    1  0  0    0; place 21; standing of 1 = running",
        "|LEAVE   1| 9 bytes: DONE    1  0  0    0; place 21; V of 1 = {}, standing of 1 = absent",
        "|LEAVE   1| 9 bytes: DONE    1  0  0    0; place 21",
        "|LEAVE   1| 9 bytes: REFUSE  1  0 11    0; place 21",
        "|LEAVE   1| 9 bytes: nothing; place 21",
        "|LEAVE   1| 9 bytes: DONE    1  0  0    0; standing of 1 = absent",
        "|LEAVE   1| 9 bytes: DONE  1  0  0    0; place 21; standing of 1 = absent",
        "|LEAVE   1| 10 bytes: DONE    1  0  0    0; place 21; standing of 1 = absent",
        "LEAVE   1: DONE    1  0  0    0; place 21; standing of 1 = absent",
        "|LEAVE   2| 9 bytes: REFUSE  2  0 11    0; place 21; standing of 1 = absent",
        &format!("journal of {room} bytes, place 0: |LEAVE   1| 9 bytes: nothing; refusal 1"),
        &format!("journal of {room} bytes: |LEAVE   1| 9 bytes: nothing; refusal 2"),
        "standing of 1 = 4: |LEAVE   1| 9 bytes: nothing; refusal 1",
        "standing of 1 = running (runs): |LEAVE   1| 9 bytes: DONE    1  0  0    0; place 21; standing of 1 = absent",
        "standing of 1 = 4 (words): |LEAVE   1| 9 bytes: DONE    1  0  0    0; place 21; standing of 1 = absent",
        &format!("image of {more} bytes: |LEAVE   1| 9 bytes: nothing; refusal 2"),
        "image of 0 bytes; leaves = 1 (words): |LEAVE   1| 9 bytes: nothing; refusal 1",
        &format!("lock_board_empty of {less} bytes: the empty board; place 0"),
        &format!("lock_board_empty of {IMAGE} bytes: nothing; place 0"),
        &format!("lock_board_empty of {IMAGE} bytes: the empty board; refusal 1"),
        "After |LEAVE   1|:",
        "2 questions",
        " # no comment",
    ];
    for line in wrong {
        assert_eq!(messages_for(line).len(), 1, "{line} must fail");
    }
}

/// What cannot be read in the place of a field, and what is said of it.
#[test]
fn a_field_that_cannot_be_read_is_told() {
    let many = format!("waiting line = [{}1]", "1,".repeat(layout::PROGRAMS));
    for (field, said) in [
        ("byte 32 = 4", "the image has no field 'byte 32'"),
        ("32 = 4", "the image has no field '32'"),
        ("Standing of 1 = 4", "the image has no field 'Standing'"),
        ("standing = 4", "'standing': of which program?"),
        ("standing of 0 = 4", "'standing of 0': programs are 1 to 32"),
        (
            "standing of 33 = 4",
            "'standing of 33': programs are 1 to 32",
        ),
        (
            "standing of +1 = 4",
            "'standing of +1': programs are 1 to 32",
        ),
        (
            "standing of 1 of 1 = 4",
            "'standing of 1 of 1': programs are 1 to 32",
        ),
        ("leaves of 1 = 4", "'leaves of 1': the board has one leaves"),
        ("standing of 1 = gone", "standing of 1: 'gone' is no number"),
        ("standing of 1 = -1", "standing of 1: '-1' is no number"),
        ("standing of 1 = ", "standing of 1: '' is no number"),
        (
            "standing of 1 = 256",
            "standing of 1: 256 does not fit into 8 bits",
        ),
        ("favoured = [2]", "favoured: '[2]' is no number"),
        (
            "leaves = 1,V of 1 = {}",
            "leaves: '1,V of 1 = {}' is no number",
        ),
        ("leaves = 1, V of 1", "'V of 1' is no FIELD = VALUE"),
        ("V of 1 = 1", "V of 1: '1' does not stand between { and }"),
        ("V of 1 = {0}", "V of 1: files are 1 to 64, not 0"),
        ("V of 1 = {65}", "V of 1: files are 1 to 64, not 65"),
        (
            "V of 1 = {1 to 65}",
            "V of 1: files are 1 to 64, not 1 to 65",
        ),
        ("V of 1 = {2,1}", "V of 1: the files of {2,1} do not rise"),
        ("V of 1 = {2,2}", "V of 1: the files of {2,2} do not rise"),
        (
            "V of 1 = {3 to 2}",
            "V of 1: the files of {3 to 2} do not rise",
        ),
        ("V of 1 = {1,}", "V of 1: '' is no number"),
        ("J of 1 = {65}", "J of 1: files are 1 to 64, not 65"),
        ("I = {1}", "'I': of which program?"),
        (
            "record in use of 1 = 65536",
            "record in use of 1: 65536 does not fit into 16 bits",
        ),
        ("record of 1 = 1", "the image has no field 'record'"),
        (
            "entry line = 2",
            "entry line: '2' does not stand between [ and ]",
        ),
        (
            "entry line = [2,0]",
            "entry line: [2,0] ends with 0, as every line does",
        ),
        (
            "entry line = [256]",
            "entry line: 256 does not fit into 8 bits",
        ),
        (&many, "waiting line: the line has 32 places, not 33"),
    ] {
        let line = format!("{field} (words): |LEAVE   1| 9 bytes: nothing; refusal 1");
        let messages = messages_for(&line);
        let end = format!("\n    cannot be read: {said}");
        assert!(
            messages.len() == 1 && messages[0].ends_with(&end),
            "{messages:?} does not say: {said}"
        );
    }
}

/// Each byte of the image belongs to one field, and the field of a byte can be read.
#[test]
fn every_byte_belongs_to_a_field() {
    for at in 0..IMAGE {
        let names = fields::names(at);
        assert_eq!(names.len(), 1, "byte {at} belongs to {names:?}");
        let name = names[0].split(", byte ").next().expect("a name");
        let values = ["held", "{}", "[]"].map(|value| fields::read(&format!("{name} = {value}")));
        let number = fields::read(&format!("{name} = 4"));
        let read: Vec<(usize, Vec<u8>)> = values.into_iter().chain([number]).flatten().collect();
        assert!(!read.is_empty(), "{name} takes no value");
        for (from, bytes) in read {
            assert!((from..from + bytes.len()).contains(&at), "{name}");
        }
    }
    assert_eq!(fields::names(IMAGE), [""; 0]);
}

#[test]
fn a_changed_guard_is_a_fault() {
    for i in [0, GUARDS - 1, GUARDS + ROOM, 2 * GUARDS + ROOM - 1] {
        let mut journal = Guarded::new("journal", &[BEFORE; ROOM]);
        journal.bytes[GUARDS] = 0;
        assert!(journal.faults().is_empty());
        journal.bytes[i] = 0;
        assert_eq!(journal.faults().len(), 1);
    }
}
