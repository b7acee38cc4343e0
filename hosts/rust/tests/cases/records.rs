//! What document 02 says of inquiry use and of records, sentence by sentence:
//! sessions worked by hand, through the library and the model.

use super::told::told;
use crate::compare::call::{library, model, Call};
use crate::compare::session::Session;
use crate::model::fields;

/// "I of one conflicts with W and R of another, never with I." A writer and a reader
/// wait while anybody inquires, who in turn waits for them.
#[test]
fn inquiry_conflicts_with_writing_and_reading() {
    told(
        "",
        "\
ENTER   1CLERKS    0  0  1  1 -> ADMIT   1  0  0    0
ENTER   2CLERKS    0  0  1  1 -> ADMIT   2  0  0    0
ENTER   3PRICES    1  0  0  1 -> ADMIT   3  0  0    0
ENTER   4LISTS     0  1  0  1 -> ADMIT   4  0  0    0
OPEN    1  1 -> GIVEN   1  1  0    0
OPEN    2  1 -> GIVEN   2  1  0    0
OPEN    3  1 -> WAIT    3  1  0    0
OPEN    4  1 -> WAIT    4  1  0    0
CLOSE   1  1 -> DONE    1  1  0    0
CLOSE   2  1 -> DONE    2  1  0    0; GIVEN   3  1  0    0
OPEN    1  1 -> WAIT    1  1  0    0
CLOSE   3  1 -> DONE    3  1  0    0; GIVEN   4  1  0    0
LEAVE   4 -> DONE    4  0  0    0; GIVEN   1  1  0    0
ORDER 1 2 3",
    );
}

/// "i holds back j also if I of i meets V or Q of j, or W or R of i meets J of j": of
/// file 1, which program 1 has open and program 2 claims. Program 2 would hold back
/// program 1 with file 2 given, which both claim.
#[test]
fn inquiry_holds_back() {
    for (first, second, answer, order) in [
        ("1  0  1  2  1", "2  0  0  1  2", "UNSAFE", "1 2"),
        ("1  0  1  2  1", "1  1  0  2  1", "UNSAFE", "1 2"),
        ("2  0  0  1  2", "1  0  1  2  1", "UNSAFE", "1 2"),
        ("1  1  0  2  1", "1  0  1  2  1", "UNSAFE", "1 2"),
        // I never holds back J.
        ("1  0  1  2  1", "1  0  1  2  1", "GIVEN ", "2 1"),
    ] {
        let rest = format!(
            "\
ENTER   1STOCK     {first} -> ADMIT   1  0  0    0
ENTER   2BILLS     {second} -> ADMIT   2  0  0    0
OPEN    1  1 -> GIVEN   1  1  0    0
OPEN    2  2 -> {answer}  2  2  0    0
ORDER {order}"
        );
        told("", &rest);
    }
}

/// J is a claim as the others are: 10, 14, 15 and 16 look at it and at I. "Refusal 10
/// covers any two claims that meet."
#[test]
fn a_claim_for_inquiry_is_a_claim() {
    told(
        "",
        "\
ENTER   1BOTH      1  1  0  5  5 -> REFUSE  1  0 10    0
ENTER   1BOTH      1  0  1  5  5 -> REFUSE  1  0 10    0
ENTER   1BOTH      0  1  1  5  5 -> REFUSE  1  0 10    0
ENTER   1CLERKS    0  0  2  1  2 -> ADMIT   1  0  0    0
OPEN    1  1 -> GIVEN   1  1  0    0
OPEN    1  1 -> REFUSE  1  1 15    0
DROP    1  1 -> REFUSE  1  1 15    0
CLOSE   1  2 -> REFUSE  1  2 16    0
DROP    1  2 -> DONE    1  2  0    0
OPEN    1  2 -> REFUSE  1  2 14    0
CLOSE   1  1 -> DONE    1  1  0    0
FETCH   1  1    1 -> REFUSE  1  1 20    1
ORDER 1",
    );
}

/// Four clerks inquire into file 1, the last into file 2 too. Program 1 has record 17
/// of file 1, for which program 3 waits, then program 2.
const FOUR_CLERKS: &str = "\
ENTER   1CLERKS    0  0  2  1  2 -> ADMIT   1  0  0    0
ENTER   2CLERKS    0  0  2  1  2 -> ADMIT   2  0  0    0
ENTER   3CLERKS    0  0  2  1  2 -> ADMIT   3  0  0    0
ENTER   4CLERKS    0  0  2  1  2 -> ADMIT   4  0  0    0
OPEN    1  1 -> GIVEN   1  1  0    0
OPEN    2  1 -> GIVEN   2  1  0    0
OPEN    3  1 -> GIVEN   3  1  0    0
OPEN    4  1 -> GIVEN   4  1  0    0
OPEN    4  2 -> GIVEN   4  2  0    0
FETCH   1  1   17 -> GIVEN   1  1  0   17
FETCH   3  1   17 -> WAIT    3  1  0   17
FETCH   2  1   17 -> WAIT    2  1  0   17
";

/// "It waits (WAIT) while another has that record, else gets it (GIVEN)": record 17 of
/// another file is another one, and so is record 18. "On RETURN (DONE, file and record
/// 0) the oldest waiter for the record gets it (GIVEN) ..; a leave returns it too."
#[test]
fn a_record_goes_to_its_oldest_waiter() {
    told(
        FOUR_CLERKS,
        "\
FETCH   4  2   17 -> GIVEN   4  2  0   17
RETURN  4 -> DONE    4  0  0    0
FETCH   4  1   18 -> GIVEN   4  1  0   18
RETURN  4 -> DONE    4  0  0    0
RETURN  1 -> DONE    1  0  0    0; GIVEN   3  1  0   17
FETCH   1  1   17 -> WAIT    1  1  0   17
LEAVE   3 -> DONE    3  0  0    0; GIVEN   2  1  0   17
RETURN  2 -> DONE    2  0  0    0; GIVEN   1  1  0   17
RETURN  1 -> DONE    1  0  0    0
ORDER 1 2 4",
    );
}

/// "With a record in use it may only RETURN it or leave": 21, "after 13" and before 14,
/// 15, 16 and 20, which is the last. A cancel is 18, an enter 9. The record columns have
/// "the record of the call", so 0 in other calls of one who awaits a record.
#[test]
fn a_program_with_a_record_returns_it_or_leaves() {
    told(
        FOUR_CLERKS,
        "\
OPEN    1  2 -> REFUSE  1  2 21    0
OPEN    1  1 -> REFUSE  1  1 21    0
OPEN    1  3 -> REFUSE  1  3 21    0
CLOSE   1  1 -> REFUSE  1  1 21    0
CLOSE   1  3 -> REFUSE  1  3 21    0
DROP    1  2 -> REFUSE  1  2 21    0
FETCH   1  1   17 -> REFUSE  1  1 21   17
FETCH   1  3    9 -> REFUSE  1  3 21    9
CANCEL  1 -> REFUSE  1  0 18    0
ENTER   1CLERKS    0  0  0 -> REFUSE  1  0  9    0
RETURN  3 -> REFUSE  3  0 13    0
FETCH   3  1   17 -> REFUSE  3  1 13   17
CLOSE   3  1 -> REFUSE  3  1 13    0
RETURN  4 -> REFUSE  4  0 20    0
FETCH   4  3    1 -> REFUSE  4  3 20    1
FETCH   5  165535 -> REFUSE  5  1 1165535
RETURN  5 -> REFUSE  5  0 11    0
ORDER 1 2 3 4",
    );
}

/// A record "out of form or range" in a line is 5, "0 in refusals 3 to 7"; the lines
/// have 17 and 9 bytes.
#[test]
fn lines_of_fetch_and_return_have_their_form() {
    told(
        FOUR_CLERKS,
        "\
FETCH   4  1    0 -> REFUSE  0  0  5    0
FETCH   4  165536 -> REFUSE  0  0  5    0
FETCH   4  100001 -> REFUSE  0  0  5    0
FETCH   4  11     -> REFUSE  0  0  5    0
FETCH   4 65    1 -> REFUSE  0  0  5    0
FETCH  33  1    1 -> REFUSE  0  0  5    0
FETCH   4  1   1 -> REFUSE  0  0  4    0
FETCH   4  1     1 -> REFUSE  0  0  4    0
FETCH   4  1 -> REFUSE  0  0  4    0
RETURN  1  1 -> REFUSE  0  0  4    0
RETURN -> REFUSE  0  0  4    0
RETURN  0 -> REFUSE  0  0  5    0
FETCHS  4  1    1 -> REFUSE  0  0  3    0
FETCH   4  165535 -> GIVEN   4  1  065535
ORDER 1 2 3 4",
    );
}

/// "Then the board settles": one who waits for want of an order is favoured by a
/// RETURN, and not by the FETCH before it.
#[test]
fn a_return_settles() {
    told(
        "",
        "\
ENTER   1CLERKS    1  0  1  2  1 -> ADMIT   1  0  0    0
ENTER   2BILLS     2  0  0  1  2 -> ADMIT   2  0  0    0
OPEN    1  1 -> GIVEN   1  1  0    0
OPEN    2  2 -> UNSAFE  2  2  0    0
FETCH   1  1    5 -> GIVEN   1  1  0    5
RETURN  1 -> DONE    1  0  0    0; FAVOUR  2  2  0    0 -> 2 2 0
ENTER   3LISTS     0  0  0 -> HELD    3  0  0    0
FETCH   1  1    5 -> GIVEN   1  1  0    5
LEAVE   1 -> DONE    1  0  0    0; GIVEN   2  2  0    0; ADMIT   3  0  0    0 -> 0 0 0
ORDER 2 3",
    );
}

/// The record is handed on before the board settles: though program 3 is the older
/// waiter, program 2 gets its record first.
#[test]
fn a_leave_hands_on_before_it_settles() {
    told(
        "",
        "\
ENTER   1CLERKS    1  0  1  2  1 -> ADMIT   1  0  0    0
ENTER   2CLERKS    0  0  1  1 -> ADMIT   2  0  0    0
ENTER   3STOCK     1  0  0  2 -> ADMIT   3  0  0    0
OPEN    1  1 -> GIVEN   1  1  0    0
OPEN    1  2 -> GIVEN   1  2  0    0
OPEN    2  1 -> GIVEN   2  1  0    0
OPEN    3  2 -> WAIT    3  2  0    0
FETCH   1  1    7 -> GIVEN   1  1  0    7
FETCH   2  1    7 -> WAIT    2  1  0    7
LEAVE   1 -> DONE    1  0  0    0; GIVEN   2  1  0    7; GIVEN   3  2  0    0
ORDER 2 3",
    );
}

/// Program 2 waits for a record. Eight programs are admitted meanwhile: "waits for a
/// record count". Though its file is in no conflicting use, settling does not favour
/// it: "never .. for want of an order". The next enter does, by its count: FAVOUR has
/// the record.
const PASSED_CLERK: &str = "\
ENTER   1CLERKS    0  0  1  1 -> ADMIT   1  0  0    0
ENTER   2CLERKS    0  0  1  1 -> ADMIT   2  0  0    0
OPEN    1  1 -> GIVEN   1  1  0    0
OPEN    2  1 -> GIVEN   2  1  0    0
FETCH   1  1    7 -> GIVEN   1  1  0    7
FETCH   2  1    7 -> WAIT    2  1  0    7
ENTER   3LISTS     0  0  0 -> ADMIT   3  0  0    0 -> 2=1
LEAVE   3 -> DONE    3  0  0    0
ENTER   3LISTS     0  0  0 -> ADMIT   3  0  0    0 -> 2=2
ENTER   4LISTS     0  0  0 -> ADMIT   4  0  0    0 -> 2=3
ENTER   5LISTS     0  0  0 -> ADMIT   5  0  0    0 -> 2=4
ENTER   6LISTS     0  0  0 -> ADMIT   6  0  0    0 -> 2=5
ENTER   7LISTS     0  0  0 -> ADMIT   7  0  0    0 -> 2=6
ENTER   8LISTS     0  0  0 -> ADMIT   8  0  0    0 -> 2=7
ENTER   9LISTS     0  0  0 -> ADMIT   9  0  0    0 -> 2=8
LEAVE   9 -> DONE    9  0  0    0
ENTER   9LISTS     0  0  0 -> HELD    9  0  0    0; FAVOUR  2  1  0    7 -> 2 8 0
";

/// "A favoured program that gets its record .. is favoured no longer", and the held
/// ones are admitted by the same call.
#[test]
fn a_favoured_clerk_gets_its_record() {
    told(
        PASSED_CLERK,
        "\
LEAVE   3 -> DONE    3  0  0    0 -> 2 8 1
RETURN  1 -> DONE    1  0  0    0; GIVEN   2  1  0    7; ADMIT   9  0  0    0 -> 0 0 0 -> 2=0
ORDER 1 2 4 5 6 7 8 9",
    );
    told(
        PASSED_CLERK,
        "\
LEAVE   1 -> DONE    1  0  0    0; GIVEN   2  1  0    7; ADMIT   9  0  0    0 -> 0 0 0 -> 2=0
ORDER 2 3 4 5 6 7 8 9",
    );
}

/// A cancel of one who waits for a record is that of a waiter; the record's user keeps
/// it.
#[test]
fn a_clerk_is_cancelled() {
    told(
        PASSED_CLERK,
        "\
CANCEL  2 -> DONE    2  0  0    0; ADMIT   9  0  0    0 -> 0 0 0 -> 2=0
FETCH   1  1    8 -> REFUSE  1  1 21    8
RETURN  1 -> DONE    1  0  0    0
ORDER 1 3 4 5 6 7 8 9",
    );
}

/// "The order's first program isn't waiting, or it awaits a record whose user is
/// running."
#[test]
fn the_first_one_may_await_a_record() {
    told(
        "",
        "\
ENTER   1CLERKS    0  0  1  1 -> ADMIT   1  0  0    0
ENTER   2CLERKS    0  0  1  1 -> ADMIT   2  0  0    0
OPEN    1  1 -> GIVEN   1  1  0    0
OPEN    2  1 -> GIVEN   2  1  0    0
FETCH   2  1    9 -> GIVEN   2  1  0    9
FETCH   1  1    9 -> WAIT    1  1  0    9
ORDER 1 2",
    );
}

/// After these requests both sides have an image with these fields.
fn image_has(requests: &[&str], expected: &[&str]) {
    for side in [model, library] {
        let mut image = Session::empty().start;
        for request in requests {
            image = side(&image, &Call::plain(request.as_bytes())).image;
        }
        for field in expected {
            let (at, bytes) = fields::read(field).expect("a field");
            assert_eq!(image[at..at + bytes.len()], bytes, "{field}");
        }
    }
}

/// "Per program, J and I (8 bytes each), record in use and awaited record (2 each, low
/// byte first, 0 for none)"; "the awaited-file byte of a record's user holds its file".
#[test]
fn records_stand_in_the_image() {
    let requests = [
        "ENTER   1CLERKS    0  0  2  3  9",
        "ENTER   2CLERKS    0  0  1  3",
        "OPEN    1  3",
        "OPEN    2  3",
        "FETCH   1  3  300",
        "FETCH   2  3  300",
    ];
    let in_use = [
        "J of 1 = {3,9}",
        "I of 1 = {3}",
        "standing of 1 = running",
        "awaited file of 1 = 3",
        "record in use of 1 = 300",
        "awaited record of 1 = 0",
        "standing of 2 = waiting",
        "awaited file of 2 = 3",
        "record in use of 2 = 0",
        "awaited record of 2 = 300",
        "waiting line = [2]",
    ];
    image_has(&requests, &in_use);
    let returned = [
        "standing of 1 = running",
        "awaited file of 1 = 0",
        "record in use of 1 = 0",
        "standing of 2 = running",
        "awaited file of 2 = 3",
        "record in use of 2 = 300",
        "awaited record of 2 = 0",
        "waiting line = []",
    ];
    image_has(&[&requests[..], &["RETURN  1"]].concat(), &returned);
}
