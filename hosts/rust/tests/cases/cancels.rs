//! What document 02 says of cancel, sentence by sentence: sessions worked by
//! hand, through the library and the model.

use super::told::told;

/// 01's session before its last line. Program 1 writes file 1; program 2, which
/// claims it too, waits for file 2 and is favoured; program 3 is held.
const SESSION_OF_01: &str = "\
ENTER   1STOCK     3  0  0  1  2  3 -> ADMIT   1  0  0    0
ENTER   2BILLS     2  0  0  1  2 -> ADMIT   2  0  0    0
OPEN    1  1 -> GIVEN   1  1  0    0
OPEN    1  3 -> GIVEN   1  3  0    0
OPEN    2  2 -> UNSAFE  2  2  0    0
CLOSE   1  3 -> DONE    1  3  0    0; FAVOUR  2  2  0    0 -> 2 2 0
ENTER   3LISTS     0  1  0  2 -> HELD    3  0  0    0
";

/// Program 1 writes file 1; programs 2 and 3, which claim it too, wait for files
/// that program 1 claims. The leave of program 4 favours the older waiter.
const TWO_WAIT: &str = "\
ENTER   1STOCK     3  0  0  1  2  3 -> ADMIT   1  0  0    0
ENTER   2BILLS     2  0  0  1  2 -> ADMIT   2  0  0    0
ENTER   3LISTS     2  0  0  1  3 -> ADMIT   3  0  0    0
ENTER   4PRICES    0  0  0 -> ADMIT   4  0  0    0
OPEN    1  1 -> GIVEN   1  1  0    0
OPEN    2  2 -> UNSAFE  2  2  0    0
OPEN    3  3 -> UNSAFE  3  3  0    0
LEAVE   4 -> DONE    4  0  0    0; FAVOUR  2  2  0    0 -> 2 3 0
";

/// "It refuses a cancel of a running program with 18, after 11." A cancelled
/// number is free at once.
#[test]
fn a_waiter_is_cancelled() {
    told(
        "",
        "\
ENTER   1STOCK     1  0  0  1 -> ADMIT   1  0  0    0
OPEN    1  1 -> GIVEN   1  1  0    0
ENTER   2BILLS     1  0  0  1 -> ADMIT   2  0  0    0
OPEN    2  1 -> WAIT    2  1  0    0
CANCEL  1 -> REFUSE  1  0 18    0
CANCEL  3 -> REFUSE  3  0 11    0
CANCEL  2 -> DONE    2  0  0    0
CANCEL  2 -> REFUSE  2  0 11    0
ENTER   2BILLS     0  1  0  1 -> ADMIT   2  0  0    0
CANCEL  2 -> REFUSE  2  0 18    0
OPEN    2  1 -> WAIT    2  1  0    0
LEAVE   1 -> DONE    1  0  0    0; GIVEN   2  1  0    0
ORDER 2",
    );
}

/// The other waiters keep their order, oldest first.
#[test]
fn the_waiting_line_keeps_its_order() {
    told(
        "",
        "\
ENTER   1STOCK     1  0  0  1 -> ADMIT   1  0  0    0
OPEN    1  1 -> GIVEN   1  1  0    0
ENTER   2BILLS     0  1  0  1 -> ADMIT   2  0  0    0
ENTER   3LISTS     0  1  0  1 -> ADMIT   3  0  0    0
ENTER   4PRICES    0  1  0  1 -> ADMIT   4  0  0    0
ENTER   5STOCK     0  1  0  1 -> ADMIT   5  0  0    0
OPEN    3  1 -> WAIT    3  1  0    0
OPEN    5  1 -> WAIT    5  1  0    0
OPEN    2  1 -> WAIT    2  1  0    0
OPEN    4  1 -> WAIT    4  1  0    0
CANCEL  3 -> DONE    3  0  0    0
CANCEL  2 -> DONE    2  0  0    0
LEAVE   1 -> DONE    1  0  0    0; GIVEN   5  1  0    0; GIVEN   4  1  0    0
ORDER 4 5",
    );
}

/// "The program goes with its files and claims .. and the board settles": what
/// the cancelled waiter had open is given.
#[test]
fn files_of_a_cancelled_waiter_are_given() {
    told(
        "",
        "\
ENTER   1STOCK     2  0  0  1  2 -> ADMIT   1  0  0    0
OPEN    1  1 -> GIVEN   1  1  0    0
ENTER   3LISTS     1  0  0  2 -> ADMIT   3  0  0    0
OPEN    3  2 -> GIVEN   3  2  0    0
OPEN    1  2 -> WAIT    1  2  0    0
ENTER   2BILLS     1  0  0  1 -> ADMIT   2  0  0    0 -> 1=1
OPEN    2  1 -> WAIT    2  1  0    0
CANCEL  1 -> DONE    1  0  0    0; GIVEN   2  1  0    0 -> 1=0
ORDER 2 3",
    );
}

/// Nobody was favoured before the cancel, so it is not counted, though its own
/// settling favours.
#[test]
fn a_cancel_that_favours_is_not_counted() {
    told(
        "",
        "\
ENTER   1STOCK     2  0  0  1  2 -> ADMIT   1  0  0    0
ENTER   2BILLS     2  0  0  1  2 -> ADMIT   2  0  0    0
ENTER   3LISTS     1  0  0  1 -> ADMIT   3  0  0    0
OPEN    1  1 -> GIVEN   1  1  0    0
OPEN    2  2 -> UNSAFE  2  2  0    0
OPEN    3  1 -> WAIT    3  1  0    0
CANCEL  3 -> DONE    3  0  0    0; FAVOUR  2  2  0    0 -> 2 2 0
ORDER 1 2",
    );
}

/// "A cancelled favoured program is favoured no longer": the held are admitted.
/// A wait that its number begins later is a new one.
#[test]
fn the_cancel_of_the_favoured_one_admits_the_held() {
    told(
        SESSION_OF_01,
        "\
CANCEL  2 -> DONE    2  0  0    0; ADMIT   3  0  0    0 -> 0 0 0
ENTER   2BILLS     2  0  0  1  2 -> ADMIT   2  0  0    0
OPEN    2  2 -> UNSAFE  2  2  0    0
LEAVE   3 -> DONE    3  0  0    0; FAVOUR  2  2  0    0 -> 2 2 0
ORDER 1 2",
    );
}

/// The same; another waiter becomes favoured, with the number admitted after
/// this call and no leaves, and the held stay held.
#[test]
fn the_cancel_of_the_favoured_one_favours_another() {
    told(
        TWO_WAIT,
        "\
ENTER   4PRICES    1  0  0  4 -> HELD    4  0  0    0
CANCEL  2 -> DONE    2  0  0    0; FAVOUR  3  3  0    0 -> 3 2 0
LEAVE   1 -> DONE    1  0  0    0; GIVEN   3  3  0    0; ADMIT   4  0  0    0 -> 0 0 0
ORDER 3 4",
    );
}

/// "Otherwise a cancel of an admitted program counts as a leave, also in the
/// bound": two leaves, one of them a cancel, are the number 3 less one.
#[test]
fn the_cancel_of_another_waiter_counts_as_a_leave() {
    told(
        TWO_WAIT,
        "\
CANCEL  3 -> DONE    3  0  0    0 -> 2 3 1
LEAVE   1 -> DONE    1  0  0    0; GIVEN   2  2  0    0 -> 0 0 0
ORDER 2",
    );
}

/// The same; what the cancelled one had open was all that the favoured one
/// waited for.
#[test]
fn a_counted_cancel_gives_the_favoured_one_its_file() {
    told(
        "",
        "\
ENTER   1STOCK     3  0  0  1  2  3 -> ADMIT   1  0  0    0
ENTER   2BILLS     2  0  0  1  2 -> ADMIT   2  0  0    0
ENTER   3LISTS     1  0  0  3 -> ADMIT   3  0  0    0
ENTER   4PRICES    0  0  0 -> ADMIT   4  0  0    0
OPEN    1  1 -> GIVEN   1  1  0    0
OPEN    2  2 -> UNSAFE  2  2  0    0
OPEN    3  3 -> GIVEN   3  3  0    0
OPEN    1  3 -> WAIT    1  3  0    0
LEAVE   4 -> DONE    4  0  0    0; FAVOUR  2  2  0    0 -> 2 3 0
ENTER   5STOCK     1  0  0  5 -> HELD    5  0  0    0
CANCEL  1 -> DONE    1  0  0    0; GIVEN   2  2  0    0; ADMIT   5  0  0    0 -> 0 0 0
ORDER 2 3 5",
    );
}

/// "A cancel of a held one counts nowhere", and settling after it does nothing.
/// The other held ones keep their order; its number is free at once, and goes to
/// the end of the entry line.
#[test]
fn the_cancel_of_a_held_one_counts_nowhere() {
    told(
        SESSION_OF_01,
        "\
ENTER   4PRICES    1  0  0  4 -> HELD    4  0  0    0
ENTER   5STOCK     0  0  0 -> HELD    5  0  0    0
CANCEL  3 -> DONE    3  0  0    0
CANCEL  3 -> REFUSE  3  0 11    0
ENTER   3LISTS     0  1  0  2 -> HELD    3  0  0    0
ENTER   6BILLS     0  0  0 -> HELD    6  0  0    0
CANCEL  6 -> DONE    6  0  0    0
LEAVE   1 -> DONE    1  0  0    0; GIVEN   2  2  0    0; ADMIT   4  0  0    0; ADMIT   5  0  0    0; ADMIT   3  0  0    0 -> 0 0 0
CANCEL  4 -> REFUSE  4  0 18    0
ORDER 2 3 4 5",
    );
}
