//! What document 02 says of the waiters' counts, sentence by sentence: sessions
//! worked by hand, through the library and the model.

use super::told::told;

/// Program 1 writes files 1 and 2; program 3 waits for file 2, then program 2 for
/// file 1. Eight programs that claim nothing are admitted meanwhile.
const TWO_PASSED: &str = "\
ENTER   1STOCK     2  0  0  1  2 -> ADMIT   1  0  0    0
OPEN    1  1 -> GIVEN   1  1  0    0
OPEN    1  2 -> GIVEN   1  2  0    0
ENTER   2PRICES    1  0  0  1 -> ADMIT   2  0  0    0
ENTER   3ORDERS    1  0  0  2 -> ADMIT   3  0  0    0
OPEN    3  2 -> WAIT    3  2  0    0
OPEN    2  1 -> WAIT    2  1  0    0
ENTER   4LISTS     0  0  0 -> ADMIT   4  0  0    0 -> 2=1 3=1
ENTER   5LISTS     0  0  0 -> ADMIT   5  0  0    0 -> 2=2 3=2
ENTER   6LISTS     0  0  0 -> ADMIT   6  0  0    0 -> 2=3 3=3
ENTER   7LISTS     0  0  0 -> ADMIT   7  0  0    0 -> 2=4 3=4
ENTER   8LISTS     0  0  0 -> ADMIT   8  0  0    0 -> 2=5 3=5
ENTER   9LISTS     0  0  0 -> ADMIT   9  0  0    0 -> 2=6 3=6
ENTER  10LISTS     0  0  0 -> ADMIT  10  0  0    0 -> 2=7 3=7
ENTER  11LISTS     0  0  0 -> ADMIT  11  0  0    0 -> 2=8 3=8
";

/// Program 4 reads file 3, for which program 3 waits; program 2 waits for want of
/// an order. Six programs that claim nothing are admitted meanwhile.
const SIX_HAVE_PASSED: &str = "\
ENTER   1STOCK     2  0  0  1  2 -> ADMIT   1  0  0    0
ENTER   2BILLS     2  0  0  1  2 -> ADMIT   2  0  0    0
ENTER   3PRICES    1  0  0  3 -> ADMIT   3  0  0    0
ENTER   4LISTS     0  1  0  3 -> ADMIT   4  0  0    0
OPEN    4  3 -> GIVEN   4  3  0    0
OPEN    3  3 -> WAIT    3  3  0    0
OPEN    1  1 -> GIVEN   1  1  0    0
OPEN    2  2 -> UNSAFE  2  2  0    0
ENTER   5LISTS     0  0  0 -> ADMIT   5  0  0    0 -> 2=1 3=1
ENTER   6LISTS     0  0  0 -> ADMIT   6  0  0    0 -> 2=2 3=2
ENTER   7LISTS     0  0  0 -> ADMIT   7  0  0    0 -> 2=3 3=3
ENTER   8LISTS     0  0  0 -> ADMIT   8  0  0    0 -> 2=4 3=4
ENTER   9LISTS     0  0  0 -> ADMIT   9  0  0    0 -> 2=5 3=5
ENTER  10LISTS     0  0  0 -> ADMIT  10  0  0    0 -> 2=6 3=6
";

/// "A price update waited while overlapping listing programs came and went; its
/// file was never free of conflict". With a count of 8 it is favoured when the
/// next one is to be admitted, and not before: the last leave before that enter
/// favours nobody. The number at favouring is 2, without the held one.
#[test]
fn a_price_update_behind_a_stream_of_listings() {
    told(
        "",
        "\
ENTER   1LISTS     0  1  0  1 -> ADMIT   1  0  0    0
OPEN    1  1 -> GIVEN   1  1  0    0
ENTER   2PRICES    1  0  0  1 -> ADMIT   2  0  0    0
OPEN    2  1 -> WAIT    2  1  0    0
ENTER   3LISTS     0  1  0  1 -> ADMIT   3  0  0    0 -> 2=1
OPEN    3  1 -> GIVEN   3  1  0    0
LEAVE   1 -> DONE    1  0  0    0
ENTER   1LISTS     0  1  0  1 -> ADMIT   1  0  0    0 -> 2=2
OPEN    1  1 -> GIVEN   1  1  0    0
LEAVE   3 -> DONE    3  0  0    0
ENTER   3LISTS     0  1  0  1 -> ADMIT   3  0  0    0 -> 2=3
OPEN    3  1 -> GIVEN   3  1  0    0
LEAVE   1 -> DONE    1  0  0    0
ENTER   1LISTS     0  1  0  1 -> ADMIT   1  0  0    0 -> 2=4
OPEN    1  1 -> GIVEN   1  1  0    0
LEAVE   3 -> DONE    3  0  0    0
ENTER   3LISTS     0  1  0  1 -> ADMIT   3  0  0    0 -> 2=5
OPEN    3  1 -> GIVEN   3  1  0    0
LEAVE   1 -> DONE    1  0  0    0
ENTER   1LISTS     0  1  0  1 -> ADMIT   1  0  0    0 -> 2=6
OPEN    1  1 -> GIVEN   1  1  0    0
LEAVE   3 -> DONE    3  0  0    0
ENTER   3LISTS     0  1  0  1 -> ADMIT   3  0  0    0 -> 2=7
OPEN    3  1 -> GIVEN   3  1  0    0
LEAVE   1 -> DONE    1  0  0    0
ENTER   1LISTS     0  1  0  1 -> ADMIT   1  0  0    0 -> 2=8
OPEN    1  1 -> GIVEN   1  1  0    0
LEAVE   3 -> DONE    3  0  0    0
ENTER   3LISTS     0  1  0  1 -> HELD    3  0  0    0; FAVOUR  2  1  0    0 -> 2 2 0
LEAVE   1 -> DONE    1  0  0    0; GIVEN   2  1  0    0; ADMIT   3  0  0    0 -> 0 0 0 -> 2=0
ORDER 2 3",
    );
}

/// "The oldest such waiter is favoured", and when it has its file, the other one
/// is favoured before anybody is admitted.
#[test]
fn the_oldest_of_two_passed_waiters_is_favoured() {
    told(
        TWO_PASSED,
        "\
ENTER  12LISTS     0  0  0 -> HELD   12  0  0    0; FAVOUR  3  2  0    0 -> 3 11 0
CLOSE   1  2 -> DONE    1  2  0    0; GIVEN   3  2  0    0; FAVOUR  2  1  0    0 -> 2 11 0 -> 3=0
CLOSE   1  1 -> DONE    1  1  0    0; GIVEN   2  1  0    0; ADMIT  12  0  0    0 -> 0 0 0 -> 2=0
ORDER 2 3 1 4 5 6 7 8 9 10 11 12",
    );
}

/// The same after the cancel of the favoured one; a cancel ends a count.
#[test]
fn the_next_passed_waiter_is_favoured_after_a_cancel() {
    told(
        TWO_PASSED,
        "\
ENTER  12LISTS     0  0  0 -> HELD   12  0  0    0; FAVOUR  3  2  0    0 -> 3 11 0
CANCEL  3 -> DONE    3  0  0    0; FAVOUR  2  1  0    0 -> 2 10 0 -> 3=0
CANCEL  2 -> DONE    2  0  0    0; ADMIT  12  0  0    0 -> 0 0 0 -> 2=0
ORDER 1 4 5 6 7 8 9 10 11 12",
    );
}

/// With nobody to admit, nobody is favoured for its count: a leave and a cancel
/// leave all as it is.
#[test]
fn nobody_is_favoured_unless_somebody_is_to_be_admitted() {
    told(
        TWO_PASSED,
        "\
LEAVE   4 -> DONE    4  0  0    0
CANCEL  3 -> DONE    3  0  0    0 -> 3=0
CLOSE   1  2 -> DONE    1  2  0    0
ENTER   4LISTS     0  0  0 -> HELD    4  0  0    0; FAVOUR  2  1  0    0 -> 2 9 0
ORDER 1 2 5 6 7 8 9 10 11",
    );
}

/// "Admitting goes one program at a time": settling admits two, then favours
/// "after .. the ADMIT lines already written, and the rest stay held". Program 2,
/// which was given its file by the same call, is passed by nobody, and nobody by
/// those who are held.
#[test]
fn settling_admits_until_a_count_is_8() {
    told(
        SIX_HAVE_PASSED,
        "\
LEAVE  10 -> DONE   10  0  0    0; FAVOUR  2  2  0    0 -> 2 9 0
ENTER  11LISTS     0  0  0 -> HELD   11  0  0    0
ENTER  12LISTS     0  0  0 -> HELD   12  0  0    0
ENTER  13LISTS     0  0  0 -> HELD   13  0  0    0
ENTER  14LISTS     0  0  0 -> HELD   14  0  0    0
LEAVE   1 -> DONE    1  0  0    0; GIVEN   2  2  0    0; ADMIT  11  0  0    0; ADMIT  12  0  0    0; FAVOUR  3  3  0    0 -> 3 10 0 -> 2=0 3=8
ENTER   1LISTS     0  0  0 -> HELD    1  0  0    0
LEAVE   4 -> DONE    4  0  0    0; GIVEN   3  3  0    0; ADMIT  13  0  0    0; ADMIT  14  0  0    0; ADMIT   1  0  0    0 -> 0 0 0 -> 3=0
ORDER 1 2 3 5 6 7 8 9 11 12 13 14",
    );
}

/// The last of the held ones brings the count to 8, and nobody is left to admit.
#[test]
fn settling_that_admits_the_last_one_favours_nobody() {
    told(
        SIX_HAVE_PASSED,
        "\
LEAVE  10 -> DONE   10  0  0    0; FAVOUR  2  2  0    0 -> 2 9 0
ENTER  11LISTS     0  0  0 -> HELD   11  0  0    0
ENTER  12LISTS     0  0  0 -> HELD   12  0  0    0
LEAVE   1 -> DONE    1  0  0    0; GIVEN   2  2  0    0; ADMIT  11  0  0    0; ADMIT  12  0  0    0 -> 0 0 0 -> 2=0 3=8
ENTER   1LISTS     0  0  0 -> HELD    1  0  0    0; FAVOUR  3  3  0    0 -> 3 10 0
ORDER 2 4 3 5 6 7 8 9 11 12",
    );
}

/// 01's favouring comes first, with nobody held and with somebody held: program 3
/// is older and has the count 8, but the files of programs 2 and 6, which wait for
/// want of an order, are in no conflicting use.
#[test]
fn settling_favours_the_waiter_of_a_free_file_first() {
    told(
        "",
        "\
ENTER   1STOCK     2  0  0  1  2 -> ADMIT   1  0  0    0
ENTER   2BILLS     2  0  0  1  2 -> ADMIT   2  0  0    0
ENTER   3PRICES    1  0  0  3 -> ADMIT   3  0  0    0
ENTER   4LISTS     0  1  0  3 -> ADMIT   4  0  0    0
ENTER   5STOCK     2  0  0  5  6 -> ADMIT   5  0  0    0
ENTER   6BILLS     2  0  0  5  6 -> ADMIT   6  0  0    0
OPEN    4  3 -> GIVEN   4  3  0    0
OPEN    3  3 -> WAIT    3  3  0    0
OPEN    1  1 -> GIVEN   1  1  0    0
OPEN    2  2 -> UNSAFE  2  2  0    0
OPEN    5  5 -> GIVEN   5  5  0    0
OPEN    6  6 -> UNSAFE  6  6  0    0
ENTER   7LISTS     0  0  0 -> ADMIT   7  0  0    0 -> 2=1 3=1 6=1
ENTER   8LISTS     0  0  0 -> ADMIT   8  0  0    0 -> 2=2 3=2 6=2
ENTER   9LISTS     0  0  0 -> ADMIT   9  0  0    0 -> 2=3 3=3 6=3
ENTER  10LISTS     0  0  0 -> ADMIT  10  0  0    0 -> 2=4 3=4 6=4
ENTER  11LISTS     0  0  0 -> ADMIT  11  0  0    0 -> 2=5 3=5 6=5
ENTER  12LISTS     0  0  0 -> ADMIT  12  0  0    0 -> 2=6 3=6 6=6
ENTER  13LISTS     0  0  0 -> ADMIT  13  0  0    0 -> 2=7 3=7 6=7
ENTER  14LISTS     0  0  0 -> ADMIT  14  0  0    0 -> 2=8 3=8 6=8
LEAVE  14 -> DONE   14  0  0    0; FAVOUR  2  2  0    0 -> 2 13 0
ENTER  14LISTS     0  0  0 -> HELD   14  0  0    0
LEAVE   1 -> DONE    1  0  0    0; GIVEN   2  2  0    0; FAVOUR  6  6  0    0 -> 6 12 0 -> 2=0
LEAVE   5 -> DONE    5  0  0    0; GIVEN   6  6  0    0; FAVOUR  3  3  0    0 -> 3 11 0 -> 6=0
LEAVE   4 -> DONE    4  0  0    0; GIVEN   3  3  0    0; ADMIT  14  0  0    0 -> 0 0 0 -> 3=0
ORDER 2 3 6 7 8 9 10 11 12 13 14",
    );
}

/// Enter favours whatever the file: nobody uses the one for which program 2
/// waits, nor does the entering program claim it.
#[test]
fn enter_favours_one_that_waits_for_want_of_an_order() {
    told(
        "",
        "\
ENTER   1STOCK     2  0  0  1  2 -> ADMIT   1  0  0    0
ENTER   2BILLS     2  0  0  1  2 -> ADMIT   2  0  0    0
OPEN    1  1 -> GIVEN   1  1  0    0
OPEN    2  2 -> UNSAFE  2  2  0    0
ENTER   3LISTS     0  0  0 -> ADMIT   3  0  0    0 -> 2=1
ENTER   4LISTS     0  0  0 -> ADMIT   4  0  0    0 -> 2=2
ENTER   5LISTS     0  0  0 -> ADMIT   5  0  0    0 -> 2=3
ENTER   6LISTS     0  0  0 -> ADMIT   6  0  0    0 -> 2=4
ENTER   7LISTS     0  0  0 -> ADMIT   7  0  0    0 -> 2=5
ENTER   8LISTS     0  0  0 -> ADMIT   8  0  0    0 -> 2=6
ENTER   9LISTS     0  0  0 -> ADMIT   9  0  0    0 -> 2=7
ENTER  10LISTS     0  0  0 -> ADMIT  10  0  0    0 -> 2=8
ENTER  11LISTS     0  1  0  9 -> HELD   11  0  0    0; FAVOUR  2  2  0    0 -> 2 10 0
LEAVE   1 -> DONE    1  0  0    0; GIVEN   2  2  0    0; ADMIT  11  0  0    0 -> 0 0 0 -> 2=0
ORDER 2 3 4 5 6 7 8 9 10 11",
    );
}

/// "Of programs admitted since it began to wait; it is 0 for all others": a
/// refused enter is no admission, a leave takes nothing off, a cancel and a GIVEN
/// end the count, and the next wait begins with 0.
#[test]
fn each_wait_has_a_count_of_its_own() {
    told(
        "",
        "\
ENTER   1STOCK     1  0  0  1 -> ADMIT   1  0  0    0
OPEN    1  1 -> GIVEN   1  1  0    0
ENTER   2PRICES    1  0  0  1 -> ADMIT   2  0  0    0
OPEN    2  1 -> WAIT    2  1  0    0
ENTER   3LISTS     0  0  0 -> ADMIT   3  0  0    0 -> 2=1
ENTER   3LISTS     0  0  0 -> REFUSE  3  0  9    0
ENTER   4LISTS     1  1  0  5  5 -> REFUSE  4  0 10    0
ENTER   4LISTS     0  0  0 -> ADMIT   4  0  0    0 -> 2=2
LEAVE   4 -> DONE    4  0  0    0
CANCEL  2 -> DONE    2  0  0    0 -> 2=0
ENTER   2PRICES    1  0  0  1 -> ADMIT   2  0  0    0
OPEN    2  1 -> WAIT    2  1  0    0
ENTER   4LISTS     0  1  0  1 -> ADMIT   4  0  0    0 -> 2=1
OPEN    4  1 -> WAIT    4  1  0    0
ENTER   5LISTS     0  0  0 -> ADMIT   5  0  0    0 -> 2=2 4=1
LEAVE   1 -> DONE    1  0  0    0; GIVEN   2  1  0    0 -> 2=0
ENTER   1STOCK     0  0  0 -> ADMIT   1  0  0    0 -> 4=2
CLOSE   2  1 -> DONE    2  1  0    0; GIVEN   4  1  0    0 -> 4=0
OPEN    2  1 -> WAIT    2  1  0    0
ENTER   6LISTS     0  0  0 -> ADMIT   6  0  0    0 -> 2=1
ORDER 1 3 4 2 5 6",
    );
}
