//! Numbers of programs, files and records, in range and out of it.

use super::random::Random;

/// Numbers at the edges of programs, files and records, and such as would be in
/// range if they lost their upper bits.
pub const NUMBERS: [usize; 23] = [
    0,
    1,
    2,
    3,
    31,
    32,
    33,
    63,
    64,
    65,
    255,
    256,
    256 + 1,
    256 + 64,
    (1 << 16) - 1,
    1 << 16,
    (1 << 16) + 1,
    1 << 32,
    (1 << 32) + 1,
    (1 << 32) + 64,
    1 << 63,
    usize::MAX - 31,
    usize::MAX,
];

/// The number itself in half of the cases, else any other.
pub fn astray(number: usize, random: &mut Random) -> usize {
    match random.below(4) {
        0 => NUMBERS[random.below(NUMBERS.len())],
        1 => random.next() as usize,
        _ => number,
    }
}
