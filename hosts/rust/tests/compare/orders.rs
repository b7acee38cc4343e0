//! The order of an image, asked of the library and of the model with buffers of
//! several lengths.

use super::guard::{spilt, Guarded};
use crate::model::board::Board;
use crate::model::{image, order};

extern "C" {
    fn lock_board_order(
        image: *const u8,
        image_len: usize,
        order: *mut u8,
        order_len: usize,
    ) -> u64;
}

/// What is seen after asking with one buffer.
#[derive(Clone, PartialEq, Debug)]
pub struct Asked {
    pub answer: u64,
    pub buffer: Vec<u8>,
    /// Bytes changed that no call may change.
    pub spilt: Option<&'static str>,
}

/// Longer than any order.
const LONG: usize = 40;
const FILL: u8 = 0x5A;

/// Asks with a long buffer; then, if there is an order, with one exactly long
/// enough and one that is a byte too short.
fn ask(one: impl Fn(usize) -> Asked) -> Vec<Asked> {
    let first = one(LONG);
    let programs = usize::try_from(first.answer).unwrap_or(LONG);
    let mut all = vec![first];
    match programs {
        0 => all.push(one(0)),
        1..LONG => all.extend([one(programs), one(programs - 1)]),
        _ => all.push(one(0)),
    }
    all
}

pub fn model(board: Option<&Board>) -> Vec<Asked> {
    let order = board.and_then(order::carried);
    ask(|len| {
        let mut buffer = vec![FILL; len];
        let answer = image::order_call(order.as_deref(), &mut buffer);
        Asked {
            answer,
            buffer,
            spilt: None,
        }
    })
}

pub fn library(image: &[u8]) -> Vec<Asked> {
    ask(|len| {
        let (mut lent, mut order) = (Guarded::new(image), Guarded::new(&vec![FILL; len]));
        // SAFETY: two buffers of these lengths, apart from each other, none null.
        let answer = unsafe { lock_board_order(lent.start(), image.len(), order.start(), len) };
        let spilt = spilt([
            (lent.intact(), "guard bytes of the image"),
            (order.intact(), "guard bytes of the order"),
            (lent.contents() == image, "bytes of the image"),
        ]);
        Asked {
            answer,
            buffer: order.contents().to_vec(),
            spilt,
        }
    })
}
