//! Journals of all lengths, far places, and the making of the empty image.

use super::seed;
use crate::compare::call::{library_empty, library_line, Call};
use crate::compare::counters::Counters;
use crate::compare::guard::Guarded;
use crate::compare::session::{one, Session};
use crate::generate::lines::far_place;
use crate::generate::random::Random;
use crate::model::board::only;
use crate::model::events::Request;
use crate::model::image::{self, ROOM};
use crate::model::journal::LINE;
use crate::model::line;

/// The line that is served.
fn line() -> Vec<u8> {
    let (p, v, q, j) = (1, only(1) | only(2) | only(3), 0, 0);
    line::write(&Request::Enter { p, v, q, j }, b"STOCK   ")
}

fn compare(call: Call, met: &mut Counters) {
    let start = Session::empty().start;
    met.answer(&call, &one(&start, call.clone()));
}

#[test]
fn every_journal_length_agrees() {
    let (line, mut met) = (line(), Counters::default());
    let places = [
        0,
        1,
        2,
        LINE - 1,
        LINE,
        ROOM - 1,
        ROOM,
        ROOM + 1,
        2 * ROOM - 24,
    ];
    for place in places {
        for journal in 0..=place + ROOM + 18 {
            compare(
                Call {
                    line: line.clone(),
                    journal,
                    place: place as u64,
                    fill: 1 + place as u64,
                },
                &mut met,
            );
        }
    }
    met.print("journals");
    assert!(met.get("refusal 2") > 0 && met.get("ADMIT") > 0);
}

#[test]
fn far_places_agree() {
    let mut random = Random::new(seed() ^ 0x4444);
    let (line, mut met) = (line(), Counters::default());
    for round in 0..5000 {
        let journal = [0, ROOM - 1, ROOM, ROOM + 1, 8 * ROOM][round % 5];
        let place = far_place(&mut random);
        compare(
            Call {
                line: line.clone(),
                journal,
                place,
                fill: 1,
            },
            &mut met,
        );
    }
    met.print("far places");
    assert_eq!(met.get("refusal 2"), 5000);
}

/// A journal of more than 1,000,000,000 bytes: its pages are not touched but where
/// a call writes.
#[test]
fn highest_place_agrees() {
    let (request, highest, room) = (line(), image::HIGHEST_PLACE, ROOM as u64);
    for (len, place) in [
        (highest + room + 1, highest),
        (highest + room, highest),
        (highest + room + 1, highest + 1),
        (highest + room - 1, highest),
        (highest + room, highest - 1),
    ] {
        let start = Session::empty().start;
        let (mut expected_image, mut expected) = (start.clone(), vec![0; len as usize]);
        let answer = image::line_call(&mut expected_image, &request, &mut expected, place);
        let (mut image, mut line) = (Guarded::new(&start), Guarded::new(&request));
        let mut journal = Guarded::zeroed(len as usize);
        assert_eq!(
            library_line(&mut image, &mut line, &mut journal, place),
            answer
        );
        assert!(image.intact() && line.intact() && journal.intact());
        assert!(image.contents() == expected_image && line.contents() == request);
        assert!(journal.contents() == expected, "place {place} of {len}");
    }
}

#[test]
fn empty_image_agrees() {
    let mut random = Random::new(seed() ^ 0x5555);
    for len in 0..2 * image::LENGTH + 26 {
        let before = random.bytes(len);
        let mut image = Guarded::new(&before);
        let answer = library_empty(&mut image);
        assert!(image.intact(), "guard bytes of an image of {len} bytes");
        let right = len == image::LENGTH;
        assert_eq!(answer, if right { 0 } else { image::REFUSED_1 });
        let expected = if right {
            Session::empty().start
        } else {
            before
        };
        assert!(image.contents() == expected, "an image of {len} bytes");
    }
}
