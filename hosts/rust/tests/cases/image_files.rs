//! Image files from one session to the next, with each host after each other:
//! what was shown is not forgotten, and one file has one session at a time.

use crate::model::journal::LINE;
use crate::running::{Place, Running, HOSTS, SIGINT, SIGKILL};
use std::fs;

fn lines(text: &[&str]) -> Vec<Vec<u8>> {
    text.iter().map(|line| line.as_bytes().to_vec()).collect()
}

/// A host that has shown this journal for these requests and awaits more.
fn after(host: &str, place: &Place, requests: &[&str], journal: &str) -> Running {
    let mut running = Running::start(host, place);
    running.send(&lines(requests));
    running.wait_for(journal.len());
    assert_eq!(String::from_utf8_lossy(&running.seen), journal, "{host}");
    running
}

fn pairs() -> impl Iterator<Item = (&'static str, &'static str)> {
    HOSTS.into_iter().flat_map(|a| HOSTS.map(|b| (a, b)))
}

/// The price list: opened for writing, interrupted, and asked for by another.
#[test]
#[ignore = "runs the hosts: hosts/test survives"]
fn an_interrupted_grant_stands() {
    for (first, second) in pairs() {
        let place = Place::new("grant");
        let requests = ["ENTER   1PRICES    1  0  0  1", "OPEN    1  1"];
        let journal = "ADMIT   1  0  0    0\nGIVEN   1  1  0    0\n";
        let mut running = after(first, &place, &requests, journal);
        running.signal(SIGINT);
        running.ended();
        let requests = ["ENTER   2BILLS     1  0  0  1", "OPEN    2  1"];
        let journal = "ADMIT   2  0  0    0\nWAIT    2  1  0    0\n";
        let running = after(second, &place, &requests, journal);
        let (status, seen) = running.finish();
        assert!(status.success(), "{second} after {first}");
        assert!(seen.ends_with(b"ORDER   1  2\n"), "{second} after {first}");
    }
    println!("interrupted grants stand: 9 pairs of hosts");
}

/// The second session is turned away and changes nothing; after the first has
/// been killed, the next one gets in.
#[test]
#[ignore = "runs the hosts: hosts/test survives"]
fn one_file_has_one_session() {
    for (first, second) in pairs() {
        let place = Place::new("two");
        let requests = ["ENTER   1PRICES    1  0  0  1"];
        let mut running = after(first, &place, &requests, "ADMIT   1  0  0    0\n");
        let image = fs::read(place.image()).unwrap();
        let mut other = Running::start(second, &place);
        other.send(&lines(&["LEAVE   1"]));
        let (status, seen) = other.finish();
        assert_eq!(status.code(), Some(1), "{second} beside {first}");
        assert_eq!(seen, b"", "{second} beside {first}");
        assert!(place.messages().contains("another session uses the image"));
        assert_eq!(fs::read(place.image()).unwrap(), image);
        running.send(&lines(&["OPEN    1  1"]));
        running.wait_for(2 * LINE);
        assert!(
            running.seen.ends_with(b"GIVEN   1  1  0    0\n"),
            "{first} goes on"
        );
        running.signal(SIGKILL);
        running.ended();
        let (status, seen) =
            after(second, &place, &["LEAVE   1"], "DONE    1  0  0    0\n").finish();
        assert!(
            status.success() && seen.ends_with(b"ORDER \n"),
            "{second} after {first}"
        );
    }
    println!("one session at a time: 9 pairs of hosts");
}

/// A file that nobody brought to the disk is brought there before the first answer.
#[test]
#[ignore = "runs the hosts: hosts/test survives"]
fn a_found_image_is_brought_to_the_disk() {
    for host in HOSTS {
        let place = Place::new("found");
        let requests = ["ENTER   1PRICES    1  0  0  1"];
        after(host, &place, &requests, "ADMIT   1  0  0    0\n").finish();
        fs::remove_file(place.disk()).unwrap();
        let running = after(host, &place, &["LEAVE   2"], "REFUSE  2  0 11    0\n");
        let (image, disk) = (fs::read(place.image()), fs::read(place.disk()));
        assert_eq!(disk.expect("a copy of the disk"), image.unwrap(), "{host}");
        running.finish();
    }
}
