//! The tests, and what they share.

mod bytes;
mod cancels;
mod chosen;
mod counts;
mod digraph;
mod digraph_vectors;
mod direct;
mod direct_vectors;
mod entry_vectors;
mod examples;
mod favoured;
mod image_files;
mod images;
mod journals;
mod lists;
mod passed;
mod plan;
mod program;
mod records;
mod refusals;
mod sessions;
mod show;
mod small_scope;
mod survives;
mod told;
mod vectors;
mod writer;
mod writer_vectors;
mod written_lines;

use std::path::Path;

fn number(name: &str, default: u64) -> u64 {
    match std::env::var(name) {
        Ok(text) => text
            .parse()
            .unwrap_or_else(|_| panic!("{name} is no number: {text}")),
        Err(_) => default,
    }
}

fn seed() -> u64 {
    let seed = number("LOCK_BOARD_SEED", 1972);
    println!("seed {seed}");
    seed
}

/// Calls of the sessions; the other tests take a share of it.
fn calls() -> u64 {
    number("LOCK_BOARD_LINES", 200_000)
}

/// A file has the bytes that the model has for it. When a rule has changed, or the
/// form of lines, journal or image, this writes all such files anew from their
/// inputs, by the model alone; `git diff` shows which have changed:
///
///     LOCK_BOARD_WRITE=1 cargo test --release agree_with_the_model
fn of_the_model(file: &Path, bytes: &[u8]) {
    if std::env::var_os("LOCK_BOARD_WRITE").is_some() {
        std::fs::write(file, bytes).expect("the file is written");
    }
    let found = std::fs::read(file).unwrap_or_default();
    assert!(found == bytes, "{} is not the model's", file.display());
}
