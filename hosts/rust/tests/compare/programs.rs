//! The programs that are built here, run on an input.

use crate::running::whole;
use std::path::{Path, PathBuf};

/// The program that a variable names; else the one built here. None, and a
/// word of it, if there is none.
pub fn find(variable: &str, name: &str) -> Option<PathBuf> {
    if let Some(path) = std::env::var_os(variable) {
        return Some(path.into());
    }
    let built = Path::new(env!("CARGO_MANIFEST_DIR")).join("../../target/bin");
    let path = built.join(name);
    if !path.exists() {
        println!("no program at {}: left out", path.display());
        return None;
    }
    Some(path)
}

/// All that a program writes for an input.
pub fn run(path: &Path, input: &[u8]) -> Vec<u8> {
    let output = whole::run(path, &[], input);
    assert!(
        output.status.success(),
        "the program ends with {}",
        output.status
    );
    output.stdout
}
