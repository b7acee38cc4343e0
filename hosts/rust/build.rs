//! Links the board's archive: the one in the directory that LOCK_BOARD_LIB names, else the one that
//! `hosts/proved` has built in this repository, else the one that hosts/install has installed.
//! The example host also links the C functions that the hosts share (hosts/c/common builds them).

use std::env;
use std::path::{Path, PathBuf};
use std::process::exit;

/// Where the archive may be; the first that is there is taken.
fn places(here: &Path) -> [PathBuf; 2] {
    match env::var_os("LOCK_BOARD_LIB") {
        Some(dir) => ["libhost.a", "liblockboard.a"].map(|name| Path::new(&dir).join(name)),
        None => ["target/staticlib/libhost.a", "../lib/liblockboard.a"]
            .map(|place| here.join("../..").join(place)),
    }
}

fn main() {
    println!("cargo:rerun-if-env-changed=LOCK_BOARD_LIB");
    let here = Path::new(env!("CARGO_MANIFEST_DIR"));
    let places = places(here);
    let Some(archive) = places.iter().find_map(|place| place.canonicalize().ok()) else {
        let [first, second] = places.map(|place| place.display().to_string());
        eprintln!("there is neither {first} nor {second}: run 'hosts/proved host', or name the archive's directory in LOCK_BOARD_LIB");
        exit(1);
    };
    println!("cargo:rerun-if-changed={}", archive.display());
    let (Some(dir), Some(name)) = (archive.parent(), archive.file_stem()) else {
        unreachable!("a file has a folder and a name");
    };
    println!("cargo:rustc-link-search=native={}", dir.display());
    let name = name.to_string_lossy();
    println!(
        "cargo:rustc-link-lib=static={}",
        name.trim_start_matches("lib")
    );
    let common = here.join("../../target/hosts/libcommon.a");
    if common.exists() {
        println!("cargo:rerun-if-changed={}", common.display());
        println!("cargo:rustc-link-arg-examples={}", common.display());
    }
}
