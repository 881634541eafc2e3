//! A build without the archive says what is missing and how to get it.

use std::path::Path;
use std::process::Command;

#[test]
fn a_missing_archive_is_told() {
    let scratch = Path::new(env!("CARGO_TARGET_TMPDIR"));
    let nowhere = scratch.join("no archive here");
    let built = Command::new(env!("CARGO"))
        .args(["build", "--offline"])
        .current_dir(env!("CARGO_MANIFEST_DIR"))
        .env("CARGO_TARGET_DIR", scratch.join("target"))
        .env("FORMSTORE_LIB_DIR", &nowhere)
        .output()
        .expect("cargo runs");
    assert!(!built.status.success());
    let told = String::from_utf8_lossy(&built.stderr);
    let archive = nowhere.join("libformstore.a");
    for part in [
        &format!("formstore: there is no archive at {}", archive.display()),
        "tools/library",
        "set FORMSTORE_LIB_DIR",
    ] {
        assert!(told.contains(part), "{part} is not in:\n{told}");
    }
}
