//! xmllint as a judge of documents.

use std::path::{Path, PathBuf};
use std::process::{Command, Stdio};

/// A new folder for documents, which this process alone uses.
pub fn scratch_folder(name: &str) -> PathBuf {
    let folder = std::env::temp_dir().join(format!("{name}-xmllint-{}", std::process::id()));
    std::fs::create_dir_all(&folder).expect("a scratch folder can be made");
    folder
}

/// The document with the declarations in front of it.
pub fn wrapped(root: &[u8], declarations: &[u8], document: &[u8]) -> Vec<u8> {
    let (begin, end): (&[u8], &[u8]) = (b"<!DOCTYPE ", b"]>\n");
    [begin, root, b" [\n", declarations, end, document].concat()
}

/// Are all the documents valid? Without `--noent` xmllint rejects good FIXED values that hold `&`.
pub fn are_valid(files: &[impl AsRef<Path>]) -> bool {
    let status = Command::new("xmllint")
        .args(["--noent", "--valid", "--noout"])
        .args(files.iter().map(AsRef::as_ref))
        .stderr(Stdio::null())
        .status();
    let status = status.expect("xmllint must be installed (Debian: libxml2-utils)");
    let code = status.code().expect("xmllint ends by itself");
    // 1: not well-formed; 3, 4: not valid; all else is trouble of another sort.
    assert!(matches!(code, 0 | 1 | 3 | 4), "xmllint ends with {code}");
    code == 0
}
