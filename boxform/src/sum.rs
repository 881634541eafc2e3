//! The sum of a file, which stands beside it in FILE.sum, as `sha256sum` writes it, with the sum of the file before.
//!
//! About one in twenty-five flipped bits gives another store that passes the check. A file fits when its sum is any of
//! those in FILE.sum: the file is replaced after FILE.sum, so a crash between the two leaves the file before, whose sum
//! stands there too.

use crate::sha256;
use std::ffi::OsStr;
use std::fs;
use std::io::{self, ErrorKind};
use std::os::unix::ffi::OsStrExt;
use std::path::{Path, PathBuf};

#[derive(PartialEq)]
pub enum Sum {
    Fits,
    Differs,
    /// There is no FILE.sum.
    None,
}

/// What follows a file's name in the name of its sums.
pub const SUFFIX: &str = ".sum";

/// The path with this behind its name.
pub fn beside(path: &Path, suffix: &str) -> PathBuf {
    let mut name = path.file_name().unwrap_or_default().to_os_string();
    name.push(suffix);
    path.with_file_name(name)
}

/// Whether the sum of these bytes stands in the file's sums.
pub fn compare(path: &Path, bytes: &[u8]) -> io::Result<Sum> {
    let sums = match fs::read(beside(path, SUFFIX)) {
        Err(error) if error.kind() == ErrorKind::NotFound => return Ok(Sum::None),
        // Where a name is too long to have sums, there are none.
        Err(error) if error.kind() == ErrorKind::InvalidFilename => return Ok(Sum::None),
        Err(error) => {
            let text = format!("its {SUFFIX} cannot be read: {error}");
            return Err(io::Error::new(error.kind(), text));
        }
        Ok(sums) => sums,
    };
    let sum = sha256::hex(bytes);
    let found = sums.windows(sum.len()).any(|part| part == sum.as_bytes());
    Ok(if found { Sum::Fits } else { Sum::Differs })
}

/// The text of the sums of these files.
pub fn text(files: &[(&OsStr, &[u8])]) -> Vec<u8> {
    let mut text = Vec::new();
    for (name, bytes) in files {
        let plain = escaped(name.as_bytes());
        // sha256sum marks a line whose name it had to write otherwise.
        let marked: &[u8] = if plain == name.as_bytes() { b"" } else { b"\\" };
        let sum = sha256::hex(bytes);
        text.extend([marked, sum.as_bytes(), b"  ", &plain, b"\n"].concat());
    }
    text
}

/// The name on one line.
fn escaped(name: &[u8]) -> Vec<u8> {
    let mut plain = Vec::new();
    for byte in name {
        match byte {
            b'\n' => plain.extend(b"\\n"),
            b'\r' => plain.extend(b"\\r"),
            b'\\' => plain.extend(b"\\\\"),
            _ => plain.push(*byte),
        }
    }
    plain
}
