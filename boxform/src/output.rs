//! What is written for the person who runs the tool.

use crate::failure::Failure;
use std::io::{self, Write};
use std::sync::atomic::{AtomicBool, Ordering};

/// Prints what was asked for.
pub fn put(text: &[u8]) -> Result<(), Failure> {
    write(text).map_err(Failure::Output)
}

/// Tells what is done. It stays done where this cannot be written, and the status says so; the errors tell the rest.
pub fn tell(text: &str) {
    if let Err(error) = write(text.as_bytes()) {
        note(&format!(
            "it is done, but what was done cannot be told: {error}"
        ));
    }
}

/// A line among the errors. Where it cannot be written, the status still tells.
pub fn note(text: &str) {
    let _ = writeln!(io::stderr(), "boxform: {text}");
}

fn write(text: &[u8]) -> io::Result<()> {
    if CLOSED.load(Ordering::Relaxed) {
        return Err(io::Error::other("the output is closed"));
    }
    let mut out = io::stdout().lock();
    out.write_all(text)?;
    out.flush()
}

/// Whether the output was closed when the program started.
static CLOSED: AtomicBool = AtomicBool::new(false);

/// Looks whether the output is there. It runs before `main`, since the standard library puts /dev/null in the place of
/// a closed output when it starts, and then what is written goes nowhere and nobody is told.
extern "C" fn look() {
    extern "C" {
        fn fcntl(file: i32, command: i32) -> i32;
    }
    const F_GETFD: i32 = 1;
    // SAFETY: asking for the flags of a file number that may not be open touches no memory.
    let flags = unsafe { fcntl(1, F_GETFD) };
    CLOSED.store(flags < 0, Ordering::Relaxed);
}

#[used]
#[link_section = ".init_array"]
static LOOK: extern "C" fn() = look;
