//! Files by their names, and what is said where one can't be read or written.

use std::fs::{self, File};
use std::io::{self, Read, Write};

use crate::call::Failure;

/// The name that stands for standard input, and for standard output behind -o.
pub const STANDARD: &str = "-";

/// An input's name in what is said of it.
pub fn name_of(path: &str) -> &str {
    if path == STANDARD {
        "standard input"
    } else {
        path
    }
}

/// A file, or no more of it than one byte beyond the most that is of use, so that a longer one shows.
///
/// # Errors
/// The file's name and the system's reason.
pub fn read(path: &str, most: usize) -> Result<Vec<u8>, Failure> {
    let mut bytes = Vec::new();
    let most = most as u64 + 1;
    let taken = if path == STANDARD {
        io::stdin().lock().take(most).read_to_end(&mut bytes)
    } else {
        File::open(path).and_then(|file| file.take(most).read_to_end(&mut bytes))
    };
    taken.map(|_| bytes).map_err(|why| failed(name_of(path), "read", &why))
}

/// Writes a file, or standard output.
///
/// # Errors
/// The file's name and the system's reason.
pub fn write(path: &str, bytes: &[u8]) -> Result<(), Failure> {
    if path == STANDARD {
        let mut out = io::stdout().lock();
        let written = out.write_all(bytes).and_then(|()| out.flush());
        return written.map_err(|why| failed("standard output", "written", &why));
    }
    fs::write(path, bytes).map_err(|why| failed(path, "written", &why))
}

fn failed(name: &str, done: &str, why: &io::Error) -> Failure {
    Failure::File(format!("grouping: {name} can't be {done}: {why}"))
}
