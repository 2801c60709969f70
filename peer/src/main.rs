//! Reads a job on standard input and prints its listing or, given words for it, its group page or
//! the sheet of one of its heads.

use std::env;
use std::ffi::{OsStr, OsString};
use std::io::{self, Read, Write};
use std::process::ExitCode;

use peer::{listing, page, sheet};

const USAGE: &str = "\
usage: peer [page | sheet HEAD], with a job on standard input
    without a word: prints the job's listing
    page: plays the job and prints the page of the groups that it leaves
    sheet HEAD: plays the job and prints the sheet of that head, a number below 4294967296
A refused job, and a sheet for a head that the job has not, print one line, \"refused\" and the number.
";

/// What is printed of a job.
enum Print {
    Listing,
    Page,
    Sheet(u32),
}

impl Print {
    fn of(words: &[OsString]) -> Option<Print> {
        match words {
            [] => Some(Print::Listing),
            [word] if word == "page" => Some(Print::Page),
            [word, head] if word == "sheet" => number(head).map(Print::Sheet),
            _ => None,
        }
    }

    fn text(self, file: &[u8]) -> String {
        match self {
            Print::Listing => listing::listing(file),
            Print::Page => page::of_job(file),
            Print::Sheet(head) => sheet::of_job(file, head),
        }
    }
}

/// A 32-bit number in decimal digits, without a sign.
fn number(word: &OsStr) -> Option<u32> {
    let digits = word.to_str().filter(|word| word.bytes().all(|byte| byte.is_ascii_digit()))?;
    digits.parse().ok()
}

fn main() -> io::Result<ExitCode> {
    let words: Vec<OsString> = env::args_os().skip(1).collect();
    let Some(print) = Print::of(&words) else {
        io::stderr().write_all(USAGE.as_bytes())?;
        return Ok(ExitCode::from(2));
    };
    let mut file = Vec::new();
    io::stdin().read_to_end(&mut file)?;
    io::stdout().write_all(print.text(&file).as_bytes())?;
    Ok(ExitCode::SUCCESS)
}
