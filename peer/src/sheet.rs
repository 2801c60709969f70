//! A head's sheet: the requests of the heads that it may see, numbered among themselves, and their
//! line-up, as lines of the listing.

use crate::job::{self, MAX_REQUESTS};
use crate::listing;
use crate::numbers::refusal;
use crate::play::{Buffers, Played};

/// Enough for every sheet: a request's line has at most 38 bytes, its entry's 17.
pub const MAX_SHEET: usize = (38 + 17) * MAX_REQUESTS;

/// The bytes that were written; a refused call has none.
#[derive(Clone, Copy, Debug, Default, PartialEq, Eq)]
pub struct Listed {
    pub number: u32,
    pub bytes: usize,
}

impl Listed {
    pub fn refused(number: u32) -> Listed {
        Listed { number, bytes: 0 }
    }
}

/// Plays a file and writes a head's sheet into the front of `out`. Nothing is written by a refused
/// call.
pub fn sheet(file: &[u8], head: u32, out: &mut [u8]) -> Listed {
    let text = match text(file, head) {
        Ok(text) => text,
        Err(number) => return Listed::refused(number),
    };
    match out.get_mut(..text.len()) {
        Some(front) => {
            front.copy_from_slice(text.as_bytes());
            Listed { number: refusal::NONE, bytes: text.len() }
        }
        None => Listed::refused(refusal::BUFFER_TOO_SHORT),
    }
}

/// The sheet of a head of a file, or the line of its refusal.
pub fn of_job(file: &[u8], head: u32) -> String {
    text(file, head).unwrap_or_else(listing::refused)
}

fn text(file: &[u8], head: u32) -> Result<String, u32> {
    let shape = job::check(file)?;
    if head >= shape.heads {
        return Err(refusal::GRANT);
    }
    let right = job::right_of(file, &shape, head);
    let is_seen = |&number: &usize| right.sees(job::request_at(file, &shape, number).head);
    // A request's place in this list is its number on the sheet.
    let seen: Vec<usize> = (0..shape.requests).filter(is_seen).collect();
    let (Played { entries, .. }, Buffers { report, lineup, .. }) = Buffers::played(file);
    let mut text = String::new();
    for (number, request) in (0..).zip(&seen) {
        listing::add_request(&mut text, number, &report[4 * request..][..4]);
    }
    for entry in lineup.chunks_exact(2).take(entries as usize) {
        if let Ok(number) = seen.binary_search(&(entry[1] as usize)) {
            listing::add_entry(&mut text, entry[0], number as u32);
        }
    }
    Ok(text)
}
