//! A job as text: one record a line, in the order of the job file.

use grouping_core::MOST_HEADS;

use crate::job::{word_for, Job, Wait, RIGHTS};

/// Where a line's comment stands, behind its record.
const COMMENT_AT: usize = 24;
/// The sight of a head that may see nobody.
pub const NOBODY: &str = "none";

/// The job's text. [`Draft::parse`](crate::draft::Draft::parse) makes the same job of it.
pub fn text_of(job: &Job) -> String {
    let mut lines = vec![format!("places {}", job.places), format!("heads {}", job.heads)];
    for right in &job.rights {
        let (may, seen) = (word_for(right.rights, RIGHTS), sight_words(right.sight));
        lines.push(format!("rights {} {may} sees {seen}", right.head));
    }
    for (number, request) in job.requests.iter().enumerate() {
        let record = format!("request {} {}", request.head, request.words());
        lines.push(format!("{record:<COMMENT_AT$}# request {number}"));
    }
    for Wait { later, earlier } in &job.waits {
        lines.push(format!("wait {later} {earlier}"));
    }
    let mut granted = 0;
    for run in job.grants.chunk_by(|a, b| a == b) {
        let record = format!("grant {} {}", run[0], run.len());
        let numbers = grants_words(granted + 1, granted + run.len());
        lines.push(format!("{record:<COMMENT_AT$}# {numbers}"));
        granted += run.len();
    }
    lines.push(String::new());
    lines.join("\n")
}

/// The number of 32 bits that decimal digits stand for.
pub fn decimal(word: &str) -> Option<u32> {
    word.parse().ok().filter(|_| word.bytes().all(|byte| byte.is_ascii_digit()))
}

/// `1 grant`, `9 grants`.
pub fn count(number: usize, name: &str) -> String {
    format!("{number} {name}{}", if number == 1 { "" } else { "s" })
}

/// `grant 3`, or `grants 3 to 8`.
fn grants_words(from: usize, to: usize) -> String {
    if from == to {
        format!("grant {from}")
    } else {
        format!("grants {from} to {to}")
    }
}

/// The heads of a sight, or that there is none.
fn sight_words(sight: u32) -> String {
    let seen = (0..MOST_HEADS).filter(|head| sight >> head & 1 == 1);
    let seen: Vec<String> = seen.map(|head| head.to_string()).collect();
    if seen.is_empty() {
        NOBODY.to_owned()
    } else {
        seen.join(" ")
    }
}
