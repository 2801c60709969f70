//! The text that the program prints for a job.

use std::fmt::Write;

use crate::numbers::refusal;
use crate::play::{Buffers, Played};
use crate::word::{parent, rank};

/// The listing of a file, refused or not.
pub fn listing(file: &[u8]) -> String {
    let (played, Buffers { table, report, lineup }) = Buffers::played(file);
    text(&played, &table, &report, &lineup)
}

/// The line of a refused job.
pub fn refused(number: u32) -> String {
    format!("refused {number}\n")
}

/// The listing of a result.
pub fn text(played: &Played, table: &[u32], report: &[u32], lineup: &[u32]) -> String {
    if played.number != refusal::NONE {
        return refused(played.number);
    }
    let mut text = String::new();
    add_line(&mut text, "job", &[played.nodes, played.heads, played.requests, played.grants]);
    for node in 0..played.nodes {
        let own = table[node as usize];
        add_line(&mut text, "word", &[node, parent(own), rank(own)]);
    }
    for (number, four) in (0..played.requests).zip(report.chunks_exact(4)) {
        add_request(&mut text, number, four);
    }
    for entry in lineup.chunks_exact(2).take(played.entries as usize) {
        add_entry(&mut text, entry[0], entry[1]);
    }
    let tally = &played.tally;
    add_line(&mut text, "tally", &[tally.idle, tally.failed, tally.links, tally.working]);
    text
}

/// Adds the line of a request with its four report numbers.
pub fn add_request(text: &mut String, number: u32, four: &[u32]) {
    add_line(text, "request", &[number, four[0], four[1], four[2], four[3]]);
}

/// Adds the line of an entry of the line-up.
pub fn add_entry(text: &mut String, point: u32, request: u32) {
    add_line(text, "line", &[point, request]);
}

fn add_line(text: &mut String, name: &str, numbers: &[u32]) {
    text.push_str(name);
    for number in numbers {
        write!(text, " {number}").expect("a string takes all that is written");
    }
    text.push('\n');
}
