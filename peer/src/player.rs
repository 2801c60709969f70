//! The calls of a player, this crate's or another's, and everything that one call leaves behind.

use crate::head::Access;
use crate::job::{self, Draft, Job, Written, MAX_NODES, MAX_REQUESTS};
use crate::limits::{self, Limits};
use crate::listing;
use crate::page::{self, Paged, Row};
use crate::play::{self, Played};
use crate::query::{self, Queried};
use crate::sheet::{self, Listed};

/// File, table, report, line-up.
pub type Play = fn(&[u8], &mut [u32], &mut [u32], &mut [u32]) -> Played;
/// Nodes, heads, rights, requests, pairs, grants, buffer.
pub type Write = fn(u32, u32, &[u32], &[u32], &[u32], &[u8], &mut [u8]) -> Written;
/// Table, x, y, budget.
pub type Query = fn(&mut [u32], u32, u32, u16) -> Queried;
/// A file; gives the program's text for it.
pub type List = fn(&[u8]) -> String;
/// Table, rows, page.
pub type Page = fn(&[u32], &mut [Row], &mut [u8]) -> Paged;
/// A file, head, buffer.
pub type Sheet = fn(&[u8], u32, &mut [u8]) -> Listed;
/// Nodes.
pub type LimitsOf = fn(u32) -> Limits;

/// A player as its calls. One that lives elsewhere, behind C functions say, is held against this
/// crate's by giving its calls these types.
#[derive(Clone, Copy)]
pub struct Player {
    pub name: &'static str,
    pub play: Play,
    pub write: Write,
    pub query: Query,
    pub list: List,
    pub page: Page,
    pub sheet: Sheet,
    pub limits: LimitsOf,
}

impl Player {
    /// Writes the file of a draft.
    pub fn write_draft(&self, draft: &Draft, buffer: &mut [u8]) -> Written {
        let Draft { nodes, heads, rights, requests, waits, grants } = draft;
        (self.write)(*nodes, *heads, rights, requests, waits, grants, buffer)
    }
}

pub const PEER: Player = Player {
    name: "peer",
    play: play::play,
    write: job::write,
    query: query::query,
    list: listing::listing,
    page: page::page,
    sheet: sheet::sheet,
    limits: limits::limits,
};

/// How many numbers are lent for the table, the report and the line-up.
#[derive(Clone, Copy, Debug, PartialEq, Eq)]
pub struct Lengths {
    pub table: usize,
    pub report: usize,
    pub lineup: usize,
}

impl Lengths {
    /// No more than a job needs.
    pub fn exact(job: &Job) -> Lengths {
        let requests = job.requests.len();
        Lengths { table: job.nodes as usize, report: 4 * requests, lineup: 2 * requests }
    }

    /// So many more of each.
    pub fn and(self, more: usize) -> Lengths {
        let Lengths { table, report, lineup } = self;
        Lengths { table: table + more, report: report + more, lineup: lineup + more }
    }
}

/// Enough for every job.
pub const AMPLE: Lengths =
    Lengths { table: MAX_NODES as usize, report: 4 * MAX_REQUESTS, lineup: 2 * MAX_REQUESTS };

/// A result with every number lent, used or not.
#[derive(Clone, Debug, PartialEq, Eq)]
pub struct Outcome {
    pub played: Played,
    pub table: Vec<u32>,
    pub report: Vec<u32>,
    pub lineup: Vec<u32>,
}

/// What stands in a lent number before the call.
fn lent(index: usize) -> u32 {
    0xA5A5_0000 ^ index as u32
}

impl Outcome {
    /// Buffers as they are lent, with the result of a call that was refused.
    pub fn untouched(number: u32, lengths: Lengths) -> Outcome {
        let buffer = |length| (0..length).map(lent).collect();
        Outcome {
            played: Played::refused(number),
            table: buffer(lengths.table),
            report: buffer(lengths.report),
            lineup: buffer(lengths.lineup),
        }
    }

    /// What a player leaves of buffers of these lengths.
    pub fn of<P>(play: P, file: &[u8], lengths: Lengths) -> Outcome
    where
        P: FnOnce(&[u8], &mut [u32], &mut [u32], &mut [u32]) -> Played,
    {
        let mut outcome = Outcome::untouched(0, lengths);
        let Outcome { table, report, lineup, .. } = &mut outcome;
        outcome.played = play(file, table, report, lineup);
        outcome
    }

    /// What this crate's player leaves, and the accesses it made.
    pub fn traced(file: &[u8], lengths: Lengths) -> (Outcome, Vec<Access>) {
        let mut outcome = Outcome::untouched(0, lengths);
        let mut trace = Vec::new();
        let Outcome { table, report, lineup, .. } = &mut outcome;
        let watch = |access| trace.push(access);
        outcome.played = play::play_watched(file, table, report, lineup, watch);
        (outcome, trace)
    }

    /// Whether the numbers past the used part of each buffer are as lent.
    pub fn rest_as_lent(&self) -> bool {
        let Played { nodes, requests, entries, .. } = self.played;
        let kept = |buffer: &[u32], used: u32| {
            let mut rest = buffer.iter().enumerate().skip(used as usize);
            rest.all(|(index, &number)| number == lent(index))
        };
        kept(&self.table, nodes)
            && kept(&self.report, 4 * requests)
            && kept(&self.lineup, 2 * entries)
    }
}
