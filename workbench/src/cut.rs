//! What the core leaves of a job, or of its first grants alone: table, report, line-up and counters.

use std::fmt;

use grouping_core::{list, play, Answer, Played, Refusal};
use grouping_core::{MOST_LINEUP, MOST_LISTING, MOST_REPORT, MOST_TABLE};

use crate::job::Job;

/// A place's entry in the table.
#[derive(Clone, Copy, Debug, PartialEq, Eq)]
pub struct Word {
    pub rank: u32,
    pub parent: u32,
}

impl fmt::Display for Word {
    fn fmt(&self, f: &mut fmt::Formatter<'_>) -> fmt::Result {
        write!(f, "rank {}, parent {}", self.rank, self.parent)
    }
}

/// A request's four numbers in the report.
#[derive(Clone, Copy, Debug, PartialEq, Eq)]
pub struct Row {
    pub answer: Answer,
    pub first: u32,
    pub last: u32,
    pub used: u32,
}

impl Row {
    pub fn is_finished(&self) -> bool {
        self.answer != Answer::Unfinished
    }

    pub fn has_begun(&self) -> bool {
        self.used > 0
    }
}

/// An entry of the line-up: the grant at which a request took effect.
#[derive(Clone, Copy, Debug, PartialEq, Eq)]
pub struct Entry {
    pub point: u32,
    pub request: usize,
}

/// Everything that one play leaves.
#[derive(Clone, Debug)]
pub struct Cut {
    pub played: Played,
    /// A word a place, as the core has it.
    pub table: Vec<u32>,
    report: Vec<u32>,
    lineup: Vec<u32>,
}

impl Cut {
    /// What a job file leaves, or its refusal.
    ///
    /// # Errors
    /// The refusal.
    pub fn left_by(file: &[u8]) -> Result<Cut, Refusal> {
        let (mut table, mut report) = (vec![0; MOST_TABLE], vec![0; MOST_REPORT]);
        let mut lineup = vec![0; MOST_LINEUP];
        let played = play(file, &mut table, &mut report, &mut lineup).result()?;
        table.truncate(played.places as usize);
        report.truncate(4 * played.requests as usize);
        lineup.truncate(2 * played.entries as usize);
        Ok(Cut { played, table, report, lineup })
    }

    /// What stands after the first grants of a job whose file is accepted.
    pub fn after(job: &Job, grants: usize) -> Cut {
        let file = job.file_of(grants).expect("a shorter file of the same job is written");
        Cut::left_by(&file).expect("and accepted")
    }

    /// The core's listing of it.
    pub fn listing(&self) -> Vec<u8> {
        let mut text = vec![0; MOST_LISTING];
        let listed = list(self.played, &self.table, &self.report, &self.lineup, &mut text).result();
        text.truncate(listed.expect("every listing has room").bytes);
        text
    }

    pub fn word(&self, place: usize) -> Word {
        let word = self.table[place];
        Word { rank: word >> 16, parent: word & 0xFFFF }
    }

    pub fn row(&self, request: usize) -> Row {
        let &[answer, first, last, used] = &self.report[4 * request..4 * request + 4] else {
            unreachable!("four numbers")
        };
        let answer = Answer::of(answer).expect("the report has answers");
        Row { answer, first, last, used }
    }

    pub fn rows(&self) -> impl Iterator<Item = Row> + '_ {
        (0..self.played.requests as usize).map(|request| self.row(request))
    }

    /// The line-up in its order.
    pub fn entries(&self) -> impl Iterator<Item = Entry> + '_ {
        let entry = |pair: &[u32]| Entry { point: pair[0], request: pair[1] as usize };
        self.lineup.chunks_exact(2).map(entry)
    }

    /// The request's entry in the line-up, if it has one.
    pub fn entry_of(&self, request: usize) -> Option<Entry> {
        self.entries().find(|entry| entry.request == request)
    }
}
