//! Which lines of a text a refusal of the writer is about.
//!
//! The writer gives a number and no place. It checks its lists in order, so that the first record
//! with which a list is refused is the one that it is about: shorter lists are given to it.

use grouping_core::{Refusal, MAY_BOTH, MOST_REQUESTS};

use crate::draft::Draft;
use crate::job::{Job, Right};

/// A refusal, and the lines that it is about: that of the record first, then those that the record
/// is held against, each with what stands there.
#[derive(Clone, Debug, PartialEq, Eq)]
pub struct Refused {
    pub refusal: Refusal,
    pub line: usize,
    pub others: Vec<(usize, &'static str)>,
}

impl Refused {
    /// The lines of a draft that the writer has refused with this number.
    pub(crate) fn of(draft: &Draft, refusal: Refusal) -> Refused {
        let Draft { job, lines } = draft;
        let search = Search { draft, refusal };
        let (places, heads) = ((lines.places, "the places"), (lines.heads, "the heads"));
        let (line, others) = match refusal {
            Refusal::Places => (lines.places, vec![]),
            Refusal::Heads => (lines.heads, vec![]),
            Refusal::Rights => (lines.rights[search.right()], vec![heads]),
            Refusal::TooManyRequests => (lines.requests[MOST_REQUESTS as usize], vec![]),
            Refusal::RequestHead => (lines.requests[search.request()], vec![heads]),
            Refusal::RequestPlace => (lines.requests[search.request()], vec![places]),
            Refusal::RequestRights => {
                let request = search.request();
                let right = lines.rights[job.requests[request].head as usize];
                (lines.requests[request], vec![(right, "its head's rights")])
            }
            Refusal::Wait => {
                let wait = search.wait();
                let before = lines.waits[..wait].last().map(|&line| (line, "the pair before it"));
                (lines.waits[wait], before.into_iter().collect())
            }
            Refusal::Grant => (lines.grants[search.grant()].line, vec![heads]),
            // A file that is too long is left: the text has no other kinds, and the buffer is long
            // enough.
            _ if search.is_long_without_grants() => (lines.waits[search.wait()], vec![]),
            _ => (lines.grants[search.grant()].line, vec![]),
        };
        Refused { refusal, line, others }
    }
}

/// Shorter lists of a draft, given to the writer.
struct Search<'a> {
    draft: &'a Draft,
    refusal: Refusal,
}

impl Search<'_> {
    fn is_refused(&self, shorter: &Job) -> bool {
        shorter.file() == Err(self.refusal)
    }

    /// The job with no pairs and no grants.
    fn asked(&self) -> Job {
        Job { waits: Vec::new(), grants: Vec::new(), ..self.draft.job.clone() }
    }

    fn is_long_without_grants(&self) -> bool {
        self.is_refused(&Job { waits: self.draft.job.waits.clone(), ..self.asked() })
    }

    /// The record of rights, with good ones behind it; the last where one is missing behind it.
    fn right(&self) -> usize {
        let Job { rights, heads, .. } = &self.draft.job;
        let good = |head| Right { head, rights: MAY_BOTH, sight: 0 };
        first(rights.len(), |right| {
            let behind = (right as u32 + 1..*heads).map(good);
            let rights = rights[..=right].iter().copied().chain(behind).collect();
            self.is_refused(&Job { rights, requests: Vec::new(), ..self.asked() })
        })
    }

    fn request(&self) -> usize {
        let requests = &self.draft.job.requests;
        first(requests.len(), |request| {
            self.is_refused(&Job { requests: requests[..=request].to_vec(), ..self.asked() })
        })
    }

    fn wait(&self) -> usize {
        let waits = &self.draft.job.waits;
        first(waits.len(), |wait| {
            self.is_refused(&Job { waits: waits[..=wait].to_vec(), ..self.asked() })
        })
    }

    /// The line of grants.
    fn grant(&self) -> usize {
        let Draft { job, lines } = self.draft;
        first(lines.grants.len(), |line| job.file_of(lines.grants[line].up_to) == Err(self.refusal))
    }
}

/// The first number below the count that passes, where all behind one that does do too; the last is
/// not tried.
fn first(count: usize, passes: impl Fn(usize) -> bool) -> usize {
    let (mut low, mut high) = (0, count - 1);
    while low < high {
        let middle = low + (high - low) / 2;
        if passes(middle) {
            high = middle;
        } else {
            low = middle + 1;
        }
    }
    low
}
