//! What each grant of a run did, told by the difference of what stands before it and after it.

use crate::cut::{Cut, Entry, Row, Word};
use crate::job::Job;

/// The grants from one to another, both of them included; grants count from 1. Where `to` is one
/// below `from` there are none.
#[derive(Clone, Copy, Debug, PartialEq, Eq)]
pub struct Window {
    pub from: usize,
    pub to: usize,
}

impl Window {
    /// All grants of a job.
    pub fn of(job: &Job) -> Window {
        Window { from: 1, to: job.grants.len() }
    }

    pub fn has(self, grant: u32) -> bool {
        (self.from..=self.to).contains(&(grant as usize))
    }

    pub fn grants(self) -> usize {
        self.to + 1 - self.from
    }

    /// How many of its grants a job does not take as idle.
    pub fn used(self, job: &Job) -> usize {
        let idle = |grants| Cut::after(job, grants).played.tally.idle as usize;
        self.grants() - (idle(self.to) - idle(self.from - 1))
    }
}

/// A grant that was used for a request, or a stretch of idle ones that nothing interrupts.
#[derive(Clone, Debug, PartialEq, Eq)]
pub enum Happening {
    Used(Used),
    Idle(Idle),
}

/// What a grant did for its request.
#[derive(Clone, Debug, PartialEq, Eq)]
pub struct Used {
    pub grant: u32,
    pub head: u8,
    pub request: usize,
    /// It is the request's first.
    pub begins: bool,
    /// The word that is another one now.
    pub change: Option<Change>,
    /// Its swap did not write.
    pub failed: bool,
    /// Its swap was a union's link.
    pub linked: bool,
    /// The entry that the line-up has now.
    pub entered: Option<Entered>,
    /// The request's row, if it has its answer now.
    pub ended: Option<Row>,
    /// The words of the request's two places after it.
    pub words: [Word; 2],
}

/// A new entry, and the one that it stands before, if it is not the last.
#[derive(Clone, Copy, Debug, PartialEq, Eq)]
pub struct Entered {
    pub entry: Entry,
    pub next: Option<Entry>,
}

#[derive(Clone, Copy, Debug, PartialEq, Eq)]
pub struct Change {
    pub place: usize,
    pub before: Word,
    pub after: Word,
}

/// Idle grants in a row.
#[derive(Clone, Debug, PartialEq, Eq)]
pub struct Idle {
    pub window: Window,
    /// The heads that were granted, rising.
    pub heads: Vec<IdleHead>,
}

#[derive(Clone, Debug, PartialEq, Eq)]
pub struct IdleHead {
    pub head: u8,
    pub grants: usize,
    /// What it waits for; none where it has no request left.
    pub waiting: Option<Waiting>,
}

/// A head's next request, and the lowest unfinished one that this waits for.
#[derive(Clone, Copy, Debug, PartialEq, Eq)]
pub struct Waiting {
    pub request: usize,
    pub earlier: usize,
}

/// The grants of a window, and what stands after them.
#[derive(Clone, Debug)]
pub struct Story {
    pub window: Window,
    pub happenings: Vec<Happening>,
    pub left: Cut,
}

impl Story {
    /// Plays a job up to each grant of the window that is not idle; idle ones in a row are passed
    /// over at once.
    pub fn of(job: &Job, window: Window) -> Story {
        let mut left = Cut::after(job, window.from - 1);
        let mut happenings = Vec::new();
        while (left.played.grants as usize) < window.to {
            let next = Cut::after(job, left.played.grants as usize + 1);
            if next.played.tally.idle == left.played.tally.idle {
                happenings.push(Happening::Used(difference(job, &left, &next)));
                left = next;
            } else {
                let last = last_idle(job, &left, window.to);
                happenings.push(Happening::Idle(idle(job, &left, last)));
                left = Cut::after(job, last);
            }
        }
        Story { window, happenings, left }
    }
}

/// The last of the idle grants in a row behind a cut, up to a grant; the first is known to be idle. It
/// changes nothing, so that its head's next one is idle too: they go on to the end of a run of one
/// head, or of several.
fn last_idle(job: &Job, before: &Cut, to: usize) -> usize {
    let (grants, idle) = (before.played.grants as usize, before.played.tally.idle as usize);
    let mut ends = vec![grants + 1];
    for run in job.grants[grants + 1..to].chunk_by(|a, b| a == b) {
        ends.push(ends[ends.len() - 1] + run.len());
    }
    let is_idle_up_to =
        |end: usize| Cut::after(job, end).played.tally.idle as usize - idle == end - grants;
    ends[passing(ends.len() - 1, |run| is_idle_up_to(ends[run + 1]))]
}

/// How many of so many numbers pass, where all behind the first that does not do not either: looks
/// twice as far each time, then half as far.
fn passing(count: usize, passes: impl Fn(usize) -> bool) -> usize {
    let passes = |number: usize| number <= count && passes(number - 1);
    let (mut passed, mut step) = (0, 1);
    while passes(passed + step) {
        passed += step;
        step *= 2;
    }
    while step > 1 {
        step /= 2;
        if passes(passed + step) {
            passed += step;
        }
    }
    passed
}

fn idle(job: &Job, before: &Cut, last: usize) -> Idle {
    let first = before.played.grants as usize;
    let mut grants = vec![0; job.heads as usize];
    for &head in &job.grants[first..last] {
        grants[usize::from(head)] += 1;
    }
    let granted = (0..).zip(grants).filter(|&(_, grants)| grants > 0);
    let heads = granted
        .map(|(head, grants)| IdleHead { head, grants, waiting: waiting(job, before, head) })
        .collect();
    Idle { window: Window { from: first + 1, to: last }, heads }
}

/// What a resting head waits for.
fn waiting(job: &Job, now: &Cut, head: u8) -> Option<Waiting> {
    let is_unfinished = |&request: &usize| !now.row(request).is_finished();
    let is_own = |&request: &usize| job.requests[request].head == u32::from(head);
    let request = (0..job.requests.len()).filter(is_own).find(is_unfinished)?;
    let pairs = job.waits.iter().filter(|wait| wait.later as usize == request);
    let earlier = pairs.map(|wait| wait.earlier as usize).find(is_unfinished)?;
    Some(Waiting { request, earlier })
}

/// What a grant that is not idle did.
fn difference(job: &Job, before: &Cut, after: &Cut) -> Used {
    let request = before
        .rows()
        .zip(after.rows())
        .position(|(before, after)| before != after)
        .expect("a grant that is not idle is used for a request");
    let change = before
        .table
        .iter()
        .zip(&after.table)
        .position(|(before, after)| before != after)
        .map(|place| Change { place, before: before.word(place), after: after.word(place) });
    let entered = (after.played.entries > before.played.entries).then(|| {
        let entries: Vec<Entry> = after.entries().collect();
        let new = entries
            .iter()
            .position(|entry| entry.request == request)
            .expect("an entry is that of the grant's request");
        Entered { entry: entries[new], next: entries.get(new + 1).copied() }
    });
    let row = after.row(request);
    let grant = after.played.grants;
    let (was, is) = (before.played.tally, after.played.tally);
    Used {
        grant,
        head: job.grants[grant as usize - 1],
        request,
        begins: row.first == grant,
        change,
        failed: is.failed > was.failed,
        linked: is.links > was.links,
        entered,
        ended: row.is_finished().then_some(row),
        words: job.requests[request].places().map(|place| after.word(place)),
    }
}
