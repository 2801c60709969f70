//! A slow second reading of the rules: each request is a straight program, started over at every
//! grant on what its head saw before. It can also take one of the known wrong turns.

use peer::head::{Access, Deed};
use peer::job::{self, Job, Kind, Request};
use peer::numbers::answer;
use peer::play::{Played, Tally};
use peer::word::{before, parent, rank, word};

#[derive(Clone, Copy, Debug, PartialEq, Eq)]
pub enum Turn {
    Right,
    NoWithoutReread,
    NoTriedAgain,
    LinkAtAnyRank,
    LinkStoresRankOfY,
    NoAtLastGrant,
    LinkedLeftOut,
    ParentReadBeforeSwap,
    RetryUnexchanged,
    HalvingSkippedAtRoot,
    RaiseTriedAgain,
    TidyingFromY,
    RankOfYRead,
    NoTidyingAtUnequalRanks,
    WaitingHeadServed,
    WaitOverAtFirstGrant,
    WaitOverAtLink,
    WaitEndsOneGrantLate,
    WaitForLowestPairAlone,
    WaitForHighestPairAlone,
    WaitingRequestSkipped,
    WaitingGrantNotIdle,
}

pub const WRONG_TURNS: [Turn; 21] = [
    Turn::NoWithoutReread,
    Turn::NoTriedAgain,
    Turn::LinkAtAnyRank,
    Turn::LinkStoresRankOfY,
    Turn::NoAtLastGrant,
    Turn::LinkedLeftOut,
    Turn::ParentReadBeforeSwap,
    Turn::RetryUnexchanged,
    Turn::HalvingSkippedAtRoot,
    Turn::RaiseTriedAgain,
    Turn::TidyingFromY,
    Turn::RankOfYRead,
    Turn::NoTidyingAtUnequalRanks,
    Turn::WaitingHeadServed,
    Turn::WaitOverAtFirstGrant,
    Turn::WaitOverAtLink,
    Turn::WaitEndsOneGrantLate,
    Turn::WaitForLowestPairAlone,
    Turn::WaitForHighestPairAlone,
    Turn::WaitingRequestSkipped,
    Turn::WaitingGrantNotIdle,
];

/// A request with the accesses made for it so far and what they led to.
struct Work {
    request: Request,
    past: Vec<Access>,
    answer: u32,
    /// Its point in the line-up, once it is known.
    point: Option<u32>,
}

/// Plays a file with the wrong turn given; `trace` takes the accesses in order.
pub fn play(
    turn: Turn,
    file: &[u8],
    table: &mut [u32],
    report: &mut [u32],
    lineup: &mut [u32],
    trace: &mut Vec<Access>,
) -> Played {
    let job = match job::read(file) {
        Ok(job) => job,
        Err(number) => return Played::refused(number),
    };
    for node in 0..job.nodes {
        table[node as usize] = node;
    }
    let fresh = |&request: &Request| Work { request, past: Vec::new(), answer: 0, point: None };
    let mut works: Vec<Work> = job.requests.iter().map(fresh).collect();
    let idle = grants(turn, &job, &mut works, table, trace);
    let entries = put_down(&works, report, lineup);
    Played {
        number: 0,
        nodes: job.nodes,
        heads: job.heads,
        requests: job.requests.len() as u32,
        grants: job.grants.len() as u32,
        entries,
        tally: tally(&job, &works, trace, idle),
    }
}

/// Plays the grants one by one, and counts the idle ones.
fn grants(
    turn: Turn,
    job: &Job,
    works: &mut [Work],
    table: &mut [u32],
    trace: &mut Vec<Access>,
) -> u32 {
    let (mut idle, mut was_idle) = (0, vec![false; job.heads as usize]);
    trace.clear();
    for (grant, &head) in (1..).zip(&job.grants) {
        let late = turn == Turn::WaitEndsOneGrantLate && was_idle[usize::from(head)];
        let served = served(turn, job, works, head);
        was_idle[usize::from(head)] = served.is_none();
        if let (false, Some(request)) = (late, served) {
            let work = &mut works[request];
            let next = Access { grant, head, request, node: 0, seen: 0, deed: Deed::Read };
            Program { turn, table, work, at: 0, grant: Some(next) }.run();
            trace.extend(work.past.last());
        } else if turn != Turn::WaitingGrantNotIdle || !works_on(works, head) {
            idle += 1;
        }
    }
    idle
}

fn works_on(works: &[Work], head: u8) -> bool {
    works.iter().any(|work| work.answer == 0 && work.request.head == head)
}

/// The request that a head goes on with or begins at its grant; none where the grant is idle.
fn served(turn: Turn, job: &Job, works: &[Work], head: u8) -> Option<usize> {
    let open = |work: &Work| work.answer == 0 && work.request.head == head;
    let goes = |&number: &usize| !works[number].past.is_empty() || !waits(turn, job, works, number);
    let mut own = (0..works.len()).filter(|&number| open(&works[number]));
    match turn {
        Turn::WaitingRequestSkipped => own.find(goes),
        _ => own.next().filter(goes),
    }
}

/// Whether a request that has not begun waits for another.
fn waits(turn: Turn, job: &Job, works: &[Work], request: usize) -> bool {
    let own = job.waits.iter().filter(|wait| wait.later as usize == request);
    let mut earlier = own.map(|wait| &works[wait.earlier as usize]);
    let open = |work: &Work| match turn {
        Turn::WaitOverAtFirstGrant => work.past.is_empty(),
        Turn::WaitOverAtLink => work.answer == 0 && work.point.is_none(),
        _ => work.answer == 0,
    };
    match turn {
        Turn::WaitingHeadServed => false,
        Turn::WaitForLowestPairAlone => earlier.next().is_some_and(open),
        Turn::WaitForHighestPairAlone => earlier.next_back().is_some_and(open),
        _ => earlier.any(open),
    }
}

/// Fills the report and the line-up, and counts its entries.
fn put_down(works: &[Work], report: &mut [u32], lineup: &mut [u32]) -> u32 {
    let mut entries = Vec::new();
    for (number, work) in works.iter().enumerate() {
        let first = work.past.first().map_or(0, |access| access.grant);
        let last = work.past.last().map_or(0, |access| access.grant);
        let ended = if work.answer == 0 { 0 } else { last };
        let numbers = [work.answer, first, ended, work.past.len() as u32];
        report[4 * number..][..4].copy_from_slice(&numbers);
        entries.extend(work.point.map(|point| [point, number as u32]));
    }
    entries.sort();
    lineup[..2 * entries.len()].copy_from_slice(entries.as_flattened());
    entries.len() as u32
}

fn tally(job: &Job, works: &[Work], trace: &[Access], idle: u32) -> Tally {
    Tally {
        idle,
        failed: trace.iter().filter(|access| access.failed()).count() as u32,
        links: trace.iter().filter(|access| access.wrote() && access.tries_link()).count() as u32,
        working: (0..job.heads).filter(|&head| works_on(works, head as u8)).count() as u32,
    }
}

/// A request's program on its way through past accesses to the one that is granted; `None` is for
/// an access that has to wait for the next grant.
struct Program<'a> {
    turn: Turn,
    table: &'a mut [u32],
    work: &'a mut Work,
    at: usize,
    grant: Option<Access>,
}

impl Program<'_> {
    fn run(&mut self) {
        let Request { kind, x, y, .. } = self.work.request;
        let answer = match kind {
            Kind::Union => self.union(x, y),
            Kind::SameSet => self.same_set(x, y),
        };
        self.work.answer = answer.unwrap_or(0);
        // The point of a same-set counts only once it has its answer.
        let early = kind == Kind::SameSet || self.turn == Turn::LinkedLeftOut;
        if answer.is_none() && early {
            self.work.point = None;
        }
    }

    /// The grant of the latest access.
    fn now(&self) -> Option<u32> {
        Some(self.work.past[self.at - 1].grant)
    }

    fn same_set(&mut self, mut x: u32, mut y: u32) -> Option<u32> {
        loop {
            x = self.find(x)?;
            y = self.find(y)?;
            self.work.point = self.now();
            if x == y {
                return Some(answer::YES);
            }
            if self.turn == Turn::NoWithoutReread {
                return Some(answer::NO);
            }
            if parent(self.read(x)?) == x && self.turn != Turn::NoTriedAgain {
                if self.turn == Turn::NoAtLastGrant {
                    self.work.point = self.now();
                }
                return Some(answer::NO);
            }
        }
    }

    fn union(&mut self, mut x: u32, mut y: u32) -> Option<u32> {
        loop {
            x = self.find(x)?;
            y = self.find(y)?;
            if x == y {
                self.work.point = self.now();
                return Some(answer::TOGETHER);
            }
            let mut low = (rank(self.read(x)?), x);
            let mut high = (rank(self.read(y)?), y);
            if before(high.0, high.1, low.0, low.1) {
                std::mem::swap(&mut low, &mut high);
            }
            if self.turn != Turn::RetryUnexchanged {
                (x, y) = (low.1, high.1);
            }
            if self.link(low, high)? {
                self.work.point = self.now();
                if low.0 == high.0 && !self.raise(high)? && self.turn == Turn::RaiseTriedAgain {
                    self.raise(high)?;
                }
                if low.0 == high.0 || self.turn != Turn::NoTidyingAtUnequalRanks {
                    self.tidy(low.1, high.1)?;
                }
                return Some(answer::JOINED);
            }
        }
    }

    fn link(&mut self, low: (u32, u32), high: (u32, u32)) -> Option<bool> {
        let kept = if self.turn == Turn::LinkStoresRankOfY { high.0 } else { low.0 };
        self.swap(low.1, word(low.0, low.1), word(kept, high.1))
    }

    fn raise(&mut self, (rank, node): (u32, u32)) -> Option<bool> {
        self.swap(node, word(rank, node), word(rank + 1, node))
    }

    /// The root above the linked x is to have a higher rank than x.
    fn tidy(&mut self, x: u32, y: u32) -> Option<bool> {
        let root = self.find(if self.turn == Turn::TidyingFromY { y } else { x })?;
        let rank = rank(self.read(if self.turn == Turn::RankOfYRead { y } else { x })?);
        self.raise((rank, root))
    }

    fn find(&mut self, mut x: u32) -> Option<u32> {
        loop {
            let own = self.read(x)?;
            let t = parent(own);
            if t == x {
                return Some(x);
            }
            let u = parent(self.read(t)?);
            if u != t || self.turn != Turn::HalvingSkippedAtRoot {
                self.swap(x, own, word(rank(own), u))?;
            }
            let again = parent(self.read(t)?);
            x = if self.turn == Turn::ParentReadBeforeSwap { u } else { again };
        }
    }

    fn read(&mut self, node: u32) -> Option<u32> {
        self.access(node, Deed::Read).map(|access| access.seen)
    }

    fn swap(&mut self, node: u32, expected: u32, new: u32) -> Option<bool> {
        self.access(node, Deed::Swap { expected, new }).map(|access| access.wrote())
    }

    fn access(&mut self, node: u32, deed: Deed) -> Option<Access> {
        if self.at == self.work.past.len() {
            let seen = self.table[node as usize];
            let mut access = Access { node, seen, deed, ..self.grant.take()? };
            if self.turn == Turn::LinkAtAnyRank && access.tries_link() && parent(seen) == node {
                let Deed::Swap { new, .. } = deed else {
                    return None;
                };
                access.deed = Deed::Swap { expected: seen, new };
            }
            if let (true, Deed::Swap { new, .. }) = (access.wrote(), access.deed) {
                self.table[node as usize] = new;
            }
            self.work.past.push(access);
        }
        self.at += 1;
        Some(self.work.past[self.at - 1])
    }
}
