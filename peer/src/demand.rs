//! Holds a result against what documents 01 and 02 demand of whole runs, sentence by sentence.
//!
//! A run is told by its trace of accesses. Nothing here knows the stages of a head: a link is
//! known as a written swap of a root's word to another parent, and a union's tidying up by its last
//! three accesses.

use std::collections::VecDeque;

use crate::head::{Access, Deed};
use crate::job::{Job, Kind, Wait};
use crate::limits;
use crate::numbers::answer;
use crate::player::Outcome;
use crate::replay::Book;
use crate::word::{before, parent, rank, word};

/// `Err` has the sentence that does not hold.
pub type Verdict = Result<(), &'static str>;

/// Checks the outcome of a job against its trace.
pub fn check(job: &Job, trace: &[Access], outcome: &Outcome) -> Verdict {
    let run = Run::new(job, trace, outcome);
    run.counts()?;
    run.trace_leaves_the_table()?;
    run.report()?;
    run.tally()?;
    run.forest()?;
    run.entries()?;
    run.tidied()?;
    run.points()?;
    run.real_time_order()?;
    run.waited()?;
    run.idle_for_a_reason()?;
    run.limits()?;
    run.replay()
}

fn hold(condition: bool, sentence: &'static str) -> Verdict {
    condition.then_some(()).ok_or(sentence)
}

/// A request's own part of the trace.
#[derive(Clone, Default)]
struct Own {
    grants: Vec<u32>,
    accesses: Vec<Access>,
    links: Vec<Access>,
}

/// A request's four report numbers.
#[derive(Clone, Copy)]
struct Numbers {
    answer: u32,
    first: u32,
    last: u32,
    used: u32,
}

struct Entry {
    point: u32,
    request: usize,
}

struct Run<'a> {
    job: &'a Job,
    trace: &'a [Access],
    outcome: &'a Outcome,
    own: Vec<Own>,
    report: Vec<Numbers>,
    lineup: Vec<Entry>,
}

impl<'a> Run<'a> {
    fn new(job: &'a Job, trace: &'a [Access], outcome: &'a Outcome) -> Self {
        let mut own = vec![Own::default(); job.requests.len()];
        for access in trace {
            let own = &mut own[access.request];
            own.grants.push(access.grant);
            own.accesses.push(*access);
            if access.wrote() && access.tries_link() {
                own.links.push(*access);
            }
        }
        let numbers = |n: &[u32]| Numbers { answer: n[0], first: n[1], last: n[2], used: n[3] };
        let entry = |n: &[u32]| Entry { point: n[0], request: n[1] as usize };
        let report = outcome.report.chunks_exact(4).map(numbers).take(job.requests.len());
        let lineup = outcome.lineup.chunks_exact(2).map(entry);
        let lineup = lineup.take(outcome.played.entries as usize).collect();
        Run { job, trace, outcome, own, report: report.collect(), lineup }
    }

    fn counts(&self) -> Verdict {
        let played = &self.outcome.played;
        hold(played.number == 0, "the job is accepted")?;
        hold(played.nodes == self.job.nodes, "the nodes are the job's")?;
        hold(played.heads == self.job.heads, "the heads are the job's")?;
        hold(played.requests as usize == self.job.requests.len(), "the requests are the job's")?;
        hold(played.grants as usize == self.job.grants.len(), "the grants are the job's")?;
        hold(self.lineup.len() == played.entries as usize, "the entries are within the line-up")?;
        hold(self.outcome.rest_as_lent(), "numbers past the used parts stay")
    }

    /// Each grant finds what the grant before it left.
    fn trace_leaves_the_table(&self) -> Verdict {
        let mut table: Vec<u32> = (0..self.job.nodes).collect();
        let mut previous = 0;
        for access in self.trace {
            let own = &mut table[access.node as usize];
            hold(previous < access.grant, "a grant makes one access")?;
            hold(*own == access.seen, "an access sees the word that stands")?;
            let granted = self.job.grants.get(access.grant as usize - 1);
            hold(granted == Some(&access.head), "an access is made by the head granted")?;
            if let (true, Deed::Swap { new, .. }) = (access.wrote(), access.deed) {
                *own = new;
            }
            previous = access.grant;
        }
        hold(self.outcome.table[..table.len()] == table, "the table is what the writes left")
    }

    fn report(&self) -> Verdict {
        let mut over = vec![0; self.job.heads as usize];
        let rows = self.job.requests.iter().zip(&self.own).zip(&self.report);
        for ((request, own), numbers) in rows {
            let first = own.grants.first().copied().unwrap_or(0);
            let last = own.grants.last().copied().unwrap_or(0);
            let finished = numbers.answer != answer::UNFINISHED;
            hold(numbers.first == first, "the first grant is the request's first")?;
            hold(numbers.used as usize == own.grants.len(), "the grants used are the request's")?;
            hold(numbers.last == if finished { last } else { 0 }, "the last grant ends it, or 0")?;
            hold(!finished || first != 0, "nothing ends before it begins")?;
            let over = &mut over[usize::from(request.head)];
            hold(first == 0 || *over < first, "a head's requests are in file order")?;
            *over = if finished { last } else { u32::MAX };
        }
        Ok(())
    }

    fn tally(&self) -> Verdict {
        let tally = &self.outcome.played.tally;
        let idle = self.job.grants.len() - self.trace.len();
        let failed = self.trace.iter().filter(|access| access.failed()).count();
        let links: usize = self.own.iter().map(|own| own.links.len()).sum();
        let rows = self.job.requests.iter().zip(&self.report);
        let unfinished = rows.filter(|(_, numbers)| numbers.answer == answer::UNFINISHED);
        let working = unfinished.fold(0u32, |mask, (request, _)| mask | 1 << request.head);
        hold(tally.idle as usize == idle, "grants without an access are idle")?;
        hold(tally.failed as usize == failed, "swaps that did not write have failed")?;
        hold(tally.links as usize == links, "links are counted")?;
        hold(tally.working == working.count_ones(), "working heads have unfinished requests")
    }

    fn forest(&self) -> Verdict {
        let nodes = self.job.nodes;
        let table = &self.outcome.table;
        let mut roots = 0;
        for node in 0..nodes {
            let own = table[node as usize];
            let up = parent(own);
            hold(up < nodes, "a parent is a node")?;
            let of_parent = rank(table[up as usize]);
            let after = before(rank(own), node, of_parent, up);
            hold(up == node || after, "a parent comes after its child")?;
            hold(rank(own) <= nodes.ilog2(), "no rank exceeds the logarithm of the nodes")?;
            roots += u32::from(up == node);
        }
        hold(roots + self.outcome.played.tally.links == nodes, "roots plus links are the nodes")
    }

    /// Finished requests are in it once, unfinished ones exactly if they have linked.
    fn entries(&self) -> Verdict {
        let mut times = vec![0; self.job.requests.len()];
        for entry in &self.lineup {
            hold(entry.request < times.len(), "an entry names a request")?;
            times[entry.request] += 1;
        }
        for ((numbers, own), times) in self.report.iter().zip(&self.own).zip(times) {
            let linked = own.links.len();
            hold(linked <= 1, "a request links at most once")?;
            match numbers.answer {
                answer::UNFINISHED => {
                    hold(times == linked, "an unfinished request is entered if it has linked")?;
                }
                answer::JOINED => {
                    hold(linked == 1, "joined says that it has linked")?;
                    hold(times == 1, "a finished request is entered once")?;
                }
                _ => {
                    hold(linked == 0, "only unions that join have linked")?;
                    hold(times == 1, "a finished request is entered once")?;
                }
            }
        }
        Ok(())
    }

    /// A union that joined has at last read a root above the node that it linked, then that node,
    /// and tried to raise the root from that node's rank to one more.
    fn tidied(&self) -> Verdict {
        let joined = |row: &(&Own, &Numbers)| row.1.answer == answer::JOINED;
        for (own, _) in self.own.iter().zip(&self.report).filter(joined) {
            let ([link], [.., end, of_linked, last]) = (&own.links[..], &own.accesses[..]) else {
                return Err("a union that joined has linked and tidied up");
            };
            let read_linked = of_linked.deed == Deed::Read && of_linked.node == link.node;
            hold(read_linked, "a union reads the linked node before its last swap")?;
            let read_root = end.deed == Deed::Read && parent(end.seen) == end.node;
            hold(read_root && end.node == last.node, "its last swap is of a root that it met")?;
            let (from, root) = (rank(of_linked.seen), end.node);
            let raise = Deed::Swap { expected: word(from, root), new: word(from + 1, root) };
            hold(last.deed == raise, "its last swap is from the linked node's rank to one more")?;
            hold(self.root(root) == self.root(link.node), "the root is above the linked node")?;
        }
        Ok(())
    }

    /// Points rise, lie within their requests and are where document 01 puts them.
    fn points(&self) -> Verdict {
        let rising = self.lineup.windows(2).all(|pair| pair[0].point < pair[1].point);
        hold(rising, "points rise")?;
        for entry in &self.lineup {
            let own = &self.own[entry.request];
            let grants = &own.grants;
            hold(grants.binary_search(&entry.point).is_ok(), "a point is a grant of its request")?;
            let place = match self.report[entry.request].answer {
                answer::UNFINISHED | answer::JOINED => own.links.last().map(|link| &link.grant),
                answer::NO => grants.iter().rev().nth(1),
                _ => grants.last(),
            };
            hold(place == Some(&entry.point), "a point is where the rules put it")?;
        }
        Ok(())
    }

    /// What ended before another began stands before it.
    fn real_time_order(&self) -> Verdict {
        let mut latest_first = 0;
        for entry in &self.lineup {
            let Numbers { first, last, .. } = self.report[entry.request];
            latest_first = latest_first.max(first);
            hold(last == 0 || latest_first <= last, "what ended first stands first")?;
        }
        Ok(())
    }

    /// Every request that has begun stands after those that it waits for.
    fn waited(&self) -> Verdict {
        let mut points = vec![None; self.job.requests.len()];
        for entry in &self.lineup {
            points[entry.request] = Some(entry.point);
        }
        for wait in &self.job.waits {
            let (later, earlier) = (wait.later as usize, wait.earlier as usize);
            let (of_later, of_earlier) = (self.report[later], self.report[earlier]);
            // No point is below every point, so the earlier request has to have one.
            let stands = points[earlier].is_some() && points[earlier] < points[later];
            let unfinished = of_later.answer == answer::UNFINISHED;
            hold(unfinished || stands, "what waited stands after what it waited for")?;
            let ended = of_earlier.answer != answer::UNFINISHED;
            let after = ended && of_earlier.last < of_later.first;
            hold(of_later.first == 0 || after, "what waits begins after what it waits for ends")?;
        }
        Ok(())
    }

    /// A grant makes no access only where its head has no work left, or rests and waits.
    fn idle_for_a_reason(&self) -> Verdict {
        let busy = |now: &u32| self.trace.binary_search_by_key(now, |access| access.grant).is_ok();
        let mut left: Vec<VecDeque<usize>> = vec![VecDeque::new(); self.job.heads as usize];
        for (number, request) in self.job.requests.iter().enumerate() {
            left[usize::from(request.head)].push_back(number);
        }
        let ended = |number: usize, now: u32| (1..=now).contains(&self.report[number].last);
        for (now, &head) in (1..).zip(&self.job.grants).filter(|(now, _)| !busy(now)) {
            let left = &mut left[usize::from(head)];
            while left.front().is_some_and(|&next| ended(next, now)) {
                left.pop_front();
            }
            let Some(&next) = left.front() else {
                continue;
            };
            let rests = self.report[next].first == 0 || self.report[next].first > now;
            hold(rests, "a request under way takes every grant of its head")?;
            let own = |wait: &&Wait| wait.later as usize == next;
            let open = |wait: &Wait| !ended(wait.earlier as usize, now);
            let waits = self.job.waits.iter().filter(own).any(open);
            hold(waits, "a head with work left is idle only where it waits")?;
        }
        Ok(())
    }

    /// A request ends within so many of its own grants. That holds of every cut, too: a request has
    /// fewer grants there, or is as it is here. Since it takes every grant of its head on its way,
    /// it ends once its head has had them.
    fn limits(&self) -> Verdict {
        for (request, numbers) in self.job.requests.iter().zip(&self.report) {
            let limit = limits::of(request.kind, self.job.nodes);
            let finished = numbers.answer != answer::UNFINISHED;
            hold(numbers.used <= limit, "no request uses more grants than its limit")?;
            hold(finished || numbers.used < limit, "a request that used its limit is finished")?;
        }
        Ok(())
    }

    /// The book, handed the line-up, gives the same answers and the same sets.
    fn replay(&self) -> Verdict {
        let mut book = Book::new(self.job.nodes);
        for entry in &self.lineup {
            let request = &self.job.requests[entry.request];
            let told = match self.report[entry.request].answer {
                answer::UNFINISHED => answer::JOINED,
                told => told,
            };
            let of_kind = match request.kind {
                Kind::Union => told == answer::JOINED || told == answer::TOGETHER,
                Kind::SameSet => told == answer::YES || told == answer::NO,
            };
            hold(of_kind, "an answer is one of its kind")?;
            hold(book.take(request) == told, "the book gives the same answer")?;
        }
        let mut set_of_root = vec![None; self.job.nodes as usize];
        let mut root_of_set = set_of_root.clone();
        for node in 0..self.job.nodes {
            let (set, root) = (book.set_of(node), self.root(node));
            let set_there = *set_of_root[root as usize].get_or_insert(set);
            let root_there = *root_of_set[set as usize].get_or_insert(root);
            hold(set_there == set, "one group in the table is one set in the book")?;
            hold(root_there == root, "one set in the book is one group in the table")?;
        }
        Ok(())
    }

    /// Where following parents leads; `forest` is checked before.
    fn root(&self, mut node: u32) -> u32 {
        while parent(self.outcome.table[node as usize]) != node {
            node = parent(self.outcome.table[node as usize]);
        }
        node
    }
}
