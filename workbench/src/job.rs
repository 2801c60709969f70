//! A job: what a file means, and what the writer is given.

use grouping_core::{write, Refusal, MAY_BOTH, MAY_ENQUIRE, MAY_JOIN, MOST_FILE, SAME_SET, UNION};

use crate::cut::Cut;

/// Words for the numbers of a field of the job file.
pub type Words = [(&'static str, u32)];

/// What a request asks.
pub const KINDS: &Words = &[("union", UNION), ("same-set", SAME_SET)];
/// What a head may ask.
pub const RIGHTS: &Words = &[("join", MAY_JOIN), ("enquire", MAY_ENQUIRE), ("both", MAY_BOTH)];

/// The word for a number that an accepted job has.
pub fn word_for(number: u32, words: &Words) -> &'static str {
    let found = words.iter().find(|&&(_, of)| of == number);
    found.expect("an accepted job has no other number").0
}

/// What a head may ask, and the heads that it may see, a bit each.
#[derive(Clone, Copy, Debug, PartialEq, Eq)]
pub struct Right {
    pub head: u32,
    pub rights: u32,
    pub sight: u32,
}

#[derive(Clone, Copy, Debug, PartialEq, Eq)]
pub struct Request {
    pub head: u32,
    pub kind: u32,
    pub x: u32,
    pub y: u32,
}

impl Request {
    pub fn places(&self) -> [usize; 2] {
        [self.x as usize, self.y as usize]
    }

    /// What it asks, in words: `union 2 3`.
    pub fn words(&self) -> String {
        format!("{} {} {}", word_for(self.kind, KINDS), self.x, self.y)
    }
}

/// The later request waits for the earlier one.
#[derive(Clone, Copy, Debug, PartialEq, Eq)]
pub struct Wait {
    pub later: u32,
    pub earlier: u32,
}

/// `rights` has none or one a head, `grants` one head number a grant.
#[derive(Clone, Debug, Default, PartialEq, Eq)]
pub struct Job {
    pub places: u32,
    pub heads: u32,
    pub rights: Vec<Right>,
    pub requests: Vec<Request>,
    pub waits: Vec<Wait>,
    pub grants: Vec<u8>,
}

impl Job {
    /// What a file means, or the core's refusal of it.
    ///
    /// # Errors
    /// The refusal.
    pub fn read(file: &[u8]) -> Result<Job, Refusal> {
        Cut::left_by(file)?;
        Ok(meaning(file))
    }

    /// The job's file, by the proved writer, or its refusal.
    ///
    /// # Errors
    /// The refusal.
    pub fn file(&self) -> Result<Vec<u8>, Refusal> {
        self.file_of(self.grants.len())
    }

    /// The file of the same job with only its first grants.
    ///
    /// # Errors
    /// The writer's refusal.
    pub fn file_of(&self, grants: usize) -> Result<Vec<u8>, Refusal> {
        let rights: Vec<u32> =
            self.rights.iter().flat_map(|right| [right.head, right.rights, right.sight]).collect();
        let four = |request: &Request| [request.head, request.kind, request.x, request.y];
        let requests: Vec<u32> = self.requests.iter().flat_map(four).collect();
        let waits: Vec<u32> =
            self.waits.iter().flat_map(|wait| [wait.later, wait.earlier]).collect();
        let grants = &self.grants[..grants];
        let mut file = vec![0; MOST_FILE];
        let written = write(self.places, self.heads, &rights, &requests, &waits, grants, &mut file)
            .result()?;
        file.truncate(written.bytes as usize);
        Ok(file)
    }

    /// The request of this number, in words: `request 0, union 2 3`.
    pub fn request_words(&self, request: usize) -> String {
        format!("request {request}, {}", self.requests[request].words())
    }
}

/// What an accepted file says, record by record.
fn meaning(file: &[u8]) -> Job {
    let two = |low, high| u32::from(u16::from_le_bytes([low, high]));
    let mut job = Job::default();
    let mut rest = file;
    loop {
        let length = match *rest {
            [b'D', b'K', places, places_high, heads, heads_high, ..] => {
                (job.places, job.heads) = (two(places, places_high), two(heads, heads_high));
                6
            }
            [b'R', b'T', head, rights, a, b, c, d, ..] => {
                let sight = u32::from_le_bytes([a, b, c, d]);
                job.rights.push(Right { head: head.into(), rights: rights.into(), sight });
                8
            }
            [b'R', b'Q', head, kind, x, x_high, y, y_high, ..] => {
                let (x, y) = (two(x, x_high), two(y, y_high));
                job.requests.push(Request { head: head.into(), kind: kind.into(), x, y });
                8
            }
            [b'A', b'F', later, later_high, earlier, earlier_high, ..] => {
                let (later, earlier) = (two(later, later_high), two(earlier, earlier_high));
                job.waits.push(Wait { later, earlier });
                6
            }
            [b'G', b'R', head, run, ..] => {
                job.grants.extend(vec![head; run.into()]);
                4
            }
            // The close is the last.
            _ => return job,
        };
        rest = &rest[length..];
    }
}
