//! Job files: checked and read in document 01's order, with document 02's rights and pairs, and
//! written.

use crate::numbers::refusal;

pub const MAX_BYTES: usize = 32_768;
pub const MAX_NODES: u32 = 4_096;
pub const MAX_HEADS: u32 = 32;
pub const MAX_REQUESTS: usize = 512;
pub const MAX_RUN: usize = 255;

pub const OPENING_MARK: &[u8] = b"DK";
pub const RIGHT_MARK: &[u8] = b"RT";
pub const REQUEST_MARK: &[u8] = b"RQ";
pub const WAIT_MARK: &[u8] = b"AF";
pub const RUN_MARK: &[u8] = b"GR";
pub const CLOSE_MARK: &[u8] = b"CL";

/// Bytes of each record, its mark included.
pub const OPENING: usize = 6;
pub const RIGHT: usize = 8;
pub const REQUEST: usize = 8;
pub const WAIT: usize = 6;
pub const RUN: usize = 4;
pub const CLOSE: usize = 4;

#[derive(Clone, Copy, Debug, PartialEq, Eq)]
pub enum Kind {
    Union = 1,
    SameSet = 2,
}

#[derive(Clone, Copy, Debug, PartialEq, Eq)]
pub struct Request {
    pub head: u8,
    pub kind: Kind,
    pub x: u32,
    pub y: u32,
}

impl Request {
    pub fn union(head: u8, x: u32, y: u32) -> Request {
        Request { head, kind: Kind::Union, x, y }
    }

    pub fn same_set(head: u8, x: u32, y: u32) -> Request {
        Request { head, kind: Kind::SameSet, x, y }
    }
}

/// What a head may ask (1 join, 2 enquire, 3 both), and the heads whose requests it may see, a bit
/// each.
#[derive(Clone, Copy, Debug, PartialEq, Eq)]
pub struct Right {
    pub kinds: u32,
    pub sight: u32,
}

impl Right {
    /// What a head has where there are no records of rights.
    pub const EVERY: Right = Right { kinds: 3, sight: u32::MAX };

    pub fn sees(self, head: u8) -> bool {
        self.sight & (1 << head) != 0
    }
}

/// A pair: the later request waits for the earlier one. Pairs are ordered by the later request,
/// then by the earlier one, as a file has them.
#[derive(Clone, Copy, Debug, PartialEq, Eq, PartialOrd, Ord)]
pub struct Wait {
    pub later: u32,
    pub earlier: u32,
}

/// What a file means: `rights` has none or one a head, `grants` one head number a grant.
#[derive(Clone, Debug, PartialEq, Eq)]
pub struct Job {
    pub nodes: u32,
    pub heads: u32,
    pub rights: Vec<Right>,
    pub requests: Vec<Request>,
    pub waits: Vec<Wait>,
    pub grants: Vec<u8>,
}

/// What the writer is given, as numbers: of each record of rights head, kinds and sight, of each
/// request head, kind, x and y, of each pair the later and the earlier request.
#[derive(Clone, Debug, PartialEq, Eq)]
pub struct Draft {
    pub nodes: u32,
    pub heads: u32,
    pub rights: Vec<u32>,
    pub requests: Vec<u32>,
    pub waits: Vec<u32>,
    pub grants: Vec<u8>,
}

/// The counts of an accepted file.
#[derive(Clone, Copy, Debug, Default, PartialEq, Eq)]
pub struct Shape {
    pub nodes: u32,
    pub heads: u32,
    pub rights: usize,
    pub requests: usize,
    pub waits: usize,
    pub grants: u32,
}

/// Where the sections of its file begin.
impl Shape {
    pub fn requests_at(&self) -> usize {
        OPENING + RIGHT * self.rights
    }

    pub fn waits_at(&self) -> usize {
        self.requests_at() + REQUEST * self.requests
    }

    pub fn runs_at(&self) -> usize {
        self.waits_at() + WAIT * self.waits
    }
}

#[derive(Clone, Copy, Debug, PartialEq, Eq)]
pub struct Written {
    pub number: u32,
    pub bytes: u32,
}

impl Job {
    /// A job without rights and pairs, with its schedule as heads, each with its number of grants.
    pub fn new(nodes: u32, heads: u32, requests: &[Request], runs: &[(u8, usize)]) -> Job {
        let grants = runs.iter().flat_map(|&(head, run)| vec![head; run]).collect();
        let (rights, waits) = (Vec::new(), Vec::new());
        Job { nodes, heads, rights, requests: requests.to_vec(), waits, grants }
    }

    /// The same job with these rights, kinds and sight of each head in turn.
    pub fn entitled(self, rights: &[(u32, u32)]) -> Job {
        let right = |&(kinds, sight): &(u32, u32)| Right { kinds, sight };
        Job { rights: rights.iter().map(right).collect(), ..self }
    }

    /// The same job with these pairs, a later and an earlier request each.
    pub fn waiting(self, pairs: &[(u32, u32)]) -> Job {
        let wait = |&(later, earlier): &(u32, u32)| Wait { later, earlier };
        Job { waits: pairs.iter().map(wait).collect(), ..self }
    }

    /// The same job with only its first grants.
    pub fn cut(&self, grants: usize) -> Job {
        Job { grants: self.grants[..grants].to_vec(), ..self.clone() }
    }

    /// The counts of its file.
    pub fn shape(&self) -> Shape {
        Shape {
            nodes: self.nodes,
            heads: self.heads,
            rights: self.rights.len(),
            requests: self.requests.len(),
            waits: self.waits.len(),
            grants: self.grants.len() as u32,
        }
    }

    /// What the writer is given for it.
    pub fn draft(&self) -> Draft {
        let rights = (0..).zip(&self.rights).flat_map(|(head, r)| [head, r.kinds, r.sight]);
        let four = |r: &Request| [u32::from(r.head), r.kind as u32, r.x, r.y];
        Draft {
            nodes: self.nodes,
            heads: self.heads,
            rights: rights.collect(),
            requests: self.requests.iter().flat_map(four).collect(),
            waits: self.waits.iter().flat_map(|wait| [wait.later, wait.earlier]).collect(),
            grants: self.grants.clone(),
        }
    }

    /// The job's file, or the number it is refused with.
    pub fn file(&self) -> Result<Vec<u8>, u32> {
        let mut buffer = vec![0; MAX_BYTES];
        let Draft { nodes, heads, rights, requests, waits, grants } = self.draft();
        let written = write(nodes, heads, &rights, &requests, &waits, &grants, &mut buffer);
        buffer.truncate(written.bytes as usize);
        match written.number {
            refusal::NONE => Ok(buffer),
            number => Err(number),
        }
    }
}

/// The meaning of a file, or its refusal.
pub fn read(file: &[u8]) -> Result<Job, u32> {
    let shape = check(file)?;
    let grants = runs(file, &shape).flat_map(|(head, run)| vec![head; run as usize]);
    Ok(Job {
        nodes: shape.nodes,
        heads: shape.heads,
        rights: (0..shape.rights as u32).map(|head| right_of(file, &shape, head)).collect(),
        requests: (0..shape.requests).map(|number| request_at(file, &shape, number)).collect(),
        waits: wait_records(file, &shape).iter().map(|record| wait_of(record)).collect(),
        grants: grants.collect(),
    })
}

/// Everything that is checked of a file before lent buffers are looked at.
pub fn check(file: &[u8]) -> Result<Shape, u32> {
    refuse_if(file.len() > MAX_BYTES, refusal::FILE_TOO_LONG)?;
    let mut shape = check_opening(file)?;
    check_rights(file, &mut shape)?;
    check_requests(file, &mut shape)?;
    check_waits(file, &mut shape)?;
    let close = check_runs(file, &mut shape)?;
    refuse_if(mark(file, close)? != CLOSE_MARK, refusal::WRONG_MARK)?;
    record(file, close, CLOSE)?;
    refuse_if(file.len() > close + CLOSE, refusal::AFTER_CLOSE)?;
    refuse_if(sum(file) != 0, refusal::BALANCE)?;
    Ok(shape)
}

fn check_opening(file: &[u8]) -> Result<Shape, u32> {
    refuse_if(mark(file, 0)? != OPENING_MARK, refusal::WRONG_MARK)?;
    let record = record(file, 0, OPENING)?;
    let (nodes, heads) = (field(record, 2), field(record, 4));
    check_sizes(nodes, heads)?;
    Ok(Shape { nodes, heads, ..Shape::default() })
}

/// None at all, or one for each head.
fn check_rights(file: &[u8], shape: &mut Shape) -> Result<(), u32> {
    if mark(file, OPENING)? != RIGHT_MARK {
        return Ok(());
    }
    for number in 0..shape.heads {
        let at = shape.requests_at();
        refuse_if(mark(file, at)? != RIGHT_MARK, refusal::WRONG_MARK)?;
        check_right(right_fields(record(file, at, RIGHT)?), number, shape.heads)?;
        shape.rights += 1;
    }
    Ok(())
}

fn check_requests(file: &[u8], shape: &mut Shape) -> Result<(), u32> {
    let mut at = shape.requests_at();
    while mark(file, at)? == REQUEST_MARK {
        let request = request_fields(record(file, at, REQUEST)?);
        refuse_if(shape.requests == MAX_REQUESTS, refusal::TOO_MANY_REQUESTS)?;
        let kinds_of = |head| right_of(file, shape, head).kinds;
        check_request(request, shape.nodes, shape.heads, kinds_of)?;
        shape.requests += 1;
        at += REQUEST;
    }
    Ok(())
}

fn check_waits(file: &[u8], shape: &mut Shape) -> Result<(), u32> {
    let mut at = shape.waits_at();
    let mut before = None;
    while mark(file, at)? == WAIT_MARK {
        let wait = wait_of(record(file, at, WAIT)?);
        check_wait(wait, before, shape.requests)?;
        before = Some(wait);
        shape.waits += 1;
        at += WAIT;
    }
    Ok(())
}

/// Gives the place behind the last run.
fn check_runs(file: &[u8], shape: &mut Shape) -> Result<usize, u32> {
    let mut at = shape.runs_at();
    let mut previous = None;
    while mark(file, at)? == RUN_MARK {
        previous = Some(check_run(record(file, at, RUN)?, previous, shape)?);
        at += RUN;
    }
    Ok(at)
}

// Sizes, rights, requests and pairs are checked alike in a file and in what the writer is given.

fn check_sizes(nodes: u32, heads: u32) -> Result<(), u32> {
    refuse_if(!(1..=MAX_NODES).contains(&nodes), refusal::NODES)?;
    refuse_if(!(1..=MAX_HEADS).contains(&heads), refusal::HEADS)
}

/// The record of rights of this number.
fn check_right([head, kinds, sight]: [u32; 3], number: u32, heads: u32) -> Result<(), u32> {
    refuse_if(head != number, refusal::RIGHTS)?;
    refuse_if(!(1..=3).contains(&kinds), refusal::RIGHTS)?;
    // Of 32 heads every bit is a head's.
    refuse_if(heads < MAX_HEADS && sight >> heads != 0, refusal::RIGHTS)
}

fn check_request(
    [head, kind, x, y]: [u32; 4],
    nodes: u32,
    heads: u32,
    kinds_of: impl Fn(u32) -> u32,
) -> Result<(), u32> {
    refuse_if(head >= heads, refusal::REQUEST_HEAD)?;
    refuse_if(!(1..=2).contains(&kind), refusal::REQUEST_KIND)?;
    refuse_if(x >= nodes, refusal::REQUEST_NODE)?;
    refuse_if(y >= nodes, refusal::REQUEST_NODE)?;
    // The rights to one kind of request have its number.
    let kinds = kinds_of(head);
    refuse_if(kinds != kind && kinds != Right::EVERY.kinds, refusal::REQUEST_RIGHTS)
}

/// A pair behind the pair before it, beside so many requests.
fn check_wait(wait: Wait, before: Option<Wait>, requests: usize) -> Result<(), u32> {
    let exists = |number: u32| (number as usize) < requests;
    refuse_if(!exists(wait.later) || !exists(wait.earlier), refusal::WAIT)?;
    refuse_if(wait.earlier >= wait.later, refusal::WAIT)?;
    refuse_if(before.is_some_and(|before| before >= wait), refusal::WAIT)
}

fn check_run(
    record: &[u8],
    previous: Option<(u8, u8)>,
    shape: &mut Shape,
) -> Result<(u8, u8), u32> {
    let (head, run) = (record[2], record[3]);
    refuse_if(u32::from(head) >= shape.heads, refusal::GRANT)?;
    refuse_if(run == 0, refusal::GRANT)?;
    let split = previous.is_some_and(|(before, length)| before == head && length < 255);
    refuse_if(split, refusal::SPLIT_RUN)?;
    shape.grants += u32::from(run);
    Ok((head, run))
}

/// What a head may ask and see, of a file whose rights are accepted.
pub fn right_of(file: &[u8], shape: &Shape, head: u32) -> Right {
    if shape.rights == 0 {
        return Right::EVERY;
    }
    let [_, kinds, sight] = right_fields(&file[OPENING + RIGHT * head as usize..][..RIGHT]);
    Right { kinds, sight }
}

fn right_fields(record: &[u8]) -> [u32; 3] {
    let sight = u32::from_le_bytes([record[4], record[5], record[6], record[7]]);
    [record[2].into(), record[3].into(), sight]
}

/// A request of an accepted file.
pub fn request_at(file: &[u8], shape: &Shape, number: usize) -> Request {
    let record = &file[shape.requests_at() + REQUEST * number..][..REQUEST];
    let kind = if record[3] == 1 { Kind::Union } else { Kind::SameSet };
    Request { head: record[2], kind, x: field(record, 4), y: field(record, 6) }
}

fn request_fields(record: &[u8]) -> [u32; 4] {
    [record[2].into(), record[3].into(), field(record, 4), field(record, 6)]
}

/// The pairs' records of an accepted file.
fn wait_records<'a>(file: &'a [u8], shape: &Shape) -> &'a [[u8; WAIT]] {
    file[shape.waits_at()..][..WAIT * shape.waits].as_chunks().0
}

fn wait_of(record: &[u8]) -> Wait {
    Wait { later: field(record, 2), earlier: field(record, 4) }
}

/// The requests that a request of an accepted file waits for, rising.
pub fn waited_for<'a>(
    file: &'a [u8],
    shape: &Shape,
    request: usize,
) -> impl Iterator<Item = usize> + 'a {
    let (later, records) = (request as u32, wait_records(file, shape));
    // Pairs rise, so those of one request stand together.
    let first = records.partition_point(|record| wait_of(record).later < later);
    let own = records[first..]
        .iter()
        .map(|record| wait_of(record))
        .take_while(move |wait| wait.later == later);
    own.map(|wait| wait.earlier as usize)
}

/// The runs of an accepted file: head and length of each.
pub fn runs<'a>(file: &'a [u8], shape: &Shape) -> impl Iterator<Item = (u8, u8)> + 'a {
    let records = &file[shape.runs_at()..file.len() - CLOSE];
    records.chunks_exact(RUN).map(|record| (record[2], record[3]))
}

/// The sum of a file's 16-bit words, carries dropped.
pub fn sum(file: &[u8]) -> u16 {
    let words = file.chunks_exact(2).map(|pair| u16::from_le_bytes([pair[0], pair[1]]));
    words.fold(0, u16::wrapping_add)
}

fn mark(file: &[u8], at: usize) -> Result<&[u8], u32> {
    file.get(at..at + 2).ok_or(refusal::FILE_ENDS_EARLY)
}

fn record(file: &[u8], at: usize, length: usize) -> Result<&[u8], u32> {
    file.get(at..at + length).ok_or(refusal::FILE_ENDS_EARLY)
}

fn field(record: &[u8], at: usize) -> u32 {
    u32::from(u16::from_le_bytes([record[at], record[at + 1]]))
}

fn refuse_if(condition: bool, number: u32) -> Result<(), u32> {
    if condition {
        Err(number)
    } else {
        Ok(())
    }
}

/// Writes the file that means these six into the front of `buffer`. Rights are three numbers each
/// (head, kinds, sight), requests four (head, kind, x, y), pairs two (later, earlier); a rest of
/// fewer is no record.
pub fn write(
    nodes: u32,
    heads: u32,
    rights: &[u32],
    requests: &[u32],
    waits: &[u32],
    grants: &[u8],
    buffer: &mut [u8],
) -> Written {
    let (rights, requests, waits) =
        (rights.as_chunks().0, requests.as_chunks().0, waits.as_chunks().0);
    let records = Records { nodes, heads, rights, requests, waits, grants };
    match records.check(buffer.len()) {
        Err(number) => Written { number, bytes: 0 },
        Ok(bytes) => {
            records.fill(&mut buffer[..bytes]);
            Written { number: refusal::NONE, bytes: bytes as u32 }
        }
    }
}

/// What the writer is given, record by record.
struct Records<'a> {
    nodes: u32,
    heads: u32,
    rights: &'a [[u32; 3]],
    requests: &'a [[u32; 4]],
    waits: &'a [[u32; 2]],
    grants: &'a [u8],
}

impl Records<'_> {
    /// The length of the file to be written.
    fn check(&self, room: usize) -> Result<usize, u32> {
        check_sizes(self.nodes, self.heads)?;
        self.check_rights()?;
        refuse_if(self.requests.len() > MAX_REQUESTS, refusal::TOO_MANY_REQUESTS)?;
        let kinds_of = |head| match self.rights {
            [] => Right::EVERY.kinds,
            rights => rights[head as usize][1],
        };
        for &request in self.requests {
            check_request(request, self.nodes, self.heads, kinds_of)?;
        }
        let mut before = None;
        for &[later, earlier] in self.waits {
            let wait = Wait { later, earlier };
            check_wait(wait, before, self.requests.len())?;
            before = Some(wait);
        }
        for &head in self.grants {
            refuse_if(u32::from(head) >= self.heads, refusal::GRANT)?;
        }
        let bytes = self.bytes();
        refuse_if(bytes > MAX_BYTES, refusal::FILE_TOO_LONG)?;
        refuse_if(bytes > room, refusal::BUFFER_TOO_SHORT)?;
        Ok(bytes)
    }

    fn check_rights(&self) -> Result<(), u32> {
        let one_a_head = self.rights.len() == self.heads as usize;
        refuse_if(!self.rights.is_empty() && !one_a_head, refusal::RIGHTS)?;
        for (number, &right) in (0..).zip(self.rights) {
            check_right(right, number, self.heads)?;
        }
        Ok(())
    }

    fn bytes(&self) -> usize {
        let runs = longest_runs(self.grants).count();
        let records = RIGHT * self.rights.len() + REQUEST * self.requests.len();
        OPENING + records + WAIT * self.waits.len() + RUN * runs + CLOSE
    }

    fn fill(&self, file: &mut [u8]) {
        let mut at = 0;
        let mut put = |bytes: &[u8]| {
            file[at..at + bytes.len()].copy_from_slice(bytes);
            at += bytes.len();
        };
        let two = |number: u32| (number as u16).to_le_bytes();
        put(OPENING_MARK);
        put(&two(self.nodes));
        put(&two(self.heads));
        for &[head, kinds, sight] in self.rights {
            put(RIGHT_MARK);
            put(&[head as u8, kinds as u8]);
            put(&sight.to_le_bytes());
        }
        for &[head, kind, x, y] in self.requests {
            put(REQUEST_MARK);
            put(&[head as u8, kind as u8]);
            put(&two(x));
            put(&two(y));
        }
        for &[later, earlier] in self.waits {
            put(WAIT_MARK);
            put(&two(later));
            put(&two(earlier));
        }
        for run in longest_runs(self.grants) {
            put(RUN_MARK);
            put(&[run[0], run.len() as u8]);
        }
        put(CLOSE_MARK);
        put(&[0, 0]);
        repair_balance(file);
    }
}

/// Splits the grants into stretches of one head, each as long as it can be.
fn longest_runs(grants: &[u8]) -> impl Iterator<Item = &[u8]> {
    grants.chunk_by(|a, b| a == b).flat_map(|stretch| stretch.chunks(MAX_RUN))
}

/// Sets the last word so that the words add up to zero; a file of odd length keeps its bytes.
pub fn repair_balance(file: &mut [u8]) {
    if file.len() >= 2 && file.len().is_multiple_of(2) {
        let (rest, balance) = file.split_at_mut(file.len() - 2);
        balance.copy_from_slice(&0u16.wrapping_sub(sum(rest)).to_le_bytes());
    }
}
