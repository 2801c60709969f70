//! Seeded jobs that make heads meet, schedules built for known wrong turns, tables, and damage to
//! files and tables.

use std::collections::BTreeSet;

use crate::job::{self, Job, Kind, Request, Right, Wait};
use crate::job::{CLOSE, MAX_BYTES, MAX_HEADS, MAX_REQUESTS, OPENING, REQUEST, RIGHT, RUN, WAIT};
use crate::numbers::refusal;
use crate::word::{parent, rank, word};

/// A splitmix generator: the same seed gives the same numbers.
pub struct Random(u64);

impl Random {
    pub fn new(seed: u64) -> Random {
        Random(seed)
    }

    pub fn bits(&mut self) -> u64 {
        self.0 = self.0.wrapping_add(0x9E37_79B9_7F4A_7C15);
        let mut mixed = self.0;
        mixed = (mixed ^ (mixed >> 30)).wrapping_mul(0xBF58_476D_1CE4_E5B9);
        mixed = (mixed ^ (mixed >> 27)).wrapping_mul(0x94D0_49BB_1331_11EB);
        mixed ^ (mixed >> 31)
    }

    pub fn below(&mut self, bound: u32) -> u32 {
        (((self.bits() >> 32) * u64::from(bound)) >> 32) as u32
    }

    pub fn between(&mut self, low: u32, high: u32) -> u32 {
        low + self.below(high - low + 1)
    }

    pub fn chance(&mut self, percent: u32) -> bool {
        self.below(100) < percent
    }

    pub fn pick<T: Copy>(&mut self, of: &[T]) -> T {
        of[self.below(of.len() as u32) as usize]
    }
}

/// A small job: few nodes, many heads, so that swaps fail and links are overtaken.
pub fn contended(random: &mut Random) -> Job {
    let nodes = random.between(2, 8);
    let (heads, of_everyone) = crew(random, nodes);
    let count = random.between(1, 24);
    let (mut requests, mut grants) = (Vec::new(), Vec::new());
    if random.chance(25) {
        // Heads that stop just after their links leave a chain of equal ranks: one that then goes
        // on meets a root that nobody has raised. Random grants seldom come to this.
        let links = heads.min(nodes - 1).min(count);
        for head in 0..links {
            requests.push(Request::union(head as u8, head, head + 1));
            grants.extend([head as u8; 5]);
        }
        let first = random.below(links) as u8;
        grants.extend(vec![first; random.between(1, 24) as usize]);
    }
    let rest = count - requests.len() as u32;
    requests.extend(self::requests(random, nodes, heads, rest));
    requests.extend(of_everyone);
    let length = random.between(0, 24 * requests.len() as u32);
    grants.extend(schedule(random, heads, length));
    Job { nodes, heads, rights: Vec::new(), requests, waits: Vec::new(), grants }
}

/// A job's number of heads and requests that it is to have: one job in four has the most heads
/// and a request of each, so that all of them work.
fn crew(random: &mut Random, nodes: u32) -> (u32, Vec<Request>) {
    if random.chance(75) {
        return (random.between(1, MAX_HEADS), Vec::new());
    }
    let mut requests = requests(random, nodes, MAX_HEADS, MAX_HEADS);
    for (request, head) in requests.iter_mut().zip(0..) {
        request.head = head;
    }
    requests.sort_by_cached_key(|_| random.bits());
    (MAX_HEADS, requests)
}

/// A contended job with up to 30 pairs.
pub fn waiting(random: &mut Random) -> Job {
    let job = contended(random);
    let most = random.between(0, 30);
    let waits = pairs(random, job.requests.len() as u32, most);
    Job { waits: waits.into_iter().collect(), ..job }
}

/// A contended job with rights of each head, with pairs or without any.
pub fn entitled(random: &mut Random) -> Job {
    let job = contended_or_waiting(random);
    with_rights(random, job)
}

/// A contended job, with rights and pairs or without any.
pub fn varied(random: &mut Random) -> Job {
    let job = contended_or_waiting(random);
    if random.chance(50) {
        job
    } else {
        with_rights(random, job)
    }
}

fn contended_or_waiting(random: &mut Random) -> Job {
    if random.chance(50) {
        contended(random)
    } else {
        waiting(random)
    }
}

/// The job with rights of each head. A request that its head may not make becomes one of the other
/// kind.
pub fn with_rights(random: &mut Random, mut job: Job) -> Job {
    let mut right =
        |head| Right { kinds: random.pick(&[1, 2, 3, 3]), sight: sight(random, job.heads, head) };
    job.rights = (0..job.heads).map(&mut right).collect();
    for request in &mut job.requests {
        request.kind = match job.rights[usize::from(request.head)].kinds {
            1 => Kind::Union,
            2 => Kind::SameSet,
            _ => request.kind,
        };
    }
    job
}

/// Any heads that a head may see: none, all, itself alone, all others, one, or some.
fn sight(random: &mut Random, heads: u32, head: u32) -> u32 {
    let (all, itself) = (every_head(heads), 1 << head);
    match random.below(6) {
        0 => 0,
        1 => all,
        2 => itself,
        3 => all & !itself,
        4 => 1 << random.below(heads),
        _ => random.bits() as u32 & all,
    }
}

/// Sight of all of so many heads.
pub fn every_head(heads: u32) -> u32 {
    u32::MAX >> (MAX_HEADS - heads)
}

/// A job of which at least a tenth of the grants wait: before request 0 has any, the other heads,
/// which wait for it, have theirs in vain. No more than 46 pairs.
pub fn held(random: &mut Random) -> Job {
    let mut job = contended(random);
    // A head waits only where there is another.
    job.heads = job.heads.max(2);
    let first = job.requests[0].head;
    job.requests.push(Request::union((first + 1) % job.heads as u8, 0, 1));
    let next_of = |head: u8| job.requests.iter().position(|request| request.head == head);
    let held: Vec<(u8, usize)> = (0..job.heads as u8)
        .filter(|&head| head != first)
        .filter_map(|head| next_of(head).map(|next| (head, next)))
        .collect();
    let mut waits = pairs(random, job.requests.len() as u32, 15);
    waits.extend(held.iter().map(|&(_, next)| Wait { later: next as u32, earlier: 0 }));
    let others = job.grants.len() as u32;
    let in_vain = random.between(others / 9 + 1, others / 4 + 2);
    let mut grants: Vec<u8> = (0..in_vain).map(|_| random.pick(&held).0).collect();
    grants.append(&mut job.grants);
    Job { waits: waits.into_iter().collect(), grants, ..job }
}

/// A job whose unions along a chain stand before their links. After each link, in any order, one
/// of the other heads, whose requests are of any nodes of the chain and often of the first one with
/// itself, has grants for a find or for a whole try.
pub fn poised(random: &mut Random) -> Job {
    let nodes = random.between(2, 8);
    let links = nodes - 1;
    let heads = random.between(links + 1, MAX_HEADS);
    let mut requests: Vec<Request> =
        (0..links).map(|head| Request::union(head as u8, head, head + 1)).collect();
    for head in links as u8..heads as u8 {
        let mut request = self::requests(random, nodes, 1, 1)[0];
        if random.chance(50) {
            (request.x, request.y) = (0, 0);
        }
        requests.push(Request { head, ..request });
    }
    // Two reads of roots and two of ranks come before a union's link.
    let mut grants: Vec<u8> = (0..links as u8).flat_map(|head| [head; 4]).collect();
    let kept = random.between(links, heads - 1) as u8;
    grants.push(kept);
    let mut order: Vec<u8> = (0..links as u8).collect();
    if random.chance(50) {
        order.sort_by_cached_key(|_| random.bits());
    }
    for linking in order {
        let other = if random.chance(90) { kept } else { random.below(heads) as u8 };
        grants.push(linking);
        grants.extend(vec![other; random.pick(&[1, 5, 11, 11, 11, 13, 13, 13])]);
    }
    let rest = random.between(0, 4 * heads);
    grants.extend(schedule(random, heads, rest));
    Job { nodes, heads, rights: Vec::new(), requests, waits: Vec::new(), grants }
}

/// A request of the first node of a chain with itself is kept long: the unions along the chain
/// stand before their links, and each links between the request's two finds, so that these end at
/// two nodes and it tries again.
pub fn kept_long(kind: Kind, nodes: u32) -> Job {
    let links = 1..nodes as u8;
    let mut requests = vec![Request { head: 0, kind, x: 0, y: 0 }];
    requests
        .extend(links.clone().map(|head| Request::union(head, u32::from(head) - 1, head.into())));
    // Five grants for the find from y to the next node, as many as it takes to see that x is no
    // root any more, and five for the find from x.
    let a_try = match kind {
        Kind::SameSet => 5 + 1 + 5,
        Kind::Union => 5 + 3 + 5,
    };
    let mut runs: Vec<(u8, usize)> = links.clone().map(|head| (head, 4)).collect();
    runs.push((0, 1));
    runs.extend(links.flat_map(|head| [(head, 1), (0, a_try)]));
    runs.push((0, 1));
    Job::new(nodes, nodes, &requests, &runs)
}

/// Pairs of any requests, at most so many.
fn pairs(random: &mut Random, requests: u32, most: u32) -> BTreeSet<Wait> {
    let mut pairs = BTreeSet::new();
    for _ in 0..if requests < 2 { 0 } else { most } {
        let later = random.between(1, requests - 1);
        pairs.insert(Wait { later, earlier: random.below(later) });
    }
    pairs
}

/// So many pairs, rising, whose requests are as near to each other as they can be and at least so
/// far apart.
pub fn nearest_pairs(requests: u32, least_apart: u32, count: usize) -> Vec<Wait> {
    let of =
        |apart: u32| (apart..requests).map(move |later| Wait { later, earlier: later - apart });
    let mut pairs: Vec<Wait> = (least_apart..requests).flat_map(of).take(count).collect();
    pairs.sort();
    pairs
}

/// A larger job, up to every limit, whose requests keep to a part of the nodes.
pub fn larger(random: &mut Random) -> Job {
    let most = random.pick(&[16, 64, 512, 4096]);
    let nodes = random.between(2, most);
    let busy = random.pick(&[nodes.min(8), nodes.min(100), nodes]);
    let (heads, mut requests) = crew(random, busy);
    let count = random.between(1, (MAX_REQUESTS - requests.len()) as u32);
    requests.extend(self::requests(random, busy, heads, count));
    let length = random.between(0, 20 * count).min(7_000);
    let grants = schedule(random, heads, length);
    Job { nodes, heads, rights: Vec::new(), requests, waits: Vec::new(), grants }
}

fn requests(random: &mut Random, nodes: u32, heads: u32, count: u32) -> Vec<Request> {
    let unions = random.pick(&[10, 50, 70, 90, 100]);
    mixed_requests(random, nodes, heads, count, unions)
}

/// So many requests of any heads and nodes, of which so many in a hundred are unions.
pub fn mixed_requests(
    random: &mut Random,
    nodes: u32,
    heads: u32,
    count: u32,
    unions: u32,
) -> Vec<Request> {
    let mut request = || {
        let head = random.below(heads) as u8;
        let (x, y) = (random.below(nodes), random.below(nodes));
        if random.chance(unions) {
            Request::union(head, x, y)
        } else {
            Request::same_set(head, x, y)
        }
    };
    (0..count).map(|_| request()).collect()
}

/// Grants in turn, one by one at random, in bursts, or mixed.
fn schedule(random: &mut Random, heads: u32, length: u32) -> Vec<u8> {
    let style = random.below(5);
    let mut grants = Vec::new();
    let mut head = 0;
    while grants.len() < length as usize {
        head = if style == 0 { (head + 1) % heads } else { random.below(heads) };
        let burst = match style {
            0 | 1 => 1,
            2 => random.between(1, 3),
            3 => random.between(1, 12),
            _ if random.chance(10) => random.between(1, 300),
            _ => 1,
        };
        grants.extend(vec![head as u8; burst as usize]);
    }
    grants.truncate(length as usize);
    grants
}

/// Schedules that random ones seldom meet.
pub fn built() -> Vec<Job> {
    let three = [Request::union(0, 0, 1), Request::union(0, 2, 1), Request::union(1, 1, 2)];
    let heads = 0..MAX_HEADS as u8;
    let everyone: Vec<Request> = heads.clone().map(|head| Request::union(head, 0, 1)).collect();
    let in_turn: Vec<(u8, usize)> = heads.map(|head| (head, 1)).collect();
    vec![
        // A link that stores y's rank makes a cycle here.
        Job::new(3, 2, &three, &[(0, 13), (1, 2), (0, 5), (1, 3)]),
        // And one that does not compare x's rank makes one here.
        Job::new(3, 2, &three, &[(1, 4), (0, 18), (1, 1)]),
        Job::new(3, 2, &three, &[(1, 4), (0, 18), (1, 7)]),
        Job::new(2, MAX_HEADS, &everyone, &in_turn.repeat(13)),
        tournament(512),
        full(),
    ]
}

/// The longest file without pairs, with every request and head that it can have.
pub fn full() -> Job {
    let requests = requests(&mut Random::new(0), 64, MAX_HEADS, 512);
    let heads = (0..MAX_HEADS as u8).cycle();
    let runs: Vec<_> = heads.zip((0..7_165).map(|n| if n < 7_000 { 1 } else { 255 })).collect();
    Job::new(4_096, MAX_HEADS, &requests, &runs)
}

/// Every request, and the most pairs that there can be beside them: no byte is left for a run.
pub fn most_pairs() -> Job {
    let requests = requests(&mut Random::new(1), 4_096, 16, 512);
    Job { waits: nearest_pairs(512, 1, 4_777), ..Job::new(4_096, 16, &requests, &[]) }
}

/// One head waits for the other through all grants of a file that could not be longer.
pub fn longest_wait() -> Job {
    let requests = [Request::union(0, 0, 1), Request::same_set(1, 0, 1)];
    Job::new(4_096, 16, &requests, &[(1, 2_086_920)]).waiting(&[(1, 0)])
}

/// Each request waits for those before it, so that one is played after the other: sixteen heads in
/// turn end one request each and wait for the rest of their run.
pub fn one_after_the_other() -> Job {
    let mut requests = mixed_requests(&mut Random::new(0), 4_096, 16, 512, 50);
    for (number, request) in requests.iter_mut().enumerate() {
        request.head = (number % 16) as u8;
    }
    let runs: Vec<(u8, usize)> = (0..512).map(|n| ((n % 16) as u8, 40)).collect();
    Job { waits: nearest_pairs(512, 1, 4_435), ..Job::new(4_096, 16, &requests, &runs) }
}

/// Each head has 32 requests, which wait for those of the heads before it. All but the first head
/// have grants in vain; then each head in turn has as many as its requests need.
pub fn head_after_head() -> Job {
    let mut requests = mixed_requests(&mut Random::new(0), 4_096, 16, 512, 50);
    for (number, request) in requests.iter_mut().enumerate() {
        request.head = (number / 32) as u8;
    }
    let in_vain = (1..16).map(|head| (head, 255));
    let runs: Vec<(u8, usize)> = in_vain.chain((0..16).map(|head| (head, 510))).collect();
    Job { waits: nearest_pairs(512, 32, 4_745), ..Job::new(4_096, 16, &requests, &runs) }
}

/// Unions of equal ranks, level by level, each played to its end: the highest rank for its nodes.
pub fn tournament(nodes: u32) -> Job {
    let mut requests = Vec::new();
    let mut apart = 1;
    while apart < nodes {
        // The root of a block is its last node.
        let firsts = (apart - 1..nodes - apart).step_by(2 * apart as usize);
        requests.extend(firsts.map(|node| Request::union(0, node, node + apart)));
        apart *= 2;
    }
    // A union of two roots of equal rank takes 13 grants.
    let grants = 13 * requests.len();
    Job::new(nodes, 1, &requests, &[(0, grants)])
}

/// A table that an enquiry admits: every parent comes after its child, next to it, near it or
/// anywhere.
pub fn admitted_table(random: &mut Random, nodes: u32) -> Vec<u32> {
    let highest = random.pick(&[0, 1, 3, 12]);
    let roots = random.pick(&[0, 1, 10, 50, 100]);
    let reach = random.pick(&[1, 4, nodes]);
    let ranks: Vec<u32> = (0..nodes).map(|_| random.between(0, highest)).collect();
    let rank_of = |node: u32| ranks[node as usize];
    let mut order: Vec<u32> = (0..nodes).collect();
    order.sort_by_key(|&node| (rank_of(node), node));
    let mut table = vec![0; nodes as usize];
    let mut rest = &order[..];
    while let Some((&node, later)) = rest.split_first() {
        let near = &later[..later.len().min(reach as usize)];
        let root = near.is_empty() || random.chance(roots);
        let parent = if root { node } else { random.pick(near) };
        table[node as usize] = word(rank_of(node), parent);
        rest = later;
    }
    table
}

/// The table with a few words changed in a bit, the parent or the rank; it may still be admitted.
pub fn damaged_table(random: &mut Random, mut table: Vec<u32>) -> Vec<u32> {
    let nodes = table.len() as u32;
    for _ in 0..random.between(1, 3) {
        let own = &mut table[random.below(nodes) as usize];
        *own = match random.below(3) {
            0 => *own ^ (1 << random.below(32)),
            1 => word(rank(*own), random.below(nodes + 1)),
            _ => word(random.between(0, 13), parent(*own)),
        };
    }
    table
}

/// What is known of a damaged file.
#[derive(Clone, Copy, Debug, PartialEq, Eq)]
pub enum Expected {
    Anything,
    Refused,
    Number(u32),
}

/// The file of a job, damaged in some way.
pub fn damaged(random: &mut Random, job: &Job) -> (Vec<u8>, Expected) {
    let file = job.file().expect("a generated job is accepted");
    match random.below(13) {
        0 => bytes_changed(random, file),
        1 => (file[..random.below(file.len() as u32) as usize].to_vec(), ends_early()),
        2 => lengthened(random, file),
        3 => marks_exchanged(random, file),
        4 => opening_out_of_range(random, file),
        5 => request_out_of_range(random, file, job),
        6 => run_out_of_range(random, file, job),
        7 => run_split(random, file, job),
        8 => balance_changed(random, file),
        9 => {
            let fault = random.pick(&WAIT_FAULTS);
            wait_spoilt(random, file, job, fault)
        }
        10 | 11 => {
            let fault = random.pick(&RIGHT_FAULTS);
            right_spoilt(random, file, job, fault)
        }
        _ => too_many_requests(random, file, job),
    }
}

fn ends_early() -> Expected {
    Expected::Number(refusal::FILE_ENDS_EARLY)
}

/// One byte or a few, with the balance repaired or not.
fn bytes_changed(random: &mut Random, mut file: Vec<u8>) -> (Vec<u8>, Expected) {
    let one = random.chance(50);
    for _ in 0..if one { 1 } else { random.between(2, 6) } {
        let at = random.below(file.len() as u32) as usize;
        file[at] ^= random.between(1, 255) as u8;
    }
    if random.chance(70) {
        job::repair_balance(&mut file);
        return (file, Expected::Anything);
    }
    // A single byte always shows in the sum.
    (file, if one { Expected::Refused } else { Expected::Anything })
}

fn balance_changed(random: &mut Random, mut file: Vec<u8>) -> (Vec<u8>, Expected) {
    let at = file.len() - random.between(1, 2) as usize;
    file[at] ^= random.between(1, 255) as u8;
    (file, Expected::Number(refusal::BALANCE))
}

fn lengthened(random: &mut Random, mut file: Vec<u8>) -> (Vec<u8>, Expected) {
    let oversize = random.chance(20);
    let length = if oversize { MAX_BYTES } else { file.len() } + random.between(1, 4) as usize;
    file.resize(length, random.below(256) as u8);
    let number = if oversize { refusal::FILE_TOO_LONG } else { refusal::AFTER_CLOSE };
    (file, Expected::Number(number))
}

/// Two words of the file change places, marks as a rule; the sum stays.
fn marks_exchanged(random: &mut Random, mut file: Vec<u8>) -> (Vec<u8>, Expected) {
    let words = (file.len() / 2) as u32;
    let marks = [0, words - 2, random.below(words), OPENING as u32 / 2];
    let (a, b) = (2 * random.pick(&marks) as usize, 2 * random.pick(&marks) as usize);
    for byte in 0..2 {
        file.swap(a + byte, b + byte);
    }
    (file, Expected::Anything)
}

fn set_field(file: &mut [u8], at: usize, value: u32) {
    file[at..at + 2].copy_from_slice(&(value as u16).to_le_bytes());
}

fn opening_out_of_range(random: &mut Random, mut file: Vec<u8>) -> (Vec<u8>, Expected) {
    if random.chance(50) {
        let nodes = random.pick(&[0, 4_097, 8_192, 65_535]);
        set_field(&mut file, 2, nodes);
        (file, Expected::Number(refusal::NODES))
    } else {
        let heads = random.pick(&[0, MAX_HEADS + 1, 256, 65_535]);
        set_field(&mut file, 4, heads);
        (file, Expected::Number(refusal::HEADS))
    }
}

fn request_out_of_range(random: &mut Random, mut file: Vec<u8>, job: &Job) -> (Vec<u8>, Expected) {
    let request = random.below(job.requests.len() as u32) as usize;
    let at = job.shape().requests_at() + REQUEST * request;
    let number = random.between(refusal::REQUEST_HEAD, refusal::REQUEST_NODE);
    match number {
        refusal::REQUEST_HEAD => file[at + 2] = random.between(job.heads, 255) as u8,
        refusal::REQUEST_KIND => file[at + 3] = random.pick(&[0, 3, 255]),
        _ => {
            let node = random.pick(&[job.nodes, 65_535]);
            set_field(&mut file, at + random.pick(&[4, 6]), node);
        }
    }
    (file, Expected::Number(number))
}

/// The ways in which a pair is refused.
#[derive(Clone, Copy, Debug, PartialEq, Eq)]
pub enum WaitFault {
    LaterMissing,
    EarlierMissing,
    EarlierNotBelow,
    NotRising,
}

pub const WAIT_FAULTS: [WaitFault; 4] = [
    WaitFault::LaterMissing,
    WaitFault::EarlierMissing,
    WaitFault::EarlierNotBelow,
    WaitFault::NotRising,
];

/// Some pair is spoilt in this way, and in as few others as can be; without pairs nothing is.
pub fn wait_spoilt(
    random: &mut Random,
    mut file: Vec<u8>,
    job: &Job,
    fault: WaitFault,
) -> (Vec<u8>, Expected) {
    if job.waits.is_empty() {
        return (file, Expected::Number(refusal::NONE));
    }
    let first = job.shape().waits_at();
    let index = random.below(job.waits.len() as u32);
    let at = first + WAIT * index as usize;
    let requests = job.requests.len() as u32;
    let missing = random.pick(&[requests, 256 + requests, 65_535]);
    match fault {
        WaitFault::LaterMissing => set_field(&mut file, at + 2, missing),
        WaitFault::EarlierMissing => set_field(&mut file, at + 4, missing),
        WaitFault::EarlierNotBelow => {
            let later = job.waits[index as usize].later;
            set_field(&mut file, at + 4, random.between(later, requests - 1));
        }
        WaitFault::NotRising => {
            // Behind the pair stands one that is equal to it or comes before it.
            let again = first + WAIT * random.between(0, index) as usize;
            let record = file[again..again + WAIT].to_vec();
            file.splice(at + WAIT..at + WAIT, record);
        }
    }
    (file, Expected::Number(refusal::WAIT))
}

/// The ways in which rights are refused.
#[derive(Clone, Copy, Debug, PartialEq, Eq)]
pub enum RightFault {
    OtherHead,
    OtherKinds,
    SightOfNoHead,
    Missing,
    Surplus,
    BehindARequest,
    CutShort,
    KindNotAmong,
}

pub const RIGHT_FAULTS: [RightFault; 8] = [
    RightFault::OtherHead,
    RightFault::OtherKinds,
    RightFault::SightOfNoHead,
    RightFault::Missing,
    RightFault::Surplus,
    RightFault::BehindARequest,
    RightFault::CutShort,
    RightFault::KindNotAmong,
];

/// The rights are spoilt in this way, and in as few others as can be; where they cannot be, nothing
/// is.
pub fn right_spoilt(
    random: &mut Random,
    mut file: Vec<u8>,
    job: &Job,
    fault: RightFault,
) -> (Vec<u8>, Expected) {
    let in_vain = match fault {
        RightFault::SightOfNoHead => job.heads == MAX_HEADS,
        // Without its only record a file has none, as it may.
        RightFault::Missing => job.heads == 1,
        _ => false,
    };
    if job.rights.is_empty() || in_vain {
        return (file, Expected::Number(refusal::NONE));
    }
    let at = OPENING + RIGHT * random.below(job.heads) as usize;
    match fault {
        RightFault::OtherHead => file[at + 2] ^= random.between(1, 255) as u8,
        RightFault::OtherKinds => file[at + 3] = random.pick(&[0, 4, 5, 6, 7, 255]),
        RightFault::SightOfNoHead => {
            let bit = random.between(job.heads, MAX_HEADS - 1) as usize;
            file[at + 4 + bit / 8] |= 1 << (bit % 8);
        }
        RightFault::KindNotAmong => {
            let request = random.pick(&job.requests);
            // The other kind's number.
            file[OPENING + RIGHT * usize::from(request.head) + 3] = 3 - request.kind as u8;
            return (file, Expected::Number(refusal::REQUEST_RIGHTS));
        }
        _ => return right_misplaced(random, file, job, fault),
    }
    (file, Expected::Number(refusal::RIGHTS))
}

/// A record of rights is missing, cut short, or stands where none may.
fn right_misplaced(
    random: &mut Random,
    mut file: Vec<u8>,
    job: &Job,
    fault: RightFault,
) -> (Vec<u8>, Expected) {
    let end = job.shape().requests_at();
    match fault {
        RightFault::Missing => {
            // With another one missing the heads would not count up.
            file.drain(end - RIGHT..end);
        }
        RightFault::CutShort => {
            file.truncate(random.between(OPENING as u32 + 1, end as u32 + 1) as usize);
            return (file, ends_early());
        }
        _ => {
            let behind = if fault == RightFault::Surplus { end } else { end + REQUEST };
            let mut record = file[end - RIGHT..end].to_vec();
            record[2] = random.pick(&[record[2], job.heads as u8]);
            file.splice(behind..behind, record);
            if random.chance(30) {
                // No more than its mark and a part are there.
                file.truncate(behind + random.between(2, RIGHT as u32 - 1) as usize);
            }
        }
    }
    (file, Expected::Number(refusal::WRONG_MARK))
}

/// The place of some run's record, if there is any.
fn some_run(random: &mut Random, file: &[u8], job: &Job) -> Option<usize> {
    let first = job.shape().runs_at();
    let runs = (file.len() - CLOSE - first) / RUN;
    (runs > 0).then(|| first + RUN * random.below(runs as u32) as usize)
}

fn run_out_of_range(random: &mut Random, mut file: Vec<u8>, job: &Job) -> (Vec<u8>, Expected) {
    let Some(at) = some_run(random, &file, job) else {
        return (file, Expected::Number(refusal::NONE));
    };
    if random.chance(50) {
        file[at + 2] = random.between(job.heads, 255) as u8;
    } else {
        file[at + 3] = 0;
    }
    (file, Expected::Number(refusal::GRANT))
}

/// A run is cut in two, or followed by one of its head.
fn run_split(random: &mut Random, mut file: Vec<u8>, job: &Job) -> (Vec<u8>, Expected) {
    let Some(at) = some_run(random, &file, job) else {
        return (file, Expected::Number(refusal::NONE));
    };
    let (head, run) = (file[at + 2], file[at + 3]);
    let first = if run < 2 { run } else { random.between(1, u32::from(run) - 1) as u8 };
    let second = (run - first).max(1);
    file[at + 3] = first;
    file.splice(at + RUN..at + RUN, [b'G', b'R', head, second]);
    (file, Expected::Number(refusal::SPLIT_RUN))
}

/// A 513th request, cut short, out of range or whole.
fn too_many_requests(random: &mut Random, mut file: Vec<u8>, job: &Job) -> (Vec<u8>, Expected) {
    let (start, end) = (job.shape().requests_at(), job.shape().waits_at());
    let more = MAX_REQUESTS - job.requests.len();
    let first = file[start..start + REQUEST].to_vec();
    file.splice(end..end, first.repeat(more + 1));
    let last = start + REQUEST * MAX_REQUESTS;
    if random.chance(30) {
        file.truncate(last + random.below(REQUEST as u32) as usize);
        return (file, ends_early());
    }
    file[last + 2 + random.below(6) as usize] = random.below(256) as u8;
    (file, Expected::Number(refusal::TOO_MANY_REQUESTS))
}
