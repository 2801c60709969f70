//! Times the proved core against this crate's player: the same calls in turn, in one run.

use std::hint::black_box;
use std::time::{Duration, Instant};

use grouping_core::MOST_LISTING;
use peer::gen::{self, Random};
use peer::job::{Job, Request};
use peer::listing;
use peer::page::{self, MAX_PAGE, MAX_ROWS};
use peer::player::{Outcome, Player, AMPLE, PEER};
use peer::proved::{list_into, CORE, LENT};
use peer::sheet::MAX_SHEET;

const ROUNDS: usize = 200;
/// A round repeats its call for at least this long.
const ROUND: Duration = Duration::from_micros(50);
/// Chains to a job.
const CHAINS: u32 = 24;
/// Jobs to a row of the first table, played in turn: one that is repeated is soon known by heart.
const JOBS: u64 = 8;

/// Nanoseconds of a call, by two players.
#[derive(Clone, Copy)]
struct Times {
    first: f64,
    second: f64,
}

impl Times {
    /// Core and peer.
    fn of(call: impl FnMut(&Player)) -> Times {
        Times::between(&CORE, &PEER, call)
    }

    /// The least of all rounds, the two in turn, players or single calls of theirs.
    fn between<P>(first: &P, second: &P, mut call: impl FnMut(&P)) -> Times {
        let calls = calls_to_a_round(|| call(second));
        let mut round = |one: &P, depth: usize| {
            let start = Instant::now();
            at_depth(depth, &mut || (0..calls).for_each(|_| call(one)));
            start.elapsed().as_nanos() as f64 / f64::from(calls)
        };
        let mut least = Times { first: f64::INFINITY, second: f64::INFINITY };
        for n in 0..ROUNDS {
            least.first = least.first.min(round(first, n));
            least.second = least.second.min(round(second, n));
        }
        least
    }

    fn less(self, other: Times) -> Times {
        Times { first: self.first - other.first, second: self.second - other.second }
    }

    /// Three columns: each in so many parts, and their ratio.
    fn columns(self, parts: f64) -> String {
        let Times { first, second } = self;
        format!("{:>9.2} {:>9.2} {:>6.2}", first / parts, second / parts, first / second)
    }
}

/// Calls at one of four depths of the stack, 16 bytes apart: which of the core's heads lie across two
/// lines of the cache depends on it.
fn at_depth(depth: usize, call: &mut dyn FnMut()) {
    match depth % 4 {
        0 => below::<16>(call),
        1 => below::<32>(call),
        2 => below::<48>(call),
        _ => below::<64>(call),
    }
}

#[inline(never)]
fn below<const BYTES: usize>(call: &mut dyn FnMut()) {
    let room = black_box([0_u8; BYTES]);
    call();
    black_box(room);
}

fn calls_to_a_round(mut call: impl FnMut()) -> u32 {
    let (start, mut calls) = (Instant::now(), 0);
    while start.elapsed() < ROUND {
        call();
        calls += 1;
    }
    calls
}

/// One call plays the files in turn.
fn play_by(first: &Player, second: &Player, files: &[Vec<u8>]) -> Times {
    for file in files {
        assert_eq!(Outcome::of(first.play, file, AMPLE), Outcome::of(second.play, file, AMPLE));
    }
    let Outcome { mut table, mut report, mut lineup, .. } = Outcome::untouched(0, AMPLE);
    Times::between(first, second, |player| {
        for file in files {
            black_box((player.play)(black_box(file), &mut table, &mut report, &mut lineup));
        }
    })
}

fn play(files: &[Vec<u8>]) -> Times {
    play_by(&CORE, &PEER, files)
}

/// Only the reading: a file whose balance alone is wrong is read to its end, and refused.
fn read(files: &[Vec<u8>]) -> Times {
    let wrong = |file: &Vec<u8>| {
        let mut wrong = file.clone();
        *wrong.last_mut().expect("a file has a close") ^= 1;
        wrong
    };
    play(&files.iter().map(wrong).collect::<Vec<_>>())
}

fn write(job: &Job) -> Times {
    let draft = job.draft();
    let mut buffer = vec![0; peer::job::MAX_BYTES];
    Times::of(|player| {
        black_box(player.write_draft(black_box(&draft), &mut buffer));
    })
}

/// Prints an outcome: the core into the buffer, the peer into a string of its own.
type List = fn(&Outcome, &mut [u8]);

fn list(outcome: &Outcome) -> Times {
    let mut text = vec![0; MOST_LISTING];
    let by_core: List = |outcome, text| _ = black_box(list_into(outcome, text));
    let by_peer: List = |outcome, _| {
        let Outcome { played, table, report, lineup } = outcome;
        black_box(listing::text(played, table, report, lineup));
    };
    Times::between(&by_core, &by_peer, |list| list(black_box(outcome), &mut text))
}

fn file(job: &Job) -> Vec<u8> {
    job.file().expect("the job is accepted")
}

/// The job without its idle grants, which changes no other.
fn busy(job: Job) -> Job {
    let (_, trace) = Outcome::traced(&file(&job), AMPLE);
    Job { grants: trace.iter().map(|access| access.head).collect(), ..job }
}

/// The heads get 7,000 grants one by one, in turn, or as many bursts of one to eight, at random.
fn busy_job(heads: u32, seed: u64, nodes: u32, requests: u32, unions: u32, bursts: bool) -> Job {
    let mut random = Random::new(seed);
    let requests = gen::mixed_requests(&mut random, nodes, heads, requests, unions);
    let runs: Vec<(u8, usize)> = (0..7_000)
        .map(|n| match bursts {
            true => (random.below(heads) as u8, random.between(1, 8) as usize),
            false => ((n % heads) as u8, 1),
        })
        .collect();
    busy(Job::new(nodes, heads, &requests, &runs))
}

/// Sixteen heads climb one chain after another, a grant each in turn. As unions tidy up, a chain
/// stands only while the heads that made it stop at their links, and the finds that climb it are
/// those with which their unions then end.
fn chain_in_step(seed: u64) -> Job {
    let unions =
        |first: u32| (0..16).map(move |n| Request::union(n as u8, first + n, first + n + 1));
    let mut random = Random::new(seed);
    let (mut requests, mut grants) = (Vec::new(), Vec::new());
    for chain in 0..CHAINS {
        let mut order: Vec<u8> = (0..16).collect();
        order.sort_by_cached_key(|_| random.bits());
        let links = (0..16).map(|head| (head, 5));
        let in_turn = order.iter().cycle().take(16 * 40).map(|&head| (head, 1));
        let runs: Vec<(u8, usize)> = links.chain(in_turn).collect();
        let alone: Vec<Request> = unions(0).collect();
        requests.extend(unions(17 * chain));
        grants.extend(busy(Job::new(17, 16, &alone, &runs)).grants);
    }
    Job { grants, ..Job::new(17 * CHAINS, 16, &requests, &[]) }
}

/// One head joins 256 nodes to a tree eight levels deep, then finds its way up, from the deepest
/// node and from others.
fn deep_finds(seed: u64) -> Job {
    let Job { nodes, mut requests, .. } = gen::tournament(256);
    let mut random = Random::new(seed);
    let mut from = 0;
    while requests.len() < 512 {
        requests.push(Request::same_set(0, from, nodes - 1));
        from = random.below(nodes);
    }
    busy(Job::new(nodes, 16, &requests, &[(0, 20_000)]))
}

type Row = (String, Vec<Job>);

/// The rows of the table of grants.
fn rows() -> Vec<Row> {
    let mut rows = busy_rows("busy", 16);
    rows.extend(busy_rows("32 heads", 32));
    rows.push(("idle, the most in a file".into(), vec![idle_job()]));
    rows.push(("waiting, the most in a file".into(), vec![gen::longest_wait()]));
    rows.push(("16 heads in step along a chain".into(), (0..JOBS).map(chain_in_step).collect()));
    rows.push(("one head's deep finds".into(), (0..JOBS).map(deep_finds).collect()));
    rows
}

/// So many heads without idle grants, in either order and with each share of unions.
fn busy_rows(name: &str, heads: u32) -> Vec<Row> {
    let mut rows = Vec::new();
    for (order, bursts) in [("one by one", false), ("bursts of 1 to 8", true)] {
        for unions in [10, 50, 90] {
            let job = |seed| busy_job(heads, seed, 4096, 512, unions, bursts);
            let jobs = (0..JOBS).map(job).collect();
            rows.push((format!("{name}, {order}, {unions} % unions"), jobs));
        }
    }
    rows
}

fn idle_job() -> Job {
    Job::new(4096, 16, &[], &[(0, 2_088_195)])
}

fn grants() {
    println!(
        "\nns a grant, 16 heads where a row does not say 32, {JOBS} jobs a row in turn, idle grants in \
         rows of their own"
    );
    println!("{:<40} {:>26}   {:>26}   {:>26}", "", "whole call", "without reading", "lent");
    let titles = "     core      peer  ratio";
    println!("{:<40} {titles}   {titles}        lent      core  ratio", "");
    for (name, jobs) in rows() {
        let files: Vec<Vec<u8>> = jobs.iter().map(file).collect();
        let grants: usize = jobs.iter().map(|job| job.grants.len()).sum();
        let columns = |times: Times| times.columns(grants as f64);
        let whole = play(&files);
        let playing = whole.less(read(&files));
        let lent = play_by(&LENT, &CORE, &files);
        println!("{name:<40} {}   {}   {}", columns(whole), columns(playing), columns(lent));
    }
}

fn bytes() {
    println!("\nns a byte");
    println!("{:<40}      core      peer  ratio", "");
    let requests = Job::new(4096, 16, &[Request::union(15, 4095, 0); 512], &[]);
    let singles: Vec<(u8, usize)> = (0..8_189).map(|n| ((n % 16) as u8, 1)).collect();
    let singles = Job::new(4096, 16, &[], &singles);
    let longest = idle_job();
    let pairs = gen::most_pairs();
    let jobs = [
        ("512 requests", &requests),
        ("512 requests, 4777 pairs", &pairs),
        ("8189 runs of one grant", &singles),
        ("8189 runs of 255 grants", &longest),
    ];
    for (name, job) in jobs {
        let file = file(job);
        let bytes = file.len() as f64;
        println!("{:<40} {}", format!("read, {name}"), read(&[file]).columns(bytes));
    }
    for (name, job) in jobs {
        let bytes = file(job).len() as f64;
        println!("{:<40} {}", format!("write, {name}"), write(job).columns(bytes));
    }
    let played = file(&busy_job(16, 0, 4096, 512, 50, false));
    let text = (PEER.list)(&played);
    assert_eq!((CORE.list)(&played), text);
    let printing = list(&Outcome::of(PEER.play, &played, AMPLE));
    println!("{:<40} {}", "list, 4096 nodes, 512 requests", printing.columns(text.len() as f64));
}

fn enquiry() {
    println!("\nns a grant of an enquiry");
    println!("{:<40}      core      peer  ratio", "");
    let chain: Vec<u32> = (0..4_096).map(|node| (node + 1).min(4_095)).collect();
    let mut table = chain.clone();
    let ask = Times::of(|player| {
        table.copy_from_slice(&chain);
        let told = black_box((player.query)(&mut table, 0, 1, u16::MAX));
        assert_eq!(told.grants, 12_290);
    });
    println!("{:<40} {}", "a chain of 4096 nodes, 12290 grants", ask.columns(12_290.0));
}

/// What is lent for a page; each player has rows of its own kind.
struct Room {
    of_core: Vec<grouping_core::Row>,
    of_peer: Vec<page::Row>,
    page: Vec<u8>,
}

type Page = fn(&[u32], &mut Room);

fn pages() {
    println!("\nns a node of a group page");
    println!("{:<40}      core      peer  ratio", "");
    let mut room = Room {
        of_core: vec![grouping_core::Row::default(); MAX_ROWS],
        of_peer: vec![page::Row::default(); MAX_ROWS],
        page: vec![0; MAX_PAGE],
    };
    let by_core: Page = |table, room| {
        _ = black_box(grouping_core::page(table, &mut room.of_core, &mut room.page));
    };
    let by_peer: Page = |table, room| {
        black_box(page::page(table, &mut room.of_peer, &mut room.page));
    };
    let tables: [(&str, Vec<u32>); 3] = [
        ("4096 nodes, each alone", (0..4_096).collect()),
        ("4096 nodes, one flat group", vec![4_095; 4_096]),
        ("4096 nodes, one chain", (0..4_096).map(|node| (node + 1).min(4_095)).collect()),
    ];
    for (name, table) in tables {
        by_core(&table, &mut room);
        let printed = room.page.clone();
        by_peer(&table, &mut room);
        assert_eq!(room.page, printed);
        let times = Times::between(&by_core, &by_peer, |page| page(black_box(&table), &mut room));
        println!("{name:<40} {}", times.columns(4_096.0));
    }
}

/// What is lent for a sheet, or for a play and its listing.
struct Desk {
    outcome: Outcome,
    text: Vec<u8>,
}

/// Prints of a file, by the core.
type Print = fn(&[u8], &mut Desk);

fn sheets() {
    println!("\na sheet of 512 requests, and beside the core's play and listing of the same job");
    println!("{:<40}   core us   peer us  ratio       sheet play+list  ratio", "");
    let job = busy_job(16, 0, 4096, 512, 50, false);
    let by_sheet: Print = |file, desk| _ = black_box((CORE.sheet)(file, 0, &mut desk.text));
    let by_listing: Print = |file, desk| {
        let Outcome { played, table, report, lineup } = &mut desk.outcome;
        *played = (CORE.play)(file, table, report, lineup);
        _ = black_box(list_into(&desk.outcome, &mut desk.text));
    };
    let mut desk = Desk { outcome: Outcome::untouched(0, AMPLE), text: vec![0; MOST_LISTING] };
    for (name, sight) in
        [("every head seen", 0xFFFF), ("every second head seen", 0x5555), ("no head seen", 0)]
    {
        let file = file(&job.clone().entitled(&[(3, sight); 16]));
        let [of_core, of_peer] = [CORE, PEER].map(|player| {
            let mut out = vec![0; MAX_SHEET];
            ((player.sheet)(&file, 0, &mut out), out)
        });
        assert_eq!(of_core, of_peer);
        let times = Times::of(|player| {
            black_box((player.sheet)(black_box(&file), 0, &mut desk.text));
        });
        let beside = Times::between(&by_sheet, &by_listing, |print| {
            print(black_box(&file), &mut desk);
        });
        println!("{name:<40} {}   {}", times.columns(1_000.0), beside.columns(1_000.0));
    }
}

fn growth() {
    println!("\ngrowth, 16 heads, one by one, 50 % unions, no idle grants");
    println!("{:<40}   core us   peer us  ratio   core ns a grant", "");
    let row = |name: String, job: &Job| {
        let times = play(&[file(job)]);
        let each = times.first / job.grants.len() as f64;
        println!("{name:<40} {}   {each:>9.2}", times.columns(1_000.0));
    };
    for nodes in [16, 64, 256, 1024, 4096] {
        let job = busy_job(16, 1, nodes, 256, 50, false);
        row(format!("{nodes} nodes, 256 requests, {} grants", job.grants.len()), &job);
    }
    for requests in [32, 64, 128, 256, 512] {
        let job = busy_job(16, 1, 4096, requests, 50, false);
        row(format!("4096 nodes, {requests} requests, {} grants", job.grants.len()), &job);
    }
    let whole = busy_job(16, 1, 64, 512, 50, false);
    for parts in [16, 8, 4, 2, 1] {
        let job = whole.cut(whole.grants.len() / parts);
        row(format!("64 nodes, 512 requests, {} grants", job.grants.len()), &job);
    }
}

/// Files with as many pairs as fit, in which heads wait and every request ends.
fn waits() {
    println!("\n512 requests and their pairs, played to the end");
    println!("{:<40}   core us   peer us  ratio   core ns a grant", "");
    for (name, job) in
        [("in turn", gen::one_after_the_other()), ("by heads", gen::head_after_head())]
    {
        let file = file(&job);
        let played = Outcome::of(PEER.play, &file, AMPLE).played;
        assert_eq!((played.entries, played.tally.working), (512, 0), "all requests end");
        let (pairs, grants) = (job.waits.len(), job.grants.len());
        let name = format!("{name}, {pairs} pairs, {} of {grants} idle", played.tally.idle);
        let times = play(&[file]);
        let each = times.first / grants as f64;
        println!("{name:<40} {}   {each:>9.2}", times.columns(1_000.0));
    }
}

fn main() {
    println!(
        "Least of {ROUNDS} rounds, the two players in turn. A round repeats its call, all jobs of"
    );
    println!("a row in turn, for at least {ROUND:?}. Ratio: the first to the second.");
    grants();
    bytes();
    enquiry();
    pages();
    sheets();
    growth();
    waits();
}
