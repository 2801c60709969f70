//! The stack that each call of the core needs, measured: the call runs on a stack of its own, painted
//! before, and what is no longer as painted afterwards was used. The bars are those of the header.

use std::arch::asm;
use std::ffi::c_void;
use std::thread;

use grouping_core::{self as core, stack, Played, Row, Tally};
use peer::gen::{self, Random};
use peer::job::{Draft, Job, Request, MAX_HEADS};
use peer::player::{Outcome, AMPLE};

use crate::Accepted;

/// A thread of this size makes the longest enquiry.
const THREAD: usize = 64 << 10;

const PAINT: u64 = 0xA5A5_5A5A_C3C3_3C3C;

/// A painted stack; its words are 16 bytes, as a stack pointer is aligned.
struct Painted(Vec<[u64; 2]>);

impl Painted {
    fn new() -> Painted {
        Painted(vec![[PAINT; 2]; (4 << 20) / 16])
    }

    /// The bytes of stack that the call used; they are painted again.
    fn used<F: FnMut()>(&mut self, mut call: F) -> usize {
        // SAFETY: the stack is this vector alone, and the call, which does not unwind, ends before
        // the vector is read again.
        unsafe { call_on(self.0.as_mut_ptr_range().end.cast(), run::<F>, (&raw mut call).cast()) };
        let untouched = self.0.iter().take_while(|&&words| words == [PAINT; 2]).count();
        assert!(untouched > 0, "the painted stack is too small");
        let used = &mut self.0[untouched..];
        used.fill([PAINT; 2]);
        size_of_val(used)
    }
}

extern "C" fn run<F: FnMut()>(call: *mut c_void) {
    // SAFETY: `used` hands over the call's own address.
    unsafe { (*call.cast::<F>())() }
}

/// Calls a function with the stack pointer at `top`, a multiple of 16.
unsafe fn call_on(top: *mut c_void, function: extern "C" fn(*mut c_void), argument: *mut c_void) {
    // SAFETY: r12 survives the call, and the stack pointer is as before after it.
    unsafe {
        asm!(
            "xchg rsp, r12",
            "call {function}",
            "mov rsp, r12",
            function = in(reg) function,
            inout("r12") top => _,
            in("rdi") argument,
            clobber_abi("C"),
        );
    }
}

/// The most stack of any of the calls, which is within the bar; for the eye, with --nocapture.
fn measured(name: &str, bar: usize, needs: impl Iterator<Item = usize>) {
    let most = needs.max().expect("there are calls");
    println!("{name} needs {most} bytes of stack, at most {bar}");
    assert!(most <= bar, "{name} needs {most} bytes of stack, more than {bar}");
}

/// Jobs up to every limit, contended ones, some with pairs or rights, and damaged files.
fn files() -> Vec<Vec<u8>> {
    let mut files: Vec<Vec<u8>> = gen::built().iter().map(file).collect();
    for seed in 0..100 {
        let mut random = Random::new(seed);
        files.push(file(&gen::larger(&mut random)));
        let (contended, waiting) = (gen::contended(&mut random), gen::waiting(&mut random));
        for job in [contended, waiting, gen::entitled(&mut random)] {
            files.push(file(&job));
            files.push(gen::damaged(&mut random, &job).0);
        }
    }
    files.extend([gen::most_pairs(), gen::longest_wait()].iter().map(file));
    files.push(file(&Job::new(
        4_096,
        MAX_HEADS,
        &[Request::union(MAX_HEADS as u8 - 1, 4_095, 4_094); 512],
        &[(MAX_HEADS as u8 - 1, 13 + 511 * 6)],
    )));
    files
}

fn file(job: &Job) -> Vec<u8> {
    job.accepted()
}

#[test]
fn play() {
    let mut painted = Painted::new();
    let used = |file: Vec<u8>| {
        let Outcome { mut table, mut report, mut lineup, .. } = Outcome::untouched(0, AMPLE);
        painted.used(|| _ = core::play(&file, &mut table, &mut report, &mut lineup))
    };
    measured("play", stack::PLAY, files().into_iter().map(used));
}

#[test]
fn play_lent() {
    let mut painted = Painted::new();
    let used = |file: Vec<u8>| {
        let Outcome { mut table, mut report, mut lineup, .. } = Outcome::untouched(0, AMPLE);
        let mut tally = Tally::default();
        painted
            .used(|| _ = core::play_lent(&file, &mut table, &mut report, &mut lineup, &mut tally))
    };
    measured("play_lent", stack::PLAY_LENT, files().into_iter().map(used));
}

#[test]
fn write() {
    let mut painted = Painted::new();
    let mut out = vec![0; core::MOST_FILE];
    let mut jobs = gen::built();
    jobs.push(Job::new(1, 2, &[], &[(0, 2_088_195), (1, 1)]));
    jobs.extend((0..200).map(|seed| gen::larger(&mut Random::new(seed))));
    jobs.extend((0..200).map(|seed| gen::waiting(&mut Random::new(seed))));
    jobs.extend((0..200).map(|seed| gen::entitled(&mut Random::new(seed))));
    jobs.extend([gen::most_pairs(), gen::longest_wait()]);
    let used = |job: Job| {
        let Draft { nodes, heads, rights, requests, waits, grants } = job.draft();
        painted.used(|| {
            _ = core::write(nodes, heads, &rights, &requests, &waits, &grants, &mut out);
        })
    };
    measured("write", stack::WRITE, jobs.into_iter().map(used));
}

/// The first and the last head's sheet of each file, one for no head, and one that has no room.
#[test]
fn sheet() {
    let mut painted = Painted::new();
    let mut out = vec![0; core::MOST_SHEET];
    let used = |file: Vec<u8>| {
        let heads = [0, MAX_HEADS - 1, MAX_HEADS];
        let short = painted.used(|| _ = core::sheet(&file, 0, &mut []));
        let most = heads.map(|head| painted.used(|| _ = core::sheet(&file, head, &mut out)));
        most.into_iter().fold(short, usize::max)
    };
    measured("sheet", stack::SHEET, files().into_iter().map(used));
}

/// The largest listing, of the longest numbers that a caller can hand over, whole and refused.
#[test]
fn list() {
    let mut painted = Painted::new();
    let most = u32::MAX;
    let tally = Tally { idle: most, failed: most, links: most, working: most };
    let (places, requests, entries) = (core::MOST_PLACES, core::MOST_REQUESTS, core::MOST_REQUESTS);
    let largest = Played { number: 0, places, heads: most, requests, grants: most, entries, tally };
    let refused = Played { number: most, ..Played::default() };
    let (table, report, lineup) = (
        vec![most; core::MOST_TABLE],
        vec![most; core::MOST_REPORT],
        vec![most; core::MOST_LINEUP],
    );
    let calls = [(largest, core::MOST_LISTING), (largest, 0), (refused, core::MOST_LISTING)];
    let used = |(played, room): (Played, usize)| {
        let mut text = vec![0; room];
        painted.used(|| _ = core::list(played, &table, &report, &lineup, &mut text))
    };
    measured("list", stack::LIST, calls.into_iter().map(used));
}

/// Pages of the most rows, of one long way, of any tables, and refused ones.
#[test]
fn page() {
    let mut painted = Painted::new();
    let mut random = Random::new(0);
    let (mut rows, mut page) = (vec![Row::default(); core::MOST_ROWS], vec![0; core::MOST_PAGE]);
    let mut tables = vec![(0..4_096).collect(), vec![4_095; 4_096], chain(), vec![], vec![1, 0]];
    for _ in 0..100 {
        let places = random.between(1, 4_096);
        tables.push(gen::admitted_table(&mut random, places));
    }
    let used = |table: Vec<u32>| {
        let short = painted.used(|| _ = core::page(&table, &mut rows, &mut []));
        painted.used(|| _ = core::page(&table, &mut rows, &mut page)).max(short)
    };
    measured("page", stack::PAGE, tables.into_iter().map(used));
}

#[test]
fn limits() {
    let mut painted = Painted::new();
    let used = |places| painted.used(|| _ = core::limits(places));
    measured("limits", stack::LIMITS, [0, 1, 4_096, 4_097, u32::MAX].into_iter().map(used));
}

/// A chain of all places: no enquiry that is known takes more grants than the one from its end.
fn chain() -> Vec<u32> {
    (0..4_096).map(|place: u32| (place + 1).min(4_095)).collect()
}

#[test]
fn query() {
    let mut painted = Painted::new();
    let mut random = Random::new(0);
    let mut tables =
        vec![(chain(), 0, 1), (chain(), 1, 0), (chain(), 4_095, 0), (chain(), 0, 4_096)];
    for _ in 0..200 {
        let places = random.between(1, 4_096);
        let (x, y) = (random.below(places), random.below(places));
        tables.push((gen::admitted_table(&mut random, places), x, y));
    }
    let used = |(mut table, x, y): (Vec<u32>, u32, u32)| {
        painted.used(|| _ = core::query(&mut table, x, y, core::MOST_ALLOWANCE))
    };
    measured("query", stack::QUERY, tables.into_iter().map(used));

    // Only then is the thread safe to try.
    let asked = || core::query(&mut chain(), 0, 1, core::MOST_ALLOWANCE);
    let thread = thread::Builder::new().stack_size(THREAD).spawn(asked).expect("a thread");
    let queried = thread.join().expect("the enquiry ends");
    assert_eq!((queried.answer(), queried.used), (Some(core::Answer::Yes), 12_290));
}
