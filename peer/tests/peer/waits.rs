//! Document 02's pairs: played cases with the whole text printed for each, refusals at the record,
//! and the request that each head waits for after every grant.

use peer::gen::{self, Random};
use peer::job::{self, Job, Request};
use peer::numbers::{answer, refusal};
use peer::play;
use peer::player::{Outcome, AMPLE, PEER};

use crate::{Accepted, PLAYERS};

fn union(head: u8, x: u32, y: u32) -> Request {
    Request::union(head, x, y)
}

fn same_set(head: u8, x: u32, y: u32) -> Request {
    Request::same_set(head, x, y)
}

/// Every player prints these lines for this file.
fn lists(name: &str, file: &[u8], lines: &[&str]) {
    let text: String = lines.iter().map(|line| format!("{line}\n")).collect();
    for player in PLAYERS {
        assert_eq!((player.list)(file), text, "{}: {name}", player.name);
    }
    assert_eq!(job::read(file).expect(name).file().as_deref(), Ok(file), "{name}");
}

/// Two nodes, two heads: head 0 joins them, head 1 asks about them once that is done.
fn sealed(runs: &[(u8, usize)]) -> Job {
    Job::new(2, 2, &[union(0, 0, 1), same_set(1, 0, 1)], runs).waiting(&[(1, 0)])
}

#[test]
fn bytes_of_a_pair() {
    let file = [
        0x44, 0x4B, 0x02, 0x00, 0x02, 0x00, // two nodes, two heads
        0x52, 0x51, 0x00, 0x01, 0x00, 0x00, 0x01, 0x00, //
        0x52, 0x51, 0x01, 0x02, 0x00, 0x00, 0x01, 0x00, //
        0x41, 0x46, 0x01, 0x00, 0x00, 0x00, // request 1 waits for request 0
        0x47, 0x52, 0x01, 0x03, 0x47, 0x52, 0x00, 0x0D, 0x47, 0x52, 0x01, 0x06, //
        0x43, 0x4C, 0xB5, 0x6F,
    ];
    let runs = [(1, 3), (0, 13), (1, 6)];
    assert_eq!(job::read(&file), Ok(sealed(&runs)));
    let of_pair = [
        "job 2 2 2 22",
        "word 0 1 0",
        "word 1 1 1",
        "request 0 1 4 16 13",
        "request 1 3 17 22 6",
        "line 8 0",
        "line 22 1",
        "tally 3 1 1 0",
    ];
    lists("a pair", &file, &of_pair);

    let without = sealed(&runs).waiting(&[]).accepted();
    assert_eq!(without[without.len() - 4..], [0x43, 0x4C, 0xF7, 0xB5]);
    let of_none = [
        "job 2 2 2 22",
        "word 0 1 0",
        "word 1 1 1",
        "request 0 1 4 16 13",
        "request 1 4 1 3 3",
        "line 2 1",
        "line 8 0",
        "tally 6 1 1 0",
    ];
    lists("the same without it", &without, &of_none);
}

#[test]
fn linked_is_not_finished() {
    let file = sealed(&[(0, 12), (1, 2)]).accepted();
    assert_eq!(file[file.len() - 4..], [0x43, 0x4C, 0xFD, 0xC9]);
    let linked = [
        "job 2 2 2 14",
        "word 0 1 0",
        "word 1 1 1",
        "request 0 0 1 0 12",
        "request 1 0 0 0 0",
        "line 5 0",
        "tally 2 0 1 2",
    ];
    lists("a linked union is waited for", &file, &linked);
    let finished = [
        "job 2 2 2 15",
        "word 0 1 0",
        "word 1 1 1",
        "request 0 1 1 13 13",
        "request 1 0 14 0 2",
        "line 5 0",
        "tally 0 1 1 1",
    ];
    let file = sealed(&[(0, 13), (1, 2)]).accepted();
    lists("a finished one no longer", &file, &finished);
}

#[test]
fn pairs_of_one_head() {
    let job = Job::new(2, 1, &[union(0, 0, 1), same_set(0, 0, 1)], &[(0, 19)]);
    let lines = [
        "job 2 1 2 19",
        "word 0 1 0",
        "word 1 1 1",
        "request 0 1 1 13 13",
        "request 1 3 14 19 6",
        "line 5 0",
        "line 19 1",
        "tally 0 1 1 0",
    ];
    lists("no pair", &job.accepted(), &lines);
    lists("no effect", &job.waiting(&[(1, 0)]).accepted(), &lines);
}

/// Four nodes, three heads: two unions, and a same-set about both.
fn three_heads(runs: &[(u8, usize)]) -> Job {
    Job::new(4, 3, &[union(0, 0, 1), union(1, 2, 3), same_set(2, 0, 3)], runs)
}

const JOINED_TWICE: [&str; 4] = ["word 0 1 0", "word 1 1 1", "word 2 3 0", "word 3 3 1"];

#[test]
fn more_pairs() {
    let both = three_heads(&[(2, 1), (1, 13), (2, 1), (0, 13), (2, 3)]).waiting(&[(2, 0), (2, 1)]);
    let after_both = [
        "request 0 1 16 28 13",
        "request 1 1 2 14 13",
        "request 2 0 29 0 3",
        "line 6 1",
        "line 20 0",
        "tally 2 2 2 1",
    ];
    let lines = [&["job 4 3 3 31"], &JOINED_TWICE[..], &after_both].concat();
    lists("one waits for two", &both.accepted(), &lines);

    let chain = three_heads(&[(2, 2), (1, 2), (0, 13), (1, 13), (2, 3)]);
    let after_chain = [
        "request 0 1 5 17 13",
        "request 1 1 18 30 13",
        "request 2 0 31 0 3",
        "line 9 0",
        "line 22 1",
        "tally 4 2 2 1",
    ];
    let lines = [&["job 4 3 3 33"], &JOINED_TWICE[..], &after_chain].concat();
    let chain = chain.waiting(&[(1, 0), (2, 1)]);
    lists("one after the other", &chain.accepted(), &lines);
}

#[test]
fn a_head_waits_with_its_second_request() {
    let requests = [union(0, 0, 1), same_set(1, 0, 0), same_set(1, 0, 1)];
    let job = Job::new(2, 2, &requests, &[(1, 3), (0, 13), (1, 6)]).waiting(&[(2, 0)]);
    let lines = [
        "job 2 2 3 22",
        "word 0 1 0",
        "word 1 1 1",
        "request 0 1 4 16 13",
        "request 1 3 1 2 2",
        "request 2 3 17 22 6",
        "line 2 1",
        "line 8 0",
        "line 22 2",
        "tally 1 1 1 0",
    ];
    lists("its first one ends", &job.accepted(), &lines);
}

/// The longest files that there can be, which no file without pairs reaches.
#[test]
fn longest_files() {
    let most = gen::most_pairs();
    assert_eq!((most.requests.len(), most.waits.len()), (512, 4_777));
    for job in [most, gen::longest_wait()] {
        let file = job.accepted();
        assert_eq!(file.len(), job::MAX_BYTES);
        for player in PLAYERS {
            let outcome = Outcome::of(player.play, &file, AMPLE);
            // Every grant waits, where there are any.
            let idle = outcome.played.tally.idle as usize;
            assert_eq!((outcome.played.number, idle), (0, job.grants.len()), "{}", player.name);
            assert_eq!(outcome, Outcome::of(PEER.play, &file, AMPLE), "{}", player.name);
        }
    }
    // One pair more, or one grant that needs a run.
    let longer = Job { waits: gen::nearest_pairs(512, 1, 4_778), ..gen::most_pairs() };
    assert_eq!(longer.file(), Err(refusal::FILE_TOO_LONG));
    let mut longer = gen::longest_wait();
    longer.grants.push(1);
    assert_eq!(longer.file(), Err(refusal::FILE_TOO_LONG));
}

/// So many requests, pairs and other bytes behind an opening of four nodes and two heads.
fn begun(requests: usize, pairs: &[(u16, u16)], rest: &[u8]) -> Vec<u8> {
    let mut file = b"DK\x04\0\x02\0".to_vec();
    file.extend(b"RQ\0\x01\0\0\x01\0".repeat(requests));
    for (later, earlier) in pairs {
        file.extend([*b"AF", later.to_le_bytes(), earlier.to_le_bytes()].as_flattened());
    }
    file.extend(rest);
    file
}

/// Every player refuses the file with this number, and the reader does.
fn refuses(file: &[u8], number: u32) {
    assert_eq!(job::read(file), Err(number), "{file:02X?}");
    for player in PLAYERS {
        let outcome = Outcome::of(player.play, file, AMPLE);
        assert_eq!(outcome, Outcome::untouched(number, AMPLE), "{}: {file:02X?}", player.name);
    }
}

/// Requests, pairs and the bytes behind them, and the number that they are refused with.
type Refused<'a> = (usize, &'a [(u16, u16)], &'a [u8], u32);

fn refuses_all(rows: &[Refused]) {
    for &(requests, pairs, rest, number) in rows {
        refuses(&begun(requests, pairs, rest), number);
    }
}

#[test]
fn refused_pairs() {
    refuses_all(&[
        (0, &[(0, 0)], b"", 18),
        (1, &[(0, 0)], b"", 18),
        (1, &[(1, 0)], b"", 18),
        (2, &[(1, 1)], b"", 18),
        (2, &[(0, 1)], b"", 18),
        (2, &[(1, 2)], b"", 18),
        (2, &[(2, 0)], b"", 18),
        (2, &[(256, 0)], b"", 18),
        (2, &[(65_535, 0)], b"", 18),
        (2, &[(65_535, 65_534)], b"", 18),
        (2, &[(1, 0), (1, 0)], b"", 18),
        (3, &[(2, 1), (2, 0)], b"", 18),
        (3, &[(2, 0), (1, 0)], b"", 18),
        (3, &[(2, 1), (1, 0)], b"", 18),
        (4, &[(1, 0), (3, 0), (2, 1)], b"", 18),
        (512, &[(511, 510), (512, 0)], b"", 18),
    ]);
}

#[test]
fn place_of_a_pair() {
    refuses_all(&[
        // Neither before a request nor behind a run.
        (2, &[(1, 0)], b"RQ\0\x01\0\0\x01\0", 3),
        (2, &[], b"GR\0\x01AF\x01\0\0\0", 3),
        (2, &[], b"GR\0\x01AF\x01\0\x01\0", 3),
        (2, &[(1, 0)], b"DK\x04\0\x02\0", 3),
        // The record is whole before it is looked at.
        (2, &[], b"AF\x01\0\0", 2),
        (2, &[], b"AF\x01\0\x01", 2),
        (2, &[], b"AF", 2),
        (2, &[(1, 0)], b"A", 2),
        (2, &[(1, 0)], b"", 2),
        // Behind the requests' numbers, before the runs', the bytes after the close and the balance.
        (1, &[], b"RQ\0\x01\x04\0\x01\0AF\x01\0\x01\0", 8),
        (512, &[], b"RQ\0\x01\0\0\x01\0AF\x01\0\x01\0", 9),
        (2, &[(1, 1)], b"GR\x02\x01", 18),
        (2, &[(1, 0)], b"GR\x02\x01", 10),
        (2, &[(1, 0)], b"GR\0\x01GR\0\x01", 11),
        (2, &[(1, 1)], b"CL\0\0\0", 18),
        (2, &[(1, 0)], b"CL\0\0\0", 12),
        (2, &[(1, 0)], b"CLAF\x01\0\0\0", 12),
        (2, &[(1, 0)], b"CL\0\0", 13),
    ]);
    // Behind nothing at all, and in a file that is too long.
    refuses(b"AF\x01\0\0\0", 3);
    refuses(&begun(2, &[(1, 1)], &[0; job::MAX_BYTES]), 1);
}

/// What each head waits for, told from the pairs and the report alone.
fn waits_by_report(job: &Job, report: &[u32]) -> Vec<Option<usize>> {
    let unfinished = |number: usize| report[4 * number] == answer::UNFINISHED;
    let of_head = |head: u32| {
        let own = |&number: &usize| u32::from(job.requests[number].head) == head;
        let next = (0..job.requests.len()).filter(own).find(|&number| unfinished(number))?;
        let begun = report[4 * next + 1] != 0;
        let pairs = job.waits.iter().filter(|wait| !begun && wait.later as usize == next);
        pairs.map(|wait| wait.earlier as usize).filter(|&number| unfinished(number)).min()
    };
    (0..job.heads).map(of_head).collect()
}

/// After every grant, the first to the last, each head's record has the request that it waits for.
#[test]
fn what_heads_wait_for() {
    let small = |job: &Job| job.grants.len() <= 120;
    let waiting = (0..400).map(|seed| gen::waiting(&mut Random::new(seed)));
    let held = (0..200).map(|seed| gen::held(&mut Random::new(seed)));
    let mut most = 0;
    for job in waiting.chain(held).filter(small) {
        for grants in 0..=job.grants.len() {
            let file = job.cut(grants).accepted();
            let outcome = Outcome::of(play::play, &file, AMPLE);
            let waits = play::waits_after(&file).expect("accepted");
            assert_eq!(waits, waits_by_report(&job, &outcome.report), "{job:?} {grants}");
            most = most.max(waits.iter().flatten().count());
        }
    }
    assert!(most >= 5, "no more than {most} heads wait at once");
}

/// The head that waits for two requests waits for the lower one until it is finished.
#[test]
fn the_lowest_is_waited_for() {
    let job = three_heads(&[(2, 1), (1, 13), (2, 1), (0, 13), (2, 3)]).waiting(&[(2, 0), (2, 1)]);
    let waits = |grants| play::waits_after(&job.cut(grants).accepted());
    for grants in 0..=31 {
        let of_last = if grants < 28 { Some(0) } else { None };
        assert_eq!(waits(grants), Ok(vec![None, None, of_last]), "{grants}");
    }
    // Once the lower one is finished, the other is left.
    let job = three_heads(&[(0, 13), (1, 13), (2, 1)]).waiting(&[(2, 0), (2, 1)]);
    let waits = |grants| play::waits_after(&job.cut(grants).accepted());
    for (grants, told) in [(12, Some(0)), (13, Some(1)), (25, Some(1)), (26, None), (27, None)] {
        assert_eq!(waits(grants).expect("accepted")[2], told, "{grants}");
    }
}
