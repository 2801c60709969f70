//! The known wrong turns: the jobs tell each of them from the rules, and the demands catch those
//! that leave a wrong result.

use peer::demand;
use peer::gen::{self, Random};
use peer::head::Access;
use peer::job::{Job, Request};
use peer::numbers::answer;
use peer::play;
use peer::player::{Outcome, AMPLE};

use crate::plain::{self, Turn, WRONG_TURNS};

use crate::Accepted;

fn taking(turn: Turn, file: &[u8]) -> (Outcome, Vec<Access>) {
    let trace = std::cell::RefCell::new(Vec::new());
    let play = |file: &[u8], table: &mut [u32], report: &mut [u32], lineup: &mut [u32]| {
        plain::play(turn, file, table, report, lineup, &mut trace.borrow_mut())
    };
    let outcome = Outcome::of(play, file, AMPLE);
    (outcome, trace.into_inner())
}

fn jobs() -> impl Iterator<Item = Job> {
    let seeded = (0..2_000).map(|seed| gen::contended(&mut Random::new(seed)));
    let waiting = (0..1_000).map(|seed| gen::waiting(&mut Random::new(seed)));
    gen::built().into_iter().chain(seeded).chain(waiting)
}

#[test]
fn jobs_tell_every_wrong_turn() {
    for turn in WRONG_TURNS {
        let told = |job: &Job| {
            let file = job.accepted();
            taking(turn, &file).0 != Outcome::of(play::play, &file, AMPLE)
        };
        assert!(jobs().filter(told).count() >= 5, "{turn:?}");
    }
}

#[test]
fn demands_catch_wrong_results() {
    let caught = |turn| {
        jobs().any(|job| {
            let (outcome, trace) = taking(turn, &job.accepted());
            demand::check(&job, &trace, &outcome).is_err()
        })
    };
    // The others cost grants or move words, and are right about every request.
    let harmless = [
        Turn::ParentReadBeforeSwap,
        Turn::RetryUnexchanged,
        Turn::HalvingSkippedAtRoot,
        Turn::RaiseTriedAgain,
        Turn::TidyingFromY,
    ];
    for turn in WRONG_TURNS {
        assert_eq!(caught(turn), !harmless.contains(&turn), "{turn:?}");
    }
}

/// Document 01's job of 38 bytes has six grants for its union.
fn thirty_eight(of_union: usize) -> Job {
    let requests = [Request::union(0, 2, 3), Request::same_set(1, 0, 1)];
    Job::new(4, 2, &requests, &[(1, 2), (0, of_union), (1, 1)])
}

type Change = fn(&mut Outcome);

/// A result with one number changed breaks a sentence.
#[test]
fn demands_name_what_is_wrong() {
    // As many grants as the union now takes, so that both requests end.
    let job = thirty_eight(13);
    let (right, trace) = Outcome::traced(&job.accepted(), AMPLE);
    let sentence = |change: Change| {
        let mut wrong = right.clone();
        change(&mut wrong);
        demand::check(&job, &trace, &wrong).expect_err("something is wrong")
    };
    let cases: [(Change, &str); 9] = [
        (|o| o.table[2] = 2, "the table is what the writes left"),
        (|o| o.table[4] = 0, "numbers past the used parts stay"),
        (|o| o.report[3] = 7, "the grants used are the request's"),
        (|o| o.report[6] = 8, "the last grant ends it, or 0"),
        (|o| o.report[4] = 3, "a point is where the rules put it"),
        (|o| o.lineup[0] = 9, "points rise"),
        (|o| o.lineup[2] = 8, "a point is where the rules put it"),
        (|o| o.lineup[3] = 1, "a finished request is entered once"),
        (|o| o.played.tally.links = 2, "links are counted"),
    ];
    for (change, broken) in cases {
        assert_eq!(sentence(change), broken);
    }
}

/// A union that ends with its rank swap, as document 01's did, has not tidied up.
#[test]
fn demands_want_unions_tidied_up() {
    let job = thirty_eight(6);
    let (mut outcome, trace) = Outcome::traced(&job.accepted(), AMPLE);
    assert_eq!(demand::check(&job, &trace, &outcome), Ok(()));
    outcome.report[..4].copy_from_slice(&[answer::JOINED, 3, 8, 6]);
    outcome.played.tally.working = 0;
    let verdict = demand::check(&job, &trace, &outcome);
    assert_eq!(verdict, Err("a union reads the linked node before its last swap"));
}

/// Head 1 asks about what head 0 joins, and is to wait for it.
#[test]
fn demands_want_waits_kept() {
    let requests = [Request::union(0, 0, 1), Request::same_set(1, 0, 1)];
    let verdict = |turn, runs: &[(u8, usize)]| {
        let job = Job::new(2, 2, &requests, runs).waiting(&[(1, 0)]);
        let (outcome, trace) = taking(turn, &job.accepted());
        demand::check(&job, &trace, &outcome)
    };
    let before = "what waited stands after what it waited for";
    let early = "what waits begins after what it waits for ends";
    let late = "a head with work left is idle only where it waits";
    let cases = [
        (Turn::Right, [(1, 3), (0, 13), (1, 6)], Ok(())),
        (Turn::WaitingHeadServed, [(1, 3), (0, 13), (1, 1)], Err(before)),
        (Turn::WaitingHeadServed, [(1, 1), (0, 13), (1, 1)], Err(early)),
        (Turn::WaitOverAtFirstGrant, [(0, 1), (1, 1), (0, 12)], Err(early)),
        (Turn::WaitOverAtLink, [(0, 12), (1, 1), (0, 1)], Err(early)),
        (Turn::WaitEndsOneGrantLate, [(1, 1), (0, 13), (1, 1)], Err(late)),
    ];
    for (turn, runs, told) in cases {
        assert_eq!(verdict(turn, &runs), told, "{turn:?} {runs:?}");
    }
}

/// A same-set that never says no is right about everything but its end.
#[test]
fn demands_want_requests_to_end() {
    let verdict = |turn, grants| {
        let job = Job::new(2, 1, &[Request::same_set(0, 0, 1)], &[(0, grants)]);
        let (outcome, trace) = taking(turn, &job.accepted());
        demand::check(&job, &trace, &outcome)
    };
    let (ends, most) =
        ("a request that used its limit is finished", "no request uses more grants than its limit");
    let cases = [
        (Turn::Right, 23, Ok(())),
        (Turn::NoTriedAgain, 21, Ok(())),
        (Turn::NoTriedAgain, 22, Err(ends)),
        (Turn::NoTriedAgain, 23, Err(most)),
    ];
    for (turn, grants, told) in cases {
        assert_eq!(verdict(turn, grants), told, "{turn:?} {grants}");
    }
}
