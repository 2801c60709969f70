//! Seeded jobs held against the demands on whole runs, the slow reading and the writer.

use std::collections::BTreeSet;

use peer::demand;
use peer::gen::{self, Random};
use peer::head::Access;
use peer::job::{self, Job, Kind, MAX_HEADS};
use peer::limits;
use peer::listing;
use peer::numbers::answer;
use peer::play;
use peer::player::{Lengths, Outcome, AMPLE};

use crate::plain::{self, Turn};
use crate::writer::written;
use crate::{Accepted, PLAYERS};

const JOBS: u64 = 20_000;

fn by_plain(file: &[u8], lengths: Lengths) -> Outcome {
    let play = |file: &[u8], table: &mut [u32], report: &mut [u32], lineup: &mut [u32]| {
        plain::play(Turn::Right, file, table, report, lineup, &mut Vec::new())
    };
    Outcome::of(play, file, lengths)
}

/// What a job must show, whatever it is.
fn check(job: &Job, more: usize) -> demand::Verdict {
    let file = job.accepted();
    assert_eq!((job::read(&file).as_ref(), job::check(&file)), (Ok(job), Ok(job.shape())));
    let lengths = Lengths::exact(job).and(more);
    let (outcome, trace) = Outcome::traced(&file, lengths);
    for player in PLAYERS {
        let played = Outcome::of(player.play, &file, lengths);
        assert_eq!(played, outcome, "{}", player.name);
        let again = written(&player, &job.draft(), file.len() + more);
        assert_eq!(again.as_ref(), Ok(&file), "{}", player.name);
    }
    assert_eq!(outcome, by_plain(&file, lengths));
    demand::check(job, &trace, &outcome)
}

#[test]
fn contended_jobs() {
    for seed in 0..JOBS {
        let job = gen::contended(&mut Random::new(seed));
        assert_eq!(check(&job, (seed % 3) as usize), Ok(()), "seed {seed}");
    }
}

#[test]
fn waiting_jobs() {
    for seed in 0..JOBS / 2 {
        let job = gen::waiting(&mut Random::new(seed));
        assert!(job.waits.len() <= 30);
        assert_eq!(check(&job, (seed % 3) as usize), Ok(()), "seed {seed}");
    }
}

/// A job with rights leaves what it leaves without them.
#[test]
fn jobs_with_rights() {
    for seed in 0..JOBS / 2 {
        let job = gen::entitled(&mut Random::new(seed));
        assert_eq!(job.rights.len(), job.heads as usize);
        assert_eq!(check(&job, (seed % 3) as usize), Ok(()), "seed {seed}");
        let file = |job: &Job| job.accepted();
        let (with, without) = (file(&job), file(&Job { rights: Vec::new(), ..job }));
        for player in PLAYERS {
            let left = |file| Outcome::of(player.play, file, AMPLE);
            assert_eq!(left(&with), left(&without), "{}: seed {seed}", player.name);
        }
    }
}

/// The grants at which a head is idle though it has work left.
fn waiting_grants(job: &Job) -> usize {
    let (outcome, trace) = Outcome::traced(&job.accepted(), AMPLE);
    let busy = |now: u32| trace.binary_search_by_key(&now, |access| access.grant).is_ok();
    let works = |head: u8, now: u32| {
        let rows = job.requests.iter().zip(outcome.report.chunks_exact(4));
        let mut own = rows.filter(|(request, _)| request.head == head);
        own.any(|(_, row)| row[0] == answer::UNFINISHED || row[2] > now)
    };
    let grants = (1..).zip(&job.grants);
    grants.filter(|&(now, &head)| !busy(now) && works(head, now)).count()
}

#[test]
fn jobs_of_which_a_tenth_waits() {
    for seed in 0..JOBS / 4 {
        let job = gen::held(&mut Random::new(seed));
        let (waiting, grants) = (waiting_grants(&job), job.grants.len());
        assert!(10 * waiting >= grants, "seed {seed}: {waiting} of {grants}");
        assert!((1..=46).contains(&job.waits.len()));
        assert_eq!(check(&job, (seed % 3) as usize), Ok(()), "seed {seed}");
    }
}

/// The part of its limit that a request has used, in hundredths: the most of a job's requests of a
/// kind.
fn most_of_the_limit(job: &Job, kind: Kind) -> u32 {
    let outcome = Outcome::traced(&job.accepted(), AMPLE).0;
    let rows = job.requests.iter().zip(outcome.report.chunks_exact(4));
    let own = rows.filter(|(request, _)| request.kind == kind);
    own.map(|(_, row)| 100 * row[3] / limits::of(kind, job.nodes)).max().unwrap_or(0)
}

/// Unions that are held before their links keep other requests long.
#[test]
fn jobs_that_keep_requests_long() {
    let (mut of_same_set, mut of_union) = (0, 0);
    for seed in 0..JOBS / 4 {
        let job = gen::poised(&mut Random::new(seed));
        of_same_set = of_same_set.max(most_of_the_limit(&job, Kind::SameSet));
        of_union = of_union.max(most_of_the_limit(&job, Kind::Union));
        assert_eq!(check(&job, (seed % 3) as usize), Ok(()), "seed {seed}");
    }
    assert!(of_same_set >= 80 && of_union >= 40, "{of_same_set} {of_union}");
}

#[test]
fn larger_jobs() {
    for seed in 0..200 {
        let job = gen::larger(&mut Random::new(seed));
        assert_eq!(check(&job, 1), Ok(()), "seed {seed}");
    }
}

#[test]
fn built_jobs() {
    for job in gen::built() {
        assert_eq!(check(&job, 0), Ok(()), "{job:?}");
    }
}

/// Sixteen heads wait, and every request ends.
#[test]
fn jobs_with_thousands_of_pairs() {
    for job in [gen::one_after_the_other(), gen::head_after_head()] {
        let tally = Outcome::traced(&job.accepted(), AMPLE).0.played.tally;
        assert_eq!(tally.working, 0);
        assert!(2 * tally.idle as usize > job.grants.len(), "most grants are idle");
        assert_eq!(check(&job, 0), Ok(()));
    }
}

#[test]
fn a_cut_leaves_what_the_grants_before_it_left() {
    let small = |job: &Job| job.grants.len() <= 120;
    let seeded = (0..1_000).map(|seed| gen::contended(&mut Random::new(seed)));
    let waiting = (0..1_000).map(|seed| gen::waiting(&mut Random::new(seed)));
    let held = (0..500).map(|seed| gen::held(&mut Random::new(seed)));
    let poised = (0..500).map(|seed| gen::poised(&mut Random::new(seed)));
    let all = seeded.chain(waiting).chain(held).chain(poised).chain(gen::built());
    for job in all.filter(small) {
        let (_, trace) = Outcome::traced(&job.accepted(), AMPLE);
        for grants in 0..=job.grants.len() {
            let cut = job.cut(grants);
            let before: Vec<_> = trace
                .iter()
                .copied()
                .take_while(|access| access.grant as usize <= grants)
                .collect();
            let (outcome, of_cut) = Outcome::traced(&cut.accepted(), AMPLE);
            assert_eq!(of_cut, before);
            for player in PLAYERS {
                let played = Outcome::of(player.play, &cut.accepted(), AMPLE);
                assert_eq!(played, outcome, "{}", player.name);
            }
            assert_eq!(demand::check(&cut, &before, &outcome), Ok(()), "{cut:?}");
        }
    }
}

/// One job in four has the most heads, and all of them work. The last one's work ends in some of
/// them and is left in others, and where it has waited it goes on: its bit in a mask of the heads,
/// the highest of 32, is set and cleared.
#[test]
fn the_last_of_the_most_heads_works() {
    let last = MAX_HEADS as usize - 1;
    let (mut of_heads, mut crowded) = ([0; MAX_HEADS as usize], 0);
    let (mut ended, mut left, mut waited) = (0, 0, 0);
    for seed in 0..2_000 {
        let job = gen::contended(&mut Random::new(seed));
        of_heads[job.heads as usize - 1] += 1;
        let heads: BTreeSet<u8> = job.requests.iter().map(|request| request.head).collect();
        if heads.len() == MAX_HEADS as usize {
            crowded += 1;
            let work_ends = works_to_its_end(&job, last as u8);
            ended += u32::from(work_ends);
            left += u32::from(!work_ends);
        }
        let job = gen::held(&mut Random::new(seed));
        let at_first = play::waits_after(&job.cut(0).accepted());
        let waits = |waits: Vec<Option<usize>>| waits.get(last).is_some_and(Option::is_some);
        waited += u32::from(at_first.is_ok_and(waits) && works_to_its_end(&job, last as u8));
    }
    assert!(of_heads.into_iter().all(|jobs| jobs >= 25), "{of_heads:?}");
    assert!((400..600).contains(&crowded), "{crowded}");
    assert!(ended.min(left).min(waited) >= 50, "{ended} {left} {waited}");
}

/// Whether every request of a head is finished.
fn works_to_its_end(job: &Job, head: u8) -> bool {
    let outcome = Outcome::traced(&job.accepted(), AMPLE).0;
    let rows = job.requests.iter().zip(outcome.report.chunks_exact(4));
    rows.filter(|(request, _)| request.head == head).all(|(_, row)| row[0] != answer::UNFINISHED)
}

/// The jobs are worth playing: heads get in each other's way in every manner there is.
#[test]
fn jobs_contend() {
    let (mut halvings, mut links, mut raises, mut linked, mut moved) = (0, 0, 0, 0, 0);
    let (mut last_wrote, mut last_failed) = (0, 0);
    for seed in 0..2_000 {
        let job = gen::contended(&mut Random::new(seed));
        let (outcome, trace) = Outcome::traced(&job.accepted(), AMPLE);
        let tidies = |access: &&Access| {
            let row = &outcome.report[4 * access.request..];
            row[0] == answer::JOINED && row[2] == access.grant
        };
        for access in trace.iter().filter(tidies) {
            last_wrote += u32::from(access.wrote());
            last_failed += u32::from(access.failed());
        }
        for access in trace.iter().filter(|access| access.failed() && !tidies(access)) {
            links += u32::from(access.tries_link());
            raises += u32::from(access.tries_raise());
            halvings += u32::from(!access.tries_link() && !access.tries_raise());
        }
        let entered = outcome.lineup.chunks(2).take(outcome.played.entries as usize);
        for entry in entered.clone() {
            let [told, _, last, _] = outcome.report[4 * entry[1] as usize..][..4] else { panic!() };
            linked += u32::from(told == answer::UNFINISHED);
            let overtakes = |later: &[u32]| entry[0] < later[0] && later[0] < last;
            moved += u32::from(told == answer::NO && entered.clone().any(overtakes));
        }
    }
    let least = [halvings, links, raises, linked, moved, last_wrote, last_failed].into_iter().min();
    assert!(
        least >= Some(100),
        "{halvings} {links} {raises} {linked} {moved} {last_wrote} {last_failed}"
    );
    // One last swap of a union in a hundred has something to do, or the jobs are too tame.
    assert!(100 * last_wrote >= last_wrote + last_failed, "{last_wrote} {last_failed}");
}

#[test]
fn a_listing_shows_the_outcome() {
    for seed in 0..JOBS {
        let job = gen::varied(&mut Random::new(seed));
        let file = job.accepted();
        let Outcome { played, table, report, lineup } = by_plain(&file, AMPLE);
        let text = listing::text(&played, &table, &report, &lineup);
        for player in PLAYERS {
            assert_eq!((player.list)(&file), text, "{}", player.name);
        }
        let lines = 2 + played.nodes + played.requests + played.entries;
        assert_eq!(text.lines().count(), lines as usize);
    }
}
