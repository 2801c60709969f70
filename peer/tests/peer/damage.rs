//! Damaged files and short buffers: which number, and nothing written.

use peer::gen::{self, Expected, Random, RIGHT_FAULTS, WAIT_FAULTS};
use peer::job::{self, MAX_BYTES};
use peer::numbers::refusal;
use peer::player::{Lengths, Outcome, Player, AMPLE, PEER};
use peer::sheet::Listed;

use crate::writer::written;
use crate::{Accepted, PLAYERS};

const FILES: u64 = 20_000;

/// The number that a file gives to a player, which is the reader's too.
fn number(player: &Player, file: &[u8]) -> u32 {
    let outcome = Outcome::of(player.play, file, AMPLE);
    let number = outcome.played.number;
    match job::read(file) {
        Ok(job) => {
            assert_eq!(outcome, Outcome::of(PEER.play, file, AMPLE), "{}", player.name);
            assert_eq!(number, refusal::NONE);
            // An accepted file's meaning is written as that file.
            let again = written(player, &job.draft(), MAX_BYTES);
            assert_eq!(again.as_deref(), Ok(file));
        }
        Err(read) => {
            assert_eq!(number, read);
            assert_eq!(outcome, Outcome::untouched(number, AMPLE));
            assert_eq!((player.list)(file), format!("refused {number}\n"));
            let mut out = [0xEE; 8];
            assert_eq!((player.sheet)(file, u32::MAX, &mut out), Listed::refused(number));
            assert_eq!(out, [0xEE; 8]);
        }
    }
    number
}

fn seeded(seed: u64) -> (Vec<u8>, Expected) {
    let mut random = Random::new(seed);
    let job = gen::varied(&mut random);
    gen::damaged(&mut random, &job)
}

/// The numbers that a file can be refused with before buffers are looked at, and that of none.
pub fn of_files() -> impl Iterator<Item = u32> {
    let of_rights = [refusal::RIGHTS, refusal::REQUEST_RIGHTS];
    (refusal::NONE..=refusal::BALANCE).chain([refusal::WAIT]).chain(of_rights)
}

#[test]
fn damaged_files_reach_every_number() {
    for player in PLAYERS {
        let mut reached = [0; 21];
        for seed in 0..FILES {
            let (file, expected) = seeded(seed);
            let number = number(&player, &file);
            reached[number as usize] += 1;
            match expected {
                Expected::Anything => (),
                Expected::Refused => assert_ne!(number, refusal::NONE, "seed {seed}"),
                Expected::Number(told) => assert_eq!(number, told, "seed {seed}"),
            }
        }
        assert!(of_files().all(|number| reached[number as usize] >= 100), "{reached:?}");
    }
}

/// Each of the four ways in which a pair is refused, in files that are accepted without it.
#[test]
fn spoilt_pairs() {
    for (player, fault) in
        PLAYERS.iter().flat_map(|player| WAIT_FAULTS.map(|fault| (player, fault)))
    {
        let mut spoilt = 0;
        for seed in 0..1_000 {
            let mut random = Random::new(seed);
            let job = gen::waiting(&mut random);
            let file = job.accepted();
            let (file, expected) = gen::wait_spoilt(&mut random, file, &job, fault);
            let number = number(player, &file);
            assert_eq!(Expected::Number(number), expected, "{fault:?}, seed {seed}");
            spoilt += u32::from(number == refusal::WAIT);
        }
        assert!(spoilt >= 500, "{fault:?}: {spoilt}");
    }
}

/// Each of the ways in which rights are refused, in files that are accepted without it.
#[test]
fn spoilt_rights() {
    for (player, fault) in
        PLAYERS.iter().flat_map(|player| RIGHT_FAULTS.map(|fault| (player, fault)))
    {
        let mut spoilt = 0;
        for seed in 0..1_000 {
            let mut random = Random::new(seed);
            let job = gen::entitled(&mut random);
            let file = job.accepted();
            let (file, expected) = gen::right_spoilt(&mut random, file, &job, fault);
            let number = number(player, &file);
            assert_eq!(Expected::Number(number), expected, "{fault:?}, seed {seed}");
            spoilt += u32::from(number != refusal::NONE);
        }
        assert!(spoilt >= 500, "{fault:?}: {spoilt}");
    }
}

const NOTHING: Lengths = Lengths { table: 0, report: 0, lineup: 0 };

#[test]
fn short_buffers() {
    for (player, seed) in PLAYERS.iter().flat_map(|player| (0..2_000).map(move |n| (player, n))) {
        let job = gen::varied(&mut Random::new(seed));
        let file = job.accepted();
        let exact = Lengths::exact(&job);
        assert_eq!(Outcome::of(player.play, &file, exact).played.number, refusal::NONE);
        let table = Lengths { table: exact.table - 1, ..exact };
        let report = Lengths { report: exact.report - 1, ..exact };
        let lineup = Lengths { lineup: exact.lineup - 1, ..exact };
        for lengths in [table, report, lineup, NOTHING] {
            let untouched = Outcome::untouched(refusal::BUFFER_TOO_SHORT, lengths);
            assert_eq!(Outcome::of(player.play, &file, lengths), untouched, "{lengths:?}");
        }
    }
}

#[test]
fn a_file_is_judged_before_buffers() {
    for (player, seed) in PLAYERS.iter().flat_map(|player| (0..2_000).map(move |n| (player, n))) {
        let (file, _) = seeded(seed);
        let number = match number(player, &file) {
            refusal::NONE => refusal::BUFFER_TOO_SHORT,
            number => number,
        };
        let outcome = Outcome::of(player.play, &file, NOTHING);
        assert_eq!(outcome, Outcome::untouched(number, NOTHING));
    }
}

#[test]
fn no_requests_need_no_report() {
    let file = job::Job::new(1, 1, &[], &[(0, 3)]).accepted();
    for player in PLAYERS {
        let outcome = Outcome::of(player.play, &file, Lengths { table: 1, ..NOTHING });
        assert_eq!((outcome.played.number, outcome.table), (refusal::NONE, vec![0]));
    }
}
