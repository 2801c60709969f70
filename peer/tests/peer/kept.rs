//! Every job of up to sixteen heads keeps its table, report, line-up and tally (document 02, A4):
//! 400 such jobs leave what they left when sixteen heads were the most.
//!
//! kept.txt has one line a job, the digest of its listing in hexadecimal. The lines were written by
//! `line` below with the second player of commit 408525a, the last one before A4.

use std::collections::BTreeSet;

use peer::gen::Random;
use peer::job::{Job, Request, Wait};
use peer::listing;
use peer::player::{Outcome, Player, AMPLE};

use crate::{Accepted, PLAYERS};

const JOBS: u64 = 400;

/// The digest of all files, one after the other: a job that is not the one stored is told apart
/// from an outcome that is not.
const FILES: u64 = 0x69C3_F53F_29DC_A137;

/// The job of a number. Outcomes are stored by it, so it stays as it is: it takes nothing of `gen`
/// but random numbers.
fn job(number: u64) -> Job {
    let mut random = Random::new(number);
    let large = number.is_multiple_of(4);
    let (most_nodes, most_requests) = if large { (200, 100) } else { (8, 24) };
    let (nodes, count) = (random.between(2, most_nodes), random.between(1, most_requests));
    let heads = if random.chance(25) { 16 } else { random.between(1, 16) };
    let requests = (0..count).map(|_| request(&mut random, nodes, heads)).collect();
    let most_pairs = if random.chance(50) { 0 } else { random.between(1, 30) };
    let waits = pairs(&mut random, count, most_pairs);
    let length = random.between(0, 60 * count);
    let grants = grants(&mut random, heads, length as usize);
    Job { nodes, heads, rights: Vec::new(), requests, waits, grants }
}

fn request(random: &mut Random, nodes: u32, heads: u32) -> Request {
    let (head, x, y) = (random.below(heads) as u8, random.below(nodes), random.below(nodes));
    match random.below(3) {
        0 => Request::same_set(head, x, y),
        _ => Request::union(head, x, y),
    }
}

fn pairs(random: &mut Random, requests: u32, most: u32) -> Vec<Wait> {
    let mut pairs = BTreeSet::new();
    for _ in 0..most {
        let (one, other) = (random.below(requests), random.below(requests));
        if one != other {
            pairs.insert(Wait { later: one.max(other), earlier: one.min(other) });
        }
    }
    pairs.into_iter().collect()
}

/// In turn, one by one at random, or in bursts.
fn grants(random: &mut Random, heads: u32, length: usize) -> Vec<u8> {
    let most = random.pick(&[0, 1, 12]);
    let (mut grants, mut head) = (Vec::new(), 0);
    while grants.len() < length {
        head = if most == 0 { (head + 1) % heads } else { random.below(heads) };
        let burst = random.between(1, most.max(1));
        grants.extend(vec![head as u8; burst as usize]);
    }
    grants.truncate(length);
    grants
}

fn file(number: u64) -> Vec<u8> {
    job(number).accepted()
}

/// FNV-1a of 64 bits.
fn digest(bytes: impl IntoIterator<Item = u8>) -> u64 {
    let mix = |digest: u64, byte| (digest ^ u64::from(byte)).wrapping_mul(0x0100_0000_01B3);
    bytes.into_iter().fold(0xCBF2_9CE4_8422_2325, mix)
}

/// What is stored of an outcome: its listing has every number that a play leaves.
fn line(player: &Player, number: u64) -> String {
    let outcome = Outcome::of(player.play, &file(number), AMPLE);
    assert!(outcome.rest_as_lent(), "{}: job {number}", player.name);
    let Outcome { played, table, report, lineup } = outcome;
    format!("{:016X}", digest(listing::text(&played, &table, &report, &lineup).into_bytes()))
}

#[test]
fn the_jobs_are_those_stored() {
    let jobs: Vec<Job> = (0..JOBS).map(job).collect();
    assert!(jobs.iter().all(|job| (1..=16).contains(&job.heads)));
    assert!(jobs.iter().filter(|job| job.heads == 16).count() >= 100);
    assert!(jobs.iter().filter(|job| !job.waits.is_empty()).count() >= 100);
    assert_eq!(digest((0..JOBS).flat_map(file)), FILES);
}

#[test]
fn outcomes() {
    let stored: Vec<&str> = include_str!("kept.txt").lines().collect();
    assert_eq!(stored.len() as u64, JOBS);
    for player in PLAYERS {
        for (number, stored) in (0..).zip(&stored) {
            assert_eq!(line(&player, number), *stored, "{}: job {number}", player.name);
        }
    }
}
