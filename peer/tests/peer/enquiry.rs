//! The counter enquiry: every budget, held against a same-set played alone; refusals 15 and 16.

use peer::gen::{self, Random};
use peer::job::{Request, MAX_HEADS};
use peer::numbers::{answer, refusal};
use peer::player::{Outcome, AMPLE};
use peer::query::Queried;
use peer::word::{parent, rank, word};

use crate::{Accepted, PLAYERS};

/// What an enquiry leaves of a table, and its result, the same with all players.
fn queried(table: &[u32], x: u32, y: u32, budget: u16) -> (Vec<u32>, Queried) {
    let mut all = PLAYERS.map(|player| {
        let mut table = table.to_vec();
        let queried = (player.query)(&mut table, x, y, budget);
        (table, queried)
    });
    assert!(all.iter().all(|one| *one == all[0]));
    std::mem::take(&mut all[0])
}

/// The table that a job leaves is asked by an enquiry, and by a head of the job that has all of
/// its grants last: they make the same steps.
#[test]
fn agrees_with_a_same_set_played_alone() {
    for seed in 0..1_000 {
        let mut random = Random::new(seed);
        let mut job = gen::contended(&mut random);
        if job.heads == MAX_HEADS {
            continue;
        }
        let asking = job.heads as u8;
        let (x, y) = (random.below(job.nodes), random.below(job.nodes));
        job.heads += 1;
        job.requests.push(Request::same_set(asking, x, y));
        let left = |job: &peer::job::Job| {
            let outcome = Outcome::of(PLAYERS[0].play, &job.accepted(), AMPLE);
            let numbers = outcome.report[4 * job.requests.len() - 4..][..4].to_vec();
            (outcome.table[..job.nodes as usize].to_vec(), numbers)
        };
        let (start, _) = left(&job);
        for budget in 0..40 {
            let (table, numbers) = left(&job);
            let (after, queried) = queried(&start, x, y, budget);
            assert_eq!(after, table);
            let [answer, grants] = [numbers[0], numbers[3]];
            assert_eq!(queried, Queried { number: refusal::NONE, answer, grants });
            job.grants.push(asking);
        }
    }
}

/// Budget by budget: spent until there is enough, then the same for good; and right about the sets.
#[test]
fn on_any_admitted_table() {
    for seed in 0..2_000 {
        let mut random = Random::new(seed);
        let nodes = random.between(1, 40);
        let table = gen::admitted_table(&mut random, nodes);
        let (x, y) = (random.below(nodes), random.below(nodes));
        let root = |mut node: u32| loop {
            match parent(table[node as usize]) {
                up if up == node => return node,
                up => node = up,
            }
        };
        let told = if root(x) == root(y) { answer::YES } else { answer::NO };
        let (after, enough) = queried(&table, x, y, u16::MAX);
        assert_eq!((enough.number, enough.answer), (refusal::NONE, told));
        for budget in 0..enough.grants {
            let (_, spent) = queried(&table, x, y, budget as u16);
            let number = refusal::NONE;
            assert_eq!(spent, Queried { number, answer: answer::UNFINISHED, grants: budget });
        }
        assert_eq!(queried(&table, x, y, enough.grants as u16), (after, enough));
    }
}

#[test]
fn longest_chain() {
    let mut chain: Vec<u32> = (1..=4_096).collect();
    chain[4_095] = word(12, 4_095);
    let (_, queried) = queried(&chain, 0, 1, u16::MAX);
    assert_eq!((queried.answer, queried.grants), (answer::YES, 12_290));
}

/// The number of a call that must be refused, with nothing written.
fn refused(table: &[u32], x: u32, y: u32) -> u32 {
    let (left, queried) = queried(table, x, y, 100);
    assert_eq!((queried.answer, queried.grants), (0, 0));
    assert_eq!(left, table);
    queried.number
}

#[test]
fn out_of_range() {
    let start: Vec<u32> = (0..4_097).collect();
    assert_eq!(refused(&[], 0, 0), 15);
    assert_eq!(refused(&start, 0, 0), 15);
    assert_eq!(refused(&start[..2], 2, 0), 15);
    assert_eq!(refused(&start[..2], 0, 2), 15);
    assert_eq!(refused(&start[..2], u32::MAX, 0), 15);
    // Before any word is looked at.
    assert_eq!(refused(&[word(0, 9), 1], 2, 0), 15);
    assert_eq!(queried(&start[..4_096], 4_095, 0, 3).1.answer, answer::NO);
}

#[test]
fn words_not_admitted() {
    assert_eq!(refused(&[word(0, 2), word(0, 1)], 0, 0), 16);
    assert_eq!(refused(&[word(0, 0), word(13, 1)], 0, 0), 16);
    assert_eq!(refused(&[word(0, 0), word(0, 0)], 0, 0), 16);
    assert_eq!(refused(&[word(1, 1), word(0, 1)], 0, 0), 16);
    assert_eq!(queried(&[word(0, 0), word(12, 1)], 0, 0, 2).1.number, 0);
    for seed in 0..2_000 {
        let mut random = Random::new(seed);
        let nodes = random.between(2, 40);
        let mut table = gen::admitted_table(&mut random, nodes);
        let node = random.below(nodes) as usize;
        table[node] = match random.below(3) {
            0 => word(rank(table[node]), random.between(nodes, 65_535)),
            1 => word(random.between(13, 65_535), parent(table[node])),
            _ => {
                table[0] = word(0, 0);
                table[1] = word(0, 0);
                table[node]
            }
        };
        assert_eq!(refused(&table, 0, 1), 16, "seed {seed}");
    }
}
