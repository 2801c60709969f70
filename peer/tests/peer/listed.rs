//! The core's listing in buffers of every length: whole or refused, and the bytes it leaves alone.

use peer::gen::{self, Random};
use peer::listing;
use peer::numbers::refusal;
use peer::player::{Lengths, Outcome, AMPLE};
use peer::proved::{list_into, CORE};

use crate::Accepted;

const LENT: u8 = 0xEE;

/// The bytes of a buffer of this length after the call, with its number and count.
fn listed(outcome: &Outcome, length: usize) -> (u32, usize, Vec<u8>) {
    let mut buffer = vec![LENT; length];
    let listed = list_into(outcome, &mut buffer);
    (listed.number, listed.bytes, buffer)
}

fn text_of(outcome: &Outcome) -> Vec<u8> {
    let Outcome { played, table, report, lineup } = outcome;
    listing::text(played, table, report, lineup).into_bytes()
}

#[test]
fn fills_what_it_needs() {
    for seed in 0..2_000 {
        let mut random = Random::new(seed);
        let job = gen::varied(&mut random);
        let file = if seed % 2 == 0 { job.accepted() } else { gen::damaged(&mut random, &job).0 };
        let outcome = Outcome::of(CORE.play, &file, AMPLE);
        let text = text_of(&outcome);
        let refused = |length| (refusal::BUFFER_TOO_SHORT, 0, vec![LENT; length]);
        for more in [0, 3] {
            let filled = [text.clone(), vec![LENT; more]].concat();
            assert_eq!(listed(&outcome, text.len() + more), (refusal::NONE, text.len(), filled));
        }
        for length in [0, text.len() / 2, text.len() - 1] {
            assert_eq!(listed(&outcome, length), refused(length));
        }
    }
}

/// Numbers past those that are printed are not needed, and one fewer is refused.
#[test]
fn asks_for_the_numbers_it_prints() {
    for seed in 0..2_000 {
        let job = gen::varied(&mut Random::new(seed));
        let exact = Outcome::of(CORE.play, &job.accepted(), Lengths::exact(&job));
        let text = text_of(&exact);
        let whole = (refusal::NONE, text.len(), text.clone());
        let refused = (refusal::BUFFER_TOO_SHORT, 0, vec![LENT; text.len()]);
        let entries = exact.played.entries as usize;
        let mut entered = exact.clone();
        entered.lineup.truncate(2 * entries);
        assert_eq!(listed(&entered, text.len()), whole);
        let short = |cut: fn(&mut Outcome) -> &mut Vec<u32>| {
            let mut outcome = entered.clone();
            cut(&mut outcome).pop().is_none() || listed(&outcome, text.len()) == refused
        };
        assert!(short(|o| &mut o.table) && short(|o| &mut o.report) && short(|o| &mut o.lineup));
    }
}
