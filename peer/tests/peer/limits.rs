//! How long a head can be kept: the numbers for planners, and requests that come near them.

use peer::gen::{self, Random};
use peer::job::{Job, Kind, MAX_NODES};
use peer::limits::{self, Limits};
use peer::numbers::{answer, refusal};
use peer::player::{Outcome, AMPLE};

use crate::{Accepted, PLAYERS};

/// What all players tell of a number of nodes.
fn limits_of(nodes: u32) -> Limits {
    let all = PLAYERS.map(|player| (player.limits)(nodes));
    assert!(all.iter().all(|one| *one == all[0]), "{nodes}: {all:?}");
    all[0]
}

#[test]
fn numbers() {
    let cases = [
        (1, 11, 22),
        (2, 22, 54),
        (3, 33, 76),
        (4, 44, 108),
        (7, 77, 174),
        (8, 88, 206),
        (1_023, 11_253, 22_596),
        (1_024, 11_264, 22_628),
        (4_095, 45_045, 90_200),
        (4_096, 45_056, 90_232),
    ];
    for (nodes, same_set, union) in cases {
        assert_eq!(limits_of(nodes), Limits { number: refusal::NONE, same_set, union });
    }
}

/// What is left of a union's limit without its places is ten times the logarithm.
#[test]
fn logarithm() {
    for nodes in 1..=MAX_NODES {
        let left = limits_of(nodes).union - 22 * nodes;
        let power = 1 << (left / 10);
        assert!(left % 10 == 0 && power <= nodes && nodes < 2 * power, "{nodes}: {left}");
    }
}

#[test]
fn refused_numbers_of_places() {
    let refused = Limits { number: refusal::NODES, ..Limits::default() };
    for nodes in [0, MAX_NODES + 1, 65_536, 1 << 31, u32::MAX] {
        assert_eq!(limits_of(nodes), refused, "{nodes}");
    }
    let mut random = Random::new(0);
    for _ in 0..1_000 {
        let nodes = random.between(MAX_NODES + 1, u32::MAX - 1);
        assert_eq!(limits_of(nodes), refused, "{nodes}");
    }
}

/// The row of request 0, the same with all players.
fn row(job: &Job) -> [u32; 4] {
    let file = job.accepted();
    let rows = PLAYERS.map(|player| Outcome::of(player.play, &file, AMPLE).report[..4].to_vec());
    assert!(rows.iter().all(|row| *row == rows[0]), "{rows:?}");
    [0, 1, 2, 3].map(|number| rows[0][number])
}

/// Unions along a chain that stand before their links make a request take so many grants, and the
/// last of them is needed.
#[test]
fn kept_along_a_chain() {
    let kinds = [(Kind::SameSet, answer::YES, 11, 9), (Kind::Union, answer::TOGETHER, 13, 11)];
    for nodes in [2, 3, 5, 8, 16, 24, 32] {
        for (kind, told, a_place, less) in kinds {
            let used = a_place * nodes - less;
            assert!(used < limits::of(kind, nodes));
            let job = gen::kept_long(kind, nodes);
            let (first, last) = (4 * (nodes - 1) + 1, job.grants.len() as u32);
            assert_eq!(row(&job), [told, first, last, used], "{kind:?} {nodes}");
            let cut = job.cut(job.grants.len() - 1);
            assert_eq!(row(&cut), [answer::UNFINISHED, first, 0, used - 1], "{kind:?} {nodes}");
        }
    }
}

/// The first of these jobs byte by byte, and what it prints.
#[test]
fn two_places() {
    let file = [
        0x44, 0x4B, 0x02, 0x00, 0x02, 0x00, // two nodes, two heads
        0x52, 0x51, 0x00, 0x02, 0x00, 0x00, 0x00, 0x00, // head 0: same-set 0 0
        0x52, 0x51, 0x01, 0x01, 0x00, 0x00, 0x01, 0x00, // head 1: union 0 1
        0x47, 0x52, 0x01, 0x04, 0x47, 0x52, 0x00, 0x01, //
        0x47, 0x52, 0x01, 0x01, 0x47, 0x52, 0x00, 0x0C, //
        0x43, 0x4C, 0xB1, 0x67,
    ];
    assert_eq!(gen::kept_long(Kind::SameSet, 2).file().as_deref(), Ok(&file[..]));
    let text = "job 2 2 2 18\nword 0 1 0\nword 1 1 0\nrequest 0 3 5 18 13\nrequest 1 0 1 0 5\n\
                line 6 1\nline 18 0\ntally 0 0 1 1\n";
    for player in PLAYERS {
        assert_eq!((player.list)(&file), text, "{}", player.name);
    }
}
