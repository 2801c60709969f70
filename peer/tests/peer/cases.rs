//! Document 01's played cases with document 02's longer union, more of that union, and document 02's
//! long dock, each with the whole text that the program prints for it.

use peer::gen;
use peer::job::{self, Job, Request};
use peer::numbers::answer;
use peer::query::Queried;

use crate::{Accepted, PLAYERS};

fn union(head: u8, x: u32, y: u32) -> Request {
    Request::union(head, x, y)
}

fn same_set(head: u8, x: u32, y: u32) -> Request {
    Request::same_set(head, x, y)
}

/// Name, nodes, heads, requests, schedule, the listing's lines.
type Case<'a> = (&'a str, u32, u32, &'a [Request], &'a [(u8, usize)], &'a [&'a str]);

/// Every player prints this text for this file.
fn lists(file: &[u8], text: &str) {
    for player in PLAYERS {
        assert_eq!((player.list)(file), text, "{}", player.name);
    }
}

fn check(cases: &[Case]) {
    for (name, nodes, heads, requests, runs, lines) in cases {
        let file = Job::new(*nodes, *heads, requests, runs).file().expect(name);
        let text: String = lines.iter().map(|line| format!("{line}\n")).collect();
        lists(&file, &text);
    }
}

#[test]
fn one_head() {
    check(&[
        (
            "union of a node with itself",
            1,
            1,
            &[union(0, 0, 0)],
            &[(0, 2)],
            &["job 1 1 1 2", "word 0 0 0", "request 0 2 1 2 2", "line 2 0", "tally 0 0 0 0"],
        ),
        (
            "same-set of a node with itself",
            1,
            1,
            &[same_set(0, 0, 0)],
            &[(0, 2)],
            &["job 1 1 1 2", "word 0 0 0", "request 0 3 1 2 2", "line 2 0", "tally 0 0 0 0"],
        ),
        (
            "same-set alone",
            2,
            1,
            &[same_set(0, 0, 1)],
            &[(0, 3)],
            &[
                "job 2 1 1 3",
                "word 0 0 0",
                "word 1 1 0",
                "request 0 4 1 3 3",
                "line 2 0",
                "tally 0 0 0 0",
            ],
        ),
        ("no requests", 1, 1, &[], &[(0, 3)], &["job 1 1 0 3", "word 0 0 0", "tally 3 0 0 0"]),
    ]);
}

/// A union alone on two nodes, cut after so many grants: each cut's word of 1, row and tally.
#[test]
fn one_union() {
    let cuts = [
        (4, "word 1 1 0", "request 0 0 1 0 4", "tally 0 0 0 1"),
        (5, "word 1 1 0", "request 0 0 1 0 5", "tally 0 0 1 1"),
        (6, "word 1 1 1", "request 0 0 1 0 6", "tally 0 0 1 1"),
        (12, "word 1 1 1", "request 0 0 1 0 12", "tally 0 0 1 1"),
        (13, "word 1 1 1", "request 0 1 1 13 13", "tally 0 1 1 0"),
        (14, "word 1 1 1", "request 0 1 1 13 13", "tally 1 1 1 0"),
    ];
    for (join, (grants, of_one, row, tally)) in
        [union(0, 0, 1), union(0, 1, 0)].into_iter().flat_map(|join| cuts.map(|cut| (join, cut)))
    {
        let job = format!("job 2 1 1 {grants}");
        let linked = ["word 0 1 0", of_one, row, "line 5 0", tally];
        let apart = ["word 0 0 0", of_one, row, tally];
        let rest = if grants < 5 { &apart[..] } else { &linked };
        check(&[("a cut", 2, 1, &[join], &[(0, grants)], &[&[&job[..]], rest].concat())]);
    }
}

#[test]
fn two_heads() {
    let around = &[union(0, 0, 1), same_set(1, 0, 1)];
    let both = &[union(0, 0, 1), union(1, 0, 1)];
    check(&[
        (
            "a same-set around a link",
            2,
            2,
            around,
            &[(1, 2), (0, 6), (1, 7)],
            &[
                "job 2 2 2 15",
                "word 0 1 0",
                "word 1 1 1",
                "request 0 0 3 0 6",
                "request 1 3 1 15 9",
                "line 7 0",
                "line 15 1",
                "tally 0 0 1 1",
            ],
        ),
        (
            "the same, played on",
            2,
            2,
            around,
            &[(1, 2), (0, 6), (1, 7), (0, 7)],
            &[
                "job 2 2 2 22",
                "word 0 1 0",
                "word 1 1 1",
                "request 0 1 3 22 13",
                "request 1 3 1 15 9",
                "line 7 0",
                "line 15 1",
                "tally 0 1 1 0",
            ],
        ),
        (
            "two unions of the same nodes",
            2,
            2,
            both,
            &[(0, 4), (1, 4), (0, 1), (1, 1), (0, 1), (1, 6)],
            &[
                "job 2 2 2 17",
                "word 0 1 0",
                "word 1 1 1",
                "request 0 0 1 0 6",
                "request 1 2 5 17 11",
                "line 9 0",
                "line 17 1",
                "tally 0 1 1 1",
            ],
        ),
        (
            "the same, played on",
            2,
            2,
            both,
            &[(0, 4), (1, 4), (0, 1), (1, 1), (0, 1), (1, 6), (0, 7)],
            &[
                "job 2 2 2 24",
                "word 0 1 0",
                "word 1 1 1",
                "request 0 1 1 24 13",
                "request 1 2 5 17 11",
                "line 9 0",
                "line 17 1",
                "tally 0 2 1 0",
            ],
        ),
    ]);
}

#[test]
fn built_against_cycles() {
    let three = &[union(0, 0, 1), union(0, 2, 1), union(1, 1, 2)];
    let words = ["word 0 1 0", "word 1 1 1", "word 2 1 0"];
    let numbers = |lines: &[&'static str]| [&lines[..1], &words, &lines[1..]].concat();
    check(&[
        (
            "a link keeps x's rank",
            3,
            2,
            three,
            &[(0, 13), (1, 2), (0, 5), (1, 3)],
            &numbers(&[
                "job 3 2 3 23",
                "request 0 1 1 13 13",
                "request 1 0 16 0 5",
                "request 2 0 14 0 5",
                "line 5 0",
                "line 20 1",
                "tally 0 2 2 2",
            ]),
        ),
        (
            "a link compares x's rank",
            3,
            2,
            three,
            &[(1, 4), (0, 18), (1, 1)],
            &numbers(&[
                "job 3 2 3 23",
                "request 0 1 5 17 13",
                "request 1 0 18 0 5",
                "request 2 0 1 0 5",
                "line 9 0",
                "line 22 1",
                "tally 0 2 2 2",
            ]),
        ),
        (
            "the same, played on",
            3,
            2,
            three,
            &[(1, 4), (0, 18), (1, 7)],
            &numbers(&[
                "job 3 2 3 29",
                "request 0 1 5 17 13",
                "request 1 0 18 0 5",
                "request 2 2 1 29 11",
                "line 9 0",
                "line 22 1",
                "line 29 2",
                "tally 0 2 2 1",
            ]),
        ),
    ]);
}

#[test]
fn tidying() {
    let overtaken = &[union(1, 2, 1), union(0, 1, 0)];
    check(&[
        (
            "the root above the linked x has its rank still: the last swap writes",
            3,
            2,
            overtaken,
            &[(1, 2), (0, 5), (1, 3), (0, 8)],
            &[
                "job 3 2 2 18",
                "word 0 2 0",
                "word 1 2 0",
                "word 2 2 1",
                "request 0 0 1 0 5",
                "request 1 1 3 18 13",
                "line 7 1",
                "line 10 0",
                "tally 0 1 2 1",
            ],
        ),
        (
            "one grant earlier",
            3,
            2,
            overtaken,
            &[(1, 2), (0, 5), (1, 3), (0, 7)],
            &[
                "job 3 2 2 17",
                "word 0 2 0",
                "word 1 2 0",
                "word 2 2 0",
                "request 0 0 1 0 5",
                "request 1 0 3 0 12",
                "line 7 1",
                "line 10 0",
                "tally 0 1 2 2",
            ],
        ),
        (
            "a link of unequal ranks is tidied up after too",
            3,
            1,
            &[union(0, 0, 1), union(0, 2, 1)],
            &[(0, 25)],
            &[
                "job 3 1 2 25",
                "word 0 1 0",
                "word 1 1 1",
                "word 2 1 0",
                "request 0 1 1 13 13",
                "request 1 1 14 25 12",
                "line 5 0",
                "line 18 1",
                "tally 0 2 2 0",
            ],
        ),
    ]);
}

#[test]
fn heads_in_each_others_way() {
    check(&[
        (
            "an idle grant, a rank swap that fails after its link, a link of a node of rank 1, and \
             equal ranks with the lower number second",
            6,
            2,
            &[union(1, 3, 5), union(0, 0, 1), union(0, 5, 4), union(0, 3, 1)],
            &[(0, 16), (1, 14), (0, 19)],
            &[
                "job 6 2 4 49",
                "word 0 1 0",
                "word 1 5 1",
                "word 2 2 0",
                "word 3 5 0",
                "word 4 5 0",
                "word 5 5 1",
                "request 0 1 17 29 13",
                "request 1 1 1 13 13",
                "request 2 1 14 40 13",
                "request 3 0 41 0 9",
                "line 5 1",
                "line 21 0",
                "line 32 2",
                "line 49 3",
                "tally 1 4 4 1",
            ],
        ),
        (
            "a halving that fails, a link that fails and a rank swap that fails after its link",
            4,
            2,
            &[union(0, 2, 3), union(1, 2, 1), same_set(1, 1, 0), union(0, 0, 3), union(0, 1, 3)],
            &[(1, 2), (0, 27), (1, 5), (0, 6), (1, 6)],
            &[
                "job 4 2 5 46",
                "word 0 3 0",
                "word 1 3 0",
                "word 2 3 0",
                "word 3 3 1",
                "request 0 1 3 15 13",
                "request 1 1 1 46 13",
                "request 2 0 0 0 0",
                "request 3 1 16 27 12",
                "request 4 0 28 0 8",
                "line 7 0",
                "line 20 3",
                "line 32 1",
                "tally 0 6 3 2",
            ],
        ),
        (
            "a link that fails after an exchange and is tried again, and a parent that moves \
             between the two reads of t",
            6,
            2,
            &[union(1, 3, 1), union(0, 3, 0), union(0, 2, 1), union(0, 2, 3)],
            &[(1, 4), (0, 30), (1, 3), (0, 1), (1, 4)],
            &[
                "job 6 2 4 42",
                "word 0 3 0",
                "word 1 2 0",
                "word 2 3 1",
                "word 3 3 1",
                "word 4 4 0",
                "word 5 5 0",
                "request 0 2 1 42 11",
                "request 1 1 5 17 13",
                "request 2 1 18 30 13",
                "request 3 0 31 0 5",
                "line 9 1",
                "line 22 2",
                "line 38 3",
                "line 42 0",
                "tally 0 3 3 1",
            ],
        ),
        (
            "two halvings that fail, in a find from x and in the find after a link, and a root of \
             rank 2",
            5,
            3,
            &[union(0, 3, 4), union(1, 4, 1), union(1, 2, 3), union(0, 2, 3), union(2, 2, 1)],
            &[(1, 9), (0, 2), (1, 11), (0, 12), (2, 7), (0, 10), (1, 7)],
            &[
                "job 5 3 5 58",
                "word 0 0 0",
                "word 1 4 0",
                "word 2 4 0",
                "word 3 4 1",
                "word 4 4 2",
                "request 0 1 10 33 13",
                "request 1 1 1 15 13",
                "request 2 1 16 57 13",
                "request 3 2 34 50 10",
                "request 4 0 35 0 7",
                "line 5 1",
                "line 20 2",
                "line 25 0",
                "line 50 3",
                "tally 2 5 3 1",
            ],
        ),
    ]);
}

/// The job's file is these bytes, and every player prints these lines for it.
fn written_and_listed(job: &Job, file: &[u8], lines: &[String]) {
    assert_eq!(job.file().as_deref(), Ok(file));
    lists(file, &lines.iter().map(|line| format!("{line}\n")).collect::<String>());
}

#[test]
fn last_heads_of_a_long_dock() {
    let last_of_32 = [
        0x44, 0x4B, 0x02, 0x00, 0x20, 0x00, // two nodes, 32 heads
        0x52, 0x51, 0x1F, 0x01, 0x00, 0x00, 0x01, 0x00, //
        0x47, 0x52, 0x1F, 0x0D, 0x47, 0x52, 0x1E, 0x01, //
        0x43, 0x4C, 0x1A, 0x63,
    ];
    let lines = [
        "job 2 32 1 14",
        "word 0 1 0",
        "word 1 1 1",
        "request 0 1 1 13 13",
        "line 5 0",
        "tally 1 1 1 0",
    ];
    let job = Job::new(2, 32, &[union(31, 0, 1)], &[(31, 13), (30, 1)]);
    written_and_listed(&job, &last_of_32, &lines.map(String::from));

    let last_of_17 = [
        0x44, 0x4B, 0x02, 0x00, 0x11, 0x00, // two nodes, 17 heads
        0x52, 0x51, 0x10, 0x02, 0x00, 0x00, 0x01, 0x00, //
        0x47, 0x52, 0x10, 0x03, //
        0x43, 0x4C, 0xAC, 0xBF,
    ];
    let lines = [
        "job 2 17 1 3",
        "word 0 0 0",
        "word 1 1 0",
        "request 0 4 1 3 3",
        "line 2 0",
        "tally 0 0 0 0",
    ];
    let job = Job::new(2, 17, &[same_set(16, 0, 1)], &[(16, 3)]);
    written_and_listed(&job, &last_of_17, &lines.map(String::from));

    let empty = [0x44, 0x4B, 0x02, 0x00, 0x20, 0x00, 0x43, 0x4C, 0x57, 0x68];
    let lines = ["job 2 32 0 0", "word 0 0 0", "word 1 1 0", "tally 0 0 0 0"];
    written_and_listed(&Job::new(2, 32, &[], &[]), &empty, &lines.map(String::from));
}

/// Each of 32 heads has a union, and none has a grant.
#[test]
fn every_head_has_work_left() {
    let requests: Vec<Request> = (0..32).map(|h| union(h, h.into(), u32::from(h) + 1)).collect();
    let mut file = vec![0x44, 0x4B, 0x21, 0x00, 0x20, 0x00];
    file.extend((0..32).flat_map(|h| [0x52, 0x51, h, 0x01, h, 0x00, h + 1, 0x00]));
    file.extend([0x43, 0x4C, 0x08, 0x18]);
    assert_eq!(file.len(), 266);
    let mut lines = vec!["job 33 32 32 0".to_string()];
    lines.extend((0..33).map(|node| format!("word {node} {node} 0")));
    lines.extend((0..32).map(|request| format!("request {request} 0 0 0 0")));
    lines.push("tally 0 0 0 32".into());
    written_and_listed(&Job::new(33, 32, &requests, &[]), &file, &lines);
}

/// Each of 32 heads asks about the one node, a grant each in turn, twice over.
#[test]
fn every_head_ends_its_work() {
    let requests: Vec<Request> = (0..32).map(|head| same_set(head, 0, 0)).collect();
    let in_turn: Vec<(u8, usize)> = (0..32).map(|head| (head, 1)).collect();
    let mut file = vec![0x44, 0x4B, 0x01, 0x00, 0x20, 0x00];
    file.extend((0..32).flat_map(|head| [0x52, 0x51, head, 0x02, 0x00, 0x00, 0x00, 0x00]));
    file.extend((0..64).flat_map(|grant| [0x47, 0x52, grant % 32, 0x01]));
    file.extend([0x43, 0x4C, 0x88, 0x26]);
    assert_eq!(file.len(), 522);
    let mut lines = vec!["job 1 32 32 64".to_string(), "word 0 0 0".into()];
    lines.extend((0..32).map(|n| format!("request {n} 3 {} {} 2", n + 1, n + 33)));
    lines.extend((0..32).map(|n| format!("line {} {n}", n + 33)));
    lines.push("tally 0 0 0 0".into());
    written_and_listed(&Job::new(1, 32, &requests, &in_turn.repeat(2)), &file, &lines);
}

#[test]
fn program() {
    let file = [
        0x44, 0x4B, 0x04, 0x00, 0x02, 0x00, // four nodes, two heads
        0x52, 0x51, 0x00, 0x01, 0x02, 0x00, 0x03, 0x00, //
        0x52, 0x51, 0x01, 0x02, 0x00, 0x00, 0x01, 0x00, //
        0x47, 0x52, 0x01, 0x02, 0x47, 0x52, 0x00, 0x06, 0x47, 0x52, 0x01, 0x01, //
        0x43, 0x4C, 0xF1, 0xC2,
    ];
    let text = "job 4 2 2 9\nword 0 0 0\nword 1 1 0\nword 2 3 0\nword 3 3 1\n\
                request 0 0 3 0 6\nrequest 1 4 1 9 3\nline 2 1\nline 7 0\ntally 0 0 1 1\n";
    lists(&file, text);
    assert_eq!(job::read(&file).expect("accepted").file(), Ok(file.to_vec()));
    lists(&[], "refused 2\n");
}

#[test]
fn enquiry() {
    let rows = [(5, answer::UNFINISHED, 5), (6, answer::YES, 6)];
    for (player, (budget, answer, grants)) in PLAYERS.iter().flat_map(|p| rows.map(|row| (p, row)))
    {
        let mut table = [1, 65_537];
        let queried = (player.query)(&mut table, 0, 1, budget);
        assert_eq!(queried, Queried { number: 0, answer, grants }, "{}", player.name);
        assert_eq!(table, [1, 65_537]);
    }
}

#[test]
fn tournament_reaches_rank_nine() {
    let file = gen::tournament(512).accepted();
    for player in PLAYERS {
        let text = (player.list)(&file);
        assert!(text.contains("\nword 511 511 9\n"));
        // Every union's last swap fails: its rank swap has written.
        assert!(text.ends_with("\ntally 0 511 511 0\n"));
    }
}
