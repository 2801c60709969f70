//! What grants did, held against the second player's accesses, and told in words.

use std::fs;

use peer::gen;
use peer::head::{Access, Deed};
use peer::play::waits_after;
use peer::player::{Outcome, AMPLE};
use peer::word::word;
use workbench::cut::Word;
use workbench::draft::Draft;
use workbench::explain::{deed, explain, Filter};
use workbench::job::Job;
use workbench::story::{Happening, Idle, Story, Used, Window};

use crate::{file_of, repository, seeded, stored};

fn whole(job: &Job) -> Story {
    Story::of(job, Window::of(job))
}

/// How a grant's deed is told.
const DEEDS: [&str; 5] =
    ["looks", "its swap fails", "links: ", "raises place ", "shortens the way: "];

/// Which of them it is, by the second player's access.
fn deed_of(access: &Access) -> usize {
    match access.deed {
        Deed::Read => 0,
        Deed::Swap { .. } if access.failed() => 1,
        Deed::Swap { new, .. } if new == access.seen => 0,
        Deed::Swap { .. } if access.tries_link() => 2,
        Deed::Swap { .. } if access.tries_raise() => 3,
        Deed::Swap { .. } => 4,
    }
}

/// What the second player did with a grant is what the difference of two cuts tells, in words too.
fn same_deed(job: &Job, used: &Used, access: &Access, outcome: &Outcome) {
    let row = &outcome.report[4 * access.request..][..4];
    assert_eq!((used.grant, used.head, used.request), (access.grant, access.head, access.request));
    assert_eq!(used.begins, row[1] == access.grant);
    assert_eq!(used.failed, access.failed());
    assert_eq!(used.linked, access.wrote() && access.tries_link());
    let expected = match access.deed {
        Deed::Swap { new, .. } if access.wrote() && new != access.seen => {
            Some((access.node as usize, access.seen, new))
        }
        _ => None,
    };
    let number = |of: Word| word(of.rank, of.parent);
    let told =
        used.change.map(|change| (change.place, number(change.before), number(change.after)));
    assert_eq!(told, expected);
    let ended = used.ended.map(|row| [row.answer as u32, row.used]);
    assert_eq!(ended, (row[2] == access.grant).then_some([row[0], row[3]]));
    let said = deed(job, used);
    let told: Vec<usize> = (0..DEEDS.len()).filter(|&which| said.contains(DEEDS[which])).collect();
    assert_eq!(told, [deed_of(access)], "{said}");
}

/// Nobody used these grants, and heads wait as the second player has it.
fn same_rest(job: &peer::job::Job, idle: &Idle, trace: &[Access]) {
    let Window { from, to } = idle.window;
    assert!(!trace.iter().any(|access| idle.window.has(access.grant)));
    let waits = waits_after(&file_of(&job.cut(from - 1))).expect("accepted");
    for own in &idle.heads {
        let granted = job.grants[from - 1..to].iter().filter(|&&head| head == own.head).count();
        assert_eq!(own.grants, granted);
        assert_eq!(own.waiting.map(|waiting| waiting.earlier), waits[usize::from(own.head)]);
    }
    assert_eq!(idle.heads.iter().map(|own| own.grants).sum::<usize>(), idle.window.grants());
}

#[test]
fn grants_are_told_as_the_second_player_made_them() {
    let (mut deeds, mut waited) = ([0; DEEDS.len()], 0);
    for job in seeded(400).chain(gen::built().into_iter().take(4)) {
        let file = file_of(&job);
        let (outcome, trace) = Outcome::traced(&file, AMPLE);
        let mut accesses = trace.iter();
        let mut next = 1;
        let read = Job::read(&file).expect("accepted");
        for happening in whole(&read).happenings {
            match happening {
                Happening::Used(used) => {
                    assert_eq!(used.grant as usize, next);
                    let access = accesses.next().expect("an access");
                    same_deed(&read, &used, access, &outcome);
                    deeds[deed_of(access)] += 1;
                    next += 1;
                }
                Happening::Idle(idle) => {
                    assert_eq!(idle.window.from, next);
                    same_rest(&job, &idle, &trace);
                    next = idle.window.to + 1;
                    waited += idle.heads.iter().filter(|own| own.waiting.is_some()).count();
                }
            }
        }
        assert_eq!((next, accesses.next()), (job.grants.len() + 1, None));
    }
    assert!(deeds.iter().sum::<u32>() > 10_000 && waited > 100, "{deeds:?} {waited}");
    assert!(deeds.iter().all(|&times| times >= 20), "{deeds:?}");
}

/// Two stretches of idle grants never stand side by side, however long they are.
#[test]
fn idle_grants_in_a_row_are_one() {
    for grants in [1, 2, 3, 7, 8, 254, 255, 256, 2_088_195] {
        let text = format!("places 1\nheads 1\ngrant 0 {grants}\n");
        let happenings = whole(&Draft::parse(&text).expect("a text").job).happenings;
        let [Happening::Idle(idle)] = &happenings[..] else { panic!("{happenings:?}") };
        assert_eq!(idle.window, Window { from: 1, to: grants });
    }
}

/// A part of a run is told as the whole is.
#[test]
fn parts_are_told_as_the_whole() {
    for job in seeded(60) {
        let job = Job::read(&file_of(&job)).expect("accepted");
        let all = whole(&job);
        let grants = job.grants.len();
        for window in [(1, grants / 2), (grants / 3 + 1, grants), (grants / 2 + 1, 2 * grants / 3)]
        {
            let window = Window { from: window.0, to: window.1 };
            if window.from > window.to {
                continue;
            }
            let used = |story: &Story| -> Vec<Used> {
                let used = |happening: &Happening| match happening {
                    Happening::Used(used) => Some(used.clone()),
                    Happening::Idle(_) => None,
                };
                let all = story.happenings.iter().filter_map(used);
                all.filter(|used| window.has(used.grant)).collect()
            };
            let part = Story::of(&job, window);
            assert_eq!(used(&part), used(&all));
            assert_eq!(window.used(&job), used(&part).len());
        }
    }
}

/// Each grant's line stands under its head and under its request, and nowhere else.
#[test]
fn heads_and_requests_share_the_lines() {
    let lines = |job: &Job, story: &Story, filter: Filter| -> Vec<String> {
        let text = explain(job, story, filter);
        let told = text.lines().skip_while(|line| !line.trim_start().starts_with("grant "));
        let told = told.skip(1).take_while(|line| !line.is_empty());
        told.filter(|line| !line.contains("idle: ")).map(str::to_owned).collect()
    };
    for job in seeded(40) {
        let job = Job::read(&file_of(&job)).expect("accepted");
        let story = whole(&job);
        let mut all = lines(&job, &story, Filter::default());
        assert_eq!(all.len(), Window::of(&job).used(&job));
        let heads = (0..job.heads as u8).map(|head| Filter { head: Some(head), request: None });
        let mut by_head: Vec<String> = heads.flat_map(|one| lines(&job, &story, one)).collect();
        let requests =
            (0..job.requests.len()).map(|request| Filter { head: None, request: Some(request) });
        let mut by_request: Vec<String> =
            requests.flat_map(|one| lines(&job, &story, one)).collect();
        all.sort();
        by_head.sort();
        by_request.sort();
        assert_eq!((&by_head, &by_request), (&all, &all));
    }
}

fn explained(job: &Job, filter: Filter) -> String {
    explain(job, &whole(job), filter)
}

#[test]
fn explanations_are_as_stored() {
    let sample = Job::read(&fs::read(repository("crates/dock/stdin")).expect("the sample"));
    let sample = sample.expect("accepted");
    assert_eq!(
        explained(&sample, Filter::default()),
        stored("workbench/tests/stored/sample.explained.txt")
    );
    let example = Draft::parse(&stored("examples/contention.txt")).expect("a text").job;
    let told = explained(&example, Filter::default());
    assert_eq!(told, stored("examples/contention.explained.txt"));
    let of_request = explained(&example, Filter { head: None, request: Some(3) });
    assert_eq!(of_request, stored("workbench/tests/stored/request.explained.txt"));
}
