//! Pictures: well-formed, with the right number of everything, and as stored.

use std::fs;
use std::time::{Duration, Instant};

use grouping_core::Answer;
use peer::gen::{self, Random};
use peer::player::{Outcome, AMPLE};
use workbench::draft::Draft;
use workbench::job::Job;
use workbench::picture::draw;
use workbench::story::{Happening, Story, Window};

use crate::xml::{elements, Element};
use crate::{file_of, repository, seeded, stored};

fn drawn(job: &Job, window: Window) -> String {
    draw(job, &Story::of(job, window))
}

fn read(picture: &str) -> Vec<Element> {
    elements(picture).unwrap_or_else(|why| panic!("{why}\n{picture}"))
}

/// How many elements of a class a section has.
fn count(elements: &[Element], section: &str, class: &str) -> usize {
    elements.iter().filter(|element| element.is_within(section) && element.is_a(class)).count()
}

/// The example, a part of it, and the sample that document 01 shows.
#[test]
fn pictures_are_as_stored() {
    let example = Draft::parse(&stored("examples/contention.txt")).expect("a text").job;
    assert_eq!(drawn(&example, Window::of(&example)), stored("examples/contention.svg"));
    let part = drawn(&example, Window { from: 10, to: 30 });
    assert_eq!(part, stored("workbench/tests/stored/part.svg"));
    let sample = Job::read(&fs::read(repository("crates/dock/stdin")).expect("the sample"));
    let sample = sample.expect("accepted");
    let whole = drawn(&sample, Window::of(&sample));
    assert_eq!(whole, stored("workbench/tests/stored/sample.svg"));
}

/// It has what makes it worth looking at, and README shows it.
#[test]
fn the_example_shows_what_it_is_for() {
    let picture = stored("examples/contention.svg");
    let elements = read(&picture);
    assert!(count(&elements, "heads", "failed") >= 1);
    assert_eq!(count(&elements, "line-up", "earlier"), 1);
    assert!(picture.contains(">linked, unfinished<"));
    assert!(picture.contains("the places were apart at grant 9"));
    assert!(stored("README.md").contains("(examples/contention.svg)"));
}

/// Bars, dots, entries and marks are as many as the second player counts.
#[test]
fn pictures_have_the_right_number_of_everything() {
    let (mut noes, mut folded) = (0, 0);
    for job in seeded(200) {
        let file = file_of(&job);
        let Outcome { played, report, .. } = Outcome::traced(&file, AMPLE).0;
        let rows: Vec<&[u32]> = report.chunks_exact(4).take(job.requests.len()).collect();
        let job = Job::read(&file).expect("accepted");
        let elements = read(&drawn(&job, Window::of(&job)));
        let of = |section, class| count(&elements, section, class);
        let begun = rows.iter().filter(|row| row[1] > 0).count();
        assert_eq!(
            (of("heads", "bar"), of("heads", "asked"), of("heads", "told")),
            (begun, begun, begun)
        );
        let unions =
            rows.iter().zip(&job.requests).filter(|(row, request)| row[1] > 0 && request.kind == 1);
        assert_eq!(of("heads", "union"), unions.count());
        assert_eq!(of("heads", "link"), played.tally.links as usize);
        assert_eq!(of("heads", "failed"), played.tally.failed as usize);
        let used: u32 = rows.iter().map(|row| row[3]).sum();
        assert_eq!(
            of("heads", "tick") + of("heads", "link") + of("heads", "failed"),
            used as usize
        );
        let told_no = rows.iter().filter(|row| row[0] == Answer::No as u32).count();
        assert_eq!((of("line-up", "earlier"), of("line-up", "back")), (told_no, told_no));
        let entries = of("line-up", "entry") + of("line-up", "earlier");
        assert_eq!(
            (entries, of("ties", "tie")),
            (played.entries as usize, played.entries as usize)
        );
        let idle: usize = idle_marks(&job);
        assert_eq!(of("heads", "idle"), idle);
        noes += told_no;
        folded += usize::from((idle as u32) < played.tally.idle);
        of_groups(&elements, &job);
    }
    assert!(noes > 50 && folded > 50, "{noes} {folded}");
}

/// One for each head of each stretch of idle grants.
fn idle_marks(job: &Job) -> usize {
    let heads = |happening: &Happening| match happening {
        Happening::Used(_) => 0,
        Happening::Idle(idle) => idle.heads.len(),
    };
    Story::of(job, Window::of(job)).happenings.iter().map(heads).sum()
}

/// Each place of a group of two or more stands there once, and each such group.
fn of_groups(elements: &[Element], job: &Job) {
    let left = Story::of(job, Window { from: job.grants.len() + 1, to: job.grants.len() }).left;
    let (rows, _) = workbench::groups::paged(&left.table).expect("a page");
    let together = rows.iter().filter(|row| row.size > 1);
    let members: u32 = together.clone().map(|row| row.size).sum();
    assert_eq!(count(elements, "groups", "group"), together.count());
    assert_eq!(count(elements, "groups", "member"), members as usize);
}

/// A pointer shows something at every mark.
#[test]
fn every_mark_has_a_title() {
    let marks = [
        "bar", "tick", "failed", "link", "idle", "entry", "earlier", "back", "member", "asked",
        "told",
    ];
    for job in seeded(50) {
        let job = Job::read(&file_of(&job)).expect("accepted");
        for element in read(&drawn(&job, Window::of(&job))) {
            if marks.iter().any(|class| element.is_a(class)) {
                assert!(element.children.iter().any(|child| child == "title"), "{element:?}");
            }
        }
    }
}

/// Entries stand at rising places, each on its request's tie.
#[test]
fn entries_rise() {
    for job in seeded(50) {
        let job = Job::read(&file_of(&job)).expect("accepted");
        let elements = read(&drawn(&job, Window::of(&job)));
        let place = |element: &Element| begun(element).0;
        let entry = |element: &&Element| element.is_a("entry") || element.is_a("earlier");
        let of_lineup = elements.iter().filter(|element| element.is_within("line-up"));
        let entries: Vec<i32> = of_lineup.filter(entry).map(place).collect();
        let ties: Vec<i32> =
            elements.iter().filter(|element| element.is_a("tie")).map(place).collect();
        assert_eq!(entries, ties);
        assert!(entries.windows(2).all(|two| two[0] < two[1]), "{entries:?}");
    }
}

/// Where a path begins.
fn begun(element: &Element) -> (i32, i32) {
    let path = element.attribute("d").trim_start_matches('M');
    let (x, rest) = path.split_once(' ').expect("two numbers");
    let y = rest.split(|c: char| !c.is_ascii_digit()).next().expect("a number");
    (x.parse().expect("x"), y.parse().expect("y"))
}

/// Each bar is as long as its request's grants, whose marks stand in it, and a tie hangs from the bar
/// of its entry's request.
#[test]
fn marks_stand_in_their_bars() {
    for job in seeded(100) {
        let file = file_of(&job);
        let Outcome { played, report, lineup, .. } = Outcome::traced(&file, AMPLE).0;
        let elements = read(&drawn(
            &Job::read(&file).expect("accepted"),
            Window { from: 1, to: job.grants.len() },
        ));
        let number = |element: &Element, name: &str| -> i32 {
            element.attribute(name).parse().expect("a number")
        };
        let mut requests: Vec<usize> = (0..job.requests.len()).collect();
        requests.retain(|&request| report[4 * request + 3] > 0);
        requests.sort_by_key(|&request| job.requests[request].head);
        let bars =
            elements.iter().filter(|element| element.is_within("heads") && element.name == "rect");
        let bars: Vec<[i32; 4]> =
            bars.map(|bar| ["x", "y", "width", "height"].map(|name| number(bar, name))).collect();
        assert_eq!(bars.len(), requests.len());
        let marks: Vec<(i32, i32)> = elements
            .iter()
            .filter(|element| element.is_within("heads"))
            .filter_map(|element| match element {
                link if link.is_a("link") => Some((number(link, "cx"), number(link, "cy"))),
                mark if mark.is_a("tick") || mark.is_a("failed") => Some(begun(mark)),
                _ => None,
            })
            .collect();
        for (&[left, top, width, height], &request) in bars.iter().zip(&requests) {
            let inside = |&&(x, y): &&(i32, i32)| {
                (left..left + width).contains(&x) && (top..top + height).contains(&y)
            };
            assert_eq!(marks.iter().filter(inside).count(), report[4 * request + 3] as usize);
        }
        let ties = elements.iter().filter(|element| element.is_a("tie")).map(begun);
        let entries = lineup.chunks_exact(2).take(played.entries as usize);
        for ((x, y), entry) in ties.zip(entries) {
            let of = requests.iter().position(|&request| request == entry[1] as usize);
            let [left, top, width, height] = bars[of.expect("a bar")];
            assert!((left..left + width).contains(&x) && y == top + height, "{entry:?}");
        }
    }
}

/// A part shows its own grants, and the requests that were under way.
#[test]
fn parts_of_runs() {
    for job in seeded(60).filter(|job| job.grants.len() >= 4) {
        let grants = job.grants.len();
        let window = Window { from: grants / 4 + 1, to: 3 * grants / 4 };
        let cut = job.cut(window.to);
        let outcome = Outcome::traced(&file_of(&cut), AMPLE).0;
        let rows = outcome.report.chunks_exact(4).take(job.requests.len());
        let there =
            rows.filter(|row| row[1] > 0 && (row[2] == 0 || row[2] as usize >= window.from));
        let job = Job::read(&file_of(&job)).expect("accepted");
        let elements = read(&drawn(&job, window));
        let of = |section, class| count(&elements, section, class);
        assert_eq!(of("heads", "bar"), there.count());
        let marks = of("heads", "tick") + of("heads", "link") + of("heads", "failed");
        assert_eq!(marks, window.used(&job));
    }
}

#[test]
fn jobs_without_grants_or_requests() {
    for text in [
        "places 1\nheads 1\n",
        "places 3\nheads 32\ngrant 31 3\n",
        "places 2\nheads 1\nrequest 0 union 0 1\n",
    ] {
        let job = Draft::parse(text).expect("a text").job;
        let elements = read(&drawn(&job, Window::of(&job)));
        assert_eq!(count(&elements, "heads", "name"), job.heads as usize);
        assert_eq!(count(&elements, "heads", "bar"), 0);
    }
}

/// A busy job of 2,000 grants, requests on every head, is drawn in under a second.
#[test]
fn two_thousand_grants_in_a_second() {
    let mut random = Random::new(7);
    let requests = gen::mixed_requests(&mut random, 4_096, 32, 512, 60);
    let grants = (0..2_000).map(|_| random.below(32) as u8).collect();
    let job = peer::job::Job { grants, ..peer::job::Job::new(4_096, 32, &requests, &[]) };
    let file = file_of(&job);
    let job = Job::read(&file).expect("accepted");
    assert!(Window::of(&job).used(&job) > 1_900);
    // The least of three, since other tests run beside it.
    let taken = |_| {
        let begun = Instant::now();
        read(&drawn(&job, Window::of(&job)));
        begun.elapsed()
    };
    let least = (0..3).map(taken).min().expect("three");
    assert!(least < Duration::from_secs(1), "{least:?}");
}
