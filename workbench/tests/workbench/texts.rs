//! Jobs as text and back, and every line that can't be read or is refused.

use peer::gen::{self, Random};
use workbench::draft::Draft;
use workbench::job::Job;
use workbench::refused::Refused;
use workbench::text::text_of;

use crate::{file_of, seeded, stored};

fn draft(text: &str) -> Draft {
    Draft::parse(text).unwrap_or_else(|faults| panic!("{faults:?}\n{text}"))
}

/// Text and file are inverse: the file's text makes the file, and its text is the same again.
fn there_and_back(file: &[u8]) {
    let job = Job::read(file).expect("accepted");
    let text = text_of(&job);
    let again = draft(&text);
    assert_eq!(again.job, job);
    assert_eq!(again.file().as_deref(), Ok(file), "{text}");
}

#[test]
fn seeded_jobs() {
    for job in seeded(2_000) {
        there_and_back(&file_of(&job));
    }
}

#[test]
fn largest_jobs() {
    let larger = (0..50).map(|seed| gen::larger(&mut Random::new(seed)));
    for job in larger.chain(gen::built()).chain([gen::most_pairs(), gen::longest_wait()]) {
        there_and_back(&file_of(&job));
    }
}

/// What the second player reads from a file stands in its text.
#[test]
fn texts_say_what_files_mean() {
    for job in seeded(500) {
        let text = text_of(&Job::read(&file_of(&job)).expect("accepted"));
        let lines: Vec<Vec<&str>> = text
            .lines()
            .map(|line| line.split('#').next().unwrap_or_default().split_whitespace().collect())
            .collect();
        let records = |name: &'static str| lines.iter().filter(move |words| words[0] == name);
        assert_eq!(records("places").next().expect("one")[1], job.nodes.to_string());
        assert_eq!(records("heads").next().expect("one")[1], job.heads.to_string());
        assert_eq!(records("rights").count(), job.rights.len());
        assert_eq!(records("wait").count(), job.waits.len());
        let requests: Vec<String> = records("request").map(|words| words[1..].join(" ")).collect();
        let expected = job.requests.iter().map(|request| {
            let kind = if request.kind == peer::job::Kind::Union { "union" } else { "same-set" };
            format!("{} {kind} {} {}", request.head, request.x, request.y)
        });
        assert_eq!(requests, expected.collect::<Vec<_>>());
        let grants = records("grant").flat_map(|words| {
            let number = |word: &str| word.parse::<usize>().expect("a number");
            vec![number(words[1]) as u8; number(words[2])]
        });
        assert_eq!(grants.collect::<Vec<u8>>(), job.grants);
    }
}

/// The blocks of docs/JOBFILE.md that are fenced with this word.
fn blocks(word: &str) -> Vec<String> {
    let fence = format!("```{word}\n");
    let document = stored("docs/JOBFILE.md");
    let blocks = document.split(&fence).skip(1).filter_map(|rest| rest.split("```").next());
    blocks.map(str::to_owned).collect()
}

/// The texts of docs/JOBFILE.md make the bytes that stand beside them.
#[test]
fn the_documents_texts_make_its_files() {
    let (texts, files) = (blocks("job"), blocks("bytes"));
    assert_eq!((texts.len(), files.len()), (4, 4));
    for (text, bytes) in texts.iter().zip(files) {
        let byte = |digits| u8::from_str_radix(digits, 16).expect("two hexadecimal digits");
        let file: Vec<u8> = bytes.split_whitespace().map(byte).collect();
        assert_eq!(draft(text).file(), Ok(file), "{text}");
    }
}

#[test]
fn lines_may_stand_in_any_order_with_comments() {
    let plain = "places 4\nheads 2\nrequest 0 union 2 3\nrequest 1 same-set 0 1\nwait 1 0\ngrant 1 2\ngrant 1 1\ngrant 0 6\n";
    let loose = "\u{FEFF}# a job\r\n\r\n  wait 1 0 # later, earlier\r\ngrant 1 3#three\r\nrequest 0 union 2 3\r\n\
                 heads\t2\r\ngrant 0 6\r\nrequest 1 same-set 0 1\r\nplaces 4";
    assert_eq!(draft(plain).job, draft(loose).job);
    assert_eq!(draft(plain).file(), draft(loose).file());
    assert!(draft(plain).file().is_ok());
}

/// A text and what is said of its first line that can't be read.
const FAULTS: &[(&str, usize, &str)] = &[
    ("", 1, "found the text's end, expected a line \"places\""),
    ("# nothing\n\n", 3, "found the text's end, expected a line \"places\""),
    ("places 4\n", 2, "found the text's end, expected a line \"heads\""),
    ("heads 1", 2, "found the text's end, expected a line \"places\""),
    ("place 4", 1, "found \"place\", expected \"places\", \"heads\", \"rights\", \"request\", \"wait\" or \"grant\""),
    ("places", 1, "found the line's end, expected how many places there are"),
    ("places four", 1, "found \"four\", expected how many places there are: a number from 0 to 4294967295"),
    ("places +4", 1, "found \"+4\", expected how many places there are: a number from 0 to 4294967295"),
    ("heads 4294967296", 1, "found \"4294967296\", expected how many heads there are: a number from 0 to 4294967295"),
    ("places 4 5", 1, "found \"5\", expected the line's end"),
    ("places 4\n\nplaces 4", 3, "found \"places\" a second time (first in line 1), expected it once"),
    ("heads 4\nheads 5", 2, "found \"heads\" a second time (first in line 1), expected it once"),
    ("rights", 1, "found the line's end, expected a head"),
    ("rights 0 all", 1, "found \"all\", expected \"join\", \"enquire\" or \"both\""),
    ("rights 0 join 1", 1, "found \"1\", expected \"sees\""),
    ("rights 0 join sees", 1, "found the line's end, expected \"none\" or the heads that it may see"),
    ("rights 0 join sees 1 x", 1, "found \"x\", expected \"none\" or the heads that it may see: a number from 0 to 4294967295"),
    ("rights 0 join sees 32", 1, "found \"32\", expected a head that it may see: a number below 32"),
    ("rights 0 join sees none 1", 1, "found \"1\", expected the line's end"),
    ("request", 1, "found the line's end, expected a head"),
    ("request 0", 1, "found the line's end, expected \"union\" or \"same-set\""),
    ("request 0 same 1 2", 1, "found \"same\", expected \"union\" or \"same-set\""),
    ("request 0 union", 1, "found the line's end, expected a place"),
    ("request 0 union 1", 1, "found the line's end, expected a second place"),
    ("request 0 union 1 2 3", 1, "found \"3\", expected the line's end"),
    ("wait", 1, "found the line's end, expected the request that waits"),
    ("wait 1", 1, "found the line's end, expected the request that it waits for"),
    ("grant", 1, "found the line's end, expected a head"),
    ("grant 0", 1, "found the line's end, expected how many grants it has"),
    ("grant 0 0", 1, "found \"0\", expected how many grants it has: 1 or more"),
    ("grant 0 -1", 1, "found \"-1\", expected how many grants it has: a number from 0 to 4294967295"),
];

#[test]
fn lines_that_cant_be_read() {
    for &(text, line, told) in FAULTS {
        let faults = Draft::parse(text).expect_err(text);
        assert_eq!((faults[0].line, &*faults[0].told), (line, told), "{text}");
    }
}

/// A job file where a text is expected: nothing of it is printed raw, and no more than its beginning.
#[test]
fn words_are_told_in_part_and_never_raw() {
    let faults = Draft::parse("DK\u{4}\u{1b}[1m").expect_err("no record");
    assert!(faults[0].told.starts_with("found \"DK\\u{4}\\u{1b}[1m\", expected"), "{faults:?}");
    let faults = Draft::parse(&"x".repeat(1_000)).expect_err("no record");
    assert!(faults[0].told.starts_with(&format!("found {:?}..., expected", "x".repeat(40))));
}

/// All of them are told.
#[test]
fn every_line_that_cant_be_read() {
    let faults = Draft::parse("places x\nheads 2\nrequest\n\ngrant 0 0\n").expect_err("three");
    assert_eq!(faults.iter().map(|fault| fault.line).collect::<Vec<_>>(), [1, 3, 5]);
}

/// A text, the number that it is refused with, and the lines that this is about.
const REFUSED: &[(&str, u32, &[usize])] = &[
    ("places 0\nheads 1", 4, &[1]),
    ("heads 1\nplaces 4097", 4, &[2]),
    ("places 1\nheads 0", 5, &[2]),
    ("places 1\nheads 33", 5, &[2]),
    ("places 4\nheads 2\nrequest 1 union 0 1\nrequest 2 union 0 1\nrequest 3 union 9 9", 6, &[4, 2]),
    ("request 0 union 0 1\nrequest 0 union 0 4\nheads 2\nplaces 4", 8, &[2, 4]),
    ("places 4\nheads 2\nrequest 0 union 4 0\nrequest 0 union 0 4", 8, &[3, 1]),
    ("places 1\nheads 1\ngrant 0 9\ngrant 1 1\ngrant 2 1", 10, &[4, 2]),
    ("places 1\nheads 1\ngrant 256 1", 10, &[3, 2]),
    ("places 1\nheads 1\ngrant 0 4000000000\ngrant 4000000000 1", 10, &[4, 2]),
    ("places 1\nheads 1\ngrant 0 2088195\n\ngrant 0 1", 1, &[5]),
    ("places 1\nheads 1\ngrant 0 4000000000\ngrant 0 4000000000", 1, &[3]),
    ("places 2\nheads 1\nrequest 0 union 0 1\nwait 0 0", 18, &[4]),
    ("places 2\nheads 1\nrequest 0 union 0 1\nrequest 0 union 0 1\nwait 1 0\nwait 1 0\nwait 2 0", 18, &[6, 5]),
    ("places 2\nheads 1\nrequest 0 union 0 1\nrequest 0 union 0 1\nwait 1 0\nwait 2 0", 18, &[6, 5]),
    ("places 2\nheads 2\nrights 0 both sees none", 19, &[3, 2]),
    ("places 2\nheads 1\nrights 0 both sees 0\nrights 1 both sees 0", 19, &[4, 2]),
    ("places 2\nheads 3\nrights 0 both sees 0\nrights 1 both sees 0", 19, &[4, 2]),
    ("places 2\nheads 3\nrights 1 both sees 0\nrights 1 both sees 0", 19, &[3, 2]),
    ("places 2\nheads 2\nrights 0 both sees 0\nrights 0 both sees 0", 19, &[4, 2]),
    ("places 2\nheads 2\nrights 0 both sees 1\nrights 1 both sees 2", 19, &[4, 2]),
    ("places 2\nheads 2\nrights 0 both sees 2\nrights 0 both sees 2", 19, &[3, 2]),
    ("places 2\nheads 2\nrights 0 enquire sees 0\nrights 1 join sees 1\nrequest 1 union 0 1\nrequest 1 same-set 0 1", 20, &[6, 4]),
];

fn refused(text: &str) -> (u32, Vec<usize>) {
    let Refused { refusal, line, others } = draft(text).file().expect_err(text);
    let lines = [line].into_iter().chain(others.into_iter().map(|(line, _)| line));
    (refusal as u32, lines.collect())
}

#[test]
fn refusals_name_their_lines() {
    for &(text, number, lines) in REFUSED {
        assert_eq!(refused(text), (number, lines.to_vec()), "{text}");
    }
}

/// Changes one number of a text: the text, and the line that is another one now.
fn changed(random: &mut Random, text: &str) -> (String, usize) {
    let mut lines: Vec<String> =
        text.lines().map(|line| line.split('#').next().unwrap_or_default().to_owned()).collect();
    let at = random.below(lines.len() as u32) as usize;
    let mut words: Vec<String> = lines[at].split_whitespace().map(str::to_owned).collect();
    let numbers: Vec<usize> =
        (1..words.len()).filter(|&word| words[word].parse::<u32>().is_ok()).collect();
    if !numbers.is_empty() {
        let word = &mut words[random.pick(&numbers)];
        let number: u32 = word.parse().expect("a number");
        let near =
            [number.saturating_sub(1), number + 1, 0, 1, 31, 32, 33, 255, 256, 4_097, u32::MAX];
        *word = random.pick(&near).to_string();
    }
    lines[at] = words.join(" ");
    (lines.join("\n"), at + 1)
}

/// Where one number of a good text was changed, what is said of it names that line.
#[test]
fn a_changed_line_is_named() {
    let (mut unread, mut refused) = (0, [0; 21]);
    let entitled = (0..3_000).map(|seed| gen::entitled(&mut Random::new(seed)));
    for (seed, job) in (0..).zip(seeded(2_000).chain(entitled)) {
        let text = text_of(&Job::read(&file_of(&job)).expect("accepted"));
        let (text, line) = changed(&mut Random::new(seed), &text);
        match Draft::parse(&text).map(|draft| draft.file()) {
            Ok(Ok(_)) => {}
            Ok(Err(told)) => {
                let named =
                    told.line == line || told.others.iter().any(|&(other, _)| other == line);
                assert!(named, "{told:?}, line {line}\n{text}");
                refused[told.refusal as usize] += 1;
            }
            Err(faults) => {
                assert_eq!(faults.iter().map(|fault| fault.line).collect::<Vec<_>>(), [line]);
                unread += 1;
            }
        }
    }
    let often = [4, 5, 6, 8, 10, 18, 19, 20].map(|number: usize| refused[number]);
    assert!(unread >= 10 && often.iter().all(|&times| times >= 10), "{unread} {refused:?}");
}

/// A damaged file is refused with the second player's number, or means what it means there.
#[test]
fn damaged_files() {
    let mut refused = 0;
    for seed in 0..4_000 {
        let random = &mut Random::new(seed);
        let job = gen::varied(random);
        let (file, _) = gen::damaged(random, &job);
        match (Job::read(&file), peer::job::read(&file)) {
            (Ok(job), Ok(expected)) => {
                assert_eq!(
                    (job.places, job.heads, job.grants),
                    (expected.nodes, expected.heads, expected.grants)
                );
                there_and_back(&file);
            }
            (Err(refusal), Err(number)) => {
                assert_eq!(refusal as u32, number);
                refused += 1;
            }
            (read, expected) => panic!("seed {seed}: {read:?} {expected:?}"),
        }
    }
    assert!(refused > 2_000, "{refused}");
}

/// The 513th request, and the first pair and the first grants for which a file has no room.
#[test]
fn too_many_records_are_refused_at_the_first() {
    let requests =
        |count: usize| format!("places 2\nheads 2\n{}", "request 0 union 0 1\n".repeat(count));
    assert_eq!(refused(&requests(600)), (9, vec![2 + 513]));
    let pairs = (1..512)
        .flat_map(|later| (0..later).map(move |earlier| format!("wait {later} {earlier}\n")));
    let pairs: String = pairs.take(5_000).collect();
    assert_eq!(refused(&(requests(512) + &pairs)), (1, vec![2 + 512 + 4_777 + 1]));
    let in_turn = "grant 0 1\ngrant 1 1\n".repeat(5_000);
    assert_eq!(refused(&(requests(512) + &in_turn)), (1, vec![2 + 512 + 7_165 + 1]));
}
