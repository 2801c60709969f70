//! The program itself: its commands, what it says where something is wrong, and its exit status.

use std::fs;
use std::io::Write;
use std::path::PathBuf;
use std::process::{Command, Output, Stdio};

use peer::gen::{self, Random};
use peer::player::PEER;

use crate::{file_of, repository, stored};

/// A file of its own for each test.
fn own(name: &str) -> String {
    let path: PathBuf = [env!("CARGO_TARGET_TMPDIR"), name].iter().collect();
    path.to_str().expect("a name").to_owned()
}

/// What a call ends with: exit status, standard output, standard error.
#[derive(Debug, PartialEq, Eq)]
struct Ended {
    status: i32,
    out: Vec<u8>,
    said: String,
}

impl Ended {
    fn text(&self) -> String {
        assert_eq!((self.status, &*self.said), (0, ""));
        String::from_utf8(self.out.clone()).expect("text")
    }
}

fn ended(command: &mut Command, input: &[u8]) -> Ended {
    let mut child = command.stdin(Stdio::piped()).spawn().expect("the program starts");
    // A program that does not read its input may be over before it is written.
    let _ = child.stdin.take().expect("piped").write_all(input);
    let Output { status, stdout, stderr } = child.wait_with_output().expect("it ends");
    let said = String::from_utf8(stderr).expect("text");
    Ended { status: status.code().expect("no signal"), out: stdout, said }
}

fn program(words: &[&str]) -> Command {
    let mut command = Command::new(env!("CARGO_BIN_EXE_grouping"));
    command.args(words).stdout(Stdio::piped()).stderr(Stdio::piped());
    command
}

fn grouping(words: &[&str], input: &[u8]) -> Ended {
    ended(&mut program(words), input)
}

fn sample() -> String {
    repository("crates/dock/stdin").to_str().expect("a name").to_owned()
}

const TEXT: &str = "places 4\nheads 2\nrequest 0 union 2 3\nrequest 1 same-set 0 1\ngrant 1 2\ngrant 0 6\ngrant 1 1\n";

#[test]
fn a_text_becomes_a_file_and_a_text_again() {
    let bytes = fs::read(sample()).expect("the sample");
    let written = grouping(&["file", "-"], TEXT.as_bytes());
    assert_eq!(written, Ended { status: 0, out: bytes.clone(), said: String::new() });
    let (text, job) = (own("there.txt"), own("there.job"));
    assert_eq!(grouping(&["file", "-", "-o", "-"], TEXT.as_bytes()).out, bytes);
    assert_eq!(grouping(&["text", &sample(), "-o", &text], b"").text(), "");
    assert_eq!(grouping(&["file", &text, "-o", &job], b"").text(), "");
    assert_eq!(fs::read(&job).expect("written"), bytes);
    let commented = "places 4\nheads 2\nrequest 0 union 2 3     # request 0\nrequest 1 same-set 0 1  # request 1\n\
                     grant 1 2               # grants 1 to 2\ngrant 0 6               # grants 3 to 8\n\
                     grant 1 1               # grant 9\n";
    assert_eq!(fs::read_to_string(&text).expect("written"), commented);
}

/// README's job: five lines of text, two commands, and the listing that it shows.
#[test]
fn the_job_that_readme_shows() {
    let readme = stored("README.md");
    let between = |from: &str, to: &str| {
        let rest = readme.split_once(from).unwrap_or_else(|| panic!("no {from}")).1;
        rest.split_once(to).expect("an end").0.to_owned()
    };
    let text = between("<<'END'\n", "END\n");
    assert_eq!(text.lines().count(), 5);
    let file = grouping(&["file", "-"], text.as_bytes());
    assert_eq!((file.status, &*file.said), (0, ""));
    assert_eq!(grouping(&["play", "-"], &file.out).text(), between("```listing\n", "```"));
}

/// Listing, page and sheet are the core's, here those of the second player.
#[test]
fn jobs_are_played() {
    assert_eq!(grouping(&["play", &sample()], b"").text(), stored("crates/dock/stdout"));
    for seed in 0..100 {
        let file = file_of(&gen::varied(&mut Random::new(seed)));
        assert_eq!(grouping(&["play", "-"], &file).text(), (PEER.list)(&file));
        assert_eq!(grouping(&["page", "-"], &file).text(), peer::page::of_job(&file));
        assert_eq!(grouping(&["sheet", "-", "0"], &file).text(), peer::sheet::of_job(&file, 0));
    }
}

#[test]
fn enquiries_and_limits() {
    let ask = |words: &[&str]| grouping(&[&["ask", &sample()], words].concat(), b"").text();
    assert_eq!(ask(&["2", "3"]), "yes: places 2 and 3 are in one group (6 grants)\n");
    assert_eq!(ask(&["0", "1"]), "no: places 0 and 1 are in two groups (3 grants)\n");
    let spent = "spent: the answer needs more than its allowance (5 grants)\n";
    assert_eq!(ask(&["2", "3", "--allowance", "5"]), spent);
    let told = "a same-set ends within 704 grants of its own, a union within 1468\n";
    assert_eq!(grouping(&["limits", "64"], b"").text(), told);
}

/// Words, exit status 1, and what is said.
#[test]
fn refusals_in_words() {
    let damaged = own("damaged.job");
    let mut bytes = fs::read(sample()).expect("the sample");
    *bytes.last_mut().expect("a byte") ^= 1;
    fs::write(&damaged, bytes).expect("written");
    let balance =
        format!("grouping: {damaged}: refused 13: the file's words don't add up to zero\n");
    for words in [&["play"][..], &["text"], &["explain"], &["show"], &["page"]] {
        let refused = grouping(&[words, &[&damaged]].concat(), b"");
        assert_eq!(refused, Ended { status: 1, out: Vec::new(), said: balance.clone() });
    }
    for words in [&["ask", &damaged, "0", "1"][..], &["sheet", &damaged, "0"]] {
        assert_eq!(grouping(words, b"").said, balance);
    }
    let words = [
        (vec!["ask", "-", "0", "4"], "grouping: standard input: refused 15: the table is empty or over 4,096, or an enquiry's place is not below its length\n"),
        (vec!["sheet", "-", "2"], "grouping: standard input: refused 10: a grant's or a sheet's head is not below the heads, or a run is 0\n"),
        (vec!["limits", "4097"], "grouping: refused 4: the places are 0 or above 4,096\n"),
    ];
    for (words, said) in words {
        let refused = grouping(&words, &fs::read(sample()).expect("the sample"));
        assert_eq!(refused, Ended { status: 1, out: Vec::new(), said: said.to_owned() });
    }
    let long = grouping(&["play", "-"], &vec![0; 40_000]);
    assert_eq!(long.said, "grouping: standard input: refused 1: the file is over 32,768 bytes\n");
    let empty = grouping(&["play", "-"], b"");
    let said = "refused 2: the file ends before a record is whole or before the close\n";
    assert_eq!(empty.said, format!("grouping: standard input: {said}"));
}

/// Of a text every line is told that can't be read, ten at the most, and of a refusal its lines; the
/// file that is named stays as it was.
#[test]
fn texts_are_refused_by_their_lines() {
    let (text, job) = (own("refused.txt"), own("refused.job"));
    let refused = |written: &str| {
        fs::write(&text, written).expect("written");
        fs::write(&job, "as it was").expect("written");
        let ended = grouping(&["file", &text, "-o", &job], b"");
        assert_eq!((ended.status, ended.out), (1, Vec::new()));
        assert_eq!(fs::read(&job).expect("there"), b"as it was");
        ended.said
    };
    let said = refused("places 4\nhead 2\nrequest 0 unoin 2 3\n");
    let records = "\"places\", \"heads\", \"rights\", \"request\", \"wait\" or \"grant\"";
    let unread = format!("{text}:2: found \"head\", expected {records}\n{text}:3: found \"unoin\", expected \"union\" or \"same-set\"\n");
    assert_eq!(said, unread);
    let said = refused("places 4\nheads 2\n\nrequest 0 union 2 4\n");
    assert_eq!(said, format!("{text}:4: refused 8: a request's place is not below the places\n{text}:1: here: the places\n"));
    let said = refused(&"x\n".repeat(12));
    assert_eq!(said.lines().count(), 11);
    assert!(said.ends_with(&format!("{text}: 2 more lines can't be read\n")));
    assert_eq!(
        grouping(&["file", "-"], b"places 1").said,
        "standard input:2: found the text's end, expected a line \"heads\"\n"
    );
}

/// A text where a job file is expected, and a job file where a text is.
#[test]
fn texts_and_files_taken_for_each_other() {
    let refused = grouping(&["play", "-"], TEXT.as_bytes());
    let mark = "grouping: standard input: refused 3: a mark is not allowed at its position\n";
    assert_eq!(
        (refused.status, refused.said),
        (1, format!("{mark}it is a job's text: see grouping file\n"))
    );
    let refused = grouping(&["file", &sample()], b"");
    assert_eq!(refused.status, 1);
    assert!(refused.said.ends_with("\nit is a job file: see grouping text\n"), "{}", refused.said);
}

/// Wrong calls: exit status 2, what is wrong, and the usage.
#[test]
fn wrong_calls() {
    let sample = sample();
    let cases: &[(&[&str], &str, &str)] = &[
        (&[], "grouping: a command is missing\n", "usage: grouping COMMAND"),
        (&["paly", &sample], "grouping: there is no command paly\n", "usage: grouping COMMAND"),
        (&["play"], "grouping play: a word is missing\n", "usage: grouping play JOB\n"),
        (&["ask", &sample, "1"], "grouping ask: a word is missing\n", "usage: grouping ask"),
        (
            &["play", &sample, "x"],
            "grouping play: \"x\" is one word too many\n",
            "usage: grouping play JOB\n",
        ),
        (&["play", "-x"], "grouping play: there is no option -x\n", "usage: grouping play JOB\n"),
        (&["show", &sample, "-o"], "grouping show: -o has no value\n", "usage: grouping show JOB"),
        (
            &["show", &sample, "--to", "3", "--to", "4"],
            "grouping show: --to is given twice\n",
            "usage",
        ),
        (
            &["show", &sample, "--to", "10"],
            "grouping show: there is no part from grant 1 to 10 of 9 grants\n",
            "usage",
        ),
        (
            &["show", &sample, "--from", "0"],
            "grouping show: there is no part from grant 0 to 9 of 9 grants\n",
            "usage",
        ),
        (
            &["explain", &sample, "--from", "4", "--to", "3"],
            "grouping explain: there is no part from grant 4 to 3 of 9 grants\n",
            "usage",
        ),
        (
            &["explain", &sample, "--head", "2"],
            "grouping explain: the job has no head 2\n",
            "usage",
        ),
        (
            &["explain", &sample, "--request", "2"],
            "grouping explain: the job has no request 2\n",
            "usage",
        ),
        (
            &["explain", &sample, "--request", "one"],
            "grouping explain: \"one\" is no number from 0 to 4294967295\n",
            "usage",
        ),
        (
            &["ask", &sample, "0", "1", "--allowance", "65536"],
            "grouping ask: \"65536\" is no number from 0 to 65535\n",
            "usage",
        ),
        (
            &["limits", "x"],
            "grouping limits: \"x\" is no number from 0 to 4294967295\n",
            "usage: grouping limits PLACES\n",
        ),
    ];
    for (words, said, usage) in cases {
        let wrong = grouping(words, b"");
        assert_eq!((wrong.status, &wrong.out[..]), (2, &b""[..]), "{words:?}");
        assert!(wrong.said.starts_with(said) && wrong.said.contains(usage), "{}", wrong.said);
    }
}

/// A file is not written over the one that it is made of.
#[test]
fn a_text_is_not_written_over() {
    let text = own("over.txt");
    fs::write(&text, TEXT).expect("written");
    let wrong = grouping(&["file", &text, "-o", &text], b"");
    assert_eq!(wrong.status, 2);
    assert!(wrong.said.starts_with("grouping file: -o names the file that is read\n"));
    assert_eq!(fs::read_to_string(&text).expect("there"), TEXT);
}

/// Files that can't be read or written: exit status 3, with the system's reason.
#[test]
fn files_that_cant_be_read_or_written() {
    let folder = env!("CARGO_TARGET_TMPDIR");
    let nowhere = own("no such folder/job");
    let failed = |words: &[&str], said: &str| {
        let ended = grouping(words, TEXT.as_bytes());
        assert_eq!((ended.status, ended.out), (3, Vec::new()), "{words:?}");
        assert_eq!(ended.said, said);
    };
    let missing = "No such file or directory (os error 2)\n";
    failed(&["play", &nowhere], &format!("grouping: {nowhere} can't be read: {missing}"));
    failed(
        &["play", folder],
        &format!("grouping: {folder} can't be read: Is a directory (os error 21)\n"),
    );
    failed(
        &["file", "-", "-o", &nowhere],
        &format!("grouping: {nowhere} can't be written: {missing}"),
    );
    let full = "No space left on device (os error 28)\n";
    for words in [&["play", &sample()][..], &["--help"], &["show", "--help"], &["--version"]] {
        let mut command = program(words);
        command.stdout(fs::OpenOptions::new().write(true).open("/dev/full").expect("a device"));
        let ended = ended(&mut command, b"");
        assert_eq!(
            (ended.status, ended.said),
            (3, format!("grouping: standard output can't be written: {full}"))
        );
    }
}

#[test]
fn help_and_version() {
    assert_eq!(grouping(&["--version"], b"").text(), "grouping 0.1.0\n");
    let help = grouping(&["--help"], b"").text();
    for command in workbench::commands::COMMANDS {
        assert!(help.contains(&format!("    {} ", command.name)), "{help}");
        let own = grouping(&[command.name, "--help"], b"").text();
        assert!(own.starts_with(&command.usage()) && own.contains(command.summary), "{own}");
        let options = command.options.iter().all(|option| command.arguments.contains(option));
        assert!(options, "{}", command.usage());
    }
    let says = |command: &str, number: usize| {
        let help = grouping(&[command, "--help"], b"").text();
        assert!(help.contains(&format!(" {number} ")), "{help}");
    };
    says("show", workbench::commands::MOST_SHOWN);
    says("ask", grouping_core::MOST_ALLOWANCE.into());
}

/// 2,000 grants that are not idle are drawn; of one more a part is asked for.
#[test]
fn long_runs_ask_for_a_part() {
    let text = |runs: &str| format!("places 4096\nheads 32\n{}{runs}", unions(512));
    let drawn = grouping(&["file", "-"], text("grant 0 2000\ngrant 31 100000\n").as_bytes());
    assert_eq!((drawn.status, &*drawn.said), (0, ""));
    let shown = grouping(&["show", "-"], &drawn.out).text();
    assert!(shown.contains(">×100000<"), "idle grants in a row are one mark");
    let longer = grouping(&["file", "-"], text("grant 0 2001\n").as_bytes());
    let asked = grouping(&["show", "-"], &longer.out);
    assert_eq!(asked.status, 2);
    let said =
        "grouping show: 2001 of 2001 grants are not idle, and a picture has at most 2000 such: \
                choose a part with --from and --to\n";
    assert!(asked.said.starts_with(said), "{}", asked.said);
    let part = grouping(&["show", "-", "--from", "1501"], &longer.out).text();
    assert!(part.contains("grants 1501 to 2001, and what stands after them"));
}

/// Unions of places that are alone, one behind the other.
fn unions(count: usize) -> String {
    (0..count).map(|n| format!("request 0 union {} {}\n", 2 * n, 2 * n + 1)).collect()
}
