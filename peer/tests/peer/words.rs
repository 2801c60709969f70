//! The second player's own program: the listing of a job, its group page, its heads' sheets, and how
//! it is used.

use std::io::Write;
use std::process::{Command, Output, Stdio};

use peer::gen::{self, Random};
use peer::listing::listing;
use peer::page::{self, Row, MAX_PAGE, MAX_ROWS};
use peer::player::{Outcome, AMPLE, PEER};
use peer::sheet::MAX_SHEET;

use crate::Accepted;

/// What the program does with these words and this input: its status, output and errors.
fn run(words: &[&str], input: &[u8]) -> (Option<i32>, String, String) {
    let mut child = Command::new(env!("CARGO_BIN_EXE_peer"))
        .args(words)
        .stdin(Stdio::piped())
        .stdout(Stdio::piped())
        .stderr(Stdio::piped())
        .spawn()
        .expect("the program starts");
    // It reads nothing where its words are wrong.
    let _ = child.stdin.take().expect("piped").write_all(input);
    let Output { status, stdout, stderr } = child.wait_with_output().expect("the program ends");
    let told = |bytes| String::from_utf8(bytes).expect("text");
    (status.code(), told(stdout), told(stderr))
}

fn printed(words: &[&str], input: &[u8]) -> String {
    let (status, text, errors) = run(words, input);
    assert_eq!((status, errors), (Some(0), String::new()));
    text
}

/// Document 01's job of 38 bytes.
const JOB: &[u8] = b"DK\x04\0\x02\0RQ\0\x01\x02\0\x03\0RQ\x01\x02\0\0\x01\0\
    GR\x01\x02GR\0\x06GR\x01\x01CL\xF1\xC2";

#[test]
fn page() {
    let text = concat!(
        "   group    size    root    rank\n",
        "       0       1       0       0\n",
        "       1       1       1       0\n",
        "       2       2       3       1\n",
    );
    assert_eq!(printed(&["page"], JOB), text);
    assert_eq!(printed(&["page"], b""), "refused 2\n");
    for seed in 0..20 {
        let job = gen::larger(&mut Random::new(seed));
        let file = job.accepted();
        let Outcome { table, .. } = Outcome::of(PEER.play, &file, AMPLE);
        let (mut rows, mut page) = (vec![Row::default(); MAX_ROWS], vec![0; MAX_PAGE]);
        let paged = page::page(&table[..job.nodes as usize], &mut rows, &mut page);
        page.truncate(paged.bytes as usize);
        assert_eq!(printed(&["page"], &file).into_bytes(), page, "seed {seed}");
    }
}

#[test]
fn sheet() {
    let text = "request 0 0 3 0 6\nrequest 1 4 1 9 3\nline 2 1\nline 7 0\n";
    for head in ["0", "1", "01"] {
        assert_eq!(printed(&["sheet", head], JOB), text);
    }
    for head in ["2", "4294967295"] {
        assert_eq!(printed(&["sheet", head], JOB), "refused 10\n");
    }
    assert_eq!(printed(&["sheet", "2"], b""), "refused 2\n");
    for seed in 0..20 {
        let mut random = Random::new(seed);
        let job = gen::entitled(&mut random);
        let (file, head) = (job.accepted(), random.below(job.heads));
        let mut out = vec![0; MAX_SHEET];
        let listed = (PEER.sheet)(&file, head, &mut out);
        out.truncate(listed.bytes);
        assert_eq!(printed(&["sheet", &head.to_string()], &file).into_bytes(), out, "seed {seed}");
    }
}

#[test]
fn no_word() {
    assert_eq!(printed(&[], JOB), listing(JOB));
    assert_eq!(printed(&[], b""), "refused 2\n");
}

#[test]
fn other_words() {
    let heads = ["", "-1", "+1", " 1", "one", "0x1", "4294967296"];
    let mut wrong = vec![vec!["pages"], vec!["page", "page"], vec!["--help"], vec![""]];
    wrong.extend([vec!["sheet"], vec!["sheet", "0", "0"], vec!["0"]]);
    wrong.extend(heads.map(|head| vec!["sheet", head]));
    for words in &wrong {
        let (status, text, usage) = run(words, JOB);
        assert_eq!((status, text), (Some(2), String::new()), "{words:?}");
        assert!(usage.starts_with("usage: peer [page | sheet HEAD]"), "{usage}");
    }
}
