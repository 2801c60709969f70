//! The program itself, `crates/dock/out/dock`: what it prints for jobs and damaged files, and what it
//! says where it can't read or write.

use std::fs::{File, OpenOptions};
use std::io::{self, Read, Write};
use std::os::unix::process::ExitStatusExt;
use std::path::Path;
use std::process::{Child, Command, Output, Stdio};
use std::thread;
use std::time::Duration;

use peer::gen::{self, Random};
use peer::job::MAX_BYTES;
use peer::listing::listing;
use peer::numbers::refusal;

use crate::damage::of_files;

use crate::Accepted;

const PROGRAM: &str = concat!(env!("CARGO_MANIFEST_DIR"), "/../crates/dock/out/dock");
const CANT_READ: &str = "dock: standard input can't be read\n";
const CANT_WRITE: &str = "dock: standard output can't be written\n";
const IGNORING_PIPES: &str = "trap '' PIPE; exec \"$0\"";

fn program() -> Command {
    assert!(Path::new(PROGRAM).exists(), "no program at {PROGRAM}: run `rt run` in crates/dock");
    Command::new(PROGRAM)
}

/// The program, `$0`, as a shell's script starts it: with files closed or signals ignored.
fn by_shell(script: &str) -> Command {
    let mut shell = Command::new("sh");
    shell.args(["-c", script]).arg(program().get_program());
    shell
}

/// Starts a command that is given this input, in pieces of so many bytes.
fn fed(mut command: Command, input: &[u8], piece: usize) -> Child {
    let mut child = command.stdin(Stdio::piped()).spawn().expect("the program starts");
    let mut pipe = child.stdin.take().expect("piped");
    let pieces: Vec<Vec<u8>> = input.chunks(piece).map(<[u8]>::to_vec).collect();
    thread::spawn(move || {
        for piece in pieces {
            // The program need not read on behind the longest file.
            if pipe.write_all(&piece).is_err() {
                break;
            }
            thread::sleep(Duration::from_millis(1));
        }
    });
    child
}

fn output(child: Child) -> Output {
    child.wait_with_output().expect("the program ends")
}

/// What the program prints for an input; it says nothing else.
fn printed(input: &[u8], piece: usize) -> String {
    let mut command = program();
    command.stdout(Stdio::piped()).stderr(Stdio::piped());
    let Output { status, stdout, stderr } = output(fed(command, input, piece));
    assert!(status.success() && stderr.is_empty(), "{status} {}", told(&stderr));
    told(&stdout)
}

fn told(bytes: &[u8]) -> String {
    String::from_utf8_lossy(bytes).into_owned()
}

/// The number of the listing's refusal, which is the program's too.
fn number(input: &[u8]) -> u32 {
    let text = listing(input);
    assert_eq!(printed(input, MAX_BYTES * 8), text);
    match text.strip_prefix("refused ") {
        Some(number) => number.trim_end().parse().expect("a number"),
        None => refusal::NONE,
    }
}

#[test]
fn jobs() {
    for seed in 0..200 {
        let job = gen::varied(&mut Random::new(seed));
        assert_eq!(number(&job.accepted()), refusal::NONE, "seed {seed}");
    }
    for job in (0..20).map(|seed| gen::larger(&mut Random::new(seed))).chain(gen::built()) {
        assert_eq!(number(&job.accepted()), refusal::NONE);
    }
    for job in [gen::most_pairs(), gen::longest_wait()] {
        assert_eq!(number(&job.accepted()), refusal::NONE);
    }
}

#[test]
fn damaged_files_reach_every_number() {
    let mut reached = [0; 21];
    for seed in 0..600 {
        let mut random = Random::new(seed);
        let job = gen::varied(&mut random);
        reached[number(&gen::damaged(&mut random, &job).0) as usize] += 1;
    }
    assert!(of_files().all(|number| reached[number as usize] >= 2), "{reached:?}");
}

#[test]
fn lengths_around_the_longest() {
    for length in [
        0,
        1,
        2,
        MAX_BYTES - 1,
        MAX_BYTES,
        MAX_BYTES + 1,
        MAX_BYTES + 2,
        2 * MAX_BYTES,
        8 * MAX_BYTES,
    ] {
        let expected = match length {
            0 | 1 => refusal::FILE_ENDS_EARLY,
            _ if length <= MAX_BYTES => refusal::WRONG_MARK,
            _ => refusal::FILE_TOO_LONG,
        };
        assert_eq!(number(&vec![0; length]), expected, "{length}");
    }
    // The longest file without pairs, and bytes after its close up to the limit and past it.
    let longest = gen::full().accepted();
    assert_eq!(longest.len(), MAX_BYTES - 2);
    for (more, expected) in [
        (0, refusal::NONE),
        (2, refusal::AFTER_CLOSE),
        (3, refusal::FILE_TOO_LONG),
        (4, refusal::FILE_TOO_LONG),
    ] {
        assert_eq!(number(&[&longest[..], &vec![0; more]].concat()), expected, "{more}");
    }
}

#[test]
fn input_in_pieces() {
    let longest = gen::full().accepted();
    let too_long = [&longest[..], b"CL\0"].concat();
    for (input, piece) in [(&longest, 997), (&too_long, MAX_BYTES), (&too_long, 4_096)] {
        assert_eq!(printed(input, piece), listing(input), "{piece}");
    }
    let small = gen::contended(&mut Random::new(0)).accepted();
    assert_eq!(printed(&small, 1), listing(&small));
}

/// Closed, a directory, or open for writing only: one line, and nothing printed.
#[test]
fn input_that_cant_be_read() {
    let writing = OpenOptions::new().write(true).open("/dev/null").expect("a device");
    let mut cases = vec![by_shell("exec \"$0\" <&-"), program(), program()];
    cases[1].stdin(File::open(env!("CARGO_MANIFEST_DIR")).expect("a folder"));
    cases[2].stdin(writing);
    for mut case in cases {
        let Output { stdout, stderr, .. } = case.output().expect("the program ends");
        assert_eq!((told(&stdout), told(&stderr)), (String::new(), CANT_READ.to_string()));
    }
}

/// What a command says of its output.
fn said(mut command: Command, input: &[u8]) -> String {
    command.stderr(Stdio::piped());
    told(&output(fed(command, input, MAX_BYTES)).stderr)
}

#[test]
fn output_that_cant_be_written() {
    let job = gen::contended(&mut Random::new(0)).accepted();
    for input in [&job[..], b""] {
        let full = OpenOptions::new().write(true).open("/dev/full").expect("a device");
        let mut device = program();
        device.stdout(full);
        assert_eq!(said(device, input), CANT_WRITE);
        assert_eq!(said(by_shell("exec \"$0\" >&-"), input), CANT_WRITE);
        let (nobody, pipe) = io::pipe().expect("a pipe");
        drop(nobody);
        let mut cut = by_shell(IGNORING_PIPES);
        cut.stdout(pipe);
        assert_eq!(said(cut, input), CANT_WRITE);
    }
}

/// A reader that leaves in the middle is told, whatever the program's caller does with the signal: the
/// program ignores it.
#[test]
fn output_that_is_cut_short() {
    let longest = gen::full().accepted();
    for script in [IGNORING_PIPES, "exec \"$0\""] {
        let mut command = by_shell(script);
        command.stdout(Stdio::piped()).stderr(Stdio::piped());
        let mut child = fed(command, &longest, MAX_BYTES);
        let mut pipe = child.stdout.take().expect("piped");
        pipe.read_exact(&mut [0; 4]).expect("the job's line");
        drop(pipe);
        let Output { status, stderr, .. } = output(child);
        assert_eq!(told(&stderr), CANT_WRITE);
        assert_eq!((status.code(), status.signal()), (Some(0), None));
    }
}
