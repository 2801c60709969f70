//! The limits of a job file, from both sides: the rows that `crates/edges` plays, and rows of document
//! 02's long dock, put to every player.

use peer::gen;
use peer::job::{self, Draft};
use peer::player::{Outcome, AMPLE};

use crate::PLAYERS;

const EDGES: &str = include_str!("../../../crates/edges/src/main.rt");

/// 1 to 32 heads, in files and in jobs for the writer; each head's number is below theirs.
const LONG_DOCK: &str = "
16 heads                  | 44 4B 02 00 10 00 =                         | 0 2 16 0 0
17 heads                  | 44 4B 02 00 11 00 =                         | 0 2 17 0 0
32 heads                  | 44 4B 02 00 20 00 43 4C 57 68               | 0 2 32 0 0
33 heads                  | 44 4B 02 00 21 00 =                         | 5
33 heads, wrong balance   | 44 4B 02 00 21 00 43 4C 00 00               | 5
33 heads, then nothing    | 44 4B 02 00 21 00                           | 5
288 heads                 | 44 4B 02 00 20 01 =                         | 5
no place, 33 heads        | 44 4B 00 00 21 00 43 4C 00 00               | 4
request of head 31 of 32  | 44 4B 02 00 20 00 52 51 1F 01 00 00 01 00 = | 0 2 32 1 0
request of head 32 of 32  | 44 4B 02 00 20 00 52 51 20 01 00 00 01 00 = | 6
request of head 31 of 31  | 44 4B 02 00 1F 00 52 51 1F 01 00 00 01 00 = | 6
grant to head 31 of 32    | 44 4B 02 00 20 00 47 52 1F 01 =             | 0 2 32 0 1
grant to head 32 of 32    | 44 4B 02 00 20 00 47 52 20 01 =             | 10
grant to head 31 of 31    | 44 4B 02 00 1F 00 47 52 1F 01 =             | 10

16 heads                  | 2 16         |          |    | 0 10 | 0 2 16 0 0 | 44 4B 02 00 10 00 =
17 heads                  | 2 17         |          |    | 0 10 | 0 2 17 0 0 | 44 4B 02 00 11 00 =
32 heads                  | 2 32         |          |    | 0 10 | 0 2 32 0 0 | 44 4B 02 00 20 00 43 4C 57 68
33 heads                  | 2 33         |          |    | 5
4,294,967,295 heads       | 2 4294967295 |          |    | 5
65,568 heads              | 2 65568      |          |    | 5
33 heads, empty buffer    | 2 33 0       |          |    | 5
no place, 33 heads        | 0 33         |          |    | 4
head 31 of 32             | 2 32         | 31 1 0 1 | 1F | 0 22 | 0 2 32 1 1 | 44 4B 02 00 20 00 52 51 1F 01 00 00 01 00 47 52 1F 01 =
request of head 32 of 32  | 2 32         | 32 1 0 1 |    | 6
request of head 31 of 31  | 2 31         | 31 1 0 1 |    | 6
grant to head 32 of 32    | 2 32         |          | 20 | 10
grant to head 31 of 31    | 2 31         |          | 1F | 10
";

/// The rows of a table, by their fields; `crates/edges` says what stands in them. A job's pairs stand
/// behind its requests, after a stroke, and its rights behind the pairs, after another.
fn rows_of(table: &'static str) -> impl Iterator<Item = Vec<&'static str>> {
    table
        .lines()
        .filter(|line| line.contains('|'))
        .map(|row| row.split('|').map(str::trim).collect())
}

fn rows() -> impl Iterator<Item = Vec<&'static str>> {
    rows_of(EDGES).chain(rows_of(LONG_DOCK))
}

/// A field's words, and how many times each is meant.
fn words(field: &str) -> impl Iterator<Item = (&str, usize)> {
    field.split_whitespace().map(|word| match word.split_once('*') {
        Some((word, copies)) => (word, copies.parse().expect("copies")),
        None => (word, 1),
    })
}

/// The rights of that many heads, of both kinds and with sight of the head itself.
fn rights(count: usize) -> impl Iterator<Item = [u32; 3]> {
    (0..count as u32).map(|head| [head, 3, 1u32.checked_shl(head).unwrap_or(0)])
}

/// The record of a right.
fn right_record([head, kinds, sight]: [u32; 3]) -> [u8; 8] {
    let [a, b, c, d] = sight.to_le_bytes();
    [b'R', b'T', head as u8, kinds as u8, a, b, c, d]
}

/// That many pairs that rise, from 1 0 on: every request waits for all before it.
fn pairs(count: usize) -> impl Iterator<Item = [u16; 2]> {
    let of = |later| (0..later).map(move |earlier| [later, earlier]);
    (1..).flat_map(of).take(count)
}

/// The record of a pair.
fn record([later, earlier]: [u16; 2]) -> [u8; 6] {
    let ([a, b], [c, d]) = (later.to_le_bytes(), earlier.to_le_bytes());
    [b'A', b'F', a, b, c, d]
}

/// The bytes that a field's words stand for.
pub fn bytes(field: &str) -> Vec<u8> {
    let mut file = Vec::new();
    for (word, copies) in words(field) {
        file.extend(match word {
            "J" => b"DK\x02\0\x02\0".repeat(copies),
            "Q" => b"RQ\0\x01\0\0\x01\0".repeat(copies),
            "V" => rights(copies).flat_map(right_record).collect(),
            "W" => b"AF\x01\0\0\0".repeat(copies),
            "P" => pairs(copies).flat_map(record).collect(),
            "R" => b"GR\0\xFF".repeat(copies),
            "S" => b"GR\0\x01GR\x01\x01".repeat(copies),
            "T" => b"\0\x01".repeat(copies),
            "=" => b"CL\0\0".to_vec(),
            byte => vec![u8::from_str_radix(byte, 16).expect("a byte"); copies],
        });
        if word == "=" {
            job::repair_balance(&mut file);
        }
    }
    file
}

/// The numbers that a field's words stand for.
fn numbers(field: &str) -> Vec<u32> {
    let number = |(word, copies): (&str, usize)| match word {
        "Q" => [0, 1, 0, 1].repeat(copies),
        "V" => rights(copies).flatten().collect(),
        "P" => pairs(copies).flatten().map(u32::from).collect(),
        number => vec![number.parse().expect("a number")],
    };
    words(field).flat_map(number).collect()
}

/// Holds what every player gives for a file against a row's number, places, heads, requests and grants.
fn assert_played(label: &str, file: &[u8], told: &[u32]) {
    for player in PLAYERS {
        let outcome = Outcome::of(player.play, file, AMPLE);
        let played = &outcome.played;
        let counts = [played.number, played.nodes, played.heads, played.requests, played.grants];
        let refused = [told[0], 0, 0, 0, 0];
        assert_eq!(counts[..], *told.get(..5).unwrap_or(&refused), "{}: {label}", player.name);
        assert!(told[0] == 0 || outcome == Outcome::untouched(told[0], AMPLE), "{label}");
    }
}

#[test]
fn every_row() {
    let played = include_str!("../../../crates/edges/stdout");
    assert!(played.ends_with(&format!("cases {} wrong 0\n", rows_of(EDGES).count())));
}

#[test]
fn files() {
    for row in rows().filter(|row| row.len() == 3) {
        assert_played(row[0], &bytes(row[1]), &numbers(row[2]));
    }
}

#[test]
fn jobs() {
    for row in rows().filter(|row| row.len() > 3) {
        let mut lists = row[2].split('/').map(numbers);
        let mut list = || lists.next().unwrap_or_default();
        let (requests, waits, rights, sizes) = (list(), list(), list(), numbers(row[1]));
        let (nodes, heads, grants) = (sizes[0], sizes[1], bytes(row[3]));
        let draft = Draft { nodes, heads, rights, requests, waits, grants };
        let told = numbers(row[4]);
        let file = row.get(6).map_or(Vec::new(), |field| bytes(field));
        for player in PLAYERS {
            let mut out = vec![0xEE; sizes.get(2).map_or(32_774, |&room| room as usize)];
            let written = player.write_draft(&draft, &mut out);
            assert_eq!([written.number, written.bytes], [told[0], file.len() as u32], "{}", row[0]);
            assert!(out.starts_with(&file), "{}: {}", player.name, row[0]);
            assert!(out[file.len()..].iter().all(|&byte| byte == 0xEE), "{}", row[0]);
        }
        if told[0] == 0 {
            assert_eq!(told[1] as usize, file.len(), "{}", row[0]);
            assert_played(row[0], &file, &numbers(row[5]));
        }
    }
}

#[test]
fn every_cut() {
    let whole = bytes("J Q 47 52 00 02 =");
    for length in 0..whole.len() {
        assert_played("a cut", &whole[..length], &[2]);
    }
    let waiting = bytes("J Q*2 W 47 52 00 02 =");
    for length in 0..waiting.len() {
        assert_played("a cut", &waiting[..length], &[2]);
    }
    assert_eq!(gen::full().file().map(|file| file.len()), Ok(32_766));
}
