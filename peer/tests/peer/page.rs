//! The group page: request A1's cases, its laws, and every lent row and byte held against a plain
//! reading of its sentences.

use std::collections::BTreeMap;
use std::fmt::Display;

use peer::gen::{self, Random};
use peer::job::Job;
use peer::numbers::refusal;
use peer::page::{Paged, Row, MAX_PAGE, MAX_ROWS};
use peer::player::{Outcome, Player, AMPLE, PEER};
use peer::word::{parent, rank, word};

use crate::{Accepted, PLAYERS};

const LINE: usize = 33;

/// How many rows and bytes are lent.
#[derive(Clone, Copy, Debug)]
struct Room {
    rows: usize,
    page: usize,
}

const NOTHING: Room = Room { rows: 0, page: 0 };
const ENOUGH: Room = Room { rows: MAX_ROWS, page: MAX_PAGE };

/// What a call leaves: its result with every row and byte lent, used or not.
#[derive(Clone, PartialEq, Eq)]
struct Left {
    paged: Paged,
    rows: Vec<Row>,
    page: Vec<u8>,
}

impl Left {
    /// Rows and bytes as they are lent; no page has such ones.
    fn untouched(number: u32, room: Room) -> Left {
        let number_at = |index: usize, field: u32| 0xA5A5_0000 ^ (4 * index as u32 + field);
        let row = |index| Row {
            lowest: number_at(index, 0),
            size: number_at(index, 1),
            root: number_at(index, 2),
            rank: number_at(index, 3),
        };
        Left {
            paged: Paged::refused(number),
            rows: (0..room.rows).map(row).collect(),
            page: (0..room.page).map(|index| index as u8 | 0x80).collect(),
        }
    }

    /// These rows and this text in front of what was lent.
    fn filled(rows: &[Row], text: &[u8], room: Room) -> Left {
        let mut left = Left::untouched(refusal::NONE, room);
        left.paged.rows = rows.len() as u32;
        left.paged.bytes = text.len() as u32;
        left.rows[..rows.len()].copy_from_slice(rows);
        left.page[..text.len()].copy_from_slice(text);
        left
    }

    fn of(player: &Player, table: &[u32], room: Room) -> Left {
        let Left { mut rows, mut page, .. } = Left::untouched(refusal::NONE, room);
        let paged = (player.page)(table, &mut rows, &mut page);
        Left { paged, rows, page }
    }
}

fn root_of(table: &[u32], node: u32) -> u32 {
    match parent(table[node as usize]) {
        up if up == node => node,
        up => root_of(table, up),
    }
}

fn line<T: Display>(fields: [T; 4]) -> String {
    fields.map(|field| format!("{field:>8}")).concat() + "\n"
}

/// The rows and the page by the request's sentences, one after the other.
fn plain(table: &[u32]) -> (Vec<Row>, String) {
    let mut groups: BTreeMap<u32, Vec<u32>> = BTreeMap::new();
    for node in 0..table.len() as u32 {
        groups.entry(root_of(table, node)).or_default().push(node);
    }
    let row = |(&root, nodes): (&u32, &Vec<u32>)| {
        let rank = rank(table[root as usize]);
        Row { lowest: nodes[0], size: nodes.len() as u32, root, rank }
    };
    let mut rows: Vec<Row> = groups.iter().map(row).collect();
    rows.sort_by_key(|row| row.lowest);
    let mut text = String::new();
    for (number, row) in (1..).zip(&rows) {
        if number % 20 == 1 {
            text += &line(["group", "size", "root", "rank"]);
        }
        text += &line([row.lowest, row.size, row.root, row.rank]);
    }
    (rows, text)
}

/// Holds what every player leaves of a table against the plain reading: enough rows and bytes,
/// more, and too few. Gives the number that the table has with enough of both, and its groups.
fn check(table: &[u32]) -> (u32, usize) {
    // The table is checked as an enquiry's is.
    let number = (PEER.query)(&mut table.to_vec(), 0, 0, 0).number;
    if number != refusal::NONE {
        for room in [NOTHING, ENOUGH] {
            leaves(table, room, &Left::untouched(number, room));
        }
        return (number, 0);
    }
    let (rows, text) = plain(table);
    let room = |rows, page| Room { rows, page };
    let (groups, bytes) = (rows.len(), text.len());
    for room in [room(groups, bytes), room(groups + 1, bytes), room(groups + 30, bytes + 70)] {
        leaves(table, room, &Left::filled(&rows, text.as_bytes(), room));
    }
    for room in [
        room(groups - 1, bytes),
        room(groups, bytes - 1),
        room(groups - 1, bytes + 70),
        room(groups + 30, bytes - 1),
        NOTHING,
    ] {
        leaves(table, room, &Left::untouched(refusal::PAGE_TOO_SHORT, room));
    }
    hold_laws(table);
    (number, groups)
}

fn leaves(table: &[u32], room: Room, expected: &Left) {
    for player in PLAYERS {
        let Left { paged, rows, page } = Left::of(&player, table, room);
        let name = player.name;
        assert_eq!(paged, expected.paged, "{name}, {room:?}: {table:?}");
        assert!(rows == expected.rows, "{name}, {room:?}: {rows:?} of {table:?}");
        let text = String::from_utf8_lossy(&page);
        assert!(page == expected.page, "{name}, {room:?}: {text} of {table:?}");
    }
}

/// What holds of every page, whatever its table.
fn hold_laws(table: &[u32]) {
    for player in PLAYERS {
        let Left { paged, rows, page } = Left::of(&player, table, ENOUGH);
        let rows = &rows[..paged.rows as usize];
        let sizes: u32 = rows.iter().map(|row| row.size).sum();
        assert_eq!(sizes as usize, table.len(), "the sizes add up to the place count");
        assert!(rows.is_sorted_by(|a, b| a.lowest < b.lowest), "rows rise by lowest place");
        let mut sizes = vec![0; rows.len()];
        for node in 0..table.len() as u32 {
            let root = root_of(table, node);
            let mut led_to = (0..rows.len()).filter(|&row| rows[row].root == root);
            let (row, other) = (led_to.next().expect("every group has a row"), led_to.next());
            assert!(other.is_none() && rows[row].lowest <= node, "{node}: {:?}", rows[row]);
            sizes[row] += 1;
        }
        for (row, size) in rows.iter().zip(sizes) {
            assert_eq!((row.size, row.root), (size, root_of(table, row.lowest)));
            assert_eq!(word(row.rank, row.root), table[row.root as usize]);
        }

        let page = &page[..paged.bytes as usize];
        assert_eq!(page.len() % LINE, 0);
        let mut printed = rows.iter();
        for (index, line) in page.chunks(LINE).enumerate() {
            assert_eq!(line.iter().position(|&byte| byte == b'\n'), Some(LINE - 1));
            let fields: Vec<&str> = line[..32]
                .chunks(8)
                .map(|field| std::str::from_utf8(field).expect("text").trim_start())
                .collect();
            // A heading and its twenty rows are 21 lines.
            if index % 21 == 0 {
                assert_eq!(fields, ["group", "size", "root", "rank"]);
            } else {
                let row = printed.next().expect("a line is a heading or has a row");
                let numbers = [row.lowest, row.size, row.root, row.rank];
                assert_eq!(fields, numbers.map(|number| number.to_string()));
            }
        }
        assert_eq!(printed.next(), None, "every row has a line");
    }
}

fn row((lowest, size, root, rank): (u32, u32, u32, u32)) -> Row {
    Row { lowest, size, root, rank }
}

fn singles(nodes: u32) -> Vec<u32> {
    (0..nodes).collect()
}

fn chain(nodes: u32) -> Vec<u32> {
    (0..nodes).map(|node| (node + 1).min(nodes - 1)).collect()
}

#[test]
fn cases() {
    type Case<'a> = (&'a [u32], u32, &'a [(u32, u32, u32, u32)]);
    let cases: [Case; 7] = [
        (&[0], 66, &[(0, 1, 0, 0)]),
        (&[1, 65_537], 66, &[(0, 2, 1, 1)]),
        (&[0, 1, 3, 65_539], 132, &[(0, 1, 0, 0), (1, 1, 1, 0), (2, 2, 3, 1)]),
        (&[65_536, 0], 66, &[(0, 2, 0, 1)]),
        (&[2, 3, 65_538, 65_539], 99, &[(0, 2, 2, 1), (1, 2, 3, 1)]),
        (&[4, 65_537, 1, 4, 131_076, 5], 132, &[(0, 3, 4, 2), (1, 2, 1, 1), (5, 1, 5, 0)]),
        (&chain(4_096), 66, &[(0, 4_096, 4_095, 0)]),
    ];
    for (table, bytes, rows) in cases {
        assert_eq!(check(table), (refusal::NONE, rows.len()));
        let rows: Vec<Row> = rows.iter().copied().map(row).collect();
        for player in PLAYERS {
            let left = Left::of(&player, table, ENOUGH);
            let paged = Paged { number: 0, rows: rows.len() as u32, bytes };
            assert_eq!(left.paged, paged, "{}", player.name);
            assert_eq!(left.rows[..rows.len()], rows, "{}", player.name);
        }
    }
}

#[test]
fn the_page_of_a_table() {
    let text = concat!(
        "   group    size    root    rank\n",
        "       0       1       0       0\n",
        "       1       1       1       0\n",
        "       2       2       3       1\n",
    );
    for player in PLAYERS {
        let left = Left::of(&player, &[0, 1, 3, 65_539], ENOUGH);
        assert_eq!(String::from_utf8_lossy(&left.page[..132]), text, "{}", player.name);
    }
}

/// The heading stands before rows 1, 21, 41 and so on, and never last.
#[test]
fn headings() {
    let heading = line(["group", "size", "root", "rank"]);
    for (nodes, bytes, headings) in
        [(20, 693, 1), (21, 759, 2), (40, 1_386, 2), (41, 1_452, 3), (4_096, 141_933, 205)]
    {
        let table = singles(nodes);
        assert_eq!(check(&table), (refusal::NONE, nodes as usize));
        for player in PLAYERS {
            let Left { paged, page, .. } = Left::of(&player, &table, ENOUGH);
            assert_eq!(paged, Paged { number: 0, rows: nodes, bytes }, "{}", player.name);
            let lines: Vec<&[u8]> = page[..bytes as usize].chunks(LINE).collect();
            let headed = |line: &&&[u8]| **line == heading.as_bytes();
            assert_eq!(lines.iter().filter(headed).count(), headings);
            assert_ne!(lines[lines.len() - 1], heading.as_bytes());
        }
    }
    assert_eq!(MAX_PAGE, 141_933);
}

#[test]
fn refusals() {
    for table in [vec![], singles(4_097), vec![u32::MAX; 5_000]] {
        assert_eq!(check(&table).0, 15);
    }
    for table in [vec![1], vec![0, 851_969], vec![1, 0], vec![0, 0]] {
        assert_eq!(check(&table).0, 16);
    }
    let table = [0, 1, 3, 65_539];
    for (rows, page, number) in [(2, 132, 17), (3, 131, 17), (3, 132, 0), (0, 0, 17)] {
        for player in PLAYERS {
            let left = Left::of(&player, &table, Room { rows, page });
            assert_eq!(left.paged.number, number, "{}", player.name);
        }
    }
    // 17 comes after the others.
    for player in PLAYERS {
        assert_eq!(Left::of(&player, &[1, 0], NOTHING).paged, Paged::refused(16));
        assert_eq!(Left::of(&player, &[], NOTHING).paged, Paged::refused(15));
    }
}

/// The table that a job leaves.
fn left_by(job: &Job) -> Vec<u32> {
    let Outcome { mut table, .. } = Outcome::of(PEER.play, &job.accepted(), AMPLE);
    table.truncate(job.nodes as usize);
    table
}

#[test]
fn tables_of_jobs() {
    let (mut admitted, mut refused) = (0, 0);
    for seed in 0..1_000 {
        let mut random = Random::new(seed);
        // Larger ones are slow to check.
        let large = seed % 25 == 0;
        let job = if large { gen::larger(&mut random) } else { gen::contended(&mut random) };
        let table = left_by(&job);
        assert_eq!(check(&table).0, refusal::NONE, "seed {seed}");
        match check(&gen::damaged_table(&mut random, table)).0 {
            refusal::NONE => admitted += 1,
            _ => refused += 1,
        }
    }
    assert!(admitted >= 200 && refused >= 200, "{admitted} {refused}");
}

#[test]
fn admitted_tables() {
    let mut groups = Vec::new();
    for seed in 0..1_000 {
        let mut random = Random::new(seed);
        let nodes = random.between(1, if seed % 25 == 0 { 4_096 } else { 100 });
        let (number, rows) = check(&gen::admitted_table(&mut random, nodes));
        assert_eq!(number, refusal::NONE, "seed {seed}");
        groups.push(rows);
    }
    for reached in [1..2, 2..20, 20..21, 21..40, 41..100, 1_000..4_096] {
        assert!(groups.iter().any(|rows| reached.contains(rows)), "{reached:?}");
    }
}

#[test]
fn random_words() {
    let mut reached = [0; 17];
    for seed in 0..1_000 {
        let mut random = Random::new(seed);
        let nodes = random.pick(&[0, 1, 2, 3, 4, 40, 4_096, 4_097]);
        let (parents, ranks) =
            if random.chance(50) { (nodes.max(1), 13) } else { (1 << 16, 1 << 16) };
        let table: Vec<u32> =
            (0..nodes).map(|_| word(random.below(ranks), random.below(parents))).collect();
        reached[check(&table).0 as usize] += 1;
    }
    let [admitted, .., range, words] = reached;
    assert!([admitted, range, words].iter().all(|&times| times >= 50), "{reached:?}");
}
