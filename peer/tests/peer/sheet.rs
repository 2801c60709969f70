//! Sheets and rights: request A5's cases, refusals and lent bytes; sheets held against the listing;
//! runs that agree on what a head sees.

use std::collections::BTreeSet;

use peer::gen::{self, Random};
use peer::job::{self, Job, Request, Right, Wait, MAX_HEADS};
use peer::numbers::refusal;
use peer::player::{Outcome, Player, AMPLE, PEER};
use peer::sheet::{Listed, MAX_SHEET};

use crate::edges::bytes;
use crate::{Accepted, PLAYERS};

/// What a call leaves: its result with every byte lent, used or not.
#[derive(Debug, PartialEq, Eq)]
struct Left {
    listed: Listed,
    out: Vec<u8>,
}

impl Left {
    /// Bytes as they are lent; no sheet has such ones.
    fn untouched(number: u32, room: usize) -> Left {
        let out = (0..room).map(|index| index as u8 | 0x80).collect();
        Left { listed: Listed::refused(number), out }
    }

    /// This text in front of what was lent.
    fn filled(text: &str, room: usize) -> Left {
        let mut left = Left::untouched(refusal::NONE, room);
        left.listed.bytes = text.len();
        left.out[..text.len()].copy_from_slice(text.as_bytes());
        left
    }

    fn of(player: &Player, file: &[u8], head: u32, room: usize) -> Left {
        let mut left = Left::untouched(refusal::NONE, room);
        left.listed = (player.sheet)(file, head, &mut left.out);
        left
    }
}

/// Every player gives this sheet of a head, into a buffer that it fills and into longer ones, and
/// refuses shorter ones.
fn gives(file: &[u8], head: u32, text: &str) {
    let bytes = text.len();
    for player in PLAYERS {
        let leaves = |room: usize, expected: Left| {
            let left = Left::of(&player, file, head, room);
            assert_eq!(left, expected, "{}, head {head}: {file:02X?}", player.name);
        };
        for room in [bytes, bytes + 1, bytes + 70] {
            leaves(room, Left::filled(text, room));
        }
        for room in [0, bytes / 2, bytes.saturating_sub(1)] {
            if room < bytes {
                leaves(room, Left::untouched(refusal::BUFFER_TOO_SHORT, room));
            }
        }
    }
}

/// Every player refuses a head's sheet, whatever is lent for it.
fn refuses(file: &[u8], head: u32, number: u32) {
    for (player, room) in PLAYERS.iter().flat_map(|player| [0, 1, MAX_SHEET].map(|r| (player, r))) {
        let left = Left::of(player, file, head, room);
        assert_eq!(left, Left::untouched(number, room), "{}: {file:02X?}", player.name);
    }
}

/// A file of these records; the word `=` is a close with the right balance.
fn file(records: &[&str]) -> Vec<u8> {
    bytes(&records.join(" "))
}

/// Four nodes, two heads.
const OPENING: &str = "44 4B 04 00 02 00";
/// The balance of a file that is refused before is not looked at.
const CLOSE: &str = "43 4C 00 00";
const JOIN: &str = "52 51 00 01 02 00 03 00";
const ENQUIRE: &str = "52 51 01 02 00 00 01 00";
/// Head 0's first grants come third, and its union ends.
const GRANTS: &str = "47 52 01 02 47 52 00 0D 47 52 01 01";
/// Both rights and sight of both heads, for head 0 and head 1.
const BOTH_OF_0: &str = "52 54 00 03 03 00 00 00";
const BOTH_OF_1: &str = "52 54 01 03 03 00 00 00";

#[test]
fn heads_that_see_themselves_or_both() {
    let rights = "52 54 00 01 01 00 00 00 52 54 01 02 03 00 00 00";
    let entitled = file(&[OPENING, rights, JOIN, ENQUIRE, GRANTS, "43 4C 48 10"]);
    let without = file(&[OPENING, JOIN, ENQUIRE, GRANTS, "="]);
    for player in PLAYERS {
        let left = Outcome::of(player.play, &entitled, AMPLE);
        assert_eq!(left.played.number, refusal::NONE, "{}", player.name);
        assert_eq!(left, Outcome::of(player.play, &without, AMPLE), "{}", player.name);
    }
    let of_0 = "request 0 1 3 15 13\nline 7 0\n";
    let of_1 = "request 0 1 3 15 13\nrequest 1 4 1 16 3\nline 2 1\nline 7 0\n";
    assert_eq!((of_0.len(), of_1.len()), (29, 57));
    gives(&entitled, 0, of_0);
    gives(&entitled, 1, of_1);
    refuses(&entitled, 2, 10);
    refuses(&entitled, u32::MAX, 10);
}

#[test]
fn a_head_that_sees_nobody() {
    let rights = "52 54 00 03 00 00 00 00 52 54 01 03 02 00 00 00";
    let file = file(&[OPENING, rights, JOIN, ENQUIRE, GRANTS, "43 4C 4A 0D"]);
    gives(&file, 0, "");
    gives(&file, 1, "request 0 4 1 16 3\nline 2 0\n");
}

/// Document 01's job of 38 bytes: every head sees every head.
#[test]
fn no_records() {
    let file = file(&[OPENING, JOIN, ENQUIRE, "47 52 01 02 47 52 00 06 47 52 01 01 43 4C F1 C2"]);
    let text = "request 0 0 3 0 6\nrequest 1 4 1 9 3\nline 2 1\nline 7 0\n";
    assert_eq!((file.len(), text.len()), (38, 54));
    gives(&file, 0, text);
    gives(&file, 1, text);
    refuses(&file, 2, 10);
}

#[test]
fn a_waiting_request_is_seen_alone() {
    let file = file(&[
        OPENING,
        "52 54 00 03 03 00 00 00 52 54 01 03 02 00 00 00",
        "52 51 00 01 00 00 01 00 52 51 01 02 00 00 01 00 41 46 01 00 00 00",
        "47 52 01 03 47 52 00 0D 47 52 01 06 43 4C 09 C1",
    ]);
    gives(&file, 1, "request 0 3 17 22 6\nline 22 0\n");
    gives(&file, 0, "request 0 1 4 16 13\nrequest 1 3 17 22 6\nline 8 0\nline 22 1\n");
}

#[test]
fn the_most_heads() {
    let rights: Vec<(u32, u32)> = vec![(3, u32::MAX); 32];
    let job = Job::new(2, 32, &[Request::union(31, 0, 1)], &[(31, 13)]).entitled(&rights);
    let file = job.accepted();
    assert_eq!(file.len(), 278);
    for head in [0, 31] {
        gives(&file, head, "request 0 1 1 13 13\nline 5 0\n");
    }
    refuses(&file, 32, 10);
}

/// Every player refuses the file with this number, as the reader does, and a sheet of any head.
fn refused(records: &[&str], number: u32) {
    let file = file(records);
    assert_eq!(job::read(&file), Err(number), "{records:?}");
    for player in PLAYERS {
        let outcome = Outcome::of(player.play, &file, AMPLE);
        assert_eq!(outcome, Outcome::untouched(number, AMPLE), "{}: {records:?}", player.name);
    }
    refuses(&file, 0, number);
    refuses(&file, u32::MAX, number);
}

#[test]
fn missing_and_surplus_records() {
    refused(&[OPENING, BOTH_OF_0, JOIN, CLOSE], 3);
    refused(&[OPENING, BOTH_OF_0, "41 46 01 00 00 00", CLOSE], 3);
    refused(&[OPENING, BOTH_OF_0, GRANTS, CLOSE], 3);
    refused(&[OPENING, BOTH_OF_0, CLOSE], 3);
    refused(&[OPENING, BOTH_OF_0], 2);
    refused(&[OPENING, BOTH_OF_0, "52"], 2);
    let whole = [OPENING, BOTH_OF_0, BOTH_OF_1];
    refused(&[&whole[..], &["52 54 02 03 03 00 00 00", CLOSE]].concat(), 3);
    refused(&[&whole[..], &[BOTH_OF_1, CLOSE]].concat(), 3);
    refused(&[&whole[..], &["52 54"]].concat(), 3);
    refused(&[&whole[..], &["52"]].concat(), 2);
    refused(&[OPENING, JOIN, BOTH_OF_0, BOTH_OF_1, CLOSE], 3);
    refused(&[OPENING, JOIN, "52 54"], 3);
    refused(&[OPENING, GRANTS, BOTH_OF_0, BOTH_OF_1, CLOSE], 3);
    refused(&[BOTH_OF_0, BOTH_OF_1, OPENING, CLOSE], 3);
    // The record is whole before its fields are looked at.
    refused(&[OPENING, "52 54 00 03 03 00 00"], 2);
    refused(&[OPENING, "52 54 01 04 04 00 00"], 2);
    refused(&[OPENING, BOTH_OF_0, "52 54"], 2);
}

#[test]
fn records_out_of_range() {
    for record in [
        "52 54 01 03 03 00 00 00",
        "52 54 00 00 03 00 00 00",
        "52 54 00 04 03 00 00 00",
        "52 54 00 FF 03 00 00 00",
        "52 54 00 03 04 00 00 00",
        "52 54 00 03 00 01 00 00",
        "52 54 00 03 00 00 01 00",
        "52 54 00 03 00 00 00 80",
    ] {
        refused(&[OPENING, record], 19);
        refused(&[OPENING, record, BOTH_OF_1, JOIN, CLOSE], 19);
    }
    for record in ["52 54 00 03 03 00 00 00", "52 54 02 03 03 00 00 00", "52 54 01 03 00 00 00 80"]
    {
        refused(&[OPENING, BOTH_OF_0, record], 19);
    }
    // The highest bit of a mask is that of head 31.
    let last_seen = |heads: u32| {
        let rights: Vec<(u32, u32)> = vec![(3, 0x8000_0000); heads as usize];
        Job::new(2, heads, &[], &[]).entitled(&rights)
    };
    assert_eq!(last_seen(31).file(), Err(19));
    let record = |head: u32| format!("52 54 {head:02X} 03 00 00 00 80");
    let records = |heads: u32| (0..heads).map(record).collect::<Vec<String>>().join(" ");
    refused(&["44 4B 02 00 1F 00", &records(31), "="], 19);
    let accepted = file(&["44 4B 02 00 20 00", &records(32), "="]);
    assert_eq!(last_seen(32).file().as_ref(), Ok(&accepted));
    gives(&accepted, 31, "");
}

#[test]
fn requests_outside_rights() {
    let enquires = [OPENING, "52 54 00 02 03 00 00 00", BOTH_OF_1];
    let joins = [OPENING, "52 54 00 01 03 00 00 00", BOTH_OF_1];
    let asked = |rights: &[&str], request, number| {
        refused(&[rights, &[request, CLOSE]].concat(), number);
    };
    asked(&enquires, JOIN, 20);
    asked(&joins, "52 51 00 02 02 00 03 00", 20);
    for rights in [&enquires, &joins] {
        asked(rights, "52 51 00 01 02 00 04 00", 8);
        asked(rights, "52 51 00 02 04 00 03 00", 8);
        asked(rights, "52 51 00 03 02 00 03 00", 7);
        asked(rights, "52 51 02 01 02 00 03 00", 6);
        // Head 1 may ask for both, and grants are nobody's right.
        let rest = [ENQUIRE, "52 51 01 01 02 00 03 00", GRANTS, "="];
        let file = file(&[&rights[..], &rest].concat());
        for player in PLAYERS {
            let played = Outcome::of(player.play, &file, AMPLE).played;
            assert_eq!(played.number, 0, "{}", player.name);
        }
    }
    // The first request that is refused decides.
    refused(&[&enquires[..], &[JOIN, "52 51 00 01 02 00 04 00", CLOSE]].concat(), 20);
    refused(&[&enquires[..], &["52 51 00 01 02 00 04 00", JOIN, CLOSE]].concat(), 8);
    // Before the pairs, the runs, the bytes after the close and the balance.
    refused(&[&enquires[..], &[JOIN, "41 46 00 00 00 00", CLOSE]].concat(), 20);
    refused(&[&enquires[..], &[JOIN, "47 52 02 01", CLOSE, "00"]].concat(), 20);
}

/// What is wrong with the file, then with the head, then with the buffer.
#[test]
fn order_of_a_sheets_refusals() {
    let records = [OPENING, BOTH_OF_0, BOTH_OF_1, JOIN, GRANTS];
    let wrong = file(&[&records[..], &[CLOSE]].concat());
    let right = file(&[&records[..], &["="]].concat());
    for player in PLAYERS {
        let number = |file, head| Left::of(&player, file, head, 0).listed.number;
        assert_eq!([number(&wrong, 2), number(&right, 2), number(&right, 0)], [13, 10, 14]);
    }
}

/// A head's sheet, told from the listing: the lines of what it sees, numbered anew.
fn from_listing(listing: &str, job: &Job, head: u32) -> String {
    let mut seen = 0..;
    let number = |request: &Request| sees(job, head, request).then(|| seen.next()).flatten();
    let numbers: Vec<Option<u32>> = job.requests.iter().map(number).collect();
    let of = |request: &str| numbers[request.parse::<usize>().expect("a number")];
    let renumbered = |line: &str| match line.split(' ').collect::<Vec<&str>>()[..] {
        ["request", request, ref four @ ..] => {
            Some(format!("request {} {}\n", of(request)?, four.join(" ")))
        }
        ["line", point, request] => Some(format!("line {point} {}\n", of(request)?)),
        _ => None,
    };
    listing.lines().filter_map(renumbered).collect()
}

fn sees(job: &Job, head: u32, request: &Request) -> bool {
    job.rights.get(head as usize).is_none_or(|right| right.sees(request.head))
}

/// How many of a job's requests a head sees.
fn seen(job: &Job, head: u32) -> usize {
    job.requests.iter().filter(|request| sees(job, head, request)).count()
}

#[test]
fn sheets_are_lines_of_the_listing() {
    let (mut nothing, mut part, mut all, mut not_itself) = (0, 0, 0, 0);
    let small = (0..800).map(|seed| gen::varied(&mut Random::new(seed)));
    let larger = (0..20).map(|seed| {
        let mut random = Random::new(seed);
        let job = gen::larger(&mut random);
        gen::with_rights(&mut random, job)
    });
    for job in small.chain(larger) {
        let file = job.accepted();
        let listing = (PEER.list)(&file);
        for head in 0..job.heads {
            gives(&file, head, &from_listing(&listing, &job, head));
            match seen(&job, head) {
                0 => nothing += 1,
                seen if seen < job.requests.len() => part += 1,
                _ => all += 1,
            }
            let right = job.rights.get(head as usize).unwrap_or(&Right::EVERY);
            not_itself += u32::from(!right.sees(head as u8));
        }
        for head in [job.heads, MAX_HEADS, 255, 256, u32::MAX] {
            refuses(&file, head, 10);
        }
    }
    assert!([nothing, part, all, not_itself].iter().all(|&sheets| sheets >= 500));
}

/// Without records, and with sight of every head, a sheet is the listing's own lines.
#[test]
fn sight_of_every_head() {
    for seed in 0..300 {
        let job = gen::waiting(&mut Random::new(seed));
        let rights = vec![(3, gen::every_head(job.heads)); job.heads as usize];
        let entitled = job.clone().entitled(&rights);
        let own = |line: &&str| line.starts_with("request ") || line.starts_with("line ");
        for job in [job, entitled] {
            let file = job.accepted();
            for player in PLAYERS {
                let listing = (player.list)(&file);
                let text: String = listing.split_inclusive('\n').filter(own).collect();
                let head = seed as u32 % job.heads;
                let room = text.len();
                assert_eq!(Left::of(&player, &file, head, room), Left::filled(&text, room));
            }
        }
    }
}

/// What two runs have to agree on: of each request that a head sees, in file order, its kind and
/// nodes, its four report numbers and its point.
fn view(job: &Job, head: u32) -> Vec<(Request, [u32; 4], Option<u32>)> {
    let outcome = Outcome::of(PEER.play, &job.accepted(), AMPLE);
    let entries = outcome.lineup.as_chunks::<2>().0[..outcome.played.entries as usize].iter();
    let point = |number: usize| {
        let mut own = entries.clone().filter(|entry| entry[1] as usize == number);
        own.next().map(|entry| entry[0])
    };
    let rows = job.requests.iter().zip(outcome.report.as_chunks().0).enumerate();
    rows.filter(|(_, (request, _))| sees(job, head, request))
        .map(|(number, (request, row))| (Request { head: 0, ..*request }, *row, point(number)))
        .collect()
}

/// Every player gives the same for both, of a buffer that is long enough, exact or too short.
fn same_sheets(job: &Job, other: &Job, head: u32) {
    let [file, of_other] = [job, other].map(|job| job.accepted());
    for player in PLAYERS {
        let left = Left::of(&player, &file, head, MAX_SHEET);
        assert_eq!(left.listed.number, refusal::NONE, "{}", player.name);
        let bytes = left.listed.bytes;
        for room in [MAX_SHEET, bytes, bytes.saturating_sub(1)] {
            let [one, two] = [&file, &of_other].map(|file| Left::of(&player, file, head, room));
            assert_eq!(one, two, "{}: {job:?} {other:?} {head}", player.name);
        }
    }
}

#[test]
fn two_runs_that_agree() {
    let (first, asks, joins) =
        (Request::union(0, 2, 3), Request::same_set(1, 0, 1), Request::union(2, 0, 1));
    let rights = [(3, 1), (3, 3), (3, 7)];
    let job = Job::new(4, 3, &[first, asks, joins], &[(0, 13), (1, 3)]).entitled(&rights);
    let runs = [(0, 13), (1, 3), (2, 3)];
    let other = Job::new(4, 3, &[first, joins, asks], &runs).entitled(&rights);
    for job in [&job, &other] {
        gives(&job.accepted(), 0, "request 0 1 1 13 13\nline 5 0\n");
    }
    same_sheets(&job, &other, 0);
    let text = |player: &Player, job: &Job| Left::of(player, &job.accepted(), 2, MAX_SHEET).out;
    for player in PLAYERS {
        assert_ne!(text(&player, &job), text(&player, &other), "{}", player.name);
    }
}

/// The requests in another order: each head's keep theirs, those that the head sees keep theirs,
/// and no request comes before one that it waits for. So every grant does what it did.
fn reordered(random: &mut Random, job: Job, head: u32) -> Job {
    let pairs: BTreeSet<Wait> = job.waits.iter().copied().collect();
    let comes_first = |earlier: usize, later: usize| {
        let [a, b] = [earlier, later].map(|number| &job.requests[number]);
        let wait = Wait { later: later as u32, earlier: earlier as u32 };
        let both_seen = sees(&job, head, a) && sees(&job, head, b);
        earlier < later && (a.head == b.head || both_seen || pairs.contains(&wait))
    };
    let mut left: Vec<usize> = (0..job.requests.len()).collect();
    let mut order = Vec::new();
    while !left.is_empty() {
        let free = |&&next: &&usize| !left.iter().any(|&other| comes_first(other, next));
        let next = random.pick(&left.iter().filter(free).copied().collect::<Vec<usize>>());
        left.retain(|&other| other != next);
        order.push(next);
    }
    let mut numbers = vec![0; order.len()];
    for (number, &old) in (0..).zip(&order) {
        numbers[old] = number;
    }
    let number = |old: u32| numbers[old as usize];
    let renumbered =
        |wait: &Wait| Wait { later: number(wait.later), earlier: number(wait.earlier) };
    let waits: BTreeSet<Wait> = pairs.iter().map(renumbered).collect();
    let requests = order.iter().map(|&number| job.requests[number]).collect();
    Job { requests, waits: waits.into_iter().collect(), ..job }
}

/// Another job that agrees with this one on what the head sees. It may have more heads, with a
/// request each; what the head does not see and has not begun is asked of other nodes; the other
/// heads may ask for more and see whom they like.
fn elsewhere(random: &mut Random, job: &Job, head: u32) -> Job {
    let report = Outcome::of(PEER.play, &job.accepted(), AMPLE).report;
    let mut other = job.clone();
    other.heads = random.between(job.heads, MAX_HEADS.min(job.heads + 3));
    for new in job.heads..other.heads {
        other.requests.push(Request::union(new as u8, 0, random.below(job.nodes)));
    }
    for (number, request) in other.requests.iter_mut().enumerate().take(job.requests.len()) {
        if !sees(job, head, request) && report[4 * number + 1] == 0 {
            request.x = random.below(job.nodes);
        }
    }
    let all = gen::every_head(other.heads);
    let mut right = |_| Right { kinds: 3, sight: random.bits() as u32 & all };
    other.rights = (0..other.heads).map(&mut right).collect();
    other.rights[head as usize].sight = job.rights[head as usize].sight;
    let mut other = reordered(random, other, head);
    // Grants at the end, to heads without work and to others, move nothing that the head sees.
    let unseen = |&one: &u8| !job.rights[head as usize].sees(one);
    let unseen: Vec<u8> = (0..other.heads as u8).filter(unseen).collect();
    let more = if unseen.is_empty() { 0 } else { random.between(0, 40) };
    other.grants.extend((0..more).map(|_| random.pick(&unseen)));
    other
}

/// Pairs of jobs that differ only in what a head may not see, and in grants to unseen heads at the
/// end.
#[test]
fn what_is_not_seen_does_not_show() {
    let (mut filled, mut differ, mut moved) = (0, 0, 0);
    for seed in 0..1_000 {
        let mut random = Random::new(seed);
        let job = gen::entitled(&mut random);
        let head = random.below(job.heads);
        let other = elsewhere(&mut random, &job, head);
        assert_eq!(view(&job, head), view(&other, head), "seed {seed}");
        same_sheets(&job, &other, head);
        filled += u32::from(seen(&job, head) > 0);
        differ += u32::from((PEER.list)(&job.accepted()) != (PEER.list)(&other.accepted()));
        moved += u32::from(seen(&job, head) > 0 && job.requests[0] != other.requests[0]);
    }
    assert!(filled >= 500 && differ >= 500 && moved >= 100, "{filled} {differ} {moved}");
}

/// From one grant to the next a sheet changes exactly if what it is told of does.
#[test]
fn a_sheet_changes_with_what_is_seen() {
    let (mut same, mut changed) = (0, 0);
    for seed in 0..150 {
        let mut random = Random::new(seed);
        let job = gen::entitled(&mut random);
        let head = random.below(job.heads);
        let grants = job.grants.len().min(40);
        let cut = |grants: usize| job.cut(grants);
        for grants in 1..=grants {
            let [before, after] = [cut(grants - 1), cut(grants)];
            let agree = view(&before, head) == view(&after, head);
            for player in PLAYERS {
                let [before, after] = [&before, &after]
                    .map(|job| Left::of(&player, &job.accepted(), head, MAX_SHEET));
                assert_eq!(before == after, agree, "{}: seed {seed}, {grants}", player.name);
            }
            same += u32::from(agree);
            changed += u32::from(!agree);
        }
    }
    assert!(same >= 500 && changed >= 500, "{same} {changed}");
}

/// A damaged file's own number comes first, for every head and buffer.
#[test]
fn damaged_files() {
    let (mut accepted, mut refused) = (0, 0);
    for seed in 0..2_000 {
        let mut random = Random::new(seed);
        let job = gen::varied(&mut random);
        let (file, _) = gen::damaged(&mut random, &job);
        let head = random.below(MAX_HEADS + 2);
        match job::read(&file) {
            Err(number) => {
                refused += 1;
                refuses(&file, head, number);
            }
            Ok(job) if head < job.heads => {
                accepted += 1;
                gives(&file, head, &from_listing(&(PEER.list)(&file), &job, head));
            }
            Ok(_) => refuses(&file, head, 10),
        }
    }
    assert!(accepted >= 50 && refused >= 500, "{accepted} {refused}");
}
