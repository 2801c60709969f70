//! The writer: its file, its refusals in their order, and the bytes it leaves alone.

use peer::gen::{self, Random};
use peer::job::{Draft, Job, Request, MAX_BYTES, MAX_HEADS};
use peer::numbers::refusal;
use peer::player::Player;

use crate::{Accepted, PLAYERS};

/// What the writer gives for a buffer of this length, its bytes past the file as lent.
pub fn written(player: &Player, draft: &Draft, length: usize) -> Result<Vec<u8>, u32> {
    let mut buffer = vec![0xEE; length];
    let written = player.write_draft(draft, &mut buffer);
    let rest = buffer.split_off(written.bytes as usize);
    assert!(rest.iter().all(|&byte| byte == 0xEE));
    match written.number {
        refusal::NONE => Ok(buffer),
        number => {
            assert_eq!(written.bytes, 0);
            Err(number)
        }
    }
}

#[test]
fn fills_what_it_needs() {
    for (player, seed) in PLAYERS.iter().flat_map(|player| (0..2_000).map(move |n| (player, n))) {
        let job = gen::varied(&mut Random::new(seed));
        let (draft, file) = (job.draft(), job.accepted());
        assert_eq!(written(player, &draft, file.len()), Ok(file.clone()));
        assert_eq!(written(player, &draft, file.len() + 3), Ok(file.clone()));
        let short = written(player, &draft, file.len() - 1);
        assert_eq!(short, Err(refusal::BUFFER_TOO_SHORT));
    }
}

/// The writer's refusals in the order in which it checks.
const ORDER: [u32; 12] = [
    refusal::NODES,
    refusal::HEADS,
    refusal::RIGHTS,
    refusal::TOO_MANY_REQUESTS,
    refusal::REQUEST_HEAD,
    refusal::REQUEST_KIND,
    refusal::REQUEST_NODE,
    refusal::REQUEST_RIGHTS,
    refusal::WAIT,
    refusal::GRANT,
    refusal::FILE_TOO_LONG,
    refusal::BUFFER_TOO_SHORT,
];

/// Spoils what is to be written, in one request where it is a request's fault.
fn spoil(random: &mut Random, number: u32, request: usize, draft: &mut Draft) {
    let Draft { nodes, heads, requests, grants, .. } = draft;
    match number {
        refusal::NODES => *nodes = random.pick(&[0, 4_097, 65_537, u32::MAX]),
        refusal::HEADS => *heads = random.pick(&[0, MAX_HEADS + 1, 65_537, u32::MAX]),
        refusal::RIGHTS => spoil_rights(random, draft),
        refusal::TOO_MANY_REQUESTS => requests.resize(4 * 513, 0),
        refusal::REQUEST_HEAD => requests[4 * request] = random.pick(&[*heads, 256, u32::MAX]),
        refusal::REQUEST_KIND => requests[4 * request + 1] = random.pick(&[0, 3, 257, 258]),
        refusal::REQUEST_NODE => {
            let node = random.pick(&[*nodes, 65_536, u32::MAX]);
            requests[4 * request + random.pick(&[2, 3])] = node;
        }
        refusal::REQUEST_RIGHTS => {
            // Its head may make requests of the other kind alone.
            let (head, kind) = (requests[4 * request] as usize, requests[4 * request + 1]);
            draft.rights[3 * head + 1] = 3 - kind;
        }
        refusal::WAIT => spoil_waits(random, draft),
        refusal::GRANT => grants.push(random.between(*heads, 255) as u8),
        refusal::FILE_TOO_LONG => {
            // Two heads in turn need a run for each grant.
            *grants = [0, 1].repeat(5_000);
        }
        _ => (),
    }
}

/// A record more or less, or one of another head, of other kinds, or with sight of no head.
fn spoil_rights(random: &mut Random, draft: &mut Draft) {
    let Draft { heads, rights, .. } = draft;
    let at = 3 * random.below(*heads) as usize;
    match random.below(if *heads == MAX_HEADS { 4 } else { 5 }) {
        0 => rights.extend([*heads, 3, 0]),
        1 => rights.truncate(rights.len() - 3),
        2 => rights[at] = random.pick(&[rights[at] + 1, rights[at] + 256, u32::MAX]),
        3 => rights[at + 1] = random.pick(&[0, 4, 257, 259, u32::MAX]),
        _ => rights[at + 2] |= 1 << random.between(*heads, MAX_HEADS - 1),
    }
}

/// Adds a pair that does not exist, is not below, or does not come after the one before it.
fn spoil_waits(random: &mut Random, draft: &mut Draft) {
    let requests = draft.requests.len() as u32 / 4;
    let last = draft.waits.last_chunk().copied();
    let missing = random.pick(&[requests, 65_536, 65_537, u32::MAX]);
    let pair = match (random.below(4), last) {
        (0, _) => [missing, 0],
        (1, _) => [requests - 1, missing],
        (2, _) | (_, None) => [requests - 1, requests - 1],
        (_, Some([later, earlier])) => [later, random.between(0, earlier)],
    };
    draft.waits.extend(pair);
}

/// Two heads at least, each with rights; pairs or none.
fn to_be_spoilt(random: &mut Random) -> Job {
    let job = gen::waiting(random);
    gen::with_rights(random, Job { heads: job.heads.max(2), ..job })
}

#[test]
fn refuses_in_order() {
    for (player, seed) in PLAYERS.iter().flat_map(|player| (0..5_000).map(move |n| (player, n))) {
        let mut random = Random::new(seed);
        let mut draft = to_be_spoilt(&mut random).draft();
        // A head's first request, since its rights are missed first there.
        let heads: Vec<u32> = draft.requests.chunks(4).map(|request| request[0]).collect();
        let head = random.pick(&heads);
        let request = heads.iter().position(|&other| other == head).expect("the head has it");
        let faults = [random.below(12) as usize, random.below(12) as usize];
        // The last one first, so that each is made of what stands.
        for place in (0..12).rev().filter(|place| faults.contains(place)) {
            spoil(&mut random, ORDER[place], request, &mut draft);
        }
        let told = ORDER[faults[0].min(faults[1])];
        assert_eq!(written(player, &draft, 9), Err(told), "seed {seed}");
    }
}

/// So many numbers more than whole records are none.
fn drops_a_rest(job: &Job, list: fn(&mut Draft) -> &mut Vec<u32>, rest: &[u32]) {
    for player in PLAYERS {
        let mut draft = job.draft();
        for &number in rest {
            list(&mut draft).push(number);
            assert_eq!(written(&player, &draft, MAX_BYTES), job.file(), "{}", player.name);
        }
    }
}

#[test]
fn drops_a_rest_of_fewer_than_three_rights() {
    drops_a_rest(&gen::entitled(&mut Random::new(1)), |draft| &mut draft.rights, &[u32::MAX, 7]);
    // Two numbers alone are no record: every right.
    drops_a_rest(&gen::contended(&mut Random::new(1)), |draft| &mut draft.rights, &[0, 4]);
}

#[test]
fn drops_a_rest_of_fewer_than_four() {
    let job = gen::contended(&mut Random::new(1));
    drops_a_rest(&job, |draft| &mut draft.requests, &[u32::MAX, 7, 0]);
}

#[test]
fn drops_a_rest_of_one() {
    drops_a_rest(&gen::held(&mut Random::new(1)), |draft| &mut draft.waits, &[u32::MAX]);
}

/// Four nodes, two heads, so many unions of nodes 0 and 1, and these pairs.
fn unions(count: usize, pairs: &[(u32, u32)]) -> Job {
    Job::new(4, 2, &vec![Request::union(0, 0, 1); count], &[]).waiting(pairs)
}

#[test]
fn writes_pairs() {
    for player in PLAYERS {
        let written = |job: &Job, room| written(&player, &job.draft(), room);
        let pair = unions(2, &[(1, 0)]);
        let file = written(&pair, 100).expect("accepted");
        let end = [0x41, 0x46, 0x01, 0x00, 0x00, 0x00, 0x43, 0x4C, 0x8B, 0x7D];
        assert_eq!((file.len(), &file[22..]), (32, &end[..]), "{}", player.name);
        assert_eq!(written(&pair, 32), Ok(file));
        assert_eq!(written(&pair, 31), Err(refusal::BUFFER_TOO_SHORT));
        let file = written(&unions(2, &[]), 100).expect("accepted");
        assert_eq!((file.len(), &file[22..]), (26, &[0x43, 0x4C, 0xCD, 0xC3][..]));
    }
}

#[test]
fn checks_pairs_in_their_place() {
    let mut other_node = unions(2, &[(1, 1)]);
    other_node.requests[1].x = 4;
    let other_head = |pair| Job { grants: vec![2], ..unions(2, &[pair]) };
    let pairs_and_length = |pair| Job { grants: [0, 1].repeat(5_000), ..unions(2, &[pair]) };
    let rows = [
        (other_node, refusal::REQUEST_NODE),
        (other_head((1, 1)), refusal::WAIT),
        (other_head((1, 0)), refusal::GRANT),
        (pairs_and_length((1, 1)), refusal::WAIT),
        (pairs_and_length((1, 0)), refusal::FILE_TOO_LONG),
        (unions(3, &[(2, 0), (1, 0)]), refusal::WAIT),
        (unions(3, &[(2, 1), (2, 0)]), refusal::WAIT),
        (unions(3, &[(2, 1), (2, 1)]), refusal::WAIT),
        (unions(0, &[(0, 0)]), refusal::WAIT),
        // Numbers too large for their field are not cut to it.
        (unions(2, &[(65_537, 0)]), refusal::WAIT),
        (unions(2, &[(1, 65_536)]), refusal::WAIT),
    ];
    for (player, (job, number)) in PLAYERS.iter().flat_map(|p| rows.iter().map(move |r| (p, r))) {
        assert_eq!(written(player, &job.draft(), MAX_BYTES), Err(*number), "{job:?}");
    }
}

/// Four nodes, two heads, head 1's union of nodes 0 and 1, and one grant to it.
fn one_union() -> Job {
    Job::new(4, 2, &[Request::union(1, 0, 1)], &[(1, 1)])
}

#[test]
fn writes_rights() {
    let job = one_union().entitled(&[(2, 0), (1, 3)]);
    for player in PLAYERS {
        let file = [
            0x44, 0x4B, 0x04, 0x00, 0x02, 0x00, // four nodes, two heads
            0x52, 0x54, 0x00, 0x02, 0x00, 0x00, 0x00, 0x00, //
            0x52, 0x54, 0x01, 0x01, 0x03, 0x00, 0x00, 0x00, //
            0x52, 0x51, 0x01, 0x01, 0x00, 0x00, 0x01, 0x00, //
            0x47, 0x52, 0x01, 0x01, //
            0x43, 0x4C, 0x2F, 0x17,
        ];
        let written = |room| written(&player, &job.draft(), room);
        assert_eq!(written(100).as_deref(), Ok(&file[..]), "{}", player.name);
        assert_eq!(written(file.len()).as_deref(), Ok(&file[..]));
        assert_eq!(written(file.len() - 1), Err(refusal::BUFFER_TOO_SHORT));
        assert_eq!(job.accepted(), file);
    }
    // The sight's four bytes, low byte first.
    let rights: Vec<(u32, u32)> = (0..32).map(|head| (3, 0x8421_0000 + head)).collect();
    let job = Job::new(1, 32, &[], &[]).entitled(&rights);
    for player in PLAYERS {
        let file = written(&player, &job.draft(), MAX_BYTES).expect("accepted");
        assert_eq!(file[6 + 8 * 31..][..8], [0x52, 0x54, 0x1F, 0x03, 0x1F, 0x00, 0x21, 0x84]);
        assert_eq!(file.len(), 6 + 8 * 32 + 4);
        assert_eq!(job.accepted(), file);
    }
}

/// Heads, rights, requests and grants of a draft of four nodes, and the number that it is refused
/// with.
type Refused<'a> = (u32, &'a [u32], &'a [u32], &'a [u8], u32);

#[test]
fn checks_rights_in_their_place() {
    let many = [1, 3, 0, 1].repeat(513);
    let three = [0, 3, 0, 1, 3, 0, 2, 3, 0];
    let rows: &[Refused] = &[
        // As many records as heads, or none.
        (2, &[0, 3, 0], &[], &[], 19),
        (2, &three, &[], &[], 19),
        (33, &three, &[], &[], 5),
        (0, &[0, 3, 0], &[], &[], 5),
        // Heads that count up, kinds and sight; nothing is cut to its field.
        (2, &[1, 3, 0, 0, 3, 0], &[], &[], 19),
        (2, &[0, 3, 0, 0, 3, 0], &[], &[], 19),
        (2, &[0, 3, 0, 257, 3, 0], &[], &[], 19),
        (2, &[0, 0, 0, 1, 3, 0], &[], &[], 19),
        (2, &[0, 3, 0, 1, 4, 0], &[], &[], 19),
        (2, &[0, 257, 0, 1, 3, 0], &[], &[], 19),
        (2, &[0, 3, 4, 1, 3, 0], &[], &[], 19),
        (2, &[0, 3, 0, 1, 3, 0x8000_0000], &[], &[], 19),
        // Before the number of requests and their fields, and before the grants.
        (2, &[0, 4, 0, 1, 4, 0], &many, &[], 19),
        (2, &[0, 3, 0, 1, 3, 0], &many, &[], 9),
        (2, &[0, 3, 0], &[2, 1, 0, 1], &[9], 19),
        // A request outside its head's rights: behind its other faults, before the grants.
        (2, &[0, 2, 0, 1, 2, 0], &[0, 1, 0, 1], &[9], 20),
        (2, &[0, 3, 0, 1, 1, 0], &[1, 2, 0, 1], &[9], 20),
        (2, &[0, 2, 0, 1, 2, 0], &[0, 1, 0, 4], &[], 8),
        (2, &[0, 2, 0, 1, 2, 0], &[0, 3, 0, 1], &[], 7),
        (2, &[0, 2, 0, 1, 2, 0], &[2, 1, 0, 1], &[], 6),
        (2, &[0, 2, 0, 1, 2, 0], &[0, 2, 0, 1, 0, 1, 0, 1, 2, 1, 0, 1], &[], 20),
        (2, &[0, 2, 0, 1, 2, 0], &[0, 2, 0, 1], &[9], 10),
    ];
    for (player, row) in PLAYERS.iter().flat_map(|p| rows.iter().map(move |row| (p, row))) {
        let &(heads, rights, requests, grants, number) = row;
        let (rights, requests, grants) = (rights.to_vec(), requests.to_vec(), grants.to_vec());
        let draft = Draft { nodes: 4, heads, rights, requests, waits: Vec::new(), grants };
        assert_eq!(written(player, &draft, 0), Err(number), "{}: {row:?}", player.name);
    }
}
