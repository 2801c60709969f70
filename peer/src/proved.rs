//! The proved core as a player, through its library; as such a player too, the core on files that
//! were text in between.

use grouping_core as core;
use workbench::draft::Draft;
use workbench::text::text_of;

use crate::job::Written;
use crate::limits::Limits;
use crate::page::{Paged, Row};
use crate::play::{Played, Tally};
use crate::player::{Outcome, Player, AMPLE};
use crate::query::Queried;
use crate::sheet::Listed;

pub const CORE: Player = Player { name: "core", play, write, query, list, page, sheet, limits };
/// The core with a tally lent to it.
pub const LENT: Player = Player { name: "core, tally lent", play: play_lent, ..CORE };

/// The core, each accepted file taken to the workbench's text and back.
pub const TEXT: Player = Player {
    name: "core, by way of text",
    play: |file, table, report, lineup| play(&by_text(file), table, report, lineup),
    list: |file| list(&by_text(file)),
    sheet: |file, head, out| sheet(&by_text(file), head, out),
    ..CORE
};

/// What stands in a lent tally before the call.
const BEFORE: core::Tally = core::Tally {
    idle: 0xA5A5_0000,
    failed: 0xA5A5_0001,
    links: 0xA5A5_0002,
    working: 0xA5A5_0003,
};

/// The file that the workbench writes from an accepted file's text, which is the same file; a refused
/// one as it is.
pub fn by_text(file: &[u8]) -> Vec<u8> {
    let Ok(job) = workbench::job::Job::read(file) else { return file.to_vec() };
    let draft = Draft::parse(&text_of(&job)).expect("the text of a job can be read");
    let again = draft.file().expect("and written");
    assert_eq!(again, file);
    again
}

fn play(file: &[u8], table: &mut [u32], report: &mut [u32], lineup: &mut [u32]) -> Played {
    told(core::play(file, table, report, lineup))
}

/// The owner's tally ends as the result's, or as it was lent where the job is refused.
fn play_lent(file: &[u8], table: &mut [u32], report: &mut [u32], lineup: &mut [u32]) -> Played {
    let mut tally = BEFORE;
    let played = core::play_lent(file, table, report, lineup, &mut tally);
    let expected = if played.number == 0 { played.tally } else { BEFORE };
    assert_eq!(tally, expected, "number {}", played.number);
    told(played)
}

fn write(
    nodes: u32,
    heads: u32,
    rights: &[u32],
    requests: &[u32],
    waits: &[u32],
    grants: &[u8],
    buffer: &mut [u8],
) -> Written {
    let written = core::write(nodes, heads, rights, requests, waits, grants, buffer);
    Written { number: written.number, bytes: written.bytes }
}

fn query(table: &mut [u32], x: u32, y: u32, budget: u16) -> Queried {
    let core::Queried { number, answer, used } = core::query(table, x, y, budget);
    Queried { number, answer, grants: used }
}

fn page(table: &[u32], rows: &mut [Row], page: &mut [u8]) -> Paged {
    let asked = |&Row { lowest, size, root, rank }: &Row| core::Row { lowest, size, root, rank };
    let told = |core::Row { lowest, size, root, rank }| Row { lowest, size, root, rank };
    let mut lent: Vec<core::Row> = rows.iter().map(asked).collect();
    let core::Paged { number, rows: written, bytes } = core::page(table, &mut lent, page);
    rows.copy_from_slice(&lent.into_iter().map(told).collect::<Vec<Row>>());
    Paged { number, rows: written, bytes }
}

fn sheet(file: &[u8], head: u32, out: &mut [u8]) -> Listed {
    let core::Listed { number, bytes } = core::sheet(file, head, out);
    Listed { number, bytes }
}

fn limits(nodes: u32) -> Limits {
    let core::Limits { number, same_set_grants, union_grants } = core::limits(nodes);
    Limits { number, same_set: same_set_grants, union: union_grants }
}

fn told(played: core::Played) -> Played {
    let core::Played { number, places, heads, requests, grants, entries, tally } = played;
    let core::Tally { idle, failed, links, working } = tally;
    let tally = Tally { idle, failed, links, working };
    Played { number, nodes: places, heads, requests, grants, entries, tally }
}

fn asked(played: &Played) -> core::Played {
    let Played { number, nodes, heads, requests, grants, entries, tally } = *played;
    let Tally { idle, failed, links, working } = tally;
    let tally = core::Tally { idle, failed, links, working };
    core::Played { number, places: nodes, heads, requests, grants, entries, tally }
}

fn list(file: &[u8]) -> String {
    let outcome = Outcome::of(play, file, AMPLE);
    let mut text = vec![0; core::MOST_LISTING];
    let listed = list_into(&outcome, &mut text);
    text.truncate(listed.bytes);
    String::from_utf8(text).expect("a listing is text")
}

/// The text of an outcome, into a buffer of any length.
pub fn list_into(outcome: &Outcome, text: &mut [u8]) -> core::Listed {
    let Outcome { played, table, report, lineup } = outcome;
    core::list(asked(played), table, report, lineup, text)
}
