//! Safe Rust over the proved grouping core: play a job file, with a tally of its own or on one that
//! is lent, write one, make a counter enquiry, print a played job or the sheet of one of its heads,
//! put a table's groups on a page, tell how long a head can be kept.
//!
//! Heads take turns on one table of places, one grant at a time, and work through requests: a union
//! joins the groups of two places, a same-set asks whether two places are in one group. A request may
//! wait for an earlier one: until that is finished, its head takes its grants as idle. A job may say
//! what each head may ask and whose requests it may see; its sheet has those. A place is a node of the
//! paper's forest, a group a set, the line-up the run's linearization, an enquiry's allowance its
//! budget of grants; a call that is turned down is refused. `docs/GLOSSARY.md` has all of them,
//! `docs/JOBFILE.md` the job file byte by byte.
//!
//! Any bytes, numbers and lengths are admitted: what cannot be served is refused by number, with
//! zero for every count and nothing written. What a call does not write stays as it was. The
//! functions keep nothing between calls, allocate nothing and have no global state, so they may be
//! called from any threads; [`stack`] says how much stack each needs.
//!
//! ```
//! use grouping_core::{list, play, write, MOST_FILE, MOST_LINEUP, MOST_LISTING, MOST_REPORT, MOST_TABLE};
//! use grouping_core::{Refusal, SAME_SET, UNION};
//!
//! // Four places, two heads: head 0 joins 2 and 3, head 1 asks about 0 and 1.
//! let requests = [0, UNION, 2, 3, /**/ 1, SAME_SET, 0, 1];
//! let grants = [1, 1, 0, 0, 0, 0, 0, 0, 1];
//! let mut file = vec![0; MOST_FILE];
//! let written = write(4, 2, &[], &requests, &[], &grants, &mut file).result()?;
//!
//! let (mut table, mut report, mut lineup) =
//!     (vec![0; MOST_TABLE], vec![0; MOST_REPORT], vec![0; MOST_LINEUP]);
//! let played =
//!     play(&file[..written.bytes as usize], &mut table, &mut report, &mut lineup).result()?;
//!
//! let mut text = vec![0; MOST_LISTING];
//! let listed = list(played, &table, &report, &lineup, &mut text).result()?;
//! let text = String::from_utf8_lossy(&text[..listed.bytes]);
//! assert!(text.starts_with("job 4 2 2 9\n") && text.ends_with("line 7 0\ntally 0 0 1 1\n"));
//! # Ok::<(), Refusal>(())
//! ```

#![deny(unsafe_op_in_unsafe_fn)]
#![warn(missing_docs)]

mod exports;
mod numbers;
mod results;

/// The Rust program that README.md shows is compiled with the tests.
#[cfg(doctest)]
#[doc = include_str!("../../README.md")]
struct Readme;

pub use numbers::*;
pub use results::{Limits, Listed, Paged, Played, Queried, Row, Tally, Written};

// In all calls each pointer and length come from one slice, which is valid for the call and, where
// it is written, held by nobody else; so is the tally. The functions keep no pointer.

/// Plays a job file. `table` gets a word a place (rank × 65,536 + parent), `report` four numbers a
/// request (answer, first grant, last grant, grants used), `lineup` two numbers an entry (point,
/// request). Refused with 1 to 14 and 18 to 20.
///
/// ```
/// use grouping_core::{play, Answer, Refusal};
///
/// // Two places, one head: a union of 0 and 1, and the thirteen grants that it takes.
/// let file = b"DK\x02\0\x01\0RQ\0\x01\0\0\x01\0GR\0\x0DCL\xDC\xB6";
/// let (mut table, mut report, mut lineup) = ([7; 3], [7; 4], [7; 2]);
/// let played = play(file, &mut table, &mut report, &mut lineup);
/// assert_eq!((played.number, played.places, played.grants, played.entries), (0, 2, 13, 1));
/// assert_eq!((played.tally.links, played.tally.failed, played.tally.working), (1, 1, 0));
/// // Place 0 has parent 1, which is a root of rank 1; the third word is past the places.
/// assert_eq!(table, [1, 65_537, 7]);
/// assert_eq!(report, [Answer::Joined as u32, 1, 13, 13]);
/// assert_eq!(lineup, [5, 0]);
///
/// let refused = play(b"", &mut table, &mut report, &mut lineup);
/// assert_eq!(refused.result(), Err(Refusal::FileEndsEarly));
/// assert_eq!(table, [1, 65_537, 7]);
/// ```
pub fn play(file: &[u8], table: &mut [u32], report: &mut [u32], lineup: &mut [u32]) -> Played {
    // SAFETY: pointers and lengths of slices, as said above.
    unsafe {
        exports::grouping_play(
            file.as_ptr(),
            file.len(),
            table.as_mut_ptr(),
            table.len(),
            report.as_mut_ptr(),
            report.len(),
            lineup.as_mut_ptr(),
            lineup.len(),
        )
    }
}

/// Plays a job file as [`play`] does, on a tally that its owner lends: an accepted job sets it to
/// zeros and each grant adds to it; a refusal leaves it as it was.
///
/// ```
/// use grouping_core::{play_lent, Refusal, Tally};
///
/// // One place, one head, no requests, three grants: three idle ones.
/// let file = b"DK\x01\0\x01\0GR\0\x03CL\x30\x13";
/// let mut tally = Tally { idle: 9, failed: 9, links: 9, working: 9 };
/// let refused = play_lent(&file[..4], &mut [0; 1], &mut [], &mut [], &mut tally);
/// assert_eq!(refused.result(), Err(Refusal::FileEndsEarly));
/// assert_eq!(tally.idle, 9);
///
/// let played = play_lent(file, &mut [0; 1], &mut [], &mut [], &mut tally);
/// assert_eq!(tally, Tally { idle: 3, failed: 0, links: 0, working: 0 });
/// assert_eq!(played.tally, tally);
/// ```
pub fn play_lent(
    file: &[u8],
    table: &mut [u32],
    report: &mut [u32],
    lineup: &mut [u32],
    tally: &mut Tally,
) -> Played {
    // SAFETY: pointers and lengths of slices, and one reference, as said above.
    unsafe {
        exports::grouping_play_lent(
            file.as_ptr(),
            file.len(),
            table.as_mut_ptr(),
            table.len(),
            report.as_mut_ptr(),
            report.len(),
            lineup.as_mut_ptr(),
            lineup.len(),
            tally,
        )
    }
}

/// Writes a job file. `rights` has three numbers a head (head, what it may ask, the heads that it may
/// see, a bit each), the heads counting up from 0, or none, which is every right and sight of every
/// head; a rest of fewer than three is no record. `requests` has four numbers a request (head, kind,
/// place x, place y), and a rest of fewer than four is no request. `waits` has two numbers a pair, the
/// later request and the earlier one that it waits for, rising by the pair, and a rest of one is no
/// pair; requests count from 0. `grants` has one head number a grant. Refused with 1, 4 to 10, 14 and
/// 18 to 20.
///
/// ```
/// use grouping_core::{write, Refusal, MAY_BOTH, MAY_ENQUIRE, SAME_SET, UNION};
///
/// let mut out = [0xEE; 24];
/// let written = write(2, 1, &[], &[0, UNION, 0, 1], &[], &[0; 6], &mut out);
/// assert_eq!((written.number, written.bytes), (0, 22));
/// assert_eq!(&out[..22], b"DK\x02\0\x01\0RQ\0\x01\0\0\x01\0GR\0\x06CL\xDC\xBD");
/// assert_eq!(out[22..], [0xEE; 2]);
///
/// let refused = write(2, 1, &[], &[0, UNION, 0, 2], &[], &[0; 6], &mut out);
/// assert_eq!(refused.result(), Err(Refusal::RequestPlace));
///
/// // Request 1 waits for request 0, and no request for itself.
/// let requests = [0, UNION, 0, 1, /**/ 1, SAME_SET, 0, 1];
/// assert_eq!(write(2, 2, &[], &requests, &[1, 0], &[], &mut [0; 32]).bytes, 32);
/// let refused = write(2, 2, &[], &requests, &[1, 1], &[], &mut [0; 32]);
/// assert_eq!(refused.result(), Err(Refusal::Wait));
///
/// // Head 0 may ask for both and sees itself; head 1 may only enquire, and sees both.
/// let rights = [0, MAY_BOTH, 0b01, /**/ 1, MAY_ENQUIRE, 0b11];
/// assert_eq!(write(2, 2, &rights, &requests, &[], &[], &mut [0; 42]).bytes, 42);
/// // One head's rights are missing; head 1 may not join.
/// let refused = write(2, 2, &rights[..3], &requests, &[], &[], &mut [0; 42]);
/// assert_eq!(refused.result(), Err(Refusal::Rights));
/// let refused = write(2, 2, &rights, &[1, UNION, 0, 1], &[], &[], &mut [0; 42]);
/// assert_eq!(refused.result(), Err(Refusal::RequestRights));
/// ```
pub fn write(
    places: u32,
    heads: u32,
    rights: &[u32],
    requests: &[u32],
    waits: &[u32],
    grants: &[u8],
    out: &mut [u8],
) -> Written {
    // SAFETY: pointers and lengths of slices, as said above.
    unsafe {
        exports::grouping_write(
            places,
            heads,
            rights.as_ptr(),
            rights.len(),
            requests.as_ptr(),
            requests.len(),
            waits.as_ptr(),
            waits.len(),
            grants.as_ptr(),
            grants.len(),
            out.as_mut_ptr(),
            out.len(),
        )
    }
}

/// Makes a counter enquiry: are the places x and y in one group? The table's length is its number of
/// places, and the allowance the most grants that the enquiry may make. The groups stay; words on the
/// way may change. Refused with 15 and 16.
///
/// ```
/// use grouping_core::{query, Answer, Refusal};
///
/// // Place 0 has parent 1, a root of rank 1.
/// let mut table = [1, 65_537];
/// let spent = query(&mut table, 0, 1, 5);
/// assert_eq!((spent.answer(), spent.used), (None, 5));
/// let yes = query(&mut table, 0, 1, 6);
/// assert_eq!((yes.answer(), yes.used), (Some(Answer::Yes), 6));
///
/// assert_eq!(query(&mut table, 0, 2, 6).result(), Err(Refusal::Enquiry));
/// assert_eq!(query(&mut [2, 1], 0, 1, 6).result(), Err(Refusal::Word));
/// ```
pub fn query(table: &mut [u32], x: u32, y: u32, allowance: u16) -> Queried {
    // SAFETY: pointer and length of a slice, as said above.
    unsafe { exports::grouping_query(table.as_mut_ptr(), table.len(), x, y, allowance) }
}

/// Prints a played job, refused or not, as lines of text. Refused with 14.
///
/// ```
/// use grouping_core::{list, play, Refusal};
///
/// let file = b"DK\x01\0\x01\0GR\0\x03CL\x30\x13";
/// let mut table = [0; 1];
/// let played = play(file, &mut table, &mut [], &mut []);
/// let mut text = [0; 64];
/// let listed = list(played, &table, &[], &[], &mut text);
/// assert_eq!(&text[..listed.bytes], b"job 1 1 0 3\nword 0 0 0\ntally 3 0 0 0\n");
///
/// let refused = play(b"DL", &mut table, &mut [], &mut []);
/// let listed = list(refused, &table, &[], &[], &mut text);
/// assert_eq!(&text[..listed.bytes], b"refused 3\n");
/// assert_eq!(list(refused, &table, &[], &[], &mut []).result(), Err(Refusal::Buffer));
/// ```
pub fn list(
    played: Played,
    table: &[u32],
    report: &[u32],
    lineup: &[u32],
    out: &mut [u8],
) -> Listed {
    // SAFETY: pointers and lengths of slices, as said above.
    unsafe {
        exports::grouping_list(
            played,
            table.as_ptr(),
            table.len(),
            report.as_ptr(),
            report.len(),
            lineup.as_ptr(),
            lineup.len(),
            out.as_mut_ptr(),
            out.len(),
        )
    }
}

/// Plays a job file and writes the sheet of one of its heads: of the requests of the heads that it may
/// see, in file order and numbered from 0 among themselves, the lines that [`list`] has of a request,
/// then of their entries in the line-up. Two runs that agree on those requests, their report numbers
/// and their points give the same sheet. Refused with 1 to 14 and 18 to 20; 10 is also for a head that
/// is not below the heads, and 14 for a buffer that is shorter than the sheet.
///
/// ```
/// use grouping_core::{sheet, write, Refusal, MAY_ENQUIRE, MAY_JOIN, MOST_FILE, MOST_SHEET, SAME_SET, UNION};
///
/// // Four places, two heads: head 0 joins 2 and 3, and sees itself; head 1 asks about 0 and 1, and
/// // sees both.
/// let rights = [0, MAY_JOIN, 0b01, /**/ 1, MAY_ENQUIRE, 0b11];
/// let requests = [0, UNION, 2, 3, /**/ 1, SAME_SET, 0, 1];
/// let grants = [1, 1, 0, 0, 0, 0, 0, 0, 0, 0, 0, 0, 0, 0, 0, 1];
/// let mut file = vec![0; MOST_FILE];
/// let written = write(4, 2, &rights, &requests, &[], &grants, &mut file).result()?;
/// let file = &file[..written.bytes as usize];
///
/// let mut out = vec![0; MOST_SHEET];
/// let listed = sheet(file, 0, &mut out).result()?;
/// assert_eq!(&out[..listed.bytes], b"request 0 1 3 15 13\nline 7 0\n");
/// let listed = sheet(file, 1, &mut out).result()?;
/// let text = b"request 0 1 3 15 13\nrequest 1 4 1 16 3\nline 2 1\nline 7 0\n";
/// assert_eq!(&out[..listed.bytes], text);
///
/// assert_eq!(sheet(file, 2, &mut out).result(), Err(Refusal::Grant));
/// assert_eq!(sheet(file, 0, &mut [0; 28]).result(), Err(Refusal::Buffer));
/// # Ok::<(), Refusal>(())
/// ```
pub fn sheet(file: &[u8], head: u32, out: &mut [u8]) -> Listed {
    // SAFETY: pointers and lengths of slices, as said above.
    unsafe { exports::grouping_sheet(file.as_ptr(), file.len(), head, out.as_mut_ptr(), out.len()) }
}

/// Puts the groups of a table on a page. The table's length is its number of places; it is checked as
/// an enquiry's is, and only read. `rows` gets a row a group, rising by lowest place; the sizes add up
/// to the place count. `page` gets a line a row, each field right-aligned in 8 characters, with a line
/// feed; a heading in the same columns stands before rows 1, 21, 41 and so on. Refused with 15 to 17.
///
/// ```
/// use grouping_core::{page, Refusal, Row};
///
/// // Place 2 has parent 3, a root of rank 1; places 0 and 1 are alone.
/// let table = [0, 1, 3, 65_539];
/// let (mut rows, mut text) = ([Row::default(); 4], [b'.'; 133]);
/// let paged = page(&table, &mut rows, &mut text);
/// assert_eq!((paged.number, paged.rows, paged.bytes), (0, 3, 132));
/// assert_eq!(rows[2], Row { lowest: 2, size: 2, root: 3, rank: 1 });
/// let text = String::from_utf8_lossy(&text);
/// let lines: Vec<&str> = text.lines().collect();
/// assert_eq!(lines[0], "   group    size    root    rank");
/// assert_eq!(lines[3], "       2       2       3       1");
/// // What is past the page stays.
/// assert_eq!(lines[4], ".");
///
/// assert_eq!(page(&[], &mut rows, &mut []).result(), Err(Refusal::Enquiry));
/// assert_eq!(page(&[2, 1], &mut rows, &mut []).result(), Err(Refusal::Word));
/// assert_eq!(page(&table, &mut rows, &mut [0; 131]).result(), Err(Refusal::Page));
/// ```
pub fn page(table: &[u32], rows: &mut [Row], page: &mut [u8]) -> Paged {
    // SAFETY: pointers and lengths of slices, as said above.
    unsafe {
        exports::grouping_page(
            table.as_ptr(),
            table.len(),
            rows.as_mut_ptr(),
            rows.len(),
            page.as_mut_ptr(),
            page.len(),
        )
    }
}

/// Tells how long a head can be kept, with n places: a same-set ends within 11 × n of its own grants,
/// a union within 22 × n + 10 × L, L being the whole part of the base-2 logarithm of n. They count from
/// the request's first grant, idle grants and waiting not included, and hold of every job of that many
/// places, for every order of the others' grants. Refused with 4.
///
/// ```
/// use grouping_core::{limits, Refusal};
///
/// // 64 is 2 to the power of 6.
/// let told = limits(64).result()?;
/// assert_eq!((told.same_set_grants, told.union_grants), (11 * 64, 22 * 64 + 10 * 6));
///
/// assert_eq!(limits(0).result(), Err(Refusal::Places));
/// assert_eq!(limits(4_097).result(), Err(Refusal::Places));
/// # Ok::<(), Refusal>(())
/// ```
pub fn limits(places: u32) -> Limits {
    // SAFETY: one number.
    unsafe { exports::grouping_limits(places) }
}
