//! The group page: a row for each group of a lent table, and the rows as lines of text.

use crate::job::MAX_NODES;
use crate::listing;
use crate::numbers::refusal;
use crate::play::Buffers;
use crate::query;
use crate::word::{parent, rank};

/// Bytes of a line: four fields of eight and a line feed.
const LINE: usize = 33;
const FIELD: usize = 8;
const HEADING: &[u8; LINE] = b"   group    size    root    rank\n";
/// The rows that a heading stands before.
const ROWS_TO_A_HEADING: usize = 20;

/// Enough for every table.
pub const MAX_ROWS: usize = MAX_NODES as usize;
pub const MAX_PAGE: usize = bytes_of(MAX_ROWS);

/// A group: its lowest node, its number of nodes, its root and the root's rank.
#[derive(Clone, Copy, Debug, Default, PartialEq, Eq)]
pub struct Row {
    pub lowest: u32,
    pub size: u32,
    pub root: u32,
    pub rank: u32,
}

/// The rows and bytes that were written; a refused call has zeros.
#[derive(Clone, Copy, Debug, Default, PartialEq, Eq)]
pub struct Paged {
    pub number: u32,
    pub rows: u32,
    pub bytes: u32,
}

impl Paged {
    pub fn refused(number: u32) -> Paged {
        Paged { number, ..Paged::default() }
    }
}

/// Puts the table's groups into the front of `rows`, rising by lowest node, and their lines into
/// the front of `page`. Nothing is written by a refused call.
pub fn page(table: &[u32], rows: &mut [Row], page: &mut [u8]) -> Paged {
    // Node 0 is below every length that is admitted.
    if let Err(number) = query::check(table, 0, 0) {
        return Paged::refused(number);
    }
    let groups = table.iter().zip(0..).filter(|&(&own, node)| parent(own) == node).count();
    let bytes = bytes_of(groups);
    if rows.len() < groups || page.len() < bytes {
        return Paged::refused(refusal::PAGE_TOO_SHORT);
    }
    let rows = &mut rows[..groups];
    gather(table, rows);
    print(rows, &mut page[..bytes]);
    Paged { number: refusal::NONE, rows: groups as u32, bytes: bytes as u32 }
}

/// The page of the groups that a job leaves, or the line of its refusal.
pub fn of_job(file: &[u8]) -> String {
    let (played, Buffers { table, .. }) = Buffers::played(file);
    if played.number != refusal::NONE {
        return listing::refused(played.number);
    }
    let mut text = vec![0; MAX_PAGE];
    let mut rows = [Row::default(); MAX_ROWS];
    let paged = page(&table[..played.nodes as usize], &mut rows, &mut text);
    text.truncate(paged.bytes as usize);
    String::from_utf8(text).expect("a page is text")
}

const fn bytes_of(rows: usize) -> usize {
    LINE * (rows + rows.div_ceil(ROWS_TO_A_HEADING))
}

/// What stands for the row of a node that no lower one has led to.
const UNKNOWN: u16 = u16::MAX;

/// Fills one row a group. Each node is climbed from once: a way ends where an earlier one passed.
fn gather(table: &[u32], rows: &mut [Row]) {
    let mut row_of = [UNKNOWN; MAX_NODES as usize];
    let mut groups = 0;
    for lowest in 0..table.len() as u32 {
        let up = |node: u32| parent(table[node as usize]);
        if row_of[lowest as usize] == UNKNOWN {
            let mut top = lowest;
            while row_of[top as usize] == UNKNOWN && up(top) != top {
                top = up(top);
            }
            if row_of[top as usize] == UNKNOWN {
                let rank = rank(table[top as usize]);
                rows[usize::from(groups)] = Row { lowest, size: 0, root: top, rank };
                row_of[top as usize] = groups;
                groups += 1;
            }
            let row = row_of[top as usize];
            let mut node = lowest;
            while node != top {
                row_of[node as usize] = row;
                node = up(node);
            }
        }
        rows[usize::from(row_of[lowest as usize])].size += 1;
    }
}

fn print(rows: &[Row], page: &mut [u8]) {
    let mut lines = page.chunks_exact_mut(LINE);
    let mut next = || lines.next().expect("the page has a line for each row and heading");
    for headed in rows.chunks(ROWS_TO_A_HEADING) {
        next().copy_from_slice(HEADING);
        for row in headed {
            let line = next();
            let fields = line.chunks_exact_mut(FIELD);
            for (field, number) in fields.zip([row.lowest, row.size, row.root, row.rank]) {
                print_right(field, number);
            }
            line[LINE - 1] = b'\n';
        }
    }
}

/// A number at the right of its field, which is wide enough for it.
fn print_right(field: &mut [u8], mut number: u32) {
    field.fill(b' ');
    for byte in field.iter_mut().rev() {
        *byte = b'0' + (number % 10) as u8;
        number /= 10;
        if number == 0 {
            break;
        }
    }
}
