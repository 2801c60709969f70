//! The groups of a table: the core's page of them, and the places of each as its words have them.

use grouping_core::{page, Refusal, Row, MOST_PAGE, MOST_ROWS};

use crate::cut::{Cut, Word};

/// The rows and the text of a table's page.
///
/// # Errors
/// The core's refusal of the table.
pub fn paged(table: &[u32]) -> Result<(Vec<Row>, Vec<u8>), Refusal> {
    let (mut rows, mut text) = (vec![Row::default(); MOST_ROWS], vec![0; MOST_PAGE]);
    let paged = page(table, &mut rows, &mut text).result()?;
    rows.truncate(paged.rows as usize);
    text.truncate(paged.bytes as usize);
    Ok((rows, text))
}

/// A group, its places from the root down, each behind its parent.
#[derive(Clone, Debug)]
pub struct Group {
    pub row: Row,
    pub members: Vec<Member>,
}

#[derive(Clone, Copy, Debug)]
pub struct Member {
    pub place: usize,
    pub word: Word,
    /// How many parents it has above it.
    pub depth: usize,
}

/// The groups that a run leaves, rising by their lowest place.
pub fn groups_of(left: &Cut) -> Vec<Group> {
    let (rows, _) = paged(&left.table).expect("a table that the core leaves has a page");
    let mut children = vec![Vec::new(); left.table.len()];
    for place in 0..left.table.len() {
        let parent = left.word(place).parent as usize;
        if parent != place {
            children[parent].push(place);
        }
    }
    let group = |row: Row| Group { row, members: members(left, &children, row.root as usize) };
    rows.into_iter().map(group).collect()
}

/// A root and everything below it.
fn members(left: &Cut, children: &[Vec<usize>], root: usize) -> Vec<Member> {
    let mut members = Vec::new();
    let mut open = vec![(root, 0)];
    while let Some((place, depth)) = open.pop() {
        members.push(Member { place, word: left.word(place), depth });
        open.extend(children[place].iter().rev().map(|&child| (child, depth + 1)));
    }
    members
}
