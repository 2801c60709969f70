//! The counter enquiry: a same-set alone on a lent table, within a budget of grants.

use crate::job::MAX_NODES;
use crate::numbers::{answer, refusal};
use crate::word::{before, parent, rank, word};

/// The answer is `YES`, `NO`, or `UNFINISHED` for a budget spent; a refused call has zeros.
#[derive(Clone, Copy, Debug, Default, PartialEq, Eq)]
pub struct Queried {
    pub number: u32,
    pub answer: u32,
    pub grants: u32,
}

/// The table's length is its node count. Nothing is written by a refused call.
pub fn query(table: &mut [u32], x: u32, y: u32, budget: u16) -> Queried {
    if let Err(number) = check(table, x, y) {
        return Queried { number, answer: answer::UNFINISHED, grants: 0 };
    }
    let mut steps = Steps { table, left: budget };
    let answer = steps.same_set(x, y).unwrap_or(answer::UNFINISHED);
    Queried { number: refusal::NONE, answer, grants: u32::from(budget - steps.left) }
}

/// Everything that is checked before a step is made.
pub fn check(table: &[u32], x: u32, y: u32) -> Result<(), u32> {
    let nodes = table.len();
    if nodes == 0 || nodes > MAX_NODES as usize || x as usize >= nodes || y as usize >= nodes {
        return Err(refusal::QUERY_RANGE);
    }
    if table.iter().enumerate().all(|(node, &own)| admitted(table, node as u32, own)) {
        Ok(())
    } else {
        Err(refusal::QUERY_WORD)
    }
}

fn admitted(table: &[u32], node: u32, own: u32) -> bool {
    let up = parent(own);
    let Some(&of_parent) = table.get(up as usize) else {
        return false;
    };
    rank(own) <= 12 && (up == node || !before(rank(of_parent), up, rank(own), node))
}

/// A table on which only so many more steps can be made; `None` is for a step too many.
struct Steps<'a> {
    table: &'a mut [u32],
    left: u16,
}

impl Steps<'_> {
    fn same_set(&mut self, mut x: u32, mut y: u32) -> Option<u32> {
        loop {
            x = self.find(x)?;
            y = self.find(y)?;
            if x == y {
                return Some(answer::YES);
            }
            if parent(self.read(x)?) == x {
                return Some(answer::NO);
            }
        }
    }

    fn find(&mut self, mut x: u32) -> Option<u32> {
        loop {
            let own = self.read(x)?;
            let t = parent(own);
            if t == x {
                return Some(x);
            }
            let u = parent(self.read(t)?);
            self.swap(x, own, word(rank(own), u))?;
            x = parent(self.read(t)?);
        }
    }

    fn read(&mut self, node: u32) -> Option<u32> {
        self.left = self.left.checked_sub(1)?;
        Some(self.table[node as usize])
    }

    fn swap(&mut self, node: u32, expected: u32, new: u32) -> Option<()> {
        self.left = self.left.checked_sub(1)?;
        let own = &mut self.table[node as usize];
        if *own == expected {
            *own = new;
        }
        Some(())
    }
}
