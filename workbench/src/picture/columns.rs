//! Time from left to right: a column for each grant that is used, and for each stretch of idle ones.

use super::svg::{self, width_of};
use crate::explain::span;
use crate::story::{Happening, Idle, Story};

/// The room of an idle grant's mark.
const MARK: i32 = 14;

struct Column {
    /// Its first grant.
    from: usize,
    left: i32,
    width: i32,
    /// A stretch of idle grants; its numbers.
    idle: Option<String>,
}

pub struct Columns {
    columns: Vec<Column>,
    pub left: i32,
    pub right: i32,
}

impl Columns {
    pub fn of(story: &Story, left: i32) -> Columns {
        let pitch = match story.happenings.len() {
            0..=60 => 20,
            61..=400 => 14,
            _ => 9,
        };
        let mut columns = Vec::new();
        let mut at = left;
        for happening in &story.happenings {
            let (from, width, idle) = match happening {
                Happening::Used(used) => (used.grant as usize, pitch, None),
                Happening::Idle(idle) => {
                    (idle.window.from, pitch.max(idle_width(idle)), Some(span(idle)))
                }
            };
            columns.push(Column { from, left: at, width, idle });
            at += width;
        }
        Columns { columns, left, right: at.max(left + pitch) }
    }

    fn column(&self, grant: usize) -> &Column {
        &self.columns[self.columns.partition_point(|column| column.from <= grant) - 1]
    }

    /// The middle of a grant's column.
    pub fn middle(&self, grant: u32) -> i32 {
        let Column { left, width, .. } = self.column(grant as usize);
        left + width / 2
    }

    /// Where a column begins and ends.
    pub fn edges(&self, grant: u32) -> (i32, i32) {
        let Column { left, width, .. } = self.column(grant as usize);
        (*left, left + width)
    }

    /// The numbers of the grants above their columns, as many as there is room for, with a name.
    pub fn axis(&self, names: i32, y: i32) -> String {
        let last = self.columns.last().map_or(0, |column| column.from);
        let room = width_of(&last.to_string()) + 6;
        let pitch = self.columns.iter().map(|column| column.width).min().unwrap_or(room);
        let step = [1, 2, 5, 10, 20, 50].into_iter().find(|step| *step as i32 * pitch >= room);
        let step = step.unwrap_or(100);
        let mut axis = svg::words("faint", names, y, "grant");
        let mut free = i32::MIN;
        for column in &self.columns {
            let said = match &column.idle {
                Some(numbers) => numbers.clone(),
                None if column.from % step == 0 || column.from == 1 => column.from.to_string(),
                None => continue,
            };
            let x = column.left + (column.width - width_of(&said)) / 2;
            if x >= free {
                axis += &svg::words("faint", x, y, &said);
                free = x + width_of(&said) + 4;
            }
        }
        axis
    }
}

/// What the marks of a stretch of idle grants and its numbers need.
fn idle_width(idle: &Idle) -> i32 {
    let counts = idle.heads.iter().filter_map(|own| folded(own.grants));
    let marks = counts.map(|count| MARK + width_of(&count)).max().unwrap_or(MARK);
    marks.max(width_of(&span(idle)) + 6)
}

/// How many idle grants a mark stands for, where they are more than one.
pub fn folded(grants: usize) -> Option<String> {
    (grants > 1).then(|| format!("×{grants}"))
}
