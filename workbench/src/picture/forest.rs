//! The groups that are left, beside the lanes: each with its root, its places and their ranks.

use super::svg::{self, width_of, LINE};
use crate::cut::Cut;
use crate::groups::{groups_of, Group, Member};
use crate::text::count;

/// How far a place stands to the right of its parent.
const INDENT: i32 = 14;
/// Between two columns of groups.
const GAP: i32 = 24;
/// The longest line of places that are alone.
const WIDE: usize = 26;

enum Line {
    Words(&'static str, String),
    Place(Member),
}

impl Line {
    fn said(&self) -> String {
        match self {
            Line::Words(_, said) => said.clone(),
            Line::Place(Member { place, word, depth }) => {
                let root = if *depth == 0 { "root, " } else { "" };
                format!("{place}: {root}rank {}", word.rank)
            }
        }
    }

    fn indent(&self) -> i32 {
        match self {
            Line::Words(..) => 0,
            Line::Place(member) => INDENT * (member.depth as i32 + 1),
        }
    }
}

/// The groups in columns.
pub struct Forest {
    columns: Vec<Vec<Line>>,
    widths: Vec<i32>,
    top: i32,
    pub foot: i32,
}

impl Forest {
    /// Lays the groups out in columns of about so much height.
    pub fn of(left: &Cut, top: i32, height: i32) -> Forest {
        let (most, mut columns, mut deepest) = ((height / LINE).max(20) as usize, Vec::new(), 0);
        let mut lines = lines_of(&groups_of(left)).into_iter().peekable();
        while lines.peek().is_some() {
            let column: Vec<Line> = lines.by_ref().take(most).collect();
            deepest = deepest.max(column.len());
            columns.push(column);
        }
        let wide = |line: &Line| line.indent() + width_of(&line.said());
        let widths =
            columns.iter().map(|column| column.iter().map(wide).max().unwrap_or(0) + GAP).collect();
        Forest { columns, widths, top, foot: top + LINE * deepest as i32 }
    }

    pub fn width(&self) -> i32 {
        self.widths.iter().sum()
    }

    /// The groups, from x to the right.
    pub fn drawn(&self, mut x: i32) -> String {
        let mut drawn = String::new();
        for (column, width) in self.columns.iter().zip(&self.widths) {
            let mut above = Vec::new();
            for (line, y) in column.iter().zip((self.top..).step_by(LINE as usize)) {
                drawn += &self.line(line, x, y, &mut above);
            }
            x += width;
        }
        drawn
    }

    /// A line with its middle on y; above are the places over it, by their depth.
    fn line(&self, line: &Line, x: i32, y: i32, above: &mut Vec<i32>) -> String {
        let left = x + line.indent();
        match line {
            Line::Words(class, said) => svg::words(class, left, y + 4, said),
            Line::Place(Member { place, word, depth }) => {
                above.truncate(*depth);
                // A parent at the foot of the column before stands above this one's top.
                above.resize(*depth, self.top - LINE);
                let tie = above.last().map_or_else(String::new, |parent| {
                    let path = format!("M{} {}V{y}H{}", left - INDENT + 4, parent + 7, left - 3);
                    svg::line("tree", &path)
                });
                above.push(y);
                let title = format!("word of place {place}: {word}");
                tie + &svg::titled_words("member", left, y + 4, &line.said(), &title)
            }
        }
    }
}

fn lines_of(groups: &[Group]) -> Vec<Line> {
    let mut lines = vec![Line::Words("name", count(groups.len(), "group") + " left")];
    for group in groups.iter().filter(|group| group.row.size > 1) {
        let said = format!("{}, root {}", count(group.row.size as usize, "place"), group.row.root);
        lines.push(Line::Words("group", said));
        lines.extend(group.members.iter().copied().map(Line::Place));
    }
    // A root has a rank only where it has joined others.
    let alone = groups.iter().filter(|group| group.row.size == 1);
    let said = in_lines("alone, rank 0:", &ranges(alone.map(|group| group.row.root)));
    lines.extend(said.into_iter().map(|said| Line::Words("faint", said)));
    lines
}

/// Rising numbers, those that follow each other as `4-9`.
fn ranges(numbers: impl Iterator<Item = u32>) -> Vec<String> {
    let mut ranges: Vec<(u32, u32)> = Vec::new();
    for number in numbers {
        match ranges.last_mut() {
            Some((_, last)) if *last + 1 == number => *last = number,
            _ => ranges.push((number, number)),
        }
    }
    let said =
        |(first, last)| if first == last { format!("{first}") } else { format!("{first}-{last}") };
    ranges.into_iter().map(said).collect()
}

/// Words in lines of about one width; none where there are no words.
fn in_lines(name: &str, words: &[String]) -> Vec<String> {
    let mut lines: Vec<String> = Vec::new();
    for word in words {
        match lines.last_mut() {
            Some(line) if line.len() + word.len() < WIDE => *line += &format!(" {word}"),
            Some(_) => lines.push(word.clone()),
            None => lines.push(format!("{name} {word}")),
        }
    }
    lines
}
