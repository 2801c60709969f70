//! The line-up below the lanes: each entry at its point, tied to its request's bar.

use grouping_core::Answer;

use super::columns::Columns;
use super::lanes::Lanes;
use super::svg::{self, stacked, width_of, LINE};
use crate::cut::Entry;
use crate::explain::fate;
use crate::job::Job;
use crate::story::Story;

/// From the lanes' foot to the middle of the entries, and on to the first row of words.
const DROP: i32 = 16;

pub struct Lineup<'a> {
    job: &'a Job,
    story: &'a Story,
    columns: &'a Columns,
    /// The entries whose points are among the story's grants, and the rows of their names.
    entries: Vec<(Entry, usize)>,
    /// How many stand before these.
    before: usize,
    middle: i32,
    pub foot: i32,
}

impl<'a> Lineup<'a> {
    pub fn of(job: &'a Job, story: &'a Story, columns: &'a Columns, top: i32) -> Lineup<'a> {
        let (entries, before): (Vec<Entry>, Vec<Entry>) =
            story.left.entries().partition(|entry| story.window.has(entry.point));
        let (rows, count) = stacked(entries.iter().map(|entry| named_at(story, columns, entry)));
        let (entries, before) = (entries.into_iter().zip(rows).collect(), before.len());
        let middle = top + DROP;
        let foot = middle + DROP + LINE * count.max(1) as i32;
        Lineup { job, story, columns, entries, before, middle, foot }
    }

    /// Whether it went in at an earlier point than the grant that made it known.
    fn is_earlier(&self, entry: &Entry) -> bool {
        let row = self.story.left.row(entry.request);
        row.answer == Answer::No && entry.point < row.last
    }

    /// The ties, which the lanes cover.
    pub fn ties(&self, lanes: &Lanes) -> String {
        let tie = |(entry, _): &(Entry, usize)| {
            let (x, top) = (self.columns.middle(entry.point), lanes.bar_foot(entry.request));
            svg::line("tie", &format!("M{x} {top}V{}", self.middle))
        };
        self.entries.iter().map(tie).collect()
    }

    /// The entries, with the band's name at x.
    pub fn drawn(&self, lanes: &Lanes, x: i32) -> String {
        let mut drawn = svg::words("name", x, self.middle + 4, "line-up");
        if self.before > 0 {
            drawn +=
                &svg::words("faint", x, self.middle + 4 + LINE, &format!("{} before", self.before));
        }
        let axis = format!("M{} {}H{}", self.columns.left, self.middle, self.columns.right);
        drawn += &svg::line("rule", &axis);
        for (entry, row) in &self.entries {
            let title = format!(
                "takes effect at grant {}: {}",
                entry.point,
                fate(self.job, &self.story.left, entry.request)
            );
            let (middle, earlier) = (self.columns.middle(entry.point), self.is_earlier(entry));
            drawn += &svg::entry(middle, self.middle, earlier, &title);
            let (x, _) = named_at(self.story, self.columns, entry);
            let y = self.middle + DROP + 4 + LINE * *row as i32;
            drawn += &svg::titled_words("told", x, y, &name(self.story, entry), &title);
            if earlier {
                let last = self.story.left.row(entry.request).last;
                let known = format!("known at grant {last}, {title}");
                let (from, y) = (self.columns.middle(last), lanes.bar_foot(entry.request) + 5);
                drawn += &svg::back(from, middle, y, &known);
            }
        }
        drawn
    }
}

/// What an entry is called.
fn name(story: &Story, entry: &Entry) -> String {
    let row = story.left.row(entry.request);
    // A request that is listed and not finished has linked.
    let told = if row.is_finished() { row.answer } else { Answer::Joined };
    format!("{}: {told}", entry.request)
}

/// From where to where its name stands.
fn named_at(story: &Story, columns: &Columns, entry: &Entry) -> (i32, i32) {
    let (wide, middle) = (width_of(&name(story, entry)), columns.middle(entry.point));
    let left = (middle - wide / 2).max(columns.left);
    (left, left + wide)
}
