//! The lanes of the heads: a bar for each request, a mark for each grant.

use grouping_core::Answer;

use super::columns::{folded, Columns};
use super::svg::{self, stacked, width_of, Span, HALF, LINE};
use crate::explain::{deed, fate, idle_words, span};
use crate::job::{word_for, Job, KINDS};
use crate::story::{Change, Happening, Idle, IdleHead, Story, Used};

/// Between the lanes' edges and what stands in them.
const GAP: i32 = 6;

/// A request as it is drawn.
struct Bar {
    request: usize,
    span: Span,
    /// What it asks, above its beginning.
    asked: String,
    /// What it was told, below its end.
    told: String,
}

impl Bar {
    /// The bar of a request that has begun and was not over before the story's grants.
    fn of(job: &Job, story: &Story, columns: &Columns, request: usize) -> Option<Bar> {
        let row = story.left.row(request);
        let over_before = row.is_finished() && (row.last as usize) < story.window.from;
        if !row.has_begun() || over_before {
            return None;
        }
        let (open_left, open_right) = (!story.window.has(row.first), !row.is_finished());
        let left = if open_left { columns.left } else { columns.edges(row.first).0 + 1 };
        let right = if open_right { columns.right } else { columns.edges(row.last).1 - 1 };
        let told = match row.answer {
            Answer::Unfinished if story.left.entry_of(request).is_some() => {
                "linked, unfinished".to_owned()
            }
            answer => answer.to_string(),
        };
        let asked = format!("{request}: {}", job.requests[request].words());
        Some(Bar { request, span: Span { left, right, open_left, open_right }, asked, told })
    }

    /// From where to where its question stands.
    fn asked_at(&self) -> (i32, i32) {
        (self.span.left, self.span.left + width_of(&self.asked))
    }

    /// From where to where its answer stands: it ends with the bar, if it has room.
    fn told_at(&self, columns: &Columns) -> (i32, i32) {
        let left = (self.span.right - width_of(&self.told)).max(columns.left);
        (left, left + width_of(&self.told))
    }
}

/// A head's lane.
struct Lane {
    head: u8,
    bars: Vec<Bar>,
    /// The rows of the questions and of the answers.
    asked: Vec<usize>,
    told: Vec<usize>,
    top: i32,
    /// The middle of its bars.
    middle: i32,
    foot: i32,
}

/// The lanes of all heads.
pub struct Lanes<'a> {
    job: &'a Job,
    story: &'a Story,
    columns: &'a Columns,
    lanes: Vec<Lane>,
}

impl<'a> Lanes<'a> {
    /// Lays the lanes out from a height downward.
    pub fn of(job: &'a Job, story: &'a Story, columns: &'a Columns, top: i32) -> Lanes<'a> {
        let mut bars: Vec<Vec<Bar>> = (0..job.heads).map(|_| Vec::new()).collect();
        for request in 0..job.requests.len() {
            let head = job.requests[request].head as usize;
            bars[head].extend(Bar::of(job, story, columns, request));
        }
        let mut lanes = Vec::new();
        let mut at = top;
        for (head, bars) in (0..).zip(bars) {
            let (asked, above) = stacked(bars.iter().map(Bar::asked_at));
            let (told, below) = stacked(bars.iter().map(|bar| bar.told_at(columns)));
            let middle = at + GAP + LINE * above as i32 + HALF;
            let foot = middle + HALF + GAP + LINE * below as i32 + GAP;
            lanes.push(Lane { head, bars, asked, told, top: at, middle, foot });
            at = foot;
        }
        Lanes { job, story, columns, lanes }
    }

    pub fn foot(&self) -> i32 {
        self.lanes.last().map_or(0, |lane| lane.foot)
    }

    /// The foot of a request's bar.
    pub fn bar_foot(&self, request: usize) -> i32 {
        self.middle(self.job.requests[request].head as u8) + HALF
    }

    /// All lanes with their names at x.
    pub fn drawn(&self, x: i32) -> String {
        let mut drawn = String::new();
        for lane in &self.lanes {
            drawn += &svg::line("rule", &format!("M{x} {}H{}", lane.top, self.columns.right));
            drawn += &svg::words("name", x, lane.middle + 4, &format!("head {}", lane.head));
            drawn += &self.bars(lane);
        }
        drawn += &svg::line("rule", &format!("M{x} {}H{}", self.foot(), self.columns.right));
        drawn + &self.marks()
    }

    fn bars(&self, lane: &Lane) -> String {
        let mut drawn = String::new();
        for (bar, (asked, told)) in lane.bars.iter().zip(lane.asked.iter().zip(&lane.told)) {
            let title = self.bar_title(bar.request);
            let kind = word_for(self.job.requests[bar.request].kind, KINDS);
            drawn += &svg::bar(kind, bar.span, lane.middle, &title);
            let above = lane.middle - HALF - 4 - LINE * *asked as i32;
            drawn += &svg::titled_words("asked", bar.asked_at().0, above, &bar.asked, &title);
            let below = lane.middle + HALF + GAP + LINE * (*told as i32 + 1) - 3;
            let x = bar.told_at(self.columns).0;
            drawn += &svg::titled_words("told", x, below, &bar.told, &title);
        }
        drawn
    }

    fn bar_title(&self, request: usize) -> String {
        let row = self.story.left.row(request);
        let head = self.job.requests[request].head;
        let last = if row.is_finished() { format!(", last {}", row.last) } else { String::new() };
        format!(
            "head {head}, {}\nfirst grant {}{last}",
            fate(self.job, &self.story.left, request),
            row.first
        )
    }

    /// The grants, at their heads.
    fn marks(&self) -> String {
        let mark = |happening: &Happening| match happening {
            Happening::Used(used) => self.mark(used),
            Happening::Idle(idle) => {
                idle.heads.iter().map(|own| self.idle_mark(idle, own)).collect()
            }
        };
        self.story.happenings.iter().map(mark).collect()
    }

    /// A head's idle grants of a stretch: one mark, with their count where they are several.
    fn idle_mark(&self, idle: &Idle, own: &IdleHead) -> String {
        let (left, right) = self.columns.edges(idle.window.from as u32);
        let count = folded(own.grants).unwrap_or_default();
        let (x, y) = ((left + right - width_of(&count)) / 2, self.middle(own.head));
        let title = format!("grant {}: idle\n{}", span(idle), idle_words(own));
        svg::idle(x, y, &title) + &svg::titled_words("faint", x + 6, y + 4, &count, &title)
    }

    /// The middle of a head's bars.
    fn middle(&self, head: u8) -> i32 {
        self.lanes[usize::from(head)].middle
    }

    fn mark(&self, used: &Used) -> String {
        let draw = match used {
            Used { linked: true, .. } => svg::link,
            Used { failed: true, .. } => svg::failed,
            Used { change: Some(_), .. } => svg::wrote,
            _ => svg::tick,
        };
        draw(self.columns.middle(used.grant), self.middle(used.head), &self.mark_title(used))
    }

    /// What a grant did, the word that it changed, and how the request's places then stand.
    fn mark_title(&self, used: &Used) -> String {
        let Used { grant, head, request, .. } = used;
        let mut title =
            format!("grant {grant}, head {head}, request {request}: {}", deed(self.job, used));
        if let Some(Change { place, before, after }) = used.change {
            title += &format!("\nword of place {place}: {before}; now {after}");
        }
        let [x, y] = self.job.requests[*request].places();
        title + &format!("\nthen place {x} has {}; place {y} has {}", used.words[0], used.words[1])
    }
}
