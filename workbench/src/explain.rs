//! A run in plain words, grant by grant.

use grouping_core::Answer;

use crate::cut::Cut;
use crate::job::Job;
use crate::story::{Change, Entered, Happening, Idle, IdleHead, Story, Used, Waiting, Window};
use crate::text::count;

const LEGEND: &str = "\
\"looks\": no word changes; one is read, or a swap writes what stood there already.
\"its swap fails\": the word is not the expected one, so nothing is written; the head goes on, or is done.
";

/// Which grants are told: those of a head, of a request, of both or of all.
#[derive(Clone, Copy, Debug, Default)]
pub struct Filter {
    pub head: Option<u8>,
    pub request: Option<usize>,
}

impl Filter {
    fn admits(self, head: u8, request: Option<usize>) -> bool {
        let same_head = self.head.is_none_or(|own| own == head);
        let same_request = self.request.is_none_or(|own| request == Some(own));
        same_head && same_request
    }

    /// What is left out, behind a heading.
    fn words(self) -> String {
        let head = self.head.map(|head| format!("; only head {head}"));
        let request = self.request.map(|request| format!("; only request {request}"));
        head.unwrap_or_default() + &request.unwrap_or_default()
    }

    fn admits_request(self, job: &Job, request: usize) -> bool {
        self.admits(job.requests[request].head as u8, Some(request))
    }
}

/// The grants of a story, a line each, idle ones in a row in one line; then what became of the
/// requests.
pub fn explain(job: &Job, story: &Story, filter: Filter) -> String {
    let mut text = format!("{}{}\n{LEGEND}\n", heading(job, story.window), filter.words());
    let width = "grant".len().max(2 * story.window.to.to_string().len() + 1);
    let mut line = |grants: &str, head: &str, request: &str, told: &str| {
        text += &format!("{grants:>width$}  {head:>4}  {request:>7}  {told}\n");
    };
    line("grant", "head", "request", "what it does");
    for happening in &story.happenings {
        match happening {
            Happening::Used(used) => {
                if filter.admits(used.head, Some(used.request)) {
                    let [grant, head] = [used.grant.to_string(), used.head.to_string()];
                    line(&grant, &head, &used.request.to_string(), &deed(job, used));
                }
            }
            Happening::Idle(idle) => {
                let told = |own: &&IdleHead| {
                    filter.admits(own.head, own.waiting.map(|waiting| waiting.request))
                };
                let heads: Vec<&IdleHead> = idle.heads.iter().filter(told).collect();
                if !heads.is_empty() {
                    line(&span(idle), &only_head(&heads), "", &rest(&heads));
                }
            }
        }
    }
    text + &outcome(job, &story.left, filter)
}

/// The job's sizes, and which of its grants are told or shown where these are not all.
pub fn heading(job: &Job, window: Window) -> String {
    let sizes = [
        count(job.places as usize, "place"),
        count(job.heads as usize, "head"),
        count(job.requests.len(), "request"),
        count(job.grants.len(), "grant"),
    ]
    .join(", ");
    if window == Window::of(job) {
        return sizes;
    }
    let Window { from, to } = window;
    format!("{sizes}; grants {from} to {to}, and what stands after them")
}

/// `25`, or `25-317`.
pub fn span(idle: &Idle) -> String {
    let window = idle.window;
    if window.grants() == 1 {
        window.from.to_string()
    } else {
        format!("{}-{}", window.from, window.to)
    }
}

fn only_head(heads: &[&IdleHead]) -> String {
    match heads {
        [own] => own.head.to_string(),
        _ => String::new(),
    }
}

/// Why heads were idle.
fn rest(heads: &[&IdleHead]) -> String {
    let why: Vec<String> = heads.iter().map(|own| idle_words(own)).collect();
    format!("idle: {}", why.join("; "))
}

/// Why a head was idle, and for how many grants.
pub fn idle_words(own: &IdleHead) -> String {
    let why = match own.waiting {
        Some(Waiting { request, earlier }) => {
            format!("request {request} waits for request {earlier}")
        }
        None => "no request left".to_owned(),
    };
    format!("head {}: {why} ({})", own.head, count(own.grants, "grant"))
}

/// What a grant did for its request.
pub fn deed(job: &Job, used: &Used) -> String {
    let mut deeds = Vec::new();
    if used.begins {
        deeds.push(format!("begins {}", job.requests[used.request].words()));
    }
    deeds.push(match used.change {
        Some(change) => change_words(&change, used.linked),
        None if used.failed => "its swap fails".to_owned(),
        None => "looks".to_owned(),
    });
    if let Some(row) = used.ended {
        deeds.push(format!("ends after {}: {}", count(row.used as usize, "grant"), row.answer));
    }
    deeds.extend(used.entered.map(|entered| effect(used, entered)));
    deeds.join("; ")
}

fn change_words(change: &Change, linked: bool) -> String {
    let Change { place, before, after } = change;
    if linked {
        format!("links: place {place}, a root until now, gets parent {}", after.parent)
    } else if before.parent != after.parent {
        format!(
            "shortens the way: place {place} gets parent {} instead of {}",
            after.parent, before.parent
        )
    } else {
        format!("raises place {place} from rank {} to {}", before.rank, after.rank)
    }
}

/// Where a request takes effect, as its grant makes known.
fn effect(used: &Used, Entered { entry, next }: Entered) -> String {
    if entry.point == used.grant {
        return "takes effect here".to_owned();
    }
    let before = next
        .map(|next| format!(", before request {} (grant {})", next.request, next.point))
        .unwrap_or_default();
    format!("the places were apart at grant {}, and it takes effect there{before}", entry.point)
}

/// What became of the requests: the line-up, and those that are not in it.
fn outcome(job: &Job, left: &Cut, filter: Filter) -> String {
    let mut text = String::new();
    let listed = left.entries().filter(|entry| filter.admits_request(job, entry.request));
    for (number, entry) in listed.enumerate() {
        if number == 0 {
            text += "\nThe line-up, the order in which requests took effect:\n";
        }
        text += &format!("at grant {}: {}\n", entry.point, fate(job, left, entry.request));
    }
    let others = (0..job.requests.len())
        .filter(|&request| left.entry_of(request).is_none() && filter.admits_request(job, request));
    for (number, request) in others.enumerate() {
        if number == 0 {
            text += "\nNot in the line-up:\n";
        }
        text += &format!("{}\n", fate(job, left, request));
    }
    text
}

/// A request and what it was told, or how far it has come.
pub fn fate(job: &Job, left: &Cut, request: usize) -> String {
    let (row, listed) = (left.row(request), left.entry_of(request).is_some());
    let used = count(row.used as usize, "grant");
    let told = match row.answer {
        Answer::Unfinished if listed => {
            format!("joined, since it has linked; unfinished after {used}")
        }
        Answer::Unfinished if row.has_begun() => format!("unfinished after {used}"),
        Answer::Unfinished => "not begun".to_owned(),
        answer => format!("{answer}, after {used}"),
    };
    format!("{}: {told}", job.request_words(request))
}
