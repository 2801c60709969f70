//! The program's commands: what each is given, what it prints, and how it fails.

use grouping_core::{limits, query, sheet, Answer, Refusal};
use grouping_core::{MOST_ALLOWANCE, MOST_FILE, MOST_SHEET};

use crate::call::{Call, Failure};
use crate::cut::Cut;
use crate::draft::{Draft, Fault};
use crate::explain::{explain, Filter};
use crate::groups::paged;
use crate::job::Job;
use crate::picture;
use crate::refused::Refused;
use crate::story::{Story, Window};
use crate::text::{count, text_of};

/// A command: its name and arguments, what it does in a line, and more of it.
pub struct Command {
    pub name: &'static str,
    pub arguments: &'static str,
    pub summary: &'static str,
    pub help: &'static str,
    /// How many words it takes.
    pub words: usize,
    /// The options that it takes, each with a value.
    pub options: &'static [&'static str],
    run: fn(&Call) -> Result<(), Failure>,
}

pub const COMMANDS: &[Command] = &[
    Command {
        name: "file",
        arguments: "TEXT [-o JOB]",
        summary: "writes the job file of a job written as text",
        help: "\
The text has one record a line; # begins a comment. Records may stand in any order.
    places 4                    how many places there are
    heads 2                     how many heads there are
    rights 0 join sees 0 1      head, what it may ask (join, enquire, both), the heads
                                that it may see, or none; a line for each head, or no such line
    request 0 union 2 3         head, union or same-set, two places; requests count from 0
    wait 1 0                    request 1 waits for request 0
    grant 1 2                   head, how many grants in a row
A line that can't be read is told by its number, and so are the lines of what is refused.
Without -o the file goes to standard output.",
        words: 1,
        options: &["-o"],
        run: file,
    },
    Command {
        name: "text",
        arguments: "JOB [-o TEXT]",
        summary: "writes a job file as text",
        help: "What `grouping file` makes of the text is the same file, byte for byte.",
        words: 1,
        options: &["-o"],
        run: text,
    },
    Command {
        name: "play",
        arguments: "JOB",
        summary: "plays a job and prints its listing",
        help: "\
job: places, heads, requests, grants. word: place, parent, rank. request: number, answer
(0 unfinished, 1 joined, 2 already together, 3 yes, 4 no), first grant, last grant, grants used.
line: point, request. tally: idle grants, failed swaps, links, heads with work left.",
        words: 1,
        options: &[],
        run: play,
    },
    Command {
        name: "explain",
        arguments: "JOB [--head H] [--request Q] [--from G] [--to G]",
        summary: "tells a run grant by grant, in plain words",
        help: "\
What a grant did is told by the difference of what stands before it and after it. Idle grants in a
row are one line. --head and --request tell the grants of one head or request, --from and --to those
of a part of the run.",
        words: 1,
        options: &["--head", "--request", "--from", "--to"],
        run: explained,
    },
    Command {
        name: "show",
        arguments: "JOB [-o PICTURE.svg] [--from G] [--to G]",
        summary: "draws a picture of a run (SVG)",
        help: "\
One lane a head, time in grants from left to right, the line-up below, the groups that are left
beside it. A picture has at most 2000 grants that are not idle; of a longer run --from and --to
choose a part, and the picture shows what stands after its last grant. Idle grants in a row are one
mark with their count. Without -o the picture goes to standard output.",
        words: 1,
        options: &["-o", "--from", "--to"],
        run: show,
    },
    Command {
        name: "ask",
        arguments: "JOB X Y [--allowance N]",
        summary: "asks whether two places are in one group when the job is over",
        help: "\
The counter enquiry on the table that the job leaves: yes, no, or spent where it needs more grants
than its allowance, which is a number up to 65535 and 65535 where none is given.",
        words: 3,
        options: &["--allowance"],
        run: ask,
    },
    Command {
        name: "page",
        arguments: "JOB",
        summary: "prints the page of the groups that a job leaves",
        help: "A line a group: its lowest place, its size, its root and the root's rank.",
        words: 1,
        options: &[],
        run: page,
    },
    Command {
        name: "sheet",
        arguments: "JOB HEAD",
        summary: "prints the sheet of one of a job's heads",
        help: "\
The listing's request and line lines of the requests that the head may see, numbered from 0 among
themselves.",
        words: 2,
        options: &[],
        run: head_sheet,
    },
    Command {
        name: "limits",
        arguments: "PLACES",
        summary: "tells within how many of its own grants a request ends",
        help: "They hold for every order of the other heads' grants; idle grants are not counted.",
        words: 1,
        options: &[],
        run: told_limits,
    },
];

impl Command {
    /// The command of a name.
    pub fn named(name: &str) -> Option<&'static Command> {
        COMMANDS.iter().find(|command| command.name == name)
    }

    pub fn usage(&self) -> String {
        format!("usage: grouping {} {}", self.name, self.arguments)
    }

    /// Does what a call asks for.
    ///
    /// # Errors
    /// The call's failure.
    pub fn run(&'static self, rest: &[&str]) -> Result<(), Failure> {
        (self.run)(&Call::of(self, rest)?)
    }
}

/// The longest text that is read: a file's worth of lines of one grant each, with comments.
const MOST_TEXT: usize = 1 << 27;
/// The most grants of a picture that are not idle.
pub const MOST_SHOWN: usize = 2_000;

fn file(call: &Call) -> Result<(), Failure> {
    let (bytes, name) = (call.input(MOST_TEXT)?, call.input_name());
    if bytes.len() > MOST_TEXT {
        return Err(Failure::Refused(format!("{name}: over {MOST_TEXT} bytes")));
    }
    let draft = Draft::parse(&String::from_utf8_lossy(&bytes)).map_err(|faults| {
        let hint =
            if Job::read(&bytes).is_ok() { "\nit is a job file: see grouping text" } else { "" };
        Failure::Refused(faults_of(name, &faults) + hint)
    })?;
    let file = draft.file().map_err(|refused| Failure::Refused(refused_lines(name, &refused)))?;
    call.output(&file)
}

/// The first lines that can't be read, and how many more there are.
fn faults_of(name: &str, faults: &[Fault]) -> String {
    const TOLD: usize = 10;
    let told = faults.iter().take(TOLD);
    let mut lines: Vec<String> =
        told.map(|fault| format!("{name}:{}: {}", fault.line, fault.told)).collect();
    if faults.len() > TOLD {
        let more = count(faults.len() - TOLD, "more line");
        lines.push(format!("{name}: {more} can't be read"));
    }
    lines.join("\n")
}

fn refused_lines(name: &str, refused: &Refused) -> String {
    let mut lines = vec![format!("{name}:{}: {}", refused.line, refused.refusal)];
    let others = refused.others.iter();
    lines.extend(others.map(|(line, what)| format!("{name}:{line}: here: {what}")));
    lines.join("\n")
}

/// The core's refusal of what a call was given, and more to say of it.
fn refused_with(call: &Call, refusal: Refusal, more: &str) -> Failure {
    Failure::Refused(format!("grouping: {}: {refusal}{more}", call.input_name()))
}

fn refused(call: &Call, refusal: Refusal) -> Failure {
    refused_with(call, refusal, "")
}

/// What is made of a call's job file, or the core's refusal of it.
fn of_file<T>(call: &Call, made: impl FnOnce(&[u8]) -> Result<T, Refusal>) -> Result<T, Failure> {
    let file = call.input(MOST_FILE)?;
    made(&file).map_err(|refusal| {
        let is_text = Draft::parse(&String::from_utf8_lossy(&file)).is_ok();
        let hint = if is_text { "\nit is a job's text: see grouping file" } else { "" };
        refused_with(call, refusal, hint)
    })
}

fn text(call: &Call) -> Result<(), Failure> {
    call.output(text_of(&of_file(call, Job::read)?).as_bytes())
}

fn play(call: &Call) -> Result<(), Failure> {
    call.output(&of_file(call, Cut::left_by)?.listing())
}

/// The part of a run that a call asks for.
fn window(call: &Call, job: &Job) -> Result<Window, Failure> {
    let whole = Window::of(job);
    let asked = |option, otherwise| {
        let number = call.number_of(option, u32::MAX)?;
        Ok(number.map_or(otherwise, |number| number as usize))
    };
    let (from, to) = (asked("--from", whole.from)?, asked("--to", whole.to)?);
    let asked = Window { from, to };
    // Of a job without grants the whole is an empty part.
    if asked == whole || (1..=to).contains(&from) && to <= whole.to {
        return Ok(asked);
    }
    let grants = count(whole.to, "grant");
    Err(call.wrong(&format!("there is no part from grant {from} to {to} of {grants}")))
}

fn explained(call: &Call) -> Result<(), Failure> {
    let job = of_file(call, Job::read)?;
    let one_of = |option: &str, count: usize, name: &str| {
        let number = call.number_of(option, u32::MAX)?.map(|number| number as usize);
        match number.filter(|&number| number >= count) {
            Some(number) => Err(call.wrong(&format!("the job has no {name} {number}"))),
            None => Ok(number),
        }
    };
    let filter = Filter {
        head: one_of("--head", job.heads as usize, "head")?.map(|head| head as u8),
        request: one_of("--request", job.requests.len(), "request")?,
    };
    let story = Story::of(&job, window(call, &job)?);
    call.output(explain(&job, &story, filter).as_bytes())
}

fn show(call: &Call) -> Result<(), Failure> {
    let job = of_file(call, Job::read)?;
    let window = window(call, &job)?;
    let used = window.used(&job);
    if used > MOST_SHOWN {
        return Err(call.wrong(&format!(
            "{used} of {} are not idle, and a picture has at most {MOST_SHOWN} such: choose a part \
             with --from and --to",
            count(window.grants(), "grant")
        )));
    }
    call.output(picture::draw(&job, &Story::of(&job, window)).as_bytes())
}

fn ask(call: &Call) -> Result<(), Failure> {
    let (x, y) = (call.number(call.word(1), u32::MAX)?, call.number(call.word(2), u32::MAX)?);
    let allowance = call.number_of("--allowance", MOST_ALLOWANCE.into())?;
    let allowance = allowance.map_or(MOST_ALLOWANCE, |allowance| allowance as u16);
    let mut left = of_file(call, Cut::left_by)?;
    let asked = query(&mut left.table, x, y, allowance);
    let asked = asked.result().map_err(|refusal| refused(call, refusal))?;
    let used = count(asked.used as usize, "grant");
    let told = match asked.answer() {
        Some(Answer::Yes) => format!("yes: places {x} and {y} are in one group ({used})"),
        Some(_) => format!("no: places {x} and {y} are in two groups ({used})"),
        None => format!("spent: the answer needs more than its allowance ({used})"),
    };
    call.output(format!("{told}\n").as_bytes())
}

fn page(call: &Call) -> Result<(), Failure> {
    let left = of_file(call, Cut::left_by)?;
    let (_, text) = paged(&left.table).map_err(|refusal| refused(call, refusal))?;
    call.output(&text)
}

fn head_sheet(call: &Call) -> Result<(), Failure> {
    let head = call.number(call.word(1), u32::MAX)?;
    let mut text = vec![0; MOST_SHEET];
    let listed = of_file(call, |file| sheet(file, head, &mut text).result())?;
    text.truncate(listed.bytes);
    call.output(&text)
}

fn told_limits(call: &Call) -> Result<(), Failure> {
    let places = call.number(call.word(0), u32::MAX)?;
    let told = limits(places).result();
    let told = told.map_err(|refusal| Failure::Refused(format!("grouping: {refusal}")))?;
    let (same_set, union) = (told.same_set_grants, told.union_grants);
    call.output(
        format!("a same-set ends within {same_set} grants of its own, a union within {union}\n")
            .as_bytes(),
    )
}
