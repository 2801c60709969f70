//! A job's text read: a draft for the writer, and where its records stand.

use std::iter::Peekable;
use std::str::SplitWhitespace;

use grouping_core::{MOST_GRANTS, MOST_HEADS};

use crate::job::{Job, Request, Right, Wait, Words, KINDS, RIGHTS};
use crate::refused::Refused;
use crate::text::{decimal, NOBODY};

/// A line that can't be read: what was found there, and what is expected.
#[derive(Clone, Debug, PartialEq, Eq)]
pub struct Fault {
    pub line: usize,
    pub told: String,
}

impl Fault {
    fn new(line: usize, found: &str, expected: &str) -> Fault {
        Fault { line, told: format!("found {found}, expected {expected}") }
    }
}

/// Where the records of a text stand, a line number each.
#[derive(Clone, Debug, Default, PartialEq, Eq)]
pub struct Lines {
    pub places: usize,
    pub heads: usize,
    pub rights: Vec<usize>,
    pub requests: Vec<usize>,
    pub waits: Vec<usize>,
    pub grants: Vec<GrantLine>,
}

/// A line of grants, and how many grants there are up to its end.
#[derive(Clone, Copy, Debug, PartialEq, Eq)]
pub struct GrantLine {
    pub line: usize,
    pub up_to: usize,
}

/// What a text says: a job that the writer may still refuse.
#[derive(Clone, Debug, Default, PartialEq, Eq)]
pub struct Draft {
    pub job: Job,
    pub lines: Lines,
}

impl Draft {
    /// Reads a text. Its records may stand in any order; requests count from 0 in theirs.
    ///
    /// # Errors
    /// Every line that can't be read; where there is none, what is missing at the end.
    pub fn parse(text: &str) -> Result<Draft, Vec<Fault>> {
        let mut draft = Draft::default();
        let mut faults = Vec::new();
        let mut end = 1;
        for (line, text) in (1..).zip(text.trim_start_matches('\u{FEFF}').lines()) {
            let record = text.split('#').next().unwrap_or_default();
            let mut fields = Fields { line, words: record.split_whitespace().peekable() };
            faults.extend(draft.take(&mut fields).err());
            end = line + 1;
        }
        for (name, line) in [("places", draft.lines.places), ("heads", draft.lines.heads)] {
            if line == 0 && faults.is_empty() {
                faults.push(Fault::new(end, "the text's end", &format!("a line \"{name}\"")));
            }
        }
        if faults.is_empty() {
            Ok(draft)
        } else {
            Err(faults)
        }
    }

    /// The job's file, by the proved writer.
    ///
    /// # Errors
    /// The writer's refusal, with the lines that it is about.
    pub fn file(&self) -> Result<Vec<u8>, Refused> {
        self.job.file().map_err(|refusal| Refused::of(self, refusal))
    }

    /// Takes the record of a line that has one.
    fn take(&mut self, fields: &mut Fields) -> Result<(), Fault> {
        match fields.words.next() {
            None => return Ok(()),
            Some("places") => self.places(fields)?,
            Some("heads") => self.heads(fields)?,
            Some("rights") => self.right(fields)?,
            Some("request") => self.request(fields)?,
            Some("wait") => self.wait(fields)?,
            Some("grant") => self.grant(fields)?,
            Some(other) => {
                let expected = one_of(["places", "heads", "rights", "request", "wait", "grant"]);
                return Err(fields.fault(other, &expected));
            }
        }
        fields.end()
    }

    fn places(&mut self, fields: &mut Fields) -> Result<(), Fault> {
        self.job.places = fields.number("how many places there are")?;
        fields.once("places", &mut self.lines.places)
    }

    fn heads(&mut self, fields: &mut Fields) -> Result<(), Fault> {
        self.job.heads = fields.number("how many heads there are")?;
        fields.once("heads", &mut self.lines.heads)
    }

    fn right(&mut self, fields: &mut Fields) -> Result<(), Fault> {
        let (head, rights) = (fields.number("a head")?, fields.word(RIGHTS)?);
        fields.word(&[("sees", 0)])?;
        self.job.rights.push(Right { head, rights, sight: fields.sight()? });
        self.lines.rights.push(fields.line);
        Ok(())
    }

    fn request(&mut self, fields: &mut Fields) -> Result<(), Fault> {
        let (head, kind) = (fields.number("a head")?, fields.word(KINDS)?);
        let (x, y) = (fields.number("a place")?, fields.number("a second place")?);
        self.job.requests.push(Request { head, kind, x, y });
        self.lines.requests.push(fields.line);
        Ok(())
    }

    fn wait(&mut self, fields: &mut Fields) -> Result<(), Fault> {
        let later = fields.number("the request that waits")?;
        let earlier = fields.number("the request that it waits for")?;
        self.job.waits.push(Wait { later, earlier });
        self.lines.waits.push(fields.line);
        Ok(())
    }

    fn grant(&mut self, fields: &mut Fields) -> Result<(), Fault> {
        let (head, more) = (fields.number("a head")?, fields.number(HOW_MANY)?);
        if more == 0 {
            return Err(fields.fault("0", &format!("{HOW_MANY}: 1 or more")));
        }
        // No job has 255 heads: the writer refuses this number as it would every larger one.
        let head = u8::try_from(head).unwrap_or(u8::MAX);
        // And one grant more than a file can have as it would every longer list.
        let grants = &mut self.job.grants;
        let room = (MOST_GRANTS as usize + 1).saturating_sub(grants.len());
        grants.extend(vec![head; (more as usize).min(room.max(1))]);
        self.lines.grants.push(GrantLine { line: fields.line, up_to: grants.len() });
        Ok(())
    }
}

const HOW_MANY: &str = "how many grants it has";
/// How many characters of a word are told.
const MOST_FOUND: usize = 40;

/// The words of a line that have not been read.
struct Fields<'a> {
    line: usize,
    words: Peekable<SplitWhitespace<'a>>,
}

impl<'a> Fields<'a> {
    /// A word that is not what is expected; of a long one its beginning, and nothing raw.
    fn fault(&self, found: &str, expected: &str) -> Fault {
        let begun: String = found.chars().take(MOST_FOUND).collect();
        let more = if begun.len() < found.len() { "..." } else { "" };
        Fault::new(self.line, &format!("{begun:?}{more}"), expected)
    }

    fn next(&mut self, expected: &str) -> Result<&'a str, Fault> {
        self.words.next().ok_or_else(|| Fault::new(self.line, "the line's end", expected))
    }

    fn end(&mut self) -> Result<(), Fault> {
        match self.words.next() {
            Some(found) => Err(self.fault(found, "the line's end")),
            None => Ok(()),
        }
    }

    /// A decimal number of 32 bits.
    fn number(&mut self, expected: &str) -> Result<u32, Fault> {
        let found = self.next(expected)?;
        let expected = || format!("{expected}: a number from 0 to {}", u32::MAX);
        decimal(found).ok_or_else(|| self.fault(found, &expected()))
    }

    /// The number that a word stands for.
    fn word(&mut self, words: &Words) -> Result<u32, Fault> {
        let expected = one_of(words.iter().map(|&(word, _)| word));
        let found = self.next(&expected)?;
        let number = words.iter().find(|&&(word, _)| word == found).map(|&(_, number)| number);
        number.ok_or_else(|| self.fault(found, &expected))
    }

    /// All heads up to the line's end, a bit each, or that there is none.
    fn sight(&mut self) -> Result<u32, Fault> {
        if self.words.next_if_eq(&NOBODY).is_some() {
            return Ok(0);
        }
        let mut sight = 0;
        loop {
            let head = self.number(&format!("\"{NOBODY}\" or the heads that it may see"))?;
            // A file has no bit for a higher one, so that the writer could not be given it.
            if head >= MOST_HEADS {
                let expected = format!("a head that it may see: a number below {MOST_HEADS}");
                return Err(self.fault(&head.to_string(), &expected));
            }
            sight |= 1 << head;
            if self.words.peek().is_none() {
                return Ok(sight);
            }
        }
    }

    /// Notes where a record stands that a text has once.
    fn once(&self, name: &str, stands: &mut usize) -> Result<(), Fault> {
        if *stands != 0 {
            let found = format!("\"{name}\" a second time (first in line {stands})");
            return Err(Fault::new(self.line, &found, "it once"));
        }
        *stands = self.line;
        Ok(())
    }
}

/// `"union" or "same-set"`.
fn one_of<'a>(words: impl IntoIterator<Item = &'a str>) -> String {
    let quoted: Vec<String> = words.into_iter().map(|word| format!("\"{word}\"")).collect();
    match quoted.split_last() {
        Some((last, others)) if !others.is_empty() => format!("{} or {last}", others.join(", ")),
        _ => quoted.concat(),
    }
}
