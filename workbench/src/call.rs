//! A call of the program: the words and options of a command, and the ways in which it can fail.

use std::fmt;
use std::fs;

use crate::commands::Command;
use crate::files;
use crate::text::decimal;

/// Why a call did not do what it was asked for: what is said of it, on standard error.
#[derive(Clone, Debug, PartialEq, Eq)]
pub enum Failure {
    /// The input is refused, or is a text that can't be read.
    Refused(String),
    /// The call is wrong; its usage is said with it.
    Call(String),
    /// A file can't be read or written.
    File(String),
}

impl Failure {
    /// The program's exit status.
    pub fn status(&self) -> u8 {
        match self {
            Failure::Refused(_) => 1,
            Failure::Call(_) => 2,
            Failure::File(_) => 3,
        }
    }
}

impl fmt::Display for Failure {
    fn fmt(&self, f: &mut fmt::Formatter<'_>) -> fmt::Result {
        let (Failure::Refused(said) | Failure::Call(said) | Failure::File(said)) = self;
        f.write_str(said)
    }
}

/// What a command is given.
pub struct Call<'a> {
    command: &'a Command,
    words: Vec<&'a str>,
    options: Vec<(&'a str, &'a str)>,
}

impl<'a> Call<'a> {
    /// Takes the words behind a command's name apart.
    ///
    /// # Errors
    /// A wrong call: words that are missing or too many, options that the command has not or that
    /// stand twice or without a value.
    pub fn of(command: &'a Command, rest: &[&'a str]) -> Result<Call<'a>, Failure> {
        let mut call = Call { command, words: Vec::new(), options: Vec::new() };
        let mut rest = rest.iter();
        while let Some(&word) = rest.next() {
            if !word.starts_with('-') || word == files::STANDARD {
                call.words.push(word);
            } else if !command.options.contains(&word) {
                return Err(call.wrong(&format!("there is no option {word}")));
            } else if call.option(word).is_some() {
                return Err(call.wrong(&format!("{word} is given twice")));
            } else {
                let value =
                    rest.next().ok_or_else(|| call.wrong(&format!("{word} has no value")))?;
                call.options.push((word, value));
            }
        }
        match call.words.get(command.words) {
            Some(surplus) => Err(call.wrong(&format!("\"{surplus}\" is one word too many"))),
            None if call.words.len() < command.words => Err(call.wrong("a word is missing")),
            None => Ok(call),
        }
    }

    /// A wrong call, with the command's usage.
    pub fn wrong(&self, what: &str) -> Failure {
        let Command { name, .. } = self.command;
        Failure::Call(format!("grouping {name}: {what}\n{}", self.command.usage()))
    }

    pub fn word(&self, index: usize) -> &'a str {
        self.words[index]
    }

    pub fn option(&self, name: &str) -> Option<&'a str> {
        self.options.iter().find(|&&(own, _)| own == name).map(|&(_, value)| value)
    }

    /// The number that a word or an option's value stands for.
    ///
    /// # Errors
    /// A wrong call where it is none, or above the most.
    pub fn number(&self, word: &str, most: u32) -> Result<u32, Failure> {
        let number = decimal(word).filter(|&number| number <= most);
        number.ok_or_else(|| self.wrong(&format!("\"{word}\" is no number from 0 to {most}")))
    }

    /// The number of an option, if it is given.
    ///
    /// # Errors
    /// As [`number`](Call::number).
    pub fn number_of(&self, option: &str, most: u32) -> Result<Option<u32>, Failure> {
        self.option(option).map(|value| self.number(value, most)).transpose()
    }

    /// The file that the first word names, or no more than one byte beyond the most that is of use.
    ///
    /// # Errors
    /// A file that can't be read.
    pub fn input(&self, most: usize) -> Result<Vec<u8>, Failure> {
        files::read(self.words[0], most)
    }

    /// The first word's file in what is said of it.
    pub fn input_name(&self) -> &'a str {
        files::name_of(self.words[0])
    }

    /// Writes what the command makes, where -o says or on standard output.
    ///
    /// # Errors
    /// A file that can't be written, or that is the one that was read.
    pub fn output(&self, bytes: &[u8]) -> Result<(), Failure> {
        let path = self.option("-o").unwrap_or(files::STANDARD);
        if is_one_file(path, self.words[0]) {
            return Err(self.wrong("-o names the file that is read"));
        }
        files::write(path, bytes)
    }
}

/// Whether two names are of one file that is there.
fn is_one_file(a: &str, b: &str) -> bool {
    matches!((fs::canonicalize(a), fs::canonicalize(b)), (Ok(a), Ok(b)) if a == b)
}
