//! The program `grouping`: a command and its words in, what it makes on standard output, what is
//! wrong on standard error.

use std::env;
use std::ffi::OsString;
use std::io::{self, Write};
use std::process::ExitCode;

use workbench::call::Failure;
use workbench::commands::{Command, COMMANDS};
use workbench::files;

const ABOUT: &str = "\
grouping: jobs of the grouping core as text, runs in words and as pictures

usage: grouping COMMAND ...
       grouping COMMAND --help
       grouping --help | --version
";
const ENDS: &str = "\
A file's name may be -, which is standard input or, behind -o, standard output. Exit status: 0; 1 where the input is refused, with
the reason on standard error; 2 where the call is wrong; 3 where a file can't be read or written.
";

fn main() -> ExitCode {
    let words: Vec<OsString> = env::args_os().skip(1).collect();
    match called(&words) {
        Ok(()) => ExitCode::SUCCESS,
        Err(failure) => {
            // Where standard error can't be written either, the exit status is left.
            let _ = writeln!(io::stderr(), "{failure}");
            ExitCode::from(failure.status())
        }
    }
}

fn called(words: &[OsString]) -> Result<(), Failure> {
    let wrong = |what: &str| Failure::Call(format!("grouping: {what}\n{}", help().trim_end()));
    let words: Option<Vec<&str>> = words.iter().map(|word| word.to_str()).collect();
    let words = words.ok_or_else(|| wrong("a word is not UTF-8"))?;
    let Some((&first, rest)) = words.split_first() else {
        return Err(wrong("a command is missing"));
    };
    let command = match first {
        "--help" | "-h" => return say(&help()),
        "--version" => return say(concat!("grouping ", env!("CARGO_PKG_VERSION"), "\n")),
        name => {
            Command::named(name).ok_or_else(|| wrong(&format!("there is no command {name}")))?
        }
    };
    if rest.iter().any(|&word| word == "--help" || word == "-h") {
        let Command { summary, help, .. } = command;
        return say(&format!("{}\n\nIt {summary}.\n{help}\n", command.usage()));
    }
    command.run(rest)
}

/// All commands, a line each.
fn help() -> String {
    let line = |command: &Command| format!("    {:<9}{}\n", command.name, command.summary);
    let lines: String = COMMANDS.iter().map(line).collect();
    format!("{ABOUT}\n{lines}\n{ENDS}")
}

fn say(text: &str) -> Result<(), Failure> {
    files::write(files::STANDARD, text.as_bytes())
}
