//! The table of commands. A command is one entry: what it takes, what it says of itself, and what it runs. Help, the manual page, completions and the
//! reading of arguments all go by the entry.

use crate::arguments::{Arguments, Asked, Operands, Setting, HELP};
use crate::nearest::nearest;
use crate::outcome::{Failure, Output, Status};
use crate::page::{Page, Part};
use crate::text::Word;
use crate::{
    cadence, check, compact, compare, completions, correct, export, help, journal, judge, lines,
    manual, profile, report,
};
use std::ffi::{OsStr, OsString};
use std::io::Write;

pub struct Command {
    pub name: &'static str,
    /// What it does, in a few words.
    pub about: &'static str,
    /// What comes after the name, a line for each way to write it.
    pub usage: &'static [&'static str],
    pub operands: Operands,
    /// Words that may stand among the operands, for completions.
    pub words: &'static [&'static str],
    pub options: &'static [Setting],
    /// Calls, with what each is for.
    pub examples: &'static [(&'static str, &'static str)],
    /// The rest of its help.
    pub details: &'static str,
    pub run: fn(&Arguments, &mut Output) -> Result<Status, Failure>,
}

pub static COMMANDS: [Command; 18] = [
    check::CHECK,
    lines::SHEETS,
    report::REPORT,
    export::EXPORT,
    correct::CORRECT,
    journal::JOURNAL,
    journal::REPLAY,
    compare::COMPARE,
    compact::COMPACT,
    lines::LIST,
    lines::STRINGS,
    lines::FETCH,
    judge::JUDGE,
    profile::PROFILE,
    cadence::CADENCE,
    help::HELP_COMMAND,
    manual::MAN,
    completions::COMPLETIONS,
];

pub fn run(words: &[OsString], out: &mut Output) -> Result<Status, Failure> {
    let Some((first, rest)) = words.split_first() else {
        return Err(without_command("a command is missing"));
    };
    if ["--version", "-V"].iter().any(|version| first == version) && rest.is_empty() {
        writeln!(out, "vaigunthe {}", env!("CARGO_PKG_VERSION"))?;
        return Ok(Status::Answered);
    }
    let command = match HELP.iter().any(|help| first == help) {
        true => &help::HELP_COMMAND,
        false => named(first)?,
    };
    run_one(command, rest, out).map_err(|failure| in_command(command, failure))
}

/// The command of this name.
pub fn named(name: &OsStr) -> Result<&'static Command, Failure> {
    let found = COMMANDS.iter().find(|command| name == command.name);
    found.ok_or_else(|| {
        let meant = match nearest(name, COMMANDS.iter().map(|command| command.name)) {
            Some(near) => format!("; did you mean '{near}'?"),
            None => String::new(),
        };
        without_command(&format!("no command '{}'{meant}", Word(name)))
    })
}

fn run_one(
    command: &'static Command,
    words: &[OsString],
    out: &mut Output,
) -> Result<Status, Failure> {
    match Asked::read(command, words)? {
        Asked::Help => {
            help::write_one(command, out)?;
            Ok(Status::Answered)
        }
        Asked::Answer(arguments) => (command.run)(&arguments, out),
    }
}

fn without_command(message: &str) -> Failure {
    let names: Vec<_> = COMMANDS.iter().map(|command| command.name).collect();
    Failure::Command(format!(
        "{message}\nusage: vaigunthe COMMAND ...\ncommands: {}\nvaigunthe --help says more",
        names.join(", ")
    ))
}

/// Wrong usage is told together with the right one.
fn in_command(command: &Command, failure: Failure) -> Failure {
    match failure {
        Failure::Usage(message) => Failure::usage(format!(
            "{}: {message}\n{}vaigunthe help {} says more",
            command.name,
            Page(&[Part::Usage(help::ways(command))]),
            command.name
        )),
        other => other,
    }
}
