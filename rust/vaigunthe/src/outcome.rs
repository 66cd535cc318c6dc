//! How a run ends: its status, or why it could not answer.

use crate::text::FilePath;
use std::ffi::OsStr;
use std::fmt::Display;
use std::io::{self, BufWriter, ErrorKind, StdoutLock, Write};
use std::process::ExitCode;

/// Standard output, buffered.
pub type Output = BufWriter<StdoutLock<'static>>;

/// What a command comes to. Of several the greatest counts.
#[derive(Clone, Copy, Debug, PartialEq, Eq, PartialOrd, Ord)]
pub enum Status {
    Answered,
    /// What was compared differs, and the status is to say so.
    Differ,
    Refused,
    /// A refusal where the status says whether there are differences.
    RefusedApart,
    Failed,
}

impl From<Status> for ExitCode {
    fn from(status: Status) -> Self {
        ExitCode::from(match status {
            Status::Answered => 0,
            Status::Differ | Status::Refused => 1,
            Status::RefusedApart => 3,
            Status::Failed => 2,
        })
    }
}

/// What a shell gives for a program that was ended by a closed pipe.
const CLOSED_PIPE: u8 = 141;

/// Why there is no answer.
#[derive(Debug)]
pub enum Failure {
    /// There is no such command.
    Command(String),
    /// The arguments are not what the command takes.
    Usage(String),
    /// A file, or what is read from it, is not what it must be.
    File(String),
    /// Standard output took no more.
    Output(io::Error),
}

impl From<io::Error> for Failure {
    fn from(error: io::Error) -> Self {
        Failure::Output(error)
    }
}

impl Failure {
    pub fn usage(message: impl Into<String>) -> Self {
        Failure::Usage(message.into())
    }

    pub fn of_file(name: &OsStr, error: &io::Error) -> Self {
        Failure::File(format!("{}: {error}", FilePath(name)))
    }

    /// Says what went wrong. A reader that has seen enough and closed the pipe is told nothing.
    pub fn report(&self) -> ExitCode {
        match self {
            Failure::Command(message) | Failure::Usage(message) | Failure::File(message) => {
                complain(message)
            }
            Failure::Output(error) if error.kind() == ErrorKind::BrokenPipe => {
                return ExitCode::from(CLOSED_PIPE)
            }
            Failure::Output(error) => complain(format_args!("standard output: {error}")),
        }
        Status::Failed.into()
    }
}

/// A message on standard error. Where even that can't be written, there is nowhere left to say so.
pub fn complain(message: impl Display) {
    let _ = writeln!(io::stderr(), "vaigunthe: {message}");
}
