//! Where an answer goes: a file or a folder of them, or a stream that takes the place of another.

use crate::arguments::Arguments;
use crate::input::STANDARD;
use crate::outcome::Failure;
use std::ffi::OsStr;

pub enum Target<'a> {
    Output,
    File(&'a OsStr),
    Folder(&'a OsStr),
}

impl<'a> Target<'a> {
    /// As the options --output and --output-dir say.
    pub fn of(arguments: &'a Arguments) -> Result<Self, Failure> {
        let file = arguments.option("--output");
        match (file, arguments.option("--output-dir")) {
            (Some(_), Some(_)) => Err(Failure::usage("--output and --output-dir: one is enough")),
            (None, Some(folder)) => Ok(Target::Folder(folder)),
            (Some(name), None) if name != STANDARD => Ok(Target::File(name)),
            (_, None) => Ok(Target::Output),
        }
    }
}

/// Where a new stream goes.
pub enum NewStream<'a> {
    File(&'a OsStr),
    Output,
}

impl<'a> NewStream<'a> {
    /// As the options --output and --in-place say; none where neither is given.
    pub fn of(arguments: &'a Arguments) -> Result<Option<Self>, Failure> {
        match (arguments.option("--output"), arguments.has("--in-place")) {
            (Some(_), true) => Err(one_needed()),
            (Some(out), false) if out == STANDARD => Ok(Some(NewStream::Output)),
            (Some(out), false) => Ok(Some(NewStream::File(out))),
            (None, true) if arguments.operand(0) == STANDARD => Err(Failure::usage(
                "standard input can't be replaced: --output is needed",
            )),
            (None, true) => Ok(Some(NewStream::File(arguments.operand(0)))),
            (None, false) => Ok(None),
        }
    }
}

pub fn one_needed() -> Failure {
    Failure::usage("one of --output and --in-place is needed")
}
