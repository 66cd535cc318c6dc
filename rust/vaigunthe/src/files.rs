//! Commands that say a line of each file.

use crate::arguments::Arguments;
use crate::input::{Stream, STANDARD};
use crate::outcome::{complain, Failure, Output, Status};
use crate::progress::Progress;
use crate::text::Name;
use std::ffi::OsString;
use std::io::Write;

/// What is said of a stream: an answer, or why it is refused.
pub type Said = Result<String, String>;

/// The files of a command that takes several.
pub fn several(arguments: &Arguments) -> Result<&[OsString], Failure> {
    let files = arguments.operands();
    match files.iter().filter(|file| *file == STANDARD).count() {
        0 | 1 => Ok(files),
        _ => Err(Failure::usage("standard input can be read only once")),
    }
}

/// Says a line of each file, in the order given, which `say` makes of its bytes. One that can't be read keeps none of the others from its answer.
pub fn say_each(
    arguments: &Arguments,
    out: &mut Output,
    say: impl Fn(&[u8]) -> Said,
) -> Result<Status, Failure> {
    let files = several(arguments)?;
    let mut progress = Progress::on_standard_error("checking", files.len());
    let mut status = Status::Answered;
    for (done, file) in files.iter().enumerate() {
        progress.show(done + 1);
        let said = Stream::read(file).map(|stream| (say(&stream.bytes), stream));
        progress.clear();
        status = status.max(match said {
            Ok((said, stream)) => {
                let line = said.as_ref().unwrap_or_else(|refused| refused);
                writeln!(out, "{}: {line}", Name(file))?;
                // Before the next file is read.
                out.flush()?;
                if said.is_ok() {
                    Status::Answered
                } else {
                    stream.hint();
                    Status::Refused
                }
            }
            Err(Failure::File(message)) => {
                complain(message);
                Status::Failed
            }
            Err(failure) => return Err(failure),
        });
    }
    Ok(status)
}
