//! compact: the stream without its unused strings, in a file that is replaced whole.

use crate::arguments::{Arguments, Operands, Setting};
use crate::commands::Command;
use crate::outcome::{Failure, Output, Status};
use crate::replace::Place;
use crate::source::{Source, TEMPLATE};
use crate::target::{self, NewStream};
use std::ffi::OsStr;
use std::io::{self, Write};
use std::path::Path;

pub const COMPACT: Command = Command {
    name: "compact",
    about: "leave out the shared strings that no cell uses",
    usage: &[
        "FILE [--template T] --in-place",
        "FILE [--template T] --output OUT",
        "FILE [--template T] --dry-run",
    ],
    operands: Operands::Each(&["FILE"]),
    words: &[],
    options: &[
        Setting::with(
            "--output",
            "OUT",
            "write the new stream to OUT; where OUT is - it goes to standard output, and the answer to standard error",
        ),
        Setting::alone(
            "--in-place",
            "replace FILE; other hard links to it keep the old bytes",
        ),
        Setting::alone(DRY_RUN, "write nothing, and say what would be written"),
        TEMPLATE,
    ],
    examples: &[
        (
            "vaigunthe compact session.bin --dry-run",
            "how much would it free?",
        ),
        (
            "vaigunthe compact session.bin --output small.bin",
            "into another file",
        ),
        (
            "vaigunthe compact day.bin --template template.bin --in-place",
            "a session over its template",
        ),
    ],
    details: "\
Writes the stream anew, without the shared strings that no text cell of a
worksheet uses:
  written N freed F              N bytes, F fewer than FILE has
  refused N at O                 and no file is touched

The strings that are left keep their order, their runs and phonetic bytes, and
the text cells get new indices for them; each string is written in one byte a
character where all of them allow it, else in two. Records that point into what
moves (EXTSST, INDEX) are left out. All other bytes stay in their order. Every
cell shows what it showed, vaigunthe compare OLD NEW says that nothing differs,
and done twice it changes nothing more.

F may be below 0: a string that was written partly in one byte a character and
partly in two takes two throughout. A new stream that would be longer than
16,777,216 bytes is refused with 1.

With a template it is the session that is written anew; one that has no string
table gets none, and its indices stay. Don't do this to a template itself: its
sessions go by its indices, which change. A journal of corrections is for the
stream as it was, and is refused for the new one with 21.

A file is replaced whole or not at all, as by vaigunthe correct.
",
    run,
};

const DRY_RUN: &str = "--dry-run";

fn run(arguments: &Arguments, out: &mut Output) -> Result<Status, Failure> {
    let target = NewStream::of(arguments)?;
    match target {
        _ if arguments.has(DRY_RUN) => {
            let source = Source::read(arguments)?;
            answered(&source, out, |_| Ok(()))
        }
        None => Err(target::one_needed()),
        Some(NewStream::File(name)) => to_file(arguments, name, out),
        Some(NewStream::Output) => to_output(arguments, out),
    }
}

/// Has the new stream written, and says how long it is; or gives the refusal, and nothing is written.
fn answered(
    source: &Source<'_>,
    out: &mut impl Write,
    write: impl FnOnce(&[u8]) -> Result<(), Failure>,
) -> Result<Status, Failure> {
    let new = match source.compacted() {
        Ok(new) => new,
        Err(refused) => return source.refuse(refused, out),
    };
    write(&new)?;
    let (old, written) = (source.session().bytes.len(), new.len());
    let freed = old as i64 - written as i64;
    writeln!(out, "written {written} freed {freed}")?;
    Ok(Status::Answered)
}

/// The place is held before the file is read, as for a correction.
fn to_file(arguments: &Arguments, name: &OsStr, out: &mut Output) -> Result<Status, Failure> {
    let failed = |error: io::Error| Failure::of_file(name, &error);
    let place = Place::of(Path::new(name)).map_err(failed)?;
    let source = Source::read(arguments)?;
    source.spare_template(&place)?;
    answered(&source, out, |new| {
        place.put(true, |out| out.write_all(new)).map_err(failed)?;
        place.tell_unless_synced(name);
        Ok(())
    })
}

/// Standard output has the stream and nothing else, so the answer goes to standard error.
fn to_output(arguments: &Arguments, out: &mut Output) -> Result<Status, Failure> {
    let source = Source::read(arguments)?;
    answered(&source, &mut io::stderr(), |new| {
        out.write_all(new)?;
        Ok(out.flush()?)
    })
}
