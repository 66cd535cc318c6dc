//! journal: lists the corrections that a journal keeps; replay: makes them again, or takes them back.

mod entry;
mod kept;

pub use entry::{marks, Names};
pub use kept::{read, tell_unsettled, Kept};

use crate::arguments::{too_many, Arguments, Operands, Setting};
use crate::commands::Command;
use crate::input::STANDARD;
use crate::outcome::{complain, Failure, Output, Status};
use crate::replace::Place;
use crate::source::{Source, TEMPLATE};
use crate::text::Name;
use entry::Form;
use station::journal::{Direction, Journal, Unreplayed};
use station::pair::Refused;
use station::Refusal;
use std::ffi::OsStr;
use std::fmt::Display;
use std::io::{self, Write};
use std::path::Path;

pub const JOURNAL: Command = Command {
    name: "journal",
    about: "list the corrections that a journal keeps",
    usage: &["J [--csv|--json]", "J FILE [--template T] [--csv|--json]"],
    operands: Operands::AtLeast(&["J"]),
    words: &[],
    options: &[
        Setting::alone(
            "--csv",
            "a CSV with a line for each entry, after a header: entry,sheet,sheet_name,cell,kind,old,new",
        ),
        Setting::alone(
            "--json",
            "an object with the entries, each with entry, sheet, sheet_name, cell, kind, old and new",
        ),
        TEMPLATE,
    ],
    examples: &[
        (
            "vaigunthe journal session.j",
            "a line for each correction",
        ),
        (
            "vaigunthe journal session.j session.bin --csv",
            "with names of sheets and texts, for a spreadsheet",
        ),
    ],
    details: "\
J is a journal that vaigunthe correct --journal J has kept. For each entry, in
the order in which they were made, from 0:
  ENTRY SHEET NAME CELL KIND OLD NEW       with tabs between
SHEET is the sheet's number and NAME its name; KIND is that of the new value,
number, text, truth or error; OLD is what the cell held.

A journal alone has no names and no texts: NAME is empty, and a text is
index:3, the index of a shared string. With FILE, the stream that was
corrected, before or after, both are shown; and the journal is held against it:
refused with 21 where it is cut or malformed, or another stream's. Without FILE
only the first is seen.
",
    run: list,
};

pub const REPLAY: Command = Command {
    name: "replay",
    about: "make a journal's corrections again, or take them back",
    usage: &["FILE J [--backwards] [--template T] --output OUT"],
    operands: Operands::Each(&["FILE", "J"]),
    words: &[],
    options: &[
        Setting::alone(
            "--backwards",
            "take the corrections back, from the last to the first",
        ),
        Setting::with(
            "--output",
            "OUT",
            "write the stream to OUT, whole or not at all; where OUT is - it goes to standard output, and the answer to standard error",
        ),
        TEMPLATE,
    ],
    examples: &[
        (
            "vaigunthe replay session.bin session.j --backwards --output original.bin",
            "the stream as it was",
        ),
        (
            "vaigunthe replay original.bin session.j --output again.bin",
            "the corrections, made again",
        ),
    ],
    details: "\
Forwards on the stream that a journal was started for it gives the stream that
the corrections left, and backwards on that one the first, byte for byte:
  replayed N                     all N entries
  refused N at O                 and no file is touched

Each entry is refused as a correction would be, with the entry's number, from 0,
in the place of an offset; and with 19 where the cell doesn't hold the old bytes
(backwards, what the new value writes). Where an entry is refused nothing is
written, not the entries before it either. The journal isn't changed.
",
    run: replay,
};

fn list(arguments: &Arguments, out: &mut Output) -> Result<Status, Failure> {
    let form = Form::of(arguments)?;
    let name = arguments.operand(0);
    let file = match arguments.operands() {
        [_] if arguments.has(TEMPLATE.name) => {
            return Err(Failure::usage("--template goes with FILE"))
        }
        [_, _, extra, ..] => return Err(too_many(extra)),
        operands => operands.get(1),
    };
    let mut source = match file {
        Some(_) => Some(Source::read_operand(arguments, 1)?),
        None => None,
    };
    let bytes = read(name)?;
    let journal = Journal::over(&bytes[..]);
    // A replay judges the journal first; what it comes to is of no interest here.
    let judged = source.as_mut().map(|source| {
        let names = source.check().ok().map(|checked| Names::of(&checked));
        (names, source.replay(&journal, Direction::Backwards))
    });
    let names = match (judged, &source) {
        (Some((_, Err(refused @ Unreplayed::Refused(_)))), Some(source)) => {
            return Ok(explain(source, name, refused));
        }
        (Some((names, _)), _) => names,
        (None, _) if !journal.is_whole() => {
            let malformed = Refusal {
                number: 21,
                offset: 0,
            };
            complain(format_args!("{}: {malformed}", Name(name)));
            return Ok(Status::Refused);
        }
        (None, _) => None,
    };
    form.write(journal.entries(), names.as_ref(), out)?;
    tell_unsettled(name);
    Ok(Status::Answered)
}

/// Says what a refusal means, on standard error: of the journal where it is the journal's.
fn explain(source: &Source<'_>, journal: &OsStr, refused: Unreplayed<Refused>) -> Status {
    match refused {
        Unreplayed::Refused(Refused { refusal, .. }) if refusal.number == 21 => {
            complain(format_args!("{}: {refused}", Name(journal)));
        }
        Unreplayed::Refused(refused) => {
            source.explain(refused);
        }
        Unreplayed::Stopped { .. } => source.note(refused),
    }
    Status::Refused
}

fn replay(arguments: &Arguments, out: &mut Output) -> Result<Status, Failure> {
    let journal = arguments.operand(1);
    let direction = match arguments.has("--backwards") {
        true => Direction::Backwards,
        false => Direction::Forwards,
    };
    let Some(name) = arguments.option("--output") else {
        return Err(Failure::usage("--output is needed"));
    };
    let failed = |error: io::Error| Failure::of_file(name, &error);
    // Held before anything is read, as for a correction.
    let place = match name == STANDARD {
        true => None,
        false => Some(Place::of(Path::new(name)).map_err(failed)?),
    };
    let mut source = Source::read_operand(arguments, 0)?;
    let bytes = read(journal)?;
    if let Some(place) = &place {
        source.spare_template(place)?;
        if place.replaces(Path::new(journal)) {
            let error = io::Error::other("this is the journal: it is not written over");
            return Err(Failure::of_file(journal, &error));
        }
    }
    let answer = source.replay(&Journal::over(&bytes[..]), direction);
    let status = match (answer, place) {
        (Err(refused), place) => {
            match place {
                Some(_) => answer_line(refused.line(), out)?,
                None => answer_line(refused.line(), &mut io::stderr())?,
            }
            out.flush()?;
            explain(&source, journal, refused)
        }
        (Ok(count), Some(place)) => {
            place
                .put(true, |out| out.write_all(&source.session().bytes))
                .map_err(failed)?;
            place.tell_unless_synced(name);
            answer_line(format_args!("replayed {count}"), out)?;
            Status::Answered
        }
        (Ok(count), None) => {
            out.write_all(&source.session().bytes)?;
            out.flush()?;
            answer_line(format_args!("replayed {count}"), &mut io::stderr())?;
            Status::Answered
        }
    };
    tell_unsettled(journal);
    Ok(status)
}

fn answer_line(line: impl Display, out: &mut impl Write) -> Result<(), Failure> {
    Ok(writeln!(out, "{line}")?)
}
