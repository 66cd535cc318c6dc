//! correct: one cell's new value, in a file that is replaced whole.

use crate::address::Address;
use crate::arguments::{missing, too_many, Arguments, Operands, Setting};
use crate::commands::Command;
use crate::journal::Kept;
use crate::outcome::{Failure, Output, Status};
use crate::replace::Place;
use crate::source::{Checked, Source, TEMPLATE};
use crate::target::{self, NewStream};
use crate::text::Word;
use crate::value;
use crate::wanted::Wanted;
use station::pair::Refused;
use station::NewValue;
use std::ffi::OsStr;
use std::io::{self, Write};
use std::path::Path;

pub const CORRECT: Command = Command {
    name: "correct",
    about: "give one cell a new value",
    usage: &[
        "FILE SHEET CELL KIND VALUE --in-place",
        "FILE SHEET CELL KIND VALUE --output OUT",
        "FILE SHEET CELL text --text TEXT --in-place",
        "FILE SHEET CELL KIND VALUE --in-place --journal J",
    ],
    operands: Operands::AtLeast(&["FILE", "SHEET", "CELL", "KIND"]),
    words: &["number", "text", "truth", "error"],
    options: &[
        Setting::with(
            "--output",
            "OUT",
            "write the corrected stream to OUT; where OUT is - it goes to standard output, and the answer to standard error",
        ),
        Setting::alone(
            "--in-place",
            "replace FILE; other hard links to it keep the old bytes",
        ),
        Setting::with(
            "--text",
            "TEXT",
            "in the place of VALUE: the shared string with exactly these characters, the first where several have them; refused where none has",
        ),
        TEMPLATE,
        Setting::with(
            "--journal",
            "J",
            "keep the correction in the journal J, which is made where it isn't there; stream and journal are both replaced, or neither is",
        ),
    ],
    examples: &[
        (
            "vaigunthe correct session.bin 0 B1 number 72.5 --in-place",
            "the cell B1 of the first sheet",
        ),
        (
            "vaigunthe correct session.bin Sheet1 B1 number 72.5 --output mended.bin",
            "the same by the sheet's name, into another file",
        ),
        (
            "vaigunthe correct session.bin 0 A2 text --text zwei --in-place",
            "a text that stands in the workbook already",
        ),
        (
            "vaigunthe correct session.bin 0 1 3 error '#N/A' --in-place",
            "row 1, column 3, both counted from 0",
        ),
        (
            "vaigunthe correct session.bin 0 B1 number 72.5 --in-place --journal session.j",
            "with an entry in a journal (vaigunthe help journal)",
        ),
        (
            "vaigunthe correct day.bin 0 B2 number 72.5 --template template.bin --in-place",
            "a session over its template",
        ),
    ],
    details: "\
Gives the one cell at this address a new value, and changes no other byte:
  granted
  refused N at O                 and no file is touched

SHEET is a sheet's number, from 0, or its name. Digits are always a number; a
name that looks like one is written name:2003.

CELL is an address like B12, or ROW COLUMN, both counted from 0: B12 is 11 1.

KIND and VALUE are one of:
  number VALUE   a decimal, or all 64 bits as bits:3FF0000000000000
  text VALUE     the index of a shared string
  truth VALUE    true, false or a byte from 0 to 255
  error VALUE    #NULL! #DIV/0! #VALUE! #REF! #NAME? #NUM! #N/A, or the code in
                 two hex digits

A correction stays within the cell's record: a number goes where a number is, a
text where a text is, a truth or an error where one of these is. Blanks and
formulas take no value.

With a template it is the session that is corrected, and a text is one of the
table that its indices mean. A sheet that only the template has takes no
correction: 17, whatever is asked for in it. The template is never written over.

A file is replaced whole or not at all: a new one, .vaigunthe-..., is written
beside it, synced and renamed. It has the old one's permissions; a link stays,
and what it leads to is replaced. A file that you may not write to is not
replaced. Runs that replace the same file wait for each other, with a lock on it
(flock), so that no granted correction is lost. A run that is ended by SIGINT,
SIGTERM or SIGHUP removes its new file; what a killed one leaves is removed by
the next run for the same file.

A journal that is another stream's is refused with 21, and nothing is changed.
The new journal is written beside the old one first, .J.vaigunthe-next; then the
stream is replaced, then the journal. Where a run is killed in between, the next
correction with this journal looks whether FILE has that correction: if so the
journal gets its entry, and else the entry goes.
",
    run,
};

/// The new value that is asked for.
enum New {
    Value(NewValue),
    /// The shared string with these characters.
    Text(String),
}

/// What is asked of a stream.
struct Question {
    sheet: Wanted,
    cell: Address,
    value: New,
}

/// The index of no shared string, for the library to refuse: no stream has as many.
const ABSENT: u32 = u32::MAX;

impl Question {
    fn of(arguments: &Arguments) -> Result<Self, Failure> {
        let sheet = Wanted::read("SHEET", arguments.operand(1))?;
        let (cell, rest) = Address::take(&arguments.operands()[2..])?;
        let value = match (rest, arguments.option("--text")) {
            ([], _) => return Err(missing("KIND")),
            ([kind], Some(text)) if kind == value::TEXT => New::Text(characters(text)?),
            ([_], Some(_)) => return Err(Failure::usage("--text goes with the kind text")),
            ([_], None) => return Err(missing("VALUE")),
            ([_, value], Some(_)) => {
                let value = Word(value);
                return Err(Failure::usage(format!(
                    "--text and '{value}': one of them is the value"
                )));
            }
            ([kind, value], None) => New::Value(value::read(kind, value)?),
            ([_, _, extra, ..], _) => return Err(too_many(extra)),
        };
        Ok(Question { sheet, cell, value })
    }

    fn ask(&self, source: &mut Source<'_>, kept: Option<&mut Kept<'_>>) -> Result<(), Refused> {
        let (sheet, value) = self.found(source)?;
        let Address { row, column } = self.cell;
        let address = (sheet, row, column);
        match kept {
            None => source.correct(address, value),
            Some(kept) => kept.correct(source, address, value),
        }
    }

    /// The number of the sheet and the value, looked up where they are given by name and characters.
    fn found(&self, source: &Source<'_>) -> Result<(u32, NewValue), Refused> {
        if let (Wanted::Number(sheet), New::Value(value)) = (&self.sheet, &self.value) {
            return Ok((*sheet, *value));
        }
        let checked = source.check()?;
        let value = match &self.value {
            New::Value(value) => *value,
            New::Text(text) => NewValue::Text(index_of(text, &checked).unwrap_or(ABSENT)),
        };
        Ok((self.sheet.number(&checked), value))
    }

    /// What a refusal can't say: which of the things that were asked for is absent.
    fn explain(&self, source: &Source<'_>) {
        let Ok(checked) = source.check() else {
            return;
        };
        if let Some(note) = self.sheet.note(&checked) {
            source.note(note);
        }
        if checked.is_templates(self.sheet.number(&checked)) {
            source.note("that sheet is the template's: only the session is corrected");
        }
        if let New::Text(text) = &self.value {
            if index_of(text, &checked).is_none() {
                let text = Word(text.as_ref());
                source.note(format_args!(
                    "no shared string is '{text}', and a correction can't add one"
                ));
            }
        }
    }
}

/// The characters of a text that is given as such.
fn characters(text: &OsStr) -> Result<String, Failure> {
    let plain = text.to_str().map(str::to_string);
    plain.ok_or_else(|| Failure::usage(format!("--text takes UTF-8, not '{}'", Word(text))))
}

/// The lowest index of a shared string with exactly these characters, in the table that the indices mean.
fn index_of(text: &str, checked: &Checked<'_>) -> Option<u32> {
    let wanted: Vec<u16> = text.encode_utf16().collect();
    let mut strings = checked.strings(checked.table());
    (0..checked.string_count(checked.table())).find(|_| strings.next_units() == Some(&wanted))
}

fn run(arguments: &Arguments, out: &mut Output) -> Result<Status, Failure> {
    let question = Question::of(arguments)?;
    match NewStream::of(arguments)?.ok_or_else(target::one_needed)? {
        NewStream::File(name) => to_file(arguments, &question, name, out),
        NewStream::Output if arguments.has("--journal") => Err(Failure::usage(
            "--journal goes with a file that is replaced together with it",
        )),
        NewStream::Output => to_output(arguments, &question, out),
    }
}

/// The place is held before the file is read: where both are one, no other run may replace it in between.
fn to_file(
    arguments: &Arguments,
    question: &Question,
    name: &OsStr,
    out: &mut Output,
) -> Result<Status, Failure> {
    let failed = |error: io::Error| Failure::of_file(name, &error);
    let place = Place::of(Path::new(name)).map_err(failed)?;
    let journal = arguments.option("--journal");
    if journal.is_some_and(|journal| place.is_of(Path::new(journal))) {
        return Err(failed(io::Error::other(
            "stream and journal can't be one file",
        )));
    }
    let mut source = Source::read(arguments)?;
    source.spare_template(&place)?;
    let mut kept = match journal {
        Some(journal) => Some(Kept::take(journal, &source)?),
        None => None,
    };
    if let Err(refused) = question.ask(&mut source, kept.as_mut()) {
        return refuse(&source, question, refused, out);
    }
    let put = || {
        let written = place.put(true, |out| out.write_all(&source.session().bytes));
        written.map_err(failed)?;
        place.tell_unless_synced(name);
        Ok(())
    };
    match kept {
        Some(kept) => kept.put(put)?,
        None => put()?,
    }
    writeln!(out, "granted")?;
    Ok(Status::Answered)
}

fn refuse(
    source: &Source<'_>,
    question: &Question,
    refused: Refused,
    out: &mut impl Write,
) -> Result<Status, Failure> {
    let status = source.refuse(refused, out)?;
    question.explain(source);
    Ok(status)
}

/// Standard output has the stream and nothing else, so the answer goes to standard error.
fn to_output(
    arguments: &Arguments,
    question: &Question,
    out: &mut Output,
) -> Result<Status, Failure> {
    let mut source = Source::read(arguments)?;
    match question.ask(&mut source, None) {
        Ok(()) => {
            out.write_all(&source.session().bytes)?;
            out.flush()?;
            let _ = writeln!(io::stderr(), "granted");
            Ok(Status::Answered)
        }
        Err(refused) => refuse(&source, question, refused, &mut io::stderr()),
    }
}
