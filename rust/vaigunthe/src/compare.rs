//! compare: where two revisions of a workbook differ, for people with both values, in plain lines, as CSV or JSON.

mod changes;
mod colour;
mod lines;
mod marks;
mod tables;

pub use marks::marks;

use crate::address::Address;
use crate::arguments::{Arguments, Operands, Setting};
use crate::commands::Command;
use crate::input::{Stream, STANDARD};
use crate::outcome::{Failure, Output, Status};
use crate::text::InLine;
use changes::{Changes, Revisions};
use colour::Colour;
use station::{Differences, Side, SideRefused};
use std::io::{self, Write};

pub const COMPARE: Command = Command {
    name: "compare",
    about: "say where two revisions of a workbook differ",
    usage: &[
        "OLD NEW [--exit-code] [--color[=WHEN]]",
        "OLD NEW --lines|--csv|--json [--exit-code]",
    ],
    operands: Operands::Each(&["OLD", "NEW"]),
    words: &[],
    options: &[
        Setting::alone(
            "--lines",
            "plain lines for programs, as ask has them: name SHEET; first, second or unequal with SHEET ROW COLUMN; same where nothing differs",
        ),
        Setting::alone(
            "--csv",
            "a CSV with a line for each difference, after a header",
        ),
        Setting::alone(
            "--json",
            "an object with the differences, each with sheet, sheet_name, row, column, difference, old and new",
        ),
        Setting::alone(
            "--exit-code",
            "the status is 1 where they differ; a refusal is then 3",
        ),
        Setting::joined(
            "--color",
            "[=WHEN]",
            "colour the values in the lines for people: always, auto or never; auto, where this isn't given, is on a terminal and where NO_COLOR is not set",
        ),
    ],
    examples: &[
        (
            "vaigunthe compare session.bin corrected.bin",
            "a line for each difference, with both values",
        ),
        (
            "vaigunthe compare session.bin corrected.bin --csv > changes.csv",
            "the same for a spreadsheet",
        ),
        (
            "vaigunthe compare session.bin corrected.bin --exit-code || test $? -eq 1",
            "for a script: it goes on where they differ, but not where one is refused",
        ),
    ],
    details: "\
Sheets are compared by their numbers, cells by their addresses. A line for each
difference, by sheet, row and column, the name of a sheet before its cells:
  Sheet1!B12  72.5 -> 75         both have a cell here, with unequal values
  Sheet1!B12  (absent) -> 75     only NEW has one; the other way, only OLD
  sheet 0  \"Data\" -> \"Sheet1\"    the sheet of this number has another name
Where nothing differs: no differences. A sheet goes by its name in NEW, or in OLD
where NEW has no such number; such a sheet is there with all its cells.

A number is the shortest decimal that reads back to the same 64 bits, an infinity
or a NaN its bits, bits:7FF8000000000000. Texts are in quotes, with \\\" for a quote,
and otherwise written as in all lines (vaigunthe --help). Truths are true and
false, errors #N/A and so on, and (blank) is a cell without a value. The result
of a formula has = before it, and =(empty) is an empty one.

Numbers are equal where their 64 bits are, so 0 and -0.0 differ; texts and names
where their characters are; formulas where their results are, whatever their
tokens, and never to a plain value. Formats don't count.

The header of the CSV:
  sheet,sheet_name,row,column,difference,old_kind,old,new_kind,new
In JSON old and new are objects with kind and value, or null. A difference is
name, first, second or unequal; kinds and values are those of export. What is
absent is empty in CSV, and of a name there is only old and new.

With 16, an address that has two cells, comes the first of them. A refusal has
the name of its file. With --lines its line is refused N at O of first (or of
second); otherwise standard output has nothing of it.
",
    run,
};

/// What is written.
#[derive(Clone, Copy)]
enum Form {
    People,
    Lines,
    Csv,
    Json,
}

impl Form {
    fn of(arguments: &Arguments) -> Result<Self, Failure> {
        match ["--lines", "--csv", "--json"].map(|name| arguments.has(name)) {
            [false, false, false] => Ok(Form::People),
            [true, false, false] => Ok(Form::Lines),
            [false, true, false] => Ok(Form::Csv),
            [false, false, true] => Ok(Form::Json),
            _ => Err(Failure::usage("--lines, --csv and --json: one is enough")),
        }
    }
}

/// What the status says.
#[derive(Clone, Copy)]
struct Told {
    /// Also whether they differ.
    differences: bool,
}

impl Told {
    fn answered(self, differ: bool) -> Status {
        match self.differences && differ {
            true => Status::Differ,
            false => Status::Answered,
        }
    }

    fn refused(self) -> Status {
        match self.differences {
            true => Status::RefusedApart,
            false => Status::Refused,
        }
    }
}

fn run(arguments: &Arguments, out: &mut Output) -> Result<Status, Failure> {
    let form = Form::of(arguments)?;
    let colour = Colour::of(arguments, out)?;
    let told = Told {
        differences: arguments.has("--exit-code"),
    };
    if arguments.operands().iter().all(|name| name == STANDARD) {
        return Err(Failure::usage("standard input can be read only once"));
    }
    let old = Stream::read(arguments.operand(0))?;
    let new = Stream::read(arguments.operand(1))?;
    match station::compare(&old.bytes, &new.bytes) {
        Ok(differences) => {
            let differ = write(form, colour, differences, [&old, &new], out)?;
            Ok(told.answered(differ))
        }
        Err(refused) => {
            refuse(form, refused, [&old, &new], out)?;
            Ok(told.refused())
        }
    }
}

/// Writes the differences, and says whether there are any.
fn write(
    form: Form,
    colour: Colour,
    differences: Differences<'_>,
    [old, new]: [&Stream<'_>; 2],
    out: &mut Output,
) -> io::Result<bool> {
    let mut differences = differences.peekable();
    let differ = differences.peek().is_some();
    if let Form::Lines = form {
        if !differ {
            writeln!(out, "same")?;
        }
        differences.try_for_each(|difference| writeln!(out, "{difference}"))?;
        return Ok(differ);
    }
    // Strings and sheets are read where there is something to show.
    let revisions = differ.then(|| Revisions::read(&old.bytes, &new.bytes));
    let changes = revisions
        .as_ref()
        .map(|revisions| Changes::of(revisions, differences));
    let changes = changes.into_iter().flatten();
    match form {
        Form::Csv => tables::write_csv(changes, out)?,
        Form::Json => tables::write_json(changes, out)?,
        Form::People | Form::Lines => lines::write(changes, colour, out)?,
    }
    Ok(differ)
}

/// Says which stream is refused, and why.
fn refuse(
    form: Form,
    refused: SideRefused,
    streams: [&Stream<'_>; 2],
    out: &mut Output,
) -> io::Result<()> {
    if let Form::Lines = form {
        writeln!(out, "{}", refused.line())?;
        out.flush()?;
    }
    explain(refused, streams);
    Ok(())
}

/// Says it on standard error alone.
pub fn explain(refused: SideRefused, [old, new]: [&Stream<'_>; 2]) {
    let stream = match refused.side {
        Side::First => old,
        Side::Second => new,
    };
    stream.explain(refused.refusal.into());
    if let Some(twice) = twice(&stream.bytes).filter(|_| refused.refusal.number == 16) {
        stream.note(twice);
    }
}

/// The first address, by sheet, row and column, that has two cells.
fn twice(stream: &[u8]) -> Option<String> {
    let workbook = station::check(stream).ok()?;
    workbook.sheets().enumerate().find_map(|(number, sheet)| {
        let cells = sheet.cells();
        let mut addresses: Vec<_> = cells.map(|cell| (cell.row(), cell.column())).collect();
        addresses.sort_unstable();
        let twice = addresses.windows(2).find(|pair| pair[0] == pair[1])?;
        let (row, column) = twice[0];
        let address = Address {
            row: row.into(),
            column: column.into(),
        };
        let name: Vec<_> = sheet.name_units().collect();
        Some(format!(
            "{address} of sheet {number}, {}, has two cells or more",
            InLine(&name)
        ))
    })
}
