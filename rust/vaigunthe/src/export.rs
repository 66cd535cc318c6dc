//! export: the cells of a workbook with their texts, cell by cell as CSV or JSON, or as the grid that a sheet is.

mod csv;
mod folder;
mod grid;
mod json;

pub use csv::{field, write_shown};
pub use json::write_value;

use crate::arguments::{Arguments, Operands, Setting};
use crate::book::Book;
use crate::commands::Command;
use crate::outcome::{Failure, Output, Status};
use crate::replace::{Place, Written};
use crate::source::{Source, TEMPLATE};
use crate::target::Target;
use crate::wanted::Wanted;
use station::pair::Refused;
use std::io::{self, Write};
use std::path::Path;

pub const EXPORT: Command = Command {
    name: "export",
    about: "write the cells with their texts, as a table or cell by cell",
    usage: &[
        "FILE --grid [--sheet SHEET] [--output OUT]",
        "FILE --grid --output-dir DIR",
        "FILE --csv|--json [--sheet SHEET] [--output OUT]",
    ],
    operands: Operands::Each(&["FILE"]),
    words: &[],
    options: &[
        Setting::alone(
            "--grid",
            "a CSV with the rows and columns of the sheet, from A1 on, as far as there are values",
        ),
        Setting::alone(
            "--csv",
            "a CSV with a line for each cell, after a header: sheet,sheet_name,row,column,kind,value",
        ),
        Setting::alone(
            "--json",
            "an object with the sheets, each with number, name, type, rows and cells; a cell has row, column, kind, value and, where it is a formula, its tokens in hex",
        ),
        Setting::with(
            "--sheet",
            "SHEET",
            "only this sheet, by its number from 0 or its name; digits are always a number, and a name that looks like one is written name:2003",
        ),
        Setting::with(
            "--output",
            "OUT",
            "write to this file, whole or not at all; - is standard output",
        ),
        Setting::with(
            "--output-dir",
            "DIR",
            "with --grid: a file for each worksheet in this folder, which is made where it isn't there; the file of sheet 0, Data, is 0-Data.csv",
        ),
        Setting::alone(
            "--no-blanks",
            "with --csv and --json: leave out cells without a value",
        ),
        Setting::alone(
            "--a1",
            "with --csv and --json: give addresses like B12, as cell, in the place of row and column",
        ),
        Setting::alone(
            "--dates",
            "write numbers as dates and times where their cells' formats show them so, and with --csv and --json the numbers themselves as serial; dates are not proved",
        ),
        Setting::alone(
            "--places",
            "with --csv and --json: add the index of each cell's format, as format, and the offset of its value field in FILE, for a blank that of its format, as offset",
        ),
        Setting::alone(
            "--bom",
            "with --csv and --grid: start with a byte order mark, by which Excel knows UTF-8",
        ),
        TEMPLATE,
    ],
    examples: &[
        (
            "vaigunthe export session.bin --grid > session.csv",
            "the one worksheet as a table",
        ),
        (
            "vaigunthe export session.bin --grid --sheet Sheet1 --output one.csv",
            "one sheet of several",
        ),
        (
            "vaigunthe export session.bin --grid --output-dir tables",
            "all worksheets, a file for each",
        ),
        (
            "vaigunthe export session.bin --csv --a1 --no-blanks",
            "a line for each value, with its address and kind",
        ),
        (
            "vaigunthe export session.bin --json --output session.json",
            "everything, formulas too",
        ),
        (
            "vaigunthe export session.bin --grid --dates --output session.csv",
            "the one worksheet as a table, its dates as dates",
        ),
        (
            "vaigunthe export session.bin --csv --a1 --places",
            "where in the stream each value stands",
        ),
        (
            "vaigunthe export day.bin --csv --a1 --template template.bin",
            "the cells of a session and of its template, with the texts that they mean",
        ),
    ],
    details: "\
Cell by cell, each cell has a kind, and a formula is told apart by it:
  blank            no value
  number           the shortest decimal that reads back to the same 64 bits;
                   an infinity or a NaN is its bits, bits:7FF8000000000000
  text             the shared string, or a formula's own text
  truth            true or false
  error            #NULL! #DIV/0! #VALUE! #REF! #NAME? #NUM! #N/A
  formula number, formula text, formula truth, formula error
                   a formula, and its stored result as above
  formula empty    a formula, and an empty text
No value is an empty field in CSV and null in JSON. Cells come in stream order,
all that the stream has, also several at one address.

In a grid a formula is its stored result, and the last listed of several cells
at one address counts. A grid has as many fields in each line as its widest row
needs; blanks add none. Without --sheet the workbook must have one worksheet.
All grids of one workbook may have 268,435,456 fields together.

With --dates a number is written by ISO 8601 where its cell's format is one of
dates, times or elapsed times: 2004-02-29, 13:05:00, 2004-02-29T13:05:00,
PT36H5M0S. Its kind stays. Cell by cell the number itself follows as its serial;
what is no date has an empty field in CSV and no serial in JSON. A grid has the
dates and no serials. Negative numbers stay numbers, and so do those after the
year 9999 and those whose format is damaged. 1900-01-00 and 1900-02-29 are
Excel's days 0 and 60. A workbook without a DATEMODE record counts its days from
1900; where the record is damaged, or two disagree, nothing is a date.

Dates are no part of what is proved. The proved library gives each cell's number
and the index of its format; what date that is, this tool alone says.

With a template each text is that of the table that its index means, dates go by
the formats of the stream that has the cell, and --csv and --json say which that
is, session or template, as stream: a last column in CSV, of each sheet in JSON.
The offsets of --places are counted in it.

In names of files all but letters, digits, spaces and -_. becomes _; the number
in front keeps them apart. FILE itself is never written over.

CSV is as RFC 4180 has it, lines ending with CR LF, in UTF-8. Control characters
other than tab, CR and LF, separators, characters that turn the direction of
text, and lone surrogates are written \\u{85}; a backslash is doubled only where
one of these, or the text u{, comes right after it. JSON has \\u0085 and \\uD800.
",
    run,
};

/// How cells are listed one by one.
#[derive(Clone, Copy)]
struct Listing {
    blanks: bool,
    /// Addresses like B12.
    letters: bool,
    /// The format of each cell, and where its value field stands.
    places: bool,
}

/// What is written.
enum Form {
    Csv(Listing),
    Json(Listing),
    Grid,
}

impl Form {
    fn of(arguments: &Arguments) -> Result<Self, Failure> {
        let listing = Listing {
            blanks: !arguments.has("--no-blanks"),
            letters: arguments.has("--a1"),
            places: arguments.has("--places"),
        };
        let asked = ["--csv", "--json", "--grid"].map(|name| arguments.has(name));
        let (form, called, misplaced) = match asked {
            [true, false, false] => (Form::Csv(listing), "--csv", &["--output-dir"][..]),
            [false, true, false] => (
                Form::Json(listing),
                "--json",
                &["--output-dir", "--bom"][..],
            ),
            [false, false, true] => (
                Form::Grid,
                "--grid",
                &["--no-blanks", "--a1", "--places"][..],
            ),
            _ => {
                let message = "one of --grid, --csv and --json is needed";
                return Err(Failure::usage(message));
            }
        };
        match misplaced.iter().find(|name| arguments.has(name)) {
            Some(name) => Err(Failure::usage(format!("{name} doesn't go with {called}"))),
            None => Ok(form),
        }
    }

    fn write<W: Write>(&self, book: &Book<'_>, out: &mut W) -> io::Result<()> {
        match self {
            Form::Csv(listing) => csv::write(book, *listing, out),
            Form::Json(listing) => json::write(book, *listing, out),
            Form::Grid => {
                let mut sheets = book.sheets().take(1);
                sheets.try_for_each(|page| grid::Grid::of(book, &page).write(out))
            }
        }
    }
}

/// Where it goes.
fn target(arguments: &Arguments) -> Result<Target<'_>, Failure> {
    match Target::of(arguments)? {
        Target::Folder(_) if arguments.has("--sheet") => Err(Failure::usage(
            "--output-dir is for all sheets: with --sheet use --output",
        )),
        target => Ok(target),
    }
}

/// What a CSV starts with for readers that would else take it for another encoding.
const MARK: &str = "\u{FEFF}";

fn run(arguments: &Arguments, out: &mut Output) -> Result<Status, Failure> {
    let form = Form::of(arguments)?;
    let target = target(arguments)?;
    let mark = if arguments.has("--bom") { MARK } else { "" };
    let only = arguments.option("--sheet");
    let only = only.map(|word| Wanted::read("--sheet", word)).transpose()?;
    let source = Source::read(arguments)?;
    let mut book = match Book::read(&source, only.as_ref()) {
        Ok(book) => book,
        Err(refused) => return Ok(refuse(&source, refused, only.as_ref())),
    };
    if let (Form::Grid, Target::Output | Target::File(_)) = (&form, &target) {
        let one = book.one_worksheet();
        one.map_err(|message| source.session().failure(message))?;
    }
    if arguments.has("--dates") {
        book.show_dates();
    }
    match target {
        Target::Output => {
            out.write_all(mark.as_bytes())?;
            form.write(&book, out)?;
        }
        Target::File(name) => {
            let path = Path::new(name);
            let write = |out: &mut Written<'_>| form.write(&book, out);
            put(&source, path, Place::of(path), mark, write)?;
        }
        Target::Folder(name) => folder::write(&book, &source, mark, name)?,
    }
    for whose in book.streams() {
        if let Some(note) = book.about_dates(*whose) {
            source.stream(*whose).note(note);
        }
    }
    Ok(Status::Answered)
}

/// Says what a refusal means, and of a sheet that is absent what there is instead.
fn refuse(source: &Source<'_>, refused: Refused, only: Option<&Wanted>) -> Status {
    let status = source.explain(refused);
    let asked = source.check().ok().zip(only);
    if let Some(note) = asked.and_then(|(checked, only)| only.note(&checked)) {
        source.note(note);
    }
    status
}

/// Puts what is written into a file, behind the mark.
fn put(
    source: &Source<'_>,
    path: &Path,
    place: io::Result<Place>,
    mark: &str,
    write: impl FnOnce(&mut Written<'_>) -> io::Result<()>,
) -> Result<(), Failure> {
    source.put_beside(path, place, |out| {
        out.write_all(mark.as_bytes())?;
        write(out)
    })
}
