//! list, sheets, strings and fetch: what a stream holds, a line each.

use crate::address::Address;
use crate::arguments::{missing, too_many, whole, Arguments, Operands, Setting};
use crate::commands::Command;
use crate::outcome::{Failure, Output, Status};
use crate::source::{Checked, Source, TEMPLATE};
use crate::text::{InLine, Word};
use crate::wanted::Wanted;
use station::pair::{Refused, Whose};
use station::{SheetKind, LONGEST_STRING};
use std::io::{self, Write};

/// What most commands take.
const ONE_FILE: Operands = Operands::Each(&["FILE"]);

pub const LIST: Command = Command {
    name: "list",
    about: "list all sheets and cells in the program's lines",
    usage: &["FILE [--template T]"],
    operands: ONE_FILE,
    words: &[],
    options: &[TEMPLATE],
    examples: &[
        (
            "vaigunthe list session.bin",
            "everything, a line for each cell",
        ),
        (
            "vaigunthe list day.bin --template template.bin",
            "everything of a session and of its template",
        ),
    ],
    details: "\
The lines that the program station prints, for a stream of any length up to
16,777,216 bytes:
  sheets S strings U cells C
  sheet N rows R                 then the cells of that sheet, in stream order:
  ROW COLUMN blank
  ROW COLUMN number BITS         the 64 bits of the number in hex
  ROW COLUMN text INDEX          the index of a shared string
  ROW COLUMN truth 0|1
  ROW COLUMN error CODE          in two hex digits
  ROW COLUMN formula RESULT      number, truth or error as above, text or empty
Where the stream is refused: refused N at O. For numbers and texts that people
read there is export.

With a template three lines end with whose they are, 'of session' or 'of
template'; after the strings stands whose table the session's indices mean:
  sheets S strings U of template cells C
  sheet N rows R of session
  refused N at O of template
",
    run: list,
};

pub const SHEETS: Command = Command {
    name: "sheets",
    about: "list the sheets with their names",
    usage: &["FILE [--template T]"],
    operands: ONE_FILE,
    words: &[],
    options: &[TEMPLATE],
    examples: &[
        (
            "vaigunthe sheets session.bin",
            "number, type, rows, cells and name of each",
        ),
        (
            "vaigunthe sheets day.bin --template template.bin",
            "those of a session and of its template",
        ),
    ],
    details: "\
A line for each sheet, with tabs between:
  number, type (worksheet, macro or chart), rows, cells, name
With a template 'session' or 'template' stands between the number and the type.
The number of rows is the highest row with a cell plus one, or 0. How names are
written: vaigunthe --help.
",
    run: sheets,
};

pub const STRINGS: Command = Command {
    name: "strings",
    about: "list the shared strings",
    usage: &["FILE [--template T]"],
    operands: ONE_FILE,
    words: &[],
    options: &[TEMPLATE],
    examples: &[
        (
            "vaigunthe strings session.bin",
            "the index and the text of each",
        ),
        (
            "vaigunthe strings day.bin --template template.bin",
            "those of a session, if it has any, and of its template",
        ),
    ],
    details: "\
A line for each shared string: its index, a tab and its text. With a template
come the session's own strings and then the template's, each after 'session' or
'template' and a tab. How texts are written: vaigunthe --help.
",
    run: strings,
};

pub const FETCH: Command = Command {
    name: "fetch",
    about: "give the 16-bit units of one shared string, or of a formula's text",
    usage: &[
        "FILE INDEX [--room N] [--template T [--of STREAM]]",
        "FILE --cell SHEET CELL [--room N] [--template T]",
    ],
    operands: Operands::AtLeast(&["FILE"]),
    words: &[],
    options: &[
        TEMPLATE,
        Setting::with(
            "--of",
            "STREAM",
            "with --template: whose index INDEX is, session or template; session where this isn't given",
        ),
        Setting::alone(
            "--cell",
            "the text that a cell's formula has for its result: SHEET is a number from 0 or a name, CELL an address like B12, or a row and a column counted from 0",
        ),
        Setting::with(
            "--room",
            "N",
            "how many units there is room for, 65,535 where this isn't given; a longer string is refused with 12",
        ),
    ],
    examples: &[
        ("vaigunthe fetch session.bin 1", "the second string of the table"),
        (
            "vaigunthe fetch results.bin --cell 0 B4",
            "the text that the formula in B4 of the first sheet came to",
        ),
        (
            "vaigunthe fetch day.bin 1 --template template.bin",
            "what the session's index 1 means, in its own table or in the template's",
        ),
    ],
    details: "\
Gives the string at this index of the table, or the text of a formula's result:
  units N XXXX XXXX ...          its N units, four hex digits each
  refused N at O
Of several cells at one address the first listed is meant. A cell that is no
formula with a text for its result is refused with 11; the text of a text cell
is a shared string.

With a template 'session' or 'template' stands before the units: whose table the
string is in, or whose sheet the cell. An index of the session means a string of
its own table if it has one, even an empty one, else of the template's.
",
    run: fetch,
};

/// Checks what is read, and has what it holds written where it passes: data, so that standard output has nothing where it does not.
fn answer(
    arguments: &Arguments,
    out: &mut Output,
    write: fn(&Checked<'_>, &mut Output) -> io::Result<()>,
) -> Result<Status, Failure> {
    let source = Source::read(arguments)?;
    match source.check() {
        Ok(checked) => {
            write(&checked, out)?;
            Ok(Status::Answered)
        }
        Err(refused) => Ok(source.explain(refused)),
    }
}

/// A refusal is a line of the program's, so it stands where the others would.
fn list(arguments: &Arguments, out: &mut Output) -> Result<Status, Failure> {
    let source = Source::read(arguments)?;
    match source.check() {
        Ok(checked) => {
            write_list(&checked, out)?;
            Ok(Status::Answered)
        }
        Err(refused) => source.refuse(refused, out),
    }
}

/// The lines of the program; with a template some say whose they are.
fn write_list(checked: &Checked<'_>, out: &mut Output) -> io::Result<()> {
    let of = |whose| match checked.named(whose) {
        Some(whose) => format!(" of {whose}"),
        None => String::new(),
    };
    let (sheets, cells) = (checked.sheet_count(), checked.count_cells());
    let (table, strings) = (of(checked.table()), checked.string_count(checked.table()));
    writeln!(
        out,
        "sheets {sheets} strings {strings}{table} cells {cells}"
    )?;
    for (number, (whose, sheet)) in checked.sheets().enumerate() {
        writeln!(out, "sheet {number} rows {}{}", sheet.rows(), of(whose))?;
        for cell in sheet.cells() {
            writeln!(out, "{cell}")?;
        }
    }
    Ok(())
}

fn sheets(arguments: &Arguments, out: &mut Output) -> Result<Status, Failure> {
    answer(arguments, out, write_sheets)
}

/// A word before what is of this stream, with a tab between; nothing where there is only one.
fn field(checked: &Checked<'_>, whose: Whose) -> String {
    match checked.named(whose) {
        Some(whose) => format!("{whose}\t"),
        None => String::new(),
    }
}

fn write_sheets(checked: &Checked<'_>, out: &mut Output) -> io::Result<()> {
    for (number, (whose, sheet)) in checked.sheets().enumerate() {
        writeln!(
            out,
            "{number}\t{}{}\t{}\t{}\t{}",
            field(checked, whose),
            type_name(sheet.kind),
            sheet.rows(),
            sheet.cells().count(),
            InLine(&sheet.name_units().collect::<Vec<_>>())
        )?;
    }
    Ok(())
}

/// The type of a sheet in a word.
pub fn type_name(kind: SheetKind) -> &'static str {
    match kind {
        SheetKind::Worksheet => "worksheet",
        SheetKind::Macro => "macro",
        SheetKind::Chart => "chart",
    }
}

fn strings(arguments: &Arguments, out: &mut Output) -> Result<Status, Failure> {
    answer(arguments, out, write_strings)
}

fn write_strings(checked: &Checked<'_>, out: &mut Output) -> io::Result<()> {
    write_strings_of(checked, Whose::Session, out)?;
    match checked {
        Checked::Alone(_) => Ok(()),
        Checked::Over(_) => write_strings_of(checked, Whose::Template, out),
    }
}

fn write_strings_of(checked: &Checked<'_>, whose: Whose, out: &mut Output) -> io::Result<()> {
    let field = field(checked, whose);
    let mut strings = checked.strings(whose);
    let mut index = 0;
    while let Some(units) = strings.next_units() {
        writeln!(out, "{field}{index}\t{}", InLine(units))?;
        index += 1;
    }
    Ok(())
}

/// What is to be fetched.
enum Fetched {
    /// The shared string that this index of a stream means.
    Shared(Whose, u32),
    /// The text of this cell's formula.
    OfCell(Wanted, Address),
}

impl Fetched {
    fn of(arguments: &Arguments) -> Result<Self, Failure> {
        let words = &arguments.operands()[1..];
        if arguments.has("--of") && (arguments.has("--cell") || !arguments.has(TEMPLATE.name)) {
            let message = "--of is for the index of a session over its --template";
            return Err(Failure::usage(message));
        }
        let (fetched, rest) = match words {
            _ if !arguments.has("--cell") => {
                let (index, rest) = words.split_first().ok_or(missing("INDEX"))?;
                let asked = asked(arguments)?;
                (Fetched::Shared(asked, whole("INDEX", index)?), rest)
            }
            [] => return Err(missing("SHEET")),
            [sheet, words @ ..] => {
                let sheet = Wanted::read("SHEET", sheet)?;
                let (cell, rest) = Address::take(words)?;
                (Fetched::OfCell(sheet, cell), rest)
            }
        };
        match rest {
            [] => Ok(fetched),
            [extra, ..] => Err(too_many(extra)),
        }
    }

    fn fetch(
        &self,
        source: &Source<'_>,
        buffer: &mut [u16],
    ) -> Result<(Option<Whose>, usize), Refused> {
        match self {
            Fetched::Shared(asked, index) => source.fetch(*asked, *index, buffer),
            Fetched::OfCell(sheet, Address { row, column }) => {
                let sheet = match sheet {
                    Wanted::Number(number) => *number,
                    Wanted::Name(_) => sheet.number(&source.check()?),
                };
                source.text((sheet, *row, *column), buffer)
            }
        }
    }

    /// What a refusal can't say: that it is the sheet that is absent.
    fn explain(&self, source: &Source<'_>) {
        let Fetched::OfCell(sheet, _) = self else {
            return;
        };
        let checked = source.check().ok();
        if let Some(note) = checked.and_then(|checked| sheet.note(&checked)) {
            source.note(note);
        }
    }
}

/// Whose index is asked for.
fn asked(arguments: &Arguments) -> Result<Whose, Failure> {
    match arguments.option("--of") {
        None => Ok(Whose::Session),
        Some(word) if word == "session" => Ok(Whose::Session),
        Some(word) if word == "template" => Ok(Whose::Template),
        Some(word) => Err(Failure::usage(format!(
            "--of is session or template, not '{}'",
            Word(word)
        ))),
    }
}

fn fetch(arguments: &Arguments, out: &mut Output) -> Result<Status, Failure> {
    let fetched = Fetched::of(arguments)?;
    let room = arguments.number_option("--room")?;
    let source = Source::read(arguments)?;
    // More room than the longest string takes changes no answer.
    let room = room.map_or(LONGEST_STRING, |room| LONGEST_STRING.min(room as usize));
    let mut buffer = vec![0; room];
    match fetched.fetch(&source, &mut buffer) {
        Ok((whose, count)) => {
            if let Some(whose) = whose {
                write!(out, "{whose} ")?;
            }
            write_units(&buffer[..count], out)?;
            Ok(Status::Answered)
        }
        Err(refused) => {
            let status = source.refuse(refused, out)?;
            fetched.explain(&source);
            Ok(status)
        }
    }
}

fn write_units(units: &[u16], out: &mut Output) -> io::Result<()> {
    write!(out, "units {}", units.len())?;
    for unit in units {
        write!(out, " {unit:04X}")?;
    }
    writeln!(out)
}
