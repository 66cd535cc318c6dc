//! profile: whether files are sessions as sensors write them, and what breaks one that isn't.

use crate::arguments::{Arguments, Operands};
use crate::commands::Command;
use crate::files::{say_each, Said};
use crate::lines::type_name;
use crate::outcome::{Failure, Output, Status};
use station::{Cell, Refusal, Sheet, SheetKind, Value};

pub const PROFILE: Command = Command {
    name: "profile",
    about: "say of each file whether it is a session as sensors write it",
    usage: &["FILE..."],
    operands: Operands::Several("FILE"),
    words: &[],
    options: &[],
    examples: &[
        ("vaigunthe profile ride.bin", "one file"),
        (
            "vaigunthe profile sessions/*.bin | grep -v ': a session'",
            "all that are none, and what breaks each",
        ),
    ],
    details: "\
A session has one sheet, a worksheet, with rows from 0 on without a gap:
  column 0   event ticks from 0 to 65,535, in 1/1024 of a second
  column 1   turns, from 0 to 65,535
  column 2   in all rows or in none: whole seconds of the host, from 0 to
             4,294,967,295, which never fall
and no other cell. All are whole numbers in NUMBER, RK or MULRK records, by row
and then by column, each address once. A worksheet without cells is a session.

A line for each file, in the order given:
  FILE: a session, R rows, C columns
  FILE: refused N at O: what that means
With 20 come the record that broke it and the cell before it, or, at 0, what is
wrong with the sheets or the last row. Rows and columns are counted from 0. The
status is 1 where one is refused, and 2 where one can't be read; the others are
answered all the same.
",
    run,
};

fn run(arguments: &Arguments, out: &mut Output) -> Result<Status, Failure> {
    say_each(arguments, out, say)
}

fn say(stream: &[u8]) -> Said {
    match station::profile(stream) {
        Ok(held) => Ok(format!(
            "a session, {} rows, {} columns",
            held.rows, held.columns
        )),
        Err(refusal) => Err(explained(stream, refusal)),
    }
}

/// What a refusal means and, where the stream is no session, what breaks it.
pub fn explained(stream: &[u8], refusal: Refusal) -> String {
    let broken = match refusal.number {
        OUTSIDE => broken(stream, refusal.offset),
        _ => None,
    };
    match broken {
        Some(broken) => format!("{refusal}: {broken}"),
        None => refusal.to_string(),
    }
}

/// The refusal of a stream that is no session.
pub const OUTSIDE: u8 = 20;

/// What stands at the offset of that refusal. No record of a sheet stands at 0: there no cell is at fault.
fn broken(stream: &[u8], offset: usize) -> Option<String> {
    let workbook = station::check(stream).ok()?;
    let sheet = workbook.sheets().next();
    match (workbook.sheets, sheet) {
        (1, Some(sheet)) if sheet.kind != SheetKind::Worksheet => {
            Some(format!("the sheet is a {} sheet", type_name(sheet.kind)))
        }
        (1, Some(sheet)) if offset == 0 => short_row(&sheet),
        (1, Some(sheet)) => record(stream, offset, &sheet),
        (0, _) => Some("there is no sheet".to_string()),
        (sheets, _) => Some(format!("there are {sheets} sheets")),
    }
}

/// The last row lacks a column.
fn short_row(sheet: &Sheet<'_>) -> Option<String> {
    let last = sheet.cells().last()?;
    Some(format!(
        "row {}, the last, ends with column {}",
        last.row(),
        last.column()
    ))
}

/// How many numbers of a record are told.
const TOLD: usize = 3;

/// The record at this offset with its cells, and the cell before it.
fn record(stream: &[u8], offset: usize, sheet: &Sheet<'_>) -> Option<String> {
    let header: &[u8; 4] = stream.get(offset..)?.first_chunk()?;
    let [low, high, size_low, size_high] = *header;
    let name = name(u16::from_le_bytes([low, high]))?;
    let end = offset + 4 + usize::from(u16::from_le_bytes([size_low, size_high]));
    let mut before = None;
    let mut cells = Vec::new();
    for cell in sheet.cells().take_while(|cell| cell.field() < end) {
        if cell.field() < offset {
            before = Some(cell);
        } else {
            cells.push(cell);
        }
    }
    let (first, last) = (cells.first()?, cells.last()?);
    let columns = match first.column() == last.column() {
        true => format!("column {}", first.column()),
        false => format!("columns {} to {}", first.column(), last.column()),
    };
    let before = match before {
        Some(cell) => format!(
            "before it row {}, column {}{}",
            cell.row(),
            cell.column(),
            numbers(&[cell])
        ),
        None => "the first cell".to_string(),
    };
    Some(format!(
        "{name} with row {}, {columns}{}; {before}",
        first.row(),
        numbers(&cells)
    ))
}

/// The name of a cell record.
fn name(kind: u16) -> Option<&'static str> {
    Some(match kind {
        0x0201 => "BLANK",
        0x0203 => "NUMBER",
        0x027E => "RK",
        0x00FD => "LABELSST",
        0x0205 => "BOOLERR",
        0x00BD => "MULRK",
        0x00BE => "MULBLANK",
        0x0006 => "FORMULA",
        _ => return None,
    })
}

/// The numbers of cells, where they hold any, after a colon.
fn numbers(cells: &[Cell]) -> String {
    let mut words: Vec<_> = cells.iter().filter_map(number).take(TOLD + 1).collect();
    if words.len() > TOLD {
        words[TOLD] = "…".to_string();
    }
    match &words[..] {
        [] => String::new(),
        words => format!(": {}", words.join(", ")),
    }
}

fn number(cell: &Cell) -> Option<String> {
    let Value::Number(bits) = cell.value() else {
        return None;
    };
    let number = f64::from_bits(bits);
    // The long ones with an exponent.
    Some(
        match number.abs() < 1e15 && number.abs() > 1e-5 || number == 0.0 {
            true => number.to_string(),
            false => format!("{number:?}"),
        },
    )
}
