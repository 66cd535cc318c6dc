//! The entries of a journal, as they are shown.

use crate::address::Address;
use crate::arguments::Arguments;
use crate::book::Shown;
use crate::errors;
use crate::export::{field, write_shown, write_value};
use crate::outcome::{Failure, Output};
use crate::report::{Mark, Marked, Reason};
use crate::source::Checked;
use crate::text::{InJson, InLine};
use station::journal::{Entries, Entry, Journal, Old};
use station::NewValue;
use std::io::{self, Write};

/// What a journal itself doesn't have: the names of the sheets, and the texts.
pub struct Names {
    sheets: Vec<Vec<u16>>,
    strings: Vec<Vec<u16>>,
}

impl Names {
    /// The names of all sheets, and the strings that the session's indices mean.
    pub fn of(checked: &Checked<'_>) -> Self {
        let sheets = checked.sheets().map(|(_, sheet)| sheet.name_units());
        Names {
            sheets: sheets.map(Iterator::collect).collect(),
            strings: checked.strings(checked.table()).collect(),
        }
    }
}

/// Words of the tool in the place of a text.
fn words(words: String) -> Shown<'static> {
    Shown::Text(words.encode_utf16().collect::<Vec<_>>().into())
}

fn number(bits: u64) -> Shown<'static> {
    Shown::Number(bits)
}

/// What an RK word means.
fn unpacked(word: u32) -> u64 {
    let number = match word & 2 {
        0 => f64::from_bits(u64::from(word & !3) << 32),
        _ => f64::from(word as i32 >> 2),
    };
    match word & 1 {
        0 => number.to_bits(),
        _ => (number / 100.0).to_bits(),
    }
}

fn text(index: u32, names: Option<&Names>) -> Shown<'_> {
    let known = names.and_then(|names| names.strings.get(index as usize));
    match known {
        Some(units) => Shown::Text(units.into()),
        None => words(format!("index:{index}")),
    }
}

/// Of a forged entry it may be none.
fn truth(truth: u8) -> Shown<'static> {
    match truth {
        0 | 1 => Shown::Truth(truth == 1),
        _ => words(format!("truth:{truth}")),
    }
}

fn error(code: u8) -> Shown<'static> {
    match errors::code(errors::name(code)) == Some(code) {
        true => Shown::Error(errors::name(code)),
        false => words(format!("error:{code:02X}")),
    }
}

/// What a cell held.
fn old<'n>(entry: &Entry<'_>, names: Option<&'n Names>) -> Shown<'n> {
    match entry.old_value() {
        Some(Old::Number(bits)) => number(bits),
        Some(Old::Packed(word)) => number(unpacked(word)),
        Some(Old::Text(index)) => text(index, names),
        Some(Old::Truth(byte)) => truth(byte),
        Some(Old::Error(code)) => error(code),
        None => Shown::Nothing,
    }
}

/// The kind of the new value, and what it shows.
fn new<'n>(entry: &Entry<'_>, names: Option<&'n Names>) -> (&'static str, Shown<'n>) {
    match entry.new_value() {
        Some(NewValue::Number(value)) => ("number", number(value.to_bits())),
        Some(NewValue::Text(index)) => ("text", text(index, names)),
        Some(NewValue::Truth(byte)) => ("truth", truth(byte)),
        Some(NewValue::Error(code)) => ("error", error(code)),
        None => ("", Shown::Nothing),
    }
}

fn address(entry: &Entry<'_>) -> Address {
    Address {
        row: entry.row().into(),
        column: entry.column().into(),
    }
}

/// How entries are written.
#[derive(Clone, Copy)]
pub enum Form {
    Lines,
    Csv,
    Json,
}

impl Form {
    pub fn of(arguments: &Arguments) -> Result<Self, Failure> {
        match (arguments.has("--csv"), arguments.has("--json")) {
            (false, false) => Ok(Form::Lines),
            (true, false) => Ok(Form::Csv),
            (false, true) => Ok(Form::Json),
            (true, true) => Err(Failure::usage("--csv and --json: one is enough")),
        }
    }

    pub fn write(
        self,
        entries: Entries<'_>,
        names: Option<&Names>,
        out: &mut Output,
    ) -> io::Result<()> {
        match self {
            Form::Lines => {}
            Form::Csv => write!(out, "entry,sheet,sheet_name,cell,kind,old,new\r\n")?,
            Form::Json => write!(out, "{{\"entries\":[")?,
        }
        for (number, entry) in entries.enumerate() {
            let name = names.and_then(|names| names.sheets.get(entry.sheet() as usize));
            let shown = Listed {
                number,
                name: name.map(Vec::as_slice),
                old: old(&entry, names),
                new: new(&entry, names),
                entry,
            };
            match self {
                Form::Lines => shown.write_line(out)?,
                Form::Csv => shown.write_csv(out)?,
                Form::Json => shown.write_json(out)?,
            }
        }
        match self {
            Form::Json => writeln!(out, "\n]}}"),
            _ => Ok(()),
        }
    }
}

/// An entry with all that is shown of it.
struct Listed<'n, 'e> {
    number: usize,
    name: Option<&'n [u16]>,
    entry: Entry<'e>,
    old: Shown<'n>,
    new: (&'static str, Shown<'n>),
}

impl Listed<'_, '_> {
    fn write_line(&self, out: &mut Output) -> io::Result<()> {
        let (sheet, cell) = (self.entry.sheet(), address(&self.entry));
        let name = InLine(self.name.unwrap_or_default());
        write!(
            out,
            "{}\t{sheet}\t{name}\t{cell}\t{}",
            self.number, self.new.0
        )?;
        for shown in [&self.old, &self.new.1] {
            out.write_all(b"\t")?;
            match shown {
                Shown::Text(units) => write!(out, "{}", InLine(units))?,
                other => write_shown(other, out)?,
            }
        }
        writeln!(out)
    }

    fn write_csv(&self, out: &mut Output) -> io::Result<()> {
        let (sheet, cell) = (self.entry.sheet(), address(&self.entry));
        let name = field(self.name.unwrap_or_default());
        write!(out, "{},{sheet},{name},{cell},{},", self.number, self.new.0)?;
        write_shown(&self.old, out)?;
        out.write_all(b",")?;
        write_shown(&self.new.1, out)?;
        out.write_all(b"\r\n")
    }

    fn write_json(&self, out: &mut Output) -> io::Result<()> {
        let separator = if self.number == 0 { "\n" } else { ",\n" };
        let (sheet, cell) = (self.entry.sheet(), address(&self.entry));
        let name = match self.name {
            Some(units) => InJson(units).to_string(),
            None => "null".to_string(),
        };
        write!(
            out,
            "{separator}{{\"entry\":{},\"sheet\":{sheet},\"sheet_name\":{name},\"cell\":\"{cell}\",\"kind\":\"{}\",\"old\":",
            self.number, self.new.0
        )?;
        write_value(&self.old, out)?;
        out.write_all(b",\"new\":")?;
        write_value(&self.new.1, out)?;
        out.write_all(b"}")
    }
}

/// The marks of a report: one for each correction, in the order made.
pub fn marks(journal: &Journal<&[u8]>, names: &Names) -> Marked {
    let mark = |entry: Entry<'_>| Mark {
        sheet: entry.sheet() as usize,
        address: Some((entry.row().into(), entry.column().into())),
        old: Some(units(&old(&entry, Some(names)))),
        new: Some(units(&new(&entry, Some(names)).1)),
        reason: Reason::Corrected,
    };
    let mut entries = journal.entries();
    let mut marked = Marked::by(Reason::Corrected);
    marked.take(entries.by_ref().map(mark));
    marked.more = entries.len();
    marked
}

/// What is shown, as characters.
fn units(shown: &Shown<'_>) -> Vec<u16> {
    if let Shown::Text(units) = shown {
        return units.to_vec();
    }
    let mut written = Vec::new();
    // Writing to memory never fails.
    let _ = write_shown(shown, &mut written);
    String::from_utf8_lossy(&written).encode_utf16().collect()
}
