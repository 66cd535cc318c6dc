//! The differences as CSV and JSON, with the kinds and values of export.

use super::changes::{Between, Change, Held};
use crate::export::{field, write_shown, write_value};
use crate::outcome::Output;
use crate::text::InJson;
use std::io::{self, Write};

pub fn write_csv<'r>(
    changes: impl Iterator<Item = Change<'r>>,
    out: &mut Output,
) -> io::Result<()> {
    out.write_all(b"sheet,sheet_name,row,column,difference,old_kind,old,new_kind,new\r\n")?;
    for change in changes {
        let (number, kind) = (change.difference.sheet, change.difference.kind);
        write!(out, "{number},{},", field(&change.sheet))?;
        match kind.address() {
            Some((row, column)) => write!(out, "{row},{column},{}", kind.word())?,
            None => write!(out, ",,{}", kind.word())?,
        }
        match change.between {
            Between::Names(old, new) => write!(out, ",,{},,{}", field(&old), field(&new))?,
            Between::Cells(old, new) => {
                write_fields(&old, out)?;
                write_fields(&new, out)?;
            }
        }
        out.write_all(b"\r\n")?;
    }
    Ok(())
}

/// Kind and value, both empty where there is no cell.
fn write_fields(held: &Option<Held<'_>>, out: &mut Output) -> io::Result<()> {
    match held {
        Some(Held { kind, shown }) => {
            write!(out, ",{kind},")?;
            write_shown(shown, out)
        }
        None => out.write_all(b",,"),
    }
}

pub fn write_json<'r>(
    changes: impl Iterator<Item = Change<'r>>,
    out: &mut Output,
) -> io::Result<()> {
    write!(out, "{{\"differences\":[")?;
    let mut separator = "\n";
    for change in changes {
        write!(out, "{separator}")?;
        write_object(&change, out)?;
        separator = ",\n";
    }
    writeln!(out, "\n]}}")
}

fn write_object(change: &Change<'_>, out: &mut Output) -> io::Result<()> {
    let (number, kind) = (change.difference.sheet, change.difference.kind);
    let name = InJson(&change.sheet);
    write!(out, "{{\"sheet\":{number},\"sheet_name\":{name}")?;
    if let Some((row, column)) = kind.address() {
        write!(out, ",\"row\":{row},\"column\":{column}")?;
    }
    write!(out, ",\"difference\":\"{}\",\"old\":", kind.word())?;
    match &change.between {
        Between::Names(old, new) => write!(out, "{},\"new\":{}", InJson(old), InJson(new))?,
        Between::Cells(old, new) => {
            write_held(old, out)?;
            write!(out, ",\"new\":")?;
            write_held(new, out)?;
        }
    }
    write!(out, "}}")
}

fn write_held(held: &Option<Held<'_>>, out: &mut Output) -> io::Result<()> {
    match held {
        Some(Held { kind, shown }) => {
            write!(out, "{{\"kind\":\"{kind}\",\"value\":")?;
            write_value(shown, out)?;
            write!(out, "}}")
        }
        None => write!(out, "null"),
    }
}
