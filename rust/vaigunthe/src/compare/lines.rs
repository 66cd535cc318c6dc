//! A line for each difference, as people read it: `Sheet1!B12  72.5 -> 75`.

use super::changes::{Between, Change, Held};
use super::colour::Colour;
use crate::address::Address;
use crate::book::{Number, Shown};
use crate::outcome::Output;
use crate::text::{InLine, Quoted};
use std::fmt::{self, Display, Formatter};
use std::io::{self, Write};

pub fn write<'r>(
    changes: impl Iterator<Item = Change<'r>>,
    colour: Colour,
    out: &mut Output,
) -> io::Result<()> {
    let mut differ = false;
    for change in changes {
        differ = true;
        match &change.between {
            Between::Names(old, new) => {
                let (old, new) = (colour.in_old(Quoted(old)), colour.in_new(Quoted(new)));
                writeln!(out, "sheet {}  {old} -> {new}", change.difference.sheet)?;
            }
            Between::Cells(old, new) => {
                let (old, new) = (colour.in_old(Value(old)), colour.in_new(Value(new)));
                writeln!(out, "{}  {old} -> {new}", Place(&change))?;
            }
        }
    }
    if !differ {
        writeln!(out, "no differences")?;
    }
    Ok(())
}

/// Sheet and address, as a formula names them.
struct Place<'c>(&'c Change<'c>);

impl Display for Place<'_> {
    fn fmt(&self, f: &mut Formatter<'_>) -> fmt::Result {
        write_sheet(f, &self.0.sheet)?;
        match self.0.difference.kind.address() {
            Some((row, column)) => {
                let (row, column) = (row.into(), column.into());
                write!(f, "!{}", Address { row, column })
            }
            None => Ok(()),
        }
    }
}

/// The name of a sheet, in single quotes where it isn't a plain word; a quote in it is doubled.
fn write_sheet(f: &mut Formatter<'_>, name: &[u16]) -> fmt::Result {
    let name = InLine(name).to_string();
    let is_word = |character: char| character.is_alphanumeric() || "_.".contains(character);
    let starts_with_figure = name.starts_with(|first: char| first.is_numeric());
    match name.chars().all(is_word) && !starts_with_figure && !name.is_empty() {
        true => f.write_str(&name),
        false => write!(f, "'{}'", name.replace('\'', "''")),
    }
}

/// What a cell holds: no two unequal values look the same.
pub struct Value<'h, 'r>(pub &'h Option<Held<'r>>);

impl Display for Value<'_, '_> {
    fn fmt(&self, f: &mut Formatter<'_>) -> fmt::Result {
        let Some(held) = self.0 else {
            return f.write_str("(absent)");
        };
        if held.kind.starts_with("formula ") {
            f.write_str("=")?;
        }
        match held.shown {
            _ if held.kind == "formula empty" => f.write_str("(empty)"),
            Shown::Nothing => f.write_str("(blank)"),
            Shown::Number(bits) | Shown::Date(_, bits) => Number(bits).fmt(f),
            Shown::Text(ref units) => Quoted(units).fmt(f),
            Shown::Truth(truth) => truth.fmt(f),
            Shown::Error(name) => f.write_str(name),
        }
    }
}
