//! What a cell shows, as a field of a table.

use super::limits::Limits;
use super::marks::{write_notes, Mark, Reason};
use crate::book::{Book, Number, Shown};
use crate::figures::counted;
use crate::text::InPage;
use station::pair::Whose;
use station::Cell;
use std::io::{self, Write};

/// What a cell costs beside its characters.
const COST: usize = 8;

/// Writes a cell with its marks and says what it costs. A mark may stand where no cell is.
pub fn write<W: Write>(
    (book, whose): (&Book<'_>, Whose),
    cell: Option<&Cell>,
    marks: &[&Mark],
    limits: &Limits,
    out: &mut W,
) -> io::Result<usize> {
    let shown = cell.map(|cell| book.shown(whose, cell));
    out.write_all(b"<td")?;
    write_classes(shown.as_ref().map(|(_, shown)| shown), marks, out)?;
    match &shown {
        Some((_, Shown::Date(_, bits))) => write!(out, " title=\"serial {}\">", Number(*bits))?,
        Some((_, Shown::Text(_))) => out.write_all(b" dir=auto>")?,
        _ => out.write_all(b">")?,
    }
    let mut cost = COST;
    match &shown {
        Some((kind, shown)) => {
            if let Some(result) = kind.strip_prefix("formula ") {
                write!(out, "<i class=f>\u{192} {result}</i>")?;
            }
            cost += write_shown(shown, limits, out)?;
        }
        None => out.write_all(b"<i>no cell</i>")?,
    }
    cost += write_notes(marks, limits, out)?;
    // White space in a text counts: what comes next is no part of it.
    if let Some((_, Shown::Text(_))) = shown {
        out.write_all(b"</td>")?;
    }
    Ok(cost)
}

/// The class of what is shown, none for a number, and those of the marks.
fn write_classes<W: Write>(
    shown: Option<&Shown<'_>>,
    marks: &[&Mark],
    out: &mut W,
) -> io::Result<()> {
    let class = shown.map_or("k", |shown| match shown {
        Shown::Nothing => "k",
        Shown::Number(_) => "",
        Shown::Date(..) => "d",
        Shown::Text(_) => "t",
        Shown::Truth(_) => "b",
        Shown::Error(_) => "e",
    });
    let mut classes = vec![class];
    for reason in [Reason::Corrected, Reason::Differs] {
        if marks.iter().any(|mark| mark.reason == reason) {
            classes.push(reason.word());
        }
    }
    classes.retain(|class| !class.is_empty());
    match &classes[..] {
        [] => Ok(()),
        [class] => write!(out, " class={class}"),
        classes => write!(out, " class=\"{}\"", classes.join(" ")),
    }
}

fn write_shown<W: Write>(shown: &Shown<'_>, limits: &Limits, out: &mut W) -> io::Result<usize> {
    match shown {
        Shown::Nothing => out.write_all(b"blank")?,
        Shown::Number(bits) => write!(out, "{}", Number(*bits))?,
        Shown::Date(date, _) => out.write_all(date.as_bytes())?,
        Shown::Truth(truth) => write!(out, "{truth}")?,
        Shown::Error(name) => out.write_all(name.as_bytes())?,
        Shown::Text(units) => {
            write_cut(units, limits, out)?;
            return Ok(units.len().min(limits.text));
        }
    }
    Ok(0)
}

/// A text, or its start and how long it is.
pub fn write_cut<W: Write>(units: &[u16], limits: &Limits, out: &mut W) -> io::Result<()> {
    let Some(start) = units.get(..limits.text) else {
        return write!(out, "{}", InPage(units));
    };
    // Between the halves of a character it isn't cut.
    let halved = start.last().is_some_and(|unit| unit & 0xFC00 == 0xD800);
    let start = &start[..start.len() - usize::from(halved)];
    let length = counted(units.len(), "unit", "units of 16 bits");
    write!(out, "{}<i class=f>… {length}</i>", InPage(start))
}
