//! JSON: one object with the sheets, and a line for each cell.

use super::Listing;
use crate::address::Address;
use crate::book::{Book, BookSheet, Number, Shown};
use crate::lines::type_name;
use crate::text::InJson;
use station::pair::Whose;
use station::Cell;
use std::io::{self, Write};

pub fn write<W: Write>(book: &Book<'_>, listing: Listing, out: &mut W) -> io::Result<()> {
    write!(out, "{{\"sheets\":[")?;
    let mut separator = "\n";
    for page in book.sheets() {
        write!(out, "{separator}")?;
        write_sheet(book, listing, &page, out)?;
        separator = ",\n";
    }
    writeln!(out, "\n]}}")
}

fn write_sheet<W: Write>(
    book: &Book<'_>,
    listing: Listing,
    BookSheet {
        number,
        whose,
        sheet,
    }: &BookSheet<'_>,
    out: &mut W,
) -> io::Result<()> {
    write!(
        out,
        "{{\"number\":{number},\"name\":{},\"type\":\"{}\",\"rows\":{}",
        InJson(&sheet.name_units().collect::<Vec<_>>()),
        type_name(sheet.kind),
        sheet.rows()
    )?;
    if book.is_pair() {
        write!(out, ",\"stream\":\"{whose}\"")?;
    }
    write!(out, ",\"cells\":[")?;
    let mut separator = "\n";
    for cell in sheet.cells() {
        if cell.is_blank() && !listing.blanks {
            continue;
        }
        write!(out, "{separator}")?;
        write_cell(book, listing, (*whose, &cell), out)?;
        separator = ",\n";
    }
    write!(out, "\n]}}")
}

fn write_cell<W: Write>(
    book: &Book<'_>,
    listing: Listing,
    (whose, cell): (Whose, &Cell),
    out: &mut W,
) -> io::Result<()> {
    let (kind, shown) = book.shown(whose, cell);
    match listing.letters {
        true => write!(out, "{{\"cell\":\"{}\"", Address::of(cell))?,
        false => {
            let (row, column) = (cell.row(), cell.column());
            write!(out, "{{\"row\":{row},\"column\":{column}")?;
        }
    }
    write!(out, ",\"kind\":\"{kind}\",\"value\":")?;
    write_value(&shown, out)?;
    if let Shown::Date(_, bits) = shown {
        write!(out, ",\"serial\":{}", Number(bits))?;
    }
    if listing.places {
        let (format, offset) = (cell.format(), cell.field());
        write!(out, ",\"format\":{format},\"offset\":{offset}")?;
    }
    if let Some(tokens) = book.tokens(whose, cell) {
        write!(out, ",\"tokens\":\"")?;
        for byte in tokens {
            write!(out, "{byte:02X}")?;
        }
        write!(out, "\"")?;
    }
    write!(out, "}}")
}

/// What a cell shows, as a JSON value.
pub fn write_value<W: Write>(shown: &Shown<'_>, out: &mut W) -> io::Result<()> {
    match *shown {
        Shown::Nothing => write!(out, "null"),
        Shown::Number(bits) if Number(bits).is_decimal() => write!(out, "{}", Number(bits)),
        Shown::Number(bits) => write!(out, "\"{}\"", Number(bits)),
        Shown::Date(ref date, _) => write!(out, "\"{date}\""),
        Shown::Text(ref units) => write!(out, "{}", InJson(units)),
        Shown::Truth(truth) => write!(out, "{truth}"),
        Shown::Error(name) => write!(out, "\"{name}\""),
    }
}
