//! CSV by RFC 4180, cell by cell: a header, and a line for each.

use super::Listing;
use crate::address::Address;
use crate::book::{Book, Number, Shown};
use crate::text::InCsv;
use std::io::{self, Write};

pub fn write<W: Write>(book: &Book<'_>, listing: Listing, out: &mut W) -> io::Result<()> {
    let address = if listing.letters {
        "cell"
    } else {
        "row,column"
    };
    let serial = if book.shows_dates() { ",serial" } else { "" };
    let places = if listing.places { ",format,offset" } else { "" };
    let stream = if book.is_pair() { ",stream" } else { "" };
    write!(
        out,
        "sheet,sheet_name,{address},kind,value{serial}{places}{stream}\r\n"
    )?;
    for page in book.sheets() {
        let (number, whose, sheet) = (page.number, page.whose, page.sheet);
        let name = field(&sheet.name_units().collect::<Vec<_>>());
        for cell in sheet.cells() {
            if cell.is_blank() && !listing.blanks {
                continue;
            }
            let (kind, shown) = book.shown(whose, &cell);
            match listing.letters {
                true => write!(out, "{number},{name},{},{kind},", Address::of(&cell))?,
                false => write!(
                    out,
                    "{number},{name},{},{},{kind},",
                    cell.row(),
                    cell.column()
                )?,
            }
            write_shown(&shown, out)?;
            match shown {
                Shown::Date(_, bits) => write!(out, ",{}", Number(bits))?,
                _ if book.shows_dates() => out.write_all(b",")?,
                _ => {}
            }
            if listing.places {
                write!(out, ",{},{}", cell.format(), cell.field())?;
            }
            if book.is_pair() {
                write!(out, ",{whose}")?;
            }
            out.write_all(b"\r\n")?;
        }
    }
    Ok(())
}

/// What a cell shows, as a field.
pub fn write_shown<W: Write>(shown: &Shown<'_>, out: &mut W) -> io::Result<()> {
    match *shown {
        Shown::Nothing => Ok(()),
        Shown::Number(bits) => write!(out, "{}", Number(bits)),
        Shown::Date(ref date, _) => out.write_all(date.as_bytes()),
        Shown::Text(ref units) => out.write_all(field(units).as_bytes()),
        Shown::Truth(truth) => write!(out, "{truth}"),
        Shown::Error(name) => out.write_all(name.as_bytes()),
    }
}

/// Text as a field, in quotes where it needs them.
pub fn field(units: &[u16]) -> String {
    let text = InCsv(units).to_string();
    if text.contains(['"', ',', '\r', '\n']) {
        format!("\"{}\"", text.replace('"', "\"\""))
    } else {
        text
    }
}
