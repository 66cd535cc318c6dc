//! A sheet as a CSV with its rows and columns.

use super::csv::write_shown;
use crate::bits::Bits;
use crate::book::{Book, BookSheet, Shown};
use station::pair::Whose;
use station::{Cell, Sheet};
use std::io::{self, Write};

/// The cells of a sheet by row and column, one for an address. There are as many as the sheet has, however far apart they lie.
pub struct Grid<'b, 'a> {
    book: &'b Book<'a>,
    whose: Whose,
    cells: Vec<Cell>,
    rows: usize,
    columns: usize,
}

/// No row has more columns.
const COMMAS: [u8; 256] = [b','; 256];

/// The number of a cell's address.
fn address(cell: &Cell) -> usize {
    usize::from(cell.row()) << 8 | usize::from(cell.column() & 0xFF)
}

/// How many fields a sheet's grid has at most.
pub fn most_fields(sheet: &Sheet<'_>) -> usize {
    let values = sheet.cells().filter(|cell| !cell.is_blank());
    let (rows, columns) = values.fold((0, 0), |(rows, columns), cell| {
        let (row, column) = (usize::from(cell.row()), usize::from(cell.column()));
        (rows.max(row + 1), columns.max(column + 1))
    });
    rows * columns
}

impl<'b, 'a> Grid<'b, 'a> {
    /// Of several cells at one address the last listed stays.
    pub fn of(book: &'b Book<'a>, page: &BookSheet<'_>) -> Self {
        let mut cells = Vec::new();
        // By these addresses a blank is kept only where it covers a value: a stream has room for millions that don't.
        let mut values = Bits::none(65_536 * 256);
        page.sheet.cells().for_each(|cell| {
            let covers = values.put(address(&cell), !cell.is_blank());
            if covers || !cell.is_blank() {
                cells.push(cell);
            }
        });
        let place = |cell: &Cell| (cell.row(), cell.column());
        // Listed later is still later among those of one address.
        cells.sort_by_key(place);
        cells.dedup_by(|later, kept| {
            let same = place(later) == place(kept);
            if same {
                *kept = *later;
            }
            same
        });
        cells.retain(|cell| !cell.is_blank());
        let rows = cells.last().map_or(0, |cell| usize::from(cell.row()) + 1);
        let columns = cells
            .iter()
            .map(|cell| usize::from(cell.column()) + 1)
            .max();
        Grid {
            book,
            whose: page.whose,
            cells,
            rows,
            columns: columns.unwrap_or(0),
        }
    }

    pub fn write<W: Write>(&self, out: &mut W) -> io::Result<()> {
        let mut rest = &self.cells[..];
        for row in 0..self.rows {
            let here = |cell: &Cell| usize::from(cell.row()) == row;
            let count = rest.iter().take_while(|cell| here(cell)).count();
            let (cells, after) = rest.split_at(count);
            self.write_row(cells, out)?;
            rest = after;
        }
        Ok(())
    }

    fn write_row<W: Write>(&self, cells: &[Cell], out: &mut W) -> io::Result<()> {
        let mut column = 0;
        for cell in cells {
            let next = usize::from(cell.column());
            out.write_all(&COMMAS[..next - column])?;
            column = next;
            let (_, shown) = self.book.shown(self.whose, cell);
            self.write_field(&shown, out)?;
        }
        if cells.is_empty() {
            self.write_field(&Shown::Nothing, out)?;
        }
        out.write_all(&COMMAS[..self.columns - 1 - column])?;
        out.write_all(b"\r\n")
    }

    /// In a single column an empty field is a pair of quotes: many readers pass over an empty line.
    fn write_field<W: Write>(&self, shown: &Shown<'_>, out: &mut W) -> io::Result<()> {
        match shown {
            Shown::Nothing if self.columns == 1 => out.write_all(b"\"\""),
            Shown::Text(text) if text.is_empty() && self.columns == 1 => out.write_all(b"\"\""),
            shown => write_shown(shown, out),
        }
    }
}
