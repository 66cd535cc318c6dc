//! A sheet as a table with heads for its rows and columns, or its first rows.

use super::limits::Limits;
use super::marks::Mark;
use super::tracks::{tracks, Track, FEW};
use super::value;
use crate::address::letters;
use crate::bits::Bits;
use crate::book::{Book, BookSheet};
use crate::figures::{counted, grouped};
use station::pair::Whose;
use station::{Cell, Sheet};
use std::collections::BTreeMap;
use std::io::{self, Write};

/// No sheet has more rows or columns.
const ROWS: usize = 65_536;
const COLUMNS: usize = 256;

/// From so many columns on a grid is wider than a page that stands upright, and than one that lies.
const WIDE: usize = 9;
const WIDEST: usize = 18;

/// So many lines make a part of a long grid: a browser sets a part when it comes into view, where a single table of 65,536 rows would take seconds.
const LINES: usize = 1_000;

/// How far the writing of a grid has come: the shown rows that stand there, and how much more may be spent.
struct Written {
    rows: usize,
    left: usize,
}

/// The rows of a sheet that are shown, with one cell for an address: of several the last listed.
pub struct Grid<'g, 'a> {
    book: &'g Book<'a>,
    whose: Whose,
    limits: &'g Limits,
    /// All rows with a cell or a mark.
    filled: Vec<usize>,
    /// Those that are shown.
    shown: Vec<usize>,
    columns: Vec<Track>,
    cells: Vec<Cell>,
    /// For each address of the shown rows the number of its cell from 1, or 0.
    places: Vec<u32>,
    width: usize,
    marks: BTreeMap<(usize, usize), Vec<&'g Mark>>,
}

fn row(cell: &Cell) -> usize {
    usize::from(cell.row())
}

fn column(cell: &Cell) -> usize {
    usize::from(cell.column() & 0xFF)
}

impl<'g, 'a> Grid<'g, 'a> {
    pub fn of(
        book: &'g Book<'a>,
        page: &BookSheet<'_>,
        marks: impl Iterator<Item = &'g Mark>,
        limits: &'g Limits,
    ) -> Self {
        let mut by_address = BTreeMap::<_, Vec<_>>::new();
        for mark in marks {
            match mark.address {
                Some((row, column)) if row < ROWS && column < COLUMNS => {
                    by_address.entry((row, column)).or_default().push(mark);
                }
                // What lies outside every sheet has no place in a grid, and neither has a name.
                _ => {}
            }
        }
        let (filled, width) = survey(&page.sheet, by_address.keys());
        let mut grid = Grid {
            book,
            whose: page.whose,
            limits,
            shown: first_and_marked(&filled, &by_address, limits),
            filled,
            columns: Vec::new(),
            cells: Vec::new(),
            places: Vec::new(),
            width,
            marks: by_address,
        };
        grid.take_cells(&page.sheet);
        grid.columns = grid.used_columns();
        grid
    }

    fn take_cells(&mut self, sheet: &Sheet<'_>) {
        self.places = vec![0; self.shown.len() * self.width];
        sheet.cells().for_each(|cell| {
            let Ok(line) = self.shown.binary_search(&row(&cell)) else {
                return;
            };
            match &mut self.places[line * self.width + column(&cell)] {
                place @ 0 => {
                    self.cells.push(cell);
                    *place = self.cells.len() as u32;
                }
                place => self.cells[*place as usize - 1] = cell,
            }
        });
    }

    /// The columns that have something to show in the shown rows, and what lies between.
    fn used_columns(&self) -> Vec<Track> {
        let mut used = Bits::none(COLUMNS);
        for cell in &self.cells {
            used.put(column(cell), true);
        }
        for (row, column) in self.marks.keys() {
            if self.shown.binary_search(row).is_ok() {
                used.put(*column, true);
            }
        }
        tracks(used.numbers())
    }

    /// By this class it is set on paper. A long sensor's session, which has no wide cell, is set in columns.
    pub fn class(&self, is_session: bool) -> Option<&'static str> {
        match self.columns.len() {
            0..WIDE if is_session && self.marks.is_empty() && self.shown.len() > LINES => {
                Some("columns")
            }
            0..WIDE => None,
            WIDE..WIDEST => Some("wide"),
            _ => Some("widest"),
        }
    }

    /// Whether there is a cell or a mark.
    pub fn has_rows(&self) -> bool {
        !self.filled.is_empty()
    }

    /// Writes as many rows as the cost allows, and says what it has left.
    pub fn write<W: Write>(
        &self,
        labelled_by: &str,
        left: usize,
        out: &mut W,
    ) -> io::Result<usize> {
        if self.filled.is_empty() {
            out.write_all(b"<p>No cells.</p>\n")?;
            return Ok(left);
        }
        if left == 0 {
            self.write_rest(0, out)?;
            return Ok(0);
        }
        let lines = tracks(self.shown.iter().copied());
        let class = match lines.len() {
            0..=LINES => "",
            _ => " class=part",
        };
        let mut written = Written { rows: 0, left };
        writeln!(
            out,
            "<div class=\"scroll grid-box\" role=region aria-labelledby={labelled_by} tabindex=0>"
        )?;
        for lines in lines.chunks(LINES) {
            if written.left > 0 {
                write!(
                    out,
                    "<div{class}><table class=grid aria-labelledby={labelled_by}>\n<thead><tr><td>"
                )?;
                self.write_heads(out)?;
                out.write_all(b"</thead>\n<tbody>\n")?;
                self.write_lines(lines, &mut written, out)?;
                out.write_all(b"</tbody></table></div>\n")?;
            }
        }
        out.write_all(b"</div>\n")?;
        self.write_rest(written.rows, out)?;
        Ok(written.left)
    }

    fn write_heads<W: Write>(&self, out: &mut W) -> io::Result<()> {
        for track in &self.columns {
            let letters = |column: usize| letters(column as u32);
            match *track {
                Track::One(column) => write!(out, "<th scope=col>{}", letters(column))?,
                Track::Gap { first, last } => {
                    write!(out, "<th scope=col>{}–{}", letters(first), letters(last))?;
                }
            }
        }
        Ok(())
    }

    fn write_lines<W: Write>(
        &self,
        lines: &[Track],
        written: &mut Written,
        out: &mut W,
    ) -> io::Result<()> {
        for line in lines {
            match *line {
                _ if written.left == 0 => break,
                Track::Gap { first, last } => self.write_gap(first, last, out)?,
                Track::One(row) => {
                    write!(out, "<tr><th scope=row>{}", row + 1)?;
                    if self.shown.get(written.rows) == Some(&row) {
                        let cost = self.write_row(row, written.rows, out)?;
                        written.rows += 1;
                        written.left = written.left.saturating_sub(cost);
                    } else {
                        write_missing(self.columns.len(), out)?;
                    }
                    out.write_all(b"\n")?;
                }
            }
        }
        Ok(())
    }

    /// A row that is shown: its cells, and one field for all neighbours without one.
    fn write_row<W: Write>(&self, row: usize, line: usize, out: &mut W) -> io::Result<usize> {
        let places = &self.places[line * self.width..][..self.width];
        let (mut missing, mut cost) = (0, 0);
        for track in &self.columns {
            let found = match *track {
                Track::One(column) => {
                    let cell = (places[column] as usize).checked_sub(1);
                    let marks = self
                        .marks
                        .get(&(row, column))
                        .map_or(&[][..], Vec::as_slice);
                    (cell.map(|number| &self.cells[number]), marks)
                }
                Track::Gap { .. } => (None, &[][..]),
            };
            match found {
                (None, []) => missing += 1,
                (cell, marks) => {
                    write_missing(missing, out)?;
                    missing = 0;
                    cost += value::write((self.book, self.whose), cell, marks, self.limits, out)?;
                }
            }
        }
        write_missing(missing, out)?;
        Ok(cost)
    }

    /// One line for rows without cells, or for those that are left out.
    fn write_gap<W: Write>(&self, first: usize, last: usize, out: &mut W) -> io::Result<()> {
        let from = self.filled.partition_point(|row| *row < first);
        let to = self.filled.partition_point(|row| *row <= last);
        let what = match to - from {
            0 => "no cells".to_string(),
            some => counted(some, "row not shown", "rows not shown"),
        };
        let (first, last) = (first + 1, last + 1);
        let columns = self.columns.len();
        writeln!(
            out,
            "<tr class=gap><th scope=row>{first}–{last}<td colspan={columns}>{what}"
        )
    }

    /// How many rows there are beside those that were written.
    fn write_rest<W: Write>(&self, written: usize, out: &mut W) -> io::Result<()> {
        match self.filled.len() - written {
            0 => Ok(()),
            rest => writeln!(
                out,
                "<p class=note>{} of {} are not shown here; <code>--full</code> shows all.</p>",
                grouped(rest as f64, 0),
                counted(self.filled.len(), "row with cells", "rows with cells")
            ),
        }
    }
}

/// The rows with a cell or a mark, in order, and how many columns there are up to the last of them.
fn survey<'m>(
    sheet: &Sheet<'_>,
    marks: impl Iterator<Item = &'m (usize, usize)>,
) -> (Vec<usize>, usize) {
    let mut rows = Bits::none(ROWS);
    let mut width = 0;
    let mut take = |row: usize, column: usize| {
        rows.put(row, true);
        width = width.max(column + 1);
    };
    sheet
        .cells()
        .for_each(|cell| take(row(&cell), column(&cell)));
    marks.for_each(|(row, column)| take(*row, *column));
    (rows.numbers().collect(), width)
}

/// The first rows, and after them those that have a mark, as many as there are lines for in a table of marks.
fn first_and_marked(
    filled: &[usize],
    marks: &BTreeMap<(usize, usize), Vec<&Mark>>,
    limits: &Limits,
) -> Vec<usize> {
    let mut shown: Vec<_> = filled.iter().copied().take(limits.rows).collect();
    let last = shown.last().copied();
    let mut marked: Vec<_> = marks.keys().map(|(row, _)| *row).collect();
    marked.dedup();
    marked.retain(|row| Some(*row) > last);
    for row in marked.into_iter().take(limits.marks) {
        let next = shown.last().map_or(0, |last| last + 1);
        // Where few rows lie between they stand there one by one, with their cells.
        if row - next <= FEW {
            let from = filled.partition_point(|row| *row < next);
            shown.extend(filled[from..].iter().take_while(|between| **between < row));
        }
        shown.push(row);
    }
    shown
}

/// One field for neighbours without a cell.
fn write_missing<W: Write>(count: usize, out: &mut W) -> io::Result<()> {
    match count {
        0 => Ok(()),
        1 => out.write_all(b"<td class=o>"),
        _ => write!(out, "<td class=o colspan={count}>"),
    }
}
