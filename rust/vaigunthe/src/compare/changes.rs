//! The differences with what both revisions hold there. The values come from one listing of a sheet for many differences, not from a question for each.

use crate::book::{Book, Shown};
use crate::source::Checked;
use station::pair::Whose;
use station::{Cell, Difference, DifferenceKind, Sheet};
use std::iter::Peekable;

/// Two workbooks that were compared.
pub struct Revisions<'a> {
    old: Revision<'a>,
    new: Revision<'a>,
}

struct Revision<'a> {
    book: Book<'a>,
    sheets: Vec<Sheet<'a>>,
}

impl<'a> Revision<'a> {
    fn read(stream: &'a [u8]) -> Self {
        let workbook = station::check(stream).expect("a stream that passed");
        let book = Book::of(Checked::Alone(workbook), None);
        let sheets = book.sheets().map(|page| page.sheet).collect();
        Revision { book, sheets }
    }

    fn sheet(&self, number: u32) -> Option<&Sheet<'a>> {
        self.sheets.get(number as usize)
    }

    fn name(&self, number: u32) -> Option<Vec<u16>> {
        let sheet = self.sheet(number)?;
        Some(sheet.name_units().collect())
    }

    /// The cells of a sheet at these addresses, which ascend; none where it hasn't one.
    fn cells_at(&self, number: u32, addresses: &[(u16, u16)]) -> Vec<Option<Cell>> {
        let mut found = vec![None; addresses.len()];
        let cells = self.sheet(number).into_iter().flat_map(Sheet::cells);
        cells.for_each(|cell| {
            if let Ok(place) = addresses.binary_search(&(cell.row(), cell.column())) {
                found[place] = Some(cell);
            }
        });
        found
    }

    fn held(&self, cell: Option<Cell>) -> Option<Held<'_>> {
        cell.map(|cell| {
            let (kind, shown) = self.book.shown(Whose::Session, &cell);
            Held { kind, shown }
        })
    }
}

impl<'a> Revisions<'a> {
    /// Both streams have passed the check.
    pub fn read(old: &'a [u8], new: &'a [u8]) -> Self {
        Revisions {
            old: Revision::read(old),
            new: Revision::read(new),
        }
    }

    /// The numbers and names of the sheets that only the old one has, and of those that only the new one has.
    pub fn alone(&self) -> [Vec<(usize, Vec<u16>)>; 2] {
        let beyond = |one: &Revision<'_>, other: &Revision<'_>| {
            let sheets = one.sheets.iter().enumerate().skip(other.sheets.len());
            sheets
                .map(|(number, sheet)| (number, sheet.name_units().collect()))
                .collect()
        };
        [beyond(&self.old, &self.new), beyond(&self.new, &self.old)]
    }
}

/// What a cell holds: the name of its kind, and its value.
pub struct Held<'r> {
    pub kind: &'static str,
    pub shown: Shown<'r>,
}

/// A difference with what it is between.
pub struct Change<'r> {
    pub difference: Difference,
    /// The name of the sheet in the new workbook, or where it has no such sheet in the old one.
    pub sheet: Vec<u16>,
    pub between: Between<'r>,
}

pub enum Between<'r> {
    Names(Vec<u16>, Vec<u16>),
    Cells(Option<Held<'r>>, Option<Held<'r>>),
}

/// How many differences of a sheet are looked up by one listing at most.
const MANY: usize = 1 << 18;

/// All differences in order, each with what it is between.
pub struct Changes<'r, D: Iterator<Item = Difference>> {
    revisions: &'r Revisions<'r>,
    differences: Peekable<D>,
    /// Those that are looked up, and the cells of both.
    looked_up: std::vec::IntoIter<(Difference, [Option<Cell>; 2])>,
}

impl<'r, D: Iterator<Item = Difference>> Changes<'r, D> {
    pub fn of(revisions: &'r Revisions<'r>, differences: D) -> Self {
        Changes {
            revisions,
            differences: differences.peekable(),
            looked_up: Vec::new().into_iter(),
        }
    }

    /// How many are left, without a look at what they are between.
    pub fn left(self) -> usize {
        self.looked_up.len() + self.differences.count()
    }

    /// Looks up the next differences, as many as there are of one sheet.
    fn look_up(&mut self) {
        let Some(sheet) = self.differences.peek().map(|difference| difference.sheet) else {
            return;
        };
        let mut group = Vec::new();
        while group.len() < MANY {
            match self.differences.next_if(|next| next.sheet == sheet) {
                Some(difference) => group.push(difference),
                None => break,
            }
        }
        let addresses: Vec<_> = group.iter().filter_map(|it| it.kind.address()).collect();
        let mut old = self.revisions.old.cells_at(sheet, &addresses).into_iter();
        let mut new = self.revisions.new.cells_at(sheet, &addresses).into_iter();
        let with_cells = group.into_iter().map(|difference| {
            let cells = match difference.kind {
                DifferenceKind::Name => [None; 2],
                _ => [old.next().flatten(), new.next().flatten()],
            };
            (difference, cells)
        });
        self.looked_up = with_cells.collect::<Vec<_>>().into_iter();
    }
}

impl<'r, D: Iterator<Item = Difference>> Iterator for Changes<'r, D> {
    type Item = Change<'r>;

    fn next(&mut self) -> Option<Change<'r>> {
        if self.looked_up.len() == 0 {
            self.look_up();
        }
        let (difference, [before, after]) = self.looked_up.next()?;
        let Revisions { old, new } = self.revisions;
        let names = [old, new].map(|revision| revision.name(difference.sheet));
        let [old_name, new_name] = names;
        let sheet = new_name.or(old_name.clone()).unwrap_or_default();
        let between = match difference.kind {
            DifferenceKind::Name => Between::Names(old_name.unwrap_or_default(), sheet.clone()),
            _ => Between::Cells(old.held(before), new.held(after)),
        };
        Some(Change {
            difference,
            sheet,
            between,
        })
    }
}
