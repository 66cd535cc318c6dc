//! Comparing two revisions of a workbook: where they differ, by sheet, row and
//! column.

use crate::cells::Value;
use crate::sheets::SheetEntry;
use crate::survey::Survey;
use crate::Refusal;
use std::cmp::Ordering;
use std::collections::HashMap;
use std::fmt;

/// One of the two streams.
#[derive(Clone, Copy, Debug, PartialEq, Eq)]
pub enum Side {
    /// The first stream.
    First,
    /// The second stream.
    Second,
}

/// A refusal, and which of the two streams it is about.
#[derive(Clone, Copy, Debug, PartialEq, Eq)]
pub struct RefusedSide {
    /// The stream that is refused.
    pub side: Side,
    /// Why, and where in that stream.
    pub refusal: Refusal,
}

/// Where a cell stands.
#[derive(Clone, Copy, Debug, PartialEq, Eq)]
pub struct Address {
    /// The number of its sheet.
    pub sheet: u32,
    /// Its row.
    pub row: u16,
    /// Its column, at most 255.
    pub column: u16,
}

/// One difference between two streams.
#[derive(Clone, Copy, Debug, PartialEq, Eq)]
pub enum Difference {
    /// Both have a sheet of this number, under different names.
    Name {
        /// The sheet's number.
        sheet: u32,
    },
    /// Only the first has a cell here.
    First(Address),
    /// Only the second has a cell here.
    Second(Address),
    /// Both have a cell here, with unequal values.
    Unequal(Address),
}

/// A line: `name SHEET`, or `first`, `second` or `unequal` with sheet, row and
/// column.
impl fmt::Display for Difference {
    fn fmt(&self, f: &mut fmt::Formatter<'_>) -> fmt::Result {
        let (word, at) = match self {
            Difference::Name { sheet } => return write!(f, "name {sheet}"),
            Difference::First(at) => ("first", at),
            Difference::Second(at) => ("second", at),
            Difference::Unequal(at) => ("unequal", at),
        };
        write!(f, "{word} {} {} {}", at.sheet, at.row, at.column)
    }
}

/// Checks both streams, then that neither has an address twice in one sheet,
/// and lists where they differ: by sheet, in a sheet the name first and then
/// the cells by row and column.
pub fn compare(first: &[u8], second: &[u8]) -> Result<Vec<Difference>, RefusedSide> {
    let refused = |side| move |refusal| RefusedSide { side, refusal };
    let of_first = Survey::of(first).map_err(refused(Side::First))?;
    let of_second = Survey::of(second).map_err(refused(Side::Second))?;
    let mut texts = Texts::default();
    let first = sheets(first, &of_first, &mut texts).map_err(refused(Side::First))?;
    let second = sheets(second, &of_second, &mut texts).map_err(refused(Side::Second))?;
    let mut differences = Vec::new();
    for number in 0..first.len().max(second.len()) {
        let sides = (first.get(number), second.get(number));
        compare_sheets(number as u32, sides, &mut differences);
    }
    Ok(differences)
}

/// A number for each text met in either stream. Equal texts have the same one,
/// so that a text is looked at once, however many cells show it.
#[derive(Default)]
struct Texts {
    numbers: HashMap<Vec<u16>, u32>,
}

impl Texts {
    fn number(&mut self, units: Vec<u16>) -> u32 {
        let next = self.numbers.len() as u32;
        *self.numbers.entry(units).or_insert(next)
    }
}

/// What is compared of a sheet.
struct Sheet {
    /// The characters of its name.
    name: Vec<u16>,
    /// Its cells by row and column, each address once.
    cells: Vec<Cell>,
}

/// What is compared of a cell.
struct Cell {
    row: u16,
    column: u16,
    /// Its value, with a text's number in place of its index.
    value: Value,
    /// The number of the text that its formula has for a result.
    result: Option<u32>,
}

impl Cell {
    fn place(&self) -> (u16, u16) {
        (self.row, self.column)
    }
}

/// The sheets of a stream, or 16 where one of them has an address twice.
fn sheets(stream: &[u8], survey: &Survey<'_>, texts: &mut Texts) -> Result<Vec<Sheet>, Refusal> {
    let strings = survey.strings.all()?;
    let shown: Vec<u32> = strings.into_iter().map(|text| texts.number(text)).collect();
    let mut sheet = |(number, entry)| {
        Ok(Sheet {
            name: name(stream, entry),
            cells: cells(survey, number, &shown, texts)?,
        })
    };
    survey.sheets.iter().enumerate().map(&mut sheet).collect()
}

/// The characters of a sheet's name, whatever width they are written in.
fn name(stream: &[u8], entry: &SheetEntry) -> Vec<u16> {
    let bytes = &stream[entry.name.clone()];
    if entry.wide {
        let pairs = bytes.as_chunks().0;
        pairs.iter().copied().map(u16::from_le_bytes).collect()
    } else {
        bytes.iter().copied().map(u16::from).collect()
    }
}

/// The cells of a sheet by row and column, or 16 where an address is there
/// twice. `shown` has the text's number for each index.
fn cells(
    survey: &Survey<'_>,
    sheet: usize,
    shown: &[u32],
    texts: &mut Texts,
) -> Result<Vec<Cell>, Refusal> {
    let mut cells = Vec::new();
    let mut results = Vec::new();
    survey.list(sheet, |cell| {
        if cell.has_text_result() {
            results.push((cells.len(), cell.clone()));
        }
        cells.push(Cell {
            row: cell.row,
            column: cell.column,
            value: match cell.value {
                Value::Text(index) => Value::Text(shown[index as usize]),
                value => value,
            },
            result: None,
        });
    })?;
    for (place, cell) in results {
        if let Some(text) = survey.text(&cell)? {
            cells[place].result = Some(texts.number(text.units()?));
        }
    }
    cells.sort_unstable_by_key(Cell::place);
    if cells.is_sorted_by(|earlier, later| earlier.place() < later.place()) {
        Ok(cells)
    } else {
        Err(Refusal::of_question(16))
    }
}

/// The differences between the sheets of one number, of which one side may have
/// none. A sheet that one side has alone shows in its cells only.
fn compare_sheets(
    number: u32,
    sides: (Option<&Sheet>, Option<&Sheet>),
    differences: &mut Vec<Difference>,
) {
    if let (Some(first), Some(second)) = sides {
        if first.name != second.name {
            differences.push(Difference::Name { sheet: number });
        }
    }
    compare_cells(number, cells_of(sides.0), cells_of(sides.1), differences);
}

fn cells_of(sheet: Option<&Sheet>) -> &[Cell] {
    sheet.map_or(&[], |sheet| &sheet.cells)
}

/// The differences between the cells of two sheets, both by row and column.
fn compare_cells(
    sheet: u32,
    mut first: &[Cell],
    mut second: &[Cell],
    differences: &mut Vec<Difference>,
) {
    let address = |cell: &Cell| Address {
        sheet,
        row: cell.row,
        column: cell.column,
    };
    while let Some((order, cell)) = next(first, second) {
        match order {
            Ordering::Less => differences.push(Difference::First(address(cell))),
            Ordering::Greater => differences.push(Difference::Second(address(cell))),
            Ordering::Equal if equal_values(&first[0], &second[0]) => {}
            Ordering::Equal => differences.push(Difference::Unequal(address(cell))),
        }
        first = &first[usize::from(order.is_le())..];
        second = &second[usize::from(order.is_ge())..];
    }
}

/// The cell that comes next, and whether only the first side has it (less),
/// only the second (greater), or both.
fn next<'c>(first: &'c [Cell], second: &'c [Cell]) -> Option<(Ordering, &'c Cell)> {
    match (first.first(), second.first()) {
        (None, None) => None,
        (Some(cell), None) => Some((Ordering::Less, cell)),
        (None, Some(cell)) => Some((Ordering::Greater, cell)),
        (Some(one), Some(other)) => match one.place().cmp(&other.place()) {
            Ordering::Greater => Some((Ordering::Greater, other)),
            order => Some((order, one)),
        },
    }
}

/// Whether two cells have equal values: of one kind and with the same content,
/// numbers by their 64 bits and texts by their number, a formula's too. So a
/// formula never equals a plain value.
fn equal_values(first: &Cell, second: &Cell) -> bool {
    first.value == second.value && first.result == second.result
}
