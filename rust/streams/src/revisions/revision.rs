//! What a revision says, however it is written.

use super::Apart;
use crate::record::ERROR_CODES;
use crate::rng::Rng;
use std::cmp::Ordering;

#[derive(Clone, Debug, PartialEq, Eq)]
pub(super) enum Value {
    Blank,
    /// The 64 bits of a number.
    Number(u64),
    Text(Vec<u16>),
    Truth(u8),
    Error(u8),
    Formula(Stored),
}

/// The stored result of a formula.
#[derive(Clone, Debug, PartialEq, Eq)]
pub(super) enum Stored {
    Number(u64),
    Text(Vec<u16>),
    Truth(u8),
    Error(u8),
    Empty,
}

#[derive(Clone, Debug)]
pub(super) struct Cell {
    pub row: u16,
    pub column: u16,
    pub value: Value,
}

impl Cell {
    fn at(&self) -> (u16, u16) {
        (self.row, self.column)
    }
}

#[derive(Clone, Debug)]
pub(super) struct Sheet {
    pub name: Vec<u16>,
    /// 0 worksheet, 1 macro sheet, 2 chart.
    pub sheet_type: u8,
    /// By row and column; each address once, but where one is repeated on
    /// purpose.
    pub cells: Vec<Cell>,
}

impl Sheet {
    /// The cells that a reader lists.
    pub fn listed(&self) -> &[Cell] {
        match self.sheet_type {
            0 => &self.cells,
            _ => &[],
        }
    }
}

#[derive(Clone, Debug)]
pub(super) struct Revision {
    pub sheets: Vec<Sheet>,
}

/// Numbers that meet each other often, and those next to them: both zeros, NaN
/// patterns, and what RK words mean.
const NUMBERS: [u64; 12] = [
    0,
    1 << 63,
    0x3FF0_0000_0000_0000,
    0x4052_2000_0000_0000,
    0x3F84_7AE1_47AE_147B,
    0x3F84_7AE1_47AE_147C,
    0xC000_0000_0000_0000,
    0x7FF0_0000_0000_0000,
    0x7FF8_0000_0000_0000,
    0x7FF8_0000_0000_0001,
    0xFFF0_0000_0000_0000,
    0x41B0_0000_0000_0000,
];

impl Revision {
    pub fn make(rng: &mut Rng) -> Self {
        let sheets = rng.pick(&[0, 1, 1, 1, 1, 2, 2, 3, 5]);
        Revision {
            sheets: (0..sheets).map(|_| sheet(rng)).collect(),
        }
    }

    /// Changes one thing, or what is there already once more.
    pub fn change(&mut self, rng: &mut Rng) {
        if self.sheets.is_empty() || rng.percent(10) {
            return self.change_sheets(rng);
        }
        let place = rng.below(self.sheets.len());
        let sheet = &mut self.sheets[place];
        match rng.below(20) {
            0 => sheet.name = next_text(rng, &sheet.name, 31),
            1 => sheet.sheet_type = rng.pick(&[0, 1, 2, 2]),
            2..=3 => {
                let value = value(rng);
                let (row, column) = (rng.below(9) as u16, rng.below(7) as u16);
                put(&mut sheet.cells, Cell { row, column, value });
            }
            _ if sheet.cells.is_empty() => {}
            4..=5 => {
                let place = rng.below(sheet.cells.len());
                sheet.cells.remove(place);
            }
            _ => {
                let place = rng.below(sheet.cells.len());
                let cell = &mut sheet.cells[place];
                cell.value = next_value(rng, &cell.value);
            }
        }
    }

    fn change_sheets(&mut self, rng: &mut Rng) {
        let place = rng.below(self.sheets.len() + 1);
        match rng.below(5) {
            0..=1 => self.sheets.insert(place, sheet(rng)),
            2..=3 if place < self.sheets.len() => drop(self.sheets.remove(place)),
            _ => rng.shuffle(&mut self.sheets),
        }
    }

    /// Puts a second cell to an address of some sheet, where there is one.
    pub fn repeat_address(&mut self, rng: &mut Rng) {
        let places: Vec<usize> = (0..self.sheets.len())
            .filter(|&place| !self.sheets[place].listed().is_empty())
            .collect();
        if places.is_empty() {
            return;
        }
        let cells = &mut self.sheets[rng.pick(&places)].cells;
        let mut again = cells[rng.below(cells.len())].clone();
        if rng.percent(50) {
            again.value = value(rng);
        }
        let place = cells.partition_point(|cell| cell.at() < again.at());
        cells.insert(place, again);
    }

    /// Where another differs, by sheet, row and column.
    pub fn differences(&self, other: &Revision) -> Vec<Apart> {
        let mut differences = Vec::new();
        for place in 0..self.sheets.len().max(other.sheets.len()) {
            let sheets = (self.sheets.get(place), other.sheets.get(place));
            let number = place as u32;
            if let (Some(one), Some(two)) = sheets {
                if one.name != two.name {
                    differences.push(Apart::Name(number));
                }
            }
            let one = sheets.0.map_or(&[][..], Sheet::listed);
            let two = sheets.1.map_or(&[][..], Sheet::listed);
            append_apart(&mut differences, number, one, two);
        }
        differences
    }
}

/// The differences of two lists of cells, both by row and column.
fn append_apart(differences: &mut Vec<Apart>, sheet: u32, mut one: &[Cell], mut two: &[Cell]) {
    loop {
        let order = match (one.first(), two.first()) {
            (None, None) => return,
            (Some(_), None) => Ordering::Less,
            (None, Some(_)) => Ordering::Greater,
            (Some(one), Some(two)) => one.at().cmp(&two.at()),
        };
        let (row, column) = match order {
            Ordering::Greater => two[0].at(),
            _ => one[0].at(),
        };
        match order {
            Ordering::Less => differences.push(Apart::First(sheet, row, column)),
            Ordering::Greater => differences.push(Apart::Second(sheet, row, column)),
            Ordering::Equal if one[0].value == two[0].value => {}
            Ordering::Equal => differences.push(Apart::Unequal(sheet, row, column)),
        }
        one = &one[usize::from(order.is_le())..];
        two = &two[usize::from(order.is_ge())..];
    }
}

/// Puts a cell to its place; what was at its address is gone.
fn put(cells: &mut Vec<Cell>, cell: Cell) {
    match cells.binary_search_by_key(&cell.at(), Cell::at) {
        Ok(place) => cells[place] = cell,
        Err(place) => cells.insert(place, cell),
    }
}

fn sheet(rng: &mut Rng) -> Sheet {
    let mut cells = Vec::new();
    let layout = rng.below(4);
    for _ in 0..rng.mostly_small(0, 60) {
        let (row, column) = match layout {
            0..=1 => (rng.below(9), rng.below(7)),
            2 => (rng.below(65_536), rng.below(256)),
            _ => (
                rng.pick(&[0, 1, 255, 256, 65_534, 65_535]),
                rng.pick(&[0, 1, 2, 3, 254, 255]),
            ),
        };
        let cell = Cell {
            row: row as u16,
            column: column as u16,
            value: value(rng),
        };
        put(&mut cells, cell);
    }
    let length = rng.between(1, 6);
    Sheet {
        name: (0..length).map(|_| unit(rng)).collect(),
        sheet_type: rng.pick(&[0, 0, 0, 0, 0, 1, 2]),
        cells,
    }
}

fn unit(rng: &mut Rng) -> u16 {
    match rng.below(12) {
        0 => rng.pick(&[0, 0xFF, 0x100, 0xD800, 0xFFFF]),
        1 => rng.word(),
        _ => rng.pick(&[0x61, 0x62, 0x41, 0xE4, 0x3B1]),
    }
}

fn text(rng: &mut Rng) -> Vec<u16> {
    let length = match rng.below(20) {
        0..=3 => 0,
        4 => rng.mostly_small(1, 400),
        _ => rng.between(1, 4),
    };
    (0..length).map(|_| unit(rng)).collect()
}

fn number(rng: &mut Rng) -> u64 {
    match rng.below(6) {
        0 => (rng.below(2_000) as f64 / 100.0).to_bits(),
        1 => f64::from(rng.below(40) as u32).to_bits(),
        2 => (rng.next() >> 34) << 34,
        3 => rng.pick(&[0, 1 << 63, 0x7FF8_0000_0000_0000]),
        _ => rng.pick(&NUMBERS),
    }
}

/// A number as a result, of which none has the bytes that mark another kind.
fn stored_number(rng: &mut Rng) -> u64 {
    let bits = number(rng);
    if bits >> 48 == 0xFFFF {
        return bits >> 1;
    }
    bits
}

fn stored(rng: &mut Rng) -> Stored {
    match rng.below(6) {
        0 => Stored::Truth(rng.below(2) as u8),
        1 => Stored::Error(rng.pick(&ERROR_CODES)),
        2 => Stored::Empty,
        3..=4 => Stored::Text(text(rng)),
        _ => Stored::Number(stored_number(rng)),
    }
}

fn value(rng: &mut Rng) -> Value {
    match rng.below(10) {
        0..=1 => Value::Blank,
        2..=4 => Value::Number(number(rng)),
        5..=6 => Value::Text(text(rng)),
        7 if rng.percent(60) => Value::Truth(rng.below(2) as u8),
        7 => Value::Error(rng.pick(&ERROR_CODES)),
        _ => Value::Formula(stored(rng)),
    }
}

/// A text that is near another: a unit more, less or changed.
fn next_text(rng: &mut Rng, text: &[u16], longest: usize) -> Vec<u16> {
    let mut next = text.to_vec();
    let place = rng.below(text.len() + 1);
    match rng.below(4) {
        0 if next.len() < longest => next.insert(place, unit(rng)),
        1 if next.len() > 1 => drop(next.remove(place.min(text.len() - 1))),
        // A letter of the other case, a character of the other width.
        _ if place < next.len() => next[place] ^= rng.pick(&[0x20, 1, 0x100]),
        _ => {}
    }
    next
}

/// The other zero, another NaN pattern, or a number beside it.
fn next_bits(rng: &mut Rng, bits: u64) -> u64 {
    let number = f64::from_bits(bits);
    let near = if number == 0.0 {
        &[1 << 63, 1 << 63, 1 << 63, 1][..]
    } else if number.is_nan() {
        &[1, 1, 1 << 34, 1 << 63]
    } else {
        &[1 << 63, 1, 1 << 52, 1 << 34]
    };
    bits ^ rng.pick(near)
}

/// A value that is near another: of one kind a little beside it, or of another
/// kind and much alike.
fn next_value(rng: &mut Rng, was: &Value) -> Value {
    if rng.percent(15) {
        return value(rng);
    }
    let alike = rng.percent(40);
    match was {
        Value::Blank => Value::Text(Vec::new()),
        Value::Number(bits) if alike && bits >> 48 != 0xFFFF => {
            Value::Formula(Stored::Number(*bits))
        }
        Value::Number(bits) => Value::Number(next_bits(rng, *bits)),
        Value::Text(units) if alike => Value::Formula(Stored::Text(units.clone())),
        Value::Text(units) => Value::Text(next_text(rng, units, 400)),
        Value::Truth(0) if rng.percent(70) => Value::Error(0),
        Value::Truth(truth) if alike => Value::Number(f64::from(*truth).to_bits()),
        Value::Truth(truth) => Value::Truth(1 - truth),
        Value::Error(0) if alike => Value::Truth(0),
        Value::Error(_) => Value::Error(rng.pick(&ERROR_CODES)),
        Value::Formula(stored) if alike => plain(stored),
        Value::Formula(stored) => Value::Formula(next_stored(rng, stored)),
    }
}

/// The value that looks like a formula's result.
fn plain(stored: &Stored) -> Value {
    match stored {
        Stored::Number(bits) => Value::Number(*bits),
        Stored::Text(units) => Value::Text(units.clone()),
        Stored::Truth(truth) => Value::Truth(*truth),
        Stored::Error(code) => Value::Error(*code),
        Stored::Empty => Value::Blank,
    }
}

fn next_stored(rng: &mut Rng, was: &Stored) -> Stored {
    match was {
        Stored::Number(bits) => match next_bits(rng, *bits) {
            marked if marked >> 48 == 0xFFFF => Stored::Empty,
            bits => Stored::Number(bits),
        },
        Stored::Text(units) => Stored::Text(next_text(rng, units, 400)),
        Stored::Truth(truth) => Stored::Truth(1 - truth),
        Stored::Error(_) => Stored::Error(rng.pick(&ERROR_CODES)),
        Stored::Empty => Stored::Text(Vec::new()),
    }
}
