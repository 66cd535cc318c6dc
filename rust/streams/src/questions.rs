//! Questions to ask of a stream.

use crate::cells::{number_bits, rk_word};
use crate::record::{is_text_result, kind, long_at, word_at, ERROR_CODES, HEADER_SIZE};
use crate::rng::Rng;

/// A correction to ask for.
#[derive(Clone, Copy, Debug, PartialEq)]
pub struct Correction {
    /// The sheet's number.
    pub sheet: u32,
    /// The cell's row.
    pub row: u32,
    /// The cell's column.
    pub column: u32,
    /// What is to be written.
    pub value: NewValue,
}

/// The new value of a cell.
#[derive(Clone, Copy, Debug, PartialEq)]
pub enum NewValue {
    /// A number.
    Number(f64),
    /// The index of a shared string.
    Text(u32),
    /// A truth, in range or not.
    Truth(u8),
    /// An error code, known or not.
    Error(u8),
}

/// A fetch to ask for.
#[derive(Clone, Copy, Debug, PartialEq, Eq)]
pub struct Fetch {
    /// The string's index.
    pub index: u32,
    /// How many units the buffer has.
    pub units: usize,
}

/// A cell's text to ask for.
#[derive(Clone, Copy, Debug, PartialEq, Eq)]
pub struct Text {
    /// The sheet's number.
    pub sheet: u32,
    /// The cell's row.
    pub row: u32,
    /// The cell's column.
    pub column: u32,
    /// How many units the buffer has.
    pub units: usize,
}

/// A part of a list of differences to ask for.
#[derive(Clone, Copy, Debug, PartialEq, Eq)]
pub struct Batch {
    /// The key from which on they are asked for.
    pub from: u64,
    /// How many words there is room for.
    pub room: usize,
}

/// A cell as it is found by a look at the stream, without any judging.
#[derive(Clone, Copy)]
pub(crate) struct Found {
    pub kind: u16,
    pub row: u16,
    pub column: u16,
    /// Whether it is a formula whose result is a text.
    has_text: bool,
    /// Where its value field starts in its record's body.
    field: usize,
}

impl Found {
    fn at(&self) -> (u16, u16) {
        (self.row, self.column)
    }
}

pub(crate) fn correction(rng: &mut Rng, stream: &[u8]) -> Correction {
    correction_with(rng, stream, unique_strings(stream))
}

/// A correction of a stream whose text indices mean one of so many strings.
pub(crate) fn correction_with(rng: &mut Rng, stream: &[u8], unique: u32) -> Correction {
    let (sheet, cells) = sheet_with_cells(rng, stream);
    if cells.is_empty() || rng.percent(4) {
        return Correction {
            sheet,
            row: rng.pick(&[0, 1, 2, 65_535, 65_536, 65_537, u32::MAX]),
            column: rng.pick(&[0, 1, 2, 255, 256, 65_536, u32::MAX]),
            value: any_value(rng, unique),
        };
    }
    let cell = pick_cell(rng, &cells);
    let (row, column) = beside(rng, u32::from(cell.row), u32::from(cell.column));
    let value = if rng.percent(85) {
        matching_value(rng, unique, cell.kind)
    } else {
        any_value(rng, unique)
    };
    Correction {
        sheet,
        row,
        column,
        value,
    }
}

/// A sheet and its cells; one that has cells is looked for a few times.
fn sheet_with_cells(rng: &mut Rng, stream: &[u8]) -> (u32, Vec<Found>) {
    let sheets = sheet_positions(stream);
    let mut tries = 3;
    loop {
        let sheet = asked_sheet(rng, sheets.len());
        let cells = match sheets.get(sheet as usize) {
            Some(&position) => cells_from(stream, position as usize),
            None => Vec::new(),
        };
        if !cells.is_empty() || tries == 0 || sheets.len() < 2 {
            return (sheet, cells);
        }
        tries -= 1;
    }
}

/// A cell, more often one that takes a value than its share.
fn pick_cell(rng: &mut Rng, cells: &[Found]) -> Found {
    let mut cell = rng.pick(cells);
    for _ in 0..3 {
        if !matches!(cell.kind, kind::BLANK | kind::MULBLANK | kind::FORMULA) {
            break;
        }
        cell = rng.pick(cells);
    }
    cell
}

/// Another correction beside one: mostly of the same cell, with a value that fits
/// as well, or of the cell after it in its row, which may stand in the same
/// record; else of any.
pub(crate) fn correction_beside(
    rng: &mut Rng,
    stream: &[u8],
    unique: u32,
    first: Correction,
) -> Correction {
    let column = match rng.below(20) {
        0..=7 => first.column,
        8..=12 => first.column.wrapping_add(1),
        _ => return correction_with(rng, stream, unique),
    };
    let value = match first.value {
        _ if rng.percent(5) => any_value(rng, unique),
        NewValue::Number(_) => NewValue::Number(number(rng)),
        NewValue::Text(_) => NewValue::Text(index(rng, unique)),
        NewValue::Truth(_) | NewValue::Error(_) if rng.percent(50) => NewValue::Truth(truth(rng)),
        NewValue::Truth(_) | NewValue::Error(_) => NewValue::Error(code(rng)),
    };
    Correction {
        column,
        value,
        ..first
    }
}

/// The address itself, or at times one that is cut down to it or next to it.
fn beside(rng: &mut Rng, row: u32, column: u32) -> (u32, u32) {
    match rng.below(60) {
        0 => (row + 0x1_0000, column),
        1 => (row, column + 0x100),
        2 => (row, column + 0x1_0000),
        3 => (row + 1, column),
        4 => (row, column + 1),
        _ => (row, column),
    }
}

pub(crate) fn fetch(rng: &mut Rng, stream: &[u8]) -> Fetch {
    let unique = unique_strings(stream);
    let index = if unique == 0 || rng.percent(8) {
        rng.pick(&[0, 1, unique, unique.wrapping_add(1), u32::MAX])
    } else {
        rng.below((unique as usize).min(5_000)) as u32
    };
    Fetch {
        index,
        units: units(rng),
    }
}

/// How many units a buffer has: enough for any string, none, or a few.
pub(crate) fn units(rng: &mut Rng) -> usize {
    match rng.below(10) {
        0..=3 => 70_000,
        4 => 0,
        _ => rng.mostly_small(0, 60),
    }
}

/// Mostly a formula whose result is a text, at times any cell or none.
pub(crate) fn text(rng: &mut Rng, stream: &[u8]) -> Text {
    let (sheet, cells) = sheet_with_cells(rng, stream);
    let (mut row, mut column) = (
        rng.pick(&[0, 1, 65_535, 65_536, u32::MAX]),
        rng.pick(&[0, 1, 255, 256, u32::MAX]),
    );
    let aimed = rng.percent(80);
    let texts: Vec<Found> = cells
        .iter()
        .filter(|cell| aimed && cell.has_text)
        .copied()
        .collect();
    // Addresses where a text is listed first and another later.
    let twice: Vec<Found> = texts
        .iter()
        .filter(|text| {
            let mut there = cells.iter().filter(|cell| cell.at() == text.at());
            there.next().is_some_and(|first| first.has_text) && there.any(|later| later.has_text)
        })
        .copied()
        .collect();
    let cells = match (texts.is_empty(), twice.is_empty()) {
        (true, _) => &cells,
        (_, false) if rng.percent(90) => &twice,
        _ => &texts,
    };
    if !cells.is_empty() && rng.percent(95) {
        let cell = rng.pick(cells);
        (row, column) = beside(rng, u32::from(cell.row), u32::from(cell.column));
    }
    Text {
        sheet,
        row,
        column,
        units: units(rng),
    }
}

/// From the start, from a word's key or next to it, from a name's or the end of a
/// sheet, or anywhere. A word is a key with two bits of kind after it.
pub(crate) fn batch(rng: &mut Rng, words: &[u64]) -> Batch {
    const SHEET: u64 = 1 << 33;
    let word = match words {
        [] => rng.next(),
        _ => rng.pick(words),
    };
    let key = word / 4;
    let from = match rng.below(10) {
        0..=2 => 0,
        3..=4 => key,
        5 => key + 1,
        6 => key.saturating_sub(1),
        7 => key / SHEET * SHEET + rng.pick(&[0, 1, SHEET / 2 - 1, SHEET / 2, SHEET - 1, SHEET]),
        8 => rng.pick(&[u64::MAX, u64::MAX / 4, u64::MAX / 4 + 1, 1 << 62, 1 << 63]),
        _ => rng.next() >> rng.below(64),
    };
    let left = words.iter().filter(|word| *word / 4 >= from).count();
    let room = match rng.below(6) {
        0 => 0,
        1 => left,
        2 => left.saturating_sub(1),
        3 => rng.below(left + 1),
        _ => left + rng.below(4),
    };
    Batch { from, room }
}

/// A row that a session has, mostly with one after it, or one that it hasn't.
pub(crate) fn session_row(rng: &mut Rng, stream: &[u8]) -> u32 {
    let (_, cells) = sheet_with_cells(rng, stream);
    let last = cells.last().map_or(0, |cell| u32::from(cell.row));
    match rng.below(12) {
        0 => last,
        1 => last + 1,
        2 => rng.pick(&[0, 65_534, 65_535, 65_536, u32::MAX]),
        3 => rng.below(last as usize + 1) as u32 + 65_536,
        _ => rng.below(last.max(1) as usize) as u32,
    }
}

pub(crate) fn sheet(rng: &mut Rng, stream: &[u8]) -> u32 {
    let sheets = sheet_positions(stream).len();
    asked_sheet(rng, sheets)
}

fn asked_sheet(rng: &mut Rng, sheets: usize) -> u32 {
    if sheets == 0 || rng.percent(4) {
        return rng.pick(&[sheets as u32, sheets as u32 + 1, 0x1_0000, u32::MAX]);
    }
    rng.below(sheets) as u32
}

/// The records from a place on, as far as they can be walked: type and body.
fn records(stream: &[u8], from: usize) -> impl Iterator<Item = (u16, &[u8])> {
    let mut rest = stream.get(from..).unwrap_or_default();
    std::iter::from_fn(move || {
        let kind = word_at(rest, 0)?;
        let size = usize::from(word_at(rest, 2)?);
        let body = rest.get(HEADER_SIZE..HEADER_SIZE + size)?;
        rest = &rest[HEADER_SIZE + size..];
        Some((kind, body))
    })
}

fn globals(stream: &[u8]) -> impl Iterator<Item = (u16, &[u8])> {
    records(stream, 0).take_while(|&(kind, _)| kind != kind::EOF)
}

pub(crate) fn sheet_positions(stream: &[u8]) -> Vec<u32> {
    globals(stream)
        .filter(|&(kind, _)| kind == kind::BOUNDSHEET)
        .map(|(_, body)| long_at(body, 0).unwrap_or(0))
        .collect()
}

pub(crate) fn unique_strings(stream: &[u8]) -> u32 {
    own_strings(stream).unwrap_or(0)
}

/// How many strings a stream's own table has; none where it has no table.
pub(crate) fn own_strings(stream: &[u8]) -> Option<u32> {
    globals(stream)
        .find(|&(kind, _)| kind == kind::SST)
        .and_then(|(_, body)| long_at(body, 4))
}

/// The cells from a BOF on to its EOF, nested charts left out.
fn cells_from(stream: &[u8], position: usize) -> Vec<Found> {
    let mut cells = Vec::new();
    for (kind, body) in cell_records(stream, position) {
        append_cells(&mut cells, kind, body);
    }
    cells
}

/// The cell records from a BOF on to its EOF, nested charts left out.
fn cell_records(stream: &[u8], position: usize) -> impl Iterator<Item = (u16, &[u8])> {
    let mut depth = 0;
    let own = records(stream, position).map_while(move |(kind, body)| {
        match kind {
            kind::BOF => depth += 1,
            kind::EOF if depth <= 1 => return None,
            kind::EOF => depth -= 1,
            _ => {}
        }
        Some((depth == 1 && kind::CELLS.contains(&kind)).then_some((kind, body)))
    });
    own.flatten()
}

/// The cells of all sheets with what their value fields hold, eight bytes at most:
/// the sheet's number, the cell, and the bytes from its field's start on.
pub(crate) fn cells_with_fields(stream: &[u8]) -> Vec<(u32, Found, [u8; 8])> {
    let mut all = Vec::new();
    for (sheet, position) in (0..).zip(sheet_positions(stream)) {
        for (kind, body) in cell_records(stream, position as usize) {
            let mut cells = Vec::new();
            append_cells(&mut cells, kind, body);
            all.extend(cells.into_iter().map(|cell| {
                let bytes = body.get(cell.field..).unwrap_or_default();
                let mut field = [0; 8];
                for (to, from) in field.iter_mut().zip(bytes) {
                    *to = *from;
                }
                (sheet, cell, field)
            }));
        }
    }
    all
}

fn append_cells(cells: &mut Vec<Found>, kind: u16, body: &[u8]) {
    let (Some(row), Some(column)) = (word_at(body, 0), word_at(body, 2)) else {
        return;
    };
    let last = match kind {
        kind::MULRK | kind::MULBLANK => word_at(body, body.len().max(2) - 2).unwrap_or(column),
        _ => column,
    };
    // A few columns of a multiple record are enough to ask for.
    let last = last.min(column.saturating_add(255));
    let has_text = kind == kind::FORMULA && is_text_result(body);
    cells.extend((column..=last).zip(0..).map(|(column, number)| Found {
        kind,
        row,
        column,
        has_text,
        field: 6 + 6 * number,
    }));
}

/// A value of the kind that a cell takes, in range or not.
pub(crate) fn matching_value(rng: &mut Rng, unique: u32, kind: u16) -> NewValue {
    match kind {
        kind::NUMBER | kind::RK | kind::MULRK => NewValue::Number(number(rng)),
        kind::LABELSST => NewValue::Text(index(rng, unique)),
        kind::BOOLERR if rng.percent(50) => NewValue::Truth(truth(rng)),
        kind::BOOLERR => NewValue::Error(code(rng)),
        _ => any_value(rng, unique),
    }
}

pub(crate) fn any_value(rng: &mut Rng, unique: u32) -> NewValue {
    match rng.below(4) {
        0 => NewValue::Number(number(rng)),
        1 => NewValue::Text(index(rng, unique)),
        2 => NewValue::Truth(truth(rng)),
        _ => NewValue::Error(code(rng)),
    }
}

fn truth(rng: &mut Rng) -> u8 {
    rng.pick(&[0, 0, 1, 1, 2, 255])
}

fn code(rng: &mut Rng) -> u8 {
    if rng.percent(65) {
        rng.pick(&ERROR_CODES)
    } else {
        rng.byte()
    }
}

fn index(rng: &mut Rng, unique: u32) -> u32 {
    match rng.below(8) {
        0 => unique,
        1 => rng.pick(&[0, 0x1_0000, 0x7FFF_FFFF, u32::MAX]),
        _ => rng.below(unique.clamp(1, 100_000) as usize) as u32,
    }
}

/// Numbers that pack in either form, that don't, and that are none.
fn number(rng: &mut Rng) -> f64 {
    const EDGES: [f64; 16] = [
        0.0,
        -0.0,
        1.0,
        -1.0,
        0.1,
        0.01,
        536_870_911.0,
        536_870_912.0,
        536_870_913.0,
        -536_870_911.0,
        -536_870_912.0,
        -536_870_913.0,
        1_234_321.5,
        f64::INFINITY,
        f64::NEG_INFINITY,
        f64::NAN,
    ];
    match rng.below(8) {
        0..=1 => rng.pick(&EDGES),
        2 => f64::from(rng.long() as i32 >> 2),
        3 => f64::from_bits(rng.next() >> 34 << 34),
        4 => f64::from(rk_word(rng) as i32) / 100.0,
        5 => (rng.below(2_000_000) as f64) - 1_000_000.0,
        _ => f64::from_bits(number_bits(rng)),
    }
}
