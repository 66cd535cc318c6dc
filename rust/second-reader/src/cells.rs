//! The eight cell records.

use crate::records::{kind, Record};
use crate::rk;
use std::ops::Range;

const COLUMNS: u16 = 256;
/// Where a FORMULA's result stands in its body.
pub(crate) const FORMULA_RESULT_AT: usize = 6;

/// What a cell holds. Numbers are kept as their 64 bits, since they are
/// compared by them.
#[derive(Clone, Copy, Debug, PartialEq, Eq)]
pub enum Value {
    /// Nothing but a format.
    Blank,
    /// The 64 bits of a number.
    Number(u64),
    /// The index of a shared string.
    Text(u32),
    /// 0 or 1.
    Truth(u8),
    /// One of the seven error codes.
    Error(u8),
    /// The result stored with a formula.
    Formula(FormulaResult),
}

/// The result stored with a formula.
#[derive(Clone, Copy, Debug, PartialEq, Eq)]
pub enum FormulaResult {
    /// The 64 bits of a number.
    Number(u64),
    /// A text, which stands in a STRING record after the cell's.
    Text,
    /// 0 or 1.
    Truth(u8),
    /// One of the seven error codes.
    Error(u8),
    /// An empty text.
    Empty,
}

/// One listed cell.
#[derive(Clone, Debug, PartialEq, Eq)]
pub struct Cell {
    /// Its row.
    pub row: u16,
    /// Its column, at most 255.
    pub column: u16,
    /// The index of its format, as it stands.
    pub format: u16,
    /// What it holds.
    pub value: Value,
    /// Where a formula's tokens stand in the stream; empty at 0 for others.
    pub tokens: Range<usize>,
    /// Where the bytes after a formula's tokens stand, to its record's end;
    /// empty at 0 for others.
    pub trailing: Range<usize>,
    /// Where the value stands in the stream: an f64, its own RK word, an index,
    /// a formula result or two bytes of truth or error. For a blank, where its
    /// format stands.
    pub value_field: Range<usize>,
}

impl Cell {
    /// Whether it is a formula whose result is a text.
    #[inline]
    pub fn has_text_result(&self) -> bool {
        self.value == Value::Formula(FormulaResult::Text)
    }
}

/// Whether an error code is one of the seven.
pub(crate) fn is_error_code(code: u8) -> bool {
    matches!(code, 0x00 | 0x07 | 0x0F | 0x17 | 0x1D | 0x24 | 0x2A)
}

/// Whether a truth byte is one.
pub(crate) fn is_truth(truth: u8) -> bool {
    truth <= 1
}

/// Judges a record and hands over its cells from left to right; gives whether
/// its type is one that holds cells. The error is a refusal number; a record
/// that has one may have handed over cells before it, so judge with a taker
/// that keeps nothing.
///
/// The readers of single records are always inlined: a taker that only counts
/// then leaves nothing of a cell to be made.
#[inline]
pub(crate) fn each_cell<F: FnMut(Cell)>(
    record: &Record<'_>,
    unique: u32,
    take: F,
) -> Result<bool, u8> {
    match record.kind {
        kind::BLANK => blank(record).map(take)?,
        kind::NUMBER => number(record).map(take)?,
        kind::RK => packed(record).map(take)?,
        kind::LABELSST => text(record, unique).map(take)?,
        kind::BOOLERR => truth_or_error(record).map(take)?,
        kind::MULRK => each_rk(record, take)?,
        kind::MULBLANK => each_blank(record, take)?,
        kind::FORMULA => formula(record).map(take)?,
        _ => return Ok(false),
    }
    Ok(true)
}

/// The whole body where it has exactly the size its type asks for.
#[inline(always)]
fn sized<const SIZE: usize>(record: &Record<'_>) -> Result<[u8; SIZE], u8> {
    record.body.try_into().map_err(|_| 6)
}

/// A cell with the row, column and format that all records but the multiple
/// ones start with; `field` is counted from the start of the body.
#[inline(always)]
fn cell(
    record: &Record<'_>,
    start: &[u8; 6],
    value: Value,
    field: Range<usize>,
) -> Result<Cell, u8> {
    let [row0, row1, column0, column1, format0, format1] = *start;
    let body_at = record.body_at();
    Ok(Cell {
        row: u16::from_le_bytes([row0, row1]),
        column: column(column0, column1)?,
        format: u16::from_le_bytes([format0, format1]),
        value,
        tokens: 0..0,
        trailing: 0..0,
        value_field: body_at + field.start..body_at + field.end,
    })
}

#[inline(always)]
fn column(low: u8, high: u8) -> Result<u16, u8> {
    if high == 0 {
        Ok(u16::from(low))
    } else {
        Err(6)
    }
}

#[inline(always)]
fn blank(record: &Record<'_>) -> Result<Cell, u8> {
    let body = sized::<6>(record)?;
    cell(record, &body, Value::Blank, 4..6)
}

#[inline(always)]
fn number(record: &Record<'_>) -> Result<Cell, u8> {
    let body = sized::<14>(record)?;
    let (start, field) = split::<6, 8>(&body);
    let value = Value::Number(u64::from_le_bytes(field));
    cell(record, &start, value, 6..14)
}

#[inline(always)]
fn packed(record: &Record<'_>) -> Result<Cell, u8> {
    let body = sized::<10>(record)?;
    let (start, field) = split::<6, 4>(&body);
    let bits = rk::decode(u32::from_le_bytes(field)).ok_or(6)?;
    cell(record, &start, Value::Number(bits), 6..10)
}

#[inline(always)]
fn text(record: &Record<'_>, unique: u32) -> Result<Cell, u8> {
    let body = sized::<10>(record)?;
    let (start, field) = split::<6, 4>(&body);
    let index = u32::from_le_bytes(field);
    // A bad column is the lower number, so it is judged first.
    let cell = cell(record, &start, Value::Text(index), 6..10)?;
    if index < unique {
        Ok(cell)
    } else {
        Err(9)
    }
}

#[inline(always)]
fn truth_or_error(record: &Record<'_>) -> Result<Cell, u8> {
    let body = sized::<8>(record)?;
    let (start, field) = split::<6, 2>(&body);
    let value = match field {
        [truth, 0] if is_truth(truth) => Value::Truth(truth),
        [code, 1] if is_error_code(code) => Value::Error(code),
        _ => return Err(6),
    };
    cell(record, &start, value, 6..8)
}

#[inline(always)]
fn formula(record: &Record<'_>) -> Result<Cell, u8> {
    let (head, rest) = record.body.split_first_chunk::<22>().ok_or(6)?;
    let (start, after) = split::<6, 16>(head);
    let (result, after) = split::<8, 8>(&after);
    // Six bytes of flags and unused ones stand before the length.
    let length = usize::from(u16::from_le_bytes([after[6], after[7]]));
    if rest.len() < length {
        return Err(6);
    }
    let tokens_at = record.body_at() + 22;
    let tokens_end = tokens_at + length;
    let value = Value::Formula(formula_result(result)?);
    Ok(Cell {
        tokens: tokens_at..tokens_end,
        trailing: tokens_end..tokens_at + rest.len(),
        ..cell(record, &start, value, FORMULA_RESULT_AT..14)?
    })
}

#[inline(always)]
fn formula_result(field: [u8; 8]) -> Result<FormulaResult, u8> {
    let [which, _, detail, _, _, _, mark0, mark1] = field;
    if [mark0, mark1] != [0xFF, 0xFF] {
        return Ok(FormulaResult::Number(u64::from_le_bytes(field)));
    }
    match which {
        0 => Ok(FormulaResult::Text),
        1 if is_truth(detail) => Ok(FormulaResult::Truth(detail)),
        2 if is_error_code(detail) => Ok(FormulaResult::Error(detail)),
        3 => Ok(FormulaResult::Empty),
        _ => Err(6),
    }
}

/// A multiple record's row, its first column and the fields of its cells, which
/// must be as many as its columns say.
#[inline]
fn multiple<'a, const FIELD: usize>(
    record: &Record<'a>,
) -> Result<(u16, u16, &'a [[u8; FIELD]]), u8> {
    let (start, rest) = record.body.split_first_chunk::<4>().ok_or(6)?;
    let (fields, last) = rest.split_last_chunk::<2>().ok_or(6)?;
    let (fields, cut) = fields.as_chunks::<FIELD>();
    let row = u16::from_le_bytes([start[0], start[1]]);
    let first = column(start[2], start[3])?;
    let last = column(last[0], last[1])?;
    let as_many = usize::from(first) + fields.len() == usize::from(last) + 1;
    if fields.is_empty() || !cut.is_empty() || !as_many {
        return Err(6);
    }
    debug_assert!(fields.len() <= usize::from(COLUMNS));
    Ok((row, first, fields))
}

#[inline]
fn each_rk<F: FnMut(Cell)>(record: &Record<'_>, mut take: F) -> Result<(), u8> {
    let (row, first, fields) = multiple::<6>(record)?;
    let mut field_at = record.body_at() + 4;
    for (column, field) in (first..).zip(fields) {
        let (format, word) = split::<2, 4>(field);
        let bits = rk::decode(u32::from_le_bytes(word)).ok_or(6)?;
        take(Cell {
            row,
            column,
            format: u16::from_le_bytes(format),
            value: Value::Number(bits),
            tokens: 0..0,
            trailing: 0..0,
            value_field: field_at + 2..field_at + 6,
        });
        field_at += 6;
    }
    Ok(())
}

#[inline]
fn each_blank<F: FnMut(Cell)>(record: &Record<'_>, mut take: F) -> Result<(), u8> {
    let (row, first, fields) = multiple::<2>(record)?;
    let mut field_at = record.body_at() + 4;
    for (column, &format) in (first..).zip(fields) {
        take(Cell {
            row,
            column,
            format: u16::from_le_bytes(format),
            value: Value::Blank,
            tokens: 0..0,
            trailing: 0..0,
            value_field: field_at..field_at + 2,
        });
        field_at += 2;
    }
    Ok(())
}

/// The first and the last bytes of an array; the sizes add up to the whole.
#[inline(always)]
fn split<const FIRST: usize, const LAST: usize>(bytes: &[u8]) -> ([u8; FIRST], [u8; LAST]) {
    let (first, last) = bytes.split_at(FIRST);
    let first = first.try_into().expect("as long as asked for");
    let last = last.try_into().expect("the rest of the array");
    (first, last)
}
