//! Correcting one cell in place.

use crate::cells::{is_error_code, is_truth, Cell, Value};
use crate::survey::Survey;
use crate::{rk, Refusal};
use std::ops::Range;

/// The new value of a cell. Nothing is cut down: what is out of range is
/// refused.
#[derive(Clone, Copy, Debug, PartialEq)]
pub enum NewValue {
    /// For a NUMBER, RK or MULRK cell.
    Number(f64),
    /// The index of a shared string, for a LABELSST cell.
    Text(u32),
    /// For a BOOLERR cell, whichever it holds now.
    Truth(u8),
    /// For a BOOLERR cell, whichever it holds now.
    Error(u8),
}

/// Corrects one cell, changing no byte but its value field, and none at all
/// where it refuses.
pub fn correct(
    stream: &mut [u8],
    sheet: u32,
    row: u32,
    column: u32,
    value: NewValue,
) -> Result<(), Refusal> {
    let survey = Survey::of(stream)?;
    let granted = grant(&survey, sheet, row, column, value)?;
    granted.write_to(stream);
    Ok(())
}

/// A granted correction: the cell's value field, and its new bytes.
pub(crate) struct Granted {
    place: Range<usize>,
    bytes: Field,
}

impl Granted {
    pub fn write_to(&self, stream: &mut [u8]) {
        stream[self.place.clone()].copy_from_slice(self.bytes.as_slice());
    }
}

/// Judges a correction of a stream that passes the check.
pub(crate) fn grant(
    survey: &Survey<'_>,
    sheet: u32,
    row: u32,
    column: u32,
    value: NewValue,
) -> Result<Granted, Refusal> {
    let cell = only_cell(survey, sheet, row, column)?;
    let bytes = field_bytes(&cell, value, survey.indices).map_err(Refusal::of_question)?;
    Ok(Granted {
        place: cell.value_field,
        bytes,
    })
}

/// The one cell with an address.
fn only_cell(survey: &Survey<'_>, sheet: u32, row: u32, column: u32) -> Result<Cell, Refusal> {
    let mut found = None;
    let mut count = 0usize;
    survey.list(sheet as usize, |cell| {
        if u32::from(cell.row) == row && u32::from(cell.column) == column {
            count += 1;
            found.get_or_insert_with(|| cell.clone());
        }
    })?;
    match found {
        None => Err(Refusal::of_question(11)),
        Some(_) if count > 1 => Err(Refusal::of_question(16)),
        Some(cell) => Ok(cell),
    }
}

/// The bytes of a value field.
#[derive(Clone, Copy)]
pub(crate) enum Field {
    Eight([u8; 8]),
    Four([u8; 4]),
    Two([u8; 2]),
}

impl Field {
    /// None where no value field has that many bytes.
    pub fn of(bytes: &[u8]) -> Option<Self> {
        match *bytes {
            [a, b] => Some(Field::Two([a, b])),
            [a, b, c, d] => Some(Field::Four([a, b, c, d])),
            _ => bytes.try_into().ok().map(Field::Eight),
        }
    }

    pub fn as_slice(&self) -> &[u8] {
        match self {
            Field::Eight(bytes) => bytes,
            Field::Four(bytes) => bytes,
            Field::Two(bytes) => bytes,
        }
    }
}

/// What a granted correction writes: 17 where the cell doesn't take this kind
/// of value, 18 where it takes the kind but not this value.
pub(crate) fn field_bytes(cell: &Cell, value: NewValue, unique: u32) -> Result<Field, u8> {
    match (cell.value, value) {
        (Value::Number(_), NewValue::Number(number)) => number_bytes(cell, number),
        (Value::Text(_), NewValue::Text(index)) if index < unique => {
            Ok(Field::Four(index.to_le_bytes()))
        }
        (Value::Text(_), NewValue::Text(_)) => Err(18),
        (Value::Truth(_) | Value::Error(_), NewValue::Truth(truth)) => {
            two_bytes(truth, 0, is_truth(truth))
        }
        (Value::Truth(_) | Value::Error(_), NewValue::Error(code)) => {
            two_bytes(code, 1, is_error_code(code))
        }
        _ => Err(17),
    }
}

/// A cell with eight bytes takes any finite number, one with four those that
/// an undivided RK word means.
fn number_bytes(cell: &Cell, number: f64) -> Result<Field, u8> {
    if !number.is_finite() {
        return Err(18);
    }
    if cell.value_field.len() == 8 {
        return Ok(Field::Eight(number.to_bits().to_le_bytes()));
    }
    let word = rk::pack(number).ok_or(18)?;
    Ok(Field::Four(word.to_le_bytes()))
}

fn two_bytes(value: u8, which: u8, fits: bool) -> Result<Field, u8> {
    if fits {
        Ok(Field::Two([value, which]))
    } else {
        Err(18)
    }
}
