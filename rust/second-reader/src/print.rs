//! What the command-line program prints for a stream.

use crate::{read, Cell, FormulaResult, Reading, Value};
use std::fmt::Write;

const LONGEST_INPUT: usize = 65_536;

/// The program's whole output for a standard input of these bytes. Every line
/// ends with a line feed.
pub fn print(input: &[u8]) -> String {
    if input.len() > LONGEST_INPUT {
        return "too long\n".to_string();
    }
    lines(input)
}

/// The same lines for a stream of any length.
pub fn lines(stream: &[u8]) -> String {
    match read(stream) {
        Ok(reading) => reading_lines(&reading),
        Err(refusal) => format!("{refusal}\n"),
    }
}

fn reading_lines(reading: &Reading) -> String {
    let cells: usize = reading.sheets.iter().map(|sheet| sheet.cells.len()).sum();
    let mut text = format!(
        "sheets {} strings {} cells {cells}\n",
        reading.sheets.len(),
        reading.strings.len(),
    );
    for (number, sheet) in reading.sheets.iter().enumerate() {
        // Writing to a string cannot fail.
        let _ = writeln!(text, "sheet {number} rows {}", sheet.rows);
        for cell in &sheet.cells {
            let _ = writeln!(text, "{}", cell_line(cell));
        }
    }
    text
}

fn cell_line(cell: &Cell) -> String {
    let value = match cell.value {
        Value::Blank => "blank".to_string(),
        Value::Number(bits) => format!("number {bits:016X}"),
        Value::Text(index) => format!("text {index}"),
        Value::Truth(truth) => format!("truth {truth}"),
        Value::Error(code) => format!("error {code:02X}"),
        Value::Formula(result) => format!("formula {}", result_text(result)),
    };
    format!("{} {} {value}", cell.row, cell.column)
}

fn result_text(result: FormulaResult) -> String {
    match result {
        FormulaResult::Number(bits) => format!("number {bits:016X}"),
        FormulaResult::Text => "text".to_string(),
        FormulaResult::Truth(truth) => format!("truth {truth}"),
        FormulaResult::Error(code) => format!("error {code:02X}"),
        FormulaResult::Empty => "empty".to_string(),
    }
}
