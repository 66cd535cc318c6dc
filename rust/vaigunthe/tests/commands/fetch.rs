//! fetch.

use crate::made::one;
use crate::tool::{case, run, run_with};
use crate::words;
use second_reader::Refusal;

/// The line for a string in a buffer of so many units.
fn expected(stream: &[u8], index: u32, room: usize) -> Result<String, Refusal> {
    let mut buffer = vec![0; room];
    let count = second_reader::fetch(stream, index, &mut buffer)?;
    Ok(line(&buffer[..count]))
}

fn line(units: &[u16]) -> String {
    let hex: String = units.iter().map(|unit| format!(" {unit:04X}")).collect();
    format!("units {}{hex}\n", units.len())
}

#[test]
fn units_of_a_string() {
    let file = case("strings-over-continues.in");
    let units = "units 5 0061 0062 03A9 03C9 0063\n";
    run(words!["fetch", file, "0"]).says(0, units);
    run(words!["fetch", file, "0", "--room", "5"]).says(0, units);
    run(words!["fetch", "--room=6", file, "0"]).says(0, units);
    run(words!["fetch", file, "0", "--room", "4294967295"]).says(0, units);
    run(words!["fetch", file, "0", "--room", "4"]).refuses("refused 12 at 0");
    run(words!["fetch", file, "2"]).refuses("refused 11 at 0");
    run(words!["fetch", file, "2", "--room", "0"]).refuses("refused 11 at 0");
    run(words!["fetch", file, "4294967295"]).refuses("refused 11 at 0");
    run(words!["fetch", case("cells.in"), "2"]).says(0, "units 0\n");
    run(words!["fetch", case("cells.in"), "2", "--room", "0"]).says(0, "units 0\n");
    run(words!["fetch", case("refused-7-orphan.in"), "0"]).refuses("refused 7 at 20");
}

/// The example of document 01: a string over a continuation.
#[test]
fn the_settled_example() {
    let mut stream = vec![0x09, 0x08, 0x10, 0x00, 0x00, 0x06, 0x05, 0x00];
    stream.resize(20, 0);
    stream.extend([0xFC, 0x00, 0x0C, 0x00]);
    stream.extend([1, 0, 0, 0, 1, 0, 0, 0, 2, 0, 0, 0x41]);
    stream.extend([0x3C, 0x00, 0x03, 0x00, 0x01, 0xA9, 0x03]);
    stream.extend([0x0A, 0x00, 0x00, 0x00]);
    run_with(&["fetch", "-", "0"], &stream).says(0, "units 2 0041 03A9\n");
}

/// Where no room is given there is room for the longest string of all.
#[test]
fn the_longest_string() {
    let mut stream = vec![0x09, 0x08, 0x10, 0x00, 0x00, 0x06, 0x05, 0x00];
    stream.resize(20, 0);
    stream.extend([0xFC, 0x00, 12, 0x00]);
    stream.extend([1, 0, 0, 0, 1, 0, 0, 0, 0xFF, 0xFF, 0, b'x']);
    let mut left = 65_534;
    while left > 0 {
        let count = left.min(8_000);
        stream.extend([0x3C, 0x00]);
        stream.extend((count as u16 + 1).to_le_bytes());
        stream.push(0);
        stream.resize(stream.len() + count, b'x');
        left -= count;
    }
    stream.extend([0x0A, 0x00, 0x00, 0x00]);
    let units = format!("units 65535{}\n", " 0078".repeat(65_535));
    run_with(&["fetch", "-", "0"], &stream).says(0, &units);
    run_with(&["fetch", "-", "0", "--room", "65534"], &stream).refuses("refused 12 at 0");
}

#[test]
fn made_streams() {
    for seed in 0..200 {
        let stream = streams::stream(seed);
        let question = streams::fetch(seed, &stream);
        let (index, room) = (question.index.to_string(), question.units.to_string());
        let ran = run_with(&["fetch", "-", &index, "--room", &room], &stream);
        match expected(&stream, question.index, question.units) {
            Ok(line) => ran.says(0, &line),
            Err(refusal) => ran.refuses(&refusal.to_string()),
        }
    }
}

/// The text of a formula's result, by its cell.
#[test]
fn units_of_a_formula() {
    let file = case("results.in");
    let units = "units 5 006C 0061 0062 0065 006C\n";
    run(words!["fetch", file, "--cell", "0", "B4"]).says(0, units);
    run(words!["fetch", "--cell", file, "Sheet1", "3", "1"]).says(0, units);
    run(words!["fetch", file, "0", "b4", "--cell", "--room", "5"]).says(0, units);
    run(words!["fetch", file, "--cell", "0", "B4", "--room=4"]).refuses("refused 12 at 0");
    // Another result, no cell, no sheet.
    for (sheet, cell) in [
        ("0", "A4"),
        ("0", "G4"),
        ("0", "A1"),
        ("0", "XFD1"),
        ("1", "B4"),
    ] {
        run(words!["fetch", file, "--cell", sheet, cell]).refuses("refused 11 at 0");
    }
    let ran = run(words!["fetch", file, "--cell", "Shet1", "B4"]);
    assert!(ran.err.contains("did you mean 'Sheet1'?"), "{}", ran.err);
    ran.refuses("refused 11 at 0");
    run(words!["fetch", case("cells.in"), "--cell", "0", "A2"]).refuses("refused 11 at 0");
    let refused = case("refused-7-orphan.in");
    run(words!["fetch", refused, "--cell", "0", "B4"]).refuses("refused 7 at 20");
}

#[test]
fn made_texts() {
    let mut given = 0;
    for seed in 0..200 {
        let stream = streams::stream(seed);
        let question = streams::text(seed, &stream);
        let numbers = [question.sheet, question.row, question.column];
        let [sheet, row, column] = numbers.map(|number| number.to_string());
        let room = question.units.to_string();
        let words = [
            "fetch", "-", "--cell", &sheet, &row, &column, "--room", &room,
        ];
        let ran = run_with(&words, &stream);
        let mut buffer = vec![0; question.units];
        let [sheet, row, column] = numbers;
        match second_reader::text(&stream, sheet, row, column, &mut buffer) {
            Ok(count) => {
                ran.says(0, &line(&buffer[..count]));
                given += 1;
            }
            Err(refusal) => ran.refuses(&refusal.to_string()),
        }
    }
    assert!(given > 5, "only {given} texts");
}

#[test]
fn what_is_no_cell() {
    let file = case("results.in");
    run(words!["fetch", file]).fails("INDEX");
    run(words!["fetch", file, "0", "1"]).fails("one too many");
    run(words!["fetch", file, "--cell"]).fails("SHEET");
    run(words!["fetch", file, "--cell", "0"]).fails("CELL");
    run(words!["fetch", file, "--cell", "0", "3"]).fails("COLUMN");
    run(words!["fetch", file, "--cell", "0", "B"]).fails("an address like B12");
    run(words!["fetch", file, "--cell", "0", "B4", "5"]).fails("one too many");
    run(words!["fetch", file, "--cell=0", "B4"]).fails("no value");
}

#[test]
fn what_is_no_index_or_room() {
    let stream = one(&[], vec![]);
    for index in ["x", "-1", "+1", "1.0", "", " 1", "4294967296"] {
        run_with(&["fetch", "-", index], &stream).fails("INDEX");
        run_with(&["fetch", "-", "0", "--room", index], &stream).fails("--room");
    }
}
