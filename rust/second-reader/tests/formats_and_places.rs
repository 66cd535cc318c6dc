//! K9: each listed cell with its format index and the offset of its value field.

mod common;

use common::*;
use second_reader::{correct, list_cells, print, read, Cell, NewValue, Value};

/// A worksheet with a record of each kind, and where each stands.
struct Sheet {
    bytes: Vec<u8>,
    blank: usize,
    number: usize,
    packed: usize,
    text: usize,
    truth: usize,
    error: usize,
    packed_ones: usize,
    blanks: usize,
    formula: usize,
}

fn sheet() -> Sheet {
    let mut book = Book::globals();
    let boundsheet = book.boundsheet(0);
    book.record(SST, &table_of(3));
    book.eof();
    let bof = book.bof(WORKSHEET);
    book.name(boundsheet, bof);
    let blank = book.record(BLANK, &[0, 0, 0, 0, 0x01, 0x10]);
    book.record(DIMENSIONS, &[0; 14]);
    let number = book.record(
        NUMBER,
        &[0, 0, 1, 0, 0x02, 0x20, 0, 0, 0, 0, 0, 0, 0xF0, 0x3F],
    );
    let packed = book.record(RK, &[0, 0, 2, 0, 0x03, 0x30, 2, 0, 0, 0]);
    let text = book.record(LABELSST, &[0, 0, 3, 0, 0x04, 0x40, 1, 0, 0, 0]);
    let truth = book.record(BOOLERR, &[0, 0, 4, 0, 0x05, 0x50, 1, 0]);
    let error = book.record(BOOLERR, &[0, 0, 5, 0, 0xFF, 0xFF, 0x2A, 1]);
    book.charts(1);
    book.record(BLANK, &[0, 0, 0, 0, 9, 9]);
    book.eof();
    let mut body = vec![1, 0, 7, 0];
    for format in [0x06, 0x07, 0x08] {
        body.extend([format, 0x60, 2, 0, 0, 0]);
    }
    body.extend([9, 0]);
    let packed_ones = book.record(MULRK, &body);
    let blanks = book.record(MULBLANK, &[2, 0, 3, 0, 0x09, 0x90, 0x0A, 0xA0, 4, 0]);
    let mut body = vec![3, 0, 0, 0, 0x0B, 0xB0];
    body.extend([0; 14]);
    body.extend([3, 0, 0x1E, 1, 0, 7, 7]);
    let formula = book.record(FORMULA, &body);
    book.eof();
    Sheet {
        bytes: book.bytes,
        blank,
        number,
        packed,
        text,
        truth,
        error,
        packed_ones,
        blanks,
        formula,
    }
}

fn cells(stream: &[u8]) -> Vec<Cell> {
    read(stream).unwrap().sheets.remove(0).cells
}

fn formats_and_places(stream: &[u8]) -> Vec<(u16, usize)> {
    let both = |cell: &Cell| (cell.format, cell.value_field.start);
    cells(stream).iter().map(both).collect()
}

#[test]
fn f1_where_the_value_fields_stand() {
    let sheet = sheet();
    let expected = [
        (0x1001, sheet.blank + 8),
        (0x2002, sheet.number + 10),
        (0x3003, sheet.packed + 10),
        (0x4004, sheet.text + 10),
        (0x5005, sheet.truth + 10),
        (0xFFFF, sheet.error + 10),
        (0x6006, sheet.packed_ones + 10),
        (0x6007, sheet.packed_ones + 16),
        (0x6008, sheet.packed_ones + 22),
        (0x9009, sheet.blanks + 8),
        (0xA00A, sheet.blanks + 10),
        (0xB00B, sheet.formula + 10),
    ];
    assert_eq!(formats_and_places(&sheet.bytes), expected);
    let mut listed = Vec::new();
    list_cells(&sheet.bytes, 0, |cell| {
        listed.push((cell.format, cell.value_field.start))
    })
    .unwrap();
    assert_eq!(listed, expected);
}

#[test]
fn f1_the_format_stands_before_the_place_or_at_it() {
    let sheet = sheet();
    for cell in cells(&sheet.bytes) {
        let place = cell.value_field.start;
        let format_at = match cell.value {
            Value::Blank => place,
            _ => place - 2,
        };
        let bytes = &sheet.bytes[format_at..format_at + 2];
        assert_eq!(bytes, cell.format.to_le_bytes());
    }
}

#[test]
fn f1_a_multiple_record_of_all_columns() {
    let mut body = vec![0, 0, 0, 0];
    body.extend((0..512u16).map(|half| (half / 2) as u8));
    body.extend([255, 0]);
    let sheet = sheet_with(0, MULBLANK, &body);
    let expected: Vec<_> = (0..256usize)
        .map(|column| (column as u16 * 0x0101, sheet.first + 8 + 2 * column))
        .collect();
    assert_eq!(formats_and_places(&sheet.bytes), expected);
}

#[test]
fn f2_no_format_is_judged() {
    for format in [0u16, 1, 15, 0x0FFF, 0x1000, 0x7FFF, 0x8000, 0xFFFF] {
        let [low, high] = format.to_le_bytes();
        let sheet = sheet_with(0, BLANK, &[0, 0, 0, 0, low, high]);
        let expected = [(format, sheet.first + 8)];
        assert_eq!(formats_and_places(&sheet.bytes), expected);
    }
}

#[test]
fn f3_a_correction_leaves_both_for_all_cells() {
    let sheet = sheet();
    let before = formats_and_places(&sheet.bytes);
    let corrections = [
        (0, 1, NewValue::Number(2.5)),
        (0, 2, NewValue::Number(-7.0)),
        (0, 3, NewValue::Text(2)),
        (0, 4, NewValue::Error(0x07)),
        (0, 5, NewValue::Truth(0)),
        (1, 7, NewValue::Number(1.0)),
        (1, 8, NewValue::Number(536_870_911.0)),
        (1, 9, NewValue::Number(-0.0)),
    ];
    let mut bytes = sheet.bytes.clone();
    for (row, column, value) in corrections {
        correct(&mut bytes, 0, row, column, value).unwrap();
        assert_eq!(formats_and_places(&bytes), before);
        // The value is what stands at the place now.
        let cell = cells(&bytes)
            .into_iter()
            .find(|cell| (u32::from(cell.row), u32::from(cell.column)) == (row, column))
            .unwrap();
        let field = &bytes[cell.value_field.clone()];
        match (cell.value, field.len()) {
            (Value::Number(bits), 8) => assert_eq!(field, bits.to_le_bytes()),
            (Value::Number(_), size) => assert_eq!(size, 4),
            (Value::Text(index), _) => assert_eq!(field, index.to_le_bytes()),
            (Value::Truth(truth), _) => assert_eq!(field, [truth, 0]),
            (Value::Error(code), _) => assert_eq!(field, [code, 1]),
            (value, _) => panic!("{value:?}"),
        }
    }
    // Only the value fields of those eight changed.
    let fields: Vec<_> = cells(&bytes)[1..9]
        .iter()
        .map(|cell| cell.value_field.clone())
        .collect();
    let same = |at: usize| bytes[at] == sheet.bytes[at] || fields.iter().any(|f| f.contains(&at));
    assert!((0..bytes.len()).all(same));
}

/// The program's lines ignore both.
#[test]
fn the_lines_stay() {
    let sheet = sheet();
    let mut other = sheet.bytes.clone();
    other[sheet.blank + 8] ^= 0xFF;
    other[sheet.formula + 9] ^= 0xFF;
    assert_ne!(formats_and_places(&other), formats_and_places(&sheet.bytes));
    assert_eq!(print(&other), print(&sheet.bytes));
}
