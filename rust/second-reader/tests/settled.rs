//! The cases settled by example.

mod common;

use common::*;
use second_reader::*;

fn refusal(number: u8, offset: usize) -> Refusal {
    Refusal { number, offset }
}

#[test]
fn rk_words() {
    assert_eq!(decode_rk(0x3FF0_0000), Some(1f64.to_bits()));
    assert_eq!(decode_rk(0x3FF0_0001), Some(0.01f64.to_bits()));
    assert_eq!(decode_rk(0x004B_5646), Some(1_234_321f64.to_bits()));
    assert_eq!(decode_rk(0xFFFF_FFFE), Some((-1f64).to_bits()));
}

#[test]
fn packing() {
    assert_eq!(pack_rk(536_870_911.0), Some(0x7FFF_FFFE));
    assert_eq!(pack_rk(536_870_912.0), Some(0x41C0_0000));
    assert_eq!(pack_rk(536_870_913.0), None);
    assert_eq!(pack_rk(0.1), None);
    let sheet = sheet_with(0, RK, &rk_body(0));
    let correct_to = |number| {
        let mut bytes = sheet.bytes.clone();
        correct(&mut bytes, 0, 1, 2, NewValue::Number(number))
            .map(|()| u32::from_le_bytes(bytes[sheet.first + 10..][..4].try_into().unwrap()))
    };
    assert_eq!(correct_to(536_870_911.0), Ok(0x7FFF_FFFE));
    assert_eq!(correct_to(536_870_912.0), Ok(0x41C0_0000));
    assert_eq!(correct_to(536_870_913.0), Err(refusal(18, 0)));
    assert_eq!(correct_to(0.1), Err(refusal(18, 0)));
}

#[test]
fn formulas() {
    assert_eq!(judge_tokens(&[0x44, 0, 0, 0, 0xC0, 0x1E, 1, 0, 3]), Ok(()));
    assert_eq!(judge_tokens(&[3]), Err(refusal(14, 0)));
    assert_eq!(judge_tokens(&[0x1E, 1, 0, 0x1E, 1, 0]), Err(refusal(14, 6)));
    assert_eq!(judge_tokens(&[0x1E, 1]), Err(refusal(13, 0)));
    assert_eq!(judge_tokens(&[0x41, 0xDD, 0]), Ok(()));
    assert_eq!(judge_tokens(&[0x41, 0xCA, 0]), Err(refusal(15, 0)));
    assert_eq!(judge_tokens(&[0x41, 0xD8, 0]), Err(refusal(15, 0)));
    assert_eq!(judge_tokens(&[0x29, 3, 0, 0x1E, 1, 0]), Ok(()));
    assert_eq!(judge_tokens(&[0x29, 4, 0, 0x1E, 1, 0]), Err(refusal(13, 0)));
}

#[test]
fn a_string_over_two_segments() {
    let (stream, _) = table(&[
        &[1, 0, 0, 0, 1, 0, 0, 0, 2, 0, 0, 0x41],
        &[0x01, 0xA9, 0x03],
    ]);
    assert_eq!(read(&stream).unwrap().strings, [[0x0041, 0x03A9]]);
    let mut buffer = [0xFFFF; 3];
    assert_eq!(fetch(&stream, 0, &mut buffer), Ok(2));
    assert_eq!(buffer, [0x0041, 0x03A9, 0xFFFF]);
}

#[test]
fn globals_alone() {
    let mut book = Book::new();
    book.empty(GLOBALS);
    assert_eq!(book.len(), 24);
    let passed = Passed {
        sheets: 0,
        strings: 0,
        cells: 0,
    };
    assert_eq!(check(&book.bytes), Ok(passed));
    assert_eq!(print(&book.bytes), "sheets 0 strings 0 cells 0\n");
}

#[test]
fn the_printed_example() {
    let sheet = sheet_with(0, RK, &[0xFF, 0xFF, 0, 0, 0, 0, 0, 0, 0xF0, 0x3F]);
    let text = "sheets 1 strings 0 cells 1\nsheet 0 rows 65536\n65535 0 number 3FF0000000000000\n";
    assert_eq!(print(&sheet.bytes), text);
    let mut book = Book::globals();
    book.record(FILEPASS, &[]);
    assert_eq!(print(&book.bytes), "refused 5 at 20\n");
    assert_eq!(print(&[0; 65_536]), "refused 3 at 0\n");
    assert_eq!(print(&[0; 65_537]), "too long\n");
}

#[test]
fn errors_met_before() {
    // A row count in sixteen bits.
    let sheet = sheet_with(0, BLANK, &[0xFF, 0xFF, 0, 0, 0, 0]);
    assert_eq!(read(&sheet.bytes).unwrap().sheets[0].rows, 65_536);
    // A flags byte expected where runs go on.
    let string = [1, 0, 8, 2, 0, b'a', 1, 1, 1, 1];
    assert_eq!(refused_table(&[&sst(1, &string), &[2, 2, 2, 2]]), None);
    // A width kept from the last segment.
    let (stream, _) = table(&[&sst(1, &[3, 0, 1, 0x41, 0x42]), &[0, 7, 8]]);
    assert_eq!(read(&stream).unwrap().strings, [[0x4241, 7, 8]]);
    // Dividing an RK float's bits before clearing the two low ones.
    assert_eq!(decode_rk(0x4059_0001), Some(1f64.to_bits()));
    // A memory token's inner bytes borrowing the outer stack.
    let borrowing = [0x1E, 1, 0, 0x29, 1, 0, 0x12];
    assert_eq!(judge_tokens(&borrowing), Err(refusal(14, 6)));
    // MULRK columns counted from 0.
    let sheet = sheet_with(0, MULRK, &mulrk_body(7, &[2, 6], 8));
    let columns: Vec<_> = read(&sheet.bytes).unwrap().sheets[0]
        .cells
        .iter()
        .map(|cell| (cell.row, cell.column, cell.value))
        .collect();
    let one = 1f64.to_bits();
    assert_eq!(
        columns,
        [(1, 7, Value::Number(0)), (1, 8, Value::Number(one))]
    );
}
