//! The texts of formulas' results: by their cells, and from a listing.

use station::{check, text, FormulaResult, Refusal, Value};

const RESULTS: &[u8] = include_bytes!("../../../cases/results.in");
const UNIT: u16 = 0x5555;

/// The answer for a buffer of so many units, and the buffer after it.
fn asked(row: u32, column: u32, room: usize) -> (Result<usize, Refusal>, Vec<u16>) {
    let mut buffer = vec![UNIT; room];
    let answer = text(RESULTS, 0, row, column, &mut buffer);
    (answer, buffer)
}

fn refused(number: u8) -> Result<usize, Refusal> {
    Err(Refusal { number, offset: 0 })
}

#[test]
fn by_its_cell() {
    let label: Vec<u16> = "label".encode_utf16().collect();
    assert_eq!(asked(3, 1, 5), (Ok(5), label.clone()));
    assert_eq!(asked(3, 1, 6), (Ok(5), [label, vec![UNIT]].concat()));
    assert_eq!(asked(3, 1, 4), (refused(12), vec![UNIT; 4]));
    // Another result, no cell there, an address that would be there in sixteen bits.
    for (row, column) in [(3, 0), (3, 6), (0, 0), (65_539, 1), (3, 65_537)] {
        assert_eq!(asked(row, column, 5), (refused(11), vec![UNIT; 5]));
    }
    assert_eq!(text(RESULTS, 1, 3, 1, &mut [0; 5]), refused(11));
    assert_eq!(
        text(&[], 0, 3, 1, &mut []),
        Err(Refusal {
            number: 3,
            offset: 0
        })
    );
}

#[test]
fn from_a_listing() {
    let workbook = check(RESULTS).expect("a stream that passes");
    let sheet = workbook.sheets().next().expect("a sheet");
    let mut texts = 0;
    for cell in sheet.cells() {
        let mut buffer = [UNIT; 5];
        let answer = workbook.text(&cell, &mut buffer);
        if cell.value() == Value::Formula(FormulaResult::Text) {
            assert_eq!(answer, Ok(5));
            assert!(buffer.into_iter().eq("label".encode_utf16()));
            assert_eq!(workbook.text(&cell, &mut [0; 4]), refused(12));
            texts += 1;
        } else {
            assert_eq!((answer, buffer), (refused(11), [UNIT; 5]));
        }
    }
    assert_eq!(texts, 1);
}

/// All texts of made streams, as the second reader has them.
#[test]
fn of_made_streams() {
    let mut seen = 0;
    let mut room = vec![0; station::LONGEST_STRING];
    for seed in 0..500 {
        let stream = streams::valid(seed);
        let reading = second_reader::read(&stream).expect("a valid stream");
        let workbook = check(&stream).expect("a valid stream");
        for (sheet, read) in workbook.sheets().zip(&reading.sheets) {
            let is_text = |value| value == Value::Formula(FormulaResult::Text);
            let cells = sheet.cells().filter(|cell| is_text(cell.value()));
            let mut texts = read.texts.iter();
            for cell in cells {
                let count = workbook.text(&cell, &mut room).expect("its text");
                assert_eq!(Some(&room[..count]), texts.next().map(Vec::as_slice));
                seen += 1;
            }
            assert_eq!(texts.next(), None);
        }
    }
    assert!(seen > 100, "only {seen} texts");
}
