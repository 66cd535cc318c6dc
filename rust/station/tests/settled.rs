//! The cases that document 01 settles by example, asked of the compiled library.

use station::{check, FormulaResult, Refusal, Value};

fn refused(number: u8, offset: usize) -> Result<(), Refusal> {
    Err(Refusal { number, offset })
}

fn judge(tokens: &[u8]) -> Result<(), Refusal> {
    station::judge(tokens, &[])
}

#[test]
fn formulas() {
    assert_eq!(
        judge(&[0x44, 0x00, 0x00, 0x00, 0xC0, 0x1E, 0x01, 0x00, 0x03]),
        Ok(())
    );
    assert_eq!(judge(&[0x03]), refused(14, 0));
    assert_eq!(judge(&[0x1E, 0x01, 0x00, 0x1E, 0x01, 0x00]), refused(14, 6));
    assert_eq!(judge(&[0x1E, 0x01]), refused(13, 0));
    assert_eq!(judge(&[0x41, 0xDD, 0x00]), Ok(()));
    assert_eq!(judge(&[0x41, 0xCA, 0x00]), refused(15, 0));
    assert_eq!(judge(&[0x41, 0xD8, 0x00]), refused(15, 0));
    assert_eq!(judge(&[0x29, 0x03, 0x00, 0x1E, 0x01, 0x00]), Ok(()));
    assert_eq!(judge(&[0x29, 0x04, 0x00, 0x1E, 0x01, 0x00]), refused(13, 0));
}

/// A refusal says what it means, as an error does; the bare line is for machines.
#[test]
fn words_of_refusals() {
    let refusal = Refusal {
        number: 5,
        offset: 20,
    };
    assert_eq!(refusal.line(), "refused 5 at 20");
    assert_eq!(
        refusal.to_string(),
        "refused 5 at 20: the workbook is encrypted"
    );
    let error: Box<dyn std::error::Error> = refusal.into();
    assert_eq!(error.to_string(), refusal.to_string());
    let known: Vec<u8> = station::meanings().map(|(number, _)| number).collect();
    assert!(known.is_sorted_by(|one, next| one < next));
    assert!(known.len() >= 18 && known[..18].iter().copied().eq(1..=18));
    for (number, meaning) in station::meanings() {
        assert_eq!(Refusal { number, offset: 0 }.meaning(), meaning);
    }
    for number in (0..=255).filter(|number| !known.contains(number)) {
        let unknown = Refusal { number, offset: 7 };
        assert_eq!(unknown.line(), format!("refused {number} at 7"));
        assert!(unknown.meaning().contains("no words"));
    }
}

#[test]
fn globals_alone() {
    let mut stream = vec![0x09, 0x08, 0x10, 0x00, 0x00, 0x06, 0x05, 0x00];
    stream.resize(20, 0);
    stream.extend([0x0A, 0x00, 0x00, 0x00]);
    let passed = check(&stream).map(|workbook| (workbook.sheets, workbook.strings));
    assert_eq!(passed, Ok((0, 0)));
}

/// The SST of the example, in globals of its own.
#[test]
fn a_string_over_a_continuation() {
    let mut stream = vec![0x09, 0x08, 0x10, 0x00, 0x00, 0x06, 0x05, 0x00];
    stream.resize(20, 0);
    stream.extend([
        0xFC, 0x00, 0x0C, 0x00, 0x01, 0x00, 0x00, 0x00, 0x01, 0x00, 0x00, 0x00, 0x02, 0x00, 0x00,
        0x41,
    ]);
    stream.extend([0x3C, 0x00, 0x03, 0x00, 0x01, 0xA9, 0x03]);
    stream.extend([0x0A, 0x00, 0x00, 0x00]);
    let mut units = [7u16; 3];
    assert_eq!(station::fetch(&stream, 0, &mut units), Ok(2));
    assert_eq!(units, [0x0041, 0x03A9, 7]);
    let mut short = [7u16; 1];
    assert_eq!(
        station::fetch(&stream, 0, &mut short),
        Err(Refusal {
            number: 12,
            offset: 0
        })
    );
    assert_eq!(short, [7]);
    let workbook = check(&stream).expect("a stream that passes");
    let strings: Vec<_> = workbook.strings().collect();
    assert_eq!(strings, [[0x0041, 0x03A9]]);
}

/// A cell of each kind stands where it is said to.
#[test]
fn fields_and_tokens() {
    let stream = include_bytes!("../../../cases/cells.in");
    let workbook = check(stream).expect("a stream that passes");
    let mut formulas = 0;
    for cell in workbook.sheets().flat_map(|sheet| sheet.cells()) {
        let field = &stream[cell.field()..];
        match cell.value() {
            Value::Blank => assert_eq!(field[..2], cell.format().to_le_bytes()),
            Value::Text(index) => assert_eq!(field[..4], index.to_le_bytes()),
            Value::Truth(truth) => assert_eq!(field[..2], [truth, 0]),
            Value::Error(code) => assert_eq!(field[..2], [code, 1]),
            Value::Formula(result) => {
                formulas += 1;
                let length = cell.tokens().len() as u16;
                assert_eq!(field[14..16], length.to_le_bytes());
                if let FormulaResult::Number(bits) = result {
                    assert_eq!(field[..8], bits.to_le_bytes());
                }
            }
            Value::Number(_) => assert!(!field.is_empty()),
        }
        assert_eq!(cell.is_blank(), cell.value() == Value::Blank);
    }
    assert!(formulas > 0);
}
