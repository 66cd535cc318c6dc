//! Each refusal number at least once, with its offset.

mod common;

use common::*;
use second_reader::*;

#[test]
fn number_1_too_long() {
    let mut stream = vec![0; 16_777_217];
    assert_refused(&stream, 1, 0);
    stream.pop();
    assert_refused(&stream, 3, 0);
    // The longest stream that may be, with a long tail of zeros.
    let mut book = Book::new();
    book.empty(GLOBALS);
    book.bytes.resize(16_777_216, 0);
    assert_accepted(&book.bytes);
    book.bytes.push(0);
    assert_refused(&book.bytes, 1, 0);
}

#[test]
fn number_2_header_body_and_size() {
    let mut book = Book::globals();
    let at = book.raw(&[0x31, 0, 0]);
    assert_refused(&book.bytes, 2, at);
    let mut book = Book::globals();
    let at = book.header(OTHER, 3);
    book.raw(&[1, 2]);
    assert_refused(&book.bytes, 2, at);
    let mut book = Book::globals();
    book.record(OTHER, &[0; 8_224]);
    book.eof();
    assert_accepted(&book.bytes);
    let mut book = Book::globals();
    let at = book.record(OTHER, &[0; 8_225]);
    book.eof();
    assert_refused(&book.bytes, 2, at);
}

#[test]
fn number_3_not_globals() {
    assert_refused(&[], 3, 0);
    let mut book = Book::new();
    book.empty(WORKSHEET);
    assert_refused(&book.bytes, 3, 0);
    let mut book = Book::new();
    book.record(BOF, &bof_body(0x0500, GLOBALS));
    assert_refused(&book.bytes, 3, 0);
    let mut book = Book::new();
    book.record(BOF, &bof_body(0x0600, GLOBALS)[..8]);
    assert_refused(&book.bytes, 3, 0);
    let mut book = Book::new();
    book.record(0x0409, &bof_body(0x0600, GLOBALS));
    assert_refused(&book.bytes, 3, 0);
}

#[test]
fn number_4_substreams() {
    let mut book = Book::globals();
    let at = book.bof(WORKSHEET);
    assert_refused(&book.bytes, 4, at);
    let book = Book::globals();
    assert_refused(&book.bytes, 4, 20);
    let mut book = Book::new();
    book.empty(GLOBALS);
    let at = book.record(OTHER, &[]);
    assert_refused(&book.bytes, 4, at);
}

#[test]
fn number_5_filepass() {
    for size in [0, 1, 54] {
        let mut book = Book::globals();
        let at = book.record(FILEPASS, &vec![0; size]);
        book.eof();
        assert_refused(&book.bytes, 5, at);
    }
    let sheet = sheet_with(0, FILEPASS, &[0; 54]);
    assert_accepted(&sheet.bytes);
}

#[test]
fn number_6_eof_and_boundsheet() {
    let mut book = Book::globals();
    let at = book.record(EOF, &[0]);
    assert_refused(&book.bytes, 6, at);
    let accepted: [&[u8]; 3] = [
        &[0, 0, 0, 0, 0xFF, 2, 1, 0, b'a'],
        &[0, 0, 0, 0, 9, 1, 2, 0xFF, b'a', 0, b'b', 0],
        &[&[0, 0, 0, 0, 0, 0, 31, 0xFE][..], &[b'x'; 31]].concat(),
    ];
    for body in accepted {
        let mut book = Book::globals();
        let at = book.record(BOUNDSHEET, body);
        book.eof();
        // The record is read; only its position is wrong.
        assert_refused(&book.bytes, 10, at);
    }
    let refused: [&[u8]; 9] = [
        &[],
        &[0, 0, 0, 0, 0, 0, 1],
        &[0, 0, 0, 0, 0, 0, 0, 0],
        &[0, 0, 0, 0, 0, 0, 1, 0],
        &[0, 0, 0, 0, 0, 0, 1, 0, b'a', b'b'],
        &[0, 0, 0, 0, 0, 3, 1, 0, b'a'],
        &[0, 0, 0, 0, 0, 6, 1, 0, b'a'],
        &[0, 0, 0, 0, 0, 0, 1, 1, b'a'],
        &[&[0, 0, 0, 0, 0, 0, 32, 0][..], &[b'x'; 32]].concat(),
    ];
    for body in refused {
        let mut book = Book::globals();
        let at = book.record(BOUNDSHEET, body);
        book.eof();
        assert_refused(&book.bytes, 6, at);
    }
}

#[test]
fn number_6_sizes_of_cell_records() {
    let bodies: [(u16, Vec<u8>); 8] = [
        (BLANK, vec![0; 6]),
        (NUMBER, vec![0; 14]),
        (RK, vec![0; 10]),
        (LABELSST, vec![0; 10]),
        (BOOLERR, vec![0; 8]),
        (MULRK, mulrk_body(0, &[0, 0], 1)),
        (MULBLANK, vec![0, 0, 0, 0, 1, 0, 2, 0, 1, 0]),
        (DIMENSIONS, vec![0; 14]),
    ];
    for (kind, body) in bodies {
        assert_eq!(refused_record(1, kind, &body), None, "{kind:04X}");
        for size in 0..body.len() + 20 {
            let mut resized = body.clone();
            resized.resize(size, 0);
            let expected = (size != body.len()).then_some((6, 0));
            assert_eq!(
                refused_record(1, kind, &resized),
                expected,
                "{kind:04X} {size}"
            );
        }
    }
}

#[test]
fn number_6_columns() {
    let bodies: [(u16, Vec<u8>); 6] = [
        (BLANK, vec![0; 6]),
        (NUMBER, vec![0; 14]),
        (RK, vec![0; 10]),
        (LABELSST, vec![0; 10]),
        (BOOLERR, vec![0; 8]),
        (FORMULA, formula_body([0; 8], &[], &[])),
    ];
    for (kind, mut body) in bodies {
        body[..4].copy_from_slice(&[0xFF, 0xFF, 0xFF, 0]);
        assert_eq!(refused_record(1, kind, &body), None, "{kind:04X}");
        body[2..4].copy_from_slice(&[0, 1]);
        assert_eq!(refused_record(1, kind, &body), Some((6, 0)), "{kind:04X}");
    }
}

#[test]
fn number_6_truth_error_and_rk() {
    let boolerr = |value, which| refused_record(0, BOOLERR, &[0, 0, 0, 0, 0, 0, value, which]);
    for value in 0..=255 {
        let truth = (value > 1).then_some((6, 0));
        assert_eq!(boolerr(value, 0), truth);
        let known = [0x00, 0x07, 0x0F, 0x17, 0x1D, 0x24, 0x2A].contains(&value);
        assert_eq!(boolerr(value, 1), (!known).then_some((6, 0)));
        assert_eq!(boolerr(0, value).is_some(), value > 1);
    }
    assert_eq!(refused_record(0, RK, &rk_body(0x7FF0_0000)), Some((6, 0)));
    assert_eq!(refused_record(0, RK, &rk_body(0xFFFF_FFFD)), Some((6, 0)));
    assert_eq!(refused_record(0, RK, &rk_body(0xFFFF_FFFF)), None);
    assert_eq!(refused_record(0, RK, &rk_body(0x7FEF_FFFD)), None);
}

#[test]
fn number_6_formulas() {
    let formula = |body: &[u8]| refused_record(0, FORMULA, body);
    let body = formula_body([0; 8], &[1, 2, 3], &[]);
    assert_eq!(formula(&body), None);
    assert_eq!(formula(&body[..24]), Some((6, 0)));
    assert_eq!(formula(&body[..22]), Some((6, 0)));
    assert_eq!(formula(&body[..21]), Some((6, 0)));
    assert_eq!(formula(&[]), Some((6, 0)));
    let result = |which, detail| {
        let field = [which, 0xBB, detail, 0xBB, 0xBB, 0xBB, 0xFF, 0xFF];
        formula(&formula_body(field, &[], &[]))
    };
    let with_text = |detail| {
        let field = [0, 0xBB, detail, 0xBB, 0xBB, 0xBB, 0xFF, 0xFF];
        let sheet = one_sheet(WORKSHEET, 0, |book| {
            book.record(FORMULA, &formula_body(field, &[], &[]));
            book.record(STRING, &[0, 0, 0]);
        });
        check(&sheet.bytes).err()
    };
    for detail in 0..=255 {
        // Nothing but its missing text is wrong with it.
        assert_eq!(with_text(detail), None);
        assert_eq!(result(1, detail).is_some(), detail > 1);
        let known = [0x00, 0x07, 0x0F, 0x17, 0x1D, 0x24, 0x2A].contains(&detail);
        assert_eq!(result(2, detail).is_some(), !known);
        assert_eq!(result(3, detail), None);
        if detail > 3 {
            assert_eq!(result(detail, 0), Some((6, 0)));
        }
    }
}

#[test]
fn number_7_continue_without_a_parent() {
    let mut book = Book::globals();
    let at = book.record(CONTINUE, &[1]);
    book.eof();
    assert_refused(&book.bytes, 7, at);
    let mut book = Book::globals();
    book.boundsheet(0);
    let at = book.record(CONTINUE, &[]);
    assert_refused(&book.bytes, 7, at);
    let bodies: [(u16, Vec<u8>); 8] = [
        (BLANK, vec![0; 6]),
        (NUMBER, vec![0; 14]),
        (RK, vec![0; 10]),
        (LABELSST, vec![0; 10]),
        (BOOLERR, vec![0; 8]),
        (MULRK, mulrk_body(0, &[0, 0], 1)),
        (MULBLANK, vec![0, 0, 0, 0, 1, 0, 2, 0, 1, 0]),
        (FORMULA, formula_body([0; 8], &[], &[])),
    ];
    for (kind, body) in bodies {
        let mut at = 0;
        let sheet = one_sheet(WORKSHEET, 1, |book| {
            book.record(kind, &body);
            at = book.record(CONTINUE, &[1, 2]);
        });
        assert_refused(&sheet.bytes, 7, at);
    }
}

#[test]
fn number_8_string_table() {
    assert_eq!(refused_table(&[&[1, 2, 3, 4, 0, 0, 0]]), Some((8, 0)));
    assert_eq!(refused_table(&[&sst(0, &[])]), None);
    assert_eq!(refused_table(&[&sst(0, &[0])]), Some((8, 0)));
    assert_eq!(refused_table(&[&sst(1, &[])]), Some((8, 0)));
    let mut book = Book::globals();
    book.record(SST, &sst(0, &[]));
    let at = book.record(SST, &sst(0, &[]));
    book.eof();
    assert_refused(&book.bytes, 8, at);
}

#[test]
fn number_9_index() {
    assert_eq!(refused_record(3, LABELSST, &labelsst_body(2)), None);
    assert_eq!(refused_record(3, LABELSST, &labelsst_body(3)), Some((9, 0)));
    let highest = labelsst_body(u32::MAX);
    assert_eq!(refused_record(3, LABELSST, &highest), Some((9, 0)));
}

#[test]
fn number_10_sheet_list() {
    let mut book = Book::globals();
    let at = book.boundsheet(0);
    book.eof();
    assert_refused(&book.bytes, 10, at);
    let mut book = Book::new();
    book.empty(GLOBALS);
    let at = book.empty(WORKSHEET);
    book.empty(CHART);
    assert_refused(&book.bytes, 10, at);
}

fn of_question<T>(number: u8) -> Result<T, Refusal> {
    Err(Refusal { number, offset: 0 })
}

#[test]
fn numbers_11_and_12() {
    let sheet = sheet_with(1, RK, &rk_body(2));
    assert_eq!(list_cells(&sheet.bytes, 1, |_| ()), of_question(11));
    let mut buffer = [9; 4];
    assert_eq!(fetch(&sheet.bytes, 1, &mut buffer), of_question(11));
    assert_eq!(fetch(&sheet.bytes, 0, &mut []), of_question(12));
    assert_eq!(buffer, [9; 4]);
    let mut bytes = sheet.bytes.clone();
    let value = NewValue::Number(1.0);
    assert_eq!(correct(&mut bytes, 1, 1, 2, value), of_question(11));
    assert_eq!(correct(&mut bytes, 0, 1, 3, value), of_question(11));
    assert_eq!(bytes, sheet.bytes);
}

#[test]
fn numbers_13_to_15() {
    assert_eq!(judge_tokens(&[0]).unwrap_err().number, 13);
    assert_eq!(judge_tokens(&[3]).unwrap_err().number, 14);
    assert_eq!(judge_tokens(&[0x41, 0xFF, 0]).unwrap_err().number, 15);
}

#[test]
fn numbers_16_to_18() {
    let twice = one_sheet(WORKSHEET, 0, |book| {
        book.record(RK, &rk_body(2));
        book.record(BLANK, &[1, 0, 2, 0, 0, 0]);
    });
    let mut bytes = twice.bytes.clone();
    let nan = NewValue::Number(f64::NAN);
    assert_eq!(correct(&mut bytes, 0, 1, 2, nan), of_question(16));
    assert_eq!(bytes, twice.bytes);
    let once = sheet_with(1, LABELSST, &labelsst_body(0));
    let mut bytes = once.bytes.clone();
    assert_eq!(correct(&mut bytes, 0, 1, 2, nan), of_question(17));
    let value = NewValue::Text(1);
    assert_eq!(correct(&mut bytes, 0, 1, 2, value), of_question(18));
    assert_eq!(bytes, once.bytes);
}

#[test]
fn check_comes_before_the_questions() {
    let mut book = Book::globals();
    let at = book.record(FILEPASS, &[]);
    let refused = Refusal {
        number: 5,
        offset: at,
    };
    assert_eq!(list_cells(&book.bytes, 9, |_| ()), Err(refused));
    assert_eq!(fetch(&book.bytes, 9, &mut []), Err(refused));
    let value = NewValue::Number(f64::NAN);
    assert_eq!(correct(&mut book.bytes, 9, 9, 9, value), Err(refused));
    assert_eq!(read(&book.bytes), Err(refused));
}
