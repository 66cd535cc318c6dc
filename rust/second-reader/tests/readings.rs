//! How the open places are read, one test for each reading.

mod common;

use common::*;
use second_reader::*;

fn refusal<T>(number: u8, offset: usize) -> Result<T, Refusal> {
    Err(Refusal { number, offset })
}

fn cells(stream: &[u8]) -> Vec<Cell> {
    read(stream).unwrap().sheets.remove(0).cells
}

fn values(stream: &[u8]) -> Vec<Value> {
    cells(stream).iter().map(|cell| cell.value).collect()
}

// The walk.

#[test]
fn a1_a_first_record_that_is_cut() {
    for length in 1..=3 {
        assert_refused(&vec![0; length], 2, 0);
        assert_refused(&[0x09, 0x08, 0x10][..length], 2, 0);
    }
    assert_refused(&[0; 4], 3, 0);
    assert_refused(&[0x09, 0x08, 0x10, 0x00], 2, 0);
    let mut book = Book::new();
    book.record(BOF, &[0; 8_225]);
    assert_refused(&book.bytes, 2, 0);
    let mut book = Book::new();
    book.record(BOF, &[0; 8_224]);
    assert_refused(&book.bytes, 3, 0);
}

#[test]
fn a2_bytes_left_inside_a_substream() {
    for length in 1..=3 {
        let mut book = Book::globals();
        let at = book.raw(&vec![0; length]);
        assert_refused(&book.bytes, 2, at);
    }
    let mut book = Book::globals();
    book.record(OTHER, &[1]);
    assert_refused(&book.bytes, 4, book.len());
    let mut book = Book::globals();
    book.eof();
    book.bof(WORKSHEET);
    book.bof(CHART);
    book.eof();
    assert_refused(&book.bytes, 4, book.len());
}

#[test]
fn a3_a_bof_of_the_wrong_size_where_none_may_stand() {
    let wrong = &bof_body(0x0600, CHART)[..15];
    let mut book = Book::globals();
    let at = book.record(BOF, wrong);
    assert_refused(&book.bytes, 6, at);
    let sheet = one_sheet(MACRO, 0, |book| {
        book.record(BOF, wrong);
    });
    assert_refused(&sheet.bytes, 6, sheet.first);
    let mut at = 0;
    let sheet = one_sheet(WORKSHEET, 0, |book| {
        book.charts(3);
        at = book.record(BOF, wrong);
    });
    assert_refused(&sheet.bytes, 6, at);
}

#[test]
fn a4_a_wrong_version_and_a_kind_that_may_not_stand_there() {
    let mut book = Book::globals();
    let at = book.record(BOF, &bof_body(0x0500, CHART));
    assert_refused(&book.bytes, 4, at);
    let in_sheet = |version, kind| {
        let sheet = one_sheet(WORKSHEET, 0, |book| {
            book.record(BOF, &bof_body(version, kind));
            book.eof();
        });
        check(&sheet.bytes)
            .err()
            .map(|refusal| (refusal.number, refusal.offset - sheet.first))
    };
    assert_eq!(in_sheet(0x0500, MACRO), Some((4, 0)));
    assert_eq!(in_sheet(0x0500, CHART), Some((6, 0)));
    assert_eq!(in_sheet(0x0600, CHART), None);
    let mut book = Book::new();
    book.empty(GLOBALS);
    let at = book.record(BOF, &bof_body(0x0500, GLOBALS));
    assert_refused(&book.bytes, 4, at);
}

#[test]
fn a5_a_tail_of_zeros() {
    for length in [0, 1, 2, 3, 4, 5, 1_000] {
        let mut book = Book::new();
        book.empty(GLOBALS);
        book.bytes.resize(24 + length, 0);
        assert_accepted(&book.bytes);
        book.raw(&[1]);
        // With exactly three zeros the byte is the size's upper one, and a
        // body of 256 bytes passes the end.
        let number = if length <= 3 { 2 } else { 4 };
        assert_refused(&book.bytes, number, 24);
    }
    let mut sheet = one_sheet(CHART, 0, |_| ());
    sheet.bytes.extend([0; 3]);
    assert_accepted(&sheet.bytes);
}

#[test]
fn a6_between_top_level_substreams() {
    let after_globals = |kind, body: &[u8]| {
        let mut book = Book::new();
        book.empty(GLOBALS);
        book.record(kind, body);
        book.eof();
        check(&book.bytes)
    };
    assert_eq!(after_globals(EOF, &[]), refusal(4, 24));
    assert_eq!(after_globals(EOF, &[1]), refusal(4, 24));
    assert_eq!(after_globals(CONTINUE, &[1]), refusal(4, 24));
    assert_eq!(after_globals(BLANK, &[1]), refusal(4, 24));
    assert_eq!(after_globals(FILEPASS, &[1]), refusal(4, 24));
    assert_eq!(after_globals(OTHER, &[1; 8_225]), refusal(2, 24));
    assert_eq!(after_globals(BOF, &[0; 15]), refusal(6, 24));
    let second_globals = bof_body(0x0600, GLOBALS);
    assert_eq!(after_globals(BOF, &second_globals), refusal(4, 24));
    let worksheet = bof_body(0x0601, WORKSHEET);
    assert_eq!(after_globals(BOF, &worksheet), refusal(6, 24));
}

#[test]
fn a7_depth_and_judging_in_every_substream() {
    let nested = |kind, charts: usize| {
        let sheet = one_sheet(kind, 0, |book| {
            book.charts(charts);
            (0..charts).for_each(|_| {
                book.eof();
            });
        });
        let refusal = check(&sheet.bytes).err()?;
        Some((refusal.number, (refusal.offset - sheet.first) / 20))
    };
    for kind in [WORKSHEET, CHART] {
        assert_eq!(nested(kind, 3), None);
        assert_eq!(nested(kind, 4), Some((4, 3)));
    }
    assert_eq!(nested(MACRO, 1), Some((4, 0)));
    for kind in [WORKSHEET, CHART, MACRO] {
        let sheet = one_sheet(kind, 0, |book| {
            book.record(EOF, &[0]);
        });
        assert_refused(&sheet.bytes, 6, sheet.first);
    }
    // Charts side by side don't add up.
    let sheet = one_sheet(WORKSHEET, 0, |book| {
        for _ in 0..9 {
            book.empty(CHART);
        }
    });
    assert_accepted(&sheet.bytes);
    // In a chart a worksheet may not stand.
    let sheet = one_sheet(CHART, 0, |book| {
        book.empty(WORKSHEET);
    });
    assert_refused(&sheet.bytes, 4, sheet.first);
}

#[test]
fn a8_where_a_continue_is_passed_over() {
    let sheet = one_sheet(WORKSHEET, 0, |book| {
        book.record(DIMENSIONS, &[0; 14]);
        book.record(CONTINUE, &[1]);
        book.record(CONTINUE, &[]);
        book.bof(CHART);
        book.record(OTHER, &[]);
        book.record(CONTINUE, &[1]);
        // Cell records that are not read.
        book.record(BLANK, &[]);
        book.record(CONTINUE, &[1]);
        book.record(BOUNDSHEET, &[]);
        book.record(CONTINUE, &[1]);
        book.eof();
        book.record(CONTINUE, &[2]);
        book.record(SST, &[]);
        book.record(CONTINUE, &[2]);
        book.record(BOUNDSHEET, &[]);
        book.record(CONTINUE, &[2]);
    });
    assert_accepted(&sheet.bytes);
    let sheet = one_sheet(MACRO, 0, |book| {
        book.record(RK, &[]);
        book.record(CONTINUE, &[1]);
    });
    assert_accepted(&sheet.bytes);
    let mut book = Book::globals();
    book.record(NUMBER, &[1]);
    book.record(CONTINUE, &[1]);
    book.record(DIMENSIONS, &[]);
    book.record(CONTINUE, &[1]);
    book.eof();
    assert_accepted(&book.bytes);
    for kind in [WORKSHEET, CHART, MACRO] {
        let sheet = one_sheet(kind, 0, |book| {
            book.record(CONTINUE, &[1]);
        });
        assert_refused(&sheet.bytes, 7, sheet.first);
    }
    let sheet = one_sheet(CHART, 0, |book| {
        book.bof(CHART);
        book.record(CONTINUE, &[1]);
    });
    assert_refused(&sheet.bytes, 7, sheet.first + 20);
    // A CONTINUE that is cut is 2 before 7.
    let mut book = Book::globals();
    let at = book.header(CONTINUE, 1);
    assert_refused(&book.bytes, 2, at);
}

// The string table.

#[test]
fn a11_a_continue_after_a_complete_table() {
    assert_eq!(refused_table(&[&sst(0, &[]), &[1]]), Some((8, 1)));
    assert_eq!(refused_table(&[&sst(0, &[]), &[]]), Some((8, 1)));
    assert_eq!(
        refused_table(&[&sst(1, &[2, 0, 0, 1]), &[0, 2], &[3]]),
        Some((8, 2))
    );
    for (size, body) in [(2u16, vec![1]), (8_225, vec![0; 8_225])] {
        let mut book = Book::globals();
        book.record(SST, &sst(0, &[]));
        let at = book.header(CONTINUE, size);
        book.raw(&body);
        assert_refused(&book.bytes, 2, at);
    }
}

#[test]
fn a13_an_empty_continue() {
    assert_eq!(refused_table(&[&sst(1, &[]), &[]]), Some((8, 1)));
    assert_eq!(refused_table(&[&sst(1, &[2, 0, 0, 1]), &[]]), Some((8, 1)));
    let phonetic = sst(1, &[0, 0, 4, 1, 0, 0, 0]);
    assert_eq!(refused_table(&[&phonetic, &[], &[1]]), Some((8, 1)));
}

#[test]
fn a14_no_whole_continue_header_where_one_is_needed() {
    let needing = |tail: &[u8]| {
        let mut book = Book::globals();
        let sst_at = book.record(SST, &sst(1, &[3, 0, 0, 1]));
        let segment_at = book.record(CONTINUE, &[0, 2]);
        book.raw(tail);
        assert!(sst_at < segment_at);
        let refusal = check(&book.bytes).unwrap_err();
        (
            refusal.number,
            refusal.offset as isize - segment_at as isize,
        )
    };
    assert_eq!(needing(&[]), (8, 0));
    assert_eq!(needing(&[0x3C]), (8, 0));
    assert_eq!(needing(&[0x3C, 0, 2]), (8, 0));
    assert_eq!(needing(&[0x0A, 0, 0, 0]), (8, 0));
    assert_eq!(needing(&[0x0A, 0, 0xFF, 0xFF]), (8, 0));
    assert_eq!(needing(&[0x3C, 0, 3, 0, 0, 1]), (2, 6));
    assert_eq!(needing(&[0x3C, 0, 0xFF, 0xFF]), (2, 6));
}

#[test]
fn a15_what_may_not_be_cut() {
    // Heads of each size, cut at each place.
    let heads: [&[u8]; 4] = [
        &[0, 0, 0],
        &[0, 0, 8, 0, 0],
        &[0, 0, 4, 0, 0, 0, 0],
        &[0, 0, 12, 0, 0, 0, 0, 0, 0],
    ];
    for head in heads {
        assert_eq!(refused_table(&[&sst(1, head)]), None);
        for place in 1..head.len() {
            let (first, second) = head.split_at(place);
            assert_eq!(refused_table(&[&sst(1, first), second]), Some((8, 0)));
            let segments: [&[u8]; 3] = [&sst(1, &[]), first, second];
            assert_eq!(refused_table(&segments), Some((8, 1)));
        }
    }
    // The first character in another segment, and half of it.
    assert_eq!(refused_table(&[&sst(1, &[1, 0, 0]), &[0, 1]]), Some((8, 0)));
    assert_eq!(refused_table(&[&sst(1, &[1, 0, 0]), &[1]]), Some((8, 0)));
    assert_eq!(
        refused_table(&[&sst(1, &[1, 0, 1, 5]), &[0, 1]]),
        Some((8, 0))
    );
    // Half a later character.
    assert_eq!(
        refused_table(&[&sst(1, &[2, 0, 1, 5, 5, 6]), &[6]]),
        Some((8, 0))
    );
    let halved: [&[u8]; 3] = [&sst(1, &[3, 0, 1, 5, 5]), &[1, 6, 6, 7], &[1, 7]];
    assert_eq!(refused_table(&halved), Some((8, 1)));
    // A flags byte with no whole character after it.
    assert_eq!(
        refused_table(&[&sst(1, &[2, 0, 0, 5]), &[0], &[0, 5]]),
        Some((8, 1))
    );
    assert_eq!(
        refused_table(&[&sst(1, &[2, 0, 0, 5]), &[1, 5], &[0, 5]]),
        Some((8, 1))
    );
    // A run cut.
    let run: &[u8] = &[0, 0, 8, 2, 0, 1, 2, 3, 4, 1, 2];
    assert_eq!(refused_table(&[&sst(1, run), &[3, 4]]), Some((8, 0)));
}

#[test]
fn a16_where_a_segment_may_end() {
    let accepted: [&[&[u8]]; 8] = [
        &[&sst(1, &[]), &[1, 0, 0, 5]],
        &[&sst(2, &[1, 0, 0, 5]), &[1, 0, 1, 5, 5]],
        &[&sst(1, &[3, 0, 0, 5]), &[1, 6, 6], &[0xFE, 7]],
        &[&sst(1, &[1, 0, 8, 1, 0, 5]), &[1, 2, 3, 4]],
        &[&sst(1, &[1, 0, 8, 2, 0, 5, 1, 2, 3, 4]), &[1, 2, 3, 4]],
        &[&sst(1, &[1, 0, 4, 2, 0, 0, 0, 5]), &[1], &[2]],
        &[
            &sst(1, &[1, 0, 12, 1, 0, 1, 0, 0, 0, 5]),
            &[1, 2, 3, 4],
            &[1],
        ],
        &[&sst(3, &[0, 0, 0]), &[0, 0, 1], &[0, 0, 0xF2]],
    ];
    for segments in accepted {
        assert_eq!(refused_table(segments), None, "{segments:?}");
    }
    let (stream, _) = table(&[&sst(1, &[3, 0, 0, 5]), &[1, 6, 7], &[0xFE, 8]]);
    assert_eq!(read(&stream).unwrap().strings, [[5, 0x0706, 8]]);
}

#[test]
fn a17_left_over_bytes_and_a_second_table() {
    assert_eq!(refused_table(&[&sst(1, &[0, 0, 0, 9])]), Some((8, 0)));
    assert_eq!(
        refused_table(&[&sst(1, &[2, 0, 0, 5]), &[0, 6, 9]]),
        Some((8, 1))
    );
    for second in [&[][..], &[1], &sst(1, &[0, 0, 0])] {
        let mut book = Book::globals();
        book.record(SST, &sst(0, &[]));
        book.record(OTHER, &[]);
        let at = book.record(SST, second);
        book.eof();
        assert_refused(&book.bytes, 8, at);
    }
    let mut book = Book::globals();
    book.record(SST, &sst(0, &[]));
    let at = book.header(SST, 1);
    assert_refused(&book.bytes, 2, at);
    for kind in [WORKSHEET, CHART, MACRO] {
        let sheet = one_sheet(kind, 1, |book| {
            book.record(SST, &[1]);
        });
        assert_accepted(&sheet.bytes);
    }
}

#[test]
fn a19_a_fault_comes_before_a_later_segment_that_is_cut() {
    let mut book = Book::globals();
    let at = book.record(SST, &sst(1, &[1, 0, 1, 5]));
    book.header(CONTINUE, 9);
    assert_refused(&book.bytes, 8, at);
    let mut book = Book::globals();
    let at = book.record(SST, &sst(1, &[0, 0, 0, 9]));
    book.header(CONTINUE, 9_999);
    assert_refused(&book.bytes, 8, at);
    for total in [0u32, 1, 7, u32::MAX] {
        let body = [&total.to_le_bytes()[..], &[1, 0, 0, 0, 0, 0, 0]].concat();
        assert_eq!(refused_table(&[&body]), None);
    }
}

// Records that are read.

#[test]
fn a20_infinities_and_nans_are_listed_by_their_bits() {
    let patterns = [
        0x7FF0_0000_0000_0000,
        0xFFF0_0000_0000_0000,
        0x7FF0_0000_0000_0001,
        0x7FF8_0000_0000_0000,
        0xFFF8_1234_5678_9ABC,
    ];
    for bits in patterns {
        let sheet = sheet_with(0, NUMBER, &number_body(bits));
        assert_eq!(values(&sheet.bytes), [Value::Number(bits)]);
        let body = formula_body(bits.to_le_bytes(), &[], &[]);
        let sheet = sheet_with(0, FORMULA, &body);
        let result = FormulaResult::Number(bits);
        assert_eq!(values(&sheet.bytes), [Value::Formula(result)]);
    }
}

#[test]
fn a21_token_lengths_pass_the_check() {
    for length in [0usize, 1, 1_800, 1_801, 8_202] {
        let body = formula_body([0; 8], &vec![0xFF; length], &[]);
        let sheet = sheet_with(0, FORMULA, &body);
        let tokens = cells(&sheet.bytes)[0].tokens.clone();
        assert_eq!(tokens, sheet.first + 26..sheet.first + 26 + length);
    }
    let sheet = sheet_with(0, FORMULA, &formula_body([0; 8], &[3], &[0xFF; 9]));
    assert_eq!(sheet.bytes[cells(&sheet.bytes)[0].tokens.clone()], [3]);
}

#[test]
fn a22_dimensions() {
    let dimensions = |first_row: u32, last_row: u32, first_column: u16, last_column: u16| {
        let mut body = Vec::new();
        body.extend(first_row.to_le_bytes());
        body.extend(last_row.to_le_bytes());
        body.extend(first_column.to_le_bytes());
        body.extend(last_column.to_le_bytes());
        body.extend([0xFF, 0xFF]);
        refused_record(0, DIMENSIONS, &body)
    };
    assert_eq!(dimensions(65_535, 65_536, 255, 256), None);
    assert_eq!(dimensions(65_535, 0, 255, 0), None);
    assert_eq!(dimensions(65_536, 65_536, 255, 256), Some((6, 0)));
    assert_eq!(dimensions(65_535, 65_537, 255, 256), Some((6, 0)));
    assert_eq!(dimensions(65_535, 65_536, 256, 256), Some((6, 0)));
    assert_eq!(dimensions(65_535, 65_536, 255, 257), Some((6, 0)));
    let sheet = one_sheet(WORKSHEET, 0, |book| {
        for _ in 0..3 {
            book.record(DIMENSIONS, &[0; 14]);
        }
    });
    assert_accepted(&sheet.bytes);
    let sheet = one_sheet(CHART, 0, |book| {
        book.record(DIMENSIONS, &[0xFF; 14]);
    });
    assert_accepted(&sheet.bytes);
}

#[test]
fn a23_which_number_a_field_has() {
    let bad_column = [0, 0, 0, 1, 0, 0, 9, 0, 0, 0];
    assert_eq!(refused_record(1, LABELSST, &bad_column), Some((6, 0)));
    let bad_index = [0, 0, 0, 0, 0, 0, 1, 0, 0, 0];
    assert_eq!(refused_record(1, LABELSST, &bad_index), Some((9, 0)));
    assert_eq!(refused_record(1, LABELSST, &bad_index[..9]), Some((6, 0)));
    assert_eq!(refused_record(0, LABELSST, &labelsst_body(0)), Some((9, 0)));
}

#[test]
fn a24_formula_results() {
    let result = |field| {
        let sheet = one_sheet(WORKSHEET, 0, |book| {
            book.record(FORMULA, &formula_body(field, &[], &[]));
            if field[0] == 0 {
                book.record(STRING, &[1, 0, 0, b'a']);
            }
        });
        check(&sheet.bytes).map(|_| values(&sheet.bytes)[0])
    };
    let formula = |result| Ok(Value::Formula(result));
    let marked = |which, detail| result([which, 9, detail, 9, 9, 9, 0xFF, 0xFF]);
    assert_eq!(marked(0, 9), formula(FormulaResult::Text));
    assert_eq!(marked(1, 1), formula(FormulaResult::Truth(1)));
    assert_eq!(marked(2, 0x2A), formula(FormulaResult::Error(0x2A)));
    assert_eq!(marked(3, 9), formula(FormulaResult::Empty));
    assert_eq!(marked(4, 0).unwrap_err().number, 6);
    let number = [4, 9, 9, 9, 9, 9, 0xFE, 0xFF];
    let bits = u64::from_le_bytes(number);
    assert_eq!(result(number), formula(FormulaResult::Number(bits)));
}

#[test]
fn a25_multiple_records() {
    let mulrk =
        |first, words: &[u32], last| refused_record(0, MULRK, &mulrk_body(first, words, last));
    assert_eq!(mulrk(0, &[0; 256], 255), None);
    assert_eq!(mulrk(255, &[0], 255), None);
    assert_eq!(mulrk(255, &[0; 2], 256), Some((6, 0)));
    assert_eq!(mulrk(256, &[0], 256), Some((6, 0)));
    assert_eq!(mulrk(3, &[0; 2], 5), Some((6, 0)));
    assert_eq!(mulrk(3, &[0; 2], 3), Some((6, 0)));
    assert_eq!(mulrk(3, &[], 2), Some((6, 0)));
    assert_eq!(mulrk(0, &[], 0xFFFF), Some((6, 0)));
    assert_eq!(mulrk(1, &[0, 0x7FF0_0001], 2), Some((6, 0)));
    assert_eq!(mulrk(1, &[0xFFF0_0000, 0], 2), Some((6, 0)));
    let mulblank = |body: &[u8]| refused_record(0, MULBLANK, body);
    assert_eq!(mulblank(&[0, 0, 4, 0, 9, 9, 4, 0]), None);
    assert_eq!(mulblank(&[0, 0, 4, 0, 9, 9, 5, 0]), Some((6, 0)));
    assert_eq!(mulblank(&[0, 0, 4, 0, 3, 0]), Some((6, 0)));
}

// The sheet list.

/// Globals with BOUNDSHEETs of these types, then sheets of these kinds; each
/// BOUNDSHEET names the sheet whose number stands with it.
fn listed(entries: &[(u8, usize)], kinds: &[u16]) -> (Vec<u8>, Vec<usize>, Vec<usize>) {
    let mut book = Book::globals();
    let boundsheets: Vec<usize> = entries
        .iter()
        .map(|&(sheet_type, _)| book.boundsheet(sheet_type))
        .collect();
    book.eof();
    let bofs: Vec<usize> = kinds.iter().map(|&kind| book.empty(kind)).collect();
    for (&boundsheet, &(_, sheet)) in boundsheets.iter().zip(entries) {
        book.name(boundsheet, bofs[sheet]);
    }
    (book.bytes, boundsheets, bofs)
}

#[test]
fn a26_which_boundsheet_is_at_fault() {
    let kinds = [WORKSHEET, CHART, MACRO];
    let (stream, ..) = listed(&[(1, 2), (0, 0), (2, 1)], &kinds);
    let types: Vec<_> = read(&stream)
        .unwrap()
        .sheets
        .iter()
        .map(|s| s.sheet_type)
        .collect();
    assert_eq!(
        types,
        [SheetType::Macro, SheetType::Worksheet, SheetType::Chart]
    );
    // Of two naming one BOF, the later.
    let (stream, boundsheets, _) = listed(&[(0, 0), (2, 1), (0, 0)], &kinds);
    assert_refused(&stream, 10, boundsheets[2]);
    // The kind differs.
    let (stream, boundsheets, _) = listed(&[(0, 0), (2, 2), (0, 0)], &kinds);
    assert_refused(&stream, 10, boundsheets[1]);
    // Only where no BOUNDSHEET is at fault, the first BOF that none names.
    let (stream, _, bofs) = listed(&[(1, 2)], &kinds);
    assert_refused(&stream, 10, bofs[0]);
    let (stream, _, bofs) = listed(&[(0, 0), (1, 2)], &kinds);
    assert_refused(&stream, 10, bofs[1]);
    // The globals' BOF and inner ones don't qualify.
    let (mut stream, boundsheets, _) = listed(&[(0, 0), (2, 1), (1, 2)], &kinds);
    stream[boundsheets[1] + 4..][..4].copy_from_slice(&[0; 4]);
    assert_refused(&stream, 10, boundsheets[1]);
    let mut sheet = one_sheet(CHART, 0, |book| {
        book.empty(CHART);
    });
    assert_accepted(&sheet.bytes);
    let inner = (sheet.first as u32).to_le_bytes();
    sheet.bytes[24..28].copy_from_slice(&inner);
    assert_refused(&sheet.bytes, 10, 20);
    // It comes after the whole walk.
    let (mut stream, ..) = listed(&[(0, 0), (0, 0)], &kinds);
    stream.extend([1; 9]);
    assert_eq!(check(&stream).unwrap_err().number, 2);
}

// List, fetch, correct.

#[test]
fn a29_what_is_absent() {
    for kind in [CHART, MACRO] {
        let mut sheet = one_sheet(kind, 0, |book| {
            book.record(BLANK, &[0; 6]);
        });
        assert_eq!(cells(&sheet.bytes), []);
        let value = NewValue::Truth(9);
        assert_eq!(correct(&mut sheet.bytes, 0, 0, 0, value), refusal(11, 0));
    }
    let mut sheet = sheet_with(2, RK, &rk_body(2));
    let mut at = |row, column| correct(&mut sheet.bytes, 0, row, column, NewValue::Number(2.0));
    assert_eq!(at(1, 2), Ok(()));
    assert_eq!(at(65_537, 2), refusal(11, 0));
    assert_eq!(at(1, 65_538), refusal(11, 0));
    assert_eq!(at(1, 258), refusal(11, 0));
    assert_eq!(at(u32::MAX, u32::MAX), refusal(11, 0));
    assert_eq!(fetch(&sheet.bytes, 2, &mut []), refusal(11, 0));
    assert_eq!(fetch(&sheet.bytes, 1, &mut []), refusal(12, 0));
    let mut exact = [0];
    assert_eq!(fetch(&sheet.bytes, 1, &mut exact), Ok(1));
    assert_eq!(exact, [u16::from(b'a')]);
}

#[test]
fn a30_the_order_of_16_17_and_18() {
    let number_to = |kind, body: &[u8]| {
        let mut sheet = sheet_with(1, kind, body);
        correct(&mut sheet.bytes, 0, 1, 2, NewValue::Number(0.1)).map_err(|r| r.number)
    };
    assert_eq!(number_to(NUMBER, &number_body(0)), Ok(()));
    assert_eq!(number_to(RK, &rk_body(0)), Err(18));
    assert_eq!(number_to(LABELSST, &labelsst_body(0)), Err(17));
    let others = [
        (MULRK, mulrk_body(0, &[0; 4], 3)),
        (MULBLANK, vec![1, 0, 1, 0, 0, 0, 0, 0, 2, 0]),
        (BLANK, vec![1, 0, 2, 0, 0, 0]),
        (FORMULA, formula_body([0; 8], &[], &[])),
    ];
    for (kind, body) in others {
        let mut sheet = one_sheet(WORKSHEET, 1, |book| {
            book.record(kind, &body);
            book.record(LABELSST, &labelsst_body(0));
        });
        let value = NewValue::Text(9);
        assert_eq!(correct(&mut sheet.bytes, 0, 1, 2, value), refusal(16, 0));
    }
}

const ALL_KINDS: [NewValue; 4] = [
    NewValue::Number(1.0),
    NewValue::Text(0),
    NewValue::Truth(1),
    NewValue::Error(7),
];

#[test]
fn a31_formula_and_blank_cells_take_nothing() {
    let bodies = [
        (BLANK, vec![1, 0, 2, 0, 0, 0]),
        (MULBLANK, vec![1, 0, 2, 0, 0, 0, 2, 0]),
        (FORMULA, formula_body([0; 8], &[0x1E, 1, 0], &[])),
        (
            FORMULA,
            formula_body([1, 0, 1, 0, 0, 0, 0xFF, 0xFF], &[], &[]),
        ),
    ];
    for (kind, body) in bodies {
        for value in ALL_KINDS {
            let mut sheet = sheet_with(1, kind, &body);
            assert_eq!(correct(&mut sheet.bytes, 0, 1, 2, value), refusal(17, 0));
        }
    }
}

#[test]
fn a32_what_the_kinds_take() {
    let taken = |kind, body: &[u8]| {
        ALL_KINDS.map(|value| {
            let mut sheet = sheet_with(1, kind, body);
            let answer = correct(&mut sheet.bytes, 0, 1, 2, value);
            assert!(matches!(answer, Ok(()) | Err(Refusal { number: 17, .. })));
            answer.is_ok()
        })
    };
    assert_eq!(taken(NUMBER, &number_body(0)), [true, false, false, false]);
    assert_eq!(taken(RK, &rk_body(0)), [true, false, false, false]);
    assert_eq!(
        taken(MULRK, &mulrk_body(2, &[0], 2)),
        [true, false, false, false]
    );
    assert_eq!(
        taken(LABELSST, &labelsst_body(0)),
        [false, true, false, false]
    );
    for now in [[1, 0], [7, 1]] {
        let body = [1, 0, 2, 0, 3, 0, now[0], now[1]];
        assert_eq!(taken(BOOLERR, &body), [false, false, true, true]);
        let mut sheet = sheet_with(0, BOOLERR, &body);
        for (value, field) in [
            (NewValue::Truth(1), [1, 0]),
            (NewValue::Error(0x2A), [0x2A, 1]),
        ] {
            correct(&mut sheet.bytes, 0, 1, 2, value).unwrap();
            assert_eq!(sheet.bytes[sheet.first + 10..][..2], field);
        }
        for value in [NewValue::Truth(2), NewValue::Truth(255), NewValue::Error(1)] {
            assert_eq!(correct(&mut sheet.bytes, 0, 1, 2, value), refusal(18, 0));
        }
    }
    for number in [f64::NAN, f64::INFINITY, f64::NEG_INFINITY] {
        for (kind, body) in [(NUMBER, number_body(0)), (RK, rk_body(0))] {
            let mut sheet = sheet_with(0, kind, &body);
            let value = NewValue::Number(number);
            assert_eq!(correct(&mut sheet.bytes, 0, 1, 2, value), refusal(18, 0));
        }
    }
}

#[test]
fn a35_float_form_first() {
    let packed = [
        (1.0, 0x3FF0_0000),
        (-0.0, 0x8000_0000),
        (-1.0, 0xBFF0_0000),
        (-536_870_912.0, 0xC1C0_0000),
    ];
    for (number, word) in packed {
        // The middle word of three is changed and no other byte.
        let mut sheet = sheet_with(0, MULRK, &mulrk_body(1, &[6, 10, 14], 3));
        let mut expected = sheet.bytes.clone();
        expected[sheet.first + 16..][..4].copy_from_slice(&u32::to_le_bytes(word));
        let value = NewValue::Number(number);
        assert_eq!(correct(&mut sheet.bytes, 0, 1, 2, value), Ok(()));
        assert_eq!(sheet.bytes, expected);
    }
}

#[test]
fn a36_nothing_is_cut_down() {
    let mut sheet = sheet_with(1, LABELSST, &labelsst_body(0));
    let before = sheet.bytes.clone();
    let value = NewValue::Text(0);
    assert_eq!(
        correct(&mut sheet.bytes, 0x1_0000, 1, 2, value),
        refusal(11, 0)
    );
    assert_eq!(
        correct(&mut sheet.bytes, 0, 0x1_0001, 2, value),
        refusal(11, 0)
    );
    assert_eq!(
        correct(&mut sheet.bytes, 0, 1, 0x1_0002, value),
        refusal(11, 0)
    );
    let value = NewValue::Text(0x1_0000);
    assert_eq!(correct(&mut sheet.bytes, 0, 1, 2, value), refusal(18, 0));
    assert_eq!(sheet.bytes, before);
}

// Formula bytes.

#[test]
fn a39_lengths() {
    assert_eq!(judge_tokens(&[]), refusal(13, 0));
    let mut tokens = vec![0x1E, 1, 0];
    tokens.resize(1_800, 0x12);
    assert_eq!(judge_tokens(&tokens), Ok(()));
    tokens.push(0x12);
    assert_eq!(judge_tokens(&tokens), refusal(13, 0));
    assert_eq!(judge_tokens(&[3; 1_801]), refusal(13, 0));
    assert_eq!(judge_tokens(&[3; 1_800]), refusal(14, 0));
}

/// So many operands, then these bytes.
fn after_operands(count: usize, tokens: &[u8]) -> Vec<u8> {
    [&vec![0x16; count], tokens].concat()
}

#[test]
fn a40_functions() {
    let variable = |count: u8, index: u16| {
        let [low, high] = index.to_le_bytes();
        let count_of = usize::from(count & 0x7F);
        judge_tokens(&after_operands(count_of, &[0x42, count, low, high])).map_err(|r| r.number)
    };
    assert_eq!(variable(0, 255), Err(15));
    assert_eq!(variable(1, 255), Ok(()));
    assert_eq!(variable(30, 255), Ok(()));
    assert_eq!(variable(31, 255), Err(15));
    assert_eq!(variable(0x81, 255), Ok(()));
    assert_eq!(variable(0x9F, 255), Err(15));
    assert_eq!(variable(1, 255 | 0x8000), Err(15));
    assert_eq!(variable(1, 368), Err(15));
    assert_eq!(variable(1, 367), Ok(()));
    let fixed = |count, index: u16| {
        let [low, high] = index.to_le_bytes();
        judge_tokens(&after_operands(count, &[0x21, low, high])).map_err(|r| (r.number, r.offset))
    };
    assert_eq!(fixed(1, 15), Ok(()));
    assert_eq!(fixed(1, 15 | 0x8000), Err((15, 1)));
    assert_eq!(fixed(0, 15), Err((14, 0)));
    assert_eq!(fixed(0, 368), Err((15, 0)));
    assert_eq!(fixed(1, 255), Err((15, 1)));
    assert_eq!(fixed(3, 31), Ok(()));
}

#[test]
fn a41_if_and_getpivotdata() {
    let accepted = |index: u8, high: u8| {
        (0u8..=127).filter(move |&count| {
            judge_tokens(&after_operands(
                usize::from(count),
                &[0x22, count, index, high],
            ))
            .is_ok()
        })
    };
    assert!(accepted(1, 0).eq(1..=3));
    assert!(accepted(358u16.to_le_bytes()[0], 1).eq(2..=30));
}

#[test]
fn a45_the_first_token_at_fault_decides() {
    assert_eq!(judge_tokens(&[0x03, 0xFF]), refusal(14, 0));
    // Per token 13, then 15, then 14.
    assert_eq!(judge_tokens(&[0x42, 9, 0xCA]), refusal(13, 0));
    assert_eq!(judge_tokens(&[0x42, 9, 0xCA, 0]), refusal(15, 0));
    assert_eq!(judge_tokens(&[0x42, 2, 1, 0]), refusal(14, 0));
}

#[test]
fn a46_memory_tokens() {
    assert_eq!(judge_tokens(&[0x29, 2, 0, 0x03, 0xFF]), refusal(14, 3));
    assert_eq!(judge_tokens(&[0x29, 0, 0, 0x16]), refusal(13, 0));
    assert_eq!(judge_tokens(&[0x29, 2, 0, 0x16, 0x16]), refusal(14, 5));
    assert_eq!(judge_tokens(&[0x29, 1, 0, 0x16, 0x16]), refusal(14, 5));
    assert_eq!(judge_tokens(&[0x27, 9, 9, 9, 9, 1, 0, 0x16]), Ok(()));
    assert_eq!(judge_tokens(&[0x68, 9, 9, 9, 9, 1, 0, 0x16]), Ok(()));
    assert_eq!(judge_tokens(&[0x27, 9, 9, 9, 9, 1]), refusal(13, 0));
    // The length is counted against the formula that holds it directly.
    let outreaching = [0x29, 4, 0, 0x29, 2, 0, 0x16, 0x15];
    assert_eq!(judge_tokens(&outreaching), refusal(13, 3));
    // A token may not reach over the end of the inner formula.
    let cut = [0x29, 2, 0, 0x1E, 1, 0];
    assert_eq!(judge_tokens(&cut), refusal(13, 3));
    // Its own fault comes before one of an outer token after it.
    assert_eq!(judge_tokens(&[0x29, 1, 0, 0x12, 0xFF]), refusal(14, 3));
    assert_eq!(judge_tokens(&[0x29, 1, 0, 0x16, 0xFF]), refusal(13, 4));
}

/// An operand inside so many memory tokens.
fn in_memory(depth: usize) -> Vec<u8> {
    (0..depth).fold(vec![0x16], |inner, _| {
        let length = (inner.len() as u16).to_le_bytes();
        [&[0x29, length[0], length[1]], &inner[..]].concat()
    })
}

#[test]
fn a47_nesting() {
    for depth in 0..=8 {
        assert_eq!(judge_tokens(&in_memory(depth)), Ok(()));
    }
    assert_eq!(judge_tokens(&in_memory(9)), refusal(13, 24));
    assert_eq!(judge_tokens(&in_memory(10)), refusal(13, 24));
    let side_by_side = [in_memory(8), in_memory(8), vec![3]].concat();
    assert_eq!(judge_tokens(&side_by_side), Ok(()));
}

#[test]
fn a48_tokens_that_stand_alone() {
    for first in [0x01, 0x02] {
        assert_eq!(judge_tokens(&[first, 9, 9, 9, 9]), Ok(()));
        assert_eq!(judge_tokens(&[first, 9, 9, 9]), refusal(13, 0));
        assert_eq!(judge_tokens(&[first, 9, 9, 9, 9, 0x15]), refusal(13, 0));
        assert_eq!(judge_tokens(&[0x16, first, 9, 9, 9]), refusal(13, 1));
        assert_eq!(judge_tokens(&[0x16, first, 9, 9, 9, 9]), refusal(13, 1));
        assert_eq!(
            judge_tokens(&[0x29, 5, 0, first, 9, 9, 9, 9]),
            refusal(13, 3)
        );
        assert_eq!(judge_tokens(&[0x29, 2, 0, first, 9]), refusal(13, 3));
    }
}

#[test]
fn a49_tokens_that_are_unknown() {
    let zeros = [0; 40];
    let unknown_classed = |first: u8| matches!(first & 0x1F | 0x20, 0x2E..=0x38 | 0x3E | 0x3F);
    for first in 0..=255u8 {
        let unknown = match first {
            0x00 | 0x18 | 0x1A | 0x1B => true,
            0x20..=0x7F => unknown_classed(first),
            0x80.. => true,
            _ => false,
        };
        // Two operands before it, so that what is known and whole passes it.
        let mut tokens = vec![0x16, 0x16, first];
        tokens.extend(zeros);
        let refused_here = judge_tokens(&tokens) == refusal(13, 2);
        let misplaced = matches!(first, 0x01 | 0x02);
        let empty_memory =
            matches!(first & 0x1F | 0x20, 0x26..=0x29) && (0x20..0x80).contains(&first);
        let no_kind = first == 0x19;
        assert_eq!(
            refused_here,
            unknown || misplaced || empty_memory || no_kind,
            "{first:02X}"
        );
    }
    for which in 0..=255 {
        let known = [0x01, 0x02, 0x04, 0x08, 0x10, 0x40, 0x41].contains(&which);
        // A jump of many distances leads to the end, one of the others to a token.
        let tokens: &[u8] = match which {
            0x04 => &[0x16, 0x19, which, 0, 0, 2, 0],
            0x08 => &[0x16, 0x19, which, 0, 0, 0x15],
            _ => &[0x16, 0x19, which, 0, 0],
        };
        let expected = if known { Ok(()) } else { refusal(13, 1) };
        assert_eq!(judge_tokens(tokens), expected, "{which:02X}");
    }
}

#[test]
fn a50_operands_of_paren_and_attributes() {
    assert_eq!(judge_tokens(&[0x15]), refusal(14, 0));
    assert_eq!(judge_tokens(&[0x16, 0x15]), Ok(()));
    assert_eq!(judge_tokens(&[0x19, 0x10, 9, 9]), refusal(14, 0));
    assert_eq!(judge_tokens(&[0x16, 0x19, 0x10, 9, 9]), Ok(()));
    for which in [0x01, 0x40, 0x41] {
        assert_eq!(judge_tokens(&[0x19, which, 9, 9, 0x16]), Ok(()));
        assert_eq!(judge_tokens(&[0x16, 0x19, which, 9, 9]), Ok(()));
    }
    // Those that jump must land.
    assert_eq!(judge_tokens(&[0x19, 0x02, 0, 0, 0x16]), Ok(()));
    assert_eq!(judge_tokens(&[0x16, 0x19, 0x02, 0, 0]), Ok(()));
    assert_eq!(judge_tokens(&[0x19, 0x08, 0, 0, 0x16]), Ok(()));
    for which in [0x01, 0x02, 0x08, 0x40, 0x41] {
        assert_eq!(judge_tokens(&[0x19, which, 9, 9]), refusal(14, 4));
        assert_eq!(judge_tokens(&[0x19, which, 9]), refusal(13, 0));
    }
    let choose = |n: u16, words: usize| {
        let [low, high] = n.to_le_bytes();
        let mut tokens = vec![0x16, 0x19, 0x04, low, high];
        // All to the end.
        let end = (2 * words as u16).to_le_bytes();
        tokens.extend(end.repeat(words));
        judge_tokens(&tokens)
    };
    assert_eq!(choose(0, 1), Ok(()));
    assert_eq!(choose(0, 0), refusal(13, 1));
    assert_eq!(choose(5, 6), Ok(()));
    assert_eq!(choose(5, 5), refusal(13, 1));
    assert_eq!(choose(0xFFFF, 800), refusal(13, 1));
}

#[test]
fn data_sizes_and_column_words() {
    let sizes = [
        (0x1E, 2),
        (0x1F, 8),
        (0x23, 4),
        (0x24, 4),
        (0x25, 8),
        (0x2A, 4),
        (0x2B, 8),
        (0x2C, 4),
        (0x2D, 8),
        (0x39, 6),
        (0x3A, 6),
        (0x3B, 10),
        (0x3C, 6),
        (0x3D, 10),
    ];
    for (first, size) in sizes {
        let classes: &[u8] = if first < 0x20 { &[0] } else { &[0, 0x20, 0x40] };
        for class in classes {
            let mut tokens = vec![0; 1 + size];
            tokens[0] = first + class;
            assert_eq!(judge_tokens(&tokens), Ok(()), "{first:02X}");
            assert_eq!(judge_tokens(&tokens[..size]), refusal(13, 0), "{first:02X}");
            // Which data bytes have bits that are judged.
            let judged: Vec<usize> = (1..=size)
                .filter(|&at| {
                    let mut changed = tokens.clone();
                    changed[at] = 0x3F;
                    judge_tokens(&changed).is_err()
                })
                .collect();
            let columns: &[usize] = match first {
                0x24 => &[4],
                0x25 => &[6, 8],
                0x3A => &[6],
                0x3B => &[8, 10],
                _ => &[],
            };
            assert_eq!(judged, columns, "{first:02X}");
            for &at in columns {
                for bit in 0..8 {
                    let mut changed = tokens.clone();
                    changed[at] = 1 << bit;
                    assert_eq!(judge_tokens(&changed).is_ok(), bit >= 6);
                }
            }
        }
    }
    assert_eq!(judge_tokens(&[0x17, 2, 0xFE, 9, 9]), Ok(()));
    assert_eq!(judge_tokens(&[0x17, 2, 0x01, 9, 9, 9, 9]), Ok(()));
    assert_eq!(judge_tokens(&[0x17, 0, 0x01]), Ok(()));
    assert_eq!(judge_tokens(&[0x17, 2, 0x01, 9, 9, 9]), refusal(13, 0));
    assert_eq!(judge_tokens(&[0x17, 0]), refusal(13, 0));
    assert_eq!(judge_tokens(&[0x1C, 0x2A]), Ok(()));
    assert_eq!(judge_tokens(&[0x1C, 0x2B]), refusal(13, 0));
    assert_eq!(judge_tokens(&[0x1D, 1]), Ok(()));
    assert_eq!(judge_tokens(&[0x1D, 2]), refusal(13, 0));
    assert_eq!(judge_tokens(&[0x1D]), refusal(13, 0));
}

// The program.

#[test]
fn a52_what_is_printed() {
    let mut book = Book::globals();
    let entries = [book.boundsheet(2), book.boundsheet(0), book.boundsheet(1)];
    book.record(SST, &table_of(2));
    book.eof();
    let chart = book.empty(CHART);
    let worksheet = book.bof(WORKSHEET);
    book.record(BLANK, &[0, 0, 0, 0, 9, 9]);
    book.record(LABELSST, &labelsst_body(1));
    book.record(BOOLERR, &[2, 0, 3, 0, 0, 0, 1, 0]);
    book.record(BOOLERR, &[2, 0, 4, 0, 0, 0, 7, 1]);
    book.record(NUMBER, &number_body(0xFFF8_0000_0000_ABCD));
    book.record(MULRK, &mulrk_body(7, &[0x3FF0_0000, 2], 8));
    book.record(MULBLANK, &[3, 0, 1, 0, 0, 0, 0, 0, 2, 0]);
    for (which, detail) in [(0, 0), (1, 1), (2, 0x2A), (3, 0)] {
        let field = [which, 0, detail, 0, 0, 0, 0xFF, 0xFF];
        book.record(FORMULA, &formula_body(field, &[3], &[]));
        if which == 0 {
            book.record(STRING, &[2, 0, 0, b'a', b'b']);
        }
    }
    book.record(
        FORMULA,
        &formula_body(1f64.to_bits().to_le_bytes(), &[], &[]),
    );
    book.eof();
    let macros = book.empty(MACRO);
    for (entry, bof) in entries.into_iter().zip([chart, worksheet, macros]) {
        book.name(entry, bof);
    }
    let expected = "\
sheets 3 strings 2 cells 14
sheet 0 rows 0
sheet 1 rows 4
0 0 blank
1 2 text 1
2 3 truth 1
2 4 error 07
1 2 number FFF800000000ABCD
1 7 number 3FF0000000000000
1 8 number 0000000000000000
3 1 blank
3 2 blank
1 2 formula text
1 2 formula truth 1
1 2 formula error 2A
1 2 formula empty
1 2 formula number 3FF0000000000000
sheet 2 rows 0
";
    assert_eq!(print(&book.bytes), expected);
}

#[test]
fn names_formats_and_fields_are_where_they_stand() {
    let mut book = Book::globals();
    let body = [0, 0, 0, 0, 0, 0, 2, 1, b'n', 0, 0xA9, 3];
    let entry = book.record(BOUNDSHEET, &body);
    book.eof();
    let bof = book.bof(WORKSHEET);
    book.name(entry, bof);
    let number = book.record(NUMBER, &number_body(5));
    let packed = book.record(MULRK, &mulrk_body(1, &[2, 6], 2));
    let blank = book.record(BLANK, &[0, 0, 0, 0, 7, 8]);
    let formula = book.record(FORMULA, &formula_body([0; 8], &[1, 2], &[9; 5]));
    book.eof();
    let sheet = read(&book.bytes).unwrap().sheets.remove(0);
    assert!(sheet.wide);
    assert_eq!(sheet.name, entry + 12..entry + 16);
    assert_eq!(sheet.rows, 2);
    let fields: Vec<_> = sheet
        .cells
        .iter()
        .map(|cell| cell.value_field.clone())
        .collect();
    assert_eq!(
        fields,
        [
            number + 10..number + 18,
            packed + 10..packed + 14,
            packed + 16..packed + 20,
            blank + 8..blank + 10,
            formula + 10..formula + 18,
        ]
    );
    let parts: Vec<_> = sheet
        .cells
        .iter()
        .map(|cell| (cell.tokens.clone(), cell.trailing.clone()))
        .collect();
    let nothing = (0..0, 0..0);
    let of_formula = (formula + 26..formula + 28, formula + 28..formula + 33);
    assert_eq!(parts[4], of_formula);
    assert!(parts[..4].iter().all(|part| *part == nothing));
    let formats: Vec<_> = sheet.cells.iter().map(|cell| cell.format).collect();
    assert_eq!(formats, [3, 3, 3, 0x0807, 3]);
    let mut listed = Vec::new();
    list_cells(&book.bytes, 0, |cell| listed.push(cell.clone())).unwrap();
    assert_eq!(listed, sheet.cells);
}
