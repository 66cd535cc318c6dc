//! K6: the text of a formula's result, in the STRING record after it.

mod common;

use common::*;
use second_reader::*;

const UNIT: u16 = 0x5555;
const BETWEEN: [u16; 3] = [SHRFMLA, ARRAY, TABLE];

type Records<'a> = &'a [(u16, &'a [u8])];

/// A worksheet of these records, and where each stands.
fn worksheet(records: Records) -> (Vec<u8>, Vec<usize>) {
    in_sheet(WORKSHEET, records)
}

fn in_sheet(kind: u16, records: Records) -> (Vec<u8>, Vec<usize>) {
    let mut places = Vec::new();
    let sheet = one_sheet(kind, 2, |book| {
        for (kind, body) in records {
            places.push(book.record(*kind, body));
        }
    });
    (sheet.bytes, places)
}

/// A worksheet with a text formula at row 1, column 2 and these records after it.
fn after_formula(records: Records) -> (Vec<u8>, Vec<usize>) {
    let formula = text_formula();
    worksheet(&[&[(FORMULA, &formula[..])], records].concat())
}

/// The refusal of such a worksheet: its number, and the number of the record
/// that it stands at, where the formula is record 0.
#[track_caller]
fn refused(records: Records) -> Option<(u8, usize)> {
    let (bytes, places) = after_formula(records);
    let refusal = check(&bytes).err()?;
    let record = places.iter().position(|&at| at == refusal.offset);
    Some((refusal.number, record.expect("at a record")))
}

/// The units of the text of the formula at row 1, column 2 of sheet 0, by every
/// way to it.
#[track_caller]
fn text_of(stream: &[u8]) -> Vec<u16> {
    let reading = read(stream).expect("a stream that passes");
    let units = reading.sheets[0].texts[0].clone();
    let mut buffer = vec![UNIT; units.len() + 3];
    assert_eq!(text(stream, 0, 1, 2, &mut buffer), Ok(units.len()));
    assert_eq!(&buffer[..units.len()], &units[..]);
    assert_eq!(&buffer[units.len()..], [UNIT; 3]);
    // A buffer of exactly the length does.
    let mut exact = vec![UNIT; units.len()];
    assert_eq!(text(stream, 0, 1, 2, &mut exact), Ok(units.len()));
    assert_eq!(exact, units);
    units
}

#[track_caller]
fn accepted(records: Records) -> Vec<u16> {
    text_of(&after_formula(records).0)
}

/// The number that a fetch by cell is refused with, at 0 and with no unit
/// changed.
#[track_caller]
fn no_text(stream: &[u8], sheet: u32, row: u32, column: u32, units: usize) -> u8 {
    let mut buffer = vec![UNIT; units];
    let refusal = text(stream, sheet, row, column, &mut buffer).unwrap_err();
    assert!(buffer.iter().all(|&unit| unit == UNIT));
    assert_eq!(refusal.offset, 0);
    refusal.number
}

const AB: &[u8] = &[2, 0, 0, b'A', b'B'];
const AB_UNITS: [u16; 2] = [0x41, 0x42];

#[test]
fn d1_one_record_may_stand_between() {
    assert_eq!(accepted(&[(STRING, AB)]), AB_UNITS);
    for kind in BETWEEN {
        // Its body is not judged.
        for body in [&[][..], &[1, 2, 3], &[0xFF; 8_224]] {
            assert_eq!(accepted(&[(kind, body), (STRING, AB)]), AB_UNITS);
        }
        for second in BETWEEN {
            let two = [(kind, &[][..]), (second, &[]), (STRING, AB)];
            assert_eq!(refused(&two), Some((6, 0)));
        }
    }
    // No other record may: a data table's old type, one passed over, a
    // DIMENSIONS, a cell, a chart, the sheet's end.
    for kind in [0x0037, 0x0036, 0x04BD, 0x0220, OTHER, 0x0000, 0xFFFF] {
        assert_eq!(refused(&[(kind, &[]), (STRING, AB)]), Some((6, 0)));
    }
    assert_eq!(
        refused(&[(DIMENSIONS, &[0; 14]), (STRING, AB)]),
        Some((6, 0))
    );
    assert_eq!(refused(&[(BLANK, &[0; 6]), (STRING, AB)]), Some((6, 0)));
    let chart = bof_body(0x0600, CHART);
    let nested = [(BOF, &chart[..]), (EOF, &[]), (STRING, AB)];
    assert_eq!(refused(&nested), Some((6, 0)));
    assert_eq!(refused(&[]), Some((6, 0)));
}

#[test]
fn d1_the_record_between_is_no_cell_and_comes_after_the_formula() {
    let formula = text_formula();
    let (stream, places) = worksheet(&[(SHRFMLA, &[]), (FORMULA, &formula), (STRING, AB)]);
    assert_eq!(text_of(&stream), AB_UNITS);
    assert_eq!(check(&stream).unwrap().cells, 1);
    // After the text, or after another result, it is passed over, with any
    // CONTINUE after it.
    let (stream, _) = after_formula(&[(STRING, AB), (SHRFMLA, &[]), (CONTINUE, &[1])]);
    assert_eq!(text_of(&stream), AB_UNITS);
    let number = formula_body([0; 8], &[], &[]);
    let (stream, _) = worksheet(&[(FORMULA, &number), (ARRAY, &[]), (CONTINUE, &[])]);
    assert_accepted(&stream);
    assert_eq!(places.len(), 3);
}

#[test]
fn d2_no_continue_after_the_record_between() {
    for kind in BETWEEN {
        let records = [(kind, &[1][..]), (CONTINUE, &[]), (STRING, AB)];
        assert_eq!(refused(&records), Some((6, 0)));
    }
}

/// A stream that stops in a worksheet, after a text formula and these bytes.
fn stopped(records: Records, last: &[u8]) -> (Vec<u8>, usize, usize) {
    let mut book = Book::globals();
    let boundsheet = book.boundsheet(0);
    book.eof();
    let bof = book.bof(WORKSHEET);
    book.name(boundsheet, bof);
    let formula = book.record(FORMULA, &text_formula());
    for (kind, body) in records {
        book.record(*kind, body);
    }
    let at = book.raw(last);
    (book.bytes, formula, at)
}

#[test]
fn d3_a_text_that_is_missing() {
    let no_records: Records = &[];
    let between: Records = &[(TABLE, &[5])];
    for records in [no_records, between] {
        // The stream's end, and bytes that are no header: of a STRING too.
        for length in 0..=3 {
            let (bytes, formula, _) = stopped(records, &[0x07, 0x02, 0, 0][..length]);
            assert_refused(&bytes, 6, formula);
        }
        // A record of another type with a body that 2 would refuse.
        for header in [[0x31, 0, 1, 0], [0x31, 0, 0x21, 0x20], [0x3C, 0, 1, 0]] {
            let (bytes, formula, _) = stopped(records, &header);
            assert_refused(&bytes, 6, formula);
        }
        // A whole header of a STRING: it is there, and its body is cut or large.
        for header in [[0x07, 0x02, 1, 0], [0x07, 0x02, 0x21, 0x20]] {
            let (bytes, _, text) = stopped(records, &header);
            assert_refused(&bytes, 2, text);
        }
        let large = [&[0x07, 0x02, 0x21, 0x20][..], &[0; 8_225]].concat();
        let (bytes, _, text) = stopped(records, &large);
        assert_refused(&bytes, 2, text);
    }
    // A record between whose body is cut or large.
    for kind in BETWEEN {
        let [low, high] = kind.to_le_bytes();
        for header in [[low, high, 1, 0], [low, high, 0x21, 0x20]] {
            let (bytes, formula, _) = stopped(&[], &header);
            assert_refused(&bytes, 6, formula);
        }
        let large = [&[low, high, 0x21, 0x20][..], &[0; 8_225]].concat();
        let (bytes, formula, _) = stopped(&[], &large);
        assert_refused(&bytes, 6, formula);
    }
}

#[test]
fn d4_a_continue_right_after_a_text_formula() {
    assert_eq!(refused(&[(CONTINUE, &[]), (STRING, AB)]), Some((6, 0)));
    assert_eq!(refused(&[(CONTINUE, &[1, 2])]), Some((6, 0)));
    // After a formula with another result it stays 7 at the CONTINUE.
    for result in [[0; 8], [3, 0, 0, 0, 0, 0, 0xFF, 0xFF]] {
        let formula = formula_body(result, &[], &[]);
        let (bytes, places) = worksheet(&[(FORMULA, &formula), (CONTINUE, &[])]);
        assert_refused(&bytes, 7, places[1]);
    }
    // Where the stream ends it is 6 at the formula, not 4 at its length.
    let (bytes, formula, _) = stopped(&[], &[]);
    assert_refused(&bytes, 6, formula);
}

#[test]
fn d5_a_head_that_is_cut() {
    for size in 0..=2 {
        assert_eq!(refused(&[(STRING, &AB[..size])]), Some((6, 1)));
        // The head stands in the STRING itself, whatever goes on.
        let goes_on = [(STRING, &AB[..size]), (CONTINUE, &AB[size..])];
        assert_eq!(refused(&goes_on), Some((6, 1)));
    }
    // No first character with the head, narrow and wide; half a wide one.
    let goes_on = [(STRING, &[1, 0, 0][..]), (CONTINUE, &[0, b'A'])];
    assert_eq!(refused(&goes_on), Some((6, 1)));
    let goes_on = [(STRING, &[1, 0, 1][..]), (CONTINUE, &[1, b'A', 0])];
    assert_eq!(refused(&goes_on), Some((6, 1)));
    let half = [(STRING, &[1, 0, 1, b'A'][..]), (CONTINUE, &[1, b'A', 0])];
    assert_eq!(refused(&half), Some((6, 1)));
}

#[test]
fn d5_characters_that_run_on() {
    // Each segment has a width of its own.
    let units = accepted(&[
        (STRING, &[6, 0, 0, b'A']),
        (CONTINUE, &[1, 0xA9, 3, 0xB1, 3]),
        (CONTINUE, &[0, b'B']),
        (CONTINUE, &[1, b'C', 0]),
        (CONTINUE, &[0, 0xFF]),
    ]);
    assert_eq!(units, [0x41, 0x03A9, 0x03B1, 0x42, 0x43, 0xFF]);
    let units = accepted(&[
        (ARRAY, &[]),
        (STRING, &[2, 0, 1, 0, 0xD8]),
        (CONTINUE, &[0, 0]),
    ]);
    assert_eq!(units, [0xD800, 0]);
    // The flags byte's other bits are ignored.
    let units = accepted(&[(STRING, &[2, 0, 0, b'A']), (CONTINUE, &[0xFE, b'B'])]);
    assert_eq!(units, AB_UNITS);
}

#[test]
fn d5_no_continue_where_one_is_needed() {
    // The last segment is at fault.
    let first = (STRING, &[3, 0, 0, b'A'][..]);
    let next = (CONTINUE, &[0, b'B'][..]);
    assert_eq!(refused(&[first]), Some((6, 1)));
    assert_eq!(refused(&[first, next]), Some((6, 2)));
    assert_eq!(refused(&[first, next, (OTHER, &[0, 1])]), Some((6, 2)));
    for records in [&[first][..], &[first, next]] {
        let last = records.len();
        for length in 0..=3 {
            let (bytes, _, end) = stopped(records, &[0x3C, 0, 2, 0][..length]);
            let segment = end - 4 - records[last - 1].1.len();
            assert_refused(&bytes, 6, segment);
        }
        // Another type with a bad body too, but a CONTINUE's bad body is 2.
        let (bytes, _, end) = stopped(records, &[0x31, 0, 0x21, 0x20]);
        assert_refused(&bytes, 6, end - 4 - records[last - 1].1.len());
        for header in [[0x3C, 0, 1, 0], [0x3C, 0, 0x21, 0x20]] {
            let (bytes, _, at) = stopped(records, &header);
            assert_refused(&bytes, 2, at);
        }
    }
}

#[test]
fn d5_segments_that_are_broken() {
    let first = (STRING, &[3, 0, 0, b'A'][..]);
    // An empty CONTINUE, a flags byte alone, half a character: that CONTINUE.
    for body in [&[][..], &[0], &[1], &[1, b'B'], &[1, b'B', 0, b'C']] {
        assert_eq!(refused(&[first, (CONTINUE, body)]), Some((6, 2)));
        let more = [first, (CONTINUE, body), (CONTINUE, &[0, b'B', b'C'])];
        assert_eq!(refused(&more), Some((6, 2)));
    }
    // A character cut in the STRING.
    let cut = [(STRING, &[2, 0, 1, 1, 1, 2][..]), (CONTINUE, &[1, 2, 2])];
    assert_eq!(refused(&cut), Some((6, 1)));
    // Bytes left over: the segment in which the last character stands.
    assert_eq!(refused(&[(STRING, &[1, 0, 0, 1, 2])]), Some((6, 1)));
    assert_eq!(refused(&[(STRING, &[0, 0, 0, 1])]), Some((6, 1)));
    assert_eq!(refused(&[(STRING, &[1, 0, 1, 1, 2, 3])]), Some((6, 1)));
    let left = [first, (CONTINUE, &[0, b'B', b'C', b'D'])];
    assert_eq!(refused(&left), Some((6, 2)));
    let left = [(STRING, &[1, 0, 0, 1, 2][..]), (CONTINUE, &[])];
    assert_eq!(refused(&left), Some((6, 1)));
    // A CONTINUE too many, empty or not.
    for body in [&[][..], &[0], &[0, b'D']] {
        assert_eq!(refused(&[(STRING, AB), (CONTINUE, body)]), Some((6, 2)));
        let split = [first, (CONTINUE, &[0, b'B', b'C']), (CONTINUE, body)];
        assert_eq!(refused(&split), Some((6, 3)));
        let none = [(STRING, &[0, 0, 0][..]), (CONTINUE, body)];
        assert_eq!(refused(&none), Some((6, 2)));
    }
    // One too many whose body is cut or large is 2 there.
    for header in [[0x3C, 0, 1, 0], [0x3C, 0, 0x21, 0x20]] {
        let (bytes, _, at) = stopped(&[(STRING, AB)], &header);
        assert_refused(&bytes, 2, at);
    }
    // A cut header behind the whole text is the walk's.
    let (bytes, _, at) = stopped(&[(STRING, AB)], &[0x3C, 0, 1]);
    assert_refused(&bytes, 2, at);
    let (bytes, _, at) = stopped(&[(STRING, AB)], &[]);
    assert_refused(&bytes, 4, at);
}

#[test]
fn d6_no_characters_and_very_many() {
    assert_eq!(accepted(&[(STRING, &[0, 0, 0])]), []);
    assert_eq!(accepted(&[(STRING, &[0, 0, 0xFF])]), []);
    // An empty result is no text: a STRING after it has no formula waiting.
    let empty = formula_body([3, 0, 0, 0, 0, 0, 0xFF, 0xFF], &[], &[]);
    let (bytes, places) = worksheet(&[(FORMULA, &empty), (STRING, &[0, 0, 0])]);
    assert_refused(&bytes, 6, places[1]);
    // 65,535 characters: 8,221 with the head, six times 8,223, the rest.
    let first = [&[0xFF, 0xFF, 0][..], &[b'x'; 8_221]].concat();
    let whole = [&[0][..], &[b'y'; 8_223]].concat();
    let left = 65_535 - 8_221 - 6 * 8_223;
    let last = [&[0][..], &vec![b'z'; left]].concat();
    let mut records = vec![(STRING, &first[..])];
    records.extend([(CONTINUE, &whole[..]); 6]);
    records.push((CONTINUE, &last));
    let units = accepted(&records);
    assert_eq!(units.len(), 65_535);
    assert_eq!((units[8_220], units[8_221]), (0x78, 0x79));
    assert_eq!((units[57_558], units[57_559]), (0x79, 0x7A));
}

#[test]
fn d7_only_bit_0_of_the_flags_counts() {
    for flags in 0..=255u8 {
        let body = [1, 0, flags, b'A', 0];
        let size = 4 + usize::from(flags & 1);
        assert_eq!(accepted(&[(STRING, &body[..size])]), [0x41]);
        // Runs and phonetic bytes would be left over.
        if flags & 1 == 0 {
            let with_run = [1, 0, flags, 1, 0, b'A', 0, 0, 0, 0];
            assert_eq!(refused(&[(STRING, &with_run)]), Some((6, 1)));
        }
    }
}

#[test]
fn d8_a_string_without_a_waiting_formula() {
    let number = number_body(0);
    let formula = formula_body([0; 8], &[], &[]);
    let truth = formula_body([1, 0, 1, 0, 0, 0, 0xFF, 0xFF], &[], &[]);
    for before in [
        &[][..],
        &[(NUMBER, &number[..])],
        &[(FORMULA, &formula[..])],
        &[(FORMULA, &truth[..])],
        &[(FORMULA, &formula[..]), (SHRFMLA, &[])],
        &[(DIMENSIONS, &[0; 14][..])],
        &[(OTHER, &[][..])],
    ] {
        for body in [&[][..], AB, &[0xFF; 40]] {
            let (bytes, places) = worksheet(&[before, &[(STRING, body)]].concat());
            assert_refused(&bytes, 6, places[before.len()]);
        }
    }
    // A second STRING is without one, and so is one after the text's CONTINUEs.
    assert_eq!(refused(&[(STRING, AB), (STRING, AB)]), Some((6, 2)));
    let split = [(STRING, &[2, 0, 0, 1][..]), (CONTINUE, &[0, 2])];
    assert_eq!(
        refused(&[&split[..], &[(STRING, AB)]].concat()),
        Some((6, 3))
    );
    // After a nested chart the worksheet is read again.
    let chart = bof_body(0x0600, CHART);
    let after = [(BOF, &chart[..]), (EOF, &[]), (STRING, AB)];
    let (bytes, places) = worksheet(&after);
    assert_refused(&bytes, 6, places[2]);
    // 2 for its body comes first.
    let (mut bytes, places) = worksheet(&[(STRING, AB)]);
    bytes.truncate(places[0] + 8);
    assert_refused(&bytes, 2, places[0]);
    let (bytes, places) = worksheet(&[(STRING, &[0; 8_225])]);
    assert_refused(&bytes, 2, places[0]);
}

#[test]
fn d8_elsewhere_it_is_passed_over() {
    let formula = text_formula();
    let stray = [(STRING, &[0xFF][..]), (CONTINUE, &[]), (STRING, AB)];
    let alone = [(FORMULA, &formula[..])];
    for kind in [CHART, MACRO] {
        for records in [&stray[..], &alone, &[(FORMULA, &formula), (CONTINUE, &[])]] {
            let (bytes, _) = in_sheet(kind, records);
            assert_accepted(&bytes);
            assert_eq!(no_text(&bytes, 0, 1, 2, 5), 11);
            assert!(read(&bytes).unwrap().sheets[0].texts.is_empty());
        }
    }
    // In a chart inside a worksheet, and in the globals.
    let chart = bof_body(0x0600, CHART);
    let start = [(BOF, &chart[..])];
    let end = [(EOF, &[][..])];
    for inside in [&[(STRING, &[][..])][..], &alone] {
        let (bytes, _) = worksheet(&[&start[..], inside, &end[..]].concat());
        assert_accepted(&bytes);
    }
    let mut book = Book::globals();
    book.record(OTHER, &[]);
    for (kind, body) in stray.iter().chain(&alone) {
        book.record(*kind, body);
    }
    book.record(CONTINUE, &[1]);
    book.eof();
    assert_accepted(&book.bytes);
}

/// A FORMULA body at this address with this result.
fn formula_at(row: u8, column: u8, result: [u8; 8]) -> Vec<u8> {
    let mut body = formula_body(result, &[], &[]);
    (body[0], body[2]) = (row, column);
    body
}

#[test]
fn d9_fetching_by_cell() {
    let text_at = |row, column| formula_at(row, column, TEXT_RESULT);
    let (twice, other) = (text_at(7, 7), text_at(7, 8));
    let number = formula_at(0, 1, [0; 8]);
    let empty = formula_at(0, 2, [3, 0, 0, 0, 0, 0, 0xFF, 0xFF]);
    let (first, label) = (text_formula(), labelsst_body(1));
    let blank = [9, 0, 9, 0, 0, 0];
    let (hidden, hiding) = (text_at(9, 9), text_at(9, 10));
    let (bytes, _) = worksheet(&[
        (FORMULA, &first),
        (STRING, AB),
        (FORMULA, &twice),
        (STRING, &[1, 0, 0, b'1']),
        (FORMULA, &twice),
        (STRING, &[1, 0, 0, b'2']),
        (FORMULA, &other),
        (STRING, &[0, 0, 0]),
        (FORMULA, &number),
        (FORMULA, &empty),
        (BLANK, &blank),
        (FORMULA, &hidden),
        (STRING, AB),
        (FORMULA, &hiding),
        (STRING, AB),
        (BLANK, &[9, 0, 10, 0, 0, 0]),
        (LABELSST, &[&[8, 0][..], &label[2..]].concat()),
    ]);
    let mut buffer = [UNIT; 4];
    // Of several at one address the first listed.
    assert_eq!(text(&bytes, 0, 7, 7, &mut buffer), Ok(1));
    assert_eq!(buffer, [0x31, UNIT, UNIT, UNIT]);
    assert_eq!(text(&bytes, 0, 9, 10, &mut buffer), Ok(2));
    assert_eq!(buffer, [0x41, 0x42, UNIT, UNIT]);
    let mut buffer = [UNIT; 2];
    assert_eq!(text(&bytes, 0, 7, 8, &mut buffer), Ok(0));
    assert_eq!(text(&bytes, 0, 7, 8, &mut []), Ok(0));
    assert_eq!(buffer, [UNIT; 2]);
    // No sheet, no cell, no text: another result, a shared string, a blank that
    // stands before a text at its address.
    for (sheet, row, column) in [
        (1, 1, 2),
        (u32::MAX, 1, 2),
        (0, 1, 1),
        (0, 65_537, 2),
        (0, 1, 258),
        (0, u32::MAX, u32::MAX),
        (0, 0, 1),
        (0, 0, 2),
        (0, 8, 2),
        (0, 9, 9),
    ] {
        for units in [0, 9] {
            assert_eq!(no_text(&bytes, sheet, row, column, units), 11);
        }
    }
    // A short buffer.
    assert_eq!(no_text(&bytes, 0, 1, 2, 0), 12);
    assert_eq!(no_text(&bytes, 0, 1, 2, 1), 12);
    assert_eq!(no_text(&bytes, 0, 7, 7, 0), 12);
    // The reading has them all, in the order of their cells.
    let texts: [&[u16]; 6] = [&AB_UNITS, &[0x31], &[0x32], &[], &AB_UNITS, &AB_UNITS];
    assert_eq!(read(&bytes).unwrap().sheets[0].texts, texts);
}

#[test]
fn d9_a_sheet_is_found_by_its_number() {
    let mut book = Book::globals();
    let entries = [book.boundsheet(2), book.boundsheet(0), book.boundsheet(0)];
    book.eof();
    let mut sheet = |kind, letter: Option<u8>| {
        let bof = book.bof(kind);
        book.record(FORMULA, &text_formula());
        if let Some(letter) = letter {
            book.record(STRING, &[1, 0, 0, letter]);
        }
        book.eof();
        bof
    };
    let starts = [
        sheet(CHART, None),
        sheet(WORKSHEET, Some(b'y')),
        sheet(WORKSHEET, Some(b'z')),
    ];
    for (entry, start) in [(0, 0), (1, 2), (2, 1)] {
        book.name(entries[entry], starts[start]);
    }
    let mut buffer = [UNIT; 1];
    assert_eq!(no_text(&book.bytes, 0, 1, 2, 1), 11);
    assert_eq!(text(&book.bytes, 1, 1, 2, &mut buffer), Ok(1));
    assert_eq!(buffer, [0x7A]);
    assert_eq!(text(&book.bytes, 2, 1, 2, &mut buffer), Ok(1));
    assert_eq!(buffer, [0x79]);
    assert_eq!(no_text(&book.bytes, 3, 1, 2, 1), 11);
}

#[test]
fn d10_the_place_in_the_walk() {
    // Before a fault behind it, and before 10.
    let formula = text_formula();
    let bad = labelsst_body(9);
    let (mut bytes, places) = worksheet(&[(FORMULA, &formula), (LABELSST, &bad)]);
    assert_refused(&bytes, 6, places[0]);
    bytes[24] ^= 1;
    assert_refused(&bytes, 6, places[0]);
    // After a fault before it.
    let (bytes, places) = worksheet(&[(LABELSST, &bad), (FORMULA, &formula)]);
    assert_refused(&bytes, 9, places[0]);
    // A formula's own fault and its text's are both 6 there.
    let mut column = text_formula();
    column[3] = 1;
    let (bytes, places) = worksheet(&[(FORMULA, &column), (STRING, AB)]);
    assert_refused(&bytes, 6, places[0]);
    // 9 behind a text that is whole.
    let (bytes, places) = worksheet(&[(FORMULA, &formula), (STRING, AB), (LABELSST, &bad)]);
    assert_refused(&bytes, 9, places[2]);
    // The check's refusals come before the question's.
    let (bytes, places) = worksheet(&[(FORMULA, &formula)]);
    let refusal = Refusal {
        number: 6,
        offset: places[0],
    };
    let mut buffer = [UNIT; 1];
    assert_eq!(text(&bytes, 9, 9, 9, &mut buffer), Err(refusal));
    assert_eq!(text(&bytes, 0, 1, 2, &mut []), Err(refusal));
    assert_eq!(fetch(&bytes, 0, &mut buffer), Err(refusal));
    assert_eq!(
        correct(&mut bytes.clone(), 0, 1, 2, NewValue::Truth(0)),
        Err(refusal)
    );
    assert_eq!(buffer, [UNIT]);
}

#[test]
fn a_correction_leaves_the_texts() {
    let mut number = number_body(1);
    number[0] = 4;
    let (mut bytes, _) = after_formula(&[(SHRFMLA, &[]), (STRING, AB), (NUMBER, &number)]);
    assert_eq!(correct(&mut bytes, 0, 4, 2, NewValue::Number(2.0)), Ok(()));
    assert_eq!(text_of(&bytes), AB_UNITS);
    // A formula takes no correction, whatever its result.
    let refusal = correct(&mut bytes, 0, 1, 2, NewValue::Text(0)).unwrap_err();
    assert_eq!((refusal.number, refusal.offset), (17, 0));
    assert_eq!(text_of(&bytes), AB_UNITS);
}

#[test]
fn d11_over_the_pair() {
    let (with_a, _) = after_formula(&[(STRING, &[1, 0, 0, b'a'])]);
    let (with_b, places) = after_formula(&[(STRING, &[1, 0, 0, b'b'])]);
    let mut none = Book::globals();
    none.eof();
    let mut buffer = [UNIT; 2];
    // The session's sheet hides the template's.
    let answer = pair_text(&with_a, &with_b, 0, 1, 2, &mut buffer);
    assert_eq!(answer, Ok((Whose::Session, 1)));
    assert_eq!(buffer, [0x62, UNIT]);
    let answer = pair_text(&with_a, &none.bytes, 0, 1, 2, &mut buffer);
    assert_eq!(answer, Ok((Whose::Template, 1)));
    assert_eq!(buffer, [0x61, UNIT]);
    let question = |number| Err(PairRefusal::Question(Refusal { number, offset: 0 }));
    let (empty, _) = worksheet(&[]);
    let answer = pair_text(&with_a, &empty, 0, 1, 2, &mut buffer);
    assert_eq!(answer, question(11));
    assert_eq!(
        pair_text(&with_a, &with_b, 1, 1, 2, &mut buffer),
        question(11)
    );
    assert_eq!(pair_text(&with_a, &with_b, 0, 1, 2, &mut []), question(12));
    // Both checks are narrower by a text that is missing.
    let mut broken = with_b.clone();
    broken[places[1]] ^= 1;
    let refusal = Refusal {
        number: 6,
        offset: places[0],
    };
    let answer = pair_text(&broken, &broken, 0, 1, 2, &mut buffer);
    assert_eq!(answer, Err(PairRefusal::Stream(Whose::Template, refusal)));
    let answer = pair_text(&with_a, &broken, 0, 1, 2, &mut buffer);
    assert_eq!(answer, Err(PairRefusal::Stream(Whose::Session, refusal)));
    assert_eq!(buffer, [0x61, UNIT]);
}
