//! K1: two revisions compared, cell by cell and name by name.

mod common;

use common::*;
use second_reader::{compare, Address, Difference, Refusal, RefusedSide, Side};

fn name(sheet: u32) -> Difference {
    Difference::Name { sheet }
}

fn address(sheet: u32, row: u16, column: u16) -> Address {
    Address { sheet, row, column }
}

fn first(sheet: u32, row: u16, column: u16) -> Difference {
    Difference::First(address(sheet, row, column))
}

fn second(sheet: u32, row: u16, column: u16) -> Difference {
    Difference::Second(address(sheet, row, column))
}

fn unequal(sheet: u32, row: u16, column: u16) -> Difference {
    Difference::Unequal(address(sheet, row, column))
}

fn refused(side: Side, number: u8, offset: usize) -> Result<Vec<Difference>, RefusedSide> {
    let refusal = Refusal { number, offset };
    Err(RefusedSide { side, refusal })
}

/// A record of a worksheet: its kind and its body.
type Made = (u16, Vec<u8>);

/// The start of a cell record: row, column and a format.
fn start(row: u16, column: u16) -> Vec<u8> {
    [row.to_le_bytes(), column.to_le_bytes(), [3, 0]].concat()
}

fn blank(row: u16, column: u16) -> Made {
    (BLANK, start(row, column))
}

fn number(row: u16, column: u16, bits: u64) -> Made {
    (
        NUMBER,
        [&start(row, column)[..], &bits.to_le_bytes()].concat(),
    )
}

fn packed(row: u16, column: u16, word: u32) -> Made {
    (RK, [&start(row, column)[..], &word.to_le_bytes()].concat())
}

fn text(row: u16, column: u16, index: u32) -> Made {
    (
        LABELSST,
        [&start(row, column)[..], &index.to_le_bytes()].concat(),
    )
}

fn truth_or_error(row: u16, column: u16, value: u8, which: u8) -> Made {
    (BOOLERR, [&start(row, column)[..], &[value, which]].concat())
}

/// A formula of these tokens, with bytes after them.
fn formula(row: u16, column: u16, result: [u8; 8], tokens: &[u8], after: &[u8]) -> Made {
    let mut body = [&start(row, column)[..], &result, &[0; 6]].concat();
    body.extend((tokens.len() as u16).to_le_bytes());
    body.extend(tokens);
    body.extend(after);
    (FORMULA, body)
}

/// One sheet: its kind of BOF, its name as flags and bytes, its records.
#[derive(Clone)]
struct Page {
    kind: u16,
    wide: u8,
    name: Vec<u8>,
    records: Vec<Made>,
}

/// A worksheet named `a`.
fn page(records: &[Made]) -> Page {
    Page {
        kind: WORKSHEET,
        wide: 0,
        name: b"a".to_vec(),
        records: records.to_vec(),
    }
}

fn named(wide: u8, name: &[u8]) -> Page {
    Page {
        wide,
        name: name.to_vec(),
        ..page(&[])
    }
}

/// A stream of these sheets, with a string table in these segments if there
/// are any.
fn book(segments: &[&[u8]], pages: &[Page]) -> Vec<u8> {
    let mut book = Book::globals();
    let boundsheet = |book: &mut Book, page: &Page| {
        let sheet_type = match page.kind {
            WORKSHEET => 0,
            MACRO => 1,
            _ => 2,
        };
        let length = page.name.len() as u8 >> (page.wide & 1);
        let head = [0, 0, 0, 0, 0, sheet_type, length, page.wide];
        book.record(BOUNDSHEET, &[&head[..], &page.name].concat())
    };
    let places: Vec<_> = pages
        .iter()
        .map(|page| boundsheet(&mut book, page))
        .collect();
    for (number, segment) in segments.iter().enumerate() {
        book.record(if number == 0 { SST } else { CONTINUE }, segment);
    }
    book.eof();
    for (page, place) in pages.iter().zip(places) {
        let bof = book.bof(page.kind);
        book.name(place, bof);
        for (kind, body) in &page.records {
            book.record(*kind, body);
        }
        book.eof();
    }
    book.bytes
}

/// A stream of one worksheet.
fn sheet(records: &[Made]) -> Vec<u8> {
    book(&[], &[page(records)])
}

/// Whether two records at row 0, column 0 hold equal values.
#[track_caller]
fn equal(one: Made, other: Made) -> bool {
    equal_in(&[one], &[other])
}

/// The same for cells that take more than a record.
fn equal_in(one: &[Made], other: &[Made]) -> bool {
    let strings = sst(2, &[0, 0, 0, 1, 0, 0, b'x']);
    let made = |records: &[Made]| book(&[&strings], &[page(records)]);
    let (one, other) = (made(one), made(other));
    let differences = compare(&one, &other).unwrap();
    assert_eq!(compare(&other, &one).unwrap(), differences);
    match &differences[..] {
        [] => true,
        [only] => {
            assert_eq!(*only, unequal(0, 0, 0));
            false
        }
        more => panic!("{more:?}"),
    }
}

const ONE: u64 = 0x3FF0_0000_0000_0000;

fn marked(which: u8, detail: u8, ignored: u8) -> [u8; 8] {
    [
        which, ignored, detail, ignored, ignored, ignored, 0xFF, 0xFF,
    ]
}

#[test]
fn c1_four_kinds_of_difference() {
    let one = sheet(&[blank(0, 0), blank(1, 1), number(2, 2, 0)]);
    let mut other = page(&[blank(1, 1), number(2, 2, ONE), blank(3, 3)]);
    other.name = b"b".to_vec();
    assert_eq!(
        compare(&one, &book(&[], &[other])),
        Ok(vec![
            name(0),
            first(0, 0, 0),
            unequal(0, 2, 2),
            second(0, 3, 3)
        ])
    );
}

#[test]
fn c2_the_value_and_not_the_record() {
    // 1 in a NUMBER, in both forms of an RK, divided, and in a MULRK.
    let mulrk = |word: u32| {
        let word = word.to_le_bytes();
        (MULRK, [&[0, 0, 0, 0, 9, 9][..], &word, &[0, 0]].concat())
    };
    let ones = [
        number(0, 0, ONE),
        packed(0, 0, 0x3FF0_0000),
        packed(0, 0, 6),
        packed(0, 0, 100 << 2 | 3),
        mulrk(6),
    ];
    for one in &ones {
        for other in &ones {
            assert!(equal(one.clone(), other.clone()));
        }
        assert!(!equal(one.clone(), packed(0, 0, 10)));
    }
    let blanks = (MULBLANK, vec![0, 0, 0, 0, 9, 9, 0, 0]);
    assert!(equal(blank(0, 0), blanks));
    // Another format.
    assert!(equal(blank(0, 0), (BLANK, vec![0, 0, 0, 0, 8, 8])));
    // Other places, records that are not read, DIMENSIONS, a state.
    let plain = sheet(&[blank(0, 0)]);
    let around = [
        (OTHER, vec![1, 2, 3]),
        (DIMENSIONS, vec![0; 14]),
        blank(0, 0),
    ];
    let mut other = sheet(&around);
    other[20 + 4 + 4] = 2;
    assert_eq!(compare(&plain, &other), Ok(vec![]));
}

#[test]
fn c3_numbers_by_their_64_bits() {
    let quiet = 0x7FF8_0000_0000_0000;
    assert!(!equal(number(0, 0, 0), number(0, 0, 1 << 63)));
    assert!(equal(number(0, 0, quiet), number(0, 0, quiet)));
    assert!(!equal(number(0, 0, quiet), number(0, 0, quiet + 1)));
    assert!(!equal(number(0, 0, quiet), number(0, 0, quiet | 1 << 63)));
    // A signalling pattern too, and results of formulas.
    let signalling = 0x7FF0_0000_0000_0001;
    assert!(equal(number(0, 0, signalling), number(0, 0, signalling)));
    let result = |bits: u64| formula(0, 0, bits.to_le_bytes(), &[], &[]);
    assert!(!equal(result(0), result(1 << 63)));
    assert!(equal(result(quiet), result(quiet)));
    assert!(!equal(result(quiet), result(quiet + 1)));
}

#[test]
fn c4_blanks_are_cells() {
    let with = sheet(&[blank(7, 8)]);
    let without = sheet(&[]);
    assert_eq!(compare(&with, &without), Ok(vec![first(0, 7, 8)]));
    assert_eq!(compare(&without, &with), Ok(vec![second(0, 7, 8)]));
    assert_eq!(compare(&with, &with), Ok(vec![]));
    // Index 0 is the text of no characters.
    assert!(!equal(blank(0, 0), text(0, 0, 0)));
    let multiple = (MULBLANK, vec![1, 0, 254, 0, 3, 0, 3, 0, 255, 0]);
    let two = vec![first(0, 1, 254), first(0, 1, 255)];
    assert_eq!(compare(&sheet(&[multiple]), &without), Ok(two));
}

#[test]
fn c5_kinds_never_equal_each_other() {
    let mut kinds = vec![vec![
        formula(0, 0, marked(0, 0, 0), &[], &[]),
        (STRING, vec![0, 0, 0]),
    ]];
    let others = [
        blank(0, 0),
        number(0, 0, 0),
        number(0, 0, ONE),
        text(0, 0, 0),
        text(0, 0, 1),
        truth_or_error(0, 0, 0, 0),
        truth_or_error(0, 0, 1, 0),
        truth_or_error(0, 0, 0, 1),
        truth_or_error(0, 0, 7, 1),
        formula(0, 0, [0; 8], &[], &[]),
        formula(0, 0, ONE.to_le_bytes(), &[], &[]),
        formula(0, 0, marked(1, 0, 0), &[], &[]),
        formula(0, 0, marked(1, 1, 0), &[], &[]),
        formula(0, 0, marked(2, 0, 0), &[], &[]),
        formula(0, 0, marked(2, 7, 0), &[], &[]),
        formula(0, 0, marked(3, 0, 0), &[], &[]),
    ];
    kinds.extend(others.map(|record| vec![record]));
    for (i, one) in kinds.iter().enumerate() {
        for (j, other) in kinds.iter().enumerate() {
            assert_eq!(equal_in(one, other), i == j, "{i} {j}");
        }
    }
}

/// The differences between cells that show the first string of two tables.
fn tables(one: &[&[u8]], other: &[&[u8]]) -> Vec<Difference> {
    let made = |segments: &[&[u8]]| book(segments, &[page(&[text(0, 0, 0)])]);
    compare(&made(one), &made(other)).unwrap()
}

#[test]
fn c6_text_by_characters() {
    let differs = vec![unequal(0, 0, 0)];
    let narrow = sst(1, &[2, 0, 0, b'A', b'b']);
    let wide = sst(1, &[2, 0, 1, b'A', 0, b'b', 0]);
    assert_eq!(tables(&[&narrow], &[&wide]), []);
    // Split, with another width in the second part.
    let split = sst(1, &[2, 0, 0, b'A']);
    assert_eq!(tables(&[&narrow], &[&split, &[1, b'b', 0]]), []);
    // With a run, with phonetic bytes, with other bits of the flags.
    let rich = sst(1, &[2, 0, 8, 1, 0, b'A', b'b', 1, 2, 3, 4]);
    let phonetic = sst(1, &[2, 0, 4, 1, 0, 0, 0, b'A', b'b', 9]);
    let flags = sst(1, &[2, 0, 0xF2, b'A', b'b']);
    for other in [rich, phonetic, flags] {
        assert_eq!(tables(&[&narrow], &[&other]), []);
    }
    // No letter case is folded, a zero unit counts, and so does the upper byte.
    let others: [&[u8]; 5] = [
        &[2, 0, 0, b'a', b'b'],
        &[3, 0, 0, b'A', b'b', 0],
        &[1, 0, 0, b'A'],
        &[2, 0, 1, b'A', 0, b'b', 1],
        &[0, 0, 0],
    ];
    for other in others {
        let other = sst(1, other);
        assert_eq!(tables(&[&narrow], &[&other]), differs);
        assert_eq!(tables(&[&other], &[&narrow]), differs);
    }
}

#[test]
fn c6_each_index_in_its_own_table() {
    let xy = sst(2, &[1, 0, 0, b'x', 1, 0, 0, b'y']);
    let yx = sst(3, &[1, 0, 0, b'y', 1, 0, 0, b'x', 1, 0, 0, b'x']);
    let made = |table: &[u8], index: u32| book(&[table], &[page(&[text(0, 0, index)])]);
    let differs = vec![unequal(0, 0, 0)];
    // The same index, and other texts.
    assert_eq!(compare(&made(&xy, 0), &made(&yx, 0)), Ok(differs.clone()));
    assert_eq!(compare(&made(&xy, 1), &made(&yx, 1)), Ok(differs));
    // Other indices, and the same text; twice in one table.
    assert_eq!(compare(&made(&xy, 0), &made(&yx, 1)), Ok(vec![]));
    assert_eq!(compare(&made(&xy, 0), &made(&yx, 2)), Ok(vec![]));
    assert_eq!(compare(&made(&xy, 1), &made(&yx, 0)), Ok(vec![]));
    assert_eq!(compare(&made(&yx, 1), &made(&yx, 2)), Ok(vec![]));
}

#[test]
fn c7_formulas_by_their_results() {
    let three = 3f64.to_le_bytes();
    let plain = formula(0, 0, three, &[0x1E, 3, 0], &[]);
    // Other tokens, none, ones that mean nothing, other bytes after them.
    assert!(equal(
        plain.clone(),
        formula(0, 0, three, &[0x1E, 4, 0], &[])
    ));
    assert!(equal(plain.clone(), formula(0, 0, three, &[], &[])));
    assert!(equal(plain.clone(), formula(0, 0, three, &[0xFF], &[1, 2])));
    let four = formula(0, 0, 4f64.to_le_bytes(), &[0x1E, 3, 0], &[]);
    assert!(!equal(plain.clone(), four));
    assert!(!equal(plain, number(0, 0, 3f64.to_bits())));
    // A result's bytes that mean nothing.
    let result = |field| formula(0, 0, field, &[], &[]);
    assert!(equal(result(marked(1, 1, 0)), result(marked(1, 1, 9))));
    assert!(!equal(result(marked(1, 1, 0)), result(marked(1, 0, 0))));
    assert!(equal(
        result(marked(2, 0x2A, 0)),
        result(marked(2, 0x2A, 9))
    ));
    assert!(equal(result(marked(3, 0, 0)), result(marked(3, 5, 9))));
}

#[test]
fn c8_text_results_by_units() {
    let shown = |field, text: &[u8]| [formula(0, 0, field, &[], &[]), (STRING, text.to_vec())];
    let narrow = shown(marked(0, 0, 0), &[2, 0, 0, b'A', b'b']);
    // Bytes of the result that mean nothing, and another width.
    let same = [
        shown(marked(0, 7, 9), &[2, 0, 0, b'A', b'b']),
        shown(marked(0, 0, 0), &[2, 0, 1, b'A', 0, b'b', 0]),
    ];
    for other in same {
        assert!(equal_in(&narrow, &other));
    }
    let others: [&[u8]; 3] = [&[2, 0, 0, b'a', b'b'], &[1, 0, 0, b'A'], &[0, 0, 0]];
    for other in others {
        assert!(!equal_in(&narrow, &shown(marked(0, 0, 0), other)));
    }
    // An empty result is no text of no units.
    let none = shown(marked(0, 0, 0), &[0, 0, 0]);
    let empty = [formula(0, 0, marked(3, 0, 0), &[], &[])];
    assert!(!equal_in(&none, &empty));
}

#[test]
fn c9_names_by_characters() {
    let named = |wide, name: &[u8]| book(&[], &[named(wide, name)]);
    let narrow = named(0, b"Ab");
    assert_eq!(compare(&narrow, &named(1, b"A\0b\0")), Ok(vec![]));
    // Bits of the flags that are ignored.
    assert_eq!(compare(&narrow, &named(0xFE, b"Ab")), Ok(vec![]));
    for (wide, other) in [
        (0, &b"ab"[..]),
        (0, b"A"),
        (0, b"Abc"),
        (0, b"Ab\0"),
        (1, b"A\0b\x01"),
        (1, b"Ab"),
    ] {
        assert_eq!(compare(&narrow, &named(wide, other)), Ok(vec![name(0)]));
    }
}

#[test]
fn c10_what_is_said_of_sheets() {
    let cell = || page(&[blank(1, 2)]);
    let one = book(&[], &[cell()]);
    let three = book(&[], &[cell(), named(0, b"other"), cell()]);
    // A sheet in one stream only: its cells, nothing of its name, and nothing
    // at all where it has no cells.
    assert_eq!(compare(&one, &three), Ok(vec![second(2, 1, 2)]));
    assert_eq!(compare(&three, &one), Ok(vec![first(2, 1, 2)]));
    let none = book(&[], &[]);
    assert_eq!(
        compare(&three, &none),
        Ok(vec![first(0, 1, 2), first(2, 1, 2)])
    );
    assert_eq!(compare(&none, &none), Ok(vec![]));
    // A chart of the same number: only the worksheet's cells, and its name
    // where that differs. What a chart holds is not listed.
    let chart = Page {
        kind: CHART,
        ..cell()
    };
    let macros = Page {
        kind: MACRO,
        name: b"m".to_vec(),
        ..cell()
    };
    let chart = book(&[], &[chart]);
    let macros = book(&[], &[macros]);
    assert_eq!(compare(&chart, &one), Ok(vec![second(0, 1, 2)]));
    assert_eq!(compare(&one, &macros), Ok(vec![name(0), first(0, 1, 2)]));
    assert_eq!(compare(&chart, &macros), Ok(vec![name(0)]));
}

/// A sheet is numbered by the list of sheets, not by where its BOF stands.
#[test]
fn c10_sheets_by_number() {
    let made = |turned: bool| {
        let mut book = Book::globals();
        let sheets = [book.boundsheet(0), book.boundsheet(0)];
        book.eof();
        let mut bofs = Vec::new();
        for row in [0, 1] {
            bofs.push(book.bof(WORKSHEET));
            book.record(BLANK, &start(row, 0));
            book.eof();
        }
        if turned {
            bofs.reverse();
        }
        for (sheet, bof) in sheets.into_iter().zip(bofs) {
            book.name(sheet, bof);
        }
        book.bytes
    };
    assert_eq!(
        compare(&made(false), &made(true)),
        Ok(vec![
            first(0, 0, 0),
            second(0, 1, 0),
            second(1, 0, 0),
            first(1, 1, 0),
        ])
    );
}

#[test]
fn c11_by_sheet_name_row_and_column() {
    // Listed in another order on either side.
    let one = [
        page(&[blank(65_535, 0), blank(300, 255), blank(0, 1), blank(0, 0)]),
        named(0, b"b"),
    ];
    let other = [
        page(&[blank(300, 254), number(0, 0, 0), blank(301, 0), blank(2, 9)]),
        page(&[blank(0, 0)]),
    ];
    let (one, other) = (book(&[], &one), book(&[], &other));
    assert_eq!(
        compare(&one, &other),
        Ok(vec![
            unequal(0, 0, 0),
            first(0, 0, 1),
            second(0, 2, 9),
            second(0, 300, 254),
            first(0, 300, 255),
            second(0, 301, 0),
            first(0, 65_535, 0),
            name(1),
            second(1, 0, 0),
        ])
    );
    // Equal cells in another order are no difference.
    let turned = [
        page(&[blank(0, 0), blank(65_535, 0), blank(0, 1), blank(300, 255)]),
        named(0, b"b"),
    ];
    assert_eq!(compare(&one, &book(&[], &turned)), Ok(vec![]));
}

#[test]
fn c12_the_four_steps() {
    let good = sheet(&[blank(0, 0)]);
    // 6 at the BLANK of a wrong size: 20 + 13 + 4 + 20 bytes stand before it.
    let bad = sheet(&[(BLANK, vec![0; 7])]);
    let twice = sheet(&[blank(4, 4), blank(0, 0), blank(4, 4)]);
    let (of_first, of_second) = (Side::First, Side::Second);
    assert_eq!(compare(&bad, &good), refused(of_first, 6, 57));
    assert_eq!(compare(&good, &bad), refused(of_second, 6, 57));
    assert_eq!(compare(&bad, &[]), refused(of_first, 6, 57));
    assert_eq!(compare(&[], &bad), refused(of_first, 3, 0));
    // The second's check comes before the first's 16.
    assert_eq!(compare(&twice, &bad), refused(of_second, 6, 57));
    assert_eq!(compare(&bad, &twice), refused(of_first, 6, 57));
    assert_eq!(compare(&twice, &good), refused(of_first, 16, 0));
    assert_eq!(compare(&good, &twice), refused(of_second, 16, 0));
    assert_eq!(compare(&twice, &twice), refused(of_first, 16, 0));
}

#[test]
fn c12_an_address_twice() {
    let good = sheet(&[]);
    let of_first = refused(Side::First, 16, 0);
    // Of any kinds, and among the cells of a multiple record.
    let multiple = (MULBLANK, vec![1, 0, 2, 0, 3, 0, 3, 0, 3, 0]);
    let twice = sheet(&[multiple.clone(), number(1, 3, 0)]);
    assert_eq!(compare(&twice, &good), of_first);
    let formulas = [formula(9, 9, [0; 8], &[], &[]), blank(9, 9)];
    assert_eq!(compare(&sheet(&formulas), &good), of_first);
    // In a sheet that the other stream hasn't.
    let later = book(&[], &[page(&[]), page(&[multiple.clone(), blank(1, 2)])]);
    assert_eq!(compare(&later, &good), of_first);
    assert_eq!(compare(&good, &later), refused(Side::Second, 16, 0));
    // The same address in two sheets is none, nor is a row for a column.
    let apart = book(
        &[],
        &[page(&[blank(1, 2), blank(2, 1)]), page(&[blank(1, 2)])],
    );
    assert_eq!(compare(&apart, &apart), Ok(vec![]));
}

#[test]
fn c13_each_stream_alone() {
    // Text cells without a string table of their own.
    let without = sheet(&[text(0, 0, 0)]);
    let with = book(&[&sst(1, &[0, 0, 0])], &[page(&[text(0, 0, 0)])]);
    assert_eq!(compare(&without, &with), refused(Side::First, 9, 57));
    assert_eq!(compare(&with, &without), refused(Side::Second, 9, 57));
}

#[test]
fn c14_a_stream_against_itself() {
    let pages = [
        page(&[
            text(0, 0, 1),
            number(0, 1, 0x7FF8_0000_0000_0001),
            blank(5, 5),
        ]),
        named(1, b"x\0"),
    ];
    let stream = book(&[&table_of(2)], &pages);
    assert_eq!(compare(&stream, &stream), Ok(vec![]));
    assert_eq!(compare(&[], &[]), refused(Side::First, 3, 0));
}
