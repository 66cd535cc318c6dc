//! K5: one template, many sessions; and K8's tables over the pair.

mod common;

use common::*;
use second_reader::*;
use std::ops::Range;
use Whose::{Session, Template};

const UNIT: u16 = 0x5555;
const OLD: u32 = 0x5555_5555;
const NONE: u32 = u32::MAX;

/// A sheet in the making: its name's bytes, whether they are wide, its BOF's
/// kind and its records.
struct Making {
    name: &'static [u8],
    wide: bool,
    kind: u16,
    records: Vec<(u16, Vec<u8>)>,
}

fn making(name: &'static [u8], kind: u16, records: &[(u16, Vec<u8>)]) -> Making {
    Making {
        name,
        wide: false,
        kind,
        records: records.to_vec(),
    }
}

/// A stream, where its sheets' names stand and where each sheet's records do.
struct Made {
    bytes: Vec<u8>,
    names: Vec<Range<usize>>,
    records: Vec<Vec<usize>>,
}

/// A stream with these sheets and, if given, a table of these one-letter
/// strings.
fn made(sheets: &[Making], letters: Option<&[u8]>) -> Made {
    let mut book = Book::globals();
    let mut entries = Vec::new();
    let mut names = Vec::new();
    for sheet in sheets {
        let sheet_type = match sheet.kind {
            WORKSHEET => 0,
            MACRO => 1,
            _ => 2,
        };
        let wide = u8::from(sheet.wide);
        let length = sheet.name.len() as u8 / (1 + wide);
        let head = [0, 0, 0, 0, 0, sheet_type, length, wide];
        entries.push(book.record(BOUNDSHEET, &[&head, sheet.name].concat()));
        names.push(book.len() - sheet.name.len()..book.len());
    }
    if let Some(letters) = letters {
        let strings: Vec<u8> = letters.iter().flat_map(|&a| [1, 0, 0, a]).collect();
        book.record(SST, &sst(letters.len() as u32, &strings));
    }
    book.eof();
    let mut records = Vec::new();
    for (sheet, entry) in sheets.iter().zip(entries) {
        let bof = book.bof(sheet.kind);
        book.name(entry, bof);
        let places = sheet.records.iter();
        records.push(
            places
                .map(|(kind, body)| book.record(*kind, body))
                .collect(),
        );
        book.eof();
    }
    Made {
        bytes: book.bytes,
        names,
        records,
    }
}

/// A LABELSST at row and column.
fn text(row: u8, column: u8, index: u32) -> (u16, Vec<u8>) {
    let start = [row, 0, column, 0, 3, 0];
    (LABELSST, [&start[..], &index.to_le_bytes()].concat())
}

/// An RK cell that holds 1.
fn one(row: u8, column: u8) -> (u16, Vec<u8>) {
    let body = [row, 0, column, 0, 3, 0, 0, 0, 0xF0, 0x3F];
    (RK, body.to_vec())
}

fn blank(row: u8, column: u8) -> (u16, Vec<u8>) {
    (BLANK, vec![row, 0, column, 0, 3, 0])
}

/// Three strings, and four sheets: text and a number; a text of the last string
/// and one address twice; a chart; a macro sheet.
fn template() -> Made {
    made(
        &[
            making(b"plan", WORKSHEET, &[text(0, 0, 0), one(4, 1)]),
            making(
                b"key",
                WORKSHEET,
                &[text(7, 3, 2), blank(9, 9), blank(9, 9)],
            ),
            making(b"graph", CHART, &[]),
            making(b"macro", MACRO, &[]),
        ],
        Some(b"tuv"),
    )
}

/// One worksheet with texts, a number and one address twice, without an SST.
fn session() -> Made {
    session_of(&[text(0, 0, 1), text(2, 5, 2), one(3, 0), one(3, 0)], None)
}

fn session_of(records: &[(u16, Vec<u8>)], letters: Option<&[u8]>) -> Made {
    made(&[making(b"day 1", WORKSHEET, records)], letters)
}

fn in_stream<T>(whose: Whose, number: u8, offset: usize) -> Result<T, PairRefusal> {
    Err(PairRefusal::Stream(whose, Refusal { number, offset }))
}

fn question<T>(number: u8) -> Result<T, PairRefusal> {
    let refusal = Refusal { number, offset: 0 };
    Err(PairRefusal::Question(refusal))
}

/// Whose a sheet's cells are, and each as row, column and value.
fn cells(template: &[u8], session: &[u8], sheet: u32) -> (Whose, Vec<(u16, u16, Value)>) {
    let mut cells = Vec::new();
    let whose = pair_cells(template, session, sheet, |cell| {
        cells.push((cell.row, cell.column, cell.value));
    });
    (whose.unwrap(), cells)
}

/// The answer of each question to a pair that its check refuses. None may
/// change what is lent.
#[track_caller]
fn assert_all_refused(template: &[u8], session: &[u8], whose: Whose, number: u8, offset: usize) {
    assert_eq!(
        pair_check(template, session),
        in_stream(whose, number, offset)
    );
    // Sheet 0, and one that neither has.
    for sheet in [0, 77] {
        assert_eq!(
            pair_sheet(template, session, sheet),
            in_stream(whose, number, offset)
        );
        assert_eq!(
            pair_sheet_name(template, session, sheet),
            (None, &[] as &[u8])
        );
        assert_eq!(
            pair_cells(template, session, sheet, |_| panic!("no cell")),
            in_stream(whose, number, offset)
        );
        let mut bytes = session.to_vec();
        assert_eq!(
            pair_correct(template, &mut bytes, sheet, 0, 0, NewValue::Text(0)),
            in_stream(whose, number, offset)
        );
        assert!(bytes == session);
    }
    for asked in [Session, Template] {
        let mut buffer = [UNIT; 3];
        assert_eq!(
            pair_fetch(template, session, asked, 0, &mut buffer),
            in_stream(whose, number, offset)
        );
        assert_eq!(buffer, [UNIT; 3]);
    }
    let (mut first, mut second) = ([OLD; 9], [OLD; 9]);
    assert_eq!(
        pair_fill(template, session, &mut first, &mut second),
        in_stream(whose, number, offset)
    );
    assert_eq!((first, second), ([OLD; 9], [OLD; 9]));
}

#[test]
fn p1_nine_against_the_table_that_the_indices_resolve_in() {
    let template = template().bytes;
    let session = session();
    assert_eq!(pair_check(&template, &session.bytes), Ok(4));
    // Alone it is still refused, at its first text.
    assert_refused(&session.bytes, 9, session.records[0][0]);
    // One past the template's last.
    let over = session_of(&[text(0, 0, 2), text(0, 1, 3)], None);
    assert_all_refused(&template, &over.bytes, Session, 9, over.records[0][1]);
    // A template without strings lends none.
    let bare = made(&[], None).bytes;
    assert_all_refused(&bare, &session.bytes, Session, 9, session.records[0][0]);
    let empty = made(&[], Some(b"")).bytes;
    assert_all_refused(&empty, &session.bytes, Session, 9, session.records[0][0]);
    // A session with an SST: against its own, be it longer or shorter.
    let longer = session_of(&[text(0, 0, 4)], Some(b"abcde"));
    assert_eq!(pair_check(&template, &longer.bytes), Ok(4));
    let shorter = session_of(&[text(0, 0, 1), text(0, 1, 2)], Some(b"ab"));
    let second = shorter.records[0][1];
    assert_all_refused(&template, &shorter.bytes, Session, 9, second);
    // The template's own always against its own.
    let wanting = session_of(&[text(0, 0, 1)], Some(b"a"));
    assert_all_refused(
        &wanting.bytes,
        &longer.bytes,
        Template,
        9,
        wanting.records[0][0],
    );
    assert_eq!(pair_check(&template, &made(&[], Some(b"a")).bytes), Ok(4));
    // A bad column together with a bad index stays 6.
    let bad_column = (LABELSST, vec![0, 0, 0, 1, 3, 0, 9, 0, 0, 0]);
    let both = session_of(&[bad_column], None);
    assert_all_refused(&template, &both.bytes, Session, 6, both.records[0][0]);
}

#[test]
fn p2_whether_a_session_has_an_sst() {
    let template = template().bytes;
    // One of no strings counts.
    let empty = session_of(&[text(0, 0, 0)], Some(b""));
    assert_all_refused(&template, &empty.bytes, Session, 9, empty.records[0][0]);
    // One outside the globals doesn't, before the texts or after them.
    let table = (SST, sst(1, &[1, 0, 0, b'a']));
    for kind in [CHART, MACRO, WORKSHEET] {
        for table_first in [false, true] {
            let mut sheets = [
                making(b"y", WORKSHEET, &[text(0, 0, 2)]),
                making(b"x", kind, std::slice::from_ref(&table)),
            ];
            if table_first {
                sheets.reverse();
            }
            let session = made(&sheets, None).bytes;
            assert_eq!(pair_check(&template, &session), Ok(4));
            let mut buffer = [UNIT; 2];
            assert_eq!(
                pair_fetch(&template, &session, Session, 2, &mut buffer),
                Ok((Template, 1))
            );
            assert_eq!(buffer, [0x76, UNIT]);
        }
    }
}

#[test]
fn p3_the_templates_refusals_come_first() {
    let good = template().bytes;
    let good_session = session().bytes;
    let long = vec![0; 16_777_217];
    // The template's last refusal before the session's first.
    let mut unnamed = Book::new();
    unnamed.empty(GLOBALS);
    let bof = unnamed.empty(WORKSHEET);
    assert_all_refused(&unnamed.bytes, &long, Template, 10, bof);
    assert_all_refused(&unnamed.bytes, &[], Template, 10, bof);
    assert_all_refused(&unnamed.bytes, &unnamed.bytes, Template, 10, bof);
    assert_all_refused(&unnamed.bytes, &good_session, Template, 10, bof);
    assert_all_refused(&long, &[], Template, 1, 0);
    assert_all_refused(&[], &long, Template, 3, 0);
    // And then the session's, each with the stream told.
    assert_all_refused(&good, &long, Session, 1, 0);
    assert_all_refused(&good, &[], Session, 3, 0);
    assert_all_refused(&good, &unnamed.bytes, Session, 10, bof);
    // A template whose texts have no table is refused, whatever the session.
    let first = session().records[0][0];
    assert_all_refused(&good_session, &good, Template, 9, first);
    // Questions name no stream.
    assert_eq!(pair_sheet(&good, &good_session, 4), question(11));
    assert_eq!(
        pair_fetch(&good, &good_session, Template, 0, &mut []),
        question(12)
    );
}

#[test]
fn p4_a_sheet_comes_whole_from_one_stream() {
    let template = template();
    let session = session();
    let (t, s) = (&template.bytes, &session.bytes);
    let sheet = |whose, sheet_type, rows| {
        Ok(PairSheet {
            whose,
            sheet_type,
            wide: false,
            rows,
        })
    };
    assert_eq!(pair_sheet(t, s, 0), sheet(Session, SheetType::Worksheet, 4));
    assert_eq!(
        pair_sheet(t, s, 1),
        sheet(Template, SheetType::Worksheet, 10)
    );
    assert_eq!(pair_sheet(t, s, 2), sheet(Template, SheetType::Chart, 0));
    assert_eq!(pair_sheet(t, s, 3), sheet(Template, SheetType::Macro, 0));
    for none in [4, 5, u32::MAX] {
        assert_eq!(pair_sheet(t, s, none), question(11));
        assert_eq!(pair_cells(t, s, none, |_| panic!("no cell")), question(11));
    }
    // Names are parts of the one stream or the other.
    let part_of = |stream: &Made, n: u32| {
        let (whose, name) = pair_sheet_name(t, s, n);
        let part = &stream.bytes[stream.names[n as usize].clone()];
        assert!(std::ptr::eq(name, part));
        (whose, name)
    };
    assert_eq!(part_of(&session, 0), (Some(Session), &b"day 1"[..]));
    assert_eq!(part_of(&template, 1), (Some(Template), &b"key"[..]));
    assert_eq!(part_of(&template, 2), (Some(Template), &b"graph"[..]));
    assert_eq!(part_of(&template, 3), (Some(Template), &b"macro"[..]));
    // Nothing is merged.
    let number = Value::Number(0x3FF0_0000_0000_0000);
    let day = vec![
        (0, 0, Value::Text(1)),
        (2, 5, Value::Text(2)),
        (3, 0, number),
        (3, 0, number),
    ];
    assert_eq!(cells(t, s, 0), (Session, day));
    let key = vec![
        (7, 3, Value::Text(2)),
        (9, 9, Value::Blank),
        (9, 9, Value::Blank),
    ];
    assert_eq!(cells(t, s, 1), (Template, key));
    assert_eq!(cells(t, s, 2), (Template, vec![]));
    assert_eq!(cells(t, s, 3), (Template, vec![]));
}

#[test]
fn p4_a_sessions_sheet_hides_the_templates() {
    let template = template().bytes;
    // A chart, an empty worksheet and worksheets with cells, under wide names.
    let wide = |name, kind, records| Making {
        name,
        wide: true,
        kind,
        records,
    };
    let session = made(
        &[
            wide(b"a\0", CHART, vec![]),
            wide(b"b\0\xA9\x03", WORKSHEET, vec![]),
            wide(b"c\0", WORKSHEET, vec![blank(255, 1)]),
            wide(b"d\0", WORKSHEET, vec![one(1, 1)]),
            wide(b"e\0", MACRO, vec![]),
        ],
        None,
    )
    .bytes;
    assert_eq!(pair_check(&template, &session), Ok(5));
    let types = [
        (SheetType::Chart, 0),
        (SheetType::Worksheet, 0),
        (SheetType::Worksheet, 256),
        (SheetType::Worksheet, 2),
        (SheetType::Macro, 0),
    ];
    for (n, (sheet_type, rows)) in (0..).zip(types) {
        assert_eq!(
            pair_sheet(&template, &session, n),
            Ok(PairSheet {
                whose: Session,
                sheet_type,
                wide: true,
                rows
            })
        );
    }
    assert_eq!(cells(&template, &session, 0), (Session, vec![]));
    assert_eq!(cells(&template, &session, 1), (Session, vec![]));
    let blank = vec![(255, 1, Value::Blank)];
    assert_eq!(cells(&template, &session, 2), (Session, blank));
    let (whose, name) = pair_sheet_name(&template, &session, 1);
    assert_eq!((whose, name), (Some(Session), &b"b\0\xA9\x03"[..]));
    assert_eq!(pair_sheet(&template, &session, 5), question(11));
    // No sheets at all, on one side or on both.
    let none = made(&[], None).bytes;
    assert_eq!(pair_check(&none, &none), Ok(0));
    assert_eq!(pair_sheet(&none, &none, 0), question(11));
    assert_eq!(pair_check(&none, &session), Ok(5));
    assert_eq!(pair_check(&template, &none), Ok(4));
    assert_eq!(cells(&template, &none, 0).0, Template);
}

/// What a fetch over the pair gives: whose table, and the one unit.
#[track_caller]
fn fetched(
    template: &[u8],
    session: &[u8],
    whose: Whose,
    index: u32,
) -> Result<(Whose, u16), PairRefusal> {
    let mut buffer = [UNIT; 3];
    let answer = pair_fetch(template, session, whose, index, &mut buffer);
    let untouched = if answer.is_ok() { 1 } else { 0 };
    assert!(buffer[untouched..].iter().all(|&unit| unit == UNIT));
    let (table_of, length) = answer?;
    assert_eq!(length, 1);
    // Nothing is written to a buffer that is too short.
    assert_eq!(
        pair_fetch(template, session, whose, index, &mut []),
        question(12)
    );
    Ok((table_of, buffer[0]))
}

#[test]
fn p5_a_fetch_says_whose_index_it_asks() {
    let template = template().bytes;
    // Without an SST: the template's, for both.
    let bare = session().bytes;
    for whose in [Session, Template] {
        assert_eq!(fetched(&template, &bare, whose, 0), Ok((Template, 0x74)));
        assert_eq!(fetched(&template, &bare, whose, 2), Ok((Template, 0x76)));
        for index in [3, u32::MAX] {
            assert_eq!(fetched(&template, &bare, whose, index), question(11));
            assert_eq!(
                pair_fetch(&template, &bare, whose, index, &mut []),
                question(11)
            );
        }
    }
    // With one: each its own, also where only the other has the index.
    let own = session_of(&[text(0, 0, 0)], Some(b"a")).bytes;
    assert_eq!(fetched(&template, &own, Session, 0), Ok((Session, 0x61)));
    assert_eq!(fetched(&template, &own, Session, 1), question(11));
    assert_eq!(fetched(&template, &own, Template, 0), Ok((Template, 0x74)));
    assert_eq!(fetched(&template, &own, Template, 1), Ok((Template, 0x75)));
    let more = made(&[], Some(b"abcde")).bytes;
    assert_eq!(fetched(&template, &more, Session, 4), Ok((Session, 0x65)));
    assert_eq!(fetched(&template, &more, Template, 4), question(11));
    // One of no strings is the session's own.
    let empty = made(&[], Some(b"")).bytes;
    assert_eq!(fetched(&template, &empty, Session, 0), question(11));
    assert_eq!(
        fetched(&template, &empty, Template, 0),
        Ok((Template, 0x74))
    );
    // A template without an SST.
    let none = made(&[], None).bytes;
    assert_eq!(fetched(&none, &own, Session, 0), Ok((Session, 0x61)));
    assert_eq!(fetched(&none, &own, Template, 0), question(11));
    assert_eq!(fetched(&none, &none, Session, 0), question(11));
}

/// A refused correction changes no byte.
#[track_caller]
fn assert_uncorrected(
    pair: (&[u8], &[u8]),
    sheet: u32,
    address: (u32, u32),
    value: NewValue,
    number: u8,
) {
    let (template, session) = pair;
    let mut bytes = session.to_vec();
    let (row, column) = address;
    let answer = pair_correct(template, &mut bytes, sheet, row, column, value);
    assert_eq!(answer, question(number));
    assert_eq!(bytes, session);
}

#[test]
fn p6_a_correction_aimed_at_the_template() {
    let (template, session) = (template().bytes, session().bytes);
    let pair = (&template[..], &session[..]);
    let values = [
        NewValue::Number(1.0),
        NewValue::Number(f64::NAN),
        NewValue::Text(0),
        NewValue::Text(99),
        NewValue::Truth(2),
        NewValue::Error(0x07),
    ];
    for value in values {
        // The text cell, an address twice, an absent one, one out of range.
        for address in [(7, 3), (9, 9), (0, 0), (65_536, 256)] {
            assert_uncorrected(pair, 1, address, value, 17);
        }
        // A chart and a macro sheet.
        assert_uncorrected(pair, 2, (0, 0), value, 17);
        assert_uncorrected(pair, 3, (0, 0), value, 17);
        // A number in neither.
        for sheet in [4, 5, u32::MAX] {
            assert_uncorrected(pair, sheet, (7, 3), value, 11);
        }
        // A sheet in both is the session's: the template's (4, 1) isn't there,
        // and the session's own order stays.
        assert_uncorrected(pair, 0, (4, 1), value, 11);
        assert_uncorrected(pair, 0, (3, 0), value, 16);
    }
    assert_uncorrected(pair, 0, (0, 0), NewValue::Number(1.0), 17);
    // A chart of the session over a worksheet of the template.
    let chart = made(&[making(b"c", CHART, &[])], None).bytes;
    let pair = (&template[..], &chart[..]);
    assert_uncorrected(pair, 0, (0, 0), NewValue::Text(0), 11);
    // A sheet that the session alone has.
    let none = made(&[], Some(b"abc")).bytes;
    let mut bytes = session.clone();
    let answer = pair_correct(&none, &mut bytes, 0, 0, 0, NewValue::Text(0));
    assert_eq!(answer, Ok(()));
}

/// What a session's text takes: granted, with these bytes at its place, or 18.
#[track_caller]
fn assert_text(template: &[u8], session: &Made, index: u32, granted: bool) {
    let pair = (template, &session.bytes[..]);
    if !granted {
        assert_uncorrected(pair, 0, (0, 0), NewValue::Text(index), 18);
        return;
    }
    let mut bytes = session.bytes.clone();
    let value = NewValue::Text(index);
    assert_eq!(pair_correct(template, &mut bytes, 0, 0, 0, value), Ok(()));
    // The index stands ten bytes after its record's header.
    let mut expected = session.bytes.clone();
    let field = session.records[0][0] + 10;
    expected[field..field + 4].copy_from_slice(&index.to_le_bytes());
    assert_eq!(bytes, expected);
}

#[test]
fn p7_eighteen_against_the_table_that_the_indices_resolve_in() {
    let template = template().bytes;
    let bare = session();
    for (index, granted) in [(0, true), (1, true), (2, true), (3, false)] {
        assert_text(&template, &bare, index, granted);
    }
    let own = session_of(&[text(0, 0, 0)], Some(b"ab"));
    for (index, granted) in [(1, true), (2, false), (u32::MAX, false)] {
        assert_text(&template, &own, index, granted);
    }
    let more = session_of(&[text(0, 0, 0)], Some(b"abcde"));
    for (index, granted) in [(2, true), (4, true), (5, false)] {
        assert_text(&template, &more, index, granted);
    }
}

/// All that is read over a pair: each sheet with its name and cells, and both
/// tables' strings.
type Reading = (
    Vec<(PairSheet, Vec<u8>, Vec<Cell>)>,
    Vec<Result<(Whose, u16), PairRefusal>>,
);

fn reading(template: &[u8], session: &[u8]) -> Reading {
    let sheets = pair_check(template, session).unwrap() as u32;
    let sheets = (0..sheets).map(|n| {
        let mut cells = Vec::new();
        let whose = pair_cells(template, session, n, |cell| cells.push(cell.clone()));
        let sheet = pair_sheet(template, session, n).unwrap();
        let (named, name) = pair_sheet_name(template, session, n);
        assert_eq!((whose, named), (Ok(sheet.whose), Some(sheet.whose)));
        (sheet, name.to_vec(), cells)
    });
    let strings = [Session, Template].into_iter().flat_map(|whose| {
        let index = 0..4;
        index.map(move |index| fetched(template, session, whose, index))
    });
    (sheets.collect(), strings.collect())
}

#[test]
fn p7_a_granted_correction_changes_one_cell_of_the_reading() {
    let template = template().bytes;
    let session = session_of(&[text(0, 0, 1), text(2, 5, 2), one(3, 0)], None).bytes;
    let before = reading(&template, &session);
    let minus_two = 0xC000_0000_0000_0000;
    let corrections = [
        (0, 0, 0, NewValue::Text(2), Value::Text(2)),
        (1, 2, 5, NewValue::Text(0), Value::Text(0)),
        (2, 3, 0, NewValue::Number(-2.0), Value::Number(minus_two)),
    ];
    for (number, row, column, value, new) in corrections {
        let mut bytes = session.clone();
        pair_correct(&template, &mut bytes, 0, row, column, value).unwrap();
        let mut expected = before.clone();
        expected.0[0].2[number].value = new;
        assert_eq!(reading(&template, &bytes), expected);
    }
}

// Owners whose calls interleave.

/// One call of an owner.
#[derive(Clone, Copy)]
enum Call {
    Correct(u32, NewValue),
    Fetch(u32),
    Fill,
    Through(u32),
    Text,
}

/// An owner's lent memory.
#[derive(Clone)]
struct Owner {
    session: Vec<u8>,
    buffer: [u16; 2],
    tables: [[u32; 6]; 2],
}

/// What an owner is told.
#[derive(Clone, Debug, PartialEq)]
enum Told {
    Corrected(Result<(), PairRefusal>),
    Fetched(Result<(Whose, usize), PairRefusal>, [u16; 2]),
    Filled(Result<(u32, u32), PairRefusal>),
    Through(Result<usize, Refusal>, [u16; 2]),
    Text(Value),
}

impl Owner {
    fn new(session: &Made) -> Self {
        Owner {
            session: session.bytes.clone(),
            buffer: [UNIT; 2],
            tables: [[OLD; 6]; 2],
        }
    }

    fn call(&mut self, template: &[u8], call: Call) -> Told {
        let Owner {
            session,
            buffer,
            tables: [first, second],
        } = self;
        match call {
            Call::Correct(sheet, value) => {
                Told::Corrected(pair_correct(template, session, sheet, 0, 0, value))
            }
            Call::Fetch(index) => {
                let answer = pair_fetch(template, session, Session, index, buffer);
                Told::Fetched(answer, *buffer)
            }
            Call::Fill => Told::Filled(pair_fill(template, session, first, second)),
            Call::Through(index) => {
                let answer = fetch_through(session, second, index, buffer);
                Told::Through(answer, *buffer)
            }
            Call::Text => Told::Text(cells(template, session, 0).1[0].2),
        }
    }
}

/// Each order of so many calls of two owners that keeps their own orders: true
/// where it is the first owner's turn.
fn turns(first: usize, second: usize) -> Vec<Vec<bool>> {
    if first + second == 0 {
        return vec![vec![]];
    }
    let mut orders = Vec::new();
    for (turn, left) in [(true, first), (false, second)] {
        if left > 0 {
            let (first, second) = (first - usize::from(turn), second - usize::from(!turn));
            orders.extend(turns(first, second).into_iter().map(|mut order| {
                order.insert(0, turn);
                order
            }));
        }
    }
    orders
}

#[test]
fn p8_owners_calls_interleave() {
    let template = template().bytes;
    // The first without an SST, the second with one of its own.
    let bare = session_of(&[text(0, 0, 1)], None);
    let own = session_of(&[text(0, 0, 0)], Some(b"ab"));
    let first = [
        (
            Call::Fetch(2),
            Told::Fetched(Ok((Template, 1)), [0x76, UNIT]),
        ),
        (Call::Correct(0, NewValue::Text(2)), Told::Corrected(Ok(()))),
        (Call::Text, Told::Text(Value::Text(2))),
        (Call::Fill, Told::Filled(Ok((3, 0)))),
        (
            Call::Through(0),
            Told::Through(
                Err(Refusal {
                    number: 11,
                    offset: 0,
                }),
                [0x76, UNIT],
            ),
        ),
    ];
    let second = [
        (
            Call::Correct(0, NewValue::Text(2)),
            Told::Corrected(question(18)),
        ),
        (Call::Correct(0, NewValue::Text(1)), Told::Corrected(Ok(()))),
        (
            Call::Correct(1, NewValue::Text(1)),
            Told::Corrected(question(17)),
        ),
        (Call::Fill, Told::Filled(Ok((3, 2)))),
        (Call::Through(1), Told::Through(Ok(1), [0x62, UNIT])),
    ];
    let mut bare_after = bare.bytes.clone();
    bare_after[bare.records[0][0] + 10] = 2;
    let mut own_after = own.bytes.clone();
    own_after[own.records[0][0] + 10] = 1;
    let orders = turns(first.len(), second.len());
    assert_eq!(orders.len(), 252);
    for order in orders {
        let mut owners = (Owner::new(&bare), Owner::new(&own));
        let mut calls = (first.iter(), second.iter());
        for turn in order {
            let (owner, (call, told)) = if turn {
                (&mut owners.0, calls.0.next().unwrap())
            } else {
                (&mut owners.1, calls.1.next().unwrap())
            };
            assert_eq!(owner.call(&template, *call), *told);
        }
        assert_eq!(owners.0.session, bare_after);
        assert_eq!(owners.1.session, own_after);
        assert_eq!(owners.0.tables[1], [NONE; 6]);
        // BOF 20, a BOUNDSHEET of 17: the SST is at 37, its strings from 49 on.
        assert_eq!(owners.1.tables[1], [49, 37, 53, 37, NONE, NONE]);
    }
}

#[test]
fn p9_the_name_of_a_refused_sheet() {
    let (template, session) = (template().bytes, session().bytes);
    let nothing: (Option<Whose>, &[u8]) = (None, &[]);
    assert_eq!(pair_sheet_name(&template, &session, 4), nothing);
    assert_eq!(pair_sheet_name(&template, &session, u32::MAX), nothing);
    assert_eq!(pair_sheet_name(&[], &session, 0), nothing);
    assert_eq!(pair_sheet_name(&template, &[], 0), nothing);
    assert_eq!(pair_sheet_name(&template, &[], 1), nothing);
}

/// The questions on one stream are as they were.
#[test]
fn one_stream_alone() {
    let bare = session();
    let first = bare.records[0][0];
    let nine = Refusal {
        number: 9,
        offset: first,
    };
    assert_eq!(read(&bare.bytes).unwrap_err(), nine);
    assert_eq!(list_cells(&bare.bytes, 0, |_| ()), Err(nine));
    assert_eq!(fetch(&bare.bytes, 0, &mut []), Err(nine));
    assert_eq!(fill(&bare.bytes, &mut []), Err(nine));
    assert_eq!(print(&bare.bytes), format!("refused 9 at {first}\n"));
    let mut bytes = bare.bytes.clone();
    let answer = correct(&mut bytes, 0, 3, 0, NewValue::Number(1.0));
    assert_eq!(answer, Err(nine));
    assert_eq!(bytes, bare.bytes);
}

// K8's tables over the pair.

/// BOF 20, BOUNDSHEETs of 16, 15, 17 and 17: the template's SST is at 85, its
/// strings at 97, 101 and 105.
const TEMPLATE_PLACES: [u32; 6] = [97, 85, 101, 85, 105, 85];

#[test]
fn t9_a_table_for_each_stream() {
    let template = template().bytes;
    let own = session_of(&[text(0, 0, 0)], Some(b"ab")).bytes;
    let (mut first, mut second) = ([OLD; 7], [OLD; 5]);
    let answer = pair_fill(&template, &own, &mut first, &mut second);
    assert_eq!(answer, Ok((3, 2)));
    assert_eq!(first[..6], TEMPLATE_PLACES);
    assert_eq!(first[6], NONE);
    assert_eq!(second, [49, 37, 53, 37, NONE]);
    // The fetch is the plain one on the named stream.
    let mut unit = [UNIT];
    assert_eq!(fetch_through(&template, &first, 1, &mut unit), Ok(1));
    assert_eq!(unit, [0x75]);
    assert_eq!(fetch_through(&own, &second, 1, &mut unit), Ok(1));
    assert_eq!(unit, [0x62]);
    let absent = Refusal {
        number: 11,
        offset: 0,
    };
    let answer = fetch_through(&own, &second, 2, &mut unit);
    assert_eq!((answer, unit), (Err(absent), [0x62]));
}

#[test]
fn t9_either_table_too_short() {
    let template = template().bytes;
    let own = session_of(&[text(0, 0, 0)], Some(b"ab")).bytes;
    for (first_size, second_size) in [(5, 4), (6, 3), (0, 0), (5, 3), (0, 9), (9, 0)] {
        let mut first = vec![OLD; first_size];
        let mut second = vec![OLD; second_size];
        let answer = pair_fill(&template, &own, &mut first, &mut second);
        assert_eq!(answer, question(12));
        assert!(first.iter().chain(&second).all(|&number| number == OLD));
    }
    let (mut first, mut second) = ([OLD; 6], [OLD; 4]);
    let answer = pair_fill(&template, &own, &mut first, &mut second);
    assert_eq!(answer, Ok((3, 2)));
    // After the pair's check.
    let answer = pair_fill(&[], &own, &mut [], &mut []);
    assert_eq!(answer, in_stream(Template, 3, 0));
    let answer = pair_fill(&template, &[], &mut [], &mut []);
    assert_eq!(answer, in_stream(Session, 3, 0));
}

#[test]
fn t9_a_session_without_an_sst() {
    let template = template().bytes;
    let bare = session().bytes;
    let (mut first, mut second) = ([OLD; 6], [OLD; 6]);
    let answer = pair_fill(&template, &bare, &mut first, &mut second);
    assert_eq!(answer, Ok((3, 0)));
    assert_eq!((first, second), (TEMPLATE_PLACES, [NONE; 6]));
    // No falling back to the template, as the fetch over the pair does.
    for index in 0..4 {
        let absent = Refusal {
            number: 11,
            offset: 0,
        };
        let mut buffer = [UNIT; 2];
        let answer = fetch_through(&bare, &second, index, &mut buffer);
        assert_eq!((answer, buffer), (Err(absent), [UNIT; 2]));
    }
    assert_eq!(fetched(&template, &bare, Session, 1), Ok((Template, 0x75)));
    // It needs no numbers.
    let answer = pair_fill(&template, &bare, &mut first, &mut []);
    assert_eq!(answer, Ok((3, 0)));
    // A made-up table reads what stands there: a CONTINUE among its globals.
    let mut book = Book::globals();
    book.record(OTHER, &[]);
    book.record(CONTINUE, &[1, 0, 0, b'z']);
    book.eof();
    assert_eq!(pair_check(&template, &book.bytes), Ok(4));
    let mut unit = [UNIT];
    assert_eq!(fetch_through(&book.bytes, &[28, 24], 0, &mut unit), Ok(1));
    assert_eq!(unit, [0x7A]);
}
