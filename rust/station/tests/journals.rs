//! Journals of corrections through the layer: long runs, and what is shown of entries.

use station::journal::{Direction, Journal, Old, Unreplayed, ENTRY, HEADER};
use station::{Cell, NewValue, Refusal, Value};
use std::fs;
use std::path::Path;

fn case(name: &str) -> Vec<u8> {
    let cases = Path::new(env!("CARGO_MANIFEST_DIR")).join("../../cases");
    fs::read(cases.join(name).with_extension("in")).expect("a stored case")
}

fn refused(number: u8) -> Refusal {
    Refusal { number, offset: 0 }
}

/// Numbers that follow no pattern.
struct Numbers(u64);

impl Numbers {
    fn below(&mut self, limit: usize) -> usize {
        self.0 = self.0.wrapping_mul(6_364_136_223_846_793_005);
        self.0 = self.0.wrapping_add(1_442_695_040_888_963_407);
        (self.0 >> 33) as usize % limit
    }
}

/// A value that a cell may take, or not.
fn value(numbers: &mut Numbers, cell: &Cell, strings: u32) -> NewValue {
    match cell.value() {
        Value::Number(_) if numbers.below(2) == 0 => NewValue::Number(numbers.below(1_000) as f64),
        Value::Number(_) => NewValue::Number(numbers.below(100_000) as f64 / 100.0),
        Value::Text(_) => NewValue::Text(numbers.below(strings as usize + 1) as u32),
        Value::Truth(_) | Value::Error(_) if numbers.below(2) == 0 => {
            NewValue::Truth(numbers.below(3) as u8)
        }
        Value::Truth(_) | Value::Error(_) => {
            NewValue::Error([0x00, 0x07, 0x0F, 0x17, 0x1D, 0x24, 0x2A, 0x2B][numbers.below(8)])
        }
        Value::Blank | Value::Formula(_) => NewValue::Number(1.0),
    }
}

/// A thousand granted corrections, among them many of one cell, and as many refused ones as come: replay leads from the first stream to the last and back.
#[test]
fn a_thousand_corrections() {
    let made = |seed| (streams::valid(seed), seed);
    let with_cells = (0..).map(made).filter(|(stream, _)| {
        let workbook = station::check(stream).expect("a valid stream");
        let cells = workbook.sheets().flat_map(|sheet| sheet.cells());
        cells.filter(|cell| !cell.is_blank()).count() > 20
    });
    for (original, seed) in with_cells.take(4) {
        let workbook = station::check(&original).expect("a valid stream");
        let strings = workbook.strings;
        let cells: Vec<(u32, Cell)> = (0..)
            .zip(workbook.sheets())
            .flat_map(|(number, sheet)| sheet.cells().map(move |cell| (number, cell)))
            .collect();
        let mut numbers = Numbers(seed);
        let mut stream = original.clone();
        let mut journal = Journal::started(&stream).expect("a valid stream");
        let (mut granted, mut asked) = (0, 0);
        while granted < 1_000 {
            asked += 1;
            assert!(asked < 100_000, "too few are granted");
            let (sheet, cell) = &cells[numbers.below(cells.len())];
            let value = value(&mut numbers, cell, strings);
            let (row, column) = (cell.row().into(), cell.column().into());
            let before = (stream.clone(), journal.entries().len());
            journal.make_room();
            let answer = journal.correct(&mut stream, *sheet, row, column, value);
            granted += u32::from(answer.is_ok());
            assert_eq!(
                journal.entries().len(),
                before.1 + usize::from(answer.is_ok())
            );
            match answer {
                Ok(()) => {
                    let last = journal.entries().last().expect("an entry");
                    assert_eq!(
                        (last.sheet(), last.row(), last.column()),
                        (*sheet, cell.row(), cell.column())
                    );
                    let (old, field) = (last.old(), cell.field());
                    assert_eq!(old, &before.0[field..field + old.len()]);
                    assert_eq!(last.new_value(), Some(value));
                }
                Err(_) => assert!(stream == before.0),
            }
        }
        assert_eq!(journal.count(), 1_000);
        assert!(journal.is_whole());
        let mut copy = original.clone();
        assert_eq!(journal.replay(&mut copy, Direction::Forwards), Ok(1_000));
        assert!(copy == stream);
        assert_eq!(journal.replay(&mut copy, Direction::Backwards), Ok(1_000));
        assert!(copy == original);
    }
}

#[test]
fn lent_bytes() {
    let mut stream = case("cells");
    let original = stream.clone();
    let mut lent = [0xEE; HEADER + ENTRY + 3];
    assert_eq!(
        Journal::start(&mut lent[..15], &stream).expect_err("too short"),
        refused(12)
    );
    assert_eq!(lent, [0xEE; HEADER + ENTRY + 3]);
    let mut journal = Journal::start(&mut lent[..], &stream).expect("room for a header");
    assert_eq!((journal.count(), journal.strings()), (0, Some(3)));
    assert_eq!(journal.stream_length(), Some(stream.len() as u32));
    let number = NewValue::Number(2.5);
    assert_eq!(journal.correct(&mut stream, 0, 0, 1, number), Ok(()));
    // Room for three bytes more; what is absent comes first.
    assert_eq!(
        journal.correct(&mut stream, 0, 0, 1, number),
        Err(refused(12))
    );
    assert_eq!(
        journal.correct(&mut stream, 0, 9, 9, number),
        Err(refused(11))
    );
    let entry = journal.entries().next().expect("an entry");
    assert_eq!((entry.kind(), entry.old().len()), (0, 8));
    assert_eq!(
        entry.old_value(),
        Some(Old::Number(std::f64::consts::PI.to_bits()))
    );
    let bytes = journal.into_bytes();
    assert_eq!(bytes[HEADER + ENTRY..], [0xEE; 3]);
    let read = Journal::over(&*bytes);
    assert_eq!(read.replay(&mut stream, Direction::Backwards), Ok(1));
    assert_eq!(stream, original);
    let stopped = read.replay(&mut stream, Direction::Backwards);
    let (number, entry) = (19, 0);
    assert_eq!(stopped, Err(Unreplayed::Stopped { number, entry }));
    let shown = stopped.expect_err("another value").to_string();
    assert!(shown.starts_with("refused 19 at entry 0: "), "{shown}");
}

#[test]
fn what_is_no_journal() {
    let mut stream = case("cells");
    let original = stream.clone();
    let mut whole = Journal::started(&stream).expect("it passes");
    whole.make_room();
    whole
        .correct(&mut stream, 0, 0, 1, NewValue::Number(2.5))
        .expect("granted");
    let whole = whole.into_bytes();
    let refuses = |bytes: &[u8], is_whole: bool| {
        let journal = Journal::over(bytes);
        assert_eq!(journal.is_whole(), is_whole, "{bytes:?}");
        let mut copy = original.clone();
        let answer = journal.replay(&mut copy, Direction::Forwards);
        assert_eq!(answer, Err(Unreplayed::Refused(refused(21))), "{bytes:?}");
        assert_eq!(copy, original);
    };
    for end in 0..whole.len() {
        refuses(&whole[..end], false);
    }
    for (at, is_whole) in [
        (0, false),
        (4, false),
        (8, true),
        (12, true),
        (24, false),
        (26, false),
    ] {
        let mut other = whole.clone();
        other[at] ^= 0x10;
        refuses(&other, is_whole);
    }
    // Room is made only for what is a journal.
    let mut cut = Journal::over(whole[..40].to_vec());
    cut.make_room();
    assert_eq!(cut.bytes().len(), 40);
}
