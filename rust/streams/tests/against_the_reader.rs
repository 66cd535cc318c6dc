//! The makers and the second reader, each tested against the other.

use second_reader::{self as reader, FormulaResult, Reading, Refusal, Value};
use streams::{Apart, Content, Contents, NewValue, Revisions};

const SEEDS: u64 = 20_000;

fn value_of(content: &Content) -> Value {
    match *content {
        Content::Blank => Value::Blank,
        Content::Number(bits) => Value::Number(bits),
        Content::Packed(word) => Value::Number(reader::decode_rk(word).expect("a meaning")),
        Content::Text(index) => Value::Text(index),
        Content::Truth(truth) => Value::Truth(truth),
        Content::Error(code) => Value::Error(code),
        Content::Formula(ref formula) => Value::Formula(match formula.result {
            [0, .., 0xFF, 0xFF] => FormulaResult::Text,
            [1, _, truth, .., 0xFF, 0xFF] => FormulaResult::Truth(truth),
            [2, _, code, .., 0xFF, 0xFF] => FormulaResult::Error(code),
            [_, .., 0xFF, 0xFF] => FormulaResult::Empty,
            bits => FormulaResult::Number(u64::from_le_bytes(bits)),
        }),
    }
}

/// The format that stands at a blank's place, or before another cell's.
fn format_at_place(stream: &[u8], cell: &reader::Cell) -> u16 {
    let place = match cell.value {
        Value::Blank => cell.value_field.start,
        _ => cell.value_field.start - 2,
    };
    u16::from_le_bytes([stream[place], stream[place + 1]])
}

fn assert_same(stream: &[u8], reading: &Reading, contents: &Contents) {
    assert_eq!(reading.strings, contents.strings);
    assert_eq!(reading.sheets.len(), contents.sheets.len());
    for (sheet, made) in reading.sheets.iter().zip(&contents.sheets) {
        assert_eq!(stream[sheet.name.clone()], made.name);
        assert_eq!(sheet.wide, made.wide);
        assert_eq!(sheet.sheet_type as u8, made.sheet_type);
        assert_eq!(sheet.cells.len(), made.cells.len());
        let rows = made.cells.iter().map(|cell| u32::from(cell.row) + 1).max();
        assert_eq!(sheet.rows, rows.unwrap_or(0));
        for (cell, made) in sheet.cells.iter().zip(&made.cells) {
            let address = (cell.row, cell.column, cell.format);
            assert_eq!(address, (made.row, made.column, made.format));
            assert_eq!(format_at_place(stream, cell), made.format);
            assert_eq!(cell.value, value_of(&made.value));
            let (tokens, trailing) = match &made.value {
                Content::Formula(formula) => (&formula.tokens[..], &formula.trailing[..]),
                _ => (&[][..], &[][..]),
            };
            assert_eq!(&stream[cell.tokens.clone()], tokens);
            assert_eq!(&stream[cell.trailing.clone()], trailing);
        }
        let made_texts = made.cells.iter().filter_map(|cell| match &cell.value {
            Content::Formula(formula) => formula.text.clone(),
            _ => None,
        });
        assert_eq!(sheet.texts, made_texts.collect::<Vec<_>>());
    }
}

#[test]
fn valid_streams_are_read_as_they_were_made() {
    for seed in 0..SEEDS {
        let (stream, contents) = streams::valid_with_contents(seed);
        assert_eq!(stream, streams::valid(seed));
        assert!(stream.len() <= streams::LONGEST, "{seed}: {}", stream.len());
        match reader::read(&stream) {
            Ok(reading) => assert_same(&stream, &reading, &contents),
            Err(refusal) => panic!("seed {seed}: {refusal}"),
        }
    }
}

/// Over the template, and at times not alone.
#[test]
fn valid_pairs_pass() {
    let mut alone = 0;
    for seed in 0..SEEDS / 4 {
        let pair = streams::valid_pair(seed);
        let checked = reader::pair_check(&pair.template, &pair.session);
        assert!(checked.is_ok(), "seed {seed}: {checked:?}");
        alone += usize::from(reader::check(&pair.session).is_ok());
    }
    assert!(alone < 4_900 && alone > 1_000, "{alone}");
}

#[test]
fn valid_formulas_are_accepted() {
    for seed in 0..SEEDS {
        let formula = streams::valid_formula(seed);
        let answer = reader::judge(&formula.tokens, &formula.trailing);
        assert_eq!(answer, Ok(()), "seed {seed}: {formula:02X?}");
    }
}

#[test]
fn valid_sessions_are_in_the_profile() {
    for seed in 0..SEEDS {
        let stream = streams::valid_session(seed);
        assert!(stream.len() <= streams::LONGEST);
        assert_eq!(reader::profile(&stream), Ok(()), "seed {seed}");
    }
}

fn apart(difference: &reader::Difference) -> Apart {
    match *difference {
        reader::Difference::Name { sheet } => Apart::Name(sheet),
        reader::Difference::First(at) => Apart::First(at.sheet, at.row, at.column),
        reader::Difference::Second(at) => Apart::Second(at.sheet, at.row, at.column),
        reader::Difference::Unequal(at) => Apart::Unequal(at.sheet, at.row, at.column),
    }
}

/// Two revisions differ where they were made to, however each is written.
#[test]
fn revisions_differ_as_they_were_made() {
    let mut met = [0; 5];
    for seed in 0..SEEDS {
        let Revisions {
            first,
            second,
            differences,
        } = streams::valid_revisions(seed);
        let found = reader::compare(&first, &second);
        let found = found.unwrap_or_else(|refused| panic!("seed {seed}: {refused:?}"));
        let found: Vec<_> = found.iter().map(apart).collect();
        assert_eq!(found, differences, "seed {seed}");
        for difference in &differences {
            met[match difference {
                Apart::Name(_) => 0,
                Apart::First(..) => 1,
                Apart::Second(..) => 2,
                Apart::Unequal(..) => 3,
            }] += 1;
        }
        met[4] += usize::from(differences.is_empty() && first != second);
    }
    assert!(met.iter().all(|count| *count > 500), "{met:?}");
}

#[test]
fn hostile_streams_pass_and_are_the_same_or_differ_in_each_cell() {
    for kind in streams::Hostile::ALL {
        let (first, second) = streams::hostile(kind, 300_000);
        assert!(first.len() > 299_000 && first.len() <= 300_000, "{kind:?}");
        let differences = reader::compare(&first, &second).expect("two that pass");
        let differ = match kind {
            streams::Hostile::LastCharacters => {
                let book = reader::read(&first).expect("one that passes");
                book.sheets[0].cells.len()
            }
            _ => 0,
        };
        assert_eq!(differences.len(), differ, "{kind:?}");
    }
}

#[test]
fn the_ways_of_reading_agree() {
    for seed in 0..SEEDS {
        let stream = streams::stream(seed);
        assert!(stream.len() <= streams::LONGEST);
        let passed = reader::check(&stream);
        let reading = match (passed, reader::read(&stream)) {
            (Ok(passed), Ok(reading)) => {
                let cells: usize = reading.sheets.iter().map(|sheet| sheet.cells.len()).sum();
                assert_eq!(passed.cells, cells as u64);
                assert_eq!(passed.sheets, reading.sheets.len() as u64);
                assert_eq!(passed.strings, reading.strings.len() as u64);
                reading
            }
            (passed, reading) => {
                let refusal = passed.unwrap_err();
                assert_eq!(reading.unwrap_err(), refusal);
                assert_eq!(reader::list_cells(&stream, 0, |_| ()), Err(refusal));
                assert_eq!(reader::fetch(&stream, 0, &mut []), Err(refusal));
                assert_eq!(reader::text(&stream, 0, 0, 0, &mut []), Err(refusal));
                continue;
            }
        };
        for (number, sheet) in reading.sheets.iter().enumerate() {
            let mut cells = Vec::new();
            reader::list_cells(&stream, number, |cell| cells.push(cell.clone())).unwrap();
            assert_eq!(cells, sheet.cells);
            assert_texts(&stream, number as u32, sheet);
        }
        for (index, string) in reading.strings.iter().enumerate().take(40) {
            let mut buffer = vec![0xABCD; string.len() + 2];
            let length = reader::fetch(&stream, index as u32, &mut buffer).unwrap();
            assert_eq!(&buffer[..length], &string[..]);
            assert_eq!(&buffer[length..], [0xABCD; 2]);
            if let Some(short) = length.checked_sub(1) {
                let mut buffer = vec![0xABCD; short];
                let refusal = reader::fetch(&stream, index as u32, &mut buffer).unwrap_err();
                assert_eq!((refusal.number, refusal.offset), (12, 0));
                assert!(buffer.iter().all(|&unit| unit == 0xABCD));
            }
        }
    }
}

/// Each text is fetched by its cell, where that is the first of its address, and
/// into no buffer that is shorter.
fn assert_texts(stream: &[u8], number: u32, sheet: &reader::Sheet) {
    let texts = sheet.cells.iter().filter(|cell| cell.has_text_result());
    assert_eq!(texts.clone().count(), sheet.texts.len());
    for (cell, text) in texts.zip(&sheet.texts).take(40) {
        let at = |other: &&reader::Cell| (other.row, other.column) == (cell.row, cell.column);
        let first = sheet.cells.iter().find(at);
        if first != Some(cell) {
            continue;
        }
        let (row, column) = (cell.row.into(), cell.column.into());
        let mut buffer = vec![0xABCD; text.len() + 2];
        let length = reader::text(stream, number, row, column, &mut buffer).unwrap();
        assert_eq!(&buffer[..length], &text[..]);
        assert_eq!(&buffer[length..], [0xABCD; 2]);
        if let Some(short) = length.checked_sub(1) {
            let mut buffer = vec![0xABCD; short];
            let refusal = reader::text(stream, number, row, column, &mut buffer).unwrap_err();
            assert_eq!((refusal.number, refusal.offset), (12, 0));
            assert!(buffer.iter().all(|&unit| unit == 0xABCD));
        }
    }
}

fn asked(value: NewValue) -> reader::NewValue {
    match value {
        NewValue::Number(number) => reader::NewValue::Number(number),
        NewValue::Text(index) => reader::NewValue::Text(index),
        NewValue::Truth(truth) => reader::NewValue::Truth(truth),
        NewValue::Error(code) => reader::NewValue::Error(code),
    }
}

fn expected(value: NewValue) -> Value {
    match value {
        NewValue::Number(number) => Value::Number(number.to_bits()),
        NewValue::Text(index) => Value::Text(index),
        NewValue::Truth(truth) => Value::Truth(truth),
        NewValue::Error(code) => Value::Error(code),
    }
}

#[test]
fn a_correction_changes_one_cell_and_a_refusal_nothing() {
    let mut granted = 0;
    for seed in 0..SEEDS {
        let before = streams::stream(seed);
        let ask = streams::correction(seed, &before);
        let mut after = before.clone();
        let value = asked(ask.value);
        let answer = reader::correct(&mut after, ask.sheet, ask.row, ask.column, value);
        if answer.is_err() {
            assert_eq!(before, after);
            continue;
        }
        granted += 1;
        let mut reading = reader::read(&before).unwrap();
        let cell = reading.sheets[ask.sheet as usize]
            .cells
            .iter_mut()
            .find(|cell| (u32::from(cell.row), u32::from(cell.column)) == (ask.row, ask.column));
        cell.expect("a cell").value = expected(ask.value);
        assert_eq!(reader::read(&after), Ok(reading));
    }
    assert!(granted > SEEDS / 20, "{granted}");
}

#[test]
fn every_refusal_is_met() {
    let mut met = [0; 21];
    let mut meet = |refusal: Refusal| met[usize::from(refusal.number)] += 1;
    for seed in 0..SEEDS {
        let mut stream = streams::stream(seed);
        let sheet = streams::sheet(seed, &stream) as usize;
        let fetch = streams::fetch(seed, &stream);
        let mut buffer = vec![0; fetch.units];
        let ask = streams::correction(seed, &stream);
        let formula = streams::formula(seed);
        let session = streams::session(seed);
        let answers = [
            reader::profile(&session),
            reader::list_cells(&stream, sheet, |_| ()),
            reader::fetch(&stream, fetch.index, &mut buffer).map(|_| ()),
            reader::correct(
                &mut stream,
                ask.sheet,
                ask.row,
                ask.column,
                asked(ask.value),
            ),
            reader::judge(&formula.tokens, &formula.trailing),
        ];
        answers
            .into_iter()
            .filter_map(Result::err)
            .for_each(&mut meet);
    }
    // 1 needs a longer stream, and 19 is no answer to these questions.
    let asked_for = (2..=20).filter(|&number| number != 19);
    for number in asked_for {
        let times = met[number];
        assert!(times > SEEDS / 500, "{number}: {times}");
    }
}

#[test]
fn the_same_seed_gives_the_same() {
    let mut differing = 0;
    for seed in 0..500 {
        let stream = streams::stream(seed);
        assert_eq!(stream, streams::stream(seed));
        assert_eq!(streams::formula(seed), streams::formula(seed));
        assert_eq!(streams::session(seed), streams::session(seed));
        let fetch = streams::fetch(seed, &stream);
        assert_eq!(fetch, streams::fetch(seed, &stream));
        let text = streams::text(seed, &stream);
        assert_eq!(text, streams::text(seed, &stream));
        let through = streams::through(seed, &stream, &[]);
        assert_eq!(through, streams::through(seed, &stream, &[]));
        differing += u32::from(stream != streams::stream(seed + 1));
    }
    assert!(differing > 490);
}

#[test]
fn large_streams_are_valid_and_of_their_size() {
    for kind in streams::Big::ALL {
        for bytes in [200, 1_000, 20_011, 300_000] {
            let stream = streams::big(kind, bytes);
            assert_eq!(stream.len(), bytes);
            let passed = reader::check(&stream).unwrap_or_else(|r| panic!("{kind:?} {bytes}: {r}"));
            let tail = stream.iter().rev().take_while(|&&byte| byte == 0).count();
            assert!(
                tail < 2_000 && (bytes < 9_000 || passed.sheets > 0),
                "{kind:?}: {tail}"
            );
        }
    }
}

#[test]
fn the_longest_stream_is_accepted_and_one_byte_more_is_not() {
    for seed in 0..9 {
        let stream = streams::longest(seed);
        let refused = reader::check(&stream).err();
        let too_long = Refusal {
            number: 1,
            offset: 0,
        };
        assert_eq!(refused == Some(too_long), stream.len() > 16_777_216);
    }
}
