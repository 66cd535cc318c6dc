//! export.

use crate::made::{self, units, Sheet};
use crate::parse::{csv, json, unescape_field, Json};
use crate::tool::{case, run, run_with};
use crate::words;
use second_reader::{Cell, FormulaResult, Reading, Value};
use std::ffi::OsString;

const HEADER: &str = "sheet,sheet_name,row,column,kind,value\r\n";

/// The kind of a cell, and what it shows.
#[derive(Debug, PartialEq)]
pub enum Shown {
    Nothing,
    Number(u64),
    Text(Vec<u16>),
    Truth(bool),
    Error(&'static str),
}

fn error_name(code: u8) -> &'static str {
    const NAMES: [(u8, &str); 7] = [
        (0x00, "#NULL!"),
        (0x07, "#DIV/0!"),
        (0x0F, "#VALUE!"),
        (0x17, "#REF!"),
        (0x1D, "#NAME?"),
        (0x24, "#NUM!"),
        (0x2A, "#N/A"),
    ];
    NAMES.iter().find(|name| name.0 == code).expect("a name").1
}

/// The cell at this place of a sheet's list. Its text, where its formula has one, stands with the sheet's others.
pub fn shown_at(reading: &Reading, sheet: &second_reader::Sheet, place: usize) -> (String, Shown) {
    let cell = &sheet.cells[place];
    if !cell.has_text_result() {
        return shown(reading, cell.value);
    }
    let before = sheet.cells[..place].iter();
    let text = before.filter(|cell| cell.has_text_result()).count();
    let text = Shown::Text(sheet.texts[text].clone());
    ("formula text".to_string(), text)
}

fn shown(reading: &Reading, value: Value) -> (String, Shown) {
    let (kind, shown) = match value {
        Value::Blank => ("blank", Shown::Nothing),
        Value::Number(bits) => ("number", Shown::Number(bits)),
        Value::Text(index) => {
            let text = reading.strings[index as usize].clone();
            ("text", Shown::Text(text))
        }
        Value::Truth(truth) => ("truth", Shown::Truth(truth == 1)),
        Value::Error(code) => ("error", Shown::Error(error_name(code))),
        Value::Formula(FormulaResult::Empty) => ("formula empty", Shown::Text(vec![])),
        Value::Formula(result) => {
            let (kind, result) = match result {
                FormulaResult::Number(bits) => shown(reading, Value::Number(bits)),
                FormulaResult::Truth(truth) => shown(reading, Value::Truth(truth)),
                FormulaResult::Error(code) => shown(reading, Value::Error(code)),
                FormulaResult::Text | FormulaResult::Empty => unreachable!("answered before"),
            };
            return (format!("formula {kind}"), result);
        }
    };
    (kind.to_string(), shown)
}

fn name_units(stream: &[u8], sheet: &second_reader::Sheet) -> Vec<u16> {
    let name = &stream[sheet.name.clone()];
    match sheet.wide {
        true => {
            let pairs = name.chunks(2);
            pairs
                .map(|pair| u16::from_le_bytes([pair[0], pair[1]]))
                .collect()
        }
        false => name.iter().copied().map(u16::from).collect(),
    }
}

/// The bits of a number that is written out; those of an infinity or a NaN are written as they are.
fn bits_of(text: &str) -> u64 {
    match text.strip_prefix("bits:") {
        Some(bits) => {
            assert_eq!(bits.len(), 16);
            let bits = u64::from_str_radix(bits, 16).expect("hex");
            assert!(!f64::from_bits(bits).is_finite(), "{text}");
            bits
        }
        None => text.parse::<f64>().expect("a decimal").to_bits(),
    }
}

pub fn assert_field(field: &str, shown: &Shown) {
    match shown {
        Shown::Nothing => assert_eq!(field, ""),
        Shown::Number(bits) => assert_eq!(bits_of(field), *bits, "{field}"),
        Shown::Text(text) => assert_eq!(&unescape_field(field), text),
        Shown::Truth(truth) => assert_eq!(field, truth.to_string()),
        Shown::Error(name) => assert_eq!(field, *name),
    }
}

fn assert_json(value: &Json, shown: &Shown) {
    match shown {
        Shown::Nothing => assert_eq!(*value, Json::Null),
        Shown::Number(bits) if f64::from_bits(*bits).is_finite() => {
            assert_eq!(value.number().to_bits(), *bits)
        }
        Shown::Number(bits) => assert_eq!(bits_of(&value.text()), *bits),
        Shown::Text(text) => assert_eq!(value.units(), text),
        Shown::Truth(truth) => assert_eq!(*value, Json::Truth(*truth)),
        Shown::Error(name) => assert_eq!(value.text(), *name),
    }
}

/// Holds a CSV file against these sheets of a reading.
fn assert_csv(text: &str, stream: &[u8], reading: &Reading, sheets: &[usize]) {
    assert!(text.starts_with(HEADER));
    let lines = csv(text);
    let mut lines = lines[1..].iter();
    for &number in sheets {
        let sheet = &reading.sheets[number];
        let name = name_units(stream, sheet);
        for (place, cell) in sheet.cells.iter().enumerate() {
            let line = lines.next().expect("a line for each cell");
            let (kind, shown) = shown_at(reading, sheet, place);
            let address = [number, usize::from(cell.row), usize::from(cell.column)];
            let [number, row, column] = address.map(|number| number.to_string());
            let plain = [&line[0], &line[2], &line[3], &line[4]];
            assert_eq!(plain, [&number, &row, &column, &kind]);
            assert_eq!(unescape_field(&line[1]), name);
            assert_field(&line[5], &shown);
            assert_eq!(line.len(), 6);
        }
    }
    assert_eq!(lines.next(), None);
}

/// Holds a JSON file against these sheets of a reading.
fn assert_json_book(text: &str, stream: &[u8], reading: &Reading, sheets: &[usize]) {
    let book = json(text);
    assert_eq!(book.names(), ["sheets"]);
    let written = book.get("sheets").list();
    assert_eq!(written.len(), sheets.len());
    for (written, &number) in written.iter().zip(sheets) {
        let sheet = &reading.sheets[number];
        assert_eq!(written.get("number").number(), number as f64);
        assert_eq!(written.get("name").units(), name_units(stream, sheet));
        let kind = ["worksheet", "macro", "chart"][sheet.sheet_type as usize];
        assert_eq!(written.get("type").text(), kind);
        assert_eq!(written.get("rows").number(), f64::from(sheet.rows));
        let cells = written.get("cells").list();
        assert_eq!(cells.len(), sheet.cells.len());
        for (place, (written, cell)) in cells.iter().zip(&sheet.cells).enumerate() {
            let (kind, shown) = shown_at(reading, sheet, place);
            assert_eq!(written.get("kind").text(), kind);
            assert_json(written.get("value"), &shown);
            assert_json_cell(written, stream, cell);
        }
    }
}

/// What a cell has beside its kind and value.
fn assert_json_cell(written: &Json, stream: &[u8], cell: &Cell) {
    assert_eq!(written.get("row").number(), f64::from(cell.row));
    assert_eq!(written.get("column").number(), f64::from(cell.column));
    if let Value::Formula(_) = cell.value {
        let tokens = &stream[cell.tokens.clone()];
        let hex: String = tokens.iter().map(|byte| format!("{byte:02X}")).collect();
        assert_eq!(written.get("tokens").text(), hex);
    } else {
        assert_eq!(written.names(), ["row", "column", "kind", "value"]);
    }
}

#[test]
fn made_streams_read_back() {
    let mut cells = 0;
    for seed in 0..120 {
        let stream = streams::valid(seed);
        let reading = second_reader::read(&stream).expect("a valid stream");
        let all: Vec<_> = (0..reading.sheets.len()).collect();
        let ran = run_with(&["export", "-", "--csv"], &stream);
        assert_eq!((ran.status, &ran.err[..]), (Some(0), ""));
        assert_csv(ran.text(), &stream, &reading, &all);
        let ran = run_with(&["export", "--json", "-"], &stream);
        assert_eq!((ran.status, &ran.err[..]), (Some(0), ""));
        assert_json_book(ran.text(), &stream, &reading, &all);
        cells += reading
            .sheets
            .iter()
            .map(|sheet| sheet.cells.len())
            .sum::<usize>();
    }
    assert!(cells > 1_000, "only {cells} cells");
}

#[test]
fn one_sheet_of_many() {
    let streams = (0..).map(streams::valid);
    let mut texts = 0;
    for stream in streams
        .filter(|stream| {
            second_reader::check(stream).is_ok_and(|passed| passed.sheets >= 3 && passed.cells > 20)
        })
        .take(5)
    {
        let reading = second_reader::read(&stream).expect("a valid stream");
        let cells = reading.sheets.iter().flat_map(|sheet| &sheet.cells);
        texts += cells
            .filter(|cell| matches!(cell.value, Value::Text(_)))
            .count();
        for number in 0..reading.sheets.len() {
            let word = number.to_string();
            let ran = run_with(&["export", "-", "--sheet", &word, "--csv"], &stream);
            assert_csv(ran.text(), &stream, &reading, &[number]);
            let ran = run_with(&["export", "-", "--sheet", &word, "--json"], &stream);
            assert_json_book(ran.text(), &stream, &reading, &[number]);
        }
        let beyond = reading.sheets.len().to_string();
        let ran = run_with(&["export", "-", "--csv", "--sheet", &beyond], &stream);
        ran.refuses_data("refused 11 at 0");
    }
    assert!(texts > 5, "only {texts} shared strings");
}

#[test]
fn refused_streams() {
    run(words!["export", case("refused-5-encrypted.in"), "--csv"]).refuses_data("refused 5 at 20");
    run(words!["export", case("empty.in"), "--json", "--sheet", "7"])
        .refuses_data("refused 3 at 0");
    run(words!["export", case("no-such-file"), "--csv"]).fails("no-such-file");
}

#[test]
fn one_format_is_needed() {
    let file = case("cells.in");
    run(words!["export", file]).fails("--csv");
    run(words!["export", file, "--csv", "--json"]).fails("--csv");
    run(words!["export", file, "--csv", "--csv"]).fails("twice");
    run(words!["export", file, "--csv=yes"]).fails("no value");
    run(words!["export", file, "--csv", "--sheet"]).fails("--sheet needs");
    run(words!["export", file, "--csv", "--sheet", ""]).fails("--sheet");
    let misplaced: [(&str, &str); 9] = [
        ("--grid --a1", "--a1 doesn't go with --grid"),
        ("--grid --no-blanks", "--no-blanks doesn't go with --grid"),
        ("--grid --places", "--places doesn't go with --grid"),
        (
            "--places --dates --grid --output-dir d",
            "--places doesn't go with --grid",
        ),
        ("--json --bom", "--bom doesn't go with --json"),
        ("--csv --output-dir d", "--output-dir doesn't go with --csv"),
        (
            "--json --output-dir d",
            "--output-dir doesn't go with --json",
        ),
        (
            "--grid --output-dir d --sheet 0",
            "with --sheet use --output",
        ),
        ("--grid --output-dir d --output f", "one is enough"),
    ];
    for (options, message) in misplaced {
        let mut words = vec!["export".into(), file.clone().into_os_string()];
        words.extend(options.split(' ').map(OsString::from));
        run(&words).fails(message);
    }
}

/// The decimal is the shortest one, and no bit is lost.
#[test]
fn numbers() {
    let numbers: [(u64, &str); 16] = [
        (0x0000_0000_0000_0000, "0"),
        (0x8000_0000_0000_0000, "-0.0"),
        (0x3FF0_0000_0000_0000, "1"),
        (0xBFF0_0000_0000_0000, "-1"),
        (0x3FB9_9999_9999_999A, "0.1"),
        (0x3FD3_3333_3333_3334, "0.30000000000000004"),
        (0x4009_21FB_5444_2D18, "3.141592653589793"),
        (0x41D0_0000_0000_0000, "1073741824"),
        (0x4340_0000_0000_0000, "9007199254740992"),
        (0x7E37_E43C_8800_759C, "1e300"),
        (0x7FEF_FFFF_FFFF_FFFF, "1.7976931348623157e308"),
        (0x0000_0000_0000_0001, "5e-324"),
        (0x7FF0_0000_0000_0000, "bits:7FF0000000000000"),
        (0xFFF0_0000_0000_0000, "bits:FFF0000000000000"),
        (0x7FF8_0000_0000_0000, "bits:7FF8000000000000"),
        (0xFFF0_0000_0000_0001, "bits:FFF0000000000001"),
    ];
    let records = numbers.iter().zip(0..);
    let records = records.map(|((bits, _), row)| made::number(row, 0, f64::from_bits(*bits)));
    let stream = made::one(&[], records.collect());
    let mut lines = HEADER.to_string();
    let mut cells = Vec::new();
    for (row, (_, text)) in numbers.iter().enumerate() {
        lines += &format!("0,Sheet1,{row},0,number,{text}\r\n");
        let quote = if text.starts_with("bits:") { "\"" } else { "" };
        cells.push(format!(
            "{{\"row\":{row},\"column\":0,\"kind\":\"number\",\"value\":{quote}{text}{quote}}}"
        ));
    }
    run_with(&["export", "-", "--csv"], &stream).says(0, &lines);
    let ran = run_with(&["export", "-", "--json"], &stream);
    let compact: String = ran.text().lines().collect();
    let sheet = "{\"number\":0,\"name\":\"Sheet1\",\"type\":\"worksheet\",\"rows\":16,\"cells\":[";
    assert_eq!(
        compact,
        format!("{{\"sheets\":[{sheet}{}]}}]}}", cells.join(","))
    );
}

/// Texts with what each format has to write otherwise.
#[test]
fn texts() {
    let lone = vec![0x61, 0xDC00, 0xD800];
    let texts: [(Vec<u16>, &str, &str); 14] = [
        (units("plain"), "plain", r#""plain""#),
        (units("a,b"), "\"a,b\"", r#""a,b""#),
        (units("say \"hi\""), "\"say \"\"hi\"\"\"", r#""say \"hi\"""#),
        (units("one\ntwo"), "\"one\ntwo\"", r#""one\ntwo""#),
        (units("one\rtwo"), "\"one\rtwo\"", r#""one\rtwo""#),
        (units("a\tb"), "a\tb", r#""a\tb""#),
        (units(r"C:\data"), r"C:\data", r#""C:\\data""#),
        (units(r"\u{85}"), r"\\u{85}", r#""\\u{85}""#),
        (units("\\\u{85}\\"), r"\\\u{85}\", r#""\\\u0085\\""#),
        (
            units("\0\u{1B}\u{7F}"),
            r"\u{0}\u{1B}\u{7F}",
            r#""\u0000\u001B\u007F""#,
        ),
        (
            units("\u{2028}\u{202E}"),
            r"\u{2028}\u{202E}",
            r#""\u2028\u202E""#,
        ),
        (lone, r"a\u{DC00}\u{D800}", r#""a\uDC00\uD800""#),
        (units("Größe 😀"), "Größe 😀", "\"Größe 😀\""),
        (units(""), "", r#""""#),
    ];
    let strings: Vec<_> = texts.iter().map(|(units, ..)| units.clone()).collect();
    let records = (0..14).map(|row| made::text(row, 1, u32::from(row)));
    let sheet = Sheet {
        kind: made::WORKSHEET,
        name: units("a,\"b\"\u{7}"),
        records: records.collect(),
    };
    let stream = made::book(&strings, &[sheet]);
    let mut lines = HEADER.to_string();
    let mut cells = Vec::new();
    for (row, (_, field, string)) in texts.iter().enumerate() {
        lines += &format!("0,\"a,\"\"b\"\"\\u{{7}}\",{row},1,text,{field}\r\n");
        cells.push(format!(
            "{{\"row\":{row},\"column\":1,\"kind\":\"text\",\"value\":{string}}}"
        ));
    }
    run_with(&["export", "-", "--csv"], &stream).says(0, &lines);
    let ran = run_with(&["export", "-", "--json"], &stream);
    assert!(ran.text().contains("\"name\":\"a,\\\"b\\\"\\u0007\""));
    assert!(ran.text().contains(&cells.join(",\n")), "{}", ran.text());
    let reading = second_reader::read(&stream).expect("a stream that passes");
    assert_json_book(ran.text(), &stream, &reading, &[0]);
}

#[test]
fn every_error_by_its_name() {
    let codes = [0x00, 0x07, 0x0F, 0x17, 0x1D, 0x24, 0x2A];
    let records = codes.iter().zip(0..);
    let records = records
        .map(|(code, row)| made::error(row, 0, *code))
        .collect();
    let ran = run_with(&["export", "-", "--csv"], &made::one(&[], records));
    let names: Vec<_> = csv(ran.text())[1..]
        .iter()
        .map(|line| line[5].clone())
        .collect();
    let named = [
        "#NULL!", "#DIV/0!", "#VALUE!", "#REF!", "#NAME?", "#NUM!", "#N/A",
    ];
    assert_eq!(names, named);
}

/// Results of formulas, those without a text included, and books with nothing in them.
#[test]
fn stored_cases() {
    for name in [
        "results.in",
        "cells.in",
        "not-a-number.in",
        "chart-and-macro.in",
        "globals-alone.in",
    ] {
        let stream = std::fs::read(case(name)).expect("an input");
        let reading = second_reader::read(&stream).expect("a stream that passes");
        let all: Vec<_> = (0..reading.sheets.len()).collect();
        let ran = run(words!["export", case(name), "--csv"]);
        assert_csv(ran.text(), &stream, &reading, &all);
        let ran = run(words!["export", case(name), "--json"]);
        assert_json_book(ran.text(), &stream, &reading, &all);
    }
}

/// Addresses and blanks, as they are asked for.
#[test]
fn addresses_in_letters_and_no_blanks() {
    let records = vec![
        made::blank(0, 0),
        made::number(11, 1, 1.5),
        made::blank(12, 255),
        made::error(65_535, 255, 0x07),
    ];
    let stream = made::one(&[], records);
    let csv = |options: &[&str], lines: &str| {
        let words = [&["export", "-", "--csv"], options].concat();
        run_with(&words, &stream).says(0, &lines.replace('\n', "\r\n"));
    };
    csv(
        &["--a1"],
        "sheet,sheet_name,cell,kind,value\n0,Sheet1,A1,blank,\n0,Sheet1,B12,number,1.5\n\
         0,Sheet1,IV13,blank,\n0,Sheet1,IV65536,error,#DIV/0!\n",
    );
    csv(
        &["--no-blanks"],
        "sheet,sheet_name,row,column,kind,value\n0,Sheet1,11,1,number,1.5\n\
         0,Sheet1,65535,255,error,#DIV/0!\n",
    );
    csv(
        &["--bom", "--a1", "--no-blanks"],
        "\u{FEFF}sheet,sheet_name,cell,kind,value\n0,Sheet1,B12,number,1.5\n\
         0,Sheet1,IV65536,error,#DIV/0!\n",
    );
    let ran = run_with(&["export", "-", "--json", "--a1", "--no-blanks"], &stream);
    assert_eq!((ran.status, &ran.err[..]), (Some(0), ""));
    let book = json(ran.text());
    let cells = book.get("sheets").list()[0].get("cells").list();
    let addresses: Vec<_> = cells.iter().map(|cell| cell.get("cell").text()).collect();
    assert_eq!(addresses, ["B12", "IV65536"]);
    assert_eq!(cells[0].names(), ["cell", "kind", "value"]);
}

#[test]
fn a_sheet_by_its_name() {
    let sheet = |name: &str, value: f64| Sheet {
        kind: made::WORKSHEET,
        name: units(name),
        records: vec![made::number(0, 0, value)],
    };
    let stream = made::book(
        &[],
        &[sheet("2003", 1.0), sheet("Data", 2.0), sheet("0", 3.0)],
    );
    for (word, number) in [
        ("Data", 1),
        ("name:2003", 0),
        ("2", 2),
        ("0", 0),
        ("name:0", 2),
    ] {
        let ran = run_with(&["export", "-", "--csv", "--sheet", word], &stream);
        let line = csv(ran.text())[1].clone();
        assert_eq!(line[0], number.to_string(), "{word}");
        let ran = run_with(&["export", "-", "--grid", "--sheet", word], &stream);
        ran.says(0, &format!("{}\r\n", number + 1));
    }
    for form in ["--csv", "--json", "--grid"] {
        let ran = run_with(&["export", "-", form, "--sheet", "data"], &stream);
        ran.refuses_data("refused 11 at 0");
        assert!(ran
            .err
            .ends_with("no sheet is named 'data'; did you mean 'Data'?\n"));
        let ran = run_with(&["export", "-", form, "--sheet", "2003"], &stream);
        ran.refuses_data("refused 11 at 0");
        assert!(ran
            .err
            .ends_with("the name 2003 is that of sheet 0: name:2003\n"));
    }
}
