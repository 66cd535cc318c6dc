//! correct: what it answers, and what the file then holds.

use crate::made::{blank, book, error, number, one, text, units, Sheet, WORKSHEET};
use crate::tool::{case, finish, run, run_with, Folder, Ran, TOOL};
use crate::words;
use second_reader::NewValue;
use std::ffi::{OsStr, OsString};
use std::fs;
use std::os::unix::ffi::OsStrExt;
use std::os::unix::fs::MetadataExt;
use std::path::Path;
use std::process::Command;

/// A number at row 0, a text at row 1, an error at row 2, a blank at row 3, and two numbers at row 4.
pub fn sample() -> Vec<u8> {
    let records = vec![
        number(0, 0, 1.5),
        text(1, 0, 0),
        error(2, 0, 0x2A),
        blank(3, 0),
        number(4, 0, 1.0),
        number(4, 0, 2.0),
    ];
    one(&[units("zero"), units("one")], records)
}

/// The sample with a new value in a row.
pub fn sample_with(row: u32, value: NewValue) -> Vec<u8> {
    let mut bytes = sample();
    second_reader::correct(&mut bytes, 0, row, 0, value).expect("granted");
    assert_ne!(bytes, sample());
    bytes
}

pub fn in_place() -> Vec<OsString> {
    vec!["--in-place".into()]
}

pub fn to(out: impl AsRef<OsStr>) -> Vec<OsString> {
    vec!["--output".into(), out.as_ref().into()]
}

/// Adds a call to a command; the question is in words with spaces between.
pub fn ask(mut command: Command, file: &Path, question: &str, target: &[OsString]) -> Command {
    let question = question.split(' ');
    command.arg("correct").arg(file).args(question).args(target);
    command
}

pub fn correct(file: &Path, question: &str, target: &[OsString]) -> Ran {
    finish(&mut ask(Command::new(TOOL), file, question, target), b"")
}

/// What a file is and when it was last written.
pub fn state(path: &Path) -> (Vec<u8>, u64, i64, i64) {
    let found = fs::metadata(path).expect("the file");
    let bytes = fs::read(path).expect("the file");
    (bytes, found.ino(), found.mtime(), found.mtime_nsec())
}

pub fn assert_holds(path: &Path, bytes: &[u8]) {
    assert!(fs::read(path).expect("the file") == bytes, "{path:?}");
}

#[test]
fn to_another_file() {
    let folder = Folder::new();
    let file = folder.put("in", &sample());
    let before = state(&file);
    let out = folder.at("out");
    correct(&file, "0 0 0 number -2.25", &to(&out)).says(0, "granted\n");
    assert_holds(&out, &sample_with(0, NewValue::Number(-2.25)));
    // again, over a file that is there
    correct(&file, "0 1 0 text 1", &to(&out)).says(0, "granted\n");
    assert_holds(&out, &sample_with(1, NewValue::Text(1)));
    assert_eq!(state(&file), before, "the file that was read");
    assert_eq!(folder.names(), ["in", "out"]);
}

#[test]
fn in_its_own_place() {
    let folder = Folder::new();
    let file = folder.put("in", &sample());
    correct(&file, "0 2 0 truth true", &in_place()).says(0, "granted\n");
    assert_holds(&file, &sample_with(2, NewValue::Truth(1)));
    correct(&file, "0 2 0 error 2A", &to(&file)).says(0, "granted\n");
    assert_holds(&file, &sample());
    assert_eq!(folder.names(), ["in"]);
}

#[test]
fn from_standard_input() {
    let folder = Folder::new();
    let out = folder.at("out");
    let wanted = sample_with(0, NewValue::Number(9.0));
    let call = |question, target: &[OsString]| {
        let mut call = ask(Command::new(TOOL), Path::new("-"), question, target);
        finish(&mut call, &sample())
    };
    call("0 0 0 number 9", &to(&out)).says(0, "granted\n");
    assert_holds(&out, &wanted);
    let ran = call("0 0 0 number 9", &to("-"));
    assert_eq!((ran.status, &ran.err[..]), (Some(0), "granted\n"));
    assert_eq!(ran.out, wanted);
    let ran = call("0 3 0 number 9", &to("-"));
    assert_eq!((ran.status, ran.text()), (Some(1), ""));
    let (answer, meaning) = ran.err.split_once('\n').expect("two lines");
    assert_eq!(answer, "refused 17 at 0");
    assert!(meaning.starts_with("vaigunthe: standard input: refused 17 at 0: the cell's kind "));
    call("0 0 0 number 9", &in_place()).fails("--output is needed");
}

/// A file may go to standard output too.
#[test]
fn from_a_file_to_standard_output() {
    let folder = Folder::new();
    let file = folder.put("in", &sample());
    let before = state(&file);
    let ran = correct(&file, "0 1 0 text 1", &to("-"));
    assert_eq!((ran.status, &ran.err[..]), (Some(0), "granted\n"));
    assert_eq!(ran.out, sample_with(1, NewValue::Text(1)));
    assert_eq!((state(&file), folder.names()), (before, vec!["in".into()]));
}

/// In place and to a file: nothing is touched, and nothing is left behind.
#[test]
fn refusals_touch_nothing() {
    let asked = [
        ("1 0 0 number 1", "refused 11 at 0"),
        ("0 0 1 number 1", "refused 11 at 0"),
        ("0 65536 0 number 1", "refused 11 at 0"),
        ("0 4 0 number 1", "refused 16 at 0"),
        ("0 0 0 text 1", "refused 17 at 0"),
        ("0 3 0 number 1", "refused 17 at 0"),
        ("0 1 0 text 2", "refused 18 at 0"),
        ("0 2 0 truth 2", "refused 18 at 0"),
        ("0 2 0 error 01", "refused 18 at 0"),
        ("0 0 0 number bits:7FF8000000000000", "refused 18 at 0"),
        ("0 0 0 number bits:fff0000000000000", "refused 18 at 0"),
        ("0 0 0 number 1e999", "refused 18 at 0"),
    ];
    let folder = Folder::new();
    let file = folder.put("in", &sample());
    let old = folder.put("old", b"old");
    let before = (state(&file), state(&old));
    for (question, refusal) in asked {
        for target in [in_place(), to(folder.at("new")), to(&old)] {
            correct(&file, question, &target).refuses(refusal);
            assert_eq!((state(&file), state(&old)), before, "{question}");
            assert_eq!(folder.names(), ["in", "old"], "{question}");
        }
    }
}

#[test]
fn a_stream_that_does_not_pass() {
    let folder = Folder::new();
    let stream = fs::read(case("refused-6-word.in")).expect("an input");
    let file = folder.put("in", &stream);
    correct(&file, "0 0 0 number 1", &in_place()).refuses("refused 6 at 62");
    assert_holds(&file, &stream);
    let mut whole = vec![0xD0, 0xCF, 0x11, 0xE0, 0xA1, 0xB1, 0x1A, 0xE1];
    whole.resize(512, 0);
    let refusal = second_reader::check(&whole).expect_err("no workbook stream");
    let file = folder.put("whole", &whole);
    let ran = correct(&file, "0 0 0 number 1", &in_place());
    assert_eq!(ran.status, Some(1));
    assert_eq!(ran.text(), format!("{refusal}\n"));
    assert!(ran.err.contains(".xls file"), "{}", ran.err);
    assert_holds(&file, &whole);
}

#[test]
fn values() {
    let granted = [
        ("0 0 0 number 0", NewValue::Number(0.0)),
        ("0 0 0 number -0", NewValue::Number(-0.0)),
        ("0 0 0 number -1", NewValue::Number(-1.0)),
        ("0 0 0 number +5", NewValue::Number(5.0)),
        ("0 0 0 number .5", NewValue::Number(0.5)),
        ("0 0 0 number -.25", NewValue::Number(-0.25)),
        ("0 0 0 number 0.1", NewValue::Number(0.1)),
        ("0 0 0 number 1e300", NewValue::Number(1e300)),
        ("0 0 0 number 1E-5", NewValue::Number(1e-5)),
        ("0 0 0 number 5e-324", NewValue::Number(f64::from_bits(1))),
        (
            "0 0 0 number 9007199254740993",
            NewValue::Number(9_007_199_254_740_992.0),
        ),
        ("0 0 0 number bits:3FF0000000000000", NewValue::Number(1.0)),
        ("0 0 0 number bits:8000000000000000", NewValue::Number(-0.0)),
        (
            "0 0 0 number bits:7fefffffffffffff",
            NewValue::Number(f64::MAX),
        ),
        ("0 1 0 text 1", NewValue::Text(1)),
        ("0 2 0 truth 0", NewValue::Truth(0)),
        ("0 2 0 truth 1", NewValue::Truth(1)),
        ("0 2 0 truth false", NewValue::Truth(0)),
        ("0 2 0 truth true", NewValue::Truth(1)),
        ("0 2 0 error 07", NewValue::Error(0x07)),
        ("0 2 0 error 1d", NewValue::Error(0x1D)),
        ("0 2 0 error 00", NewValue::Error(0x00)),
        ("0 2 0 truth TRUE", NewValue::Truth(1)),
        ("0 2 0 truth False", NewValue::Truth(0)),
        ("0 2 0 error #NULL!", NewValue::Error(0x00)),
        ("0 2 0 error #DIV/0!", NewValue::Error(0x07)),
        ("0 2 0 error #VALUE!", NewValue::Error(0x0F)),
        ("0 2 0 error #REF!", NewValue::Error(0x17)),
        ("0 2 0 error #name?", NewValue::Error(0x1D)),
        ("0 2 0 error #NUM!", NewValue::Error(0x24)),
        ("Sheet1 A1 number 72.5", NewValue::Number(72.5)),
        ("name:Sheet1 a1 number 72.5", NewValue::Number(72.5)),
        ("0 A2 text 1", NewValue::Text(1)),
        ("0 A2 text --text one", NewValue::Text(1)),
        ("0 1 0 text --text=one", NewValue::Text(1)),
        ("0 A3 truth TRUE", NewValue::Truth(1)),
        ("0 0 0 number 0e-999", NewValue::Number(0.0)),
        ("0 0 0 number -0.000e5", NewValue::Number(-0.0)),
        ("0 0 0 number 3e-324", NewValue::Number(f64::from_bits(1))),
    ];
    for (question, value) in granted {
        let mut call = ask(Command::new(TOOL), Path::new("-"), question, &to("-"));
        let ran = finish(&mut call, &sample());
        assert_eq!(
            (ran.status, &ran.err[..]),
            (Some(0), "granted\n"),
            "{question}"
        );
        let row = match value {
            NewValue::Number(_) => 0,
            NewValue::Text(_) => 1,
            NewValue::Truth(_) | NewValue::Error(_) => 2,
        };
        assert_eq!(ran.out, sample_with(row, value), "{question}");
    }
}

/// A decimal is never made to 0 unless it is 0; one that is too great is for the library to refuse.
#[test]
fn decimals_that_are_too_small() {
    let folder = Folder::new();
    let file = folder.put("in", &sample());
    let before = state(&file);
    for small in [
        "1e-400",
        "-1e-400",
        "2e-324",
        "0.00000001e-320",
        "5E-999999",
    ] {
        let question = format!("0 0 0 number {small}");
        correct(&file, &question, &in_place()).fails("so small that it would become 0");
    }
    assert_eq!(state(&file), before);
}

/// Three sheets with a number in A1 each: two names that look like numbers, and one that looks like a prefix.
fn named() -> Vec<u8> {
    let sheet = |name: &str| Sheet {
        kind: WORKSHEET,
        name: units(name),
        records: vec![number(0, 0, 1.0)],
    };
    let names = ["2003", "0", "name:x", "Größe 2", "2003"];
    book(&[], &names.map(sheet))
}

#[test]
fn sheets_by_name() {
    let asked = [
        ("0", 0),
        ("1", 1),
        ("name:2003", 0),
        ("name:0", 1),
        ("name:name:x", 2),
        ("Größe 2", 3),
        ("name:Größe 2", 3),
        ("4", 4),
    ];
    for (sheet, number) in asked {
        let mut wanted = named();
        let value = NewValue::Number(7.0);
        second_reader::correct(&mut wanted, number, 0, 0, value).expect("granted");
        let words = ["correct", "-", sheet, "A1", "number", "7", "--output", "-"];
        let ran = run_with(&words, &named());
        assert_eq!(
            (ran.status, &ran.err[..]),
            (Some(0), "granted\n"),
            "{sheet}"
        );
        assert_eq!(ran.out, wanted, "{sheet}");
    }
}

#[test]
fn sheets_that_are_not_there() {
    let folder = Folder::new();
    let file = folder.put("in", &named());
    let before = state(&file);
    let asked = [
        ("5", "there are 5 sheets, counted from 0\n"),
        (
            "2003",
            "there are 5 sheets, counted from 0; the name 2003 is that of sheet 0: name:2003\n",
        ),
        (
            "größe 2",
            "no sheet is named 'größe 2'; did you mean 'Größe 2'?\n",
        ),
        ("x", "no sheet is named 'x'\n"),
        ("name:x", "no sheet is named 'x'\n"),
        ("-1", "no sheet is named '-1'\n"),
    ];
    for (sheet, note) in asked {
        let words = words!["correct", file, sheet, "A1", "number", "7", "--in-place"];
        let ran = run(words);
        ran.refuses("refused 11 at 0");
        assert!(ran.err.ends_with(note), "{}", ran.err);
        assert_eq!(ran.err.lines().count(), 2, "{}", ran.err);
    }
    // The sheet is there, and the cell is not.
    let ran = run(words![
        "correct",
        file,
        "0",
        "B1",
        "number",
        "7",
        "--in-place"
    ]);
    ran.refuses("refused 11 at 0");
    assert_eq!(ran.err.lines().count(), 1, "{}", ran.err);
    assert_eq!(state(&file), before);
}

/// The first of several, with exactly these characters; none is ever added.
#[test]
fn texts_by_their_characters() {
    let strings = ["a", "zwei", "A", "zwei", "", "a b", "Größe 😀"].map(units);
    let stream = one(&strings, vec![text(0, 0, 0), number(1, 0, 1.0)]);
    let call = |cell: &str, text: &str, target: &[OsString]| {
        let mut command = Command::new(TOOL);
        command.args(["correct", "-", "0", cell, "text", "--text", text]);
        finish(command.args(target), &stream)
    };
    for (text, index) in [("zwei", 1), ("A", 2), ("", 4), ("a b", 5), ("Größe 😀", 6)] {
        let mut wanted = stream.clone();
        second_reader::correct(&mut wanted, 0, 0, 0, NewValue::Text(index)).expect("granted");
        let ran = call("A1", text, &to("-"));
        assert_eq!((ran.status, &ran.err[..]), (Some(0), "granted\n"), "{text}");
        assert_eq!(ran.out, wanted, "{text}");
    }
    let folder = Folder::new();
    let old = folder.put("old", b"old");
    for (cell, text, refusal) in [
        ("A1", "drei", "refused 18 at 0"),
        ("A1", "zwei ", "refused 18 at 0"),
        ("A2", "drei", "refused 17 at 0"),
        ("A3", "drei", "refused 11 at 0"),
    ] {
        for target in [to(folder.at("new")), to(&old)] {
            let ran = call(cell, text, &target);
            ran.refuses(refusal);
            let note = format!("no shared string is '{text}', and a correction can't add one\n");
            assert!(ran.err.ends_with(&note), "{}", ran.err);
        }
    }
    assert_eq!(folder.names(), ["old"]);
    assert_holds(&old, b"old");
    let wrong: [(&str, &str); 3] = [
        ("0 A1 number --text a", "--text goes with the kind text"),
        ("0 A1 text 1 --text a", "one of them is the value"),
        ("0 A1 --text a", "KIND is missing"),
    ];
    let file = folder.put("in", &stream);
    for (question, message) in wrong {
        correct(&file, question, &in_place()).fails(message);
    }
    let words = words![
        "correct",
        file,
        "0",
        "A1",
        "text",
        "--text",
        OsStr::from_bytes(b"\xFF"),
        "--in-place"
    ];
    run(words).fails("--text takes UTF-8");
    assert_holds(&file, &stream);
}

#[test]
fn what_is_no_value() {
    let folder = Folder::new();
    let file = folder.put("in", &sample());
    let before = state(&file);
    let wrong: [(&str, &[&str]); 5] = [
        (
            "number",
            &["inf", "NaN", "infinity", "1,5", "", "0x10", "e"],
        ),
        (
            "number",
            &[
                "bits:3FF",
                "bits:+FF0000000000000",
                "bits:3FF00000000000000",
            ],
        ),
        ("text", &["-1", "+1", "x", "", "4294967296", "1.0"]),
        ("truth", &["256", "yes", "TRUEE", "", "-1"]),
        ("error", &["7", "007", "#N/A!", "N/A", "", "+7", "0G"]),
    ];
    for (kind, values) in wrong {
        for value in values {
            let question = format!("0 0 0 {kind} {value}");
            correct(&file, &question, &in_place()).fails(&format!("{kind} takes "));
        }
    }
    correct(&file, "0 0 0 colour 1", &in_place()).fails("'colour'");
    for wrong in ["4294967296", ""] {
        correct(&file, &format!("{wrong} 0 0 number 1"), &in_place()).fails("SHEET is");
    }
    for wrong in ["-1", "4294967296", ""] {
        correct(&file, &format!("0 {wrong} 0 number 1"), &in_place()).fails("ROW is");
        correct(&file, &format!("0 0 {wrong} number 1"), &in_place()).fails("COLUMN is");
    }
    for wrong in ["x", "A", "A0", "A1B", "AA-1", "A4294967296"] {
        correct(&file, &format!("0 {wrong} number 1"), &in_place()).fails("CELL is");
    }
    correct(&file, "0 A1 number 1 2", &in_place()).fails("'2' is one too many");
    correct(&file, "0 A1 number", &in_place()).fails("VALUE is missing");
    correct(&file, "0 0 0", &in_place()).fails("KIND is missing");
    correct(&file, "0 A1", &in_place()).fails("KIND is missing");
    correct(&file, "0 0", &in_place()).fails("KIND is missing");
    assert_eq!(state(&file), before);
}

#[test]
fn one_target_is_needed() {
    let folder = Folder::new();
    let file = folder.put("in", &sample());
    let before = state(&file);
    let both = [in_place(), to(folder.at("out"))].concat();
    correct(&file, "0 0 0 number 1", &[]).fails("--output and --in-place");
    correct(&file, "0 0 0 number 1", &both).fails("--output and --in-place");
    correct(&file, "0 0 0 number 1 --output", &[]).fails("--output needs");
    correct(&file, "0 0 0 number", &in_place()).fails("VALUE is missing");
    correct(&file, "0 0 0 number 1 2", &in_place()).fails("'2' is one too many");
    assert_eq!((state(&file), folder.names()), (before, vec!["in".into()]));
}

/// A value for the second reader, and its words; a finite number now as a decimal, now by its bits.
fn value_words(value: streams::NewValue, decimal: bool) -> (NewValue, String) {
    match value {
        streams::NewValue::Number(x) if x.is_finite() && decimal => {
            (NewValue::Number(x), format!("number {x}"))
        }
        streams::NewValue::Number(x) => {
            let words = format!("number bits:{:016X}", x.to_bits());
            (NewValue::Number(x), words)
        }
        streams::NewValue::Text(index) => (NewValue::Text(index), format!("text {index}")),
        streams::NewValue::Truth(byte) => (NewValue::Truth(byte), format!("truth {byte}")),
        streams::NewValue::Error(code) => (NewValue::Error(code), format!("error {code:02X}")),
    }
}

#[test]
fn made_corrections() {
    let folder = Folder::new();
    let file = folder.at("in");
    let mut granted = 0;
    for seed in 0..300 {
        let stream = streams::stream(seed);
        let asked = streams::correction(seed, &stream);
        let (sheet, row, column) = (asked.sheet, asked.row, asked.column);
        let (value, words) = value_words(asked.value, seed & 1 == 0);
        let mut wanted = stream.clone();
        let answer = second_reader::correct(&mut wanted, sheet, row, column, value);
        fs::write(&file, &stream).expect("the file");
        let question = format!("{sheet} {row} {column} {words}");
        let ran = correct(&file, &question, &in_place());
        match answer {
            Ok(()) => ran.says(0, "granted\n"),
            Err(refusal) => ran.refuses(&refusal.to_string()),
        }
        granted += u32::from(answer.is_ok());
        assert_holds(&file, &wanted);
    }
    assert!(granted > 20, "only {granted} granted");
}
