//! check.

use crate::made;
use crate::tool::{case, case_inputs, cases, finish, run, run_with, words_of, Folder, TOOL};
use crate::words;
use std::ffi::{OsStr, OsString};
use std::fs::{self, File};
use std::os::unix::ffi::OsStrExt;
use std::process::Command;

/// The line for a stream, without what a refusal means.
fn expected(name: &str, stream: &[u8]) -> String {
    match second_reader::check(stream) {
        Ok(passed) => format!(
            "{name}: passed, {} sheets, {} strings, {} cells",
            passed.sheets, passed.strings, passed.cells
        ),
        Err(refusal) => format!("{name}: {refusal}: "),
    }
}

fn assert_line(line: &str, name: &str, stream: &[u8]) {
    let expected = expected(name, stream);
    match second_reader::check(stream) {
        Ok(_) => assert_eq!(line, expected),
        Err(refusal) => {
            assert!(line.starts_with(&expected), "{line}: not {expected}");
            let words = words_of(refusal.number);
            assert!(line[expected.len()..].contains(words), "{line}");
        }
    }
}

#[test]
fn the_stored_cases_all_at_once() {
    let inputs = case_inputs();
    let names: Vec<OsString> = inputs
        .iter()
        .map(|path| path.file_name().expect("a name").to_os_string())
        .collect();
    let ran = finish(
        Command::new(TOOL)
            .arg("check")
            .args(&names)
            .current_dir(cases()),
        b"",
    );
    assert_eq!(ran.status, Some(1));
    assert!(
        !ran.err.contains("checking"),
        "no progress but on a terminal"
    );
    let lines: Vec<_> = ran.text().lines().collect();
    assert_eq!(lines.len(), inputs.len());
    for ((line, name), path) in lines.iter().zip(&names).zip(&inputs) {
        let stream = fs::read(path).expect("an input");
        assert_line(line, &name.to_string_lossy(), &stream);
    }
}

#[test]
fn made_streams_from_standard_input() {
    for seed in 0..150 {
        let stream = streams::stream(seed);
        let ran = run_with(&["check", "-"], &stream);
        let passed = second_reader::check(&stream).is_ok();
        assert_eq!(ran.status, Some(i32::from(!passed)), "seed {seed}");
        let line = ran.text().strip_suffix('\n').expect("a line");
        assert_line(line, "-", &stream);
    }
}

#[test]
fn the_status_is_that_of_the_worst() {
    let good = case("cells.in");
    let bad = case("empty.in");
    run(words!["check", good, good]).says(
        0,
        &format!(
            "{0}: passed, 1 sheets, 3 strings, 17 cells\n",
            good.display()
        )
        .repeat(2),
    );
    assert_eq!(run(words!["check", good, bad]).status, Some(1));
    assert_eq!(run(words!["check", bad, good]).status, Some(1));
    let absent = case("no-such-file");
    let ran = run(words!["check", bad, absent, good]);
    assert_eq!(ran.status, Some(2));
    assert_eq!(ran.text().lines().count(), 2, "the others are answered");
    let complaint = format!("vaigunthe: {}: ", absent.display());
    assert!(ran.err.starts_with(&complaint), "{}", ran.err);
    run(words!["check", cases()]).fails("irectory");
}

#[test]
fn standard_input_once() {
    run(&["check", "-", "-"]).fails("standard input");
}

#[test]
fn a_stream_of_the_greatest_length_and_one_byte_more() {
    let folder = Folder::new();
    // The first of three such streams has the greatest length, the second a byte more.
    let longest = (0..30)
        .step_by(3)
        .map(streams::longest)
        .find(|stream| second_reader::check(stream).is_ok())
        .expect("one that passes");
    assert_eq!(longest.len(), 16_777_216);
    let mut longer = longest.clone();
    longer.push(0);
    let ran = run(words!["check", folder.put("longest", &longest)]);
    assert_eq!(ran.status, Some(0), "{}", ran.text());
    let ran = run(words!["check", folder.put("longer", &longer)]);
    assert_eq!(ran.status, Some(1));
    assert!(ran.text().contains(": refused 1 at 0: "), "{}", ran.text());
}

/// Whoever read this to its end would run out of memory.
#[test]
fn a_file_far_too_long_is_not_read_to_its_end() {
    let folder = Folder::new();
    let path = folder.at("sparse");
    let file = File::create(&path).expect("a file");
    file.set_len(1 << 36).expect("a hole");
    let ran = run(words!["check", path]);
    assert_eq!(ran.status, Some(1));
    assert!(ran.text().contains(": refused 1 at 0: "), "{}", ran.text());
    let endless = run(&["check", "/dev/zero"]);
    assert!(endless.text().starts_with("/dev/zero: refused 1 at 0: "));
}

/// The commands that read a stream, with what else they need.
const READERS: [&[&str]; 8] = [
    &["check", "-"],
    &["list", "-"],
    &["sheets", "-"],
    &["strings", "-"],
    &["fetch", "-", "0"],
    &["export", "-", "--csv"],
    &["export", "-", "--json"],
    &[
        "correct", "-", "0", "0", "0", "number", "1", "--output", "-",
    ],
];

/// What the first bytes of other files are, and what is said of them.
#[test]
fn files_of_other_formats_are_told_apart() {
    let formats: [(&[u8], &[&str]); 6] = [
        (
            &[0xD0, 0xCF, 0x11, 0xE0, 0xA1, 0xB1, 0x1A, 0xE1],
            &[
                "whole .xls file",
                "workbook stream",
                "gsf cat FILE Workbook > ",
                "7z e -so FILE Workbook > ",
            ],
        ),
        (b"PK\x03\x04", &["zip file", ".xlsx", "Excel 97"]),
        (&[0x09, 0x00, 0x04, 0x00], &["Excel 2;", "Excel 97"]),
        (&[0x09, 0x02, 0x06, 0x00], &["Excel 3;", "Excel 97"]),
        (&[0x09, 0x04, 0x06, 0x00], &["Excel 4;", "Excel 97"]),
        (
            &[0x09, 0x08, 0x08, 0x00, 0x00, 0x05, 0x05, 0x00],
            &["Excel 5.0 or 95", "Excel 97"],
        ),
    ];
    for (start, hints) in formats {
        let mut stream = start.to_vec();
        stream.resize(4_096, 0);
        let refusal = second_reader::check(&stream).expect_err("no workbook stream");
        for words in READERS {
            let ran = run_with(words, &stream);
            assert_eq!(ran.status, Some(1));
            let said = format!("{}{}", ran.text(), ran.err);
            assert!(said.contains(&refusal.to_string()), "{words:?}: {said}");
            for hint in hints {
                assert!(
                    ran.err.contains(hint),
                    "{words:?}: no '{hint}': {}",
                    ran.err
                );
            }
            let near = run_with(words, &stream[1..]);
            assert!(!near.err.contains("this is"), "{words:?}: {}", near.err);
        }
    }
}

/// Nothing that isn't data comes where data is asked for.
#[test]
fn a_refusal_is_no_data() {
    let stream = fs::read(case("refused-5-encrypted.in")).expect("an input");
    for words in READERS {
        let ran = run_with(words, &stream);
        let meaning = "refused 5 at 20: the workbook is encrypted\n";
        let lines = match words {
            ["check", ..] => format!("-: {meaning}"),
            ["list", ..] | ["fetch", ..] => "refused 5 at 20\n".into(),
            _ => String::new(),
        };
        assert_eq!((ran.status, ran.text()), (Some(1), &lines[..]), "{words:?}");
        let message = match words {
            ["check", ..] => String::new(),
            ["correct", ..] => format!("refused 5 at 20\nvaigunthe: standard input: {meaning}"),
            _ => format!("vaigunthe: standard input: {meaning}"),
        };
        assert_eq!(ran.err, message, "{words:?}");
    }
    let file = case("refused-5-encrypted.in");
    let called = format!("vaigunthe: {}: refused 5 at 20: ", file.display());
    let ran = run(words!["export", file, "--json"]);
    assert!(ran.err.starts_with(&called), "{}", ran.err);
}

/// A name can't make a line of its own.
#[test]
fn names_of_files_are_escaped() {
    let folder = Folder::new();
    let stream = made::one(&[], vec![]);
    let passed = "passed, 1 sheets, 0 strings, 0 cells\n";
    let check = |name: &[u8]| {
        let name = OsStr::from_bytes(name);
        folder.put(name, &stream);
        let mut command = Command::new(TOOL);
        finish(
            command.arg("check").arg(name).current_dir(folder.path()),
            b"",
        )
    };
    check(b"a\nb: passed").says(0, &format!("a\\nb: passed: {passed}"));
    check(b"back\\slash").says(0, &format!("back\\\\slash: {passed}"));
    check("Größe.bin".as_bytes()).says(0, &format!("Größe.bin: {passed}"));
    check(b"cut\xC3.bin").says(0, &format!("cut\\xC3.bin: {passed}"));
    check("turn\u{202E}.bin".as_bytes()).says(0, &format!("turn\\u{{202E}}.bin: {passed}"));
}
