//! Help, wrong usage, and what becomes of the output.

use crate::made;
use crate::tool::{case, finish, run, run_with, Folder, TOLD_BY, TOOL};
use crate::words;
use second_reader::NewValue;
use std::ffi::OsStr;
use std::fs::{self, File};
use std::io::Read;
use std::process::{Command, Stdio};

pub const COMMANDS: [&str; 18] = [
    "check",
    "list",
    "sheets",
    "strings",
    "fetch",
    "judge",
    "report",
    "export",
    "correct",
    "journal",
    "replay",
    "compare",
    "compact",
    "profile",
    "cadence",
    "help",
    "man",
    "completions",
];

pub fn helped<W: AsRef<OsStr>>(words: &[W]) -> String {
    let ran = run(words);
    assert_eq!((ran.status, &ran.err[..]), (Some(0), ""));
    ran.text().to_string()
}

#[test]
fn help() {
    let page = helped(&["--help"]);
    for command in COMMANDS {
        assert!(page.contains(&format!("\n  {command} ")), "{command}");
    }
    let item = |number: u8| format!("\n  {number:>2}  ");
    let following = TOLD_BY.iter().skip(1).map(|(next, _)| item(*next));
    for ((number, words), next) in TOLD_BY.iter().zip(following.chain(["\n\n".into()])) {
        let (_, after) = page.split_once(&item(*number)).expect("a number");
        let (meaning, _) = after.split_once(&next).unwrap_or((after, ""));
        let meaning: Vec<_> = meaning.split_whitespace().collect();
        assert!(meaning.join(" ").contains(words), "{number}");
    }
    for escape in ["\\t", "\\n", "\\r", "\\\\", "\\u{85}"] {
        assert!(page.contains(escape), "{escape}");
    }
    for words in [["-h"], ["help"]] {
        assert_eq!(helped(&words), page);
    }
    for command in COMMANDS {
        let page = helped(&["help", command]);
        let start = format!("vaigunthe {command}: ");
        assert!(page.starts_with(&start), "{page}");
        let usage = format!("\nusage: vaigunthe {command} ");
        assert!(page.contains(&usage), "{command}");
        assert!(page.contains("\nexamples:\n"), "{command}");
        assert_eq!(helped(&[command, "--help"]), page);
        assert_eq!(helped(&[command, "-h"]), page);
        assert_eq!(helped(&["--help", command]), page);
        assert_eq!(helped(&[command, "operand", "--help", "another"]), page);
    }
    run(&["help", "chekc"]).fails("did you mean 'check'?");
    run(&["help", "check", "more"]).fails("'more' is one too many");
}

/// Help fits a terminal: no line is long, and none has an escape sequence.
#[test]
fn help_in_short_lines() {
    let pages = COMMANDS.iter().map(|command| helped(&["help", command]));
    for page in pages.chain([helped(&["help"])]) {
        for line in page.lines() {
            assert!(line.chars().count() <= 80, "{line}");
            assert!(!line.contains('\x1b') && !line.ends_with(' '), "{line}");
        }
    }
}

/// The calls in the help of a command.
fn examples(page: &str) -> Vec<&str> {
    let (_, after) = page.split_once("\nexamples:\n").expect("examples");
    let (examples, _) = after.split_once("\n\n").unwrap_or((after, ""));
    examples
        .lines()
        .filter_map(|line| line.strip_prefix("  "))
        .filter(|line| !line.starts_with(' '))
        .collect()
}

/// A stream and its journal whose correction leaves this one.
fn journalled(corrected: &[u8]) -> (Vec<u8>, Vec<u8>) {
    let mut original = corrected.to_vec();
    let number = NewValue::Number;
    second_reader::correct(&mut original, 0, 0, 1, number(2.5)).expect("granted");
    let (mut stream, mut journal) = (original.clone(), vec![0; 44]);
    second_reader::start_journal(&stream, &mut journal).expect("a stream that passes");
    let pi = number(std::f64::consts::PI);
    second_reader::correct_journalled(&mut stream, &mut journal, 0, 0, 1, pi).expect("granted");
    assert!(stream == corrected);
    (original, journal)
}

/// Whoever copies an example gets an answer.
#[test]
fn examples_are_right() {
    let mut seen = 0;
    for command in COMMANDS {
        let page = helped(&["help", command]);
        for example in examples(&page) {
            let folder = Folder::new();
            let stream = fs::read(case("cells.in")).expect("an input");
            folder.put("session.bin", &stream);
            let mut corrected = stream.clone();
            let value = station::NewValue::Number(2.5);
            station::correct(&mut corrected, 0, 0, 1, value).expect("a cell");
            folder.put("corrected.bin", &corrected);
            let ride = fs::read(case("ride.in")).expect("an input");
            folder.put("ride.bin", &ride);
            let results = fs::read(case("results.in")).expect("an input");
            folder.put("results.bin", &results);
            for name in ["day", "template"] {
                let stream = fs::read(case(&format!("{name}.in"))).expect("an input");
                folder.put(format!("{name}.bin"), &stream);
            }
            let (original, journal) = journalled(&stream);
            folder.put("original.bin", &original);
            folder.put("session.j", &journal);
            fs::create_dir(folder.at("sessions")).expect("a folder");
            folder.put("sessions/one.bin", &stream);
            folder.put("sessions/bad.bin", &stream[1..]);
            folder.put("formulas.txt", b"1E0100\n");
            let mut shell = Command::new("bash");
            let call = format!("vaigunthe() {{ \"$TOOL\" \"$@\"; }}; {example}");
            shell.args(["-c", &call]).env("TOOL", TOOL);
            let ran = finish(shell.current_dir(folder.path()), b"");
            assert_eq!((ran.status, &ran.err[..]), (Some(0), ""), "{example}");
            assert!(example.contains("vaigunthe"), "{example}");
            seen += 1;
        }
    }
    assert!(seen > COMMANDS.len(), "only {seen} examples");
}

#[test]
fn version() {
    let version = concat!("vaigunthe ", env!("CARGO_PKG_VERSION"), "\n");
    run(&["--version"]).says(0, version);
    run(&["-V"]).says(0, version);
    run(&["--version", "more"]).fails("usage: ");
}

#[test]
fn unknown_words() {
    run::<&str>(&[]).fails("usage: vaigunthe COMMAND");
    run(&["chekc", "file"]).fails("no command 'chekc'; did you mean 'check'?\n");
    run(&["exp"]).fails("did you mean 'export'?");
    run(&["frobnicate"]).fails("no command 'frobnicate'\n");
    run(&["--verbose"]).fails("usage: ");
    for command in COMMANDS {
        let usage = format!("usage: vaigunthe {command} ");
        if !["help", "man"].contains(&command) {
            run(&[command]).fails(&usage);
        }
        run(&[command, "--unknown"]).fails(&usage);
        run(&[command, "-x"]).fails("unknown option '-x'");
        run(&[command, "--help=yes"]).fails("--help");
    }
    for command in ["list", "sheets", "strings"] {
        run(&[command, "one", "two"]).fails("'two'");
    }
    run(&["cadence", "one", "two"]).fails("'two'");
    run(&["fetch", "file"]).fails("INDEX is missing");
    run(&["fetch", "file", "1", "--room"]).fails("--room needs a value");
    run(&["fetch", "file", "1", "--rom", "7"]).fails("did you mean --room?");
    run(&["fetch", "file", "1", "--room", "1", "--room", "2"]).fails("twice");
}

/// A message stays short, however long a word is.
#[test]
fn long_words_are_cut() {
    let long = "x".repeat(100_000);
    let option = format!("--{long}");
    let calls: [&[&str]; 7] = [
        &[&long],
        &["help", &long],
        &["check", &option],
        &["list", "one", &long],
        &["fetch", "file", &long],
        &["fetch", "file", "0", "--room", &long],
        &[
            "correct",
            "file",
            "0",
            "0",
            "0",
            "number",
            &long,
            "--in-place",
        ],
    ];
    for words in calls {
        let ran = run(words);
        ran.fails("xxx…'");
        assert!(ran.err.len() < 1_000, "{}", ran.err);
    }
    let ran = run(&["check", &long]);
    assert_eq!(ran.status, Some(2));
    assert!(ran.err.len() < 5_000 && ran.err.contains("xxx…: "));
}

/// How far a run has come is shown on a terminal, but not where that would only print the sequence.
#[test]
fn escape_sequences_only_where_they_are_known() {
    let file = case("cells.in");
    let call = format!("'{TOOL}' check '{0}' '{0}' > /dev/null", file.display());
    for (term, shown) in [("xterm", true), ("dumb", false), ("", false)] {
        let mut terminal = Command::new("script");
        terminal
            .args(["-qec", &call, "/dev/null"])
            .env("TERM", term);
        let ran = finish(&mut terminal, b"");
        assert_eq!(ran.status, Some(0), "{}", ran.text());
        assert_eq!(
            ran.text().contains("\x1b[K"),
            shown,
            "{term}: {}",
            ran.text()
        );
        assert_eq!(ran.text().contains("checking 2 of 2"), shown, "{term}");
    }
}

#[test]
fn what_comes_after_two_hyphens_is_no_option() {
    let folder = Folder::new();
    let stream = fs::read(case("no-cells.in")).expect("an input");
    folder.put("--help", &stream);
    let call = |words: &[&str]| {
        finish(
            Command::new(TOOL).args(words).current_dir(folder.path()),
            b"",
        )
    };
    call(&["check", "--", "--help"]).says(0, "--help: passed, 1 sheets, 0 strings, 0 cells\n");
    call(&["list", "--", "--help"]).says(0, "sheets 1 strings 0 cells 0\nsheet 0 rows 0\n");
    call(&["list", "--", "--", "--help"]).fails("one too many");
    run_with(&["list", "--", "-"], &stream).says(0, "sheets 1 strings 0 cells 0\nsheet 0 rows 0\n");
}

/// A closed pipe is the status of a program that was ended by it, and nothing is said.
#[test]
fn a_reader_that_has_seen_enough() {
    let folder = Folder::new();
    let file = folder.put("in", &streams::big(streams::Big::Numbers, 3_000_000));
    let ride = folder.put("ride", &made::session(&[[1, 2, 3]; 10_000]));
    let fewer = folder.put("fewer", &streams::big(streams::Big::Numbers, 200));
    let calls: [&[std::ffi::OsString]; 13] = [
        words!["report", file, "--full"],
        words!["compare", file, fewer],
        words!["compare", file, fewer, "--lines"],
        words!["compare", file, fewer, "--csv"],
        words!["compare", file, fewer, "--json"],
        words!["list", file],
        words!["cadence", ride],
        words!["cadence", ride, "--csv"],
        words!["cadence", ride, "--json"],
        words!["export", file, "--csv"],
        words!["export", file, "--json"],
        words!["correct", file, "0", "0", "0", "number", "1", "--output", "-"],
        words!["compact", file, "--output", "-"],
    ];
    for words in calls {
        let mut child = Command::new(TOOL)
            .args(words)
            .stdout(Stdio::piped())
            .stderr(Stdio::piped())
            .spawn()
            .expect("the tool starts");
        let mut stdout = child.stdout.take().expect("a pipe");
        stdout.read_exact(&mut [0; 10]).expect("a few bytes");
        drop(stdout);
        let output = child.wait_with_output().expect("the tool ends");
        assert_eq!(output.status.code(), Some(141), "{words:?}");
        assert_eq!(output.stderr, b"", "{words:?}");
    }
}

#[test]
fn output_that_cannot_be_written() {
    let calls: [&[std::ffi::OsString]; 4] = [
        words!["list", case("cells.in")],
        words!["check", case("cells.in")],
        words![
            "correct",
            case("cells.in"),
            "0",
            "0",
            "1",
            "number",
            "1",
            "--output",
            "-"
        ],
        words!["--help"],
    ];
    for words in calls {
        let full = File::options()
            .write(true)
            .open("/dev/full")
            .expect("a full device");
        let output = Command::new(TOOL)
            .args(words)
            .stdout(full)
            .output()
            .expect("the tool ends");
        let complaint = String::from_utf8(output.stderr).expect("a message");
        assert_eq!(output.status.code(), Some(2), "{complaint}");
        assert!(
            complaint.starts_with("vaigunthe: standard output: "),
            "{complaint}"
        );
    }
}

/// Complaints that can't be written change no status, and end nothing early.
#[test]
fn complaints_that_cannot_be_written() {
    let full = File::options()
        .write(true)
        .open("/dev/full")
        .expect("a full device");
    let output = Command::new(TOOL)
        .args(words!["check", case("no-such-file"), case("cells.in")])
        .stderr(full)
        .output()
        .expect("the tool ends");
    assert_eq!(output.status.code(), Some(2));
    assert!(output
        .stdout
        .ends_with(b"cells.in: passed, 1 sheets, 3 strings, 17 cells\n"));
}
