//! ask as another reader meets it: a process that is given lines and answers with lines. What it must answer is written down after document 01, stored
//! with the cases, or taken from the second reader.

use second_reader::{Between, PairRefusal, Refusal, Side, Value, Whose};
use std::fs;
use std::io::{BufRead, BufReader, Write};
use std::path::{Path, PathBuf};
use std::process::{Child, Command, Output, Stdio};
use std::sync::mpsc::{self, Receiver};
use std::thread;
use std::time::Duration;

fn start() -> Child {
    Command::new(env!("CARGO_BIN_EXE_ask"))
        .stdin(Stdio::piped())
        .stdout(Stdio::piped())
        .stderr(Stdio::piped())
        .spawn()
        .expect("ask starts")
}

/// What ask gives for an input, as it is.
fn run(input: &[u8]) -> Output {
    let mut child = start();
    let mut stdin = child.stdin.take().expect("a pipe");
    thread::scope(|scope| {
        scope.spawn(move || stdin.write_all(input).expect("all input is taken"));
        child.wait_with_output().expect("ask ends")
    })
}

/// The answers to questions, a line each.
fn answers(questions: &[String]) -> Vec<String> {
    let mut input = questions.join("\n");
    input.push('\n');
    let output = run(input.as_bytes());
    assert_eq!(
        (output.status.code(), &output.stderr[..]),
        (Some(0), &b""[..])
    );
    let text = String::from_utf8(output.stdout).expect("answers in UTF-8");
    let answers: Vec<_> = text.lines().map(str::to_string).collect();
    assert_eq!(answers.len(), questions.len());
    answers
}

fn hex(bytes: &[u8]) -> String {
    match bytes {
        [] => "-".to_string(),
        _ => bytes
            .iter()
            .flat_map(|byte| [byte >> 4, byte & 15])
            .map(|digit| char::from(b"0123456789abcdef"[usize::from(digit)]))
            .collect(),
    }
}

fn refused(refusal: Refusal) -> String {
    format!("refused {} at {}", refusal.number, refusal.offset)
}

fn cases() -> Vec<PathBuf> {
    let folder = Path::new(env!("CARGO_MANIFEST_DIR")).join("../../cases");
    let mut inputs: Vec<_> = fs::read_dir(folder)
        .expect("the folder of cases")
        .map(|entry| entry.expect("an entry").path())
        .filter(|path| path.extension().is_some_and(|extension| extension == "in"))
        .collect();
    inputs.sort();
    assert!(inputs.len() >= 20, "only {} cases", inputs.len());
    inputs
}

/// The examples that document 01 settles.
const JUDGED: [(&str, &str); 10] = [
    ("44000000C01E010003", "ok"),
    ("03", "refused 14 at 0"),
    ("1e01001E0100", "refused 14 at 6"),
    ("1E01", "refused 13 at 0"),
    ("41DD00", "ok"),
    ("41CA00", "refused 15 at 0"),
    ("41D800", "refused 15 at 0"),
    ("2903001E0100", "ok"),
    ("2904001E0100", "refused 13 at 0"),
    ("-", "refused 13 at 0"),
];

#[test]
fn the_settled_formulas() {
    let questions = JUDGED.map(|(tokens, _)| format!("judge\t{tokens}\t-"));
    assert_eq!(answers(&questions), JUDGED.map(|(_, answer)| answer));
}

#[test]
fn made_formulas() {
    let formulas: Vec<_> = (0..2_000).map(streams::formula).collect();
    let questions: Vec<_> = formulas
        .iter()
        .map(|formula| {
            format!(
                "judge\t{}\t{}",
                hex(&formula.tokens),
                hex(&formula.trailing)
            )
        })
        .collect();
    for (formula, answer) in formulas.iter().zip(answers(&questions)) {
        let judged = second_reader::judge(&formula.tokens, &formula.trailing);
        let wanted = judged.map_or_else(refused, |()| "ok".to_string());
        assert_eq!(answer, wanted, "{formula:02X?}");
    }
}

/// The stored cases: the check's answer, and each sheet's cells, after the program's lines.
#[test]
fn the_stored_cases() {
    let mut questions = Vec::new();
    let mut wanted = Vec::new();
    for input in cases() {
        let lines = fs::read_to_string(input.with_extension("out")).expect("its lines");
        let stream = hex(&fs::read(&input).expect("a stream"));
        if lines == "too long\n" {
            continue;
        }
        let mut sheets = lines.split("\nsheet ");
        let first = sheets.next().expect("a line").trim_end();
        questions.push(format!("check\t{stream}"));
        if first.starts_with("refused ") {
            questions.push(format!("cells\t{stream}\t0"));
            wanted.extend([first.to_string(), first.to_string()]);
            continue;
        }
        wanted.push("ok".to_string());
        let mut number = 0;
        for sheet in sheets {
            questions.push(format!("cells\t{stream}\t{number}"));
            let cells: Vec<_> = sheet.lines().skip(1).collect();
            wanted.push(match &cells[..] {
                [] => "-".to_string(),
                cells => cells.join(" ; "),
            });
            number += 1;
        }
        questions.push(format!("cells\t{stream}\t{number}"));
        wanted.push("refused 11 at 0".to_string());
    }
    for (answer, wanted) in answers(&questions).iter().zip(&wanted) {
        let bare: Vec<_> = answer
            .split(" ; ")
            .map(|cell| cell.split(" format ").next().expect("a cell"))
            .collect();
        assert_eq!(&bare.join(" ; "), wanted);
    }
}

/// A cell as it must be answered. The second reader names no place for a blank: that is where its format stands.
fn wanted_cell(cell: &second_reader::Cell, line: &str, stream: &[u8], answer: &str) -> String {
    let place = match cell.value {
        Value::Blank => {
            let place = answer.rsplit(' ').next().and_then(|word| word.parse().ok());
            let place: usize = place.expect("a place");
            assert_eq!(stream[place..place + 2], cell.format.to_le_bytes());
            place
        }
        _ => cell.value_field.start,
    };
    format!("{line} format {} place {place}", cell.format)
}

#[test]
fn made_streams() {
    let made: Vec<_> = (0..400).map(streams::stream).collect();
    let mut questions = Vec::new();
    for (seed, stream) in (0..).zip(&made) {
        questions.push(format!("check\t{}", hex(stream)));
        let sheet = streams::sheet(seed, stream);
        questions.push(format!("cells\t{}\t{sheet}", hex(stream)));
    }
    let mut listed = 0;
    let answers = answers(&questions);
    for (seed, (stream, answers)) in (0..).zip(made.iter().zip(answers.chunks(2))) {
        let passed = second_reader::check(stream).map_or_else(refused, |_| "ok".to_string());
        assert_eq!(answers[0], passed, "check of seed {seed}");
        let sheet = streams::sheet(seed, stream);
        let mut cells = Vec::new();
        let ended = second_reader::list_cells(stream, sheet as usize, |cell| {
            cells.push(cell.clone());
        });
        match ended {
            Err(refusal) => assert_eq!(answers[1], refused(refusal), "cells of seed {seed}"),
            Ok(()) if cells.is_empty() => assert_eq!(answers[1], "-", "cells of seed {seed}"),
            Ok(()) => {
                let text = second_reader::lines(stream);
                let lines = text.split("\nsheet ").nth(sheet as usize + 1);
                let lines = lines.expect("the sheet").lines().skip(1);
                let given: Vec<_> = answers[1].split(" ; ").collect();
                assert_eq!(given.len(), cells.len(), "cells of seed {seed}");
                for ((cell, line), answer) in cells.iter().zip(lines).zip(given) {
                    assert_eq!(answer, wanted_cell(cell, line, stream, answer));
                    listed += 1;
                }
            }
        }
    }
    assert!(listed > 500, "only {listed} cells");
}

/// The stored ride: its pairs were reckoned by hand.
#[test]
fn a_ride() {
    let cases = Path::new(env!("CARGO_MANIFEST_DIR")).join("../../cases");
    let ride = hex(&fs::read(cases.join("ride.in")).expect("the ride"));
    let mut questions = vec![format!("profile\t{ride}")];
    questions.extend((0..9).map(|row| format!("cadence\t{ride}\t{row}")));
    questions.extend(["profile\t-".to_string(), "cadence\t-\t0".to_string()]);
    let wanted = [
        "ok",
        "elapsed 1024 1 60",
        "elapsed 768 1 80",
        "elapsed 0 0 none",
        "elapsed 62208 48 47",
        "elapsed 1024 2 120",
        "pause",
        "elapsed 1024 0 0",
        "elapsed 1536 2 80",
        "refused 11 at 0",
        "refused 3 at 0",
        "refused 3 at 0",
    ];
    assert_eq!(answers(&questions), wanted);
}

#[test]
fn made_sessions() {
    let made: Vec<_> = (0..1_000).map(streams::session).collect();
    let mut questions = Vec::new();
    let mut wanted = Vec::new();
    for (seed, stream) in (0..).zip(&made) {
        questions.push(format!("profile\t{}", hex(stream)));
        let profile = second_reader::profile(stream);
        wanted.push(profile.map_or_else(refused, |()| "ok".to_string()));
        let row = streams::session_row(seed, stream);
        questions.push(format!("cadence\t{}\t{row}", hex(stream)));
        wanted.push(match second_reader::cadence(stream, row) {
            Err(refusal) => refused(refusal),
            Ok(Between::Pause) => "pause".to_string(),
            Ok(Between::Elapsed {
                ticks,
                turns,
                cadence: None,
            }) => format!("elapsed {ticks} {turns} none"),
            Ok(Between::Elapsed {
                ticks,
                turns,
                cadence: Some(cadence),
            }) => format!("elapsed {ticks} {turns} {cadence}"),
        });
    }
    assert_eq!(answers(&questions), wanted);
    for start in ["ok", "pause", "elapsed ", "refused 11 ", "refused 20 "] {
        let met = wanted.iter().filter(|line| line.starts_with(start)).count();
        assert!(met >= 10, "'{start}' was met {met} times");
    }
    assert!(wanted.iter().any(|line| line.ends_with(" none")));
}

/// Two stored cases, with what differs written down after their lines; and whose refusal it is.
#[test]
fn two_cases_compared() {
    let cases = Path::new(env!("CARGO_MANIFEST_DIR")).join("../../cases");
    let read = |name: &str| fs::read(cases.join(name)).expect("a stored case");
    let of = |name: &str| hex(&read(name));
    let mut corrected = read("cells.in");
    let value = second_reader::NewValue::Number(2.5);
    second_reader::correct(&mut corrected, 0, 0, 1, value).expect("a cell");
    let (cells, corrected, empty) = (of("cells.in"), hex(&corrected), of("no-cells.in"));
    let (twice, encrypted) = (of("repeated-address.in"), of("refused-5-encrypted.in"));
    let mut all = "first 0 0 0 ; first 0 0 1 ; first 0 0 2 ; first 0 0 3 ; first 0 0 4".to_string();
    all += " ; first 0 1 0 ; first 0 1 1 ; first 0 1 2 ; first 0 1 3 ; first 0 1 255";
    all += " ; first 0 2 7 ; first 0 2 8 ; first 0 2 9";
    let asked = [
        (&cells, &cells, "same"),
        (&cells, &corrected, "unequal 0 0 1"),
        (&corrected, &cells, "unequal 0 0 1"),
        (&encrypted, &"-".to_string(), "refused 5 at 20 of first"),
        (&cells, &encrypted, "refused 5 at 20 of second"),
        (&twice, &encrypted, "refused 5 at 20 of second"),
        (&twice, &twice, "refused 16 at 0 of first"),
        (&cells, &twice, "refused 16 at 0 of second"),
    ];
    let questions = asked.map(|(first, second, _)| format!("compare\t{first}\t{second}"));
    assert_eq!(answers(&questions), asked.map(|(_, _, answer)| answer));
    let questions = [
        format!("compare\t{cells}\t{empty}"),
        format!("compare\t{empty}\t{cells}"),
    ];
    let [first, second] = &answers(&questions)[..] else {
        panic!("two answers");
    };
    assert!(first.starts_with(&all), "{first}");
    assert_eq!(first.split(" ; ").count(), 17);
    assert_eq!(*second, first.replace("first", "second"));
}

#[test]
fn made_revisions() {
    let mut questions = Vec::new();
    let mut wanted = Vec::new();
    for seed in 0..600 {
        let (first, second) = streams::revisions(seed);
        questions.push(format!("compare\t{}\t{}", hex(&first), hex(&second)));
        wanted.push(match second_reader::compare(&first, &second) {
            Ok(differences) if differences.is_empty() => "same".to_string(),
            Ok(differences) => differences
                .iter()
                .map(ToString::to_string)
                .collect::<Vec<_>>()
                .join(" ; "),
            Err(refusal) => {
                let side = match refusal.side {
                    Side::First => "first",
                    Side::Second => "second",
                };
                format!("{} of {side}", refused(refusal.refusal))
            }
        });
    }
    assert_eq!(answers(&questions), wanted);
    for part in [
        "same",
        "name ",
        "first ",
        "second ",
        "unequal ",
        "refused 16 ",
        "of first",
        "of second",
    ] {
        let met = wanted.iter().filter(|line| line.contains(part)).count();
        assert!(met >= 10, "'{part}' was met {met} times");
    }
}

/// The stored stream and what it is without its unused strings, in buffers of several lengths.
#[test]
fn unused_strings_of_a_case() {
    let cases = Path::new(env!("CARGO_MANIFEST_DIR")).join("../../cases");
    let of = |name: &str| hex(&fs::read(cases.join(name)).expect("a stored case"));
    let (old, new) = (of("unused-strings.in"), of("used-strings.in"));
    let (template, day) = (of("template.in"), of("day.in"));
    let written = format!("written 281 freed 151\t{}", new.to_uppercase());
    let again = format!("written 281 freed 0\t{}", new.to_uppercase());
    let asked = [
        (format!("compact\t{old}\t281"), written.clone()),
        (format!("compact\t{old}\t4294967295"), written.clone()),
        (format!("compact\t{old}\t280"), "refused 12 at 0".into()),
        (format!("compact\t{old}\t0"), "refused 12 at 0".into()),
        (format!("compact\t{new}\t281"), again),
        ("compact\t-\t0".into(), "refused 3 at 0".into()),
        (format!("compact\t{day}\t999"), "refused 9 at 61".into()),
        (format!("compact-session\t{template}\t{old}\t281"), written),
        (
            format!("compact-session\t{template}\t{old}\t280"),
            "refused 12 at 0".into(),
        ),
        (
            format!("compact-session\t{template}\t{day}\t999"),
            format!("written {} freed 0\t{}", day.len() / 2, day.to_uppercase()),
        ),
        (
            format!("compact-session\t-\t{old}\t281"),
            "refused 3 at 0 of template".into(),
        ),
        (
            format!("compact-session\t{template}\t-\t281"),
            "refused 3 at 0 of session".into(),
        ),
    ];
    let questions = asked.clone().map(|(question, _)| question);
    assert_eq!(answers(&questions), asked.map(|(_, answer)| answer));
}

/// A new stream as ask tells it.
fn new_stream(done: second_reader::Compacted, buffer: &[u8]) -> String {
    let second_reader::Compacted { written, freed } = done;
    let new = hex(&buffer[..written]).to_uppercase();
    format!("written {written} freed {freed}\t{new}")
}

#[test]
fn made_streams_without_their_unused_strings() {
    let mut questions = Vec::new();
    let mut wanted = Vec::new();
    for seed in 0..300 {
        let stream = streams::with_unused(seed);
        let [room, ..] = streams::rooms(seed, stream.len());
        let mut buffer = vec![0; room];
        questions.push(format!("compact\t{}\t{room}", hex(&stream)));
        let answer = second_reader::compact(&stream, &mut buffer);
        wanted.push(answer.map_or_else(refused, |done| new_stream(done, &buffer)));

        let streams::Pair { template, session } = streams::pair_with_unused(seed);
        let [room, ..] = streams::rooms(seed, session.len());
        let mut buffer = vec![0; room];
        let (first, second) = (hex(&template), hex(&session));
        questions.push(format!("compact-session\t{first}\t{second}\t{room}"));
        let answer = second_reader::compact_session(&template, &session, &mut buffer);
        wanted.push(answer.map_or_else(pair_refused, |done| new_stream(done, &buffer)));
    }
    assert_eq!(answers(&questions), wanted);
    for part in ["written ", "refused ", "of template", "of session"] {
        let met = wanted.iter().filter(|line| line.contains(part)).count();
        assert!(met >= 10, "'{part}' was met {met} times");
    }
}

/// Each gets its answer, and the lines after it theirs.
#[test]
fn lines_that_are_no_question() {
    let wrong = [
        "",
        "\t",
        "nothing",
        "Check\t-",
        " check\t-",
        "check",
        "check -",
        "check\t",
        "check\t-\t",
        "check\t-\t-",
        "check\t0",
        "check\tG0",
        "check\t00 00",
        "check\t-\r",
        "judge\t1E0100",
        "judge\t1E0100\t",
        "judge\t1E0100\tG0",
        "judge\t1E0100\t-\t-",
        "cells\t-",
        "cells\t-\t",
        "cells\t-\t-1",
        "cells\t-\t+1",
        "cells\t-\t0x1",
        "cells\t-\t4294967296",
        "cells\t-\t0\t0",
        "fill\t-",
        "fill\t-\t",
        "fill\t-\t-",
        "fill\t-\t16777217",
        "fill\t-\t0\t0",
        "fetch-through\t-\t-\t0",
        "fetch-through\t-\t\t0\t0",
        "fetch-through\t-\t0,\t0\t0",
        "fetch-through\t-\t0 0\t0\t0",
        "fetch-through\t-\t4294967296\t0\t0",
        "fetch-through\t-\t-\t-\t0",
        "fetch-through\t-\t-\t0\t-",
        "fetch-through\t-\t-\t0\t0\t0",
        "compare",
        "compare\t-",
        "compare\t-\t",
        "compare\t-\t0",
        "compare\t-\t-\t-",
        "compact",
        "compact\t-",
        "compact\t-\t",
        "compact\t-\t-",
        "compact\t0\t0",
        "compact\t-\t4294967296",
        "compact\t-\t0\t0",
        "compact-session\t-\t0",
        "compact-session\t-\t-\t-",
        "compact-session\t-\t0\t0",
        "compact-session\t-\t-\t0\t0",
        "profile",
        "profile\t",
        "profile\t-\t0",
        "cadence\t-",
        "cadence\t-\t",
        "cadence\t-\t-",
        "cadence\t-\t4294967296",
        "cadence\t-\t0\t0",
        "é\u{0}",
    ];
    let questions: Vec<_> = wrong
        .iter()
        .flat_map(|line| [line.to_string(), "check\t-".to_string()])
        .collect();
    for (line, answers) in wrong.iter().zip(answers(&questions).chunks(2)) {
        assert_eq!(answers, ["wrong question", "refused 3 at 0"], "{line:?}");
    }
    let output = run(b"\xFF\xFE\ncheck\t\xC3\x28\ncheck\t-\n");
    let wanted = "wrong question\nwrong question\nrefused 3 at 0\n";
    assert_eq!(output.stdout, wanted.as_bytes());
}

#[test]
fn where_the_input_ends() {
    assert_eq!(run(b"").stdout, b"");
    assert_eq!(run(b"\n").stdout, b"wrong question\n");
    assert_eq!(run(b"check\t-").stdout, b"refused 3 at 0\n");
    assert_eq!(
        run(b"check\t-\ncheck").stdout,
        b"refused 3 at 0\nwrong question\n"
    );
}

/// The longest stream, and one that is a byte too long: globals alone, and zeros behind them.
#[test]
fn long_lines() {
    let globals = "09081000000605000000000000000000000000000A000000";
    let stream = |length: usize| globals.to_string() + &"00".repeat(length - globals.len() / 2);
    let questions = [
        format!("check\t{}", stream(16_777_216)),
        format!("cells\t{}\t0", stream(16_777_217)),
    ];
    assert_eq!(answers(&questions), ["ok", "refused 1 at 0"]);
}

/// The lines that a process gives, as they come.
fn lines_of(child: &mut Child) -> Receiver<String> {
    let stdout = BufReader::new(child.stdout.take().expect("a pipe"));
    let (send, lines) = mpsc::channel();
    thread::spawn(move || {
        for line in stdout.lines().map_while(Result::ok) {
            let _ = send.send(line);
        }
    });
    lines
}

/// An answer comes before the next question is asked, and also where the next has only begun.
#[test]
fn each_answer_comes_at_once() {
    for begun in ["", "j", "judge\t"] {
        let mut child = start();
        let lines = lines_of(&mut child);
        let mut stdin = child.stdin.take().expect("a pipe");
        let mut ask = |text: &str| stdin.write_all(text.as_bytes()).expect("input is taken");
        ask(begun);
        for (tokens, answer) in JUDGED {
            let question = format!("judge\t{tokens}\t-\n{begun}");
            ask(&question[begun.len()..]);
            let given = lines.recv_timeout(Duration::from_secs(20));
            assert_eq!(given.as_deref(), Ok(answer), "{tokens}");
        }
        drop(stdin);
        assert_eq!(child.wait().expect("ask ends").code(), Some(0));
    }
}

/// Who has seen enough may close the pipe.
#[test]
fn a_closed_pipe() {
    let mut child = start();
    drop(child.stdout.take());
    let mut stdin = child.stdin.take().expect("a pipe");
    // Once ask has ended, the rest isn't taken.
    while stdin.write_all(b"check\t-\n").is_ok() {}
    let output = child.wait_with_output().expect("ask ends");
    assert_eq!(
        (output.status.code(), &output.stderr[..]),
        (Some(141), &b""[..])
    );
}

/// The text of a formula's result, by its cell.
#[test]
fn texts_of_formulas() {
    let results = Path::new(env!("CARGO_MANIFEST_DIR")).join("../../cases/results.in");
    let results = hex(&fs::read(results).expect("a stored case"));
    let asked = [
        ("0\t3\t1\t5", "units 5 006C006100620065006C"),
        ("0\t3\t1\t4294967295", "units 5 006C006100620065006C"),
        ("0\t3\t1\t4", "refused 12 at 0"),
        ("0\t3\t0\t5", "refused 11 at 0"),
        ("0\t3\t257\t5", "refused 11 at 0"),
        ("1\t3\t1\t5", "refused 11 at 0"),
        ("0\t3\t1", "wrong question"),
        ("0\t3\t1\t5\t", "wrong question"),
        ("0\t3\tB\t5", "wrong question"),
    ];
    let questions = asked.map(|(words, _)| format!("text\t{results}\t{words}"));
    assert_eq!(answers(&questions), asked.map(|(_, answer)| answer));
}

#[test]
fn made_texts() {
    let made: Vec<_> = (0..400).map(streams::stream).collect();
    let mut questions = Vec::new();
    let mut wanted = Vec::new();
    for (seed, stream) in (0..).zip(&made) {
        let ask = streams::text(seed, stream);
        let (sheet, row, column) = (ask.sheet, ask.row, ask.column);
        let mut buffer = vec![0; ask.units];
        let answer = second_reader::text(stream, sheet, row, column, &mut buffer);
        wanted.push(answer.map_or_else(refused, |count| units(&buffer[..count])));
        let stream = hex(stream);
        questions.push(format!(
            "text\t{stream}\t{sheet}\t{row}\t{column}\t{}",
            ask.units
        ));
    }
    assert_eq!(answers(&questions), wanted);
    assert!(
        wanted
            .iter()
            .filter(|line| line.starts_with("units"))
            .count()
            > 10
    );
}

/// The line for these units.
fn units(units: &[u16]) -> String {
    let hex: String = units.iter().map(|unit| format!("{unit:04X}")).collect();
    match units {
        [] => "units 0 -".to_string(),
        _ => format!("units {} {hex}", units.len()),
    }
}

/// Questions about a stored case, CELLS, and what document 02 answers to them. Its SST is at 20, its three strings, `one`, `zwei` and one of no characters, are at
/// 32, 38 and 49, and its body ends at 52.
const PLACES: [(&str, &str); 18] = [
    ("fill\tCELLS\t6", "filled 32,20,38,20,49,20"),
    (
        "fill\tCELLS\t9",
        "filled 32,20,38,20,49,20,4294967295,4294967295,4294967295",
    ),
    ("fill\tCELLS\t5", "refused 12 at 0"),
    ("fill\t-\t0", "refused 3 at 0"),
    (
        "fetch-through\tCELLS\t32,20,38,20\t1\t4",
        "units 4 007A007700650069",
    ),
    (
        "fetch-through\tCELLS\t32,20,38,20\t0\t4294967295",
        "units 3 006F006E0065",
    ),
    ("fetch-through\tCELLS\t49,20\t0\t0", "units 0 -"),
    ("fetch-through\tCELLS\t32,20,38,20\t1\t3", "refused 12 at 0"),
    // No such entry, half of one, and one that would be there in 31 bits.
    ("fetch-through\tCELLS\t32,20,38,20\t2\t9", "refused 11 at 0"),
    ("fetch-through\tCELLS\t32,20,38\t1\t9", "refused 11 at 0"),
    ("fetch-through\tCELLS\t-\t0\t9", "refused 11 at 0"),
    (
        "fetch-through\tCELLS\t32,20\t2147483648\t9",
        "refused 11 at 0",
    ),
    // The globals' BOF for a segment; a head at the body's end, in the header, in the counts.
    ("fetch-through\tCELLS\t32,0\t0\t9", "refused 11 at 0"),
    ("fetch-through\tCELLS\t52,20\t0\t9", "refused 11 at 0"),
    ("fetch-through\tCELLS\t23,20\t0\t9", "refused 11 at 0"),
    ("fetch-through\tCELLS\t24,20\t0\t9", "units 3 000000030000"),
    // No check: an SST with one string in it and nothing else; and one whose body is cut.
    ("fetch-through\tfc000300000000\t4,0\t0\t0", "units 0 -"),
    ("fetch-through\tfc0003000000\t4,0\t0\t0", "refused 11 at 0"),
];

#[test]
fn places_in_a_table() {
    let case = Path::new(env!("CARGO_MANIFEST_DIR")).join("../../cases/cells.in");
    let stream = hex(&fs::read(case).expect("a stored case"));
    let questions = PLACES.map(|(question, _)| question.replace("CELLS", &stream));
    assert_eq!(answers(&questions), PLACES.map(|(_, answer)| answer));
}

/// What filling and fetching through a table give, as the second reader has it.
#[test]
fn made_tables() {
    let (mut questions, mut wanted) = (Vec::new(), Vec::new());
    for seed in 0..300 {
        let stream = streams::stream(seed);
        let mut table = vec![0; streams::numbers(seed, &stream)];
        let filled = second_reader::fill(&stream, &mut table);
        questions.push(format!("fill\t{}\t{}", hex(&stream), table.len()));
        wanted.push(filled.map_or_else(refused, |_| format!("filled {}", joined(&table))));
        let filled = if filled.is_ok() { &table[..] } else { &[] };
        let ask = streams::through(seed, &stream, filled);
        let mut buffer = vec![0; ask.units];
        let answer = second_reader::fetch_through(&ask.stream, &ask.table, ask.index, &mut buffer);
        wanted.push(answer.map_or_else(refused, |count| units(&buffer[..count])));
        questions.push(format!(
            "fetch-through\t{}\t{}\t{}\t{}",
            hex(&ask.stream),
            joined(&ask.table),
            ask.index,
            ask.units
        ));
    }
    assert_eq!(answers(&questions), wanted);
    for start in ["filled ", "units ", "refused 11 ", "refused 12 "] {
        let met = wanted.iter().filter(|line| line.starts_with(start));
        assert!(met.count() > 10, "{start}");
    }
}

/// Numbers as a word; `-` for none.
fn joined(numbers: &[u32]) -> String {
    let words: Vec<_> = numbers.iter().map(u32::to_string).collect();
    match &words[..] {
        [] => "-".to_string(),
        words => words.join(","),
    }
}

/// Questions about the stored pair, and what document 02 answers to them. The template has two sheets and three strings (`time`, `pulse`, `resting`), the session, DAY, one
/// sheet and no strings; CELLS is a session with three of its own.
const PAIRS: [(&str, &str); 41] = [
    ("pair\tTEMPLATE\tDAY\tcheck", "ok"),
    ("pair\t-\t-\tcheck", "refused 3 at 0 of template"),
    ("pair\tTEMPLATE\t-\tcheck", "refused 3 at 0 of session"),
    ("pair\tDAY\tTEMPLATE\tcheck", "refused 9 at 61 of template"),
    ("pair\tTEMPLATE\tDAY\tsheets", "2"),
    ("pair\tTEMPLATE\t-\tsheets", "refused 3 at 0 of session"),
    (
        "pair\tTEMPLATE\tDAY\tsheet 0",
        "session type 0 width 1 rows 2 name at 32 bytes 5",
    ),
    (
        "pair\tTEMPLATE\tDAY\tsheet 1",
        "template type 0 width 1 rows 2 name at 85 bytes 3",
    ),
    ("pair\tTEMPLATE\tDAY\tsheet 2", "refused 11 at 0"),
    (
        "pair\tTEMPLATE\tDAY\tcells 0",
        "session ; 0 0 text 0 ; 0 1 text 1 ; 1 0 number 407E000000000000 ; 1 1 number 4051800000000000",
    ),
    (
        "pair\tTEMPLATE\tDAY\tcells 1",
        "template ; 0 0 text 2 ; 0 1 number 404E000000000000 ; 1 0 formula text",
    ),
    ("pair\tTEMPLATE\tDAY\tcells 2", "refused 11 at 0"),
    (
        "pair\tTEMPLATE\tDAY\tfetch session 0 4",
        "template units 4 00740069006D0065",
    ),
    (
        "pair\tTEMPLATE\tCELLS\tfetch session 0 4294967295",
        "session units 3 006F006E0065",
    ),
    (
        "pair\tTEMPLATE\tCELLS\tfetch template 0 4",
        "template units 4 00740069006D0065",
    ),
    ("pair\tTEMPLATE\tCELLS\tfetch session 2 0", "session units 0 -"),
    ("pair\tTEMPLATE\tDAY\tfetch session 0 3", "refused 12 at 0"),
    ("pair\tTEMPLATE\tDAY\tfetch session 3 9", "refused 11 at 0"),
    (
        "pair\tTEMPLATE\tDAY\ttext 1 1 0 20",
        "template units 14 00620065006100740073002000610020006D0069006E007500740065",
    ),
    ("pair\tTEMPLATE\tDAY\ttext 0 1 0 20", "refused 11 at 0"),
    (
        "pair\tTEMPLATE\tDAY\tcorrect 0 1 1 number 4052200000000000",
        "granted 118=2052",
    ),
    ("pair\tTEMPLATE\tDAY\tcorrect 0 0 0 text 2", "granted 71=02"),
    ("pair\tTEMPLATE\tDAY\tcorrect 0 0 0 text 0", "granted -"),
    ("pair\tTEMPLATE\tDAY\tcorrect 0 0 0 text 3", "refused 18 at 0"),
    ("pair\tTEMPLATE\tDAY\tcorrect 0 0 0 truth 255", "refused 17 at 0"),
    ("pair\tTEMPLATE\tDAY\tcorrect 1 0 0 text 0", "refused 17 at 0"),
    ("pair\tTEMPLATE\tDAY\tcorrect 2 0 0 error 2A", "refused 11 at 0"),
    (
        "pair\tTEMPLATE\t-\tcorrect 1 0 0 text 0",
        "refused 3 at 0 of session",
    ),
    ("pair-fill\tTEMPLATE\tDAY\t6\t0", "filled 32,20,39,20,47,20 / -"),
    (
        "pair-fill\tTEMPLATE\tCELLS\t7\t6",
        "filled 32,20,39,20,47,20,4294967295 / 32,20,38,20,49,20",
    ),
    ("pair-fill\tTEMPLATE\tCELLS\t6\t5", "refused 12 at 0"),
    ("pair-fill\tTEMPLATE\tCELLS\t5\t6", "refused 12 at 0"),
    ("pair-fill\tDAY\tDAY\t6\t6", "refused 9 at 61 of template"),
    ("pair\tTEMPLATE\tDAY", "wrong question"),
    ("pair\tTEMPLATE\tDAY\tcheck ", "wrong question"),
    ("pair\tTEMPLATE\tDAY\tsheet  0", "wrong question"),
    ("pair\tTEMPLATE\tDAY\tsheet\t0", "wrong question"),
    ("pair\tTEMPLATE\tDAY\tfetch both 0 4", "wrong question"),
    ("pair\tTEMPLATE\tDAY\tcorrect 0 0 0 truth 256", "wrong question"),
    ("pair\tTEMPLATE\tDAY\tcorrect 0 0 0 number 1", "wrong question"),
    ("pair-fill\tTEMPLATE\tDAY\t6", "wrong question"),
];

#[test]
fn a_template_and_a_session() {
    let stored = |name: &str| {
        let case = Path::new(env!("CARGO_MANIFEST_DIR")).join("../../cases");
        hex(&fs::read(case.join(name)).expect("a stored case"))
    };
    let streams = [
        ("TEMPLATE", stored("template.in")),
        ("DAY", stored("day.in")),
        ("CELLS", stored("cells.in")),
    ];
    let with_streams = |question: &str| {
        let question = question.to_string();
        streams.iter().fold(question, |question, (name, stream)| {
            question.replace(name, stream)
        })
    };
    let questions = PAIRS.map(|(question, _)| with_streams(question));
    for ((question, wanted), answer) in PAIRS.iter().zip(answers(&questions)) {
        assert_eq!(answer, *wanted, "{question}");
    }
}

fn whose(whose: Whose) -> &'static str {
    match whose {
        Whose::Session => "session",
        Whose::Template => "template",
    }
}

fn pair_refused(refused_by: PairRefusal) -> String {
    match refused_by {
        PairRefusal::Stream(of, refusal) => format!("{} of {}", refused(refusal), whose(of)),
        PairRefusal::Question(refusal) => refused(refusal),
    }
}

/// The bytes that are others now, run by run.
fn changes(before: &[u8], after: &[u8]) -> String {
    let differs = |at: &usize| before[*at] != after[*at];
    let mut runs: Vec<(usize, String)> = Vec::new();
    for at in (0..before.len()).filter(differs) {
        let hex = format!("{:02X}", after[at]);
        match runs.last_mut() {
            Some((start, run)) if *start + run.len() / 2 == at => run.push_str(&hex),
            _ => runs.push((at, hex)),
        }
    }
    let runs: Vec<_> = runs.iter().map(|(at, run)| format!("{at}={run}")).collect();
    match &runs[..] {
        [] => "-".to_string(),
        runs => runs.join(","),
    }
}

/// The question of a correction, with its value as it is written.
fn correction(asked: &streams::Correction) -> (String, second_reader::NewValue) {
    use second_reader::NewValue;
    let (kind, value, new) = match asked.value {
        streams::NewValue::Number(number) => (
            "number",
            format!("{:016X}", number.to_bits()),
            NewValue::Number(number),
        ),
        streams::NewValue::Text(index) => ("text", index.to_string(), NewValue::Text(index)),
        streams::NewValue::Truth(truth) => ("truth", truth.to_string(), NewValue::Truth(truth)),
        streams::NewValue::Error(code) => ("error", format!("{code:02x}"), NewValue::Error(code)),
    };
    let (sheet, row, column) = (asked.sheet, asked.row, asked.column);
    let question = format!("correct {sheet} {row} {column} {kind} {value}");
    (question, new)
}

/// The answers of the second reader to every question over a pair.
fn asked_of(seed: u64, pair: &streams::Pair) -> Vec<(String, Result<String, PairRefusal>)> {
    let (template, session) = (&pair.template[..], &pair.session[..]);
    let fetched = |answer: Result<(Whose, usize), PairRefusal>, buffer: &[u16]| {
        answer.map(|(of, count)| format!("{} {}", whose(of), units(&buffer[..count])))
    };
    let checked = second_reader::pair_check(template, session);
    let number = streams::pair_sheet(seed, pair);
    let (_, name) = second_reader::pair_sheet_name(template, session, number);
    let sheet = second_reader::pair_sheet(template, session, number).map(|sheet| {
        let stream = match sheet.whose {
            Whose::Session => session,
            Whose::Template => template,
        };
        format!(
            "{} type {} width {} rows {} name at {} bytes {}",
            whose(sheet.whose),
            sheet.sheet_type as u8,
            1 + u8::from(sheet.wide),
            sheet.rows,
            name.as_ptr() as usize - stream.as_ptr() as usize,
            name.len()
        )
    });
    let mut asked = vec![
        ("check".to_string(), checked.map(|_| "ok".to_string())),
        (
            "sheets".to_string(),
            checked.map(|sheets| sheets.to_string()),
        ),
        (format!("sheet {number}"), sheet),
    ];
    let ask = streams::pair_fetch(seed, pair);
    let of = match ask.of_template {
        true => Whose::Template,
        false => Whose::Session,
    };
    let mut buffer = vec![0; ask.units];
    let answer = second_reader::pair_fetch(template, session, of, ask.index, &mut buffer);
    let question = format!("fetch {} {} {}", whose(of), ask.index, ask.units);
    asked.push((question, fetched(answer, &buffer)));
    let ask = streams::pair_text(seed, pair);
    let (sheet, row, column) = (ask.sheet, ask.row, ask.column);
    let mut buffer = vec![0; ask.units];
    let answer = second_reader::pair_text(template, session, sheet, row, column, &mut buffer);
    let question = format!("text {sheet} {row} {column} {}", ask.units);
    asked.push((question, fetched(answer, &buffer)));
    let ask = streams::pair_correction(seed, pair);
    let (question, value) = correction(&ask);
    let mut changed = session.to_vec();
    let (sheet, row, column) = (ask.sheet, ask.row, ask.column);
    let answer = second_reader::pair_correct(template, &mut changed, sheet, row, column, value);
    let line = |()| format!("granted {}", changes(session, &changed));
    asked.push((question, answer.map(line)));
    asked
}

#[test]
fn made_pairs() {
    let (mut questions, mut wanted) = (Vec::new(), Vec::new());
    for seed in 0..300 {
        let pair = streams::pair(seed);
        let (template, session) = (hex(&pair.template), hex(&pair.session));
        for (question, answer) in asked_of(seed, &pair) {
            questions.push(format!("pair\t{template}\t{session}\t{question}"));
            wanted.push(answer.unwrap_or_else(pair_refused));
        }
        let tables = streams::pair_numbers(seed, &pair).map(|numbers| vec![0; numbers]);
        let [mut first, mut second] = tables;
        let sizes = format!("{}\t{}", first.len(), second.len());
        questions.push(format!("pair-fill\t{template}\t{session}\t{sizes}"));
        let filled =
            second_reader::pair_fill(&pair.template, &pair.session, &mut first, &mut second);
        let line = |_| format!("filled {} / {}", joined(&first), joined(&second));
        wanted.push(filled.map_or_else(pair_refused, line));
    }
    assert_eq!(answers(&questions), wanted);
    for part in [
        "of template",
        "of session",
        "session units ",
        "template type ",
        "granted ",
        "filled ",
        "refused 17 ",
    ] {
        let met = wanted.iter().filter(|line| line.contains(part));
        assert!(met.count() > 3, "{part}");
    }
}

/// Questions about a stored case, CELLS, with a journal, and what document 02 answers to them. It has three strings; the number at row 0, column 1 is pi, its
/// field at 114; at row 1, column 0 is the text of index 0.
fn journal_answers(length: usize) -> Vec<(String, String)> {
    let header = |count: u8| {
        let length = (length as u32)
            .to_le_bytes()
            .map(|byte| format!("{byte:02X}"));
        format!("{count:02X}00000010000000{}03000000", length.concat())
    };
    let zeros = |count: usize| "00".repeat(count);
    // Sheet 0, row 0, column 1, kind 0, 8 old bytes: pi is 400921FB54442D18, and 2.5 is 4004000000000000.
    let entry = "000000000000010000000800182D4454FB2109400000000000000440";
    let empty = header(0);
    let made = format!("{}{entry}", header(1));
    let room = format!("{empty}{}", zeros(28));
    let number = "correct 0 0 1 number 4004000000000000";
    let mut asked = vec![
        (
            format!("-\tCELLS\t{}\tstart", zeros(20)),
            format!(
                "ok\t-\t{}",
                runs(&zeros(20), &format!("{empty}{}", zeros(4)))
            ),
        ),
        (
            format!("-\tCELLS\t{}\tstart", zeros(15)),
            "refused 12 at 0\t-\t-".to_string(),
        ),
        (
            "-\tCELLS\t-\tstart".to_string(),
            "refused 12 at 0\t-\t-".to_string(),
        ),
        (
            "-\t-\t-\tstart".to_string(),
            "refused 3 at 0\t-\t-".to_string(),
        ),
        (
            format!("-\tCELLS\t{empty}\t{number}"),
            "refused 12 at 0\t-\t-".to_string(),
        ),
        (
            format!("-\tCELLS\t-\t{number}"),
            "refused 21 at 0\t-\t-".to_string(),
        ),
        (
            format!("-\tCELLS\t{room}\tcorrect 0 0 0 number 4004000000000000"),
            "refused 17 at 0\t-\t-".to_string(),
        ),
        (
            format!("-\tCELLS\t{empty}\tforwards"),
            "replayed 0\t-\t-".to_string(),
        ),
        (
            format!("-\tCELLS\t{made}\tbackwards"),
            "refused 19 at 0\t-\t-".to_string(),
        ),
    ];
    asked.push((
        format!("-\tCELLS\t{room}\t{number}"),
        format!("ok\t{}\t{}", after_pi(), runs(&room, &made)),
    ));
    asked.push((
        format!("-\tCELLS\t{made}\tforwards"),
        format!("replayed 1\t{}\t-", after_pi()),
    ));
    asked
}

/// The bytes of pi that 2.5 changes: all but the last.
fn after_pi() -> String {
    "114=00000000000004".to_string()
}

/// The runs of bytes in which two words of hex differ.
fn runs(before: &str, after: &str) -> String {
    let bytes = |word: &str| -> Vec<u8> {
        let pairs = word.as_bytes().chunks(2);
        let byte =
            |pair: &[u8]| u8::from_str_radix(std::str::from_utf8(pair).unwrap(), 16).unwrap();
        pairs.map(byte).collect()
    };
    changes(&bytes(before), &bytes(after))
}

#[test]
fn journals_of_a_case() {
    let case = Path::new(env!("CARGO_MANIFEST_DIR")).join("../../cases/cells.in");
    let stream = fs::read(case).expect("a stored case");
    let asked = journal_answers(stream.len());
    let questions: Vec<_> = asked
        .iter()
        .map(|(question, _)| format!("journal\t{question}").replace("CELLS", &hex(&stream)))
        .collect();
    let wanted: Vec<_> = asked.into_iter().map(|(_, answer)| answer).collect();
    assert_eq!(answers(&questions), wanted);
    for wrong in [
        "",
        "start now",
        "begin",
        "correct 0 0 1 number",
        "correct 0 0 1 number 1",
        "forwards ",
        "backwards 1",
    ] {
        let question = format!("journal\t-\t-\t-\t{wrong}");
        assert_eq!(answers(&[question]), ["wrong question"], "{wrong}");
    }
    assert_eq!(
        answers(&["journal\t-\t-\tstart".to_string()]),
        ["wrong question"]
    );
}

/// What the second reader has, of one stream and over a pair.
#[test]
fn made_journals() {
    use second_reader::{Direction, PairUnreplayed, Unreplayed};
    let ok = |answer: Result<(), String>| answer.map_or_else(|line| line, |()| "ok".to_string());
    let (mut questions, mut wanted) = (Vec::new(), Vec::new());
    for seed in 0..400 {
        let pair = streams::pair(seed);
        // An empty one can't be told from none.
        let over = seed % 2 == 0 && !pair.template.is_empty();
        let template = over.then_some(&pair.template[..]);
        let stream = match template {
            Some(_) => pair.session.clone(),
            None => streams::stream(seed),
        };
        let journal = match template {
            Some(_) => streams::pair_journal(seed, &pair),
            None => streams::journal(seed, &stream),
        };
        let asked = streams::correction(seed, &stream);
        let (correcting, value) = correction(&asked);
        let (sheet, row, column) = (asked.sheet, asked.row, asked.column);
        for question in [
            "start".to_string(),
            correcting,
            "forwards".to_string(),
            "backwards".to_string(),
        ] {
            let (mut stream_after, mut journal_after) = (stream.clone(), journal.clone());
            let direction = match &question[..] {
                "backwards" => Direction::Backwards,
                _ => Direction::Forwards,
            };
            let (s, j) = (&mut stream_after[..], &mut journal_after[..]);
            let answer = match (&question[..], template) {
                ("start", None) => ok(second_reader::start_journal(s, j).map_err(refused)),
                ("start", Some(t)) => {
                    ok(second_reader::pair_start_journal(t, s, j).map_err(pair_refused))
                }
                ("forwards" | "backwards", None) => match second_reader::replay(s, j, direction) {
                    Ok(count) => format!("replayed {count}"),
                    Err(Unreplayed::Refused(refusal)) => refused(refusal),
                    Err(Unreplayed::Stopped { number, entry }) => {
                        format!("refused {number} at {entry}")
                    }
                },
                ("forwards" | "backwards", Some(t)) => {
                    match second_reader::pair_replay(t, s, j, direction) {
                        Ok(count) => format!("replayed {count}"),
                        Err(PairUnreplayed::Refused(refusal)) => pair_refused(refusal),
                        Err(PairUnreplayed::Stopped { number, entry }) => {
                            format!("refused {number} at {entry}")
                        }
                    }
                }
                (_, None) => ok(
                    second_reader::correct_journalled(s, j, sheet, row, column, value)
                        .map_err(refused),
                ),
                (_, Some(t)) => ok(second_reader::pair_correct_journalled(
                    t, s, j, sheet, row, column, value,
                )
                .map_err(pair_refused)),
            };
            wanted.push(format!(
                "{answer}\t{}\t{}",
                changes(&stream, &stream_after),
                changes(&journal, &journal_after)
            ));
            let first = template.map_or("-".to_string(), hex);
            questions.push(format!(
                "journal\t{first}\t{}\t{}\t{question}",
                hex(&stream),
                hex(&journal)
            ));
        }
    }
    assert_eq!(answers(&questions), wanted);
    for start in ["ok\t", "replayed ", "refused 19 ", "refused 21 "] {
        let met = wanted.iter().filter(|line| line.starts_with(start));
        assert!(met.count() > 10, "{start}");
    }
}

#[test]
fn help_and_arguments() {
    let run = |argument| {
        let output = Command::new(env!("CARGO_BIN_EXE_ask"))
            .arg(argument)
            .output();
        output.expect("ask runs")
    };
    let help = run("--help");
    assert_eq!(help.status.code(), Some(0));
    let help = String::from_utf8(help.stdout).expect("help in UTF-8");
    for usage in [
        "check S ",
        "judge TOKENS TRAILING ",
        "cells S SHEET ",
        "text S SHEET ROW COLUMN UNITS ",
        "fill S NUMBERS ",
        "fetch-through S TABLE INDEX UNITS ",
        "pair T S QUESTION ",
        "pair-fill T S NUMBERS NUMBERS ",
        "journal T S J QUESTION ",
        "compare A B ",
        "compact S ROOM ",
        "compact-session T S ROOM ",
        "profile S ",
        "cadence S ROW ",
    ] {
        assert!(help.contains(usage), "{help}");
    }
    let wrong = run("session.bin");
    assert_eq!(
        (wrong.status.code(), &wrong.stdout[..]),
        (Some(2), &b""[..])
    );
    assert!(!wrong.stderr.is_empty());
}

/// The example in the README.
#[test]
fn answers_what_the_readme_says() {
    let readme = Path::new(env!("CARGO_MANIFEST_DIR")).join("../../README.md");
    let readme = fs::read_to_string(readme).expect("the README");
    let (_, example) = readme.split_once("    $ printf '").expect("the example");
    let (lines, example) = example.split_once("' | ").expect("its end");
    let wanted: String = example
        .lines()
        .skip(1)
        .map_while(|line| line.strip_prefix("    "))
        .map(|line| format!("{line}\n"))
        .collect();
    let input = lines.replace("\\t", "\t").replace("\\n", "\n");
    assert_eq!(run(input.as_bytes()).stdout, wanted.as_bytes());
    assert!(wanted.lines().count() >= 4);
}
