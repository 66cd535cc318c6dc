//! judge.

use crate::tool::{run, run_with, Ran, TOOL};
use std::io::{BufRead, BufReader, Write};
use std::process::{Command, Stdio};
use std::sync::mpsc;
use std::thread;
use std::time::Duration;
use streams::Formula;

/// The examples that document 01 settles, with their answers.
const SETTLED: [(&str, &str); 10] = [
    ("44000000C01E010003", "accepted"),
    ("03", "refused 14 at 0"),
    ("1E01001E0100", "refused 14 at 6"),
    ("1E01", "refused 13 at 0"),
    ("41DD00", "accepted"),
    ("41CA00", "refused 15 at 0"),
    ("41D800", "refused 15 at 0"),
    ("2903001E0100", "accepted"),
    ("2904001E0100", "refused 13 at 0"),
    ("", "refused 13 at 0"),
];

fn hex(bytes: &[u8]) -> String {
    bytes.iter().map(|byte| format!("{byte:02X}")).collect()
}

/// Holds that it answered so, and said what each refusal means where it first came.
fn answers_all(ran: &Ran, called: &str, answers: &str) {
    assert_eq!((ran.status, ran.text()), (Some(1), answers));
    let mut seen = Vec::new();
    let mut messages = ran.err.lines();
    for (number, answer) in (1..).zip(answers.lines()) {
        let Some((refusal, _)) = answer.split_once(" at ") else {
            continue;
        };
        if !seen.contains(&refusal) {
            seen.push(refusal);
            let message = messages.next().expect("a message");
            let start = format!("vaigunthe: {called} {number}: {answer}: the formula");
            assert!(message.starts_with(&start), "{message}");
        }
    }
    assert_eq!(messages.next(), None);
}

#[test]
fn the_settled_examples() {
    let mut words = vec!["judge"];
    words.extend(SETTLED.iter().map(|(formula, _)| formula));
    let answers: String = SETTLED
        .iter()
        .map(|(_, answer)| format!("{answer}\n"))
        .collect();
    answers_all(&run(&words), "formula", &answers);
    let lines: String = SETTLED
        .iter()
        .map(|(formula, _)| format!("{formula}\n"))
        .collect();
    answers_all(
        &run_with(&["judge", "-"], lines.as_bytes()),
        "line",
        &answers,
    );
    for (formula, answer) in SETTLED {
        match answer {
            "accepted" => run(&["judge", formula]).says(0, "accepted\n"),
            refusal => run(&["judge", formula]).refuses(refusal),
        }
    }
}

#[test]
fn made_formulas() {
    let mut lines = String::new();
    let mut answers = String::new();
    for seed in 0..3_000 {
        let Formula {
            tokens, trailing, ..
        } = streams::formula(seed);
        lines += &format!("{}+{}\n", hex(&tokens), hex(&trailing));
        answers += &match second_reader::judge(&tokens, &trailing) {
            Ok(()) => "accepted\n".to_string(),
            Err(refusal) => format!("{refusal}\n"),
        };
    }
    answers_all(
        &run_with(&["judge", "-"], lines.as_bytes()),
        "line",
        &answers,
    );
}

#[test]
fn ways_to_write_hex() {
    run(&["judge", "1e0100", "1E 01 00", " 1E01\t00 "]).says(0, &"accepted\n".repeat(3));
    let lines = b"1E 01 00\r\n  1e0100\n1E01 00";
    run_with(&["judge", "-"], lines).says(0, &"accepted\n".repeat(3));
    run_with(&["judge", "-"], b"").says(0, "");
    run(&["judge", "1E0100+", "1E 01 00 + "]).says(0, &"accepted\n".repeat(2));
    let ran = run_with(&["judge", "-"], b"\n\n");
    answers_all(&ran, "line", &"refused 13 at 0\n".repeat(2));
}

/// An array constant of one number, whole, cut, and with a byte too many.
#[test]
fn bytes_after_the_tokens() {
    let array = "6000000000000000";
    let number = "000000010000000000002940";
    run(&["judge", &format!("{array}+{number}")]).says(0, "accepted\n");
    run(&["judge", array]).refuses("refused 13 at 8");
    run(&["judge", &format!("{array}+{}", &number[2..])]).refuses("refused 13 at 8");
    run(&["judge", &format!("{array}+{number}00")]).refuses("refused 13 at 20");
}

#[test]
fn a_formula_far_too_long() {
    let line = "1E0100".repeat(100_000);
    run_with(&["judge", "-"], line.as_bytes()).refuses("refused 13 at 0");
}

/// All words are there before the first is answered, so none is.
#[test]
fn a_word_that_is_no_hex() {
    for word in [
        "1E010",
        "1E 0 100",
        "G0",
        "0x1E",
        "1E-0",
        "é0",
        "-",
        "1E0100+0",
        "1E0100+00+00",
    ] {
        run(&["judge", "1E0100", word]).fails("formula 2");
    }
    run(&["judge"]).fails("TOKENS");
}

/// The lines before it have their answers already.
#[test]
fn a_line_that_is_no_hex() {
    let ran = run_with(&["judge", "-"], b"1E0100\n03\nnonsense\n1E0100\n");
    assert_eq!(ran.status, Some(2));
    assert_eq!(ran.text(), "accepted\nrefused 14 at 0\n");
    assert!(ran.err.contains("line 3 "), "{}", ran.err);
    assert_eq!(
        ran.err.lines().count(),
        2,
        "the refusal of line 2, and line 3"
    );
    let ran = run_with(&["judge", "-"], b"\xFF\xFE\n");
    assert_eq!((ran.status, ran.text()), (Some(2), ""));
    assert!(ran.err.contains("line 1 "), "{}", ran.err);
}

#[test]
fn each_line_is_answered_before_the_next_is_asked() {
    let mut child = Command::new(TOOL)
        .args(["judge", "-"])
        .stdin(Stdio::piped())
        .stdout(Stdio::piped())
        .stderr(Stdio::null())
        .spawn()
        .expect("the tool starts");
    let mut stdin = child.stdin.take().expect("a pipe");
    let stdout = BufReader::new(child.stdout.take().expect("a pipe"));
    let (send, answers) = mpsc::channel();
    let reader = thread::spawn(move || {
        for line in stdout.lines() {
            let _ = send.send(line.expect("a line"));
        }
    });
    for (formula, answer) in SETTLED {
        writeln!(stdin, "{formula}").expect("a line is taken");
        let given = answers.recv_timeout(Duration::from_secs(20));
        assert_eq!(given.as_deref(), Ok(answer), "{formula}");
    }
    drop(stdin);
    assert_eq!(child.wait().expect("the tool ends").code(), Some(1));
    reader.join().expect("the reader ends");
}
