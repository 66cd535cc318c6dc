//! profile.

use crate::made::{self, blank, mulrk, number, one, units, Sheet};
use crate::tool::{case, run, run_with, Folder};
use crate::words;

const OUTSIDE: &str = "the stream is outside the profile of a sensor's session";

/// What is said of a stream that is no session, after its meaning.
fn broken(stream: &[u8], offset: usize, what: &str) {
    let line = format!("-: refused 20 at {offset}: {OUTSIDE}: {what}\n");
    run_with(&["profile", "-"], stream).says(1, &line);
}

#[test]
fn sessions_and_others() {
    run(words!["profile", case("ride.in")]).says(
        0,
        &format!(
            "{}: a session, 9 rows, 3 columns\n",
            case("ride.in").display()
        ),
    );
    let said = |name: &str, line: &str, status: i32| {
        let file = case(name);
        let line = format!("{}: {line}\n", file.display());
        run(words!["profile", file]).says(status, &line);
    };
    said("no-cells.in", "a session, 0 rows, 2 columns", 0);
    said(
        "refused-5-encrypted.in",
        "refused 5 at 20: the workbook is encrypted",
        1,
    );
    said(
        "cells.in",
        &format!("refused 20 at 94: {OUTSIDE}: BLANK with row 0, column 0; the first cell"),
        1,
    );
}

/// Each gets its line, whatever the others are.
#[test]
fn several_files() {
    let folder = Folder::new();
    let ride = folder.put("ride", &made::session(&[[1, 2, 3], [4, 5, 6]]));
    let other = folder.put("other", &one(&[], vec![blank(0, 0)]));
    let ran = run(words!["profile", ride, folder.at("none"), other, ride]);
    assert_eq!(ran.status, Some(2));
    let lines: Vec<_> = ran.text().lines().collect();
    assert_eq!(lines.len(), 3);
    assert!(lines[0].ends_with("ride: a session, 2 rows, 3 columns"));
    assert!(lines[1].contains("other: refused 20 at "));
    assert_eq!(lines[0], lines[2]);
    assert!(ran.err.contains("none: "), "{}", ran.err);
    run_with(&["profile", "-", "-"], b"").fails("only once");
}

/// The sheet's records start at 12 more than in the stored cases: the name is wide, and there is a table of strings.
const FIRST: usize = 20 + 12 + 24 + 4 + 20;

#[test]
fn what_breaks_a_session() {
    let pair = |row| [number(row, 0, 5.0), number(row, 1, 6.0)].concat();
    let all = |records: &[Vec<u8>]| one(&[], records.to_vec());
    broken(
        &all(&[pair(0), pair(2)]),
        FIRST + 36,
        "NUMBER with row 2, column 0: 5; before it row 0, column 1: 6",
    );
    broken(
        &all(&[pair(0), blank(1, 0)]),
        FIRST + 36,
        "BLANK with row 1, column 0; before it row 0, column 1: 6",
    );
    broken(
        &all(&[pair(0), number(1, 0, 0.25)]),
        FIRST + 36,
        "NUMBER with row 1, column 0: 0.25; before it row 0, column 1: 6",
    );
    broken(
        &all(&[number(0, 0, -0.0)]),
        FIRST,
        "NUMBER with row 0, column 0: -0; the first cell",
    );
    broken(
        &all(&[number(0, 0, 1e300)]),
        FIRST,
        "NUMBER with row 0, column 0: 1e300; the first cell",
    );
    broken(
        &all(&[number(0, 0, f64::NAN)]),
        FIRST,
        "NUMBER with row 0, column 0: NaN; the first cell",
    );
    // one that is out of range, and columns that no session has
    broken(
        &all(&[mulrk(0, &[1, 65_536])]),
        FIRST,
        "MULRK with row 0, columns 0 to 1: 1, 65536; the first cell",
    );
    broken(
        &all(&[mulrk(0, &[1, 2, 3, 4, 5])]),
        FIRST,
        "MULRK with row 0, columns 0 to 4: 1, 2, 3, …; the first cell",
    );
    broken(
        &all(&[pair(0), number(1, 0, 5.0)]),
        0,
        "row 1, the last, ends with column 0",
    );
}

#[test]
fn sheets_at_fault() {
    let sheet = |kind| Sheet {
        kind,
        name: units("x"),
        records: vec![],
    };
    let book = |sheets: &[Sheet]| made::book(&[], sheets);
    broken(&book(&[]), 0, "there is no sheet");
    broken(
        &book(&[sheet(made::CHART)]),
        0,
        "the sheet is a chart sheet",
    );
    broken(
        &book(&[sheet(made::MACRO)]),
        0,
        "the sheet is a macro sheet",
    );
    broken(
        &book(&[sheet(made::WORKSHEET), sheet(made::CHART)]),
        0,
        "there are 2 sheets",
    );
}

/// Made sessions, right and damaged, in one call.
#[test]
fn made_sessions() {
    let folder = Folder::new();
    let streams: Vec<_> = (0..500).map(streams::session).collect();
    let mut words = vec!["profile".into()];
    for (seed, stream) in streams.iter().enumerate() {
        words.push(folder.put(seed.to_string(), stream).into_os_string());
    }
    let ran = run(&words);
    assert_eq!(ran.status, Some(1));
    let lines: Vec<_> = ran.text().lines().collect();
    assert_eq!(lines.len(), streams.len());
    let mut told = 0;
    for ((line, stream), file) in lines.iter().zip(&streams).zip(&words[1..]) {
        let line = line.strip_prefix(&format!("{}: ", file.display()));
        let line = line.expect("the file");
        match second_reader::profile(stream) {
            Ok(()) => {
                let reading = second_reader::read(stream).expect("a session");
                let sheet = &reading.sheets[0];
                let three = sheet.cells.iter().any(|cell| cell.column == 2);
                let (rows, columns) = (sheet.rows, if three { 3 } else { 2 });
                assert_eq!(line, format!("a session, {rows} rows, {columns} columns"));
            }
            Err(refusal) => {
                let start = format!("refused {} at {}: ", refusal.number, refusal.offset);
                assert!(line.starts_with(&start), "{line}");
                if refusal.number == 20 {
                    let what = line.split_once(&format!("{OUTSIDE}: "));
                    assert!(what.is_some_and(|(_, what)| what.len() > 10), "{line}");
                    told += 1;
                }
            }
        }
    }
    assert!(told > 100, "only {told} were told");
}
