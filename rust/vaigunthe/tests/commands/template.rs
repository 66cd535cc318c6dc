//! A session over its template: every command that takes one, over the stored pair and over made ones.

use crate::made::{book_of, datemode, in_format, number, number_format, units, Sheet, WORKSHEET};
use crate::made::{cell_format, CHART};
use crate::tool::{case, run, run_with, Folder, Ran};
use crate::words;
use second_reader::{PairRefusal, Whose};
use std::ffi::OsString;
use std::fs;
use std::path::Path;
use std::process::Command;

/// A folder with the stored session, `day.bin`, its template, and a session with strings of its own, `own.bin`.
fn folder() -> Folder {
    let folder = Folder::new();
    for (name, sample) in [
        ("day.bin", "day.in"),
        ("template.bin", "template.in"),
        ("own.bin", "cells.in"),
    ] {
        folder.put(name, &fs::read(case(sample)).expect("a stored case"));
    }
    folder
}

/// Runs the tool over files of a folder; words that name one are its paths.
fn run_in(folder: &Folder, call: &str) -> Ran {
    let word = |word: &str| match word.ends_with(".bin") {
        true => folder.at(word).into_os_string(),
        false => OsString::from(word),
    };
    run(&call.split(' ').map(word).collect::<Vec<_>>())
}

#[test]
fn answers_say_whose_they_are() {
    let folder = folder();
    for (call, wanted) in [
        (
            "sheets day.bin",
            "0\tsession\tworksheet\t2\t4\tDay 1\n1\ttemplate\tworksheet\t2\t3\tKey\n",
        ),
        (
            "list day.bin",
            "sheets 2 strings 3 of template cells 7\nsheet 0 rows 2 of session\n0 0 text 0\n0 1 text 1\n\
             1 0 number 407E000000000000\n1 1 number 4051800000000000\nsheet 1 rows 2 of template\n0 0 text 2\n\
             0 1 number 404E000000000000\n1 0 formula text\n",
        ),
        (
            "strings day.bin",
            "template\t0\ttime\ntemplate\t1\tpulse\ntemplate\t2\tresting\n",
        ),
        (
            "strings own.bin",
            "session\t0\tone\nsession\t1\tzwei\nsession\t2\t\ntemplate\t0\ttime\ntemplate\t1\tpulse\ntemplate\t2\tresting\n",
        ),
        ("fetch day.bin 0", "template units 4 0074 0069 006D 0065\n"),
        ("fetch own.bin 0", "session units 3 006F 006E 0065\n"),
        (
            "fetch own.bin 0 --of template",
            "template units 4 0074 0069 006D 0065\n",
        ),
        (
            "fetch own.bin 0 --of=session",
            "session units 3 006F 006E 0065\n",
        ),
        (
            "fetch day.bin --cell Key A2 --room 14",
            "template units 14 0062 0065 0061 0074 0073 0020 0061 0020 006D 0069 006E 0075 0074 0065\n",
        ),
        (
            "export day.bin --csv --no-blanks --places --sheet 1",
            "sheet,sheet_name,row,column,kind,value,format,offset,stream\r\n1,Key,0,0,text,resting,15,174,template\r\n\
             1,Key,0,1,number,60,15,188,template\r\n1,Key,1,0,formula text,beats a minute,15,202,template\r\n",
        ),
        (
            "export day.bin --json --sheet 0",
            "{\"sheets\":[\n{\"number\":0,\"name\":\"Day 1\",\"type\":\"worksheet\",\"rows\":2,\"stream\":\"session\",\"cells\":[\n\
             {\"row\":0,\"column\":0,\"kind\":\"text\",\"value\":\"time\"},\n{\"row\":0,\"column\":1,\"kind\":\"text\",\"value\":\"pulse\"},\n\
             {\"row\":1,\"column\":0,\"kind\":\"number\",\"value\":480},\n{\"row\":1,\"column\":1,\"kind\":\"number\",\"value\":70}\n]}\n]}\n",
        ),
        ("export day.bin --grid --sheet Key", "resting,60\r\nbeats a minute,\r\n"),
    ] {
        run_in(&folder, &format!("{call} --template template.bin")).says(0, wanted);
    }
}

#[test]
fn check_says_what_is_whose() {
    let folder = folder();
    let day = folder.at("day.bin");
    let (day, own) = (day.display(), folder.at("own.bin"));
    run_in(&folder, "check day.bin own.bin --template template.bin").says(
        0,
        &format!(
            "{day}: passed, 2 sheets (1 of the session, 1 of the template), 3 strings (of the template), 7 cells\n\
             {}: passed, 2 sheets (1 of the session, 1 of the template), 3 strings (of the session), 20 cells\n",
            own.display()
        ),
    );
    let refused = run_in(&folder, "check own.bin day.bin --template day.bin");
    assert_eq!(refused.status, Some(1));
    let lines: Vec<_> = refused.text().lines().collect();
    assert_eq!(lines.len(), 2);
    for line in lines {
        assert!(
            line.contains(": refused 9 at 61 of template: a text cell's index"),
            "{line}"
        );
    }
}

/// The line, the stream that the message is about, and nothing on standard output where data is asked for.
#[test]
fn refusals_say_whose_they_are() {
    let folder = folder();
    folder.put("empty.bin", b"");
    for (call, line, file) in [
        (
            "list day.bin --template empty.bin",
            "refused 3 at 0 of template",
            "empty.bin",
        ),
        (
            "list empty.bin --template empty.bin",
            "refused 3 at 0 of template",
            "empty.bin",
        ),
        (
            "list empty.bin --template template.bin",
            "refused 3 at 0 of session",
            "empty.bin",
        ),
        (
            "fetch day.bin 3 --template template.bin",
            "refused 11 at 0",
            "day.bin",
        ),
        (
            "fetch day.bin 1 --room 4 --template template.bin",
            "refused 12 at 0",
            "day.bin",
        ),
        (
            "fetch day.bin --cell 0 A1 --template template.bin",
            "refused 11 at 0",
            "day.bin",
        ),
    ] {
        let ran = run_in(&folder, call);
        ran.refuses(line);
        assert!(ran.err.contains(&format!("{file}: {line}")), "{}", ran.err);
    }
    for call in ["sheets", "strings", "export --csv"] {
        let call = format!("{call} day.bin --template empty.bin");
        run_in(&folder, &call).refuses_data("refused 3 at 0 of template");
    }
    let ran = run_in(
        &folder,
        "export day.bin --csv --sheet 2 --template template.bin",
    );
    ran.refuses_data("refused 11 at 0");
    assert!(
        ran.err.contains("there are 2 sheets, counted from 0"),
        "{}",
        ran.err
    );
    let ran = run_in(
        &folder,
        "export day.bin --csv --sheet Kee --template template.bin",
    );
    assert!(ran.err.contains("did you mean 'Key'?"), "{}", ran.err);
}

#[test]
fn the_session_is_corrected() {
    let folder = folder();
    let [day, template] = ["day.bin", "template.bin"].map(|name| folder.at(name));
    let bytes = |path: &Path| fs::read(path).expect("a file");
    let (before, lent) = (bytes(&day), bytes(&template));
    let asked = |question: &str| {
        let call = format!("correct day.bin {question} --template template.bin --in-place");
        run_in(&folder, &call)
    };
    asked("0 B2 number 72.5").says(0, "granted\n");
    let mut wanted = before.clone();
    wanted[113..121].copy_from_slice(&72.5f64.to_le_bytes());
    assert_eq!(bytes(&day), wanted);
    let text = "correct day.bin 0 A1 text --text resting --template template.bin --in-place";
    run_in(&folder, text).says(0, "granted\n");
    wanted[71] = 2;
    assert_eq!(bytes(&day), wanted);
    for (question, line) in [
        ("Key A1 text 0", "refused 17 at 0"),
        ("1 Z99 number 1", "refused 17 at 0"),
        ("0 A1 text 3", "refused 18 at 0"),
        ("2 A1 text 0", "refused 11 at 0"),
        ("0 Z99 text 0", "refused 11 at 0"),
    ] {
        let ran = asked(question);
        ran.refuses(line);
        let aimed = ran.err.contains("that sheet is the template's");
        assert_eq!(aimed, line.contains("17"), "{}", ran.err);
    }
    let missing = "correct day.bin 0 A1 text --text missing --template template.bin --in-place";
    let ran = run_in(&folder, missing);
    ran.refuses("refused 18 at 0");
    assert!(
        ran.err.contains("no shared string is 'missing'"),
        "{}",
        ran.err
    );
    assert_eq!((bytes(&day), bytes(&template)), (wanted, lent));
}

/// Whatever is asked for, the template's file stays.
#[test]
fn the_template_is_never_written_over() {
    let folder = folder();
    let template = folder.at("template.bin");
    let before = fs::read(&template).expect("the template");
    for call in [
        "correct day.bin 0 B2 number 72.5 --template template.bin --output template.bin",
        "export day.bin --csv --template template.bin --output template.bin",
    ] {
        run_in(&folder, call).fails("it is not written over");
    }
    assert_eq!(fs::read(&template).expect("the template"), before);
    assert_eq!(folder.names(), ["day.bin", "own.bin", "template.bin"]);
}

#[test]
fn standard_input_and_wrong_usage() {
    let folder = folder();
    let [day, template] = ["day.bin", "template.bin"].map(|name| folder.at(name));
    let bytes = fs::read(&template).expect("the template");
    let ran = run_with(words!["fetch", day, "1", "--template", "-"], &bytes);
    ran.says(0, "template units 5 0070 0075 006C 0073 0065\n");
    for command in ["check", "sheets", "list", "strings"] {
        run(&[command, "-", "--template", "-"]).fails("standard input can be read only once");
    }
    run(words!["sheets", day, "--template"]).fails("--template needs a value");
    run(words!["sheets", day, "--template", folder.at("none.bin")]).fails("none.bin");
    for call in [
        "fetch day.bin 1 --of template",
        "fetch day.bin --cell 0 A1 --of template --template template.bin",
    ] {
        run_in(&folder, call).fails("--of is for the index of a session over its --template");
    }
    let both = "fetch day.bin 1 --of both --template template.bin";
    run_in(&folder, both).fails("--of is session or template, not 'both'");
    run(words!["judge", "1E0100", "--template", template]).fails("unknown option '--template'");
}

/// A sheet with one number in format 0.
fn dated(name: &str, kind: u8) -> Sheet {
    Sheet {
        kind,
        name: units(name),
        records: vec![in_format(0, number(0, 0, 38_046.0))],
    }
}

/// The formats of the stream that has the cell: the template counts its days from 1904.
#[test]
fn dates_by_the_formats_of_each_stream() {
    let folder = Folder::new();
    let globals = |system| {
        let format = number_format(164, "yyyy-mm-dd");
        [datemode(system), format, cell_format(164)]
    };
    let session = book_of(&globals(0), &[dated("Day", WORKSHEET)]);
    let sheets = [dated("Hidden", CHART), dated("Plan", WORKSHEET)];
    let template = book_of(&globals(1), &sheets);
    folder.put("session.bin", &session);
    folder.put("template.bin", &template);
    let call = "export session.bin --csv --dates --template template.bin";
    run_in(&folder, call).says(
        0,
        "sheet,sheet_name,row,column,kind,value,serial,stream\r\n0,Day,0,0,number,2004-02-29,38046,session\r\n\
         1,Plan,0,0,number,2008-03-01,38046,template\r\n",
    );
    let folder_of_tables =
        "export session.bin --grid --output-dir tables.bin --template template.bin";
    run_in(&folder, folder_of_tables).says(0, "");
    let mut names: Vec<_> = fs::read_dir(folder.at("tables.bin"))
        .expect("the folder")
        .map(|entry| entry.expect("a file").file_name())
        .collect();
    names.sort();
    assert_eq!(names, ["0-Day.csv", "1-Plan.csv"]);
}

/// A page on the stored session: each sheet says whose it is, and texts come from the right table.
#[test]
fn reported() {
    let folder = folder();
    let page = |call: &str| {
        let ran = run_in(&folder, call);
        assert_eq!((ran.status, &ran.err[..]), (Some(0), ""));
        ran.text().to_string()
    };
    let day = page("report day.bin --template template.bin");
    let digest = Command::new("sha256sum")
        .arg(folder.at("template.bin"))
        .output();
    let digest = String::from_utf8(digest.expect("sha256sum").stdout).expect("hex");
    let template = folder.at("template.bin");
    let bytes = fs::metadata(&template).expect("the template").len();
    for wanted in [
        "<title>day.bin</title>",
        &format!("<th scope=row>Template<td>{}, {bytes} bytes\n", template.display()),
        &format!("<th scope=row>SHA-256 of the template<td class=digest>{}\n", &digest[..64]),
        "<th scope=row>Sheets<td>2 (1 of the session, 1 of the template)\n",
        "<th scope=row>Shared strings<td>3 (of the template)\n",
        "<th scope=row>Cells<td>7\n",
        "<td>no; without its template it is refused 9 at 61: a text cell&#39;s index",
        "<p>Sheets that the session hasn't are the template's; they have a double line at their side.</p>\n",
        "<tr><td>0<td class=t>session<th scope=row class=t><a href=#w1-s0><bdi>Day 1</bdi></a><td class=t>worksheet<td>2<td>4\n",
        "<tr><td>1<td class=t>template<th scope=row class=t><a href=#w1-s1><bdi>Key</bdi></a><td class=t>worksheet<td>2<td>3\n",
        "<section aria-labelledby=w1-s0>\n<h2 id=w1-s0>Sheet 0 of the session: <bdi>Day 1</bdi></h2>",
        "<tr><th scope=row>1<td class=t dir=auto>time</td><td class=t dir=auto>pulse</td>\n<tr><th scope=row>2<td>480<td>70\n",
        "<section class=lent aria-labelledby=w1-s1>\n<h2 id=w1-s1>Sheet 1 of the template: <bdi>Key</bdi></h2>",
        "<tr><th scope=row>1<td class=t dir=auto>resting</td><td>60\n",
        "<i class=f>\u{192} text</i>beats a minute</td>",
    ] {
        assert!(day.contains(wanted), "no {wanted} in {day}");
    }
    // Strings of its own, and a sheet of the template behind it.
    let own = page("report own.bin --template template.bin");
    for wanted in [
        "<th scope=row>Shared strings<td>3 (of the session)\n",
        "Sheet 0 of the session: <bdi>Sheet1</bdi>",
        "Sheet 1 of the template: <bdi>Key</bdi>",
        "<tr><th scope=row>1<td class=t dir=auto>resting</td><td>60\n",
        "<td>no; refused 20 at 94: ",
    ] {
        assert!(own.contains(wanted), "no {wanted} in {own}");
    }
    // Alone nothing is said of streams.
    let alone = page("report own.bin");
    for absent in ["of the session", "<th scope=col>Stream", "class=lent"] {
        assert!(!alone.contains(absent), "{absent} in {alone}");
    }
    // Several sessions over one template.
    let both = page("report day.bin own.bin --template template.bin");
    assert_eq!(
        both.matches("Sheet 1 of the template: <bdi>Key</bdi>")
            .count(),
        2
    );
    assert!(
        both.contains("day.bin</a><td class=t>passed<td>125<td>2<td>3<td>7\n"),
        "{both}"
    );
}

/// A sensor's session stays one, with its picture, whatever the template has.
#[test]
fn a_reported_ride() {
    let folder = folder();
    folder.put("ride.bin", &fs::read(case("ride.in")).expect("an input"));
    let ran = run_in(&folder, "report ride.bin --template template.bin");
    let page = ran.text();
    assert!(page.contains("<td>yes, 9 rows, 3 columns") && page.contains("<svg"));
    assert!(page.contains("Sheet 1 of the template: <bdi>Key</bdi>"));
}

/// Whose a refusal is stands on the page, with the bytes of that stream; on standard error the template's is said once.
#[test]
fn reported_refusals() {
    let folder = folder();
    folder.put("empty.bin", b"");
    folder.put(
        "bad.bin",
        &fs::read(case("refused-5-encrypted.in")).expect("an input"),
    );
    let ran = run_in(&folder, "report bad.bin day.bin --template template.bin");
    assert_eq!(ran.status, Some(1));
    assert!(ran
        .err
        .ends_with("bad.bin: refused 5 at 20 of session: the workbook is encrypted\n"));
    assert_eq!(ran.err.lines().count(), 1);
    for wanted in [
        "<td class=t>refused 5 at 20 of session: the workbook is encrypted<td>30<td>–",
        "<strong>Refused 5 at 20 of the session</strong>: the workbook is encrypted.",
        "The marked byte, 2F, is byte 0x14 of the session. Read as the header",
        "<th scope=row>Template<td>",
        "Sheet 0 of the session: <bdi>Day 1</bdi>",
    ] {
        assert!(ran.text().contains(wanted), "no {wanted} in {}", ran.text());
    }
    // The template's come first, with its own bytes.
    let ran = run_in(&folder, "report bad.bin own.bin --template day.bin");
    assert_eq!(ran.status, Some(1));
    let said = "day.bin: refused 9 at 61 of template: a text cell's index";
    assert!(
        ran.err.lines().count() == 1 && ran.err.contains(said),
        "{}",
        ran.err
    );
    let page = ran.text();
    assert_eq!(
        page.matches("<strong>Refused 9 at 61 of the template</strong>")
            .count(),
        2
    );
    assert!(
        page.contains("The marked byte, FD, is byte 0x3D of the template. "),
        "{page}"
    );
    assert_eq!(page.matches("<mark>FD</mark>").count(), 2);
    let ran = run_in(&folder, "report day.bin --template empty.bin");
    assert!(ran.text().contains("The template has no byte.") && ran.status == Some(1));
    assert!(
        ran.err.contains("empty.bin: refused 3 at 0 of template"),
        "{}",
        ran.err
    );
    // Other files are told what they are.
    let compound = [
        &[0xD0, 0xCF, 0x11, 0xE0, 0xA1, 0xB1, 0x1A, 0xE1][..],
        &[0; 600],
    ]
    .concat();
    folder.put("whole.bin", &compound);
    let ran = run_in(&folder, "report day.bin own.bin --template whole.bin");
    assert_eq!(
        ran.err.matches("this is a whole .xls file").count(),
        1,
        "{}",
        ran.err
    );
    assert_eq!(ran.text().matches("this is a whole .xls file").count(), 2);
}

#[test]
fn reports_that_are_wrong_usage() {
    let folder = folder();
    let both = "report day.bin --template template.bin --against own.bin";
    run_in(&folder, both).fails("--against doesn't go with --template");
    for call in [
        "report - --template -",
        "report day.bin --template - --journal -",
        "report day.bin --against - --journal -",
    ] {
        run_in(&folder, call).fails("standard input can be read only once");
    }
    run_in(&folder, "report day.bin --template none.bin").fails("none.bin");
    let before = fs::read(folder.at("template.bin")).expect("the template");
    let over = "report day.bin --template template.bin --output template.bin";
    run_in(&folder, over).fails("not written over");
    assert_eq!(fs::read(folder.at("template.bin")).expect("it"), before);
    let call = words!["report", folder.at("day.bin"), "--template", "-"];
    let ran = run_with(call, &before);
    assert!(
        ran.status == Some(0)
            && ran
                .text()
                .contains("<th scope=row>Template<td>standard input, ")
    );
}

/// Dates go by the formats of the stream that has the cell, and each stream is told of by itself.
#[test]
fn reported_dates() {
    let folder = Folder::new();
    let format = || [number_format(164, "yyyy-mm-dd"), cell_format(164)];
    let session = book_of(&format(), &[dated("Day", WORKSHEET)]);
    let [number_format, cell_format] = format();
    let globals = [datemode(1), number_format, cell_format];
    let sheets = [dated("Hidden", WORKSHEET), dated("Plan", WORKSHEET)];
    folder.put("session.bin", &session);
    folder.put("template.bin", &book_of(&globals, &sheets));
    let ran = run_in(&folder, "report session.bin --template template.bin");
    let page = ran.text();
    for wanted in [
        "<p class=note>Dates of the session: there is no DATEMODE record: days are counted from 1900.</p>",
        "<td class=d title=\"serial 38046\">2004-02-29\n",
        "<td class=d title=\"serial 38046\">2008-03-01\n",
    ] {
        assert!(page.contains(wanted), "no {wanted} in {page}");
    }
    assert!(!page.contains("Dates of the template") && !page.contains("Hidden"));
}

/// Made pairs: as many sheets and cells on the page as the second reader has, or its refusal.
#[test]
fn reported_made_pairs() {
    let folder = Folder::new();
    let mut passed = 0;
    for seed in 0..60 {
        let pair = streams::pair(seed);
        folder.put("template.bin", &pair.template);
        folder.put("session.bin", &pair.session);
        let ran = run_in(&folder, "report session.bin --full --template template.bin");
        let page = ran.text();
        match second_reader::pair_check(&pair.template, &pair.session) {
            Err(PairRefusal::Stream(whose, refusal)) => {
                let whose = match whose {
                    Whose::Session => "session",
                    Whose::Template => "template",
                };
                let told = page.split("<strong>").nth(1).expect("a refusal");
                let told = told
                    .split("</strong>")
                    .next()
                    .expect("its end")
                    .replace(',', "");
                let (number, offset) = (refusal.number, refusal.offset);
                assert_eq!(told, format!("Refused {number} at {offset} of the {whose}"));
                assert_eq!(ran.status, Some(1));
            }
            Err(refused) => panic!("seed {seed}: {refused:?}"),
            Ok(sheets) => {
                passed += 1;
                assert_eq!(ran.status, Some(0));
                let mut cells = 0;
                for number in 0..sheets as u32 {
                    let whose =
                        second_reader::pair_cells(&pair.template, &pair.session, number, |_| {
                            cells += 1
                        });
                    let whose = match whose.expect("a sheet") {
                        Whose::Session => "session",
                        Whose::Template => "template",
                    };
                    let heading = format!(">Sheet {number} of the {whose}: <bdi>");
                    assert!(page.contains(&heading), "seed {seed}: {heading}");
                }
                let told = page.split("<th scope=row>Cells<td>").nth(1).expect("cells");
                let told = told.lines().next().expect("a number").replace(',', "");
                assert_eq!(told, cells.to_string(), "seed {seed}");
            }
        }
    }
    assert!(passed > 15, "{passed}");
}

/// The lines of made pairs, with what the second reader says of each.
#[test]
fn made_pairs() {
    let folder = Folder::new();
    let (mut passed, mut lines) = (0, 0);
    for seed in 0..60 {
        let pair = streams::pair(seed);
        let template = folder.put("template.bin", &pair.template);
        let session = folder.put("session.bin", &pair.session);
        let ran = run(words!["list", session, "--template", template]);
        match second_reader::pair_check(&pair.template, &pair.session) {
            Err(PairRefusal::Stream(whose, refusal)) => {
                let whose = match whose {
                    Whose::Session => "session",
                    Whose::Template => "template",
                };
                let (number, offset) = (refusal.number, refusal.offset);
                ran.refuses(&format!("refused {number} at {offset} of {whose}"));
            }
            Err(refused) => panic!("seed {seed}: {refused:?}"),
            Ok(sheets) => {
                passed += 1;
                assert_eq!(ran.status, Some(0));
                let text = ran.text();
                assert!(
                    text.starts_with(&format!("sheets {sheets} strings ")),
                    "{text}"
                );
                for number in 0..sheets as u32 {
                    let sheet = second_reader::pair_sheet(&pair.template, &pair.session, number);
                    let sheet = sheet.expect("a sheet");
                    let whose = match sheet.whose {
                        Whose::Session => "session",
                        Whose::Template => "template",
                    };
                    let line = format!("\nsheet {number} rows {} of {whose}\n", sheet.rows);
                    assert!(text.contains(&line), "seed {seed}: {line}");
                    lines += 1;
                }
            }
        }
    }
    assert!(passed > 15 && lines > 30, "{passed} {lines}");
}
