//! compare: its lines, CSV and JSON, statuses and colours. What they must say is written down by hand after documents 01 and 02, or taken from the second reader.

use crate::made::{self, blank, error, number, one, text, units, Sheet, CHART, WORKSHEET};
use crate::tool::{case, finish, run, run_with, Folder, Ran, TOOL};
use crate::words;
use second_reader::Side;
use std::ffi::{OsStr, OsString};
use std::fs;
use std::path::Path;
use std::process::Command;

/// Two files, and what the tool says of them.
struct Revisions {
    folder: Folder,
}

impl Revisions {
    fn of(old: &[u8], new: &[u8]) -> Self {
        let folder = Folder::new();
        folder.put("old", old);
        folder.put("new", new);
        Revisions { folder }
    }

    fn compare<W: AsRef<OsStr>>(&self, words: &[W]) -> Ran {
        let mut tool = Command::new(TOOL);
        tool.args(["compare", "old", "new"]).args(words);
        tool.env_remove("NO_COLOR");
        finish(tool.current_dir(self.folder.path()), b"")
    }

    fn says(&self, lines: &str) {
        self.compare::<&str>(&[]).says(0, lines);
    }
}

/// A formula without tokens; its text follows as a STRING where it has one.
fn formula(row: u16, column: u16, result: [u8; 8], text: Option<&str>) -> Vec<u8> {
    let head = [row, column, 15].map(u16::to_le_bytes).concat();
    let mut records = made::record(0x0006, &[&head[..], &result, &[0; 8]].concat());
    if let Some(text) = text {
        let size = (text.len() as u16).to_le_bytes();
        let body = [&size[..], &[0], text.as_bytes()].concat();
        records.extend(made::record(0x0207, &body));
    }
    records
}

const TEXT: [u8; 8] = [0, 0, 0, 0, 0, 0, 0xFF, 0xFF];
const TRUE: [u8; 8] = [1, 0, 1, 0, 0, 0, 0xFF, 0xFF];
const DIV_0: [u8; 8] = [2, 0, 7, 0, 0, 0, 0xFF, 0xFF];
const EMPTY: [u8; 8] = [3, 0, 0, 0, 0, 0, 0xFF, 0xFF];

fn truth(row: u16, column: u16, truth: u8) -> Vec<u8> {
    let head = [row, column, 15].map(u16::to_le_bytes).concat();
    made::record(0x0205, &[&head[..], &[truth, 0]].concat())
}

/// Every kind of value, once on each side.
fn every_kind() -> Revisions {
    let strings = [units("one"), units("a \"b\"\\\n"), vec![0xD800]];
    let old = one(
        &strings,
        vec![
            number(0, 0, 72.5),
            number(0, 1, 0.0),
            blank(1, 0),
            text(1, 1, 0),
            text(1, 2, 0),
            truth(2, 0, 0),
            error(2, 1, 0x2A),
            number(3, 0, 7.0),
            formula(3, 1, TEXT, Some("x")),
            formula(3, 2, EMPTY, None),
            formula(3, 3, TRUE, None),
            number(11, 1, 72.5),
            number(65_535, 255, 1.0),
        ],
    );
    let new = one(
        &strings,
        vec![
            number(0, 0, 75.0),
            number(0, 1, -0.0),
            number(0, 2, f64::INFINITY),
            text(1, 1, 1),
            text(1, 2, 2),
            error(2, 0, 0),
            error(2, 1, 0x17),
            formula(3, 0, 7f64.to_le_bytes(), None),
            formula(3, 1, TEXT, Some("")),
            formula(3, 2, TEXT, Some("")),
            formula(3, 3, DIV_0, None),
            number(11, 1, 72.5),
        ],
    );
    Revisions::of(&old, &new)
}

#[test]
fn lines_for_people() {
    every_kind().says(
        "Sheet1!A1  72.5 -> 75\n\
         Sheet1!B1  0 -> -0.0\n\
         Sheet1!C1  (absent) -> bits:7FF0000000000000\n\
         Sheet1!A2  (blank) -> (absent)\n\
         Sheet1!B2  \"one\" -> \"a \\\"b\\\"\\\\\\n\"\n\
         Sheet1!C2  \"one\" -> \"\\u{D800}\"\n\
         Sheet1!A3  false -> #NULL!\n\
         Sheet1!B3  #N/A -> #REF!\n\
         Sheet1!A4  7 -> =7\n\
         Sheet1!B4  =\"x\" -> =\"\"\n\
         Sheet1!C4  =(empty) -> =\"\"\n\
         Sheet1!D4  =true -> =#DIV/0!\n\
         Sheet1!IV65536  1 -> (absent)\n",
    );
}

#[test]
fn plain_lines() {
    every_kind().compare(&["--lines"]).says(
        0,
        "unequal 0 0 0\nunequal 0 0 1\nsecond 0 0 2\nfirst 0 1 0\nunequal 0 1 1\nunequal 0 1 2\n\
         unequal 0 2 0\nunequal 0 2 1\nunequal 0 3 0\nunequal 0 3 1\nunequal 0 3 2\nunequal 0 3 3\n\
         first 0 65535 255\n",
    );
}

#[test]
fn csv() {
    let header = "sheet,sheet_name,row,column,difference,old_kind,old,new_kind,new\r\n";
    let wanted = [
        header,
        "0,Sheet1,0,0,unequal,number,72.5,number,75\r\n",
        "0,Sheet1,0,1,unequal,number,0,number,-0.0\r\n",
        "0,Sheet1,0,2,second,,,number,bits:7FF0000000000000\r\n",
        "0,Sheet1,1,0,first,blank,,,\r\n",
        "0,Sheet1,1,1,unequal,text,one,text,\"a \"\"b\"\"\\\n\"\r\n",
        "0,Sheet1,1,2,unequal,text,one,text,\\u{D800}\r\n",
        "0,Sheet1,2,0,unequal,truth,false,error,#NULL!\r\n",
        "0,Sheet1,2,1,unequal,error,#N/A,error,#REF!\r\n",
        "0,Sheet1,3,0,unequal,number,7,formula number,7\r\n",
        "0,Sheet1,3,1,unequal,formula text,x,formula text,\r\n",
        "0,Sheet1,3,2,unequal,formula empty,,formula text,\r\n",
        "0,Sheet1,3,3,unequal,formula truth,true,formula error,#DIV/0!\r\n",
        "0,Sheet1,65535,255,first,number,1,,\r\n",
    ];
    let ran = every_kind().compare(&["--csv"]);
    ran.says(0, &wanted.concat());
    let same = case("cells.in");
    run(words!["compare", same, same, "--csv"]).says(0, header);
}

#[test]
fn json() {
    let ran = every_kind().compare(&["--json"]);
    let lines: Vec<_> = ran.text().lines().collect();
    assert_eq!((ran.status, &ran.err[..], lines.len()), (Some(0), "", 15));
    assert_eq!(lines[0], "{\"differences\":[");
    for (line, rest) in [
        (
            lines[1],
            "\"row\":0,\"column\":0,\"difference\":\"unequal\",\"old\":{\"kind\":\"number\",\"value\":72.5},\"new\":{\"kind\":\"number\",\"value\":75}},",
        ),
        (
            lines[3],
            "\"row\":0,\"column\":2,\"difference\":\"second\",\"old\":null,\"new\":{\"kind\":\"number\",\"value\":\"bits:7FF0000000000000\"}},",
        ),
        (
            lines[4],
            "\"row\":1,\"column\":0,\"difference\":\"first\",\"old\":{\"kind\":\"blank\",\"value\":null},\"new\":null},",
        ),
        (
            lines[6],
            "\"row\":1,\"column\":2,\"difference\":\"unequal\",\"old\":{\"kind\":\"text\",\"value\":\"one\"},\"new\":{\"kind\":\"text\",\"value\":\"\\uD800\"}},",
        ),
        (
            lines[13],
            "\"row\":65535,\"column\":255,\"difference\":\"first\",\"old\":{\"kind\":\"number\",\"value\":1},\"new\":null}",
        ),
    ] {
        assert_eq!(line, format!("{{\"sheet\":0,\"sheet_name\":\"Sheet1\",{rest}"));
    }
    assert_eq!(lines[14], "]}");
    let same = case("cells.in");
    run(words!["compare", same, same, "--json"]).says(0, "{\"differences\":[\n]}\n");
}

fn sheet(kind: u8, name: &str, records: Vec<Vec<u8>>) -> Sheet {
    Sheet {
        kind,
        name: units(name),
        records,
    }
}

/// Names before cells, sheets by their numbers, a sheet that one of them hasn't, and names that a formula puts in quotes.
#[test]
fn sheets_and_names() {
    let old = made::book(
        &[],
        &[
            sheet(WORKSHEET, "one", vec![number(0, 0, 1.0)]),
            sheet(WORKSHEET, "it's", vec![number(0, 0, 1.0)]),
            sheet(WORKSHEET, "2003", vec![number(4, 2, 9.0)]),
            sheet(WORKSHEET, "none", vec![]),
        ],
    );
    let new = made::book(
        &[],
        &[
            sheet(WORKSHEET, "two \"2\"", vec![number(0, 0, 2.0)]),
            sheet(CHART, "it's", vec![]),
        ],
    );
    let pair = Revisions::of(&old, &new);
    pair.says(
        "sheet 0  \"one\" -> \"two \\\"2\\\"\"\n\
         'two \"2\"'!A1  1 -> 2\n\
         'it''s'!A1  1 -> (absent)\n\
         '2003'!C5  9 -> (absent)\n",
    );
    pair.compare(&["--lines"])
        .says(0, "name 0\nunequal 0 0 0\nfirst 1 0 0\nfirst 2 4 2\n");
    pair.compare(&["--csv"]).says(
        0,
        "sheet,sheet_name,row,column,difference,old_kind,old,new_kind,new\r\n\
         0,\"two \"\"2\"\"\",,,name,,one,,\"two \"\"2\"\"\"\r\n\
         0,\"two \"\"2\"\"\",0,0,unequal,number,1,number,2\r\n\
         1,it's,0,0,first,number,1,,\r\n\
         2,2003,4,2,first,number,9,,\r\n",
    );
    let ran = pair.compare(&["--json"]);
    assert_eq!(
        ran.text().lines().nth(1),
        Some("{\"sheet\":0,\"sheet_name\":\"two \\\"2\\\"\",\"difference\":\"name\",\"old\":\"one\",\"new\":\"two \\\"2\\\"\"},")
    );
}

#[test]
fn the_same() {
    let same = case("cells.in");
    run(words!["compare", same, same]).says(0, "no differences\n");
    run(words!["compare", same, same, "--lines"]).says(0, "same\n");
    run(words!["compare", same, same, "--exit-code"]).says(0, "no differences\n");
}

/// 1 where they differ, as git has it, and then 3 for a refusal; a file that can't be read stays 2.
#[test]
fn the_status() {
    let pair = every_kind();
    for form in [&[][..], &["--lines"], &["--csv"], &["--json"]] {
        let told = [form, &["--exit-code"]].concat();
        let (plain, told) = (pair.compare(form), pair.compare(&told));
        assert_eq!((plain.status, &plain.err[..]), (Some(0), ""), "{form:?}");
        assert_eq!((told.status, &told.err[..]), (Some(1), ""), "{form:?}");
        assert_eq!(told.out, plain.out);
    }
    let (good, bad) = (case("cells.in"), case("refused-5-encrypted.in"));
    for (words, status) in [
        (words![good, bad][..].to_vec(), 1),
        (words![good, bad, "--exit-code"][..].to_vec(), 3),
        (
            words![good, case("no-such-file"), "--exit-code"][..].to_vec(),
            2,
        ),
    ] {
        let words: Vec<OsString> = [vec!["compare".into()], words].concat();
        assert_eq!(run(&words).status, Some(status), "{words:?}");
    }
}

/// The first stream's refusal by the check, then the second's, then 16 of either, each with its file.
#[test]
fn refusals() {
    let (good, bad) = (case("cells.in"), case("refused-5-encrypted.in"));
    let (twice, worse) = (case("repeated-address.in"), case("refused-3-no-globals.in"));
    for (old, new, name, line, side) in [
        (&bad, &worse, &bad, "refused 5 at 20", "first"),
        (&worse, &bad, &worse, "refused 3 at 0", "first"),
        (&twice, &bad, &bad, "refused 5 at 20", "second"),
        (&twice, &good, &twice, "refused 16 at 0", "first"),
        (&good, &twice, &twice, "refused 16 at 0", "second"),
        (&twice, &twice, &twice, "refused 16 at 0", "first"),
    ] {
        let start = format!("vaigunthe: {}: {line}: ", name.display());
        for form in ["--csv", "--json", "--color"] {
            let ran = run(words!["compare", old, new, form]);
            ran.refuses_data(line);
            assert!(ran.err.starts_with(&start), "{}", ran.err);
        }
        let ran = run(words!["compare", old, new, "--lines"]);
        assert_eq!(ran.text(), format!("{line} of {side}\n"));
        assert!(ran.err.starts_with(&start), "{}", ran.err);
        assert_eq!(ran.status, Some(1));
        let told = line.starts_with("refused 16");
        assert_eq!(
            ran.err.contains("H8 of sheet 0, Sheet1, has two cells"),
            told,
            "{}",
            ran.err
        );
    }
    run_with(&["compare", "-", "-"], b"").fails("only once");
    run(words!["compare", good]).fails("NEW is missing");
    run(words!["compare", good, good, good]).fails("one too many");
    for two in [
        ["--csv", "--json"],
        ["--lines", "--csv"],
        ["--lines", "--json"],
    ] {
        run(words!["compare", good, good, two[0], two[1]]).fails("one is enough");
    }
}

#[test]
fn standard_input() {
    let stream = fs::read(case("cells.in")).expect("an input");
    let words = words!["compare", "-", case("cells.in")];
    run_with(words, &stream).says(0, "no differences\n");
    let words = words!["compare", case("cells.in"), "-", "--lines"];
    let ran = run_with(words, b"");
    assert_eq!(ran.text(), "refused 3 at 0 of second\n");
    assert!(ran.err.contains("standard input: refused 3 at 0"));
}

const COLOURED: &str = "Sheet1!A1  \x1b[31m1\x1b[m -> \x1b[32m2\x1b[m\n";
const PLAIN: &str = "Sheet1!A1  1 -> 2\n";

fn one_change() -> Revisions {
    let of = |value: f64| one(&[], vec![number(0, 0, value)]);
    Revisions::of(&of(1.0), &of(2.0))
}

#[test]
fn colours_by_option() {
    let pair = one_change();
    for (word, wanted) in [
        ("--color", COLOURED),
        ("--color=always", COLOURED),
        ("--color=auto", PLAIN),
        ("--color=never", PLAIN),
    ] {
        pair.compare(&[word]).says(0, wanted);
    }
    pair.compare(&["--color", "--lines"])
        .says(0, "unequal 0 0 0\n");
    for wrong in ["--color=sometimes", "--color=Always"] {
        pair.compare(&[wrong])
            .fails("--color is always, auto or never");
    }
    pair.compare(&["--color", "never"])
        .fails("'never' is one too many");
}

/// On a terminal, where it knows the sequences and NO_COLOR is not set; an option counts for more than either.
#[test]
fn colours_on_a_terminal() {
    let pair = one_change();
    for (word, term, no_color, wanted) in [
        ("", "xterm", None, true),
        ("--color=auto", "xterm", None, true),
        ("", "xterm", Some(""), true),
        ("", "xterm", Some("1"), false),
        ("--color=auto", "xterm", Some("1"), false),
        ("--color=always", "xterm", Some("1"), true),
        ("--color=never", "xterm", None, false),
        ("", "dumb", None, false),
        ("", "", None, false),
        ("--lines", "xterm", None, false),
    ] {
        let call = format!("'{TOOL}' compare old new {word}");
        let mut terminal = Command::new("script");
        terminal
            .args(["-qec", &call, "/dev/null"])
            .env("TERM", term);
        match no_color {
            Some(value) => terminal.env("NO_COLOR", value),
            None => terminal.env_remove("NO_COLOR"),
        };
        let ran = finish(terminal.current_dir(pair.folder.path()), b"");
        assert_eq!(ran.status, Some(0), "{}", ran.text());
        let coloured = ran.text().contains('\x1b');
        assert_eq!(coloured, wanted, "{word}, {term}, {no_color:?}");
    }
}

/// More differences of one sheet than one listing is asked for, in reverse order of their rows.
#[test]
fn many_differences() {
    let rows = 1_100;
    let record = |row: u16| {
        let mut body = [row, 0].map(u16::to_le_bytes).concat();
        body.extend([0; 2 * 256]);
        body.extend(255u16.to_le_bytes());
        made::record(0x00BE, &body)
    };
    let old = one(&[], vec![]);
    let new = one(&[], (0..rows).map(record).collect());
    let ran = Revisions::of(&old, &new).compare::<&str>(&[]);
    let lines: Vec<_> = ran.text().lines().collect();
    assert_eq!(lines.len(), 256 * usize::from(rows));
    assert_eq!(lines[0], "Sheet1!A1  (absent) -> (blank)");
    assert_eq!(lines[256], "Sheet1!A2  (absent) -> (blank)");
    let last = format!("Sheet1!IV{rows}  (absent) -> (blank)");
    assert_eq!(lines.last(), Some(&&last[..]));
}

/// report --against: a table of the differences, and frames in the grid.
#[test]
fn reported() {
    let two = every_kind();
    let folder = &two.folder;
    let (old, new) = (folder.at("old"), folder.at("new"));
    let page = run(words!["report", new, "--against", old]);
    assert_eq!((page.status, &page.err[..]), (Some(0), ""));
    let text = page.text();
    let digest = Command::new("sha256sum").arg(&old).output();
    let digest = String::from_utf8(digest.expect("sha256sum").stdout).expect("hex");
    for part in [
        "<h2>Differences from the old revision</h2>\n<p>13 differences.",
        "<tr><td><a href=#w1-s0>0</a><th scope=row>A1<td class=t dir=auto>72.5</td><td class=t dir=auto>75</td>",
        "<tr><td><a href=#w1-s0>0</a><th scope=row>C1<td class=t dir=auto><i>no cell</i></td>",
        "<th scope=row>A2<td class=t dir=auto>(blank)</td><td class=t dir=auto><i>no cell</i></td>",
        "<th scope=row>A4<td class=t dir=auto>7</td><td class=t dir=auto>=7</td>",
        "<td class=differs>75<small class=was dir=ltr>differs, was <bdi>72.5</bdi></small>",
        &format!("<th scope=row>Old revision<td>{}, ", old.display()),
        &format!("<th scope=row>SHA-256 of the old revision<td class=digest>{}\n", &digest[..64]),
    ] {
        assert!(text.contains(part), "{part}\n{text}");
    }
    assert!(!text.contains("<h2>Corrections</h2>"));
    let page = run(words!["report", new, "--against", new]);
    let none = "<h2>Differences from the old revision</h2>\n<p>There is none.</p>\n";
    assert!(page.status == Some(0) && page.text().contains(none));
    assert!(!run(words!["report", new]).text().contains(none));
    // A refusal of the old one, and 16 of either, is told and makes no page.
    let (bad, twice) = (case("refused-5-encrypted.in"), case("repeated-address.in"));
    let against = |file: &Path, old: &Path| run(words!["report", file, "--against", old]);
    against(&new, &bad).refuses_data("refused 5 at 20");
    against(&new, &twice).refuses_data("refused 16 at 0");
    against(&twice, &new).refuses_data("refused 16 at 0");
    // A workbook that is refused has its page all the same.
    let page = against(&bad, &old);
    assert_eq!(page.status, Some(1));
    assert!(page.text().contains("Refused 5 at 20"), "{}", page.text());
    run(words!["report", new, new, "--against", old]).fails("--against goes with one file");
    run(words!["report", "-", "--against", old]).fails("--against goes with one file");
    run(words!["report", new, "--against", folder.at("none")]).fails("none");
    // What is read is not written over.
    let before = fs::read(&old).expect("a file");
    run(words!["report", new, "--against", old, "--output", old]).fails("not written over");
    assert_eq!(fs::read(&old).expect("a file"), before);
}

/// Names that differ, sheets that one of them hasn't, and marks where the new one has a chart.
#[test]
fn reported_sheets() {
    let gone = |name| sheet(WORKSHEET, name, vec![number(0, 0, 1.0)]);
    let old = [
        gone("<one>"),
        gone("x"),
        gone("it's"),
        sheet(WORKSHEET, "none", vec![]),
    ];
    let new = [gone("two"), sheet(CHART, "x", vec![])];
    let (old, new) = (made::book(&[], &old), made::book(&[], &new));
    let two = Revisions::of(&old, &new);
    let report = |new: &str, old: &str| {
        let ran = run(words![
            "report",
            two.folder.at(new),
            "--against",
            two.folder.at(old)
        ]);
        assert_eq!((ran.status, &ran.err[..]), (Some(0), ""));
        ran.text().to_string()
    };
    let page = report("new", "old");
    for part in [
        "<p>3 differences.",
        "<p>2 sheets are only in the old revision, by number and name:</p>\n<ul>\n<li>2: <bdi>it&#39;s</bdi>\n<li>3: <bdi>none</bdi>\n</ul>\n",
        "<tr><td><a href=#w1-s0>0</a><th scope=row>its name<td class=t dir=auto>&lt;one&gt;</td><td class=t dir=auto>two</td>\n",
        "<tr><td><a href=#w1-s1>1</a><th scope=row>A1<td class=t dir=auto>1</td><td class=t dir=auto><i>no cell</i></td>\n",
        "<tr><td>2<th scope=row>A1<td class=t dir=auto>1</td><td class=t dir=auto><i>no cell</i></td>\n",
        "<bdi>two</bdi></h2>\n<p>Its name <span class=differs>differs</span>, was <bdi>&lt;one&gt;</bdi></p>\n",
        "<p>A chart sheet, which lists no cells.</p>\n<div class=\"scroll grid-box\"",
        "<tr><th scope=row>1<td class=\"k differs\"><i>no cell</i><small class=was dir=ltr>differs, was <bdi>1</bdi></small>",
    ] {
        assert!(page.contains(part), "{part}\n{page}");
    }
    let page = report("old", "new");
    let part = "<p>2 sheets are only in this one, by number and name:</p>\n<ul>\n<li>2: ";
    assert!(page.contains(part), "{page}");
    assert!(!page.contains("only in the old revision"));
}

/// Many differences, and long texts in them: a page of a bounded length.
#[test]
fn reported_many() {
    let rows = 5_000;
    let cells = |value: f64| (0..rows).map(move |row| number(row, 0, value));
    let two = Revisions::of(
        &one(&[], cells(1.0).collect()),
        &one(&[], cells(2.0).collect()),
    );
    let report = |two: &Revisions, options: &[OsString]| {
        let (new, old) = (two.folder.at("new"), two.folder.at("old"));
        let words = [words!["report", new, "--against", old], options].concat();
        let ran = run(&words);
        assert_eq!(ran.status, Some(0), "{}", ran.err);
        (ran.text().to_string(), ran.err)
    };
    let (page, _) = report(&two, &[]);
    for part in [
        "<p>5,000 differences.",
        "<p class=note>4,000 more are not shown here.</p>",
        // the first rows, and so many marked ones
        "<tr><th scope=row>1100<td class=differs>2<small",
        "<p class=note>3,900 of 5,000 rows with cells are not shown here",
    ] {
        assert!(page.contains(part), "{part}");
    }
    assert!(!page.contains("<tr><th scope=row>1101<td") && page.len() < 400_000);
    let (page, _) = report(&two, words!["--full"]);
    assert!(page.contains("<tr><th scope=row>5000<td class=differs>2<small"));
    assert!(page.contains("<th scope=row>A5000<td") && !page.contains("not shown"));

    // A value has 9,998 characters as compare writes it, a mark two of them: 837 marks have sixteen million. Of each value a thousand are shown, of all a million.
    let long = |first: &str| units(&(first.to_string() + &"\u{1}".repeat(1_999)));
    let strings = [long("a"), long("b")];
    let texts = |index: u32| (0..rows).map(move |row| text(row, 0, index)).collect();
    let two = Revisions::of(&one(&strings, texts(0)), &one(&strings, texts(1)));
    let (page, _) = report(&two, &[]);
    for part in [
        "<p>5,000 differences.",
        "<p class=note>4,500 more are not shown here; 4,163 of all aren't framed in the grids either.</p>",
    ] {
        assert!(page.contains(part), "{part}");
    }
    assert!(page.len() < 16_000_000, "{} bytes", page.len());
}

/// Whether the same stands before and after the arrow, wherever the values begin: a name or a text may have blanks and arrows in it.
fn shows_one_value_twice(line: &str) -> bool {
    line.match_indices("  ").any(|(at, _)| {
        let values = &line[at + 2..];
        let mut arrows = values.match_indices(" -> ");
        arrows.any(|(arrow, between)| values[..arrow] == values[arrow + between.len()..])
    })
}

/// Made revisions, each line after the second reader; and for people as many lines, in which both values never look the same.
#[test]
fn made_revisions() {
    let mut met = [0; 3];
    for seed in 0..150 {
        let (old, new) = streams::revisions(seed);
        let pair = Revisions::of(&old, &new);
        let ran = pair.compare(&["--lines"]);
        match second_reader::compare(&old, &new) {
            Err(refused) => {
                met[0] += 1;
                let side = match refused.side {
                    Side::First => "first",
                    Side::Second => "second",
                };
                let (number, offset) = (refused.refusal.number, refused.refusal.offset);
                assert_eq!(
                    ran.text(),
                    format!("refused {number} at {offset} of {side}\n")
                );
            }
            Ok(differences) if differences.is_empty() => {
                met[1] += 1;
                ran.says(0, "same\n");
            }
            Ok(differences) => {
                met[2] += 1;
                let lines: Vec<_> = differences.iter().map(ToString::to_string).collect();
                ran.says(0, &format!("{}\n", lines.join("\n")));
                let people = pair.compare::<&str>(&[]);
                assert_eq!(people.text().lines().count(), lines.len(), "seed {seed}");
                for line in people.text().lines() {
                    assert!(!shows_one_value_twice(line), "seed {seed}: {line}");
                }
            }
        }
    }
    assert!(met.iter().all(|count| *count > 10), "{met:?}");
}
