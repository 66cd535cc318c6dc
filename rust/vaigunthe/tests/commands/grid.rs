//! export --grid: sheets as tables, and the files that they go to.

use crate::correct::state;
use crate::export::{assert_field, shown_at, Shown};
use crate::made::{self, units, Sheet};
use crate::parse::csv;
use crate::tool::{case, finish, run, run_with, Folder, TOOL};
use crate::words;
use second_reader::{Reading, SheetType, Value};
use std::collections::BTreeMap;
use std::fs;
use std::os::unix::fs::symlink;
use std::process::Command;

/// What a grid must have: the last listed of each address, without blanks; each by its place in the list.
fn expected(reading: &Reading, number: usize) -> BTreeMap<(usize, usize), usize> {
    let listed = &reading.sheets[number].cells;
    let mut cells = BTreeMap::new();
    for (place, cell) in listed.iter().enumerate() {
        cells.insert((usize::from(cell.row), usize::from(cell.column)), place);
    }
    cells.retain(|_, &mut place| listed[place].value != Value::Blank);
    cells
}

fn assert_grid(text: &str, reading: &Reading, number: usize) {
    let cells = expected(reading, number);
    let height = cells.keys().map(|(row, _)| row + 1).max().unwrap_or(0);
    let width = cells
        .keys()
        .map(|(_, column)| column + 1)
        .max()
        .unwrap_or(0);
    let lines = csv(text);
    assert_eq!(lines.len(), height);
    for (row, line) in lines.iter().enumerate() {
        assert_eq!(line.len(), width);
        for (column, field) in line.iter().enumerate() {
            match cells.get(&(row, column)) {
                Some(&place) => {
                    let (_, shown) = shown_at(reading, &reading.sheets[number], place);
                    assert_field(field, &shown);
                }
                None => assert_field(field, &Shown::Nothing),
            }
        }
    }
}

/// Streams whose grids are small enough to be read here, cell by cell.
fn near_streams() -> impl Iterator<Item = (Vec<u8>, Reading)> {
    let streams = (0..).map(streams::valid).map(|stream| {
        let reading = second_reader::read(&stream).expect("a valid stream");
        (stream, reading)
    });
    let near = |reading: &Reading| {
        let mut cells = reading.sheets.iter().flat_map(|sheet| &sheet.cells);
        cells.all(|cell| u32::from(cell.row) * u32::from(cell.column) < 50_000)
    };
    streams.filter(move |(_, reading)| near(reading))
}

/// Each sheet on its own, and all in a folder.
#[test]
fn made_streams_read_back() {
    let mut seen = 0;
    for (stream, reading) in near_streams().take(60) {
        let folder = Folder::new();
        let words = words!["export", "-", "--grid", "--output-dir", folder.path()];
        let ran = run_with(words, &stream);
        assert_eq!((ran.status, ran.text()), (Some(0), ""), "{}", ran.err);
        let files = folder.names();
        for (number, sheet) in reading.sheets.iter().enumerate() {
            let word = number.to_string();
            let ran = run_with(&["export", "-", "--grid", "--sheet", &word], &stream);
            assert_eq!(ran.status, Some(0), "{}", ran.err);
            assert_grid(ran.text(), &reading, number);
            seen += sheet.cells.len();
            let start = format!("{number}-");
            let its: Vec<_> = files
                .iter()
                .filter(|name| name.starts_with(&start))
                .collect();
            match sheet.sheet_type {
                SheetType::Worksheet => {
                    assert_eq!(its.len(), 1);
                    let bytes = fs::read(folder.at(its[0])).expect("the file");
                    assert_eq!(bytes, ran.out);
                }
                _ => assert_eq!(its.len(), 0),
            }
        }
    }
    assert!(seen > 300, "only {seen} cells");
}

#[test]
fn rows_and_columns_as_in_the_sheet() {
    let strings = ["a,b", "say \"hi\"", ""].map(units);
    let records = vec![
        made::text(2, 1, 0),
        made::number(0, 2, -1.5),
        made::blank(9, 9),
        made::error(2, 0, 0x2A),
        made::text(2, 2, 1),
        made::text(0, 0, 2),
    ];
    let stream = made::one(&strings, records);
    let lines = ",,-1.5\r\n,,\r\n#N/A,\"a,b\",\"say \"\"hi\"\"\"\r\n";
    run_with(&["export", "-", "--grid"], &stream).says(0, lines);
    let marked = format!("\u{FEFF}{lines}");
    run_with(&["export", "-", "--grid", "--bom"], &stream).says(0, &marked);
}

/// The last listed counts, a blank too.
#[test]
fn several_cells_at_one_address() {
    let records = vec![
        made::number(0, 0, 1.0),
        made::number(0, 1, 1.0),
        made::number(1, 0, 9.0),
        made::blank(0, 1),
        made::number(0, 0, 2.0),
        made::number(1, 1, 5.0),
        made::blank(2, 2),
        made::number(2, 2, 7.0),
        made::blank(2, 2),
    ];
    let stream = made::one(&[], records);
    run_with(&["export", "-", "--grid"], &stream).says(0, "2,\r\n9,5\r\n");
}

/// In one column no line is empty: many readers would pass over it.
#[test]
fn a_single_column() {
    let stream = made::one(
        &[vec![]],
        vec![made::number(2, 0, 1.0), made::text(1, 0, 0)],
    );
    run_with(&["export", "-", "--grid"], &stream).says(0, "\"\"\r\n\"\"\r\n1\r\n");
    let stream = made::one(&[], vec![made::blank(3, 3)]);
    run_with(&["export", "-", "--grid"], &stream).says(0, "");
}

/// A cell in the last corner takes no more memory than one in the first: the tool may have little.
#[test]
fn the_last_corner_takes_no_memory() {
    let stream = made::one(&[], vec![made::number(65_535, 255, 1.0)]);
    let folder = Folder::new();
    let file = folder.put("in", &stream);
    let mut limited = Command::new("sh");
    limited.args(["-c", "ulimit -v 40000; exec \"$@\"", "sh", TOOL]);
    limited.args(words![
        "export",
        file,
        "--grid",
        "--output",
        folder.at("out")
    ]);
    finish(&mut limited, b"").says(0, "");
    let text = fs::read_to_string(folder.at("out")).expect("the grid");
    let empty = format!("{}\r\n", ",".repeat(255));
    assert_eq!(text.len(), empty.len() * 65_536 + 1);
    assert!(text.starts_with(&empty));
    assert!(text.ends_with(&format!("{}1\r\n", ",".repeat(255))));
}

fn far(name: &str) -> Sheet {
    Sheet {
        kind: made::WORKSHEET,
        name: units(name),
        records: vec![made::number(65_535, 255, 1.0)],
    }
}

/// A small stream can't fill a disk.
#[test]
fn too_many_fields() {
    let folder = Folder::new();
    let sheets: Vec<_> = (0..17).map(|number| far(&number.to_string())).collect();
    let stream = made::book(&[], &sheets);
    let words = words!["export", "-", "--grid", "--output-dir", folder.at("out")];
    run_with(words, &stream).fails("268435456 fields");
    assert_eq!(folder.names(), [""; 0]);
}

#[test]
fn which_sheet() {
    let two = made::book(&[], &[far("one"), far("two")]);
    run_with(&["export", "-", "--grid"], &two).fails("there are 2 worksheets");
    let file = case("chart-and-macro.in");
    let ran = run(words!["export", file, "--grid"]);
    assert_eq!((ran.status, &ran.err[..]), (Some(0), ""), "one worksheet");
    run(words!["export", file, "--grid", "--sheet", "Chart1"]).says(0, "");
    run(words!["export", case("globals-alone.in"), "--grid"]).fails("no worksheet");
    let refused = case("refused-5-encrypted.in");
    run(words!["export", refused, "--grid"]).refuses_data("refused 5 at 20");
}

#[test]
fn texts_of_formulas() {
    let ran = run(words!["export", case("results.in"), "--grid"]);
    let line = "1,label,false,true,#N/A,#NULL!,,1,1\r\n";
    let blank = ",,,,,,,,\r\n".repeat(3);
    ran.says(0, &format!("{blank}{line}"));
}

/// Names that would lead elsewhere, or to one file, or to none.
#[test]
fn names_of_files() {
    let long = "日".repeat(31);
    let names = [
        "../../outside",
        "..",
        "a/b\\c",
        "Data",
        "Data",
        "data",
        "CON",
        "x\0y\n",
        "-rf",
        ".hidden",
        "Größe 日本",
        "\u{202E}gpj",
        &long,
    ];
    let sheet = |name: &&str| Sheet {
        kind: made::WORKSHEET,
        name: units(name),
        records: vec![made::text(0, 0, 0)],
    };
    let mut sheets: Vec<_> = names.iter().map(sheet).collect();
    sheets.push(Sheet {
        kind: made::CHART,
        name: units("chart"),
        records: vec![],
    });
    let stream = made::book(&[units("x")], &sheets);
    let folder = Folder::new();
    let words = words!["export", "-", "--grid", "--output-dir", folder.at("out")];
    // again, over the files that are there
    for _ in 0..2 {
        run_with(words, &stream).says(0, "");
    }
    assert_eq!(folder.names(), ["out"]);
    let mut made: Vec<_> = fs::read_dir(folder.at("out"))
        .expect("the folder")
        .map(|entry| entry.expect("an entry").file_name())
        .map(|name| name.into_string().expect("UTF-8"))
        .collect();
    made.sort();
    let mut wanted = vec![
        "0-.._.._outside.csv".to_string(),
        "1-...csv".into(),
        "2-a_b_c.csv".into(),
        "3-Data.csv".into(),
        "4-Data.csv".into(),
        "5-data.csv".into(),
        "6-CON.csv".into(),
        "7-x_y_.csv".into(),
        "8--rf.csv".into(),
        "9-.hidden.csv".into(),
        "10-Größe 日本.csv".into(),
        "11-_gpj.csv".into(),
        format!("12-{long}.csv"),
    ];
    wanted.sort();
    assert_eq!(made, wanted);
}

/// A link in the folder doesn't lead the tool out of it.
#[test]
fn links_in_the_folder() {
    let folder = Folder::new();
    let outside = folder.put("outside", b"outside");
    fs::create_dir(folder.at("out")).expect("a folder");
    let link = folder.at("out/0-Sheet1.csv");
    symlink("../outside", &link).expect("a link");
    let stream = made::one(&[], vec![made::number(0, 0, 1.0)]);
    let words = words!["export", "-", "--grid", "--output-dir", folder.at("out")];
    run_with(words, &stream).says(0, "");
    assert_eq!(fs::read(&outside).expect("the file"), b"outside");
    assert!(fs::symlink_metadata(&link).expect("the file").is_file());
    assert_eq!(fs::read(&link).expect("the file"), b"1\r\n");
    fs::remove_file(&link).expect("the file");
    fs::create_dir(&link).expect("a folder");
    run_with(words, &stream).fails("0-Sheet1.csv: not a regular file");
    let words = words!["export", "-", "--grid", "--output-dir", outside];
    run_with(words, &stream).fails("outside: ");
    let words = words![
        "export",
        "-",
        "--grid",
        "--output-dir",
        folder.at("no/where")
    ];
    run_with(words, &stream).fails("where: ");
}

#[test]
fn to_a_file() {
    let folder = Folder::new();
    let stream = fs::read(case("cells.in")).expect("an input");
    let file = folder.put("in", &stream);
    let out = folder.at("out");
    for form in ["--csv", "--json", "--grid"] {
        let wanted = run(words!["export", file, form]).out;
        run(words!["export", file, form, "--output", out]).says(0, "");
        assert_eq!(fs::read(&out).expect("the file"), wanted, "{form}");
        let ran = run(words!["export", file, form, "--output", "-"]);
        assert_eq!(ran.out, wanted, "{form}");
    }
    // What is read is never written over, whatever name it has.
    symlink("in", folder.at("link")).expect("a link");
    fs::hard_link(&file, folder.at("other")).expect("a link");
    let before = state(&file);
    for name in ["in", "link", "other"] {
        let words = words!["export", file, "--csv", "--output", folder.at(name)];
        run(words).fails("is not written over");
    }
    fs::hard_link(&file, folder.at("0-Sheet1.csv")).expect("a link");
    let words = words!["export", file, "--grid", "--output-dir", folder.path()];
    run(words).fails("is not written over");
    assert_eq!(state(&file), before);
    // A refusal touches nothing.
    let before = state(&out);
    let refused = case("refused-5-encrypted.in");
    run(words!["export", refused, "--csv", "--output", out]).refuses_data("refused 5 at 20");
    let words = words!["export", file, "--csv", "--sheet", "9", "--output", out];
    run(words).refuses_data("refused 11 at 0");
    let words = words![
        "export",
        refused,
        "--grid",
        "--output-dir",
        folder.at("new")
    ];
    run(words).refuses_data("refused 5 at 20");
    assert_eq!(state(&out), before);
    assert_eq!(
        folder.names(),
        ["0-Sheet1.csv", "in", "link", "other", "out"]
    );
    run(words!["export", file, "--csv", "--output", folder.path()]).fails("not a regular file");
    run(words!["export", file, "--csv", "--output", ""]).fails("");
}
