//! K9: export --places, and export --dates, which stands on the formats.

use crate::made::{self, units, Sheet};
use crate::parse::{csv, json, Json};
use crate::tool::{case, run, run_with, Folder};
use crate::usage::helped;
use crate::words;
use std::fs;
use std::path::Path;

/// Holds that the stored workbook with dates is exported so; lines end with LF here.
fn exports(options: &str, lines: &str) {
    let mut words = words!["export", case("dates.in")].to_vec();
    words.extend(options.split(' ').map(Into::into));
    let end = if options.contains("--json") {
        "\n"
    } else {
        "\r\n"
    };
    run(&words).says(0, &lines.replace('\n', end));
}

/// The dates are counted by hand: 2000-01-01 is day 36,526 from 1900, and 2004-02-29 comes 1,461 + 59 days later.
#[test]
fn cell_by_cell_as_csv() {
    exports(
        "--csv --dates",
        "sheet,sheet_name,row,column,kind,value,serial
0,Sheet1,0,0,text,start,
0,Sheet1,0,1,text,pulse,
0,Sheet1,1,0,number,2004-02-29T18:00:00,38046.75
0,Sheet1,1,1,number,72.5,
0,Sheet1,1,2,number,2004-02-29,38046
0,Sheet1,1,3,number,PT36H0M0S,1.5
0,Sheet1,2,0,number,2004-03-01,38047
0,Sheet1,2,1,number,38047,
0,Sheet1,2,2,formula number,2004-03-01T18:00:00,38047.75
0,Sheet1,2,3,blank,,
0,Sheet1,3,0,number,-1,
",
    );
    // The globals have 197 bytes, the worksheet's BOF 20; places are counted from the header of each record.
    exports(
        "--csv --places --a1",
        "sheet,sheet_name,cell,kind,value,format,offset
0,Sheet1,A1,text,start,0,227
0,Sheet1,B1,text,pulse,1,241
0,Sheet1,A2,number,38046.75,2,255
0,Sheet1,B2,number,72.5,0,273
0,Sheet1,C2,number,38046,1,291
0,Sheet1,D2,number,1.5,3,305
0,Sheet1,A3,number,38047,1,323
0,Sheet1,B3,number,38047,0,329
0,Sheet1,C3,formula number,38047.75,2,345
0,Sheet1,D3,blank,,1,372
0,Sheet1,A4,number,-1,1,384
",
    );
    exports(
        "--csv --places --dates --a1 --no-blanks --bom",
        "\u{FEFF}sheet,sheet_name,cell,kind,value,serial,format,offset
0,Sheet1,A1,text,start,,0,227
0,Sheet1,B1,text,pulse,,1,241
0,Sheet1,A2,number,2004-02-29T18:00:00,38046.75,2,255
0,Sheet1,B2,number,72.5,,0,273
0,Sheet1,C2,number,2004-02-29,38046,1,291
0,Sheet1,D2,number,PT36H0M0S,1.5,3,305
0,Sheet1,A3,number,2004-03-01,38047,1,323
0,Sheet1,B3,number,38047,,0,329
0,Sheet1,C3,formula number,2004-03-01T18:00:00,38047.75,2,345
0,Sheet1,A4,number,-1,,1,384
",
    );
}

#[test]
fn cell_by_cell_as_json() {
    let sheet = r#"{"number":0,"name":"Sheet1","type":"worksheet","rows":4,"cells":["#;
    exports(
        "--json --dates --no-blanks",
        &format!(
            r#"{{"sheets":[
{sheet}
{{"row":0,"column":0,"kind":"text","value":"start"}},
{{"row":0,"column":1,"kind":"text","value":"pulse"}},
{{"row":1,"column":0,"kind":"number","value":"2004-02-29T18:00:00","serial":38046.75}},
{{"row":1,"column":1,"kind":"number","value":72.5}},
{{"row":1,"column":2,"kind":"number","value":"2004-02-29","serial":38046}},
{{"row":1,"column":3,"kind":"number","value":"PT36H0M0S","serial":1.5}},
{{"row":2,"column":0,"kind":"number","value":"2004-03-01","serial":38047}},
{{"row":2,"column":1,"kind":"number","value":38047}},
{{"row":2,"column":2,"kind":"formula number","value":"2004-03-01T18:00:00","serial":38047.75,"tokens":"1E0100"}},
{{"row":3,"column":0,"kind":"number","value":-1}}
]}}
]}}
"#
        ),
    );
    exports(
        "--json --a1 --places --dates",
        &format!(
            r#"{{"sheets":[
{sheet}
{{"cell":"A1","kind":"text","value":"start","format":0,"offset":227}},
{{"cell":"B1","kind":"text","value":"pulse","format":1,"offset":241}},
{{"cell":"A2","kind":"number","value":"2004-02-29T18:00:00","serial":38046.75,"format":2,"offset":255}},
{{"cell":"B2","kind":"number","value":72.5,"format":0,"offset":273}},
{{"cell":"C2","kind":"number","value":"2004-02-29","serial":38046,"format":1,"offset":291}},
{{"cell":"D2","kind":"number","value":"PT36H0M0S","serial":1.5,"format":3,"offset":305}},
{{"cell":"A3","kind":"number","value":"2004-03-01","serial":38047,"format":1,"offset":323}},
{{"cell":"B3","kind":"number","value":38047,"format":0,"offset":329}},
{{"cell":"C3","kind":"formula number","value":"2004-03-01T18:00:00","serial":38047.75,"format":2,"offset":345,"tokens":"1E0100"}},
{{"cell":"D3","kind":"blank","value":null,"format":1,"offset":372}},
{{"cell":"A4","kind":"number","value":-1,"format":1,"offset":384}}
]}}
]}}
"#
        ),
    );
}

const GRID: &str = "\
start,pulse,,\r
2004-02-29T18:00:00,72.5,2004-02-29,PT36H0M0S\r
2004-03-01,38047,2004-03-01T18:00:00,\r
-1,,,\r
";

/// In a grid, to each place that it may go to.
#[test]
fn grids() {
    let file = case("dates.in");
    run(words!["export", file, "--grid", "--dates"]).says(0, GRID);
    let folder = Folder::new();
    let out = folder.at("out.csv");
    run(words!["export", file, "--grid", "--dates", "--output", out]).says(0, "");
    assert_eq!(fs::read_to_string(&out).expect("the grid"), GRID);
    let words = words![
        "export",
        file,
        "--grid",
        "--dates",
        "--bom",
        "--output-dir",
        folder.path()
    ];
    run(words).says(0, "");
    let written = fs::read_to_string(folder.at("0-Sheet1.csv")).expect("the grid");
    assert_eq!(written, format!("\u{FEFF}{GRID}"));
}

/// Of several cells at one address the last listed counts, and so does its format.
#[test]
fn several_cells_at_one_address() {
    let records = vec![
        made::in_format(1, made::number(0, 0, 38_046.0)),
        made::in_format(0, made::number(0, 1, 38_046.0)),
        made::in_format(0, made::number(0, 0, 38_047.0)),
        made::in_format(1, made::number(0, 1, 38_047.0)),
    ];
    let stream = one(&[made::datemode(0), formats(14).concat()], records);
    run_with(&["export", "-", "--grid", "--dates"], &stream).says(0, "38047,2004-03-01\r\n");
}

/// Two cell formats: the first is general, the second this number format.
fn formats(index: u16) -> [Vec<u8>; 2] {
    [made::cell_format(0), made::cell_format(index)]
}

/// A workbook with one worksheet.
fn one(globals: &[Vec<u8>], records: Vec<Vec<u8>>) -> Vec<u8> {
    let sheet = Sheet {
        kind: made::WORKSHEET,
        name: units("Sheet1"),
        records,
    };
    made::book_of(globals, &[sheet])
}

/// A workbook whose only cell, in the second cell format, holds day 366.
fn day_366(globals: &[Vec<u8>]) -> Vec<u8> {
    one(globals, vec![made::in_format(1, made::number(0, 0, 366.0))])
}

/// Holds that a workbook shows this date, or its number, in every form, and that this is said of it.
fn shows(stream: &[u8], date: Option<&str>, note: &str) {
    let value = date.unwrap_or("366");
    let export = |options: &[&str]| {
        let ran = run_with(&[&["export", "-", "--dates"], options].concat(), stream);
        assert_eq!(ran.status, Some(0));
        match note {
            "" => assert_eq!(ran.err, ""),
            note => assert_eq!(ran.err, format!("vaigunthe: standard input: {note}\n")),
        }
        ran
    };
    let serial = date.map_or("", |_| "366");
    let line = ["0", "Sheet1", "0", "0", "number", value, serial];
    assert_eq!(csv(export(&["--csv"]).text())[1], line);
    let grid = export(&["--grid"]);
    assert_eq!(grid.text(), format!("{value}\r\n"));
    let folder = Folder::new();
    let out = folder.at("out").into_os_string();
    export(&["--grid", "--output", out.to_str().expect("UTF-8")]);
    assert_eq!(fs::read(&out).expect("the grid"), grid.out);
    let book = export(&["--json"]);
    let book = json(book.text());
    let cell = &book.get("sheets").list()[0].get("cells").list()[0];
    match date {
        Some(date) => {
            assert_eq!(cell.get("value").text(), date);
            assert_eq!(*cell.get("serial"), Json::Number("366".into()));
        }
        None => {
            assert_eq!(*cell.get("value"), Json::Number("366".into()));
            assert_eq!(cell.names(), ["row", "column", "kind", "value"]);
        }
    }
}

const FROM_1900: Option<&str> = Some("1900-12-31");
const FROM_1904: Option<&str> = Some("1905-01-01");

const MISSING: &str = "there is no DATEMODE record: days are counted from 1900";
const DAMAGED: &str =
    "the DATEMODE record is damaged, or there are two that disagree: no number is shown as a date";

/// From which day a workbook counts.
#[test]
fn date_systems() {
    let of = |datemodes: &[Vec<u8>]| day_366(&[datemodes.concat(), formats(14).concat()]);
    shows(&of(&[made::datemode(0)]), FROM_1900, "");
    shows(&of(&[made::datemode(1)]), FROM_1904, "");
    shows(&of(&[made::datemode(1), made::datemode(1)]), FROM_1904, "");
    shows(&of(&[]), FROM_1900, MISSING);
    for datemodes in [
        vec![made::datemode(2)],
        vec![made::record(0x0022, &[0])],
        vec![made::record(0x0022, &[0, 0, 0])],
        vec![made::datemode(0), made::datemode(1)],
        vec![made::datemode(1), made::record(0x0022, &[])],
    ] {
        shows(&of(&datemodes), None, DAMAGED);
    }
    // One in a sheet says nothing.
    let cells = vec![
        made::datemode(1),
        made::in_format(1, made::number(0, 0, 366.0)),
    ];
    shows(&one(&formats(14), cells), FROM_1900, MISSING);
}

/// Nothing is said of a missing record where nothing hangs on it, nor where no dates are asked for.
#[test]
fn no_dates_no_words() {
    shows(&day_366(&formats(0)), None, "");
    let stream = day_366(&formats(14));
    run_with(&["export", "-", "--grid"], &stream).says(0, "366\r\n");
    let stream = day_366(&[made::datemode(2), formats(14).concat()]);
    run_with(&["export", "-", "--grid"], &stream).says(0, "366\r\n");
}

/// Where a cell format or a number format is damaged or missing, numbers stay numbers.
#[test]
fn damaged_formats() {
    let of = |records: &[Vec<u8>]| day_366(&[made::datemode(0), records.concat()]);
    let own = |text: &str| made::number_format(164, text);
    let [general, second] = formats(164);
    shows(
        &of(&[own("yyyy"), general.clone(), second.clone()]),
        FROM_1900,
        "",
    );
    shows(
        &of(&[own("0.00"), general.clone(), second.clone()]),
        None,
        "",
    );
    // no number format, and damaged ones: a character short, one too many, none at all
    shows(&of(&[general.clone(), second.clone()]), None, "");
    for body in [
        &[164, 0, 5, 0, 0, b'y', b'y', b'y', b'y'][..],
        &[164, 0, 3, 0, 0, b'y', b'y', b'y', b'y'],
        &[164, 0, 0, 0, 0],
        &[164],
    ] {
        let damaged = made::record(0x041E, body);
        shows(&of(&[damaged, general.clone(), second.clone()]), None, "");
    }
    // no cell format, one only, and one that is a byte short or long; it counts all the same
    shows(&of(&[own("yyyy")]), None, "");
    shows(&of(&[own("yyyy"), second.clone()]), None, "");
    for size in [0, 19, 21] {
        let mut body = second[4..].to_vec();
        body.resize(size, 0);
        let damaged = made::record(0x00E0, &body);
        shows(
            &of(&[own("yyyy"), general.clone(), damaged.clone()]),
            None,
            "",
        );
        shows(&of(&[own("yyyy"), damaged, second.clone()]), FROM_1900, "");
    }
}

/// A number outside the calendar stays what it is, to the last bit.
#[test]
fn numbers_that_are_no_dates() {
    let numbers = [
        (-1.0, "-1"),
        (2_958_466.0, "2958466"),
        (f64::INFINITY, "bits:7FF0000000000000"),
        (f64::NAN, "bits:7FF8000000000000"),
    ];
    let records = (0..).zip(numbers);
    let records = records.map(|(row, (value, _))| made::in_format(1, made::number(row, 0, value)));
    let globals = [made::datemode(0), formats(14).concat()];
    let stream = one(&globals, records.collect());
    let ran = run_with(&["export", "-", "--csv", "--dates"], &stream);
    for (line, (_, text)) in csv(ran.text())[1..].iter().zip(numbers) {
        assert_eq!(line[5..], [text, ""]);
    }
    let ran = run_with(&["export", "-", "--json", "--dates"], &stream);
    let book = json(ran.text());
    let cells = book.get("sheets").list()[0].get("cells").list();
    assert!(cells.iter().all(|cell| cell.names().len() == 4));
}

/// Workbooks that another library wrote, and what it says of their dates.
#[test]
fn of_another_library() {
    let data = Path::new(env!("CARGO_MANIFEST_DIR")).join("../dates/tests/data");
    for name in ["from_1900", "from_1904"] {
        let file = data.join(name).with_extension("bin");
        let wanted = fs::read_to_string(data.join(name).with_extension("tsv")).expect("the dates");
        let plain = run(words!["export", file, "--csv"]);
        let ran = run(words!["export", file, "--csv", "--dates"]);
        assert_eq!((ran.status, &ran.err[..]), (Some(0), ""));
        let (lines, plain) = (csv(ran.text()), csv(plain.text()));
        let wanted: Vec<_> = wanted
            .lines()
            .map(|line| line.rsplit('\t').next())
            .collect();
        assert_eq!((lines.len(), plain.len()), (wanted.len(), wanted.len()));
        let book = run(words!["export", file, "--json", "--dates"]);
        let book = json(book.text());
        let cells = book.get("sheets").list()[0].get("cells").list();
        assert_eq!(cells.len() + 1, lines.len());
        let mut dates = 0;
        let lines = lines.iter().zip(plain).zip(wanted).skip(1);
        for (((line, plain), wanted), cell) in lines.zip(cells) {
            assert_eq!(line[..5], plain[..5]);
            let number = Json::Number(plain[5].clone());
            match wanted {
                Some("") => {
                    assert_eq!(line[5..], [&plain[5], ""]);
                    assert_eq!(*cell.get("value"), number);
                }
                date => {
                    assert_eq!(Some(&*line[5]), date);
                    assert_eq!(line[6], plain[5]);
                    assert_eq!(Some(&*cell.get("value").text()), date);
                    assert_eq!(*cell.get("serial"), number);
                    dates += 1;
                }
            }
        }
        assert!(dates > 300, "only {dates} dates");
    }
}

/// Formats and places as the second reader has them, on streams of all kinds of cells.
#[test]
fn formats_and_places_of_made_streams() {
    let mut cells = 0;
    for seed in 0..60 {
        let stream = streams::valid(seed);
        let reading = second_reader::read(&stream).expect("a valid stream");
        let wanted: Vec<_> = reading
            .sheets
            .iter()
            .flat_map(|sheet| &sheet.cells)
            .map(|cell| [cell.format.to_string(), cell.value_field.start.to_string()])
            .collect();
        let ran = run_with(&["export", "-", "--csv", "--places"], &stream);
        let lines = csv(ran.text());
        assert_eq!(lines[0][6..], ["format", "offset"]);
        let found: Vec<_> = lines[1..].iter().map(|line| line[6..].to_vec()).collect();
        assert_eq!(found, wanted);
        let ran = run_with(&["export", "-", "--json", "--places"], &stream);
        let book = json(ran.text());
        let sheets = book.get("sheets").list().iter();
        let found: Vec<_> = sheets
            .flat_map(|sheet| sheet.get("cells").list())
            .map(|cell| ["format", "offset"].map(|name| cell.get(name).number().to_string()))
            .collect();
        assert_eq!(found, wanted);
        cells += wanted.len();
    }
    assert!(cells > 500, "only {cells} cells");
}

/// A correction leaves the format and the place of every cell as they were.
#[test]
fn a_correction_leaves_formats_and_places() {
    let folder = Folder::new();
    let file = folder.put("in", &fs::read(case("dates.in")).expect("an input"));
    let export = |file: &Path| {
        let ran = run(words!["export", file, "--csv", "--dates", "--places"]);
        csv(ran.text())
    };
    let before = export(&file);
    run(words![
        "correct",
        file,
        "0",
        "C2",
        "number",
        "38047",
        "--in-place"
    ])
    .says(0, "granted\n");
    let after = export(&file);
    let mut wanted = before;
    assert_eq!(wanted[5][5..7], ["2004-02-29", "38046"]);
    wanted[5][5] = "2004-03-01".into();
    wanted[5][6] = "38047".into();
    assert_eq!(after, wanted);
}

#[test]
fn help_says_that_dates_are_not_proved() {
    let page = helped(&["help", "export"]);
    assert!(page.contains("dates are not proved"), "{page}");
    assert!(page.contains("Dates are no part of what is proved."));
}
