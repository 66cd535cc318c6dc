//! report: what a page says, what it never says, and where it is put. How it looks in a browser stands in `browser.rs`.

use crate::made::{self, units, Sheet};
use crate::tool::{case, case_inputs, run, run_with, Folder, Ran, TOOL};
use crate::words;
use std::collections::BTreeSet;
use std::ffi::OsString;
use std::fs;
use std::os::unix::ffi::OsStringExt;
use std::os::unix::fs::symlink;
use std::process::Command;

/// The page on a stream from standard input.
pub fn page(stream: &[u8], options: &[&str]) -> String {
    let mut words = vec!["report", "-"];
    words.extend(options);
    let ran = run_with(&words, stream);
    assert_eq!((ran.status, &ran.err[..]), (Some(0), ""));
    ran.text().to_string()
}

/// The body without what every page has.
fn body(page: &str) -> &str {
    let (_, body) = page.split_once("<main>\n").expect("a body");
    body.split_once("<section aria-labelledby=legend>")
        .expect("the legend")
        .0
}

/// The elements of a page and their attributes, as they stand in its source. Values have no `>`.
fn markup(page: &str) -> BTreeSet<String> {
    let mut found = BTreeSet::new();
    let (head, rest) = page.split_once("<style>").expect("a style sheet");
    let (_, rest) = rest.split_once("</style>").expect("its end");
    for part in [head, rest]
        .into_iter()
        .flat_map(|part| part.split('<').skip(1))
    {
        let (tag, _) = part.split_once('>').expect("the end of a tag");
        let name = tag
            .split(' ')
            .next()
            .expect("a name")
            .trim_start_matches('/');
        found.insert(name.to_string());
        for attribute in tag
            .split(' ')
            .skip(1)
            .filter_map(|word| word.split_once('='))
        {
            found.insert(format!("{name} {}", attribute.0));
        }
    }
    found
}

/// The rows of the first grid.
pub fn rows(page: &str) -> Vec<&str> {
    let (_, grid) = page.split_once("<table class=grid").expect("a grid");
    let (_, rows) = grid.split_once("<tbody>\n").expect("its rows");
    rows.split_once("</tbody>")
        .expect("their end")
        .0
        .lines()
        .collect()
}

#[test]
fn what_a_workbook_is() {
    let folder = Folder::new();
    let out = folder.at("report.html");
    run(words!["report", case("cells.in"), "--output", out]).says(0, "");
    let page = fs::read_to_string(&out).expect("the page");
    assert!(page.starts_with("<!DOCTYPE html>\n<html lang=en>\n"));
    assert!(page.contains("<title>cells.in</title>"));
    let digest = Command::new("sha256sum").arg(case("cells.in")).output();
    let digest = String::from_utf8(digest.expect("sha256sum").stdout).expect("hex");
    let digest = digest.split(' ').next().expect("a digest");
    for wanted in [
        "<h1 id=w1>cells.in</h1>",
        "<th scope=row>Length<td>311 bytes",
        &format!("<th scope=row>SHA-256<td class=digest>{digest}"),
        "<th scope=row>Sheets<td>1",
        "<th scope=row>Shared strings<td>3",
        "<th scope=row>Cells<td>17",
        "BLANK with row 0, column 0; the first cell",
        "<a href=#w1-s0><bdi>Sheet1</bdi></a><td class=t>worksheet<td>10<td>17",
        "<h2 id=w1-s0>Sheet 0: <bdi>Sheet1</bdi></h2>",
    ] {
        assert!(page.contains(wanted), "no {wanted} in {page}");
    }
}

/// All kinds of cells, after `cases/cells.out` and `cases/results.out`.
#[test]
fn grids() {
    let cells = fs::read(case("cells.in")).expect("an input");
    assert_eq!(
        rows(&page(&cells, &[])),
        [
            "<tr><th scope=row>1<td class=k>blank<td>3.141592653589793<td>0.01<td>1234321<td>-1<td class=o colspan=8>",
            "<tr><th scope=row>2<td class=t dir=auto></td><td class=b>false<td class=b>true<td class=e>#DIV/0!\
             <td class=o colspan=8><td class=e>#N/A",
            "<tr><th scope=row>3<td class=o colspan=7><td>1<td>2<td>-0.0<td class=o colspan=3>",
            "<tr><th scope=row>4<td class=o colspan=11><td class=k>blank<td class=k>blank",
            "<tr><th scope=row>5<td class=k>blank<td class=o colspan=12>",
            "<tr class=gap><th scope=row>6–9<td colspan=13>no cells",
            "<tr><th scope=row>10<td><i class=f>\u{192} number</i>1<td class=o colspan=12>",
        ]
    );
    let results = fs::read(case("results.in")).expect("an input");
    let results = page(&results, &[]);
    let row = rows(&results)[1];
    for wanted in [
        "<td><i class=f>\u{192} number</i>1",
        "<td class=t dir=auto><i class=f>\u{192} text</i>label</td>",
        "<td class=b><i class=f>\u{192} truth</i>false",
        "<td class=e><i class=f>\u{192} error</i>#N/A",
        "<td class=t dir=auto><i class=f>\u{192} empty</i></td>",
    ] {
        assert!(row.contains(wanted), "no {wanted} in {row}");
    }
}

/// Dates with their serials, after what is written by hand for `export --dates`.
#[test]
fn dates() {
    let dated = page(&fs::read(case("dates.in")).expect("an input"), &[]);
    assert_eq!(
        rows(&dated)[1..],
        [
            "<tr><th scope=row>2<td class=d title=\"serial 38046.75\">2004-02-29T18:00:00<td>72.5\
             <td class=d title=\"serial 38046\">2004-02-29<td class=d title=\"serial 1.5\">PT36H0M0S",
            "<tr><th scope=row>3<td class=d title=\"serial 38047\">2004-03-01<td>38047\
             <td class=d title=\"serial 38047.75\"><i class=f>\u{192} number</i>2004-03-01T18:00:00<td class=k>blank",
            "<tr><th scope=row>4<td>-1<td class=o colspan=3>",
        ]
    );
    let without = made::book_of(
        &[made::cell_format(14)],
        &[Sheet {
            kind: made::WORKSHEET,
            name: units("x"),
            records: vec![made::in_format(0, made::number(0, 0, 1.0))],
        }],
    );
    let without = page(&without, &[]);
    assert!(without.contains("Dates: there is no DATEMODE record: days are counted from 1900."));
    assert!(rows(&without)[0].ends_with("title=\"serial 1\">1900-01-01"));
}

/// Of several cells at one address the last listed is shown, a blank too.
#[test]
fn one_cell_for_an_address() {
    let records = vec![
        made::number(0, 0, 1.0),
        made::number(0, 1, 2.0),
        made::number(0, 0, 3.0),
        made::blank(0, 1),
    ];
    let page = page(&made::one(&[], records), &[]);
    assert_eq!(rows(&page), ["<tr><th scope=row>1<td>3<td class=k>blank"]);
}

/// As many rows as a sheet may have.
fn long_session() -> Vec<u8> {
    let row = |row: u64| [row * 700, row, row];
    made::session(&(0..65_536).map(row).collect::<Vec<_>>())
}

#[test]
fn large_sheets_in_parts() {
    let stream = long_session();
    let part = page(&stream, &[]);
    assert_eq!(rows(&part).len(), 100);
    assert!(rows(&part)[99].starts_with("<tr><th scope=row>100<td>3764<td>99<td>99"));
    assert!(part.contains("65,436 of 65,536 rows with cells are not shown here"));
    assert!(part.len() < 150_000, "{} bytes", part.len());
    let full = page(&stream, &["--full"]);
    let parts: Vec<_> = full.split("<div class=part>").skip(1).map(rows).collect();
    assert_eq!((parts.len(), parts[65].len()), (66, 536));
    assert!(parts[..65].iter().all(|part| part.len() == 1_000));
    for (number, row) in (1..).zip(parts.concat()) {
        assert!(row.starts_with(&format!("<tr><th scope=row>{number}<td>")));
    }
    assert!(!full.contains("not shown"));
    assert!(full.len() < 5_000_000, "{} bytes", full.len());
}

/// What would make a page large: many sheets, far corners, long texts that many cells have, rows full of blanks.
#[test]
fn hostile_sizes() {
    let corner = |_| Sheet {
        kind: made::WORKSHEET,
        name: units("x"),
        records: vec![made::number(65_535, 255, 1.0)],
    };
    let sheets: Vec<_> = (0..3_000).map(corner).collect();
    let many = made::book(&[], &sheets);
    let part = page(&many, &[]);
    assert!(part.contains("2,900 sheets are not shown"));
    assert!(part.len() < 100_000, "{} bytes", part.len());
    let full = page(&many, &["--full"]);
    assert_eq!(full.matches("<table class=grid").count(), 3_000);
    assert_eq!(
        rows(&full),
        [
            "<tr class=gap><th scope=row>1–65535<td colspan=2>no cells",
            "<tr><th scope=row>65536<td class=o><td>1"
        ]
    );

    let long = units(&"\u{1}".repeat(4_000));
    let cells = (0..20_000).map(|row| made::text(row, 0, 0)).collect();
    let texts = made::one(&[long], cells);
    let part = page(&texts, &[]);
    assert!(part.contains("U+0001</i><i class=f>… 4,000 units of 16 bits</i>"));
    assert!(part.len() < 4_000_000, "{} bytes", part.len());

    // 5,000 rows of 256 blanks, and as many at the same addresses
    let row = |row: u16| {
        let row = (row / 2).to_le_bytes();
        made::record(0x00BE, &[&row[..], &[0; 2 + 256 * 2], &[255, 0]].concat())
    };
    let blanks = page(&made::one(&[], (0..10_000).map(row).collect()), &[]);
    assert!(blanks.len() < 4_000_000, "{} bytes", blanks.len());
}

#[test]
fn a_session() {
    let ride = run(words!["report", case("ride.in")]);
    let page = ride.text();
    for wanted in [
        "<th scope=row>Sensor&#39;s session<td>yes, 9 rows, 3 columns",
        "<h2>Cadence</h2>",
        "<li>A session of 9 rows, with the host's seconds.",
        "<li>8 pairs of rows, 2 min 11 s from the first row to the last.",
        "<li>1 pause, 1 min 5 s altogether.",
        // 1024, 768, 0, 62208, 1024, 1024 and 1536 ticks with 1, 1, 0, 48, 2, 0 and 2 turns
        "<li>54 turns in the 1 min 6 s that were counted.",
        "<li>Cadence from 0 to 120 turns a minute, 49 on average, all rounded down.",
        "<li>1 pair has no tick, and so no cadence.",
    ] {
        assert!(page.contains(wanted), "no {wanted} in {page}");
    }
    // the picture is the one that cadence draws
    let drawn = run(words!["cadence", case("ride.in"), "--svg", "-"]);
    let (_, picture) = drawn.text().split_once("?>\n").expect("a declaration");
    assert!(page.contains(picture) && picture.starts_with("<svg "));

    let empty = run(words!["report", case("no-cells.in")]);
    assert!(empty.text().contains("There are no two rows to compare."));
    assert!(!empty.text().contains("<svg"));
    let still = self::page(&made::session(&[[5, 7, 1], [5, 7, 1]]), &[]);
    assert!(still.contains("<li>no turn in the 0 s that were counted."));
    assert!(!still.contains("<li>Cadence from"));
    let other = run(words!["report", case("cells.in")]);
    assert!(!other.text().contains("<h2>Cadence</h2>"));
}

#[test]
fn a_refusal() {
    let ran = run(words!["report", case("refused-5-encrypted.in")]);
    assert_eq!(ran.status, Some(1));
    assert!(ran
        .err
        .ends_with("refused-5-encrypted.in: refused 5 at 20: the workbook is encrypted\n"));
    let page = ran.text();
    for wanted in [
        "<strong>Refused 5 at 20</strong>: the workbook is encrypted.",
        "The marked byte, 2F, is byte 0x14 of the stream. Read as the header of a record it says type 002F,",
        "<th scope=row>SHA-256<td class=digest>",
        "<tr><th scope=row>000010<td>00<td>00<td>00<td>00<td><mark>2F</mark><td>00<td>",
    ] {
        assert!(page.contains(wanted), "no {wanted} in {page}");
    }
    assert!(!page.contains("<table class=grid"));
    assert_eq!(page.matches("<mark>").count(), 1);
}

/// The byte at fault stands at the offset, in every stored case that is refused: at its line and its column.
#[test]
fn the_byte_at_fault_is_marked() {
    let mut seen = 0;
    for input in case_inputs() {
        let stream = fs::read(&input).expect("an input");
        let Err(refusal) = second_reader::read(&stream) else {
            continue;
        };
        let ran = run(words!["report", input]);
        assert_eq!(ran.status, Some(1), "{input:?}");
        let Some(line) = ran.text().lines().find(|line| line.contains("<mark>")) else {
            assert!(stream.is_empty(), "{input:?}");
            assert!(ran.text().contains("The stream has no byte."));
            continue;
        };
        let cells: Vec<_> = line.split("<td").collect();
        let head = format!("<tr><th scope=row>{:06X}", refusal.offset / 16 * 16);
        assert_eq!(cells[0], head, "{input:?}");
        let marked = match stream.get(refusal.offset) {
            Some(byte) => format!("><mark>{byte:02X}</mark>"),
            None => "><mark>end</mark>".to_string(),
        };
        assert_eq!(cells[1 + refusal.offset % 16], marked, "{input:?}");
        seen += 1;
    }
    assert!(seen > 15, "only {seen} refusals");
}

#[test]
fn other_files() {
    let compound = [
        &[0xD0, 0xCF, 0x11, 0xE0, 0xA1, 0xB1, 0x1A, 0xE1][..],
        &[0; 600],
    ]
    .concat();
    let ran = run_with(&["report", "-"], &compound);
    assert_eq!(ran.status, Some(1));
    for said in [ran.text(), &ran.err] {
        assert!(said.contains("this is a whole .xls file"), "{said}");
    }
    let folder = Folder::new();
    let long = folder.put("long", &vec![0; 16_777_300]);
    let ran = run(words!["report", long, case("cells.in")]);
    assert!(ran.text().contains("<td>over 16,777,216<td>–"));
    for wanted in [
        "over 16,777,216 bytes",
        "not taken of so long a file",
        "Refused 1 at 0",
    ] {
        assert!(ran.text().contains(wanted), "{wanted}");
    }
}

/// Texts that would be markup if they could.
pub const HOSTILE: [&str; 8] = [
    "<script>document.title='owned'</script>",
    "\"><img src=x onerror=alert(1)>",
    "'><svg/onload=alert(1)>",
    "</td></table></style><h1>x</h1>",
    "&lt;b&gt;&#60;i&#62;<!--",
    "a\u{0}\u{1}\u{1B}[31m\u{7F}\u{85}\u{2028}",
    "\u{202E}evil\u{2066}\u{200F}",
    "]]><![CDATA[<a href=javascript:alert(1)>",
];

/// A workbook with these texts in its sheets' names, its strings and the results of its formulas.
pub fn hostile() -> Vec<u8> {
    let mut strings: Vec<_> = HOSTILE.map(units).to_vec();
    strings.push(vec![0xD800, 0x3C, 0xDC00]);
    let cells = (0..)
        .zip(&strings)
        .map(|(index, _)| made::text(index, 0, index.into()));
    let formulas = (0..)
        .zip(&strings)
        .flat_map(|(row, text)| made::formula_text(row, 1, text));
    let records = cells.chain(formulas).collect();
    let name = |text: &[u16]| text.iter().copied().take(31).collect();
    let first = Sheet {
        kind: made::WORKSHEET,
        name: name(&strings[0]),
        records,
    };
    let others = strings[1..].iter().map(|text| Sheet {
        kind: made::WORKSHEET,
        name: name(text),
        records: vec![],
    });
    made::book(
        &strings,
        &[first].into_iter().chain(others).collect::<Vec<_>>(),
    )
}

/// Whatever stands in a workbook and in the name of its file, the page has the elements and attributes that any page has.
#[test]
fn no_markup_from_files() {
    let folder = Folder::new();
    let mut paths: Vec<_> = HOSTILE
        .iter()
        .map(|text| text.replace(['/', '\0'], "\u{7}"))
        .map(|name| folder.put(name, &hostile()))
        .collect();
    let bytes = OsString::from_vec(b"\xFF\xFE<b>\x80".to_vec());
    paths.push(folder.put(bytes, &hostile()));
    let plain = folder.put("plain", &fs::read(case("results.in")).expect("an input"));
    let report = |paths: &[std::path::PathBuf]| {
        let mut words = words!["report"].to_vec();
        words.extend(paths.iter().map(OsString::from));
        let ran = run(&words);
        assert_eq!((ran.status, &ran.err[..]), (Some(0), ""));
        ran.text().to_string()
    };
    let page = report(&paths);
    let known = markup(&report(&[plain, case("chart-and-macro.in")]));
    let met: Vec<_> = markup(&page).difference(&known).cloned().collect();
    assert_eq!(met, [""; 0]);
    for wanted in [
        "&lt;script&gt;document.title=&#39;owned&#39;&lt;/script&gt;",
        "&quot;&gt;&lt;img src=x onerror=alert(1)&gt;",
        "a<i class=u>U+0000</i><i class=u>U+0001</i><i class=u>U+001B</i>[31m<i class=u>U+007F</i>",
        "<i class=u>U+202E</i>evil<i class=u>U+2066</i><i class=u>U+200F</i>",
        "<i class=u>U+D800</i>&lt;<i class=u>U+DC00</i>",
        "\\xFF\\xFE&lt;b&gt;\\x80",
    ] {
        assert!(page.contains(wanted), "no {wanted}");
    }
    assert!(!page
        .chars()
        .any(|character| character.is_control() && character != '\n'));
}

/// Made workbooks of all sorts, damaged ones too: a page each, with nothing on it that isn't on any other.
#[test]
fn made_streams() {
    let folder = Folder::new();
    for seed in 0..120 {
        let stream = match seed % 3 {
            0 => streams::valid(seed),
            1 => streams::damaged(seed),
            _ => streams::valid_session(seed),
        };
        folder.put(format!("{seed}"), &stream);
    }
    let mut words = words!["report", "--full"].to_vec();
    words.extend((0..120).map(|seed| folder.at(format!("{seed}")).into()));
    let ran = run(&words);
    let page = ran.text();
    let mut passed = 0;
    for seed in 0..120 {
        let stream = fs::read(folder.at(format!("{seed}"))).expect("a stream");
        let section = page
            .split(&format!("<h2 id=w{}>", seed + 1))
            .nth(1)
            .expect("a section");
        let (section, _) = section.split_once("</article>").expect("its end");
        match second_reader::read(&stream) {
            Ok(book) => {
                let cells: usize = book.sheets.iter().map(|sheet| sheet.cells.len()).sum();
                let told = section
                    .split("<th scope=row>Cells<td>")
                    .nth(1)
                    .expect("cells");
                let told = told.lines().next().expect("a number").replace(',', "");
                assert_eq!(told, cells.to_string(), "{seed}");
                passed += 1;
            }
            Err(refusal) => {
                let told = section.split("<strong>Refused ").nth(1).expect("a refusal");
                let told = told
                    .split("</strong>")
                    .next()
                    .expect("its end")
                    .replace(',', "");
                assert_eq!(told, format!("{} at {}", refusal.number, refusal.offset));
            }
        }
    }
    assert!((60..110).contains(&passed), "{passed} passed");
    assert_eq!(ran.status, Some(1));
}

/// Nothing comes from elsewhere, and nothing is run.
#[test]
fn stands_alone() {
    let page = run(words!["report", case("ride.in"), case("cells.in")]);
    let inside = page
        .text()
        .replace("xmlns=\"http://www.w3.org/2000/svg\"", "");
    for word in [
        "script",
        "http:",
        "https:",
        "url(",
        "@import",
        "@font",
        "src=",
        "<link",
        "javascript",
    ] {
        assert!(!inside.contains(word), "{word}");
    }
    assert!(inside.contains("content=\"default-src 'none'; style-src 'unsafe-inline';"));
    for (at, _) in inside.match_indices("href=") {
        assert!(
            inside[at + 5..].starts_with(['#', '"']),
            "{}",
            &inside[at..at + 20]
        );
    }
}

/// Headings go down by one level at a time, each table has heads with a scope, and each id stands once.
#[test]
fn structure() {
    for files in [
        &["ride.in"][..],
        &["cells.in", "refused-5-encrypted.in", "ride.in"],
    ] {
        let mut words = words!["report"].to_vec();
        words.extend(files.iter().map(|file| OsString::from(case(file))));
        let ran = run(&words);
        let page = ran.text();
        let mut before = 0;
        for (at, _) in page.match_indices("<h") {
            let level = page.as_bytes()[at + 2].wrapping_sub(b'0');
            if (1..=6).contains(&level) {
                assert!(level <= before + 1, "{}", &page[at..at + 40]);
                before = level;
            }
        }
        assert_eq!(page.matches("<h1").count(), 1);
        assert_eq!(page.matches("<main>").count(), 1);
        assert_eq!(
            page.matches("<th").count(),
            page.matches("<th scope=").count() + page.matches("<thead").count()
        );
        let ids: Vec<_> = page
            .split(" id=")
            .skip(1)
            .map(|rest| rest.split('>').next())
            .collect();
        assert_eq!(ids.iter().collect::<BTreeSet<_>>().len(), ids.len());
        for link in page.split("href=\"#").skip(1) {
            let id = link.split('"').next();
            assert!(ids.contains(&id), "{id:?}");
        }
    }
}

fn many(folder: &Folder) -> Vec<OsString> {
    for (name, sample) in [
        ("a/x.bin", "cells.in"),
        ("b/x.bin", "ride.in"),
        ("bad <&>.bin", "refused-5-encrypted.in"),
    ] {
        let path = folder.at(name);
        fs::create_dir_all(path.parent().expect("a folder")).expect("a folder");
        fs::copy(case(sample), path).expect("a copy");
    }
    let names = ["a/x.bin", "none.bin", "b/x.bin", "bad <&>.bin"];
    names.map(|name| folder.at(name).into()).to_vec()
}

fn report(files: &[OsString], options: &[OsString]) -> Ran {
    run(&[words!["report"], files, options].concat())
}

/// A line for each, in the order given; one that can't be read keeps none of the others from its place.
#[test]
fn many_on_one_page() {
    let folder = Folder::new();
    let files = many(&folder);
    let ran = report(&files, &[]);
    assert_eq!(ran.status, Some(2));
    assert_eq!(ran.err.lines().count(), 2, "{}", ran.err);
    let page = body(ran.text());
    let (contents, parts) = page.split_once("</nav>").expect("the contents");
    assert!(contents.starts_with("<h1>Report on 4 workbooks</h1>\n<nav aria-label=Contents>"));
    let lines: Vec<_> = contents
        .lines()
        .filter(|line| line.starts_with("<tr>"))
        .collect();
    assert_eq!(lines.len(), 4);
    let path = folder.path().display();
    assert_eq!(
        lines,
        [
            &format!("<tr><th scope=row class=t><a href=\"#w1\">{path}/a/x.bin</a><td class=t>passed<td>311<td>1<td>3<td>17"),
            &format!("<tr><th scope=row class=t><a href=\"#w2\">{path}/none.bin</a><td class=t>can&#39;t be read<td>–<td>–<td>–<td>–"),
            &format!("<tr><th scope=row class=t><a href=\"#w3\">{path}/b/x.bin</a><td class=t>passed<td>338<td>1<td>0<td>27"),
            &format!("<tr><th scope=row class=t><a href=\"#w4\">{path}/bad &lt;&amp;&gt;.bin</a><td class=t>refused 5 at 20: the workbook is encrypted<td>30<td>–<td>–<td>–"),
        ]
    );
    let parts: Vec<_> = parts.split("<article aria-labelledby=").skip(1).collect();
    assert_eq!(parts.len(), 4);
    assert!(parts[1].contains("<p class=refused>This file can't be read: "));
    assert!(parts[2].contains("<h3>Cadence</h3>"));
}

#[test]
fn a_page_for_each() {
    let folder = Folder::new();
    let files = many(&folder);
    let pages = folder.at("pages");
    let ran = report(&files, words!["--output-dir", pages]);
    assert_eq!((ran.status, ran.text()), (Some(2), ""));
    let names = || {
        let mut names: Vec<_> = fs::read_dir(&pages)
            .expect("the folder")
            .map(|entry| {
                entry
                    .expect("an entry")
                    .file_name()
                    .into_string()
                    .expect("a name")
            })
            .collect();
        names.sort();
        names
    };
    let made = [
        "1-x.bin.html",
        "3-x.bin.html",
        "4-bad ___.bin.html",
        "index.html",
    ];
    assert_eq!(names(), made);
    let read = |name: &str| fs::read_to_string(pages.join(name)).expect("a page");
    let index = read("index.html");
    for wanted in [
        "<a href=\"1-x.bin.html\">",
        "<a href=\"3-x.bin.html\">",
        "<a href=\"4-bad%20___.bin.html\">",
    ] {
        assert!(index.contains(wanted), "no {wanted} in {index}");
    }
    assert!(index.contains("none.bin<td class=t>can&#39;t be read"));
    assert_eq!(index.matches("<a href=").count(), 3);
    let one = read("3-x.bin.html");
    assert!(one.contains("<p><a href=index.html>All workbooks</a></p>\n<article aria-labelledby=w1>\n<h1 id=w1>x.bin</h1>"));
    assert!(one.contains("<svg"));
    // again, over what is there: the same, byte for byte
    let before: Vec<_> = made.map(read).into();
    report(&files, words!["--output-dir", pages]);
    assert_eq!(
        (names(), made.map(read).to_vec()),
        (made.map(String::from).to_vec(), before)
    );
    let twelve = vec![files[0].clone(); 12];
    let numbered = folder.at("numbered");
    report(&twelve, words!["--output-dir", numbered]).says(0, "");
    assert!(numbered.join("01-x.bin.html").exists() && numbered.join("12-x.bin.html").exists());
}

/// Files whose names are as long as they may be still have pages.
#[test]
fn long_names() {
    let folder = Folder::new();
    for (number, letter) in ["x", "ä", "\u{1F600}"].iter().enumerate() {
        let name = letter.repeat(255 / letter.len());
        let file = folder.put(name, &fs::read(case("cells.in")).expect("an input"));
        let pages = folder.at(number.to_string());
        run(words!["report", file, "--output-dir", pages]).says(0, "");
        assert_eq!(fs::read_dir(&pages).expect("the folder").count(), 2);
    }
}

/// What is read is never written over, and nothing is left where a page can't be put.
#[test]
fn files() {
    let folder = Folder::new();
    let stream = fs::read(case("cells.in")).expect("an input");
    let file = folder.put("x", &stream);
    let other = folder.put("y", &stream);
    for written in [&file, &other] {
        run(words!["report", other, file, "--output", written]).fails("not written over");
    }
    let pages = folder.at("pages");
    fs::create_dir(&pages).expect("a folder");
    let inside = pages.join("1-1-x.html.html");
    fs::write(&inside, &stream).expect("a file");
    fs::hard_link(&inside, pages.join("1-x.html")).expect("another name");
    let named = folder.put("x.html", &stream);
    run(words!["report", named, inside, "--output-dir", pages])
        .status
        .expect("an end");
    assert_eq!(fs::read(&inside).expect("the file"), stream);
    run(words!["report", inside, "--output-dir", folder.at("x")]).fails("x: ");
    run(words!["report", file, "--output", folder.at("none/x.html")]).fails("none/x.html: ");
    run(words!["report", file, "--output", folder.path()]).fails("not a regular file");
    run(words!["report", file, "--output", "p", "--output-dir", "q"]).fails("one is enough");
    run(words!["report", "-", "-"]).fails("only once");
    for path in [&file, &other, &named] {
        assert_eq!(fs::read(path).expect("the file"), stream);
    }
    // a link in the folder is replaced and not followed
    let target = folder.put("target", b"kept");
    symlink(&target, pages.join("1-y.html")).expect("a link");
    run(words!["report", other, "--output-dir", pages]).says(0, "");
    assert_eq!(fs::read(&target).expect("the file"), b"kept");
}

/// An older report isn't lost to a mistake in a name.
#[test]
fn nothing_is_written_where_nothing_is_read() {
    let folder = Folder::new();
    let out = folder.put("report.html", b"old");
    run(words!["report", folder.at("none"), "--output", out]).fails("none: ");
    run(words![
        "report",
        folder.at("none"),
        "--output-dir",
        folder.at("pages")
    ])
    .fails("none: ");
    assert_eq!(fs::read(&out).expect("the file"), b"old");
    assert_eq!(folder.names(), ["report.html"]);
}

/// How far it has come is shown on a terminal.
#[test]
fn progress() {
    let file = case("cells.in");
    let call = format!("'{TOOL}' report '{0}' '{0}' > /dev/null", file.display());
    for (term, shown) in [("xterm", true), ("dumb", false)] {
        let mut terminal = Command::new("script");
        terminal
            .args(["-qec", &call, "/dev/null"])
            .env("TERM", term);
        let output = terminal.output().expect("a terminal");
        let said = String::from_utf8(output.stdout).expect("text");
        assert_eq!(
            said.contains("\x1b[Kreporting 2 of 2\r\x1b[K"),
            shown,
            "{term}: {said}"
        );
    }
}
