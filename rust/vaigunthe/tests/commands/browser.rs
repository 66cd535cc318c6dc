//! The pages of report in a browser, where the machine has one: what it makes of them, and what it complains of. A page that holds them asks them what they are
//! when they are shown.

use crate::made::{self, units, Sheet};
use crate::parse::{json, Json};
use crate::report::{hostile, HOSTILE};
use crate::tool::{case, finish, run, Folder};
use crate::words;
use second_reader::NewValue;
use std::collections::BTreeSet;
use std::ffi::OsString;
use std::fs;
use std::path::Path;
use std::process::Command;

const NAMES: [&str; 3] = ["chromium", "chromium-browser", "google-chrome"];

/// What the browser shows of a page, and what it says on its console.
struct Seen {
    page: String,
    console: Vec<String>,
}

/// None where the machine has no browser.
fn browser(folder: &Folder) -> Option<Command> {
    let there = |name: &&&str| Command::new(name).arg("--version").output().is_ok();
    let Some(name) = NAMES.iter().find(there) else {
        eprintln!("no chromium on this machine: the page was not rendered");
        return None;
    };
    let mut browser = Command::new(name);
    browser.args([
        "--headless",
        "--no-sandbox",
        "--disable-gpu",
        "--disable-dev-shm-usage",
        "--enable-logging=stderr",
        "--allow-file-access-from-files",
        "--virtual-time-budget=10000",
        "--window-size=1400,1000",
    ]);
    let own = |name: &str| format!("{name}={}", folder.at("browser").display());
    browser
        .arg(own("--user-data-dir"))
        .env("HOME", folder.at("browser"));
    Some(browser)
}

/// None where the machine has no browser.
fn browse(folder: &Folder, page: &Path) -> Option<Seen> {
    let mut browser = browser(folder)?;
    let page = format!("file://{}", page.display());
    let ran = finish(browser.args(["--dump-dom", &page]), b"");
    assert_eq!(ran.status, Some(0), "{}", ran.err);
    let console = ran.err.lines().filter(|line| line.contains(":CONSOLE"));
    Some(Seen {
        page: ran.text().to_string(),
        console: console.map(str::to_string).collect(),
    })
}

/// How many sheets of paper a page takes; none where the machine has no browser.
fn print(folder: &Folder, page: &str) -> Option<usize> {
    let mut browser = browser(folder)?;
    let printed = folder.at("printed.pdf");
    browser.arg(format!("--print-to-pdf={}", printed.display()));
    let page = format!("file://{}", folder.at(page).display());
    let ran = finish(browser.arg(page), b"");
    assert_eq!(ran.status, Some(0), "{}", ran.err);
    let printed = fs::read(printed).expect("a PDF");
    let starts = |at: usize| printed[at..].starts_with(b"/Type /Page\n");
    Some((0..printed.len()).filter(|at| starts(*at)).count())
}

/// Of long grids the first hundred rows are told, and of the others each of these.
const EVERY: usize = 97;

/// Shows a page in a frame of this width, and says what it has there: its elements and their attributes, its title, the texts of the cells of each grid, row by
/// row, how wide it is, and whether anything was fetched.
const HOLDER: &str = r#"<!DOCTYPE html><meta charset=utf-8><title>holder</title>
<iframe src="PAGE" width=WIDTH height=900></iframe><pre></pre>
<script>
addEventListener('load', () => {
  const frame = frames[0], shown = frame.document, all = [...shown.querySelectorAll('*')];
  const trimmed = cell => cell.classList.contains('t') ? cell.textContent : cell.textContent.trim();
  const seen = {
    title: shown.title,
    elements: [...new Set(all.map(one => one.localName))],
    attributes: [...new Set(all.flatMap(one => one.getAttributeNames().map(name => one.localName + ' ' + name)))],
    grids: [...shown.querySelectorAll('table.grid')].map(grid =>
      [...grid.rows].filter((_, at) => at < 100 || at % EVERY == 0).map(row => [...row.cells].map(trimmed))),
    rows: shown.querySelectorAll('table.grid tr').length,
    headings: [...shown.querySelectorAll('h1,h2,h3')].map(one => one.localName + ' ' + one.textContent),
    aligned: Object.fromEntries([...shown.querySelectorAll('table.grid td')].map(cell =>
      [cell.className, frame.getComputedStyle(cell).textAlign])),
    lists: [...shown.querySelectorAll('table.list')].map(list => [...list.rows].map(row => [...row.cells].map(one => one.textContent))),
    marks: [...shown.querySelectorAll('table.grid .corrected, table.grid .differs')].map(cell => [
      [...cell.classList].filter(name => name.length > 1).join(' '), frame.getComputedStyle(cell).outlineStyle, cell.textContent]),
    notes: [...shown.querySelectorAll('article p')].map(one => one.textContent),
    lent: [...shown.querySelectorAll('.lent')].map(one => frame.getComputedStyle(one).borderLeftStyle + ' ' + one.querySelector('h2, h3').textContent),
    broken: [...shown.querySelectorAll('a')].filter(one => one.hash && !shown.getElementById(one.hash.slice(1))).map(one => one.hash),
    page: shown.documentElement.scrollWidth,
    frame: shown.documentElement.clientWidth,
    fetched: frame.performance.getEntriesByType('resource').length,
    pictures: [...shown.querySelectorAll('svg')].map(one => Math.round(one.getBoundingClientRect().width)),
  };
  document.querySelector('pre').textContent = JSON.stringify(seen).replace(/[^ -~]|[<>&]/g,
    unit => '\\u' + unit.charCodeAt(0).toString(16).padStart(4, '0'));
});
</script>"#;

/// None where the machine has no browser.
fn show(folder: &Folder, page: &str, width: u32) -> Option<Json> {
    let holder = HOLDER
        .replace("PAGE", page)
        .replace("WIDTH", &width.to_string())
        .replace("EVERY", &EVERY.to_string());
    let seen = browse(folder, &folder.put("holder.html", holder.as_bytes()))?;
    assert_eq!(seen.console, [""; 0], "on the console");
    let (_, after) = seen.page.split_once("<pre>").expect("the answer");
    let (answer, _) = after.split_once("</pre>").expect("its end");
    Some(json(answer))
}

fn texts(list: &Json) -> Vec<String> {
    list.list().iter().map(Json::text).collect()
}

fn report(folder: &Folder, files: &[OsString], options: &[&str]) {
    let out = folder.at("report.html");
    let mut words = [words!["report", "--output", out], files].concat();
    words.extend(options.iter().map(OsString::from));
    run(&words);
    assert!(out.exists());
}

/// That a complaint and a script would be seen here.
#[test]
fn the_browser_tells() {
    let folder = Folder::new();
    let page = folder.put(
        "x.html",
        b"<!DOCTYPE html><title>x</title><p>text<script>console.error('seen'); document.title = 'run'</script>",
    );
    let Some(seen) = browse(&folder, &page) else {
        return;
    };
    assert!(
        seen.console.iter().any(|line| line.contains("seen")),
        "{:?}",
        seen.console
    );
    assert!(seen.page.contains("<title>run</title>"), "{}", seen.page);
}

/// The cells' texts, as the stored case has them (`cases/cells.out`), and where they stand.
#[test]
fn cells() {
    let folder = Folder::new();
    report(
        &folder,
        words![case("cells.in"), case("ride.in"), case("dates.in")],
        &[],
    );
    let Some(seen) = show(&folder, "report.html", 1_300) else {
        return;
    };
    let grids = seen.get("grids").list();
    let rows: Vec<_> = grids[0].list().iter().map(texts).collect();
    let wanted: [&[&str]; 8] = [
        &[
            "", "A", "B", "C", "D", "E", "F", "G", "H", "I", "J", "K–IT", "IU", "IV",
        ],
        &[
            "1",
            "blank",
            "3.141592653589793",
            "0.01",
            "1234321",
            "-1",
            "",
        ],
        &["2", "", "false", "true", "#DIV/0!", "", "#N/A"],
        &["3", "", "1", "2", "-0.0", ""],
        &["4", "", "blank", "blank"],
        &["5", "blank", ""],
        &["6–9", "no cells"],
        &["10", "\u{192} number1", ""],
    ];
    assert_eq!(rows, wanted);
    let ride: Vec<_> = grids[1].list().iter().map(texts).collect();
    assert_eq!(ride.len(), 10);
    assert_eq!(ride[1], ["1", "1024", "10", "100"]);
    let dated: Vec<_> = grids[2].list().iter().map(texts).collect();
    assert_eq!(dated[1], ["1", "start", "pulse", ""]);
    assert_eq!(dated[2][..3], ["2", "2004-02-29T18:00:00", "72.5"]);
    assert_eq!(
        texts(seen.get("headings")),
        [
            "h1 Report on 3 workbooks",
            "h2 cells.in",
            "h3 Sheets",
            "h3 Sheet 0: Sheet1",
            "h2 ride.in",
            "h3 Cadence",
            "h3 Sheets",
            "h3 Sheet 0: Sheet1",
            "h2 dates.in",
            "h3 Sheets",
            "h3 Sheet 0: Sheet1",
            "h2 How to read this page",
        ]
    );
    let aligned = seen.get("aligned");
    for (class, side) in [
        ("", "right"),
        ("d", "right"),
        ("t", "start"),
        ("b", "center"),
    ] {
        assert_eq!(aligned.get(class).text(), side, "{class}");
    }
    assert_eq!(seen.get("fetched").number(), 0.0);
    assert_eq!(seen.get("pictures").list()[0].number(), 960.0);
}

/// A page is never wider than its window: what is wide scrolls by itself.
#[test]
fn narrow_windows() {
    let folder = Folder::new();
    let wide = folder.put(
        "a-name-as-long-as-no-narrow-window-can-show-it-in-one-line.bin",
        &streams::big(streams::Big::Numbers, 20_000),
    );
    report(
        &folder,
        words![
            wide,
            case("ride.in"),
            case("refused-6-column.in"),
            case("65536-bytes.in")
        ],
        &[],
    );
    for width in [320, 800] {
        let Some(seen) = show(&folder, "report.html", width) else {
            return;
        };
        let (page, frame) = (seen.get("page").number(), seen.get("frame").number());
        assert!(
            frame <= f64::from(width) && page <= frame,
            "{page} in {frame}"
        );
        assert!(seen.get("pictures").list()[0].number() >= 600.0);
    }
}

/// What a hostile workbook adds to the page are characters, and nothing else: no element, no attribute, no fetch, no title.
#[test]
fn hostile_texts_are_texts() {
    let folder = Folder::new();
    let plain = folder.put(
        "plain.bin",
        &fs::read(case("results.in")).expect("an input"),
    );
    let kinds = |files: &[OsString]| {
        report(&folder, files, &[]);
        let seen = show(&folder, "report.html", 1_300)?;
        let names = ["elements", "attributes"].map(|name| texts(seen.get(name)));
        Some((names.concat().into_iter().collect::<BTreeSet<_>>(), seen))
    };
    let Some((known, _)) = kinds(words![plain, case("chart-and-macro.in")]) else {
        return;
    };
    let name = "<script>alert(1)<\u{7}script>\"'><img src=x onerror=alert(1)>";
    let file = folder.put(name, &hostile());
    let (met, seen) = kinds(words![file, plain]).expect("a browser");
    let new: Vec<_> = met.difference(&known).collect();
    assert_eq!(new, [""; 0]);
    assert_eq!(seen.get("title").text(), "Report on 2 workbooks");
    assert_eq!(seen.get("fetched").number(), 0.0);
    let rows: Vec<_> = seen.get("grids").list()[0]
        .list()
        .iter()
        .map(texts)
        .collect();
    for (row, shown) in [
        (1, "<script>document.title='owned'</script>"),
        (2, "\"><img src=x onerror=alert(1)>"),
        (4, "</td></table></style><h1>x</h1>"),
        (5, "&lt;b&gt;&#60;i&#62;<!--"),
        (6, "aU+0000U+0001U+001B[31mU+007FU+0085U+2028"),
        (7, "U+202EevilU+2066U+200F"),
        (9, "U+D800<U+DC00"),
    ] {
        assert_eq!(
            rows[row][1..],
            [shown.to_string(), format!("\u{192} text{shown}")]
        );
    }
    let heading = texts(seen.get("headings")).into_iter().nth(1);
    assert_eq!(
        heading.as_deref(),
        Some("h2 <script>alert(1)<\\u{7}script>\"'><img src=x onerror=alert(1)>")
    );
}

/// A long session is set in columns, and a sheet of paper has about 174 of its rows; in one column it had 58.
#[test]
fn long_sessions_on_paper() {
    let folder = Folder::new();
    let rows: Vec<_> = (0..3_000).map(|row| [row * 700, row, row]).collect();
    let file = folder.put("long.bin", &made::session(&rows));
    report(&folder, words![file], &["--full"]);
    let Some(sheets) = print(&folder, "report.html") else {
        return;
    };
    assert!((15..=30).contains(&sheets), "{sheets} sheets of paper");
}

/// A folder with what pages with marks are made of. The texts and names are these, or plain ones.
fn marked(texts: &[Vec<u16>], name: &str) -> (Folder, [Vec<OsString>; 2]) {
    let folder = Folder::new();
    let sheet = |name: &[u16], records| Sheet {
        kind: made::WORKSHEET,
        name: name.iter().copied().take(31).collect(),
        records,
    };
    let labels = |first: u32| -> Vec<_> {
        let label = |row: u16| made::text(row, 0, (first + u32::from(row)) % texts.len() as u32);
        (0..texts.len() as u16).map(label).collect()
    };
    // A session without strings over a template, and the journal of a correction of its second row.
    let template = [sheet(&texts[0], vec![]), sheet(&texts[1], labels(0))];
    let template = made::book(texts, &template);
    let mut session = made::book_of(&[], &[sheet(&texts[2], labels(0))]);
    let mut journal = vec![0; 16 + 28];
    second_reader::pair_start_journal(&template, &session, &mut journal).expect("it passes");
    let value = NewValue::Text(2);
    second_reader::pair_correct_journalled(&template, &mut session, &mut journal, 0, 1, 0, value)
        .expect("granted");
    // Two revisions with every row another text, the first sheet another name, and one sheet less.
    let old = [sheet(&texts[0], labels(0)), sheet(&texts[1], vec![])];
    let new = [sheet(&texts[1], labels(1))];
    let put = |kind: &str, bytes: &[u8]| folder.put(format!("{kind}{name}"), bytes);
    let [session, template] = [put("session", &session), put("template", &template)];
    let journal = put("journal", &journal);
    let [old, new] = [&old[..], &new].map(|sheets| made::book(texts, sheets));
    let [old, new] = [put("old", &old), put("new", &new)];
    let over = words![session, "--template", template, "--journal", journal].to_vec();
    let against = words![new, "--against", old].to_vec();
    (folder, [over, against])
}

/// The marks of a journal, of a template's session and of an old revision, in texts and names that would be markup if they could.
#[test]
fn marks_are_texts() {
    let plain: Vec<_> = ["a", "b", "c", "d"].map(units).to_vec();
    let hostile: Vec<_> = HOSTILE.iter().map(|text| units(text)).collect();
    let pages = |texts: &[Vec<u16>], name: &str| {
        let (folder, calls) = marked(texts, name);
        calls.map(|call| {
            report(&folder, &call, &[]);
            let narrow = show(&folder, "report.html", 320)?;
            let [page, frame] = ["page", "frame"].map(|name| narrow.get(name).number());
            assert!(page <= frame, "{page} in {frame}");
            let seen = show(&folder, "report.html", 1_300)?;
            assert_eq!(seen.get("fetched").number(), 0.0);
            assert_eq!(texts_of(&seen, "broken"), [""; 0]);
            Some(seen)
        })
    };
    let [Some(over), Some(against)] = pages(&plain, ".bin") else {
        return;
    };
    // What must be there, by the made streams.
    assert_eq!(
        list(&over, "marks"),
        [["corrected", "solid", "ccorrected, was b"]]
    );
    assert_eq!(
        texts_of(&over, "lent"),
        ["double Sheet 1 of the template: b"]
    );
    assert_eq!(
        list(&over.get("lists").list()[0], ""),
        [
            ["Entry", "Sheet", "Cell", "Old value", "New value"],
            ["0", "0", "A2", "b", "c"]
        ]
    );
    assert_eq!(
        list(&against.get("lists").list()[0], ""),
        [
            ["Sheet", "Cell", "Old value", "New value"],
            ["0", "its name", "a", "b"],
            ["0", "A1", "\"a\"", "\"b\""],
            ["0", "A2", "\"b\"", "\"c\""],
            ["0", "A3", "\"c\"", "\"d\""],
            ["0", "A4", "\"d\"", "\"a\""],
        ]
    );
    let marks = list(&against, "marks");
    assert_eq!(marks[0], ["differs", "dashed", "bdiffers, was \"a\""]);
    assert_eq!(marks.len(), 4);
    let notes = texts_of(&against, "notes");
    assert!(
        notes.contains(&"Its name differs, was a".to_string()),
        "{notes:?}"
    );

    let kinds = |seen: &Json| {
        ["elements", "attributes"]
            .map(|name| texts_of(seen, name))
            .concat()
    };
    let known: BTreeSet<_> = [&over, &against].into_iter().flat_map(kinds).collect();
    let name = "<script>alert(1)<\u{7}script>\"'><img src=x onerror=alert(1)>";
    let [Some(over), Some(against)] = pages(&hostile, name) else {
        panic!("there was a browser");
    };
    for seen in [&over, &against] {
        let met: BTreeSet<_> = kinds(seen).into_iter().collect();
        let new: Vec<_> = met.difference(&known).collect();
        assert_eq!(new, [""; 0]);
        let title = seen.get("title").text();
        assert!(
            title.ends_with("script>\"'><img src=x onerror=alert(1)>"),
            "{title}"
        );
    }
    let [first, second, third] = [HOSTILE[0], HOSTILE[1], HOSTILE[2]];
    assert_eq!(
        list(&over, "marks"),
        [[
            "corrected",
            "solid",
            &format!("{third}corrected, was {second}")
        ]]
    );
    let cut: String = second.chars().take(31).collect();
    let lent = format!("double Sheet 1 of the template: {cut}");
    assert_eq!(texts_of(&over, "lent"), [lent]);
    let lines = list(&against.get("lists").list()[0], "");
    assert_eq!(lines.len(), 2 + HOSTILE.len());
    let quoted = |text: &str| format!("\"{}\"", text.replace('"', "\\\""));
    assert_eq!(lines[2][2..], [quoted(first), quoted(second)]);
    let marks = list(&against, "marks");
    assert_eq!(
        marks[0][2],
        format!("{second}differs, was {}", quoted(first))
    );
}

fn texts_of(seen: &Json, name: &str) -> Vec<String> {
    texts(seen.get(name))
}

/// The lists of texts of this name, or here.
fn list(seen: &Json, name: &str) -> Vec<Vec<String>> {
    let lists = if name.is_empty() {
        seen
    } else {
        seen.get(name)
    };
    lists.list().iter().map(texts).collect()
}

/// The rows of the longest session, as they were made.
#[test]
fn a_full_session() {
    let folder = Folder::new();
    let rows: Vec<_> = (0..65_536).map(|row| [row * 700, row, row]).collect();
    let file = folder.put("long.bin", &made::session(&rows));
    report(&folder, words![file], &["--full"]);
    let Some(seen) = show(&folder, "report.html", 1_300) else {
        return;
    };
    // in parts of a thousand rows, each with heads of its own
    assert_eq!(seen.get("rows").number(), 65_536.0 + 66.0);
    let mut told = 0;
    for (part, shown) in seen.get("grids").list().iter().enumerate() {
        let lines = (0..).filter(|line| *line < 100 || line % EVERY == 0);
        for (line, shown) in lines.zip(shown.list()).skip(1) {
            let number = part * 1_000 + line;
            let [ticks, turns, seconds] = rows[number - 1];
            let wanted = [number as u64, ticks % 65_536, turns, seconds];
            assert_eq!(texts(shown), wanted.map(|number| number.to_string()));
            told += 1;
        }
    }
    assert!(told > 66 * 100, "only {told} rows");
}
