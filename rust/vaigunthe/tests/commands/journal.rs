//! correct --journal, journal, replay and report --journal. What a journal must hold is taken from the second reader, or written down after document 02.

use crate::correct::{ask, assert_holds, correct, in_place, sample, state, to};
use crate::tool::{case, finish, run, run_with, Folder, Ran, TOOL};
use crate::words;
use second_reader::{Direction, NewValue};
use std::ffi::OsString;
use std::fs;
use std::path::Path;
use std::process::{Child, Command, Stdio};

/// Three corrections of the sample: of a number, a text, and an error that becomes a truth.
const MADE: [(u32, &str, NewValue); 3] = [
    (0, "0 A1 number -2.25", NewValue::Number(-2.25)),
    (1, "0 1 0 text --text one", NewValue::Text(1)),
    (2, "0 A3 truth true", NewValue::Truth(1)),
];

/// The sample and its journal after so many of them, by the second reader.
fn made(count: usize) -> (Vec<u8>, Vec<u8>) {
    let (mut stream, mut journal) = (sample(), vec![0; 16 + 28 * count]);
    second_reader::start_journal(&stream, &mut journal).expect("it passes");
    for (row, _, value) in &MADE[..count] {
        second_reader::correct_journalled(&mut stream, &mut journal, 0, *row, 0, *value)
            .expect("granted");
    }
    (stream, journal)
}

fn kept(target: Vec<OsString>, journal: &Path) -> Vec<OsString> {
    [target, vec!["--journal".into(), journal.into()]].concat()
}

#[test]
fn both_are_replaced() {
    let folder = Folder::new();
    let (file, journal) = (folder.put("in", &sample()), folder.at("journal"));
    for (count, (_, question, _)) in MADE.iter().enumerate() {
        correct(&file, question, &kept(in_place(), &journal)).says(0, "granted\n");
        let (stream, entries) = made(count + 1);
        assert_holds(&file, &stream);
        assert_holds(&journal, &entries);
        assert_eq!(folder.names(), ["in", "journal"]);
    }
    // Into another file, with room in the journal and a tail that isn't judged.
    let (stream, mut entries) = made(1);
    entries.extend([0xEE; 30]);
    let (file, journal) = (folder.put("one", &stream), folder.put("room", &entries));
    let out = folder.at("out");
    correct(&file, MADE[1].1, &kept(to(&out), &journal)).says(0, "granted\n");
    let (after, mut wanted) = made(2);
    wanted.extend([0xEE; 2]);
    assert_holds(&file, &stream);
    assert_holds(&out, &after);
    assert_holds(&journal, &wanted);
}

#[test]
fn refusals_touch_neither() {
    let folder = Folder::new();
    let (stream, entries) = made(2);
    let (file, journal) = (folder.put("in", &stream), folder.put("journal", &entries));
    let mut other = entries.clone();
    other[8] ^= 1;
    let other = folder.put("other", &other);
    let before = [&file, &journal, &other].map(|path| state(path));
    let names = folder.names();
    for (question, journal, line) in [
        ("0 9 9 number 1", &journal, "refused 11 at 0"),
        ("0 4 0 number 1", &journal, "refused 16 at 0"),
        ("0 3 0 number 1", &journal, "refused 17 at 0"),
        ("0 1 0 text 2", &journal, "refused 18 at 0"),
        ("0 0 0 number 1", &other, "refused 21 at 0"),
        ("0 9 9 number 1", &other, "refused 21 at 0"),
        ("0 9 9 number 1", &folder.at("new"), "refused 11 at 0"),
    ] {
        for target in [in_place(), to(folder.at("out"))] {
            correct(&file, question, &kept(target, journal)).refuses(line);
            let after = [&file, &folder.at("journal"), &other].map(|path| state(path));
            assert_eq!(after, before);
            assert_eq!(folder.names(), names);
        }
    }
    // A stream that is refused comes before its journal.
    let bad = folder.put("bad", &stream[1..]);
    correct(&bad, "0 0 0 number 1", &kept(in_place(), &other)).refuses("refused 3 at 0");
}

#[test]
fn what_no_journal_can_be() {
    let folder = Folder::new();
    let file = folder.put("in", &sample());
    let question = "0 0 0 number 1";
    correct(&file, question, &kept(in_place(), &file)).fails("can't be one file");
    correct(
        &file,
        question,
        &kept(to(folder.at("x")), &folder.at("./x")),
    )
    .fails("one file");
    correct(&file, question, &kept(in_place(), Path::new("-"))).fails("takes a file");
    correct(&file, question, &kept(to("-"), &folder.at("j"))).fails("--journal goes with");
    correct(&file, question, &kept(in_place(), folder.path())).fails("not a regular file");
    correct(&file, question, &kept(in_place(), &folder.at("no/j"))).fails("no/j");
    assert_holds(&file, &sample());
    assert_eq!(folder.names(), ["in"]);
}

/// A run that was killed between stream and journal, before it, or while it wrote the new journal.
#[test]
fn a_run_that_was_killed_is_settled() {
    let left = ".journal.vaigunthe-next";
    let (third, whole) = made(3);
    for (killed, settled) in [
        // The stream had been replaced: the entry is put in its place.
        ((2, whole_of(2)), true),
        // It hadn't: the entry goes.
        ((1, whole_of(2)), false),
        ((1, cut(2, 1)), false),
        ((1, cut(2, 30)), false),
        ((1, Vec::new()), false),
    ] {
        let folder = Folder::new();
        let (stream, _) = made(killed.0);
        let (file, journal) = (folder.put("in", &stream), folder.put("journal", &made(1).1));
        folder.put(left, &killed.1);
        let before = folder.names();
        // Reading changes nothing, and says so.
        let listed = run(words!["journal", journal]);
        assert_eq!(listed.status, Some(0));
        let reported = run(words!["report", file, "--journal", journal]);
        assert_eq!(reported.status, Some(0));
        for ran in [listed, reported] {
            let told = ran.err.contains("left one more entry");
            assert_eq!(told, !killed.1.is_empty(), "{}", ran.err);
        }
        assert_eq!(folder.names(), before);
        if !settled {
            correct(&file, MADE[1].1, &kept(in_place(), &journal)).says(0, "granted\n");
            assert_eq!(fs::read(&journal).expect("it"), made(2).1);
        }
        let ran = correct(&file, MADE[2].1, &kept(in_place(), &journal));
        assert_eq!((ran.status, ran.text()), (Some(0), "granted\n"));
        assert_eq!(ran.err.contains("put in its place"), settled, "{}", ran.err);
        assert_holds(&file, &third);
        assert_holds(&journal, &whole);
        assert_eq!(folder.names(), ["in", "journal"]);
    }
    // A refusal settles it too; another stream's is left alone.
    let folder = Folder::new();
    let (file, journal) = (
        folder.put("in", &made(1).0),
        folder.put("journal", &made(1).1),
    );
    folder.put(left, &whole_of(2));
    let other = folder.put("other", &made(3).0);
    fs::write(&other, case_bytes("cells.in")).expect("a file");
    correct(&other, "0 B1 number 1", &kept(in_place(), &journal)).fails("neither as before");
    assert_holds(&folder.at(left), &whole_of(2));
    correct(&file, "0 3 0 number 1", &kept(in_place(), &journal)).refuses("refused 17 at 0");
    assert_holds(&journal, &made(1).1);
    assert_eq!(folder.names(), ["in", "journal", "other"]);
}

fn whole_of(count: usize) -> Vec<u8> {
    made(count).1
}

fn cut(count: usize, bytes: usize) -> Vec<u8> {
    let whole = whole_of(count);
    whole[..whole.len() - bytes].to_vec()
}

fn case_bytes(name: &str) -> Vec<u8> {
    fs::read(case(name)).expect("a stored case")
}

extern "C" {
    fn kill(process: i32, signal: i32) -> i32;
}

/// Kills a run as soon as it has written something, or lets it end.
fn killed(mut command: Command, folder: &Folder, moment: usize) -> bool {
    let mut child: Child = command
        .stdout(Stdio::null())
        .spawn()
        .expect("the tool starts");
    let mut seen = 0;
    loop {
        if folder
            .names()
            .iter()
            .any(|name| name.contains("vaigunthe-"))
        {
            seen += 1;
        }
        if seen > moment {
            // SAFETY: the child hasn't been waited for, so the number is still its own.
            unsafe { kill(child.id() as i32, 9) };
            child.wait().expect("the tool ends");
            return true;
        }
        if child.try_wait().expect("the tool").is_some() {
            return false;
        }
    }
}

/// Whenever a run is killed, after the next granted correction the journal leads from the first stream to the last, and back.
#[test]
fn killed_at_any_moment() {
    let original = streams::big(streams::Big::Numbers, 2_000_000);
    let folder = Folder::new();
    let (file, journal) = (folder.put("in", &original), folder.at("journal"));
    let target = kept(in_place(), &journal);
    let mut caught = 0;
    for moment in 0..25 {
        let question = format!("0 0 0 number {moment}");
        let call = ask(Command::new(TOOL), &file, &question, &target);
        caught += usize::from(killed(call, &folder, moment * 3));
        let question = format!("0 1 0 number {moment}");
        let ran = correct(&file, &question, &target);
        assert_eq!(
            (ran.status, ran.text()),
            (Some(0), "granted\n"),
            "{}",
            ran.err
        );
        let (mut stream, last) = (original.clone(), fs::read(&file).expect("the file"));
        let entries = fs::read(&journal).expect("the journal");
        let all = second_reader::replay(&mut stream, &entries, Direction::Forwards);
        assert!(all.is_ok_and(|count| count > moment as u32));
        assert!(stream == last);
        assert_eq!(folder.names(), ["in", "journal"]);
    }
    assert!(caught > 3, "only {caught} runs were caught");
}

/// Runs with one journal wait for each other.
#[test]
fn many_at_once() {
    let folder = Folder::new();
    let file = folder.put("in", &sample());
    let journal = folder.at("journal");
    let target = kept(in_place(), &journal);
    let runs: Vec<_> = (0..12)
        .map(|number| {
            let question = format!("0 0 0 number {number}");
            let mut call = ask(Command::new(TOOL), &file, &question, &target);
            call.stdout(Stdio::null()).spawn().expect("the tool starts")
        })
        .collect();
    for mut run in runs {
        assert!(run.wait().expect("the tool").success());
    }
    let (mut stream, entries) = (sample(), fs::read(&journal).expect("the journal"));
    let all = second_reader::replay(&mut stream, &entries, Direction::Forwards);
    assert_eq!(all, Ok(12));
    assert_holds(&file, &stream);
    assert_eq!(folder.names(), ["in", "journal"]);
}

#[test]
fn listed() {
    let folder = Folder::new();
    let (stream, entries) = made(3);
    let (file, journal) = (folder.put("in", &stream), folder.put("journal", &entries));
    run(words!["journal", journal]).says(
        0,
        "0\t0\t\tA1\tnumber\t1.5\t-2.25\n1\t0\t\tA2\ttext\tindex:0\tindex:1\n2\t0\t\tA3\ttruth\t#N/A\ttrue\n",
    );
    let named = "0\t0\tS\tA1\tnumber\t1.5\t-2.25\n1\t0\tS\tA2\ttext\tzero\tone\n2\t0\tS\tA3\ttruth\t#N/A\ttrue\n";
    let name = second_reader_name(&stream);
    run(words!["journal", journal, file]).says(0, &named.replace("\tS\t", &format!("\t{name}\t")));
    // The stream before the corrections does as well.
    let before = folder.put("before", &sample());
    run(words!["journal", journal, before])
        .says(0, &named.replace("\tS\t", &format!("\t{name}\t")));
    let csv = "entry,sheet,sheet_name,cell,kind,old,new\r\n0,0,,A1,number,1.5,-2.25\r\n1,0,,A2,text,index:0,index:1\r\n2,0,,A3,truth,#N/A,true\r\n";
    run(words!["journal", journal, "--csv"]).says(0, csv);
    let json = run(words!["journal", journal, file, "--json"]);
    let wanted = format!(
        "{{\"entries\":[\n{{\"entry\":0,\"sheet\":0,\"sheet_name\":\"{name}\",\"cell\":\"A1\",\"kind\":\"number\",\"old\":1.5,\"new\":-2.25}},\n\
         {{\"entry\":1,\"sheet\":0,\"sheet_name\":\"{name}\",\"cell\":\"A2\",\"kind\":\"text\",\"old\":\"zero\",\"new\":\"one\"}},\n\
         {{\"entry\":2,\"sheet\":0,\"sheet_name\":\"{name}\",\"cell\":\"A3\",\"kind\":\"truth\",\"old\":\"#N/A\",\"new\":true}}\n]}}\n"
    );
    json.says(0, &wanted);
    run_with(&["journal", "-"], &entries).says(0, run(words!["journal", journal]).text());
    let none = folder.put("none", &made(0).1);
    run(words!["journal", none]).says(0, "");
    run(words!["journal", none, "--json"]).says(0, "{\"entries\":[\n]}\n");
}

/// The name of the only sheet.
fn second_reader_name(stream: &[u8]) -> String {
    let reading = second_reader::read(stream).expect("it passes");
    let sheet = &reading.sheets[0];
    let step = if sheet.wide { 2 } else { 1 };
    let bytes = stream[sheet.name.clone()].iter().step_by(step);
    bytes.map(|&byte| char::from(byte)).collect()
}

#[test]
fn what_isnt_listed() {
    let folder = Folder::new();
    let (stream, entries) = made(2);
    let file = folder.put("in", &stream);
    let mut spoiled = vec![
        entries[..15].to_vec(),
        entries[..entries.len() - 1].to_vec(),
        Vec::new(),
    ];
    // The offset, a kind, a count of old bytes, what is after old bytes and after a new value.
    for at in [4, 24, 26, 61, 69] {
        let mut one = entries.clone();
        one[at] ^= 0x41;
        spoiled.push(one);
    }
    for bytes in &spoiled {
        let journal = folder.put("spoiled", bytes);
        run(words!["journal", journal]).refuses_data("refused 21 at 0");
        run(words!["journal", journal, file]).refuses_data("refused 21 at 0");
    }
    // Another stream's: only the stream tells.
    let mut other = entries.clone();
    other[8] ^= 1;
    let journal = folder.put("other", &other);
    assert_eq!(run(words!["journal", journal]).status, Some(0));
    run(words!["journal", journal, file]).refuses_data("refused 21 at 0");
    let bad = folder.put("bad", &stream[1..]);
    run(words!["journal", journal, bad]).refuses_data("refused 3 at 0");
    // Forged values are shown as what they are.
    let mut forged = made(3).1;
    forged[16 + 28 + 12] = 9;
    forged[16 + 56 + 12] = 0xFE;
    forged[16 + 56 + 20] = 7;
    let journal = folder.put("forged", &forged);
    let listed = run(words!["journal", journal, file]);
    assert!(
        listed.text().contains("\tindex:9\tone\n"),
        "{}",
        listed.text()
    );
    assert!(
        listed.text().contains("\terror:FE\ttruth:7\n"),
        "{}",
        listed.text()
    );
    run(words!["journal", journal, file, "more"]).fails("'more' is one too many");
    run(words!["journal", journal, "--template", file]).fails("--template goes with FILE");
    run(words!["journal", journal, "--csv", "--json"]).fails("one is enough");
    run(words!["journal", "-", "-"]).fails("only once");
    run(words!["journal", folder.at("absent")]).fails("absent");
}

fn replay(file: &Path, journal: &Path, more: &[OsString]) -> Ran {
    let words = [words!["replay", file, journal], more].concat();
    run(&words)
}

#[test]
fn replayed_both_ways() {
    let folder = Folder::new();
    let (last, entries) = made(3);
    let journal = folder.put("journal", &entries);
    let (first, last_file) = (folder.put("first", &sample()), folder.put("last", &last));
    let out = folder.at("out");
    replay(&first, &journal, &to(&out)).says(0, "replayed 3\n");
    assert_holds(&out, &last);
    let backwards = |out: Vec<OsString>| [out, vec!["--backwards".into()]].concat();
    replay(&last_file, &journal, &backwards(to(&out))).says(0, "replayed 3\n");
    assert_holds(&out, &sample());
    // In its own place, and to standard output.
    replay(&out, &journal, &to(&out)).says(0, "replayed 3\n");
    assert_holds(&out, &last);
    let ran = replay(&first, &journal, &to("-"));
    assert_eq!((ran.status, &ran.err[..]), (Some(0), "replayed 3\n"));
    assert_eq!(ran.out, last);
    // What stops it writes nothing, not the entries before it either.
    let names = folder.names();
    let ran = replay(&last_file, &journal, &to(&out));
    assert_eq!((ran.status, ran.text()), (Some(1), "refused 19 at 0\n"));
    assert!(
        ran.err.contains("last: refused 19 at entry 0: "),
        "{}",
        ran.err
    );
    let (second, _) = made(2);
    let second = folder.put("second", &second);
    let ran = replay(&second, &journal, &backwards(to(&out)));
    assert_eq!((ran.status, ran.text()), (Some(1), "refused 19 at 2\n"));
    let ran = replay(&second, &journal, &backwards(to("-")));
    assert_eq!((ran.status, ran.text()), (Some(1), ""));
    assert!(ran.err.starts_with("refused 19 at 2\n"), "{}", ran.err);
    assert_holds(&out, &last);
    let cut = folder.put("cut", &entries[..40]);
    replay(&first, &cut, &to(&out)).refuses("refused 21 at 0");
    assert_holds(&out, &last);
    replay(&first, &journal, &to(&journal)).fails("not written over");
    replay(&first, &journal, &[]).fails("--output is needed");
    assert_holds(&journal, &entries);
    let mut all = names;
    all.extend(["second".to_string(), "cut".to_string()]);
    all.sort();
    assert_eq!(folder.names(), all);
}

/// A session over its template: its texts are the template's.
#[test]
fn over_a_template() {
    let folder = Folder::new();
    let (template, session) = (case_bytes("template.in"), case_bytes("day.in"));
    let (mut stream, mut entries) = (session.clone(), vec![0; 16 + 28]);
    second_reader::pair_start_journal(&template, &stream, &mut entries).expect("it passes");
    let (row, column, text) = first_text(&template, &session);
    let value = NewValue::Text((text + 1) % 3);
    second_reader::pair_correct_journalled(
        &template,
        &mut stream,
        &mut entries,
        0,
        row,
        column,
        value,
    )
    .expect("granted");
    let (t, first) = (folder.put("t", &template), folder.put("first", &session));
    let (last, journal) = (folder.put("last", &stream), folder.put("journal", &entries));
    let out = folder.at("out");
    let over =
        |target: Vec<OsString>| [target, vec!["--template".into(), t.clone().into()]].concat();
    replay(&first, &journal, &over(to(&out))).says(0, "replayed 1\n");
    assert_holds(&out, &stream);
    let backwards = [over(to(&out)), vec!["--backwards".into()]].concat();
    replay(&last, &journal, &backwards).says(0, "replayed 1\n");
    assert_holds(&out, &session);
    // Corrected by the tool it ends in the same bytes; a sheet of the template changes nothing.
    let (fresh, kept_in) = (folder.put("fresh", &session), folder.at("kept"));
    let target = over(kept(in_place(), &kept_in));
    let question = format!("0 {row} {column} text {}", (text + 1) % 3);
    correct(&fresh, &question, &target).says(0, "granted\n");
    let refused = correct(&fresh, "1 0 0 text 0", &target);
    assert_eq!(
        (refused.status, refused.text()),
        (Some(1), "refused 17 at 0\n")
    );
    assert_holds(&fresh, &stream);
    assert_holds(&kept_in, &entries);
    // Alone it has no strings.
    replay(&first, &journal, &to(&out)).refuses(&format!("refused 9 at {}", first_label(&session)));
    let listed = run(words!["journal", journal, last, "--template", t]);
    assert_eq!(listed.status, Some(0), "{}", listed.err);
    assert!(!listed.text().contains("index:"), "{}", listed.text());
    replay(
        &first,
        &journal,
        &[to(&t), vec!["--template".into(), t.clone().into()]].concat(),
    )
    .fails("not written over");
    let report = |file: &Path, template: &Path| {
        run(words![
            "report",
            file,
            "--journal",
            journal,
            "--template",
            template
        ])
    };
    let page = report(&last, &t);
    assert_eq!((page.status, &page.err[..]), (Some(0), ""));
    for wanted in [
        "<h2>Corrections</h2>\n<p>1 correction.",
        "<p>The workbook holds what they wrote.</p>",
        "<tr><td>0<td><a href=#w1-s0>0</a><th scope=row>A1<td class=t dir=auto>time</td><td class=t dir=auto>pulse</td>\n",
        "<td class=\"t corrected\" dir=auto>pulse<small class=was dir=ltr>corrected, was <bdi>time</bdi></small></td>",
    ] {
        assert!(page.text().contains(wanted), "{wanted}\n{}", page.text());
    }
    let before = report(&first, &t);
    assert!(before
        .text()
        .contains("<p>The workbook is as it was before them.</p>"));
    // A journal of another stream, and a template that is refused.
    report(&case("ride.in"), &t).refuses_data("refused 21 at 0");
    let bad = folder.put("bad", &template[1..]);
    let page = report(&last, &bad);
    assert_eq!(page.status, Some(1));
    assert!(page
        .text()
        .contains("<strong>Refused 3 at 0 of the template</strong>"));
    let refused = run(words!["journal", journal, last, "--template", bad]);
    assert!(
        refused.err.contains("refused 3 at 0 of template"),
        "{}",
        refused.err
    );
}

/// Where a session's first text cell is, and its index.
fn first_text(template: &[u8], session: &[u8]) -> (u32, u32, u32) {
    let mut found = None;
    second_reader::pair_cells(template, session, 0, |cell| {
        if let second_reader::Value::Text(index) = cell.value {
            found.get_or_insert((cell.row.into(), cell.column.into(), index));
        }
    })
    .expect("it passes");
    found.expect("a text")
}

/// Where its record stands.
fn first_label(session: &[u8]) -> usize {
    second_reader::check(session)
        .expect_err("no strings")
        .offset
}

#[test]
fn reported() {
    let folder = Folder::new();
    let (stream, entries) = made(3);
    let (file, journal) = (folder.put("in", &stream), folder.put("journal", &entries));
    let report = |journal: &Path| run(words!["report", file, "--journal", journal]);
    let page = report(&journal);
    assert_eq!((page.status, &page.err[..]), (Some(0), ""));
    let text = page.text();
    assert!(
        text.contains("<h2>Corrections</h2>\n<p>3 corrections."),
        "{text}"
    );
    for row in [
        "<tr><td>0<td><a href=#w1-s0>0</a><th scope=row>A1<td class=t dir=auto>1.5</td><td class=t dir=auto>-2.25</td>",
        "<tr><td>1<td><a href=#w1-s0>0</a><th scope=row>A2<td class=t dir=auto>zero</td><td class=t dir=auto>one</td>",
        "<tr><td>2<td><a href=#w1-s0>0</a><th scope=row>A3<td class=t dir=auto>#N/A</td><td class=t dir=auto>true</td>",
        "corrected, was <bdi>1.5</bdi>",
        "<p>The workbook holds what they wrote.</p>",
        &format!("<th scope=row>Journal<td>{}, 100 bytes", journal.display()),
        &format!("<th scope=row>SHA-256 of the journal<td class=digest>{}", sha256(&journal)),
    ] {
        assert!(text.contains(row), "{row}\n{text}");
    }
    let cut = folder.put("cut", &entries[..40]);
    report(&cut).refuses_data("refused 21 at 0");
    run(words!["report", file, file, "--journal", journal]).fails("--journal goes with one file");
    run(words!["report", "-", "--journal", journal]).fails("--journal goes with one file");
    // A workbook that is refused has its page all the same.
    let bad = folder.put("bad", &stream[1..]);
    let page = run(words!["report", bad, "--journal", journal]);
    assert_eq!(page.status, Some(1));
    assert!(page.text().contains("Refused 3 at 0"), "{}", page.text());
}

fn sha256(path: &Path) -> String {
    let digest = Command::new("sha256sum").arg(path).output();
    let digest = String::from_utf8(digest.expect("sha256sum").stdout).expect("hex");
    digest.split(' ').next().expect("a digest").to_string()
}

/// A page says whether the workbook holds what the journal has: before the corrections, after them, and after another.
#[test]
fn what_a_page_says_of_the_workbook() {
    let folder = Folder::new();
    let (stream, entries) = made(3);
    let journal = folder.put("journal", &entries);
    let page = |stream: &[u8], journal: &Path| {
        let file = folder.put("in", stream);
        let ran = run(words!["report", file, "--journal", journal]);
        assert_eq!((ran.status, &ran.err[..]), (Some(0), ""));
        ran.text().to_string()
    };
    let before = page(&sample(), &journal);
    assert!(
        before.contains("<p>The workbook is as it was before them.</p>"),
        "{before}"
    );
    let mut other = stream.clone();
    second_reader::correct(&mut other, 0, 0, 0, NewValue::Number(7.0)).expect("granted");
    let other = page(&other, &journal);
    assert!(
        other.contains(
            "<p>The workbook is neither as they left it nor as it was before them: taken back from the last to the first, \
             entry 0 is refused 19: the cell does not hold what the journal&#39;s entry says.</p>"
        ),
        "{other}"
    );
    let none = folder.put("none", &made(0).1);
    let none = page(&sample(), &none);
    assert!(
        none.contains("<h2>Corrections</h2>\n<p>There is none.</p>\n<h2>"),
        "{none}"
    );
}

/// A long journal makes no long page: so many lines and frames, and the count of the rest.
#[test]
fn many_corrections() {
    let folder = Folder::new();
    let (mut stream, count) = (sample(), 5_000);
    let mut journal = vec![0; 16 + 28 * count];
    second_reader::start_journal(&stream, &mut journal).expect("it passes");
    for number in 0..count {
        let value = NewValue::Number(number as f64);
        second_reader::correct_journalled(&mut stream, &mut journal, 0, 0, 0, value)
            .expect("granted");
    }
    let (file, journal) = (folder.put("in", &stream), folder.put("journal", &journal));
    let part = run(words!["report", file, "--journal", journal]);
    let text = part.text();
    for wanted in [
        "<p>5,000 corrections. ",
        "<tr><td>999<td><a href=#w1-s0>0</a><th scope=row>A1<td class=t dir=auto>998</td><td class=t dir=auto>999</td>",
        "<p class=note>4,000 more are not shown here.</p>",
        "<td class=corrected>4999<small class=was dir=ltr>corrected 5000 times, was <bdi>1.5</bdi></small>",
    ] {
        assert!(text.contains(wanted), "no {wanted}");
    }
    assert!(!text.contains("<tr><td>1000<td>") && text.len() < 200_000);
    let full = run(words!["report", file, "--journal", journal, "--full"]);
    assert!(full.text().contains("<tr><td>4999<td>") && !full.text().contains("not shown"));
}

/// One cell, corrected again and again.
#[test]
fn a_hundred_runs() {
    let folder = Folder::new();
    let original = case_bytes("cells.in");
    let file = folder.put("in", &original);
    let journal = folder.at("journal");
    let target = kept(in_place(), &journal);
    for number in 0..100 {
        let question = format!("0 B1 number {number}.5");
        let mut call = ask(Command::new(TOOL), &file, &question, &target);
        finish(&mut call, b"").says(0, "granted\n");
    }
    let out = folder.at("out");
    let backwards = [to(&out), vec!["--backwards".into()]].concat();
    replay(&file, &journal, &backwards).says(0, "replayed 100\n");
    assert_holds(&out, &original);
}
