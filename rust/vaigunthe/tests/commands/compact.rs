//! compact: what it answers, and what the file then holds. The new streams are the second reader's, or stored.

use crate::correct::{assert_holds, in_place, sample, state, to};
use crate::made::{book, number, one, text, units, Sheet, WORKSHEET};
use crate::tool::{case, finish, run, run_with, Folder, Ran, TOOL};
use crate::words;
use second_reader::PairRefusal;
use std::ffi::OsString;
use std::fs;
use std::path::Path;
use std::process::Command;

fn compact(file: &Path, options: &[OsString]) -> Ran {
    let mut call = Command::new(TOOL);
    finish(call.arg("compact").arg(file).args(options), b"")
}

fn stored(name: &str) -> Vec<u8> {
    fs::read(case(name)).expect("a stored case")
}

fn with(options: &[&[OsString]]) -> Vec<OsString> {
    options.concat()
}

fn dry_run() -> Vec<OsString> {
    vec!["--dry-run".into()]
}

fn over(template: &Path) -> Vec<OsString> {
    vec!["--template".into(), template.into()]
}

/// The stored stream, and what it is without its unused strings.
#[test]
fn the_stored_stream() {
    let (old, new) = (stored("unused-strings.in"), stored("used-strings.in"));
    let answer = format!("written {} freed {}\n", new.len(), old.len() - new.len());
    assert_eq!(answer, "written 281 freed 151\n");
    let folder = Folder::new();
    let file = folder.put("in", &old);
    let before = state(&file);
    let out = folder.at("out");
    compact(&file, &to(&out)).says(0, &answer);
    assert_holds(&out, &new);
    // again, over a file that is there
    compact(&out, &to(&out)).says(0, "written 281 freed 0\n");
    assert_holds(&out, &new);
    assert_eq!(state(&file), before, "the file that was read");
    run(words!["compare", file, out]).says(0, "no differences\n");
    run(words!["compare", file, out, "--lines"]).says(0, "same\n");
    compact(&file, &in_place()).says(0, &answer);
    assert_holds(&file, &new);
    compact(&file, &in_place()).says(0, "written 281 freed 0\n");
    assert_holds(&file, &new);
    assert_eq!(folder.names(), ["in", "out"]);
}

#[test]
fn to_standard_output() {
    let (old, new) = (stored("unused-strings.in"), stored("used-strings.in"));
    let answer = "written 281 freed 151\n";
    let ran = run_with(words!["compact", "-", "--output", "-"], &old);
    assert_eq!((ran.status, &ran.err[..]), (Some(0), answer));
    assert_eq!(ran.out, new);
    let folder = Folder::new();
    let out = folder.at("out");
    run_with(words!["compact", "-", "--output", out], &old).says(0, answer);
    assert_holds(&out, &new);
    let ran = run_with(words!["compact", "-", "--output", "-"], &old[..40]);
    assert_eq!((ran.status, ran.text()), (Some(1), ""));
    let (answer, meaning) = ran.err.split_once('\n').expect("two lines");
    assert!(answer.starts_with("refused "), "{answer}");
    assert!(meaning.starts_with(&format!("vaigunthe: standard input: {answer}: ")));
}

/// It says what it would do, with a target or without, and does nothing.
#[test]
fn a_dry_run_writes_nothing() {
    let folder = Folder::new();
    let file = folder.put("in", &stored("unused-strings.in"));
    let before = state(&file);
    let targets = [vec![], in_place(), to(folder.at("out")), to("-")];
    for target in &targets {
        let ran = compact(&file, &with(&[&dry_run(), target]));
        ran.says(0, "written 281 freed 151\n");
    }
    let refused = folder.put("refused", &stored("refused-6-word.in"));
    for target in &targets {
        compact(&refused, &with(&[&dry_run(), target])).refuses("refused 6 at 62");
    }
    assert_eq!(state(&file), before);
    assert_eq!(folder.names(), ["in", "refused"]);
}

/// A new stream may be longer, and too long.
#[test]
fn a_stream_that_grows() {
    let folder = Folder::new();
    let stream = streams::growing(1, 20_000);
    let mut new = vec![0; 20_000];
    let done = second_reader::compact(&stream, &mut new).expect("a stream that passes");
    assert!(done.freed < 0 && done.written == 20_000);
    let file = folder.put("in", &stream);
    let answer = format!("written 20000 freed {}\n", done.freed);
    compact(&file, &in_place()).says(0, &answer);
    assert_holds(&file, &new);

    let long = streams::growing(2, 16_777_217);
    let file = folder.put("long", &long);
    let before = state(&file);
    for target in [in_place(), to(folder.at("out")), dry_run()] {
        compact(&file, &target).refuses("refused 1 at 0");
    }
    assert!(state(&file) == before);
    assert_eq!(folder.names(), ["in", "long"]);
}

#[test]
fn refusals_touch_nothing() {
    let folder = Folder::new();
    let old = folder.put("old", b"old");
    for (name, refusal) in [
        ("refused-6-word.in", "refused 6 at 62"),
        ("refused-5-encrypted.in", "refused 5 at 20"),
        ("day.in", "refused 9 at 61"),
        ("empty.in", "refused 3 at 0"),
    ] {
        let file = folder.put("in", &stored(name));
        let before = (state(&file), state(&old));
        for target in [in_place(), to(folder.at("new")), to(&old)] {
            compact(&file, &target).refuses(refusal);
            assert_eq!((state(&file), state(&old)), before, "{name}");
            assert_eq!(folder.names(), ["in", "old"], "{name}");
        }
    }
}

/// A whole .xls file is no stream: it is refused with the way to one, and stays.
#[test]
fn a_container_is_refused() {
    let mut whole = vec![0xD0, 0xCF, 0x11, 0xE0, 0xA1, 0xB1, 0x1A, 0xE1];
    whole.resize(512, 0);
    let refusal = second_reader::check(&whole).expect_err("no workbook stream");
    let folder = Folder::new();
    let file = folder.put("whole.xls", &whole);
    let ran = compact(&file, &in_place());
    assert_eq!(ran.status, Some(1));
    assert_eq!(ran.text(), format!("{refusal}\n"));
    assert!(ran.err.contains(".xls file"), "{}", ran.err);
    assert_holds(&file, &whole);
}

#[test]
fn one_target_is_needed() {
    let folder = Folder::new();
    let file = folder.put("in", &sample());
    let before = state(&file);
    compact(&file, &[]).fails("one of --output and --in-place is needed");
    let both = with(&[&in_place(), &to(folder.at("out"))]);
    compact(&file, &both).fails("one of --output and --in-place is needed");
    let both = with(&[&both, &dry_run()]);
    compact(&file, &both).fails("one of --output and --in-place is needed");
    let standard = words!["compact", "-", "--in-place"];
    run(standard).fails("standard input can't be replaced");
    run(words!["compact"]).fails("FILE is missing");
    run(words!["compact", file, file, "--dry-run"]).fails("one too many");
    assert_eq!((state(&file), folder.names()), (before, vec!["in".into()]));
}

/// Links, permissions and locks are those of correct, whose tests they have; here that a link stays and its end is replaced.
#[test]
fn through_a_link() {
    let folder = Folder::new();
    let end = folder.put("end", &stored("unused-strings.in"));
    let link = folder.at("link");
    std::os::unix::fs::symlink("end", &link).expect("a link");
    compact(&link, &in_place()).says(0, "written 281 freed 151\n");
    assert_holds(&end, &stored("used-strings.in"));
    let found = fs::symlink_metadata(&link).expect("a link");
    assert!(found.is_symlink());
}

/// A journal is the old stream's.
#[test]
fn a_journal_is_for_the_old_stream() {
    let folder = Folder::new();
    let strings = ["one", "two"].map(units);
    let stream = one(&strings, vec![number(0, 0, 1.0), text(1, 0, 1)]);
    let (file, journal) = (folder.put("in", &stream), folder.at("j"));
    let correct = |value: &str| {
        run(words![
            "correct",
            file,
            "0",
            "A1",
            "number",
            value,
            "--in-place",
            "--journal",
            journal
        ])
    };
    correct("2").says(0, "granted\n");
    let ran = compact(&file, &in_place());
    assert!(ran.text().starts_with("written "), "{}", ran.text());
    correct("3").refuses("refused 21 at 0");
}

/// A session without strings of its own, one with a table, and the refusals of both streams.
#[test]
fn a_session_over_its_template() {
    let folder = Folder::new();
    let template = folder.put("template", &stored("template.in"));
    let before = state(&template);
    let sheet = |records| Sheet {
        kind: WORKSHEET,
        name: units("Day"),
        records,
    };
    let own = ["unused", "used"].map(units);
    let own = book(&own, &[sheet(vec![text(0, 0, 1)])]);
    for session in [stored("day.in"), own, stored("unused-strings.in")] {
        let mut new = vec![0; session.len()];
        let done = second_reader::compact_session(&stored("template.in"), &session, &mut new);
        let done = done.expect("a session that passes");
        new.truncate(done.written);
        let answer = format!("written {} freed {}\n", done.written, done.freed);
        let file = folder.put("session", &session);
        compact(&file, &with(&[&over(&template), &dry_run()])).says(0, &answer);
        assert_holds(&file, &session);
        compact(&file, &with(&[&over(&template), &in_place()])).says(0, &answer);
        assert_holds(&file, &new);
    }
    let file = folder.put("session", &stored("refused-9-beyond.in"));
    let PairRefusal::Stream(_, refusal) = second_reader::compact_session(
        &stored("template.in"),
        &stored("refused-9-beyond.in"),
        &mut [],
    )
    .expect_err("an index beyond") else {
        panic!("the session is refused");
    };
    let ran = compact(&file, &with(&[&over(&template), &in_place()]));
    ran.refuses(&format!("{refusal} of session"));
    let bad = folder.put("bad", &stored("refused-5-encrypted.in"));
    let ran = compact(&file, &with(&[&over(&bad), &in_place()]));
    ran.refuses("refused 5 at 20 of template");
    let onto = with(&[&over(&template), &to(&template)]);
    compact(&folder.put("day", &stored("day.in")), &onto).fails("this is the template");
    assert_eq!(state(&template), before);
}

#[test]
fn made_streams() {
    let folder = Folder::new();
    let file = folder.at("in");
    let (mut written, mut refused) = (0, 0);
    for seed in 0..200 {
        let stream = streams::with_unused(seed);
        let mut new = vec![0; 2 * stream.len() + 100];
        let answer = second_reader::compact(&stream, &mut new);
        fs::write(&file, &stream).expect("the file");
        let ran = compact(&file, &in_place());
        match answer {
            Ok(done) => {
                written += 1;
                ran.says(
                    0,
                    &format!("written {} freed {}\n", done.written, done.freed),
                );
                assert_holds(&file, &new[..done.written]);
            }
            Err(refusal) => {
                refused += 1;
                assert_eq!(ran.status, Some(1), "seed {seed}");
                assert_eq!(ran.text(), format!("{refusal}\n"), "seed {seed}");
                assert_holds(&file, &stream);
            }
        }
    }
    assert!(written > 100 && refused > 20, "{written} and {refused}");
}
