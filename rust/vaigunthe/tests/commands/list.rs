//! list: the lines of the program.

use crate::tool::{case, case_inputs, run, run_with, Folder, Ran};
use crate::words;
use std::fs;

fn answers(ran: &Ran, lines: &str) {
    match lines.starts_with("refused ") {
        true => ran.refuses(lines.trim_end()),
        false => ran.says(0, lines),
    }
}

#[test]
fn the_stored_cases() {
    let mut listed = 0;
    for input in case_inputs() {
        let stored = fs::read_to_string(input.with_extension("out")).expect("its output");
        if stored == "too long\n" {
            continue;
        }
        answers(&run(words!["list", input]), &stored);
        let stream = fs::read(&input).expect("an input");
        answers(&run_with(&["list", "-"], &stream), &stored);
        listed += 1;
    }
    assert!(listed >= 20, "only {listed} cases listed");
}

#[test]
fn made_streams() {
    for seed in 0..200 {
        let stream = streams::stream(seed);
        let lines = second_reader::lines(&stream);
        answers(&run_with(&["list", "-"], &stream), &lines);
    }
}

/// What the program calls too long is listed here.
#[test]
fn streams_over_65536_bytes() {
    let input = case("65537-bytes.in");
    let lines = "sheets 1 strings 0 cells 1\nsheet 0 rows 13\n12 3 number 3FF0000000000000\n";
    run(words!["list", input]).says(0, lines);
    for kind in [streams::Big::Mixed, streams::Big::MulRks] {
        let stream = streams::big(kind, 300_000);
        run_with(&["list", "-"], &stream).says(0, &second_reader::lines(&stream));
    }
    let mut cut = streams::big(streams::Big::Numbers, 300_000);
    cut.truncate(200_000);
    let refusal = second_reader::check(&cut).expect_err("a cut stream");
    run_with(&["list", "-"], &cut).refuses(&refusal.to_string());
}

#[test]
fn a_stream_over_the_greatest_length() {
    let folder = Folder::new();
    let path = folder.put("long", &vec![0; 16_777_217]);
    run(words!["list", path]).refuses("refused 1 at 0");
}

#[test]
fn an_absent_file() {
    run(words!["list", case("no-such-file")]).fails("no-such-file: ");
}
