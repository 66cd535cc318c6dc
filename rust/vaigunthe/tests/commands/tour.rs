//! The tour in the README: each of its commands prints what stands there.

use crate::tool::{case, finish, Folder, TOOL};
use std::fs;
use std::path::Path;
use std::process::Command;

const PROMPT: &str = "$ vaigunthe ";
/// Stands for the lines that the tour leaves out.
const REST: &str = "…";

/// The commands of the tour, each with the lines after it.
fn tour(readme: &str) -> Vec<(&str, Vec<&str>)> {
    let (_, tour) = readme.split_once("## A tour").expect("the tour");
    let (tour, _) = tour.split_once("\n## ").expect("the part after the tour");
    let mut steps: Vec<(&str, Vec<&str>)> = Vec::new();
    for line in tour.lines().filter_map(|line| line.strip_prefix("    ")) {
        match (line.strip_prefix(PROMPT), steps.last_mut()) {
            (Some(words), _) => steps.push((words, Vec::new())),
            (None, Some((_, lines))) => lines.push(line),
            // How the stream is taken out of its file.
            (None, None) => assert!(line.contains("session.xls Workbook > session.bin")),
        }
    }
    steps
}

#[test]
fn prints_what_the_readme_says() {
    let readme = Path::new(env!("CARGO_MANIFEST_DIR")).join("../../README.md");
    let readme = fs::read_to_string(readme).expect("the README");
    let folder = Folder::new();
    for (name, sample) in [
        ("session.bin", "cells.in"),
        ("dated.bin", "dates.in"),
        ("results.bin", "results.in"),
        ("ride.bin", "ride.in"),
        ("template.bin", "template.in"),
        ("day.bin", "day.in"),
        ("labels.bin", "unused-strings.in"),
    ] {
        folder.put(name, &fs::read(case(sample)).expect("the sample"));
    }
    let steps = tour(&readme);
    assert!(steps.len() >= 10, "only {} commands", steps.len());
    for (words, wanted) in steps {
        let mut command = Command::new(TOOL);
        let ran = finish(
            command.args(words.split(' ')).current_dir(folder.path()),
            b"",
        );
        // What is said on standard error stands after what is answered.
        let lines: Vec<_> = ran.text().lines().chain(ran.err.lines()).collect();
        match wanted.split_last() {
            Some((&REST, wanted)) => assert!(
                lines.starts_with(wanted) && lines.len() > wanted.len(),
                "{words}: {lines:?}"
            ),
            _ => assert_eq!(lines, wanted, "{words}"),
        }
    }
}
