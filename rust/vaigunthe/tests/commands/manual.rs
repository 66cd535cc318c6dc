//! The manual page: that it has the words of the help, and that man can set it.

use crate::tool::{finish, Folder};
use crate::usage::{helped, COMMANDS};
use std::io::ErrorKind;
use std::process::Command;

/// The words of a text, however its lines are broken.
fn words(text: &str) -> String {
    text.split_whitespace().collect::<Vec<_>>().join(" ")
}

/// Whether a command is there. The page is set by what the machine has.
fn is_there(name: &str) -> bool {
    let tried = Command::new(name).arg("--version").output();
    !tried.is_err_and(|error| error.kind() == ErrorKind::NotFound)
}

#[test]
fn is_set_without_a_warning() {
    let folder = Folder::new();
    let page = helped(&["man"]);
    assert!(page.starts_with(".TH VAIGUNTHE 1 "));
    let file = folder.put("vaigunthe.1", page.as_bytes());
    let calls: [(&str, &[&str]); 2] = [
        ("man", &["--warnings", "-E", "UTF-8", "-l"]),
        ("groff", &["-ww", "-man", "-Tutf8", "-P-cbou"]),
    ];
    for (name, words_before) in calls {
        if !is_there(name) {
            continue;
        }
        let mut call = Command::new(name);
        call.args(words_before).arg(&file);
        call.env("MANWIDTH", "120").env("LC_ALL", "C.UTF-8");
        let ran = finish(&mut call, b"");
        assert_eq!((ran.status, &ran.err[..]), (Some(0), ""), "{name}");
        let set = words(ran.text());
        for command in COMMANDS {
            let page = helped(&["help", command]);
            for line in page.lines().filter(|line| line.starts_with("  ")) {
                assert!(set.contains(&words(line)), "{name}: no '{}'", words(line));
            }
        }
        assert!(set.contains("\\u{85}"), "a backslash stays one");
        for (number, meaning) in station::meanings() {
            let item = format!("{number} {meaning}");
            assert!(set.contains(&item), "{name}: no '{item}'");
        }
    }
}

/// Nothing in it is taken for a request by mistake.
#[test]
fn only_known_requests() {
    for line in helped(&["man"]).lines() {
        let request = line.split(' ').next().expect("a word");
        let known = [
            ".TH", ".nh", ".ad", ".SH", ".SS", ".PP", ".TP", ".B", ".nf", ".fi",
        ];
        assert!(
            known.contains(&request) || !line.starts_with(['.', '\'']),
            "{line}"
        );
    }
}
