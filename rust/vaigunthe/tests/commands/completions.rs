//! Completions, asked of the shells that the machine has.

use crate::tool::{finish, run, Folder, TOOL};
use crate::usage::{helped, COMMANDS};
use std::io::ErrorKind;
use std::process::Command;

/// What bash offers for the last of these words.
fn offered(words: &[&str]) -> Vec<String> {
    let folder = Folder::new();
    folder.put("session.bin", b"");
    let script = r#"
        source <("$TOOL" completions bash) || exit 9
        complete -p vaigunthe | grep -q -- '-F _vaigunthe' || exit 8
        COMP_WORDS=("$@")
        COMP_CWORD=$(($# - 1))
        _vaigunthe
        printf '%s\n' "${COMPREPLY[@]}"
    "#;
    let mut bash = Command::new("bash");
    bash.args(["-c", script, "bash", "vaigunthe"]).args(words);
    let ran = finish(bash.env("TOOL", TOOL).current_dir(folder.path()), b"");
    assert_eq!((ran.status, &ran.err[..]), (Some(0), ""));
    let words = ran.text().lines().filter(|line| !line.is_empty());
    words.map(str::to_string).collect()
}

#[test]
fn bash_completes() {
    let mut all = offered(&[""]);
    let mut commands = COMMANDS.map(String::from);
    all.sort();
    commands.sort();
    assert_eq!(all, commands);
    assert_eq!(offered(&["exp"]), ["export"]);
    assert_eq!(offered(&["--v"]), ["--version"]);
    assert_eq!(offered(&["export", "session.bin", "--cs"]), ["--csv"]);
    assert_eq!(offered(&["correct", "--in"]), ["--in-place"]);
    assert_eq!(
        offered(&["compare", "session.bin", "--ex"]),
        ["--exit-code"]
    );
    assert_eq!(offered(&["compact", "session.bin", "--dr"]), ["--dry-run"]);
    assert_eq!(offered(&["correct", "session.bin", "0", "tr"]), ["truth"]);
    assert_eq!(offered(&["check", "sess"]), ["session.bin"]);
    assert_eq!(offered(&["check", "--he"]), ["--help"]);
    assert_eq!(offered(&["help", "exp"]), ["export"]);
    assert_eq!(offered(&["check", "--in"]), [""; 0]);
}

/// The options in the help of a command.
fn options(command: &str) -> Vec<String> {
    let page = helped(&["help", command]);
    let lines = page.lines().filter_map(|line| line.strip_prefix("  --"));
    lines
        .map(|line| line.split([' ', '[']).next().expect("a word").to_string())
        .collect()
}

/// Each shell knows every command and option, and takes the script.
#[test]
fn every_shell_takes_its_script() {
    let folder = Folder::new();
    for (shell, before) in [("bash", "--"), ("zsh", "--"), ("fish", "-l ")] {
        let script = helped(&["completions", shell]);
        for command in COMMANDS {
            assert!(script.contains(command), "{shell}: no {command}");
            for option in options(command) {
                let option = format!("{before}{option}");
                assert!(script.contains(&option), "{shell}: no {option}");
            }
        }
        let file = folder.put(shell, script.as_bytes());
        let read = Command::new(shell).arg("-n").arg(&file).output();
        match read {
            Err(error) if error.kind() == ErrorKind::NotFound => {}
            read => {
                let read = read.expect("the shell ends");
                let said = String::from_utf8_lossy(&read.stderr).into_owned();
                assert_eq!((read.status.code(), &said[..]), (Some(0), ""), "{shell}");
            }
        }
    }
    run(&["completions", "csh"]).fails("bash, zsh or fish");
}

/// What fish offers, where there is a fish.
#[test]
fn fish_completes() {
    let script = r#"$TOOL completions fish | source; complete -C "vaigunthe $argv""#;
    for (line, wanted) in [("exp", "export"), ("export --cs", "--csv")] {
        let mut fish = Command::new("fish");
        fish.args(["-c", script, line]).env("TOOL", TOOL);
        let Ok(output) = fish.output() else {
            return;
        };
        let offered = String::from_utf8(output.stdout).expect("words");
        let first = offered.split(['\t', '\n']).next();
        assert_eq!(first, Some(wanted), "{offered}");
    }
}
