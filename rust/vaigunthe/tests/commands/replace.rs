//! The files that correct replaces, and those that it must not.

use crate::correct::{ask, assert_holds, correct, in_place, sample, sample_with, state, to};
use crate::made::{number, one};
use crate::tool::{finish, Folder, TOOL};
use second_reader::NewValue;
use std::fs::{self, OpenOptions, Permissions};
use std::os::unix::fs::{chown, symlink, MetadataExt, PermissionsExt};
use std::os::unix::net::UnixListener;
use std::os::unix::process::CommandExt;
use std::path::Path;
use std::process::{Child, Command, Stdio};

#[test]
fn in_the_folder_of_the_caller() {
    let folder = Folder::new();
    folder.put("in", &sample());
    for (target, name) in [(to("out"), "out"), (in_place(), "in")] {
        let mut call = ask(
            Command::new(TOOL),
            Path::new("in"),
            "0 0 0 number 7",
            &target,
        );
        finish(call.current_dir(folder.path()), b"").says(0, "granted\n");
        assert_holds(&folder.at(name), &sample_with(0, NewValue::Number(7.0)));
    }
    assert_eq!(folder.names(), ["in", "out"]);
}

/// Only its start is read, but none of it is lost.
#[test]
fn a_file_that_is_too_long_stays_whole() {
    let folder = Folder::new();
    let file = folder.put("long", &sample());
    let open = OpenOptions::new().write(true).open(&file).expect("a file");
    open.set_len(16_777_216 + 4_096).expect("a hole");
    correct(&file, "0 0 0 number 1", &in_place()).refuses("refused 1 at 0");
    assert_eq!(open.metadata().expect("a file").len(), 16_777_216 + 4_096);
    assert_eq!(state(&file).1, open.metadata().expect("a file").ino());
}

/// A file in the place of a folder or a device would destroy it. (Not tried on a device of this machine: a tool that got it wrong would.)
#[test]
fn targets_that_cannot_be() {
    let folder = Folder::new();
    let file = folder.put("in", &sample());
    fs::create_dir(folder.at("folder")).expect("a folder");
    symlink("nowhere", folder.at("dangling")).expect("a link");
    let _listener = UnixListener::bind(folder.at("socket")).expect("a socket");
    let before = (state(&file), folder.names());
    let targets = [
        "folder",
        "dangling",
        "socket",
        "missing/out",
        "in/out",
        "new/",
    ];
    for target in targets {
        correct(&file, "0 0 0 number 1", &to(folder.at(target))).fails(target);
        assert_eq!((state(&file), folder.names()), before, "{target}");
    }
    for target in ["folder", "dangling", "socket", "missing"] {
        correct(&folder.at(target), "0 0 0 number 1", &in_place()).fails(target);
        assert_eq!((state(&file), folder.names()), before, "{target}");
    }
    let socket = fs::metadata(folder.at("socket")).expect("the socket");
    assert!(!socket.is_file());
}

#[test]
fn links_stay_links() {
    let folder = Folder::new();
    fs::create_dir(folder.at("inner")).expect("a folder");
    let file = folder.put("inner/in", &sample());
    let link = folder.at("link");
    symlink("inner/in", &link).expect("a link");
    correct(&link, "0 0 0 number 3", &in_place()).says(0, "granted\n");
    assert_holds(&file, &sample_with(0, NewValue::Number(3.0)));
    correct(&file, "0 0 0 number 4", &to(&link)).says(0, "granted\n");
    assert_holds(&file, &sample_with(0, NewValue::Number(4.0)));
    assert_eq!(fs::read_link(&link).expect("a link"), Path::new("inner/in"));
    assert_eq!(folder.names(), ["inner", "link"]);
}

fn permit(path: &Path, mode: u32) {
    fs::set_permissions(path, Permissions::from_mode(mode)).expect("permissions");
}

fn mode(path: &Path) -> u32 {
    fs::metadata(path).expect("the file").mode() & 0o7777
}

#[test]
fn permissions_and_owner_stay() {
    let folder = Folder::new();
    let file = folder.put("in", &sample());
    let old = folder.put("old", b"");
    let fresh = folder.put("fresh", b"");
    permit(&file, 0o640);
    permit(&old, 0o604);
    // Only the superuser can try this; the file of anybody else can't change hands anyhow.
    let given = chown(&file, Some(12_345), Some(23_456)).is_ok();
    correct(&file, "0 0 0 number 3", &in_place()).says(0, "granted\n");
    let found = fs::metadata(&file).expect("the file");
    assert_eq!(mode(&file), 0o640);
    if given {
        assert_eq!((found.uid(), found.gid()), (12_345, 23_456));
    }
    correct(&file, "0 0 0 number 4", &to(&old)).says(0, "granted\n");
    assert_eq!(mode(&old), 0o604);
    let new = folder.at("new");
    correct(&file, "0 0 0 number 4", &to(&new)).says(0, "granted\n");
    assert_eq!(mode(&new), mode(&fresh));
}

/// The tool as a user without rights to everything: the tests may run as the superuser.
fn as_a_user(folder: &Folder) -> Command {
    let superuser = fs::metadata("/proc/self").expect("this process").uid() == 0;
    if !superuser {
        return Command::new(TOOL);
    }
    let tool = folder.at("tool");
    // Copied by another process: where this one had the copy open for writing, a tool started meanwhile by another test could hold it open as well,
    // and it couldn't be run.
    let copied = Command::new("cp").arg(TOOL).arg(&tool).status();
    assert!(copied.is_ok_and(|status| status.success()), "a copy");
    let mut command = Command::new(tool);
    command.uid(65_534).gid(65_534);
    command
}

/// In place, as its own output, and as the output of another.
#[test]
fn a_write_protected_file_stays() {
    let folder = Folder::new();
    let file = folder.put("in", &sample());
    let other = folder.put("other", b"other");
    for path in [&file, &other] {
        permit(path, 0o444);
    }
    permit(folder.path(), 0o777);
    for target in [in_place(), to(&file), to(&other)] {
        let mut call = ask(as_a_user(&folder), &file, "0 0 0 number 3", &target);
        let before = (state(&file), state(&other), folder.names());
        finish(&mut call, b"").fails("ermission denied");
        let after = (state(&file), state(&other), folder.names());
        assert_eq!(after, before, "{target:?}");
    }
}

#[test]
fn a_folder_that_takes_no_file() {
    for new in [false, true] {
        let folder = Folder::new();
        let file = folder.put("in", &sample());
        permit(&file, 0o666);
        let target = if new {
            to(folder.at("new"))
        } else {
            in_place()
        };
        let mut call = ask(as_a_user(&folder), &file, "0 0 0 number 3", &target);
        permit(folder.path(), 0o555);
        let before = (state(&file), folder.names());
        let ran = finish(&mut call, b"");
        permit(folder.path(), 0o755);
        ran.fails("ermission denied");
        assert_eq!((state(&file), folder.names()), before);
    }
}

/// The temporary file is removed where it can't be written to its end.
#[test]
fn no_room_for_the_new_file() {
    let folder = Folder::new();
    let file = folder.put("in", &streams::big(streams::Big::Numbers, 100_000));
    let before = state(&file);
    for target in [in_place(), to(folder.at("new"))] {
        let mut command = Command::new("sh");
        command.args(["-c", "trap '' XFSZ; ulimit -f 8; exec \"$@\"", "sh", TOOL]);
        let mut call = ask(command, &file, "0 0 0 number 3", &target);
        finish(&mut call, b"").fails("too large");
        assert_eq!(
            (state(&file), folder.names()),
            (before.clone(), vec!["in".into()])
        );
    }
}

/// Corrections of one file at one time, in place or with the file as the output too: none that is granted is lost.
#[test]
fn corrections_wait_for_each_other() {
    let folder = Folder::new();
    let rows = 1..=60;
    let records = rows.clone().map(|row| number(row, 0, 0.5)).collect();
    let file = folder.put("in", &one(&[], records));
    symlink("in", folder.at("link")).expect("a link");
    let targets = [in_place(), to(&file), to(folder.at("link"))];
    let start = |row: u16| {
        let question = format!("0 {row} 0 number {row}");
        let target = &targets[usize::from(row % 3)];
        let mut call = ask(Command::new(TOOL), &file, &question, target);
        call.stdout(Stdio::piped())
            .spawn()
            .expect("the tool starts")
    };
    let children: Vec<Child> = rows.clone().map(start).collect();
    for child in children {
        let output = child.wait_with_output().expect("the tool ends");
        assert_eq!(output.stdout, b"granted\n");
    }
    let wanted = rows.map(|row| number(row, 0, f64::from(row))).collect();
    assert_holds(&file, &one(&[], wanted));
    assert_eq!(folder.names(), ["in", "link"]);
}

/// A file that isn't there yet: the last of them stays, whole.
#[test]
fn many_runs_with_one_new_file() {
    let folder = Folder::new();
    let file = folder.put("in", &sample());
    let out = folder.at("out");
    let start = |value: u16| {
        let question = format!("0 0 0 number {value}");
        let mut call = ask(Command::new(TOOL), &file, &question, &to(&out));
        call.stdout(Stdio::piped())
            .spawn()
            .expect("the tool starts")
    };
    let children: Vec<Child> = (1..=40).map(start).collect();
    for child in children {
        let output = child.wait_with_output().expect("the tool ends");
        assert_eq!(output.stdout, b"granted\n");
    }
    let bytes = fs::read(&out).expect("the file");
    let written = |value| bytes == sample_with(0, NewValue::Number(f64::from(value)));
    assert!((1..=40).any(written));
    assert_eq!(folder.names(), ["in", "out"]);
}
