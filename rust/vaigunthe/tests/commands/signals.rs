//! Runs that are ended while they write: what they leave behind.

use crate::correct::{ask, assert_holds, correct, in_place, to};
use crate::tool::{Folder, TOOL};
use std::ffi::OsString;
use std::fs;
use std::os::unix::process::{CommandExt, ExitStatusExt};
use std::path::Path;
use std::process::{Child, Command, ExitStatus, Stdio};

extern "C" {
    fn kill(process: i32, signal: i32) -> i32;
    fn signal(signal: i32, handler: usize) -> usize;
}

/// What a signal does where nobody has asked for anything else.
const DEFAULT: usize = 0;

const HANGUP: i32 = 1;
const INTERRUPT: i32 = 2;
const KILL: i32 = 9;
const TERMINATE: i32 = 15;

fn send(child: &Child, signal: i32) {
    let process = i32::try_from(child.id()).expect("a process");
    // SAFETY: the child hasn't been waited for, so the number is still its own.
    assert_eq!(unsafe { kill(process, signal) }, 0);
}

/// A stream that takes a while to write.
fn stream() -> Vec<u8> {
    streams::big(streams::Big::Numbers, 16_000_000)
}

fn is_temporary(name: &str) -> bool {
    name.starts_with(".vaigunthe-")
}

/// Sends a signal while the new file is being written, as far as it can be caught at that.
fn interrupt(command: &mut Command, folder: &Folder, signal: i32) -> ExitStatus {
    let mut child = command
        .stdout(Stdio::null())
        .spawn()
        .expect("the tool starts");
    loop {
        if folder.names().iter().any(|name| is_temporary(name)) {
            send(&child, signal);
            return child.wait().expect("the tool ends");
        }
        if let Some(status) = child.try_wait().expect("the tool") {
            return status;
        }
    }
}

/// A run that signals end, also where whoever runs the tests ignores them, as under nohup.
fn call(file: &Path, target: &[OsString]) -> Command {
    let mut command = ask(Command::new(TOOL), file, "0 0 0 number 3", target);
    let ends = || {
        for number in [HANGUP, INTERRUPT, TERMINATE] {
            // SAFETY: it may be called between fork and exec, and takes these numbers.
            unsafe { signal(number, DEFAULT) };
        }
        Ok(())
    };
    // SAFETY: nothing is done there but the above.
    unsafe { command.pre_exec(ends) };
    command
}

/// How often a run must be caught, and how often that is tried.
const CAUGHT: usize = 3;
const TRIES: usize = 100;

#[test]
fn a_run_that_is_ended_leaves_nothing() {
    let folder = Folder::new();
    let old = stream();
    let file = folder.put("in", &old);
    correct(&file, "0 0 0 number 3", &to(folder.at("out"))).says(0, "granted\n");
    let new = fs::read(folder.at("out")).expect("the file");
    for signal in [HANGUP, INTERRUPT, TERMINATE] {
        for target in [in_place(), to(folder.at("out"))] {
            let mut caught = 0;
            for _ in 0..TRIES {
                fs::write(&file, &old).expect("the file");
                let _ = fs::remove_file(folder.at("out"));
                let status = interrupt(&mut call(&file, &target), &folder, signal);
                assert!(!folder.names().iter().any(|name| is_temporary(name)));
                for name in folder.names() {
                    let bytes = fs::read(folder.at(name)).expect("the file");
                    assert!(bytes == old || bytes == new, "whole or not at all");
                }
                if status.signal().is_none() {
                    assert!(status.success());
                    continue;
                }
                assert_eq!(status.signal(), Some(signal));
                caught += 1;
                if caught == CAUGHT {
                    break;
                }
            }
            assert_eq!(caught, CAUGHT, "signal {signal}");
        }
    }
}

/// What nohup asks for.
#[test]
fn a_signal_that_is_ignored_ends_nothing() {
    let folder = Folder::new();
    let file = folder.put("in", &stream());
    for _ in 0..10 {
        let mut command = Command::new("sh");
        command.args(["-c", "trap '' HUP; exec \"$@\"", "sh", TOOL]);
        let mut command = ask(command, &file, "0 0 0 number 3", &in_place());
        assert!(interrupt(&mut command, &folder, HANGUP).success());
        assert_eq!(folder.names(), ["in"]);
    }
}

/// A run that is killed can't remove its file; the next one with that target does.
#[test]
fn what_a_killed_run_leaves_is_removed_by_the_next() {
    let folder = Folder::new();
    let old = stream();
    let file = folder.put("in", &old);
    for target in [in_place(), to(folder.at("out"))] {
        let left = (0..TRIES).any(|_| {
            fs::write(&file, &old).expect("the file");
            let _ = fs::remove_file(folder.at("out"));
            interrupt(&mut call(&file, &target), &folder, KILL);
            folder.names().iter().any(|name| is_temporary(name))
        });
        assert!(left, "no run was caught");
        assert_holds(&file, &old);
        correct(&file, "0 0 0 number 3", &target).says(0, "granted\n");
        assert!(!folder.names().iter().any(|name| is_temporary(name)));
    }
}
