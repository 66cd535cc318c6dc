//! What a run that is ended by a signal must not leave behind: its temporary file.

#![allow(unsafe_code)]

use std::ffi::{c_char, c_int, CString};
use std::io;
use std::os::unix::ffi::OsStrExt;
use std::path::Path;
use std::ptr::null_mut;
use std::sync::atomic::{AtomicPtr, Ordering};
use std::sync::Once;

/// SIGHUP, SIGINT and SIGTERM.
const ENDING: [c_int; 3] = [1, 2, 15];

/// SIG_DFL and SIG_IGN.
const DEFAULT: usize = 0;
const IGNORE: usize = 1;

extern "C" {
    fn signal(number: c_int, handler: usize) -> usize;
    fn raise(number: c_int) -> c_int;
    fn unlink(path: *const c_char) -> c_int;
}

/// The file that goes with the run, or null.
static DOOMED: AtomicPtr<c_char> = AtomicPtr::new(null_mut());

/// Removes the file, and ends as if there were no handler.
extern "C" fn end(number: c_int) {
    let path = DOOMED.load(Ordering::SeqCst);
    // SAFETY: all three may be called in a handler. The path is a string that lives as long as it is in DOOMED: while one is there the tool has one thread,
    // which stands still while this runs.
    unsafe {
        if !path.is_null() {
            unlink(path);
        }
        signal(number, DEFAULT);
        raise(number);
    }
}

/// A signal that is ignored, as nohup has it, stays ignored.
fn watch() {
    let handler: extern "C" fn(c_int) = end;
    for number in ENDING {
        // SAFETY: the handler is a function of the type that signal takes, and calls nothing that a handler may not.
        unsafe {
            if signal(number, handler as usize) == IGNORE {
                signal(number, IGNORE);
            }
        }
    }
}

/// While this lives, a signal that ends the run removes the file.
pub struct Doomed(#[allow(dead_code)] CString);

impl Doomed {
    pub fn new(path: &Path) -> io::Result<Self> {
        static WATCH: Once = Once::new();
        WATCH.call_once(watch);
        let path = CString::new(path.as_os_str().as_bytes())?;
        DOOMED.store(path.as_ptr().cast_mut(), Ordering::SeqCst);
        Ok(Doomed(path))
    }
}

impl Drop for Doomed {
    fn drop(&mut self) {
        DOOMED.store(null_mut(), Ordering::SeqCst);
    }
}
