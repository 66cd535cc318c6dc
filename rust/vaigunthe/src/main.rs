//! vaigunthe: checks, lists, exports and corrects workbook streams. Every answer about a stream or a formula is the proved library's; this crate reads
//! arguments and files, and writes the answers down.

#![deny(unsafe_code)]

mod address;
mod arguments;
mod bits;
mod book;
mod cadence;
mod check;
mod commands;
mod compact;
mod compare;
mod completions;
mod correct;
mod errors;
mod export;
mod figures;
mod files;
mod folder;
mod help;
mod hint;
mod input;
mod journal;
mod judge;
mod lines;
mod manual;
mod nearest;
mod outcome;
mod page;
mod picture;
mod profile;
mod progress;
mod replace;
mod report;
mod sha256;
mod signals;
mod source;
mod target;
mod text;
mod threads;
mod value;
mod wanted;

use outcome::{Failure, Output};
use std::ffi::OsString;
use std::io::{self, BufWriter, Write};
use std::process::ExitCode;

/// How much is written at a time.
const BUFFER: usize = 65_536;

fn main() -> ExitCode {
    let words: Vec<OsString> = std::env::args_os().skip(1).collect();
    let mut out: Output = BufWriter::with_capacity(BUFFER, io::stdout().lock());
    let ended = commands::run(&words, &mut out);
    // Whatever was answered before a failure comes out before its message.
    let flushed = out.flush().map_err(Failure::Output);
    match ended.and_then(|status| flushed.map(|()| status)) {
        Ok(status) => status.into(),
        Err(failure) => failure.report(),
    }
}
