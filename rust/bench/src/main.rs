//! bench: how long the proved library takes for one check, and for one check and listing, of a stream of 16,000,000 bytes of mixed cells and strings,
//! against plain Rust (`listers` says against what), in turn, the best of many; and, where the machine counts instructions, how many.
//!
//! - `--all`: of each kind of stream, hostile ones too;
//! - `--assert`: instructions alone, of a smaller stream of each kind, and without unused strings; fails where a ratio is above its target;
//! - `--peers`: beside other readers that the machine has;
//! - `--places`: a million look-ups of strings through a table of places;
//! - `--pair`: the questions over a template and a session;
//! - `--journal`: replay of a journal of 500,000 entries, right and forged;
//! - `--compare`: two revisions, and pairs that are dear to compare, against a plain compare;
//! - `--compact`: a stream without its unused strings, half of 400,000, and streams that are dear to write so, against the second reader.

#![forbid(unsafe_code)]

mod compacting;
mod comparing;
mod compound;
mod instructions;
mod journal;
mod listers;
mod pair;
mod peers;
mod places;
mod plain;
mod targets;

use instructions::{Counts, WORK, WORKS};
use std::process::ExitCode;
use std::time::Instant;
use streams::Big;
use targets::Targets;

const BYTES: usize = 16_000_000;
const ASSERTED_BYTES: usize = 1_000_000;
const TURNS: usize = 25;

/// Does a piece of work, and keeps the shortest of its times, in milliseconds. Not inlined: what it does is done anew in each turn.
#[inline(never)]
fn time<A>(best: &mut f64, work: impl FnOnce() -> A) -> A {
    let start = Instant::now();
    let answer = work();
    *best = best.min(start.elapsed().as_secs_f64() * 1e3);
    answer
}

const HEADING: &str = "\
| Stream       | check ms | ratio | instr. | list ms | to plain | instr. | to joined | instr. |
|--------------|----------|-------|--------|---------|----------|--------|-----------|--------|";

/// A row of the table; whether all gave the same answers.
fn measure(kind: Big) -> bool {
    let stream = streams::big(kind, BYTES);
    let mut best = [f64::INFINITY; 5];
    let mut same = true;
    for _ in 0..TURNS {
        let checked = time(&mut best[0], || listers::check_ours(&stream));
        same &= checked == time(&mut best[1], || listers::check_plain(&stream));
        let listed = time(&mut best[2], || listers::list_ours(&stream));
        same &= listed == time(&mut best[3], || listers::list_plain(&stream));
        same &= listed == time(&mut best[4], || listers::list_joined(&stream));
    }
    let [check, check_plain, list, list_plain, list_joined] = best;
    let [checks, to_plain, to_joined] = match Counts::of(&stream) {
        Some(counts) => Targets::ratios(&counts).map(|ratio| format!("{ratio:.2}")),
        None => ["", "", ""].map(String::from),
    };
    println!(
        "| {:12} | {check:8.2} | {:5.2} | {checks:>6} | {list:7.2} | {:8.2} | {to_plain:>6} | {:9.2} | {to_joined:>6} |{}",
        format!("{kind:?}"),
        check / check_plain,
        list / list_plain,
        list / list_joined,
        if same { "" } else { " THE ANSWERS DIFFER" },
    );
    same
}

/// The ratios of instructions against their targets: a row, and whether they are kept. Without a counter they are not.
fn keeps(kind: Big) -> bool {
    let stream = streams::big(kind, ASSERTED_BYTES);
    let Some(counts) = Counts::of(&stream) else {
        println!("{kind:?}: no counter of instructions");
        return false;
    };
    let listed = listers::list_ours(&stream);
    let same = listed == listers::list_plain(&stream) && listed == listers::list_joined(&stream);
    let targets = Targets::of(kind).0;
    let mut kept = same;
    let mut row = format!("{kind:?}:");
    for ((name, ratio), most) in ["check", "to plain", "to joined"]
        .iter()
        .zip(Targets::ratios(&counts))
        .zip(targets)
    {
        kept &= ratio <= most;
        row += &format!(
            " {name} {ratio:.3}{} {most:.2}",
            if ratio <= most { " of" } else { " ABOVE" }
        );
    }
    println!("{row}{}", if same { "" } else { ", THE ANSWERS DIFFER" });
    kept
}

/// One piece of work on a stream in a file, for a counter of instructions around it.
fn work(name: &str, file: &str) -> ExitCode {
    let work = WORKS.iter().find(|work| work.0 == name);
    let (Some((_, work)), Ok(stream)) = (work, std::fs::read(file)) else {
        return ExitCode::from(2);
    };
    println!("{}", work(&stream));
    ExitCode::SUCCESS
}

/// Goes through all of them, whatever becomes of one.
fn every(kinds: &[Big], row: fn(Big) -> bool) -> bool {
    kinds.iter().fold(true, |good, &kind| row(kind) & good)
}

fn main() -> ExitCode {
    let words: Vec<String> = std::env::args().skip(1).collect();
    let words: Vec<&str> = words.iter().map(String::as_str).collect();
    let good = match words[..] {
        [] => {
            println!("{HEADING}");
            measure(Big::Mixed)
        }
        ["--all"] => {
            println!("{HEADING}");
            every(&Big::ALL, measure)
        }
        ["--assert"] => every(&Big::ALL, keeps) & compacting::keeps(),
        ["--peers"] => peers::run(),
        ["--places"] => places::run(),
        ["--pair"] => pair::run(),
        ["--journal"] => journal::run(),
        ["--compare"] => comparing::run(),
        ["--compact"] => compacting::run(),
        [WORK, name, file] => return work(name, file),
        _ => {
            eprintln!("usage: bench [--all | --assert | --peers | --places | --pair | --journal | --compare | --compact]");
            return ExitCode::from(2);
        }
    };
    ExitCode::from(u8::from(!good))
}
