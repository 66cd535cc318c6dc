//! How many instructions a piece of work takes: this program is run again under a counter, once for each piece and once for none, which is what
//! starting and reading the file take. The counter is the processor's, by perf, or else valgrind's; on a machine that has neither there is none.

use crate::{compacting, listers};
use std::env;
use std::fs;
use std::path::Path;
use std::process::{Command, Output};

/// The word that asks for one piece of work.
pub const WORK: &str = "--work";

/// A piece of work on a stream, by its name.
pub type Work = (&'static str, fn(&[u8]) -> u64);

pub const WORKS: [Work; 8] = [
    (NOTHING, |_| 0),
    (CHECK_OURS, listers::check_ours),
    (CHECK_PLAIN, listers::check_plain),
    (OURS, listers::list_ours),
    (PLAIN, listers::list_plain),
    (JOINED, listers::list_joined),
    (COMPACT_OURS, compacting::ours),
    (COMPACT_READER, compacting::theirs),
];

const NOTHING: &str = "nothing";
const CHECK_OURS: &str = "check-ours";
const CHECK_PLAIN: &str = "check-plain";
pub const OURS: &str = "ours";
const PLAIN: &str = "plain";
const JOINED: &str = "joined";
const COMPACT_OURS: &str = "compact-ours";
const COMPACT_READER: &str = "compact-reader";

/// A counter: the words before the program's own, and how its report is read.
struct Counter {
    words: &'static [&'static str],
    read: fn(&str) -> Option<u64>,
}

const COUNTERS: [Counter; 2] = [
    Counter {
        words: &[
            "perf",
            "stat",
            "--field-separator",
            ",",
            "--event",
            "instructions:u",
        ],
        read: |report| {
            report
                .lines()
                .find_map(|line| line.split(',').next()?.parse().ok())
        },
    },
    Counter {
        words: &[
            "valgrind",
            "--tool=callgrind",
            "--callgrind-out-file=/dev/null",
        ],
        read: |report| {
            let line = report.lines().find(|line| line.contains("Collected :"))?;
            line.split_whitespace().last()?.parse().ok()
        },
    },
];

impl Counter {
    fn count(&self, work: &str, file: &Path) -> Option<u64> {
        let (first, rest) = self.words.split_first()?;
        let Output { status, stderr, .. } = Command::new(first)
            .args(rest)
            .arg(env::current_exe().ok()?)
            .args([WORK, work])
            .arg(file)
            .output()
            .ok()?;
        let report = String::from_utf8_lossy(&stderr);
        status.success().then(|| (self.read)(&report)).flatten()
    }

    /// Of the library and of the second reader, without the unused strings of a stream.
    fn compacting(&self, file: &Path) -> Option<[u64; 2]> {
        let nothing = self.count(NOTHING, file)?;
        let of = |work| self.count(work, file)?.checked_sub(nothing);
        Some([of(COMPACT_OURS)?, of(COMPACT_READER)?])
    }

    fn all(&self, file: &Path) -> Option<Counts> {
        let nothing = self.count(NOTHING, file)?;
        let of = |work| self.count(work, file)?.checked_sub(nothing);
        Some(Counts {
            check_ours: of(CHECK_OURS)?,
            check_plain: of(CHECK_PLAIN)?,
            ours: of(OURS)?,
            plain: of(PLAIN)?,
            joined: of(JOINED)?,
        })
    }
}

/// Instructions: of the two checks, and of the three listings, each with its check.
pub struct Counts {
    pub check_ours: u64,
    pub check_plain: u64,
    pub ours: u64,
    pub plain: u64,
    pub joined: u64,
}

impl Counts {
    /// For one stream; none without a counter.
    pub fn of(stream: &[u8]) -> Option<Self> {
        counted(stream, Counter::all)
    }
}

/// The instructions of the library and of the second reader for a stream without its unused strings; none without a counter.
pub fn of_compacting(stream: &[u8]) -> Option<[u64; 2]> {
    counted(stream, Counter::compacting)
}

/// What the first counter that the machine has tells of a stream.
fn counted<A>(stream: &[u8], count: impl Fn(&Counter, &Path) -> Option<A>) -> Option<A> {
    let file = env::temp_dir().join(format!("vaigunthe-bench-{}", std::process::id()));
    fs::write(&file, stream).ok()?;
    let counts = COUNTERS.iter().find_map(|counter| count(counter, &file));
    let _ = fs::remove_file(&file);
    counts
}
