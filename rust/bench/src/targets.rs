//! What is asked of the proved library: at most so many times the instructions of plain Rust.

use crate::instructions::Counts;
use streams::Big;

/// For the check; for check and listing against the plain lister, and against the one whose taker is compiled into its reading.
pub struct Targets(pub [f64; 3]);

const HONEST: Targets = Targets([1.0, 1.1, 1.2]);
const HOSTILE: Targets = Targets([1.0, 1.5, 1.5]);
/// More than is asked of hostile streams. The joined reader knows from its check that the sheet has no cell, and lists nothing; here the records are gone
/// through a second time. Both walks wait for memory, so that in time it is at most 1.5.
const TINY: Targets = Targets([1.0, 1.5, 2.1]);
/// More than is asked of hostile streams. The others keep a table of all substreams; here each is walked a second time, to fill slots on the stack, and a
/// stream that is longer than one window of slots takes more. In time it is about 1.
const REVERSED: Targets = Targets([1.8, 1.7, 1.7]);

/// For a stream without its unused strings, against the second reader, which keeps all strings and indices in vectors; measured 1.58.
pub const COMPACTING: f64 = 1.7;

impl Targets {
    pub fn of(kind: Big) -> Self {
        match kind {
            Big::Tiny => TINY,
            Big::Reversed => REVERSED,
            Big::EmptyStrings => HOSTILE,
            _ => HONEST,
        }
    }

    pub fn ratios(counts: &Counts) -> [f64; 3] {
        let ratio = |ours, theirs| ours as f64 / theirs as f64;
        [
            ratio(counts.check_ours, counts.check_plain),
            ratio(counts.ours, counts.plain),
            ratio(counts.ours, counts.joined),
        ]
    }
}
