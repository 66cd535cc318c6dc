//! The time to compare two streams: revisions of 16,000,000 bytes that differ in ten cells, and two that are dear to compare, each twice as long as the one
//! before, until ten seconds are over, with how many times a mixed stream of that size takes. The proved library against a plain compare with the same checks, in turn, and against the second reader's.

mod plain;

use crate::{time, BYTES};
use station::{DifferenceKind, FormulaResult, NewValue, Value};
use streams::{Big, Hostile};

const TURNS: usize = 9;
const CHANGES: usize = 10;

/// Sheet, row, column, and 0 for names, 1 only in the first, 2 only in the second, 3 unequal. None where a stream is refused.
type Told = Option<Vec<(u32, u16, u16, u8)>>;

fn ours(first: &[u8], second: &[u8]) -> Told {
    let differences = station::compare(first, second).ok()?;
    let told = differences.map(|difference| {
        let (row, column) = difference.kind.address().unwrap_or((0, 0));
        let kind = match difference.kind {
            DifferenceKind::Name => 0,
            DifferenceKind::First { .. } => 1,
            DifferenceKind::Second { .. } => 2,
            DifferenceKind::Unequal { .. } => 3,
        };
        (difference.sheet, row, column, kind)
    });
    Some(told.collect())
}

fn theirs(first: &[u8], second: &[u8]) -> Told {
    use second_reader::Difference;
    let differences = second_reader::compare(first, second).ok()?;
    let told = differences.iter().map(|difference| match difference {
        Difference::Name { sheet } => (*sheet, 0, 0, 0),
        Difference::First(at) => (at.sheet, at.row, at.column, 1),
        Difference::Second(at) => (at.sheet, at.row, at.column, 2),
        Difference::Unequal(at) => (at.sheet, at.row, at.column, 3),
    });
    Some(told.collect())
}

/// The next revision: ten cells of the first sheet changed, from its start to its end.
fn revised(stream: &[u8]) -> Vec<u8> {
    let mut next = stream.to_vec();
    let Ok(workbook) = station::check(stream) else {
        return next;
    };
    let sheet = workbook.sheets().next();
    let cells = || {
        sheet
            .iter()
            .flat_map(|sheet| sheet.cells())
            .filter(|cell| !cell.is_blank())
    };
    let every = (cells().count() / CHANGES).max(1);
    for (number, cell) in cells().step_by(every).take(CHANGES).enumerate() {
        let (row, column) = (cell.row().into(), cell.column().into());
        let value = match cell.value() {
            Value::Number(_) => NewValue::Number(1e6 + number as f64),
            Value::Text(index) => NewValue::Text((index + 1) % workbook.strings),
            Value::Truth(truth) => NewValue::Truth(1 - truth),
            Value::Error(code) => NewValue::Error(if code == 0x2A { 0x17 } else { 0x2A }),
            Value::Formula(FormulaResult::Number(_)) => {
                next[cell.field() + 4] ^= 1;
                continue;
            }
            _ => continue,
        };
        let granted = station::correct(&mut next, 0, row, column, value);
        granted.expect("a cell that takes it");
    }
    next
}

/// Two revisions, the best of some turns: whether all told the same, and how long the library took.
fn run_revisions(kind: Big) -> (bool, f64) {
    let first = streams::big(kind, BYTES);
    let second = revised(&first);
    let mut best = [f64::INFINITY; 3];
    let mut told = [None, None, None];
    for turn in 0..TURNS {
        told[0] = time(&mut best[0], || ours(&first, &second));
        told[1] = time(&mut best[1], || plain::compare(&first, &second));
        if turn < 2 {
            told[2] = time(&mut best[2], || theirs(&first, &second));
        }
    }
    let same = told[0].is_some() && told[0] == told[1] && told[0] == told[2];
    let [ours, plain, reader] = best;
    println!(
        "{kind:?}: {} differences, {ours:.1} ms against {plain:.1} ms, ratio {:.2}; the second reader {reader:.1} ms{}",
        told[0].as_ref().map_or(0, Vec::len),
        ours / plain,
        if same { "" } else { ": THE ANSWERS DIFFER" },
    );
    (same, ours)
}

/// The first size at which two streams that are dear to compare take over ten seconds, or the largest; the plain compare goes as far as half a second takes it. `mixed` is what a
/// mixed stream of `BYTES` takes.
fn run_hostile(kind: Hostile, mixed: f64) -> bool {
    let mut bytes = BYTES >> 10;
    let mut same = true;
    let mut plain = (0, 0.0);
    loop {
        let (first, second) = streams::hostile(kind, bytes);
        let mut took = f64::INFINITY;
        let told = time(&mut took, || ours(&first, &second));
        if plain.1 < 500.0 {
            plain = (bytes, f64::INFINITY);
            same &=
                told.is_some() && told == time(&mut plain.1, || plain::compare(&first, &second));
        }
        if took > 1e4 || bytes == BYTES {
            println!(
                "{kind:?}: {bytes} bytes each, {took:.1} ms, {:.0} times the mixed stream; plain {:.1} ms for {} bytes{}",
                took / (mixed * bytes as f64 / BYTES as f64),
                plain.1,
                plain.0,
                if same { "" } else { ": THE ANSWERS DIFFER" },
            );
            return same;
        }
        bytes *= 2;
    }
}

pub fn run() -> bool {
    let mut same = true;
    let mut mixed = f64::INFINITY;
    for kind in Big::ALL {
        let (agreed, took) = run_revisions(kind);
        same &= agreed;
        if kind == Big::Mixed {
            mixed = took;
        }
    }
    for kind in Hostile::ALL {
        same &= run_hostile(kind, mixed);
    }
    same
}
