//! Streams to compare: two revisions of one workbook, each written in its own
//! way, so that what is equal seldom has equal bytes; right ones, ones with an
//! address twice, and damaged ones.

mod revision;
mod spelling;

use crate::damage;
use crate::record::Book;
use crate::rng::Rng;
use crate::workbook;
use revision::Revision;
use spelling::Order;

/// Where two revisions differ.
#[derive(Clone, Copy, Debug, PartialEq, Eq)]
pub enum Apart {
    /// The names of a sheet of this number.
    Name(u32),
    /// Only the first has a cell at this sheet, row and column.
    First(u32, u16, u16),
    /// Only the second has one.
    Second(u32, u16, u16),
    /// Both have one, with unequal values.
    Unequal(u32, u16, u16),
}

/// Two revisions of a workbook that break no rule, and where they differ, by
/// sheet, row and column.
#[derive(Clone, Debug, PartialEq, Eq)]
pub struct Revisions {
    /// The first stream.
    pub first: Vec<u8>,
    /// The second stream.
    pub second: Vec<u8>,
    /// All differences between them.
    pub differences: Vec<Apart>,
}

pub(crate) fn valid(rng: &mut Rng) -> Revisions {
    let [first, second] = two(rng);
    let written = [&first, &second].map(|revision| book(rng, revision).write());
    let differences = first.differences(&second);
    let [first, second] = written;
    Revisions {
        first,
        second,
        differences,
    }
}

/// Two streams of any sort.
pub(crate) fn any(rng: &mut Rng) -> (Vec<u8>, Vec<u8>) {
    match rng.below(100) {
        0..=49 => {
            let made = valid(rng);
            (made.first, made.second)
        }
        50..=59 => twice(rng),
        60..=83 => damaged(rng),
        84..=89 => {
            let stream = workbook::valid(rng, false).0.write();
            (stream.clone(), changed(rng, stream))
        }
        90..=95 => {
            let stream = crate::stream(rng.next());
            (stream.clone(), stream)
        }
        _ => (crate::stream(rng.next()), crate::stream(rng.next())),
    }
}

/// A revision, and the next.
fn two(rng: &mut Rng) -> [Revision; 2] {
    let first = Revision::make(rng);
    let mut second = first.clone();
    for _ in 0..rng.pick(&[0, 0, 1, 1, 1, 3, 10, 30]) {
        second.change(rng);
    }
    [first, second]
}

fn book(rng: &mut Rng, revision: &Revision) -> Book {
    let order = rng.pick(&[
        Order::Ascending,
        Order::Ascending,
        Order::Ascending,
        Order::RowsReversed,
        Order::Any,
    ]);
    spelling::write(rng, revision, order)
}

/// One of them, or both, with an address twice in some sheet.
fn twice(rng: &mut Rng) -> (Vec<u8>, Vec<u8>) {
    let mut revisions = two(rng);
    let [first, second] = rng.pick(&[[true, false], [false, true], [true, true]]);
    for (revision, wanted) in revisions.iter_mut().zip([first, second]) {
        if wanted {
            revision.repeat_address(rng);
        }
    }
    let [first, second] = revisions.map(|revision| book(rng, &revision).write());
    (first, second)
}

/// One of them, or both, damaged.
fn damaged(rng: &mut Rng) -> (Vec<u8>, Vec<u8>) {
    let [first, second] = two(rng).map(|revision| book(rng, &revision));
    match rng.below(10) {
        0..=2 => (damage::damaged(rng, first), second.write()),
        3..=8 => (first.write(), damage::damaged(rng, second)),
        _ => (damage::damaged(rng, first), damage::damaged(rng, second)),
    }
}

/// The same bytes but for one.
fn changed(rng: &mut Rng, mut stream: Vec<u8>) -> Vec<u8> {
    let at = rng.below(stream.len());
    stream[at] ^= 1 << rng.below(8);
    stream
}
