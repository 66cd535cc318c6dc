//! Two revisions of a workbook compared.

use crate::{raw, settled, Refusal};
use std::fmt;
use std::iter::FusedIterator;

/// One of the two streams that are compared.
#[derive(Clone, Copy, Debug, PartialEq, Eq, Hash)]
pub enum Side {
    /// The first.
    First,
    /// The second.
    Second,
}

/// `first` or `second`.
impl fmt::Display for Side {
    fn fmt(&self, f: &mut fmt::Formatter<'_>) -> fmt::Result {
        f.write_str(match self {
            Side::First => "first",
            Side::Second => "second",
        })
    }
}

/// A refusal of one of two streams, and which of them it is. Shown, it says so: `the second stream: refused 5 at 20: the workbook is encrypted`.
#[derive(Clone, Copy, Debug, PartialEq, Eq)]
pub struct SideRefused {
    /// The stream that is refused.
    pub side: Side,
    /// Why, and where in that stream.
    pub refusal: Refusal,
}

impl SideRefused {
    /// The bare line, for machines: `refused 5 at 20 of second`.
    pub fn line(&self) -> String {
        format!("{} of {}", self.refusal.line(), self.side)
    }
}

impl fmt::Display for SideRefused {
    fn fmt(&self, f: &mut fmt::Formatter<'_>) -> fmt::Result {
        write!(f, "the {} stream: {}", self.side, self.refusal)
    }
}

impl std::error::Error for SideRefused {}

/// One difference between two streams.
#[derive(Clone, Copy, Debug, PartialEq, Eq, Hash)]
pub struct Difference {
    /// The number of the sheet.
    pub sheet: u32,
    /// What differs, and where in that sheet.
    pub kind: DifferenceKind,
}

/// What differs in a sheet.
#[derive(Clone, Copy, Debug, PartialEq, Eq, Hash)]
pub enum DifferenceKind {
    /// Both have the sheet, under different names.
    Name,
    /// Only the first has a cell here.
    First {
        /// Its row, from 0.
        row: u16,
        /// Its column, from 0 to 255.
        column: u16,
    },
    /// Only the second has a cell here.
    Second {
        /// Its row, from 0.
        row: u16,
        /// Its column, from 0 to 255.
        column: u16,
    },
    /// Both have a cell here, and their values are unequal.
    Unequal {
        /// Its row, from 0.
        row: u16,
        /// Its column, from 0 to 255.
        column: u16,
    },
}

impl DifferenceKind {
    /// Its name, in a word: `name`, `first`, `second` or `unequal`.
    pub fn word(&self) -> &'static str {
        match self {
            DifferenceKind::Name => "name",
            DifferenceKind::First { .. } => "first",
            DifferenceKind::Second { .. } => "second",
            DifferenceKind::Unequal { .. } => "unequal",
        }
    }

    /// Row and column of the cell; none where it is the names that differ.
    pub fn address(&self) -> Option<(u16, u16)> {
        match *self {
            DifferenceKind::Name => None,
            DifferenceKind::First { row, column }
            | DifferenceKind::Second { row, column }
            | DifferenceKind::Unequal { row, column } => Some((row, column)),
        }
    }
}

impl Difference {
    /// What one of the words of [`compare_from`] says: from the lowest bit on 2 bits of kind, 16 of column, 16 of row, one that is set for a cell, and the sheet's
    /// number.
    pub fn from_word(word: u64) -> Self {
        let (row, column) = ((word >> 18) as u16, (word >> 2) as u16);
        Difference {
            sheet: (word >> 35) as u32,
            kind: match word & 3 {
                0 => DifferenceKind::Name,
                1 => DifferenceKind::First { row, column },
                2 => DifferenceKind::Second { row, column },
                _ => DifferenceKind::Unequal { row, column },
            },
        }
    }
}

/// A line for machines: `name SHEET`, or `first`, `second` or `unequal` with sheet, row and column.
impl fmt::Display for Difference {
    fn fmt(&self, f: &mut fmt::Formatter<'_>) -> fmt::Result {
        write!(f, "{} {}", self.kind.word(), self.sheet)?;
        match self.kind.address() {
            Some((row, column)) => write!(f, " {row} {column}"),
            None => Ok(()),
        }
    }
}

/// How far one call of [`compare_from`] came.
#[derive(Clone, Copy, Debug, PartialEq, Eq)]
pub struct Listed {
    /// How many words it put at the front of those lent.
    pub words: usize,
    /// Whether there are more differences than these.
    pub more: bool,
}

/// Puts the differences of two streams at the front of the words, one each, as many as there is room for: those from a key on, in ascending order. A word's key is
/// `word / 4`; from 0 on there are all of them, and where there are more, they go on from the last key plus 1. [`Difference::from_word`] says what a word
/// means.
///
/// Each call checks both streams and compares them anew up to the last word that it gives, so lend thousands. [`compare`] does that.
pub fn compare_from(
    first: &[u8],
    second: &[u8],
    from: u64,
    words: &mut [u64],
) -> Result<Listed, SideRefused> {
    // SAFETY: the slices are valid for their lengths, and the words are lent to this call alone.
    let answer = unsafe {
        raw::station_compare(
            first.as_ptr(),
            first.len(),
            second.as_ptr(),
            second.len(),
            from,
            words.as_mut_ptr(),
            words.len(),
        )
    };
    let side = match answer.which {
        2 => Side::Second,
        _ => Side::First,
    };
    settled(answer.number, answer.offset).map_err(|refusal| SideRefused { side, refusal })?;
    Ok(Listed {
        words: answer.words,
        more: answer.more,
    })
}

/// How many words are lent at first, and at most: each call compares anew, so that many differences are to take few calls.
const FEW: usize = 1 << 12;
const MANY: usize = 1 << 20;

/// The differences of two streams: by sheet, in a sheet the names first, then the cells by row and column. They are taken from the library a batch at a time.
#[derive(Clone, Debug)]
pub struct Differences<'a> {
    first: &'a [u8],
    second: &'a [u8],
    words: Vec<u64>,
    next: usize,
    filled: usize,
    more: bool,
}

/// Compares two streams: the sheets of one number, their names, and their cells address by address. Names and texts are compared by characters, numbers by
/// their 64 bits, formulas by their results; a formula never equals a plain value. A sheet that only one stream has is there with all its cells.
///
/// The check's refusals come for the first stream before the second; then 16 where an address has two cells in a sheet of the first, then of the second.
///
/// ```
/// use station::{DifferenceKind, NewValue};
///
/// let first = std::fs::read("../../cases/cells.in").expect("a workbook stream");
/// let mut second = first.clone();
/// station::correct(&mut second, 0, 0, 1, NewValue::Number(2.5)).expect("a cell");
///
/// let mut differences = station::compare(&first, &second)?;
/// let difference = differences.next().expect("one difference");
/// assert_eq!(difference.sheet, 0);
/// assert_eq!(difference.kind, DifferenceKind::Unequal { row: 0, column: 1 });
/// assert_eq!(difference.to_string(), "unequal 0 0 1");
/// assert!(differences.next().is_none());
///
/// assert!(station::compare(&first, &first)?.next().is_none());
///
/// let refused = station::compare(&first, &[]).expect_err("an empty stream");
/// assert_eq!(refused.side, station::Side::Second);
/// assert_eq!(refused.line(), "refused 3 at 0 of second");
/// # Ok::<(), station::SideRefused>(())
/// ```
pub fn compare<'a>(first: &'a [u8], second: &'a [u8]) -> Result<Differences<'a>, SideRefused> {
    let mut differences = Differences {
        first,
        second,
        words: vec![0; FEW],
        next: 0,
        filled: 0,
        more: false,
    };
    differences.fill(0)?;
    Ok(differences)
}

impl Differences<'_> {
    /// The next batch, from a key on.
    fn fill(&mut self, from: u64) -> Result<(), SideRefused> {
        let listed = compare_from(self.first, self.second, from, &mut self.words)?;
        self.next = 0;
        self.filled = listed.words;
        self.more = listed.more;
        Ok(())
    }

    /// A larger batch, after the last word.
    fn go_on(&mut self) {
        let from = self.words[self.filled - 1] / 4 + 1;
        let larger = (self.words.len() * 8).min(MANY);
        self.words.resize(larger, 0);
        let gone_on = self.fill(from);
        gone_on.expect("streams that were compared before");
    }
}

impl Iterator for Differences<'_> {
    type Item = Difference;

    fn next(&mut self) -> Option<Difference> {
        if self.next == self.filled {
            if !self.more {
                return None;
            }
            self.go_on();
        }
        let word = *self.words[..self.filled].get(self.next)?;
        self.next += 1;
        Some(Difference::from_word(word))
    }
}

impl FusedIterator for Differences<'_> {}
