//! The three that are measured, each with a check of the whole stream and a listing of its first sheet, where the made streams have their cells:
//!
//! - ours: the proved library, by its layer for Rust, which takes the cells in words, a batch at a time;
//! - plain: a lister in plain safe Rust with the same checks, which puts the same words into a buffer of the same size;
//! - joined: the second reader, whose taker is compiled into its reading, so that no word of a cell need be stored.

use crate::plain;
use second_reader::{FormulaResult, Value};

/// What a listing comes to: every word of each cell counts, so that none can leave one out. Only the kind of its value doesn't, which the joined
/// reader has in another form.
fn with(sum: u64, [head, bits, field, sizes]: [u64; 4]) -> u64 {
    sum.rotate_left(5) ^ (head << 16) ^ bits ^ field ^ (sizes << 32)
}

/// 0 where there is no such sheet.
pub fn list_ours(stream: &[u8]) -> u64 {
    station::cells(stream, 0).map_or(0, |cells| {
        cells.fold(0, |sum, cell| with(sum, cell.words()))
    })
}

pub fn list_plain(stream: &[u8]) -> u64 {
    let mut sum = 0;
    let mut words = [[0; 4]; station::BATCH];
    let mut place = plain::start(stream, 0);
    while let Some(from) = place {
        let filled = plain::fill(stream, from, &mut words);
        sum = words[..filled.cells].iter().copied().fold(sum, with);
        place = filled.next;
    }
    sum
}

pub fn list_joined(stream: &[u8]) -> u64 {
    let mut sum = 0;
    let listed = second_reader::list_cells(stream, 0, |cell| {
        let bits = match cell.value {
            Value::Number(bits) | Value::Formula(FormulaResult::Number(bits)) => bits,
            Value::Text(index) => index.into(),
            Value::Truth(byte) | Value::Error(byte) => byte.into(),
            Value::Formula(FormulaResult::Truth(byte) | FormulaResult::Error(byte)) => byte.into(),
            Value::Blank | Value::Formula(FormulaResult::Text | FormulaResult::Empty) => 0,
        };
        let [row, column, format] = [cell.row, cell.column, cell.format].map(u64::from);
        let sizes = cell.tokens.len() | cell.trailing.len() << 16;
        let field = cell.value_field.start as u64;
        let head = row | column << 16 | format << 32;
        sum = with(sum, [head, bits, field, sizes as u64]);
    });
    listed.map_or(0, |()| sum)
}

/// Whether the stream passes.
pub fn check_ours(stream: &[u8]) -> u64 {
    station::check(stream).is_ok().into()
}

/// The check of the two others.
pub fn check_plain(stream: &[u8]) -> u64 {
    second_reader::check(stream).is_ok().into()
}

#[cfg(test)]
mod tests {
    use super::*;
    use streams::Big;

    /// All of a sheet's cells, in words, by the plain lister.
    fn words(stream: &[u8]) -> Vec<plain::Words> {
        let mut all = Vec::new();
        let mut batch = [[0; 4]; 7];
        let mut place = plain::start(stream, 0);
        while let Some(from) = place {
            let filled = plain::fill(stream, from, &mut batch);
            all.extend(&batch[..filled.cells]);
            place = filled.next;
        }
        all
    }

    #[test]
    fn the_plain_lister_gives_the_same_words() {
        for kind in Big::ALL {
            let stream = streams::big(kind, 100_000);
            let ours = station::cells(&stream, 0).expect("a stream that passes");
            let ours: Vec<_> = ours.map(|cell| cell.words()).collect();
            assert_eq!(words(&stream), ours, "{kind:?}");
        }
    }

    #[test]
    fn all_three_come_to_the_same() {
        for kind in Big::ALL {
            let stream = streams::big(kind, 100_000);
            let sum = list_ours(&stream);
            assert_eq!(list_plain(&stream), sum, "{kind:?}");
            assert_eq!(list_joined(&stream), sum, "{kind:?}");
        }
    }
}
